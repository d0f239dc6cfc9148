#!/usr/bin/env bash
# Times linking the worlds that `worlds.py` makes, of each shape at sizes that double, beside loading
# their classes. It prints milliseconds of the processor, of the least of five runs: once loading, and
# a linking without it.
set -u
. "$(dirname "$0")/prepare.sh"
prepare link_bench
links=${1:-5}
# The milliseconds that loading a world and so many linkings take.
linked() {
  processor_milliseconds "$program" "$1" manifest
  grep -q '^ok ' "$folder/said" || { cat "$folder/said" >&2; exit 1; }
}
time_of() {
  local load link world=$folder/$1-$2
  python3 "$here/worlds.py" "$1" "$2" "$world" > /dev/null
  cd "$world" || exit 1
  load=$(linked 0) && link=$(linked "$links") || exit 1
  echo "$1 $2, $(cat ./* | wc -c) bytes: loaded in $load ms, linked in $(((link - load) / links)) ms"
}
for shape in pools chain lattice; do
  for count in 256 512 1024; do time_of "$shape" "$count"; done
done
for shape in methods finals; do
  for count in 256 512 960; do time_of "$shape" "$count"; done
done
for count in 4 8 16; do time_of fields "$count"; done
for count in 16000 32000 64000; do time_of interfaces "$count"; done
