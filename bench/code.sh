#!/usr/bin/env bash
# Times reading and loading class files, a round in microseconds of processor time and without what the
# process itself takes, from the least of five runs: a file that is all code and stack maps, at three
# sizes, one with 65,535 short entries of a stack map over 4,096 locals, and the files that are given.
set -u
. "$(dirname "$0")/prepare.sh"
prepare code_bench
reads=1000 loads=20
# The milliseconds that so many reads and loads of a file take, with its first read.
rounds() {
  processor_milliseconds "$program" "$@"
  grep -q ': loaded$' "$folder/said" || { cat "$folder/said" >&2; exit 1; }
}
time_of() {
  local first read load
  first=$(rounds "$1" 0 0) && read=$(rounds "$1" "$reads" 0) && load=$(rounds "$1" 0 "$loads") || exit 1
  read=$(((read - first) * 1000 / reads)) load=$(((load - first) * 1000 / loads))
  echo "$(basename "$1"), $(stat -c %s "$1") bytes: read in $read microseconds, loaded in $load"
}
for size in 262144 524288 1048576; do
  python3 "$here/large_code.py" "$folder/code.class" "$size" > /dev/null
  time_of "$folder/code.class"
done
python3 "$here/many_frames.py" "$folder/frames.class" > /dev/null
time_of "$folder/frames.class"
for file in "$@"; do time_of "$file"; done
