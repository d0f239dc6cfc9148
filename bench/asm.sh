#!/usr/bin/env bash
# Times assembling the texts that `texts.py` makes, of each shape at sizes that double, beside reading
# the class file that comes of it. It prints milliseconds of the processor, of the least of five runs.
set -u
. "$(dirname "$0")/prepare.sh"
prepare code_bench
reader=$program
program=$here/../crates/jvolve_main/out/jvolve_main
[ -x "$program" ] || { echo "asm: crates/jvolve_main isn't built yet: rt ci, or rt run there" >&2; exit 1; }
reads=200
time_of() {
  local took first read
  python3 "$here/texts.py" "$1" "$2" "$folder/text"
  took=$(processor_milliseconds "$program" asm "$folder/text") || exit 1
  # Behind the class file stands the status line, `jvolve: 0 finished`.
  head -c -19 "$folder/said" > "$folder/made.class"
  first=$(processor_milliseconds "$reader" "$folder/made.class" 0 0) || exit 1
  read=$(processor_milliseconds "$reader" "$folder/made.class" "$reads" 0) || exit 1
  echo "$1, $(stat -c %s "$folder/text") bytes: assembled in $took ms," \
    "$(stat -c %s "$folder/made.class") bytes of class file read in $(((read - first) * 1000 / reads)) microseconds"
}
for shape in lines labels entries; do
  for size in 262144 524288 1040000; do time_of "$shape" "$size"; done
done
