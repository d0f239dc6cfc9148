#!/usr/bin/env bash
# Times reading a journal, and reading and writing it, beside `wc -l -w` over the same file, at three
# sizes. It prints milliseconds of the whole process, the least of five runs.
set -u
. "$(dirname "$0")/prepare.sh"
prepare journal_bench
for size in 16 32 64; do
  python3 "$here/journal.py" "$folder/journal" "$size"
  words=$(milliseconds wc -l -w "$folder/journal")
  read=$(milliseconds "$program" "$folder/journal" 0)
  both=$(milliseconds "$program" "$folder/journal" 1)
  echo "$size MiB: wc $words ms, read $read ms, read and written $both ms"
done
