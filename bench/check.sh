#!/usr/bin/env bash
# Times `jvolve check` of the programs that `code_programs.py` makes, of each shape at nearly 4, 8 and
# 16 MiB, and beside it the time in which `java -Xverify:all` loads and links the same classes. It prints
# milliseconds of the processor of the whole processes, of the least of five runs. Where `link_bench` is
# built it adds what loading (with reading), linking and verifying take of `check`.
# JVOLVE and LINK_BENCH are programs in place of those of the crates.
set -u
. "$(dirname "$0")/prepare.sh"
prepare jvolve_main "${JVOLVE:-}"
linker=${LINK_BENCH:-$here/../crates/link_bench/out/link_bench}
links=5
javac -d "$folder/java" "$here/Verify.java" || exit 1
# The time that a command takes which has to accept a program.
accepted() {
  if ! "$@" || ! grep -q -e '^ok ' -e '^accepted$' "$folder/said"; then
    cat "$folder/said" >&2
    exit 1
  fi
}
parts() {
  local whole=$1 load linked link
  load=$(accepted processor_milliseconds "$linker" 0 manifest) &&
    linked=$(accepted processor_milliseconds "$linker" "$links" manifest) || exit 1
  link=$(((linked - load) / links))
  echo "  loaded in $load ms, linked in $link, verified in $((whole - load - link))"
}
time_of() {
  local world=$folder/$1-$2 check java
  python3 "$here/code_programs.py" "$1" "$2" "$world" > /dev/null
  cd "$world" || exit 1
  check=$(accepted processor_milliseconds "$program" check manifest) &&
    java=$(accepted processor_milliseconds java -Xverify:all -cp "$folder/java" Verify program) || exit 1
  echo "$1, $(cat Main C* | wc -c) bytes: checked in $check ms, loaded by java in $java ms"
  if [ -x "$linker" ]; then parts "$check"; fi
  cd "$folder" && rm -r "$world"
}
for shape in loops objects handlers; do
  for size in 4 8 16; do time_of "$shape" "$size"; done
done
