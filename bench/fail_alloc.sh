#!/usr/bin/env bash
# Runs each command of the program over the examples and lets one allocation fail: the first, then the
# second, and so on, until ten in a row change nothing. It prints a line for each command: how many
# runs ended for want of memory, and how many of those had written nothing. Each run has to end with
# status 6, having written a front of the command's texts, or as if nothing had failed. It wants `cc`.
# JVOLVE is a program in place of crates/jvolve_main's.
set -u
. "$(dirname "$0")/prepare.sh"
prepare jvolve_main "${JVOLVE:-}"
cc -O2 -shared -fPIC -o "$folder/fail_alloc.so" "$here/fail_alloc.c" || exit 1
cp -r "$here/../examples" "$folder/examples"
# A text in a shell has no zero byte, so texts are kept as digits.
digits() { od -An -v -tx1 "$1" | tr -d ' \n'; }
refusal=$(printf 'jvolve: 6 no memory\n' | digits -)
# What a command writes to its output and to its journal, and its status.
try() {
  rm -f jvolve.journal
  FAIL_ALLOC=$1 LD_PRELOAD=$folder/fail_alloc.so "$program" "${@:2}" > "$folder/said"
  status=$?
  said=$(digits "$folder/said")
  journal=
  [ ! -e jvolve.journal ] || journal=$(digits jvolve.journal)
}
stop() {
  echo "fail_alloc: $*: allocation $number, status $status" >&2
  cat "$folder/said" >&2
  exit 1
}
fail_each() {
  local whole whole_journal front refused=0 silent=0 unchanged=0 number=0
  try 0 "$@"
  whole=$said whole_journal=$journal
  [ "$status" -eq 0 ] || stop "$@"
  while [ "$unchanged" -lt 10 ]; do
    number=$((number + 1))
    try "$number" "$@"
    if [ "$status" -eq 0 ] && [ "$said" = "$whole" ] && [ "$journal" = "$whole_journal" ]; then
      unchanged=$((unchanged + 1))
      continue
    fi
    # Where memory is short for the status line too, the exit status alone tells it.
    front=${said%"$refusal"}
    if [ "$status" -ne 6 ] || [ "$front" != "${whole:0:${#front}}" ] \
      || [ "$journal" != "${whole_journal:0:${#journal}}" ]; then stop "$@"; fi
    unchanged=0 refused=$((refused + 1))
    [ -n "$front$journal" ] || silent=$((silent + 1))
  done
  echo "$*, $((number - unchanged)) allocations: $refused runs ended for want of memory," \
    "$silent of them before anything was written"
}
cd "$folder" || exit 1
fail_each run examples/add/manifest
fail_each run examples/add/manifest-in-text
fail_each asm examples/add/Main.asm
fail_each check examples/javac/manifest
