#!/usr/bin/env bash
# Times the local steps of a loop beside a plain Rust interpreter of the same instructions and beside
# `java -Xint`. It prints nanoseconds a step, of the least of five runs: for each program the time of a
# short loop is taken off, so that what it takes to start doesn't count.
set -u
. "$(dirname "$0")/prepare.sh"
prepare local_bench
count=${1:-10000000}
short=1000
rustc --edition 2024 -O -o "$folder/plain" "$here/plain_steps.rs"
javac -d "$folder" "$here/Steps.java"
steps() {
  local name=$1 whole start
  shift
  start=$(milliseconds "$@" "$short")
  whole=$(milliseconds "$@" "$count")
  # All of them have to say the same.
  said=$(cat "$folder/said")
  if [ -z "${wanted:=$said}" ] || [ "$said" != "$wanted" ]; then
    echo "$name: $said, and not $wanted" >&2
    exit 1
  fi
  echo "$name: $(((whole - start) * 1000 / (8 * (count / 1000)))) nanoseconds a step"
}
steps local_bench "$program"
steps plain "$folder/plain"
steps java java -Xint -cp "$folder" Steps
