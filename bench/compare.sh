#!/usr/bin/env bash
# Times the proved reader and writer beside a plain Rust one, on a class file of nearly 1 MiB.
set -eu
. "$(dirname "$0")/prepare.sh"
prepare class_bench
rounds=${1:-100}
rustc --edition 2024 -O -o "$folder/plain" "$here/plain.rs"
python3 "$here/large_class.py" "$folder/large.class" > /dev/null
for command in "$folder/plain" "$program"; do
  start=$(date +%s%N)
  said=$("$command" "$folder/large.class" "$rounds" 2> /dev/null)
  end=$(date +%s%N)
  # One that refuses the file at once would look fast.
  case $said in
    *"the same"*) echo "$(basename "$command"): $(((end - start) / rounds / 1000)) microseconds a round" ;;
    *) echo "$(basename "$command"): $said" >&2; exit 1 ;;
  esac
done
