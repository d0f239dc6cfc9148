#!/usr/bin/env bash
# Times making objects on the plain heap and collecting it, at three sizes. It prints nanoseconds an
# object, of the least of five runs: what it takes to open the heap and to fill it, and to ask whether a
# collection can follow all, is taken off, so that it doesn't count.
set -u
. "$(dirname "$0")/prepare.sh"
prepare heap_bench
rounds=${1:-20}
each() {
  echo $(($1 * 1000000 / (rounds * count)))
}
for count in 100000 200000 400000; do
  open=$(processor_milliseconds "$program" open "$count" 0)
  alloc=$(processor_milliseconds "$program" alloc "$count" "$rounds")
  filled=$(processor_milliseconds "$program" check "$count" 0)
  check=$(processor_milliseconds "$program" check "$count" "$rounds")
  collect=$(processor_milliseconds "$program" collect "$count" "$rounds")
  check=$((check - filled))
  echo "$count objects: alloc $(each $((alloc - open - check))), collect $(each $((collect - filled - check))), check $(each "$check") nanoseconds"
done
