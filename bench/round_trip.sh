#!/usr/bin/env bash
# Reads and writes every class file of the folders and jars that are given, and counts those that come
# back as the same bytes. Files of another major version than 51 and 52 are refused as such.
set -u
. "$(dirname "$0")/prepare.sh"
prepare class_bench
same=0 version=0 failed=0
while IFS= read -r -d '' file; do
  size=$(stat -c %s "$file")
  case $("$program" "$file" 1) in
    *": the same $size bytes") same=$((same + 1)) ;;
    *": Read(Version "*) version=$((version + 1)) ;;
    *) failed=$((failed + 1)); echo "not the same: $file" ;;
  esac
done < <(class_files "$@")
echo "$same the same, $version of another version, $failed not the same"
[ "$failed" -eq 0 ]
