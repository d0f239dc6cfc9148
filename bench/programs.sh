#!/usr/bin/env bash
# Checks the class files that `javac --release 8` writes of the programs in `programs`, once with what is
# for debuggers and once without it, and the programs in the folders that are given, each with a file
# `manifest`: programs.sh [FOLDER ...]
# `jvolve check` has to accept them all. JVOLVE is a program in place of crates/jvolve_main's.
set -u
. "$(dirname "$0")/prepare.sh"
prepare jvolve_main "${JVOLVE:-}"
accepted=0 classes=0 failed=0
check_program() {
  local said
  said=$(cd "$1" && "$program" check manifest)
  if [[ $said == "ok "*"jvolve: 0 finished" ]]; then
    accepted=$((accepted + 1)) classes=$((classes + $(grep -c '^class ' "$1/manifest")))
  else
    failed=$((failed + 1))
    echo "not accepted: $1: $said"
  fi
}
write_manifest() {
  local file name
  printf 'jvolve 1\nmain %s\n' "$(basename "$1")"
  for file in "$1"/*.class; do
    name=$(basename "$file" .class)
    echo "class $name $name.class"
  done
}
for what in -g:none -g; do
  rm -rf "$folder/classes"
  compile_programs "$what"
  for place in "$folder"/classes/*; do
    write_manifest "$place" > "$place/manifest"
    check_program "$place"
  done
done
for place in "$@"; do check_program "$place"; done
echo "$accepted programs of $classes classes accepted, $failed programs not accepted"
[ "$failed" -eq 0 ]
