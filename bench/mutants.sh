#!/usr/bin/env bash
# Compares what `jvolve check` says of mutants of the class files of the programs in `programs` with what
# HotSpot's verifier says of them: mutants.sh [COUNT [KEPT]]
# It counts the kinds of answers. Of a kind that no rule explains the smallest mutant is put into the
# folder KEPT, which must not be there yet, and then the script fails.
# JVOLVE is a program in place of crates/jvolve_main's.
set -u
. "$(dirname "$0")/prepare.sh"
prepare jvolve_main "${JVOLVE:-}"
count=${1:-20000}
kept=${2:-${TMPDIR:-/tmp}/mutants-$$}
compile_programs -g:none
javac -d "$folder/java" "$here/Verify.java" || exit 1
python3 "$here/mutants.py" "$count" "$folder" || exit 1
(cd "$folder" && java -Xverify:all -cp java Verify programs > hotspot) || exit 1
python3 "$here/verdicts.py" "$program" "$folder" "$kept"
