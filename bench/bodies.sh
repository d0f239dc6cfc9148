#!/usr/bin/env bash
# Loads every class file of major versions 51 and 52 of the folders and jars that are given, and
# compares the instructions of those that are loaded with those that `javap -c -p` prints. It counts
# them, and those that are refused for what the machine leaves out.
set -u
. "$(dirname "$0")/prepare.sh"
prepare code_bench
class_files "$@" | python3 "$here/bodies.py" "$program"
