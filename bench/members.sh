#!/usr/bin/env bash
# Compares the members that linking finds with those that the order of look-up says (JVMS 5.4.3.2 to
# 5.4.3.4), and that the JVM itself finds, for each member reference of worlds that `javac` writes.
# A world is a file of members/. Where a second file, `.later.java`, stands beside it, its classes
# are compiled after the others and take the place of those of their names. It prints a line for each.
# LINK_BENCH is a program in place of crates/link_bench's.
set -u
. "$(dirname "$0")/prepare.sh"
prepare link_bench "${LINK_BENCH:-}"
javac -d "$folder/tool" "$here/Members.java" || exit 1
status=0
for source in "$here"/members/*.java; do
  case $source in *.later.java) continue ;; esac
  name=$(basename "$source" .java)
  world=$folder/$name
  mkdir "$world"
  javac --release 8 -Xlint:-options -d "$world" "$source" || exit 1
  later=${source%.java}.later.java
  if [ -f "$later" ]; then
    javac --release 8 -Xlint:-options -cp "$world" -d "$world" "$later" || exit 1
  fi
  cd "$world" || exit 1
  {
    echo "jvolve 1"
    echo "main Main"
    for file in *.class; do echo "class ${file%.class} $file"; done
  } > manifest
  javap -v -p ./*.class > "$folder/javap" || exit 1
  "$program" 1 members manifest > "$folder/found" || exit 1
  if grep '^jvolve: ' "$folder/found" >&2; then exit 1; fi
  java -cp "$folder/tool:$world" Members "$name" "$folder/javap" "$folder/found" || status=1
done
exit "$status"
