# Sourced by the scripts here: `prepare CRATE` sets `program`, the program of that crate, or another one
# that is given after it, and `folder`, which goes when the script ends.
here=$(cd "$(dirname "$0")" && pwd)
prepare() {
  program=${2:-$here/../crates/$1/out/$1}
  [ -x "$program" ] || { echo "$(basename "$0" .sh): crates/$1 isn't built yet: rt ci, or rt run there" >&2; exit 1; }
  program=$(realpath "$program")
  folder=$(mktemp -d)
  trap 'rm -rf "$folder"' EXIT
}
# The class files of the folders and jars that are given, each name ended by a zero byte.
class_files() {
  local place into
  for place in "$@"; do
    if [ -d "$place" ]; then
      find "$place" -name '*.class' -print0
    else
      into=$folder/$(basename "$place")
      mkdir -p "$into" && unzip -qo "$place" '*.class' -d "$into" 2> /dev/null
      find "$into" -name '*.class' -print0
    fi
  done
}
# Compiles each program in `programs` by `javac --release 8` and another word, into a folder of its own in
# the folder `classes`.
compile_programs() {
  local source
  for source in "$here"/programs/*.java; do
    javac --release 8 "$1" -d "$folder/classes/$(basename "$source" .java)" "$source" || exit 1
  done
}
# The milliseconds that a command takes as a whole process, the least of five runs. What it said is in
# the file `said` of the folder.
milliseconds() {
  local least= from to took
  for _ in 1 2 3 4 5; do
    from=$(date +%s%N)
    "$@" > "$folder/said" || exit 1
    to=$(date +%s%N)
    took=$(((to - from) / 1000000))
    if [ -z "$least" ] || [ "$took" -lt "$least" ]; then least=$took; fi
  done
  echo "$least"
}
# The same of the time that the processor took for it.
processor_milliseconds() {
  local least= user system took TIMEFORMAT='%3U %3S'
  for _ in 1 2 3 4 5; do
    read -r user system < <({ time "$@" > "$folder/said"; } 2>&1)
    took=$((10#${user/./} + 10#${system/./}))
    if [ -z "$least" ] || [ "$took" -lt "$least" ]; then least=$took; fi
  done
  echo "$least"
}
