# Sourced by the tests that run the program over a library which fails: as program.sh, and `$room` is an empty folder with that library,
# fail.so, made of fail.c in the folder of the test's name. It goes when the test ends. Where there is no C compiler the test isn't run.
. "$(dirname "${BASH_SOURCE[0]}")/program.sh"
name=$(basename "${BASH_SOURCE[1]}" .sh)
if ! command -v cc >/dev/null; then
  echo "$name: not run, there is no cc"
  exit 0
fi
room=$(mktemp -d)
trap 'rm -rf "$room"' EXIT
cc -O1 -shared -fPIC -o "$room/fail.so" "$top/tests/$name/fail.c" -ldl
