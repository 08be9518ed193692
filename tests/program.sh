# Sourced by the tests of the program, which is built first where its sources changed.
set -eu
top=$(cd "$(dirname "${BASH_SOURCE[0]}")/.." && pwd)
program=$top/crates/omxrun/out/omxrun
"$top/omxrun" trace /dev/null >/dev/null || true
