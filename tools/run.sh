#!/usr/bin/env bash
# Runs a proved program of this repository: crates/NAME/out/NAME, as `rt run` in crates/NAME or `rt ci` built it.
#   tools/run.sh NAME [ARGUMENT..]      standard input and output are the program's
set -u
root=$(cd "$(dirname "$0")/.." && pwd -P)
name=${1:?usage: tools/run.sh NAME [ARGUMENT..]}
shift
program=$root/crates/$name/out/$name
[ -x "$program" ] || { echo "tools/run.sh: there is no $program: 'rt run </dev/null' in crates/$name makes it" >&2; exit 1; }
exec "$program" "$@"
