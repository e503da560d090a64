#!/usr/bin/env bash
# Builds the harness, target/harness/harness: with our library where rustc makes programs of this machine, so that it can be called in the same process; without it where not.
#   harness/build.sh [apart]      apart: without it in any case
# It needs rustc (1.63 or later, no crates) and the C compiler that rustc links with. The last line says which of the two was built.
set -u
cd "$(dirname "$0")/.." || exit 1
command -v rustc >/dev/null || { echo "harness/build.sh: rustc is not on the path" >&2; exit 1; }
mkdir -p target/harness || exit 1
machine=$(uname -m)

compile() { # WORD..
    rustc --edition 2021 -C opt-level=3 -D warnings --crate-name harness harness/src/main.rs -o target/harness/harness "$@"
}

# The functions that the header has are those of the library: `wagonmoth_replay_tested` is called where it is there.
compile_joined() {
    local words=(--cfg ours)
    if grep -q 'wagonmoth_replay_tested(' include/wagonmoth.h; then words+=(--cfg tested); fi
    tools/build-c.sh -l && compile "${words[@]}" -L "native=target/c/$machine" -l static=wagonmoth
}

made_for=$(rustc -vV | sed -n 's/^host: //p')
case ${1:-}:$made_for in
:"$machine"-*-linux-*) compile_joined && echo "built with our library" ;;
*) compile && echo "built without our library" ;;
esac
