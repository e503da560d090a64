#!/usr/bin/env bash
# Ours beside the Rust replay: equal texts first, then times, then instructions. A measurement and no test: nothing fails for being slow.
set -u

usage() {
    cat <<'END'
harness/measure.sh [-h] [-x] [-s SEED] [-c COUNT] [FILE..]

Builds our library and the harness, compares both sides on every vector and on the random schedules of COUNT seeds from SEED on (default 1 and 2000), and prints
  - the processor time of both, replay against replay, and tested step against tested step where include/wagonmoth.h has wagonmoth_replay_tested;
  - the instructions of both for each FILE and for the schedules of 200 seeds together, where valgrind is found.
Default FILEs: r17-events, r16-rows, p09-invoke-at-505 of vectors/.

  -x   under an emulator of x86-64, where there is no valgrind: no times; instructions by harness/count.c.
       RUSTC_X86_64 is a command that compiles Rust for x86-64 and links it, QEMU_X86_64 an emulator with plugins that runs the result; harness/README.md has an example
END
}

die() {
    printf 'harness/measure.sh: %s\n' "$*" >&2
    exit 1
}

cd "$(dirname "$0")/.." || exit 1
emulated=0 seed=1 count=2000 counted=200
while getopts hxs:c: option; do
    case $option in
    h) usage; exit 0 ;;
    x) emulated=1 ;;
    s) seed=$OPTARG ;;
    c) count=$OPTARG ;;
    *) usage >&2; exit 2 ;;
    esac
done
shift $((OPTIND - 1))
[ $# -gt 0 ] || set -- vectors/r17-events.schedule vectors/r16-rows.schedule vectors/p09-invoke-at-505.schedule
work=$(mktemp -d) || exit 1
trap 'rm -rf "$work"' EXIT

tested=0
if grep -q 'wagonmoth_replay_tested(' include/wagonmoth.h; then tested=1; fi

if [ "$emulated" = 1 ]; then
    harness="${QEMU_X86_64:?usage: see harness/measure.sh -h} target/harness/harness-x86_64"
    counter="$QEMU_X86_64 -plugin $work/libcount.so target/harness/harness-x86_64"
    words=(--cfg ours)
    if [ "$tested" = 1 ]; then words+=(--cfg tested); fi
    mkdir -p target/harness
    tools/build-c.sh -l && cc -O2 -shared -fPIC harness/count.c -o "$work/libcount.so" &&
        ${RUSTC_X86_64:?usage: see harness/measure.sh -h} --edition 2021 -C opt-level=3 --crate-name harness harness/src/main.rs -o target/harness/harness-x86_64 \
            "${words[@]}" -L native=target/c/x86_64 -l static=wagonmoth || die "the harness is not built"
else
    harness=target/harness/harness
    counter="valgrind --tool=callgrind --callgrind-out-file=/dev/null $harness"
    [ "$(harness/build.sh | tail -n 1)" = "built with our library" ] || die "the harness is not built with our library"
fi

$harness vectors vectors/*.schedule examples/*.schedule || die "a vector differs"
$harness equal "$seed" "$count" || die "a schedule differs"
if [ "$emulated" = 0 ]; then $harness time "$seed" "$count" "$@" || die "the times are not measured"; fi

# ---- instructions

# Of one replay of all FILEs: those of three replays less those of one, so that the start of the process and the reading of the files do not count.
instructions() { # SIDE FILE..
    local side=$1 times said=()
    shift
    for times in 1 3; do
        said+=("$($counter again "$side" "$times" "$@" 2>&1 | sed -n 's/.*Collected : \([0-9]*\)$/\1/p; s/^instructions \([0-9]*\)$/\1/p')")
    done
    echo $(((said[1] - said[0]) / 2))
}

tell() { # NAME SUFFIX FILE..
    local name=$1 suffix=$2 ours rust
    shift 2
    ours=$(instructions "ours$suffix" "$@")
    rust=$(instructions "rust$suffix" "$@")
    awk -v name="$name$suffix" -v o="$ours" -v r="$rust" 'BEGIN { printf "%-28s %14d %14d %10.2f\n", name, o, r, o / r }'
}

command -v "${counter%% *}" >/dev/null || { echo "no ${counter%% *}: instructions are not counted"; exit 0; }
$harness write "$seed" "$work" "$counted" || die "the schedules are not written"
printf '%-28s %14s %14s %10s\n' 'instructions of one replay' ours rust ours/rust
suffixes=("")
if [ "$tested" = 1 ]; then suffixes+=(-tested); fi
for suffix in "${suffixes[@]}"; do
    for file; do tell "$(basename "$file" .schedule)" "$suffix" "$file"; done
    tell "$counted seeds from $seed" "$suffix" "$work"/*.schedule
done
