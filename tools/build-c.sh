#!/usr/bin/env bash
# The C interface, built and tried: the static archive, a shared library, and the example host, which replays every vector. Header: include/wagonmoth.h; example: examples/host.c.
set -u

usage() {
    cat <<'END'
tools/build-c.sh [-h] [-l]

Proves the crate capi_c and builds, under target/c/MACHINE/, where MACHINE is what `uname -m` says:
  libwagonmoth.a    the static archive, which is what `rt lib` makes of capi_c
  libwagonmoth.so   the same as a shared library
  host, host-so     examples/host.c, linked with the one and with the other
Then host replays every schedule of vectors/ and examples/, and host-so those of examples/; text and exit status are compared. The last line is 'N passed, M failed'.

  -l   only the archive, and only if a file of crates/ has changed since it was made
  -h   this text

Exit status: 0 all built and equal; 1 not; 2 wrong words; 3 the archive is built, but there is no C compiler for the rest
END
}

die() {
    printf 'tools/build-c.sh: %s\n' "$*" >&2
    exit 1
}

library_alone=0
while getopts hl option; do
    case $option in
    h) usage; exit 0 ;;
    l) library_alone=1 ;;
    *) usage >&2; exit 2 ;;
    esac
done
cd "$(dirname "$0")/.." || exit 1
command -v rt >/dev/null || die "rt is not on the path"
built=target/c/$(uname -m)
archive=$built/libwagonmoth.a
compiler=${CC:-cc}
work=$(mktemp -d) || exit 1
trap 'rm -rf "$work"' EXIT

# ---- the archive

is_new() {
    [ -f "$archive" ] && [ -z "$(find crates crates.txt -name out -prune -o -type f -newer "$archive" -print -quit)" ]
}

build_archive() {
    rm -rf "$built" && mkdir -p "$built" || return
    (cd crates/capi_c && rt lib) >"$work/log" 2>&1 || { cat "$work/log" >&2; return 1; }
    cp crates/capi_c/out/libcapi_c.a "$archive"
}

if [ "$library_alone" = 1 ] && is_new; then exit 0; fi
build_archive || die "the archive is not built"
if [ "$library_alone" = 1 ]; then exit 0; fi
if ! command -v "$compiler" >/dev/null; then
    echo "no $compiler: nothing is linked and run; the archive is $archive"
    echo "0 passed, 0 failed"
    exit 3
fi

# ---- the shared library and the hosts

build_hosts() {
    local words=(-std=c99 -O2 -Wall -Wextra -Werror -Iinclude examples/host.c)
    "$compiler" -shared -o "$built/libwagonmoth.so" -Wl,--whole-archive "$archive" -Wl,--no-whole-archive &&
        "$compiler" "${words[@]}" "$archive" -o "$built/host" &&
        "$compiler" "${words[@]}" -L"$built" -lwagonmoth -Wl,-rpath,'$ORIGIN' -o "$built/host-so"
}

passed=0
failed=0
compare() { # PROGRAM SCHEDULE..
    local program=$1 schedule expected refused status
    shift
    for schedule; do
        expected=${schedule%.schedule}.expected
        refused=$(awk 'NR == 1 { print $NF != 0 }' "$expected")
        "$built/$program" "$schedule" >"$work/text"
        status=$?
        if [ "$status" = "$refused" ] && cmp -s "$work/text" "$expected"; then
            passed=$((passed + 1))
        else
            failed=$((failed + 1))
            echo "$program $schedule: not what $expected has, or the exit status $status is not $refused"
        fi
    done
}

if build_hosts; then
    compare host vectors/*.schedule examples/*.schedule
    compare host-so examples/*.schedule
else
    echo "the shared library or the example is not built"
    failed=$((failed + 1))
fi
echo "$passed passed, $failed failed"
[ "$failed" -eq 0 ] && [ "$passed" -gt 0 ]
