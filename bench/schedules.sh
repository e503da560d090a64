#!/usr/bin/env bash
# Counts the instructions of the writer, of `compose` and of `show` beside those of the same in plain Rust (bench/schedules.rs), both compiled for the same x86-64.
# A benchmark and no test: nothing fails for being slow. It needs bash, awk, the kit, rustc, a C compiler that links and valgrind, and leaves the repository as it is.
#   bench/schedules.sh [NAME..]      files of vectors/01/ without their ending; without NAME: case-a random-001 r16-rows longest
set -u

die() {
    printf 'bench/schedules.sh: %s\n' "$*" >&2
    exit 1
}

cd "$(dirname "$0")/.." || exit 1
compose=crates/compose/out/compose show=crates/show/out/show
for program in "$compose" "$show"; do [ -x "$program" ] || die "there is no $program: run 'rt run </dev/null' in ${program%/out/*} first"; done
for tool in rt rustc "${CC:-cc}" valgrind; do command -v "$tool" >/dev/null || die "$tool is not on the path"; done
. bench/copy.sh

work=$(mktemp -d) || exit 1
trap 'rm -rf "$work"' EXIT

# ---- Rust, for the processor that the kit compiles for. It panics nowhere; what it would call then ends the program.
compile_rust() {
    local stops
    rustc --edition 2024 --crate-type lib -C opt-level=3 -C panic=abort -C codegen-units=1 -C target-cpu=x86-64-v2 --emit=obj -o "$work/rust.o" bench/schedules.rs || return
    stops=$(nm -u "$work/rust.o" | awk '$2 ~ /^_R|^_ZN|^rust_eh/ { print "-Wl,--defsym=" $2 "=stop" }')
    # shellcheck disable=SC2086
    "${CC:-cc}" "$work/rust.o" $stops -o "$work/rust"
}

# ---- ours: `compose` and `show` are the proved programs. The writer has none, so bench/write-driver.txt is proved and built over the library in a copy.
compile_write() {
    local copy=$work/copy
    copy_crates "$copy" input writing && mkdir -p "$copy/crates/write_driver/src" && cp bench/write-driver.txt "$copy/crates/write_driver/src/main.rt" || return
    echo 'write_driver: input state format writing' >>"$copy/crates.txt"
    (cd "$copy/crates/write_driver" && rt run </dev/null) && cp "$copy/crates/write_driver/out/write_driver" "$work/write"
}
compile_rust >"$work/log" 2>&1 || { cat "$work/log" >&2; die "the Rust is not compiled"; }
compile_write >"$work/log" 2>&1 || { cat "$work/log" >&2; die "the driver of the writer is not built"; }

# ---- counts

# Instructions of a whole process.
count() { # INPUT PROGRAM [ARGUMENT..]
    local input=$1
    shift
    valgrind --tool=callgrind --callgrind-out-file=/dev/null "$@" <"$input" 2>&1 >/dev/null | sed -n 's/.*Collected : //p'
}

same() { # INPUT OUTPUT PROGRAM [ARGUMENT..]
    local input=$1 output=$2
    shift 2
    "$@" <"$input" | cmp -s - "$output" || die "$* < $input: not what $output has"
}

printf 'bench 1 1\n' >"$work/none.txt"
printf '\0\0\0\3\1\1\1' >"$work/none.schedule"
empty_c=$(count "$work/none.txt" "$compose") rust_c=$(count "$work/none.txt" "$work/rust" c 1)
empty_s=$(count "$work/none.schedule" "$show") rust_s=$(count "$work/none.schedule" "$work/rust" s 1)

[ $# -gt 0 ] || set -- case-a random-001 r16-rows longest
printf '%-14s %7s | %10s %10s %5s | %9s %9s %5s | %9s %9s %5s\n' file events compose Rust ratio show Rust ratio write Rust ratio
for name; do
    text=vectors/01/$name.txt file=vectors/01/$name.schedule
    [ -e "$file" ] || die "there is no $file"
    "$show" <"$file" >"$work/shown"
    same "$text" "$file" "$compose"
    same "$text" "$file" "$work/rust" c 1
    same "$file" "$work/shown" "$work/rust" s 1
    same "$file" "$file" "$work/write" 2
    same "$file" "$file" "$work/rust" w 2
    awk -v name="$name" -v events="$(($(wc -l <"$work/shown") - 1))" \
        -v c="$(($(count "$text" "$compose") - empty_c))" -v rc="$(($(count "$text" "$work/rust" c 1) - rust_c))" \
        -v s="$(($(count "$file" "$show") - empty_s))" -v rs="$(($(count "$file" "$work/rust" s 1) - rust_s))" \
        -v w="$(($(count "$file" "$work/write" 2) - $(count "$file" "$work/write" 1)))" -v rw="$(($(count "$file" "$work/rust" w 2) - $(count "$file" "$work/rust" w 1)))" \
        'BEGIN { printf "%-14s %7d | %10d %10d %5.2f | %9d %9d %5.2f | %9d %9d %5.2f\n", name, events, c, rc, c / rc, s, rs, s / rs, w, rw, w / rw }'
done
