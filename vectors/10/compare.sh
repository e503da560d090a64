#!/usr/bin/env bash
# Judges every history of vectors/10/ and compares what the program prints with the file beside it, byte for byte. Then writes the history file of every schedule of vectors/ and
# examples/ and has it judged: it is accepted, or the schedule starts no bench, and the line is the replay's.
# Names each that differs. The last line is 'N passed, M failed'. Run `rt run` in crates/verdict and crates/history first, or `rt ci`.
set -u
cd "$(dirname "$0")/../.."

for program in verdict history; do
    if [ ! -x "crates/$program/out/$program" ]; then
        echo "vectors/10/compare.sh: there is no crates/$program/out/$program: run 'rt run </dev/null' in crates/$program first" >&2
        echo "0 passed, 1 failed"
        exit 1
    fi
done

folder=$(mktemp -d)
trap 'rm -rf "$folder"' EXIT
echo accepted >"$folder/accepted"
passed=0
failed=0
# count WHAT TEST..: a test that passed or failed
count() {
    local what=$1
    shift
    if "$@"; then
        passed=$((passed + 1))
    else
        failed=$((failed + 1))
        echo "$what"
    fi
}
judged() { tools/run.sh verdict <"$1" >"$folder/printed" && cmp -s "$folder/printed" "$2"; }
recorded() {
    tools/run.sh history <"$1" >"$folder/history" || return 1
    if grep -q '^refused' "${1%.schedule}.expected"; then
        cmp -s "$folder/history" "${1%.schedule}.expected"
    else
        judged "$folder/history" "$folder/accepted"
    fi
}

for history in vectors/10/*.history; do
    count "$history: not what ${history%.history}.expected has" judged "$history" "${history%.history}.expected"
done
for schedule in vectors/*.schedule examples/*.schedule; do
    count "$schedule: its history is not accepted" recorded "$schedule"
done
echo "$passed passed, $failed failed"
[ "$failed" -eq 0 ] && [ "$passed" -gt 0 ]
