#!/usr/bin/env bash
# Part of the gate: the Rust replay, and ours, on the vectors and on random schedules, text against text. The last line is 'N passed, M failed', a schedule each.
#   harness/compare.sh [apart]    apart: as where our library cannot be called from the harness
# Where our library can be called, 2,000 seeds in one process; where not, 50 seeds written to files and replayed by the program `replay`.
set -u
cd "$(dirname "$0")/.." || exit 1
harness=target/harness/harness
first_seed=1 joined_count=2000 apart_count=50
passed=0
failed=0

work=$(mktemp -d) || exit 1
trap 'rm -rf "$work"' EXIT

# Adds up what the harness counted: 'NAME: A equal, B different'. No such line is a failure, and so is a bad end without a difference.
count() { # WORD..
    local status counted
    "$harness" "$@" >"$work/said"
    status=$?
    cat "$work/said"
    counted=$(sed -n 's/^.*: \([0-9]*\) equal, \([0-9]*\) different$/\1 \2/p' "$work/said")
    case $status:$counted in
    0:?*' 0' | 1:?*' '[1-9]*) passed=$((passed + ${counted% *})) failed=$((failed + ${counted#* })) ;;
    *) failed=$((failed + 1)) ;;
    esac
}

# Random schedules without a common process: our program replays the files that the harness wrote.
count_apart() {
    local seed
    "$harness" write "$first_seed" "$work" "$apart_count" || failed=$((failed + 1))
    for ((seed = first_seed; seed < first_seed + apart_count; seed++)); do
        if tools/run.sh replay <"$work/$seed.schedule" >"$work/printed" && cmp -s "$work/printed" "$work/$seed.expected"; then
            passed=$((passed + 1))
        else
            failed=$((failed + 1))
            echo "seed $seed: the texts differ"
        fi
    done
}

harness/build.sh "$@" >"$work/log" 2>&1 || { cat "$work/log" >&2; echo "0 passed, 1 failed"; exit 1; }
way=$(tail -n 1 "$work/log")
echo "harness: $way"
count vectors vectors/*.schedule examples/*.schedule
if [ "$way" = "built with our library" ]; then count equal "$first_seed" "$joined_count"; else count_apart; fi
echo "$passed passed, $failed failed"
[ "$failed" -eq 0 ] && [ "$passed" -gt 0 ]
