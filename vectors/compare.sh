#!/usr/bin/env bash
# Replays every schedule of vectors/ and examples/ and compares what the program prints with the file beside it, byte for byte.
# Names each that differs. The last line is 'N passed, M failed'. Run `rt run` in crates/replay first, or `rt ci`.
set -u
cd "$(dirname "$0")/.."

if [ ! -x crates/replay/out/replay ]; then
    echo "vectors/compare.sh: there is no crates/replay/out/replay: run 'rt run </dev/null' in crates/replay first" >&2
    echo "0 passed, 1 failed"
    exit 1
fi

printed=$(mktemp)
trap 'rm -f "$printed"' EXIT
passed=0
failed=0
for schedule in vectors/*.schedule examples/*.schedule; do
    if tools/run.sh replay <"$schedule" >"$printed" && cmp -s "$printed" "${schedule%.schedule}.expected"; then
        passed=$((passed + 1))
    else
        failed=$((failed + 1))
        echo "$schedule: not what ${schedule%.schedule}.expected has"
    fi
done
echo "$passed passed, $failed failed"
[ "$failed" -eq 0 ] && [ "$passed" -gt 0 ]
