#!/usr/bin/env bash
# The program `sheet`, byte for byte: over the files NAME.*.schedule in order it prints NAME.expected; over all schedules of vectors/ it prints what the texts of their replays add up to;
# and a file that cannot be read adds nothing and is counted on the last line of standard error.
# Names each that differs. The last line is 'N passed, M failed'. Run `rt run` in crates/sheet first, or `rt ci`.
set -u
shopt -s nullglob
cd "$(dirname "$0")/../.."

if [ ! -x crates/sheet/out/sheet ]; then
    echo "vectors/11/compare.sh: there is no crates/sheet/out/sheet: run 'rt run </dev/null' in crates/sheet first" >&2
    echo "0 passed, 1 failed"
    exit 1
fi

room=$(mktemp -d)
trap 'rm -rf "$room"' EXIT
passed=0
failed=0
# compare WHAT EXPECTED FILE..: the sheet over the files is what EXPECTED has
compare() {
    local what=$1 expected=$2
    shift 2
    if tools/run.sh sheet "$@" >"$room/printed" 2>"$room/errors" && cmp -s "$room/printed" "$expected"; then
        passed=$((passed + 1))
    else
        failed=$((failed + 1))
        echo "$what: not what $expected has"
    fi
}

for expected in vectors/11/*.expected; do
    name=${expected%.expected}
    compare "$name" "$expected" "$name".*.schedule
done

# From the texts of the replays, line by line.
awk 'FNR == 1 { schedules += 1 }
     $1 == "refused" { refused[$2] += 1 }
     $1 == "op" { begun[$4] += 1 }
     $1 == "op" && $7 != "-" { completed[$4] += 1; wait = $7 - $6; sum += wait; count += 1
                               if (count == 1 || wait < least) least = wait
                               if (wait > greatest) greatest = wait }
     $1 == "sent" { sent += $2; delivered += $4; lost += $6; left += $8 }
     END { printf "schedules %d\n", schedules
           for (number = 1; number < 32; number += 1) if (number in refused) printf "refused %d %d\n", number, refused[number]
           printf "read %d %d\nwrite %d %d\n", begun["r"], completed["r"], begun["w"], completed["w"]
           printf "sent %d delivered %d lost %d left %d\n", sent, delivered, lost, left
           if (count) printf "wait %d/%d %d %d\n", sum, count, least, greatest; else print "wait - - -" }' vectors/*.expected >"$room/all"
compare 'the replays of vectors/' "$room/all" vectors/*.schedule

compare 'files that cannot be read' vectors/11/case-a-twice.expected vectors/case-a.schedule vectors/11/no-such-file vectors/11 vectors/case-a.schedule
if [ "$(tail -n 1 "$room/errors")" = 'files not read: 2' ] && grep -q '^vectors/11/no-such-file: ' "$room/errors" && grep -q '^vectors/11: ' "$room/errors"; then
    passed=$((passed + 1))
else
    failed=$((failed + 1))
    echo 'files that cannot be read: not named, or not counted on the last line of standard error'
fi
echo "$passed passed, $failed failed"
[ "$failed" -eq 0 ] && [ "$passed" -gt 0 ]
