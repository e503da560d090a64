#!/usr/bin/env bash
# Composes every text of vectors/01/ and examples/, shows every schedule, prints the messages in flight, and compares each with the file beside it, byte for byte:
#   NAME.txt       gives NAME.schedule, or, where there is NAME.wrong, nothing but NAME.wrong on standard error
#   NAME.schedule  gives NAME.shown, or, where there is none, NAME.txt, which then has no comment and no spare blank; of a text of examples/, what `compose` makes the file of again
#   NAME.flight    is what `flight` prints of NAME.schedule
# Names each that differs. The last line is 'N passed, M failed'. Run `rt run` in crates/compose, crates/show and crates/flight first, or `rt ci`.
set -u
cd "$(dirname "$0")/../.."

for program in compose show flight; do
    if [ ! -x "crates/$program/out/$program" ]; then
        echo "vectors/01/compare.sh: there is no crates/$program/out/$program: run 'rt run </dev/null' in crates/$program first" >&2
        echo "0 passed, 1 failed"
        exit 1
    fi
done

printed=$(mktemp)
said=$(mktemp)
again=$(mktemp)
trap 'rm -f "$printed" "$said" "$again"' EXIT
passed=0
failed=0
# compare PROGRAM INPUT OUTPUT ERRORS: what the program prints of INPUT is OUTPUT, and what it says on standard error is ERRORS.
compare() {
    if tools/run.sh "$1" <"$2" >"$printed" 2>"$said" && cmp -s "$printed" "$3" && cmp -s "$said" "$4"; then
        passed=$((passed + 1))
    else
        failed=$((failed + 1))
        echo "$1 < $2: not what $3 and $4 have"
    fi
}

for text in vectors/01/*.txt examples/*.txt; do
    name=${text%.txt}
    if [ -e "$name.wrong" ]; then
        compare compose "$text" /dev/null "$name.wrong"
        continue
    fi
    compare compose "$text" "$name.schedule" /dev/null
    case $text in
    examples/*)
        tools/run.sh show <"$name.schedule" >"$again" && compare compose "$again" "$name.schedule" /dev/null
        ;;
    *)
        shown=$text
        [ -e "$name.shown" ] && shown=$name.shown
        compare show "$name.schedule" "$shown" /dev/null
        ;;
    esac
done
for flight in vectors/01/*.flight; do
    compare flight "${flight%.flight}.schedule" "$flight" /dev/null
done
echo "$passed passed, $failed failed"
[ "$failed" -eq 0 ] && [ "$passed" -gt 0 ]
