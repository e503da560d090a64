#!/usr/bin/env bash
# Replays the vectors many times, with and without the test of well-formedness before every event, and prints what each costs.
# A benchmark and no test: nothing fails for being slow. It needs bash, awk and the kit, and leaves the repository as it is.
set -u

usage() {
    cat <<'END'
bench/run.sh [-h] [-a] [-m MILLISECONDS] [NAME...]

Prints, for each vector, nanoseconds per file and per accepted event of the proved program 'repeat', beside the same replay with every
event taken through bench::step, which tests the whole state first; and the ratio of the two. Without NAME: case-a and the twelve vectors
with the most accepted events. NAME is a file of vectors/ without its ending.

  -a   all vectors that start a bench
  -m   how long each timing lasts at least (default 200); of three, the best is told
  -h   this text
END
}

die() {
    printf 'bench/run.sh: %s\n' "$*" >&2
    exit 1
}

all=0 least=200
while getopts ham: option; do
    case $option in
    h) usage; exit 0 ;;
    a) all=1 ;;
    m) least=$OPTARG ;;
    *) usage >&2; exit 2 ;;
    esac
done
shift $((OPTIND - 1))
case $least in '' | *[!0-9]* | 0) die "-m takes a number of milliseconds, 1 or more" ;; esac

cd "$(dirname "$0")/.." || exit 1
repeat=crates/repeat/out/repeat
[ -x "$repeat" ] || die "there is no $repeat: run 'rt run </dev/null' in crates/repeat first"
ls vectors/*.schedule >/dev/null 2>&1 || die "vectors/ has no schedule"
command -v rt >/dev/null || die "rt is not on the path: the kit is needed to build the variant"
. bench/copy.sh

work=$(mktemp -d) || exit 1
trap 'rm -rf "$work"' EXIT

# ---- the variant: one call is edited in a copy of `repeat` and of what it stands on, and what changes by it is proved and built anew, by the same words as the program itself.
build_variant() {
    local copy=$work/copy
    copy_crates "$copy" repeat && cp bench/step-answers.txt "$copy/crates/schedule/proofs/turn/Answers.antt" || return
    sed -e 's/= advance(messages, rows, bench, event)/= bench::step(bench, event, messages, rows)/' -e '/^use advance::advance;$/d' \
        crates/schedule/src/lib.rt >"$copy/crates/schedule/src/lib.rt"
    [ "$(diff crates/schedule/src/lib.rt "$copy/crates/schedule/src/lib.rt" | grep -c '^>')" = 1 ] || { echo 'the call of advance is not found in crates/schedule/src/lib.rt'; return 1; }
    (cd "$copy/crates/repeat" && rt run </dev/null) && cp "$copy/crates/repeat/out/repeat" "$work/step"
}
build_variant >"$work/log" 2>&1 || { cat "$work/log" >&2; die "the variant is not built"; }

# ---- times

# Milliseconds of processor time, for COUNT replays in one process. Processor time, since other work may run beside it.
spent() { # PROGRAM FILE COUNT
    local TIMEFORMAT='%3U %3S'
    { time "$1" "$3" <"$2" >"$work/text"; } 2>&1 | awk '{ printf "%d", ($1 + $2) * 1000 + 0.5 }'
}

# Nanoseconds for one replay: the best of three timings, from each of which that of a single replay is taken off, so that the start of the
# process does not count.
cost() { # PROGRAM FILE
    local count=3 took=0 once round best=''
    while :; do
        took=$(spent "$1" "$2" "$count")
        if [ "$took" -ge "$least" ] || [ "$count" -gt 90000 ]; then break; fi
        count=$((took > least / 50 ? count * least / took * 5 / 4 + 1 : count * 10))
    done
    for round in 1 2 3; do
        once=$(spent "$1" "$2" 1)
        [ "$round" = 1 ] || took=$(spent "$1" "$2" "$count")
        took=$(((took - once) * 1000000 / (count - 1)))
        if [ -z "$best" ] || [ "$took" -lt "$best" ]; then best=$took; fi
    done
    echo "$best"
}

# NAME EVENTS ROWS FLIGHT of each vector that starts a bench and accepts an event, the most events first.
for file in vectors/*.expected; do
    awk -v name="$(basename "$file" .expected)" '
        NR == 1 && $1 == "run" { events = $4 }
        $1 == "op" { rows++ }
        $1 == "sent" { flight = $8 }
        END { if (events > 0) print name, events, rows + 0, flight }' "$file"
done | sort -k2,2nr -k1,1 >"$work/list"

for name; do grep -q "^$name " "$work/list" || die "no vector that starts a bench is called $name"; done

printf '%-20s %6s %5s %6s | %12s %9s | %12s %9s | %6s\n' vector events rows flight 'ns/file' 'ns/event' 'tested: file' 'ns/event' ratio
taken=0
while read -r name events rows flight; do
    if [ $# -gt 0 ]; then
        case " $* " in *" $name "*) ;; *) continue ;; esac
    elif [ "$all" = 0 ] && [ "$taken" -ge 12 ] && [ "$name" != case-a ]; then
        continue
    fi
    taken=$((taken + 1))
    for program in "$repeat" "$work/step"; do
        "$program" 2 <"vectors/$name.schedule" >"$work/text"
        cmp -s "$work/text" "vectors/$name.expected" || die "$name: what was written is not vectors/$name.expected"
    done
    plain=$(cost "$repeat" "vectors/$name.schedule")
    tested=$(cost "$work/step" "vectors/$name.schedule")
    awk -v name="$name" -v e="$events" -v rows="$rows" -v flight="$flight" -v p="$plain" -v t="$tested" 'BEGIN {
        printf "%-20s %6d %5d %6d | %12d %9.0f | %12d %9.0f | %6.1f\n", name, e, rows, flight, p, p / e, t, t / e, (p > 0 ? t / p : 0) }'
done <"$work/list"
