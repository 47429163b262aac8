#!/bin/sh
# Plays the sessions of tests/play/ on, and compares the listings and what is said with those that stand beside them. What --events writes has
# to be a session of which the second program writes the same listing, and the first adds nothing more. So with other options. Statuses are
# compared too: 1 for a session with a fault, and else 0; 2 for a command line that cannot be used.
# Usage: tests/play.sh [PLAY [MVT]], by default ./mvt-play and ./mvt

cd "$(dirname "$0")/.." || exit 2
play=${1:-./mvt-play}
mvt=${2:-./mvt}
work=$(mktemp -d) || exit 2
trap 'rm -rf "$work"' EXIT
differ=0

# compare NAME WANTED GOT
compare() {
    if ! cmp -s "$2" "$3"; then
        echo "DIFFERS $1"
        diff "$2" "$3" | head -n 20
        differ=1
    fi
}

# ends NAME WANTED GOT
ends() {
    if [ "$2" != "$3" ]; then
        echo "DIFFERS $1: status $3, not $2"
        differ=1
    fi
}

for words in '--views 0' '--risk stop' '--event' 'first.session' '--events=all'; do
    # shellcheck disable=SC2086
    "$play" $words <tests/play/first.session >"$work/listing" 2>/dev/null
    ends "$words" 2 $?
    compare "$words, its listing" /dev/null "$work/listing"
done

for words in '--help' '--version'; do
    "$play" "$words" </dev/null >"$work/told" 2>"$work/said"
    ends "$words" 0 $?
    compare "$words, its errors" /dev/null "$work/said"
    [ -s "$work/told" ] || { echo "DIFFERS $words: nothing is written"; differ=1; }
done

for session in tests/play/*.session; do
    name=${session%.session}
    wanted=0
    grep -q '^session fault' "$name.said" && wanted=1
    "$play" <"$session" >"$work/listing" 2>"$work/said"
    ends "$session" "$wanted" $?
    compare "$name.listing" "$name.listing" "$work/listing"
    compare "$name.said" "$name.said" "$work/said"
    "$play" --events <"$session" >"$work/session" 2>/dev/null
    ends "$session, its events" "$wanted" $?
    [ "$wanted" = 0 ] || continue
    "$mvt" <"$work/session" >"$work/again" 2>/dev/null
    compare "$session, run with its events" "$work/listing" "$work/again"
    "$play" --events <"$work/session" >"$work/more" 2>/dev/null
    "$play" <"$work/session" >"$work/again" 2>"$work/again_said"
    compare "$session, played twice" "$work/said" "$work/again_said"
    "$play" --risk refuse --views 1 --explain <"$session" >"$work/listing" 2>/dev/null
    "$play" --risk refuse --views 1 --explain --events <"$session" >"$work/session" 2>/dev/null
    "$mvt" --risk refuse --views 1 --explain <"$work/session" >"$work/again" 2>/dev/null
    compare "$session, with options" "$work/listing" "$work/again"
done
exit "$differ"
