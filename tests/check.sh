#!/bin/sh
# Compares what the first program says of the decks of tests/check/ with what stands beside them, and the first numbers of its refused decks with
# the REJECTED lines of the second one. In brief the findings are the same, a line each. Statuses are compared too: 1 where something is refused or
# may fail, 2 for a command line that cannot be used.
# Usage: tests/check.sh [CHECK [MVT]], by default ./mvt-check and ./mvt

cd "$(dirname "$0")/.." || exit 2
check=${1:-./mvt-check}
mvt=${2:-./mvt}
work=$(mktemp -d) || exit 2
trap 'rm -rf "$work"' EXIT
differ=0

# ends NAME WANTED GOT
ends() {
    if [ "$2" != "$3" ]; then
        echo "DIFFERS $1: status $3, not $2"
        differ=1
    fi
}

for words in '--views 0' '--risk stop' '--events' 'first.session'; do
    # shellcheck disable=SC2086
    "$check" $words <examples/first.session >"$work/told" 2>/dev/null
    ends "$words" 2 $?
    [ ! -s "$work/told" ] || { echo "DIFFERS $words: something is written"; differ=1; }
done
for words in '--help' '--version'; do
    "$check" "$words" </dev/null >"$work/told" 2>"$work/errors"
    ends "$words" 0 $?
    [ -s "$work/told" ] && [ ! -s "$work/errors" ] || { echo "DIFFERS $words: it is not written on the output alone"; differ=1; }
done
"$check" <examples/first.session >/dev/null
ends 'examples/first.session' 0 $?
"$check" --risk refuse --views 1 <examples/first.session >/dev/null
ends 'examples/first.session, with one view' 1 $?
{ cat examples/first.session; echo './ UNIT LATE'; } | "$check" >/dev/null
ends 'examples/first.session, with a fault behind it' 1 $?

for session in tests/check/*.session; do
    told=${session%.session}.told
    wanted=0
    grep -Eq '^line [0-9]+: ([CNP][0-9]+ |session fault|job .* (is at RISK|fails|has too many paths))' "$told" && wanted=1
    "$check" <"$session" >"$work/told"
    ends "$session" "$wanted" $?
    if ! cmp -s "$told" "$work/told"; then
        echo "DIFFERS $session"
        diff "$told" "$work/told" | head -n 20
        differ=1
    fi
    "$check" --brief <"$session" >"$work/brief"
    ends "$session, in brief" "$wanted" $?
    sed -n 's/^line \([0-9]*\): /\1 /p' "$told" >"$work/found"
    if ! sed 's/^\([0-9]*\):[1-9][0-9]*: /\1 /' "$work/brief" | cmp -s - "$work/found"; then
        echo "DIFFERS $session, in brief"
        differ=1
    fi
    "$check" --deck <"$session" | cmp -s "$told" - || { echo "DIFFERS $session, with --deck and no deck behind it"; differ=1; }
    "$mvt" <"$session" 2>/dev/null | sed -n 's/^[0-9]* REJECTED //p' | grep -v '^Q' >"$work/rejected"
    python3 tests/first_refusals.py "$session" "$work/told" >"$work/first"
    if ! cmp -s "$work/rejected" "$work/first"; then
        echo "DIFFERS $session, the first numbers"
        diff "$work/rejected" "$work/first" | head -n 20
        differ=1
    fi
done

# Jobs that are run again: beside what is told of a session as it is, nothing but what they are answered then.
for session in tests/check/again/*.session; do
    told=${session%.session}.told
    "$check" --again <"$session" >"$work/told"
    ends "$session" 1 $?
    if ! cmp -s "$told" "$work/told"; then
        echo "DIFFERS $session"
        diff "$told" "$work/told" | head -n 20
        differ=1
    fi
    "$check" <"$session" >"$work/once"
    ends "$session, once" 1 $?
    sed '/^    run again, /,/^[^ ]/{/^ /d}' "$work/told" | cmp -s "$work/once" - || { echo "DIFFERS $session, but for what is run again"; differ=1; }
    "$check" --again --brief <"$session" >"$work/brief"
    "$check" --brief <"$session" | cmp -s - "$work/brief" || { echo "DIFFERS $session, in brief"; differ=1; }
done

# A deck that stands alone behind a session: the findings are those of the same deck as a block, but that lines are counted from its first card, and what
# is above it says so.
for deck in tests/check/alone/*.jcl; do
    name=${deck%.jcl}
    wanted=0
    grep -Eq '^line [0-9]+: ([CNP][0-9]+ |session fault|job .* (is at RISK|fails|has too many paths))' "$name.told" && wanted=1
    cat "$name.session" "$deck" | "$check" --deck >"$work/told"
    ends "$deck" "$wanted" $?
    if ! cmp -s "$name.told" "$work/told"; then
        echo "DIFFERS $deck"
        diff "$name.told" "$work/told" | head -n 20
        differ=1
    fi
    above=$(($(wc -l <"$name.session") + 1))
    { cat "$name.session"; echo './ READ'; cat "$deck"; echo './ END'; } | "$check" | awk -v above="$above" '
        match($0, /^line [0-9]+: /) {
            line = substr($0, 6, RLENGTH - 7) + 0
            rest = substr($0, RLENGTH + 1)
            if (line < above) print "line " line ": " rest ", above the deck"
            else print "line " line - above ": " rest
            next
        }
        { print }' >"$work/block"
    if ! cmp -s "$name.told" "$work/block"; then
        echo "DIFFERS $deck, as a block"
        diff "$name.told" "$work/block" | head -n 20
        differ=1
    fi
    cat "$name.session" "$deck" | "$check" --deck --brief | sed 's/^\([0-9]*\):[1-9][0-9]*: /\1 /' >"$work/brief"
    sed -n 's/^line \([0-9]*\): /\1 /p' "$name.told" | cmp -s - "$work/brief" || { echo "DIFFERS $deck, in brief"; differ=1; }
done
exit "$differ"
