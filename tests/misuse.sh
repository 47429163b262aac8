#!/bin/sh
# Command lines that cannot be used: each program says in one line what is wrong, and its usage behind it, writes nothing on the output, and ends with 2.
# Usage: tests/misuse.sh [PROGRAM..], each of the name that its usage has; by default ./mvt, ./mvt-check, ./mvt-play and ./mvt-picture

cd "$(dirname "$0")/.." || exit 2
[ $# -gt 0 ] || set -- ./mvt ./mvt-check ./mvt-play ./mvt-picture
work=$(mktemp -d) || exit 2
trap 'rm -rf "$work"' EXIT
differ=0

# misuses PROGRAM LINE WORDS..
misuses() {
    program=$1 line=$2
    shift 2
    name=$(basename "$program" -unproved)
    "$program" "$@" <examples/first.session >"$work/told" 2>"$work/said"
    status=$?
    printf '%s\n' "$line" "Usage: $name [OPTIONS] < SESSION" "For more information, try '--help'." >"$work/wanted"
    if [ "$status" != 2 ] || [ -s "$work/told" ] || ! cmp -s "$work/wanted" "$work/said"; then
        echo "DIFFERS $name $*: status $status"
        cat "$work/told" "$work/said"
        differ=1
    fi
}

for program in "$@"; do
    misuses "$program" "error: invalid value '0' for '--views <N>': 0 is not in 1..=1024" --views 0
    misuses "$program" "error: invalid value '0' for '--views <N>': 0 is not in 1..=1024" --views 0 --help
    misuses "$program" "error: invalid value for '--views <N>': it is a number from 1 to 1024, in digits alone" --views +1
    misuses "$program" "error: invalid value 'RUN' for '--risk <CHOICE>' [possible values: run, refuse]" --risk RUN
    misuses "$program" "error: unexpected argument 'first.session' found" first.session
    misuses "$program" "error: unexpected argument '--explian' found; tip: a similar argument exists: '--explain'" --explian
    misuses "$program" 'error: an argument is no UTF-8' "$(printf '\377')"
done
exit "$differ"
