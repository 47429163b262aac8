#!/bin/sh
# Draws each session of examples/ with the program that is given, reads the pictures as XML, and compares what their words say with the listing
# beside the session: tests/pictures.py says how. A picture that stands beside its session has to be the same to the byte.
# Usage: tests/pictures.sh PROGRAM

program=$1
status=0
picture=$(mktemp) || exit 2
trap 'rm -f "$picture"' EXIT
for session in $(find examples -name '*.session' | sort); do
    "$program" <"$session" >"$picture" 2>/dev/null
    ended=$?
    if [ "$ended" -gt 1 ]; then
        echo "$session: status $ended"
        status=1
    fi
    python3 tests/pictures.py "$picture" "$session" || status=1
    drawn=${session%.session}.svg
    if [ -e "$drawn" ] && ! cmp -s "$picture" "$drawn"; then
        echo "$session: the picture is not that of $drawn"
        status=1
    fi
done
python3 tests/pictures.py --made "$program" || status=1
exit $status
