#!/bin/sh
# Runs the program on each session of examples/ and compares its listing, what it says on standard error and its status with what stands
# beside it: status 1 where there is a file of what it says, and else 0.
# Usage: tests/examples.sh [PROGRAM], by default ./mvt

cd "$(dirname "$0")/.." || exit 2
program=${1:-./mvt}
status=0
said=$(mktemp) && listed=$(mktemp) || exit 2
for session in examples/*.session examples/*/*.session; do
    name=${session%.session}
    wanted=/dev/null
    status_wanted=0
    if [ -e "$name.error" ]; then
        wanted=$name.error
        status_wanted=1
    fi
    "$program" <"$session" >"$listed" 2>"$said"
    ended=$?
    if [ $ended -eq $status_wanted ] && cmp -s "$listed" "$name.listing" && cmp -s "$said" "$wanted"; then
        echo "$name: as listed"
    else
        echo "$name: DIFFERS"
        status=1
    fi
done
rm -f "$said" "$listed"
exit $status
