#!/bin/sh
# Builds a program as it stands, without a proof, and keeps it under the name that is given. It may run twice at once.
# `rt try` builds a program, runs it, and takes it away. So it is given a session that runs for some seconds, and meanwhile the program
# gets a second name.
# Usage: tests/unproved.sh NAME [CRATE], the crate mvt_main where none is given

cd "$(dirname "$0")/.." || exit 2
crate=${2:-mvt_main}
mkdir -p "crates/$crate/out" || exit 2
work=$(mktemp -d "$PWD/crates/$crate/out/unproved.XXXXXX") || exit 2
trap 'rm -rf "$work"' EXIT
kept=$work/kept

echo 'The program is built as it stands, not proved: a minute or two.' >&2
{
    echo './ INIT 1 A'
    yes './ TURN 1*9999' | head -n 6
} >"$work/session"
(cd "crates/$crate" && TMPDIR=$work exec rt try <"$work/session" >/dev/null 2>"$work/said") &
build=$!
while kill -0 "$build" 2>/dev/null; do
    for program in "$work"/*/*/program; do
        [ -x "$program" ] && ln -f "$program" "$kept" 2>/dev/null
    done
    sleep 0.1
done
if ! wait "$build"; then
    cat "$work/said" >&2
    exit 1
fi
if [ ! -x "$kept" ]; then
    echo 'The program ended before it could be kept.' >&2
    exit 1
fi
mv "$kept" "$1"
