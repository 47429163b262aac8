#!/bin/sh
# Runs 20,000 mutated sessions with ./mvt: no signal, no hang, status 0, 1 or 3. With a reference's command its listing is asked for too.
# Usage: tests/hostile.sh [COMMAND..]

cd "$(dirname "$0")/.." || exit 2
exec python3 tests/mutated_sessions.py ./mvt 1 20000 "$@"
