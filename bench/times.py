#!/usr/bin/env python3
"""Time of the program on the sessions of bench/sessions.py.

    python3 bench/times.py [PROGRAM [ROUNDS]]

PROGRAM is ./mvt by default, ROUNDS 5. Prints two tables. The first has for each session at a limit its bytes, the bytes of its listing,
the least time of the rounds, and the time as a multiple of that of `cat` over the same bytes. The second has for each other session the
least time at its size and at half of it, how often the one has the other, and the time as a multiple of that of `cat` over the listing.
"""

import os
import subprocess
import sys
import tempfile
import time

import measure
import table

LIMITS = ("turns", "events", "line_feeds", "rejected", "jobs", "cards")


def measured(command, given):
    """The time of one run in seconds, and what it wrote."""
    with tempfile.TemporaryFile() as taken:
        begin = time.perf_counter()
        subprocess.run(command, stdin=measure.held(given), stdout=taken, stderr=subprocess.DEVNULL, check=False)
        end = time.perf_counter()
        taken.seek(0)
        return end - begin, taken.read()


def least(command, given, rounds):
    runs = [measured(command, given) for _ in range(rounds)]
    return min(took for took, _ in runs), runs[0][1]


def main():
    if any(word.startswith("-") for word in sys.argv[1:]) or 3 < len(sys.argv) or not all(word.isdigit() for word in sys.argv[2:]):
        print(__doc__)
        return 0 if sys.argv[1:] in (["--help"], ["-h"]) else 2
    program = os.path.abspath(sys.argv[1] if len(sys.argv) > 1 else "./mvt")
    rounds = int(sys.argv[2]) if len(sys.argv) > 2 else 5
    rows = [row for row in table.ROWS if row.make.__module__ == "sessions" and row.size]
    print("| Session | Bytes | Listing | Time | To `cat` |\n|---|---|---|---|---|")
    for row in rows:
        if row.name in LIMITS:
            text = row.text()
            took, listing = least([program], text, rounds)
            cat = least(["cat"], text, rounds)[0]
            print(f"| {row.words} | {len(text):,} | {len(listing):,} | {took * 1000:.1f} ms | {took / cat:.0f} |", flush=True)
    print("\n| Session | Listing | Time | Of half | Ratio | To `cat` |\n|---|---|---|---|---|---|")
    for row in rows:
        if row.name not in LIMITS:
            took, listing = least([program], row.text(), rounds)
            half = least([program], row.half(), rounds)[0]
            cat = least(["cat"], listing, rounds)[0]
            cells = [f"{len(listing):,}", f"{took * 1000:.1f} ms", f"{half * 1000:.1f} ms", f"{took / half:.1f}", f"{took / cat:.0f}"]
            print(f"| {row.words} | {' | '.join(cells)} |", flush=True)
    return 0


if __name__ == "__main__":
    sys.exit(main())
