#!/usr/bin/env python3
"""Instructions and memory of the program on the sessions of bench/table.py, by valgrind's callgrind.

A row a session: the lines of its listing, the instructions of the whole process, those at half the size and how often the one has the
other, the instructions as a multiple of those of a plain program, where the table has them, and so the most memory, which is measured
without valgrind. Callgrind takes some fifty times the program's own time.
"""

import argparse
import concurrent.futures
import math
import os
import re
import sys
from typing import NamedTuple

import measure
import table

README = os.path.join(os.path.dirname(os.path.abspath(__file__)), "README.md")
# Between these marks the page has the table.
FIRST, LAST = "<!-- The table is written by bench/instructions.py --write. -->\n", "<!-- Its end. -->\n"
HEAD = "| Session | Lines | Instructions | Of half | Ratio | To plain | Memory | To plain |\n|---|---|---|---|---|---|---|---|\n"
# The cells of a row that was never counted.
NONE = ["-"] * 7
# The status where a row has grown; misuse has 2.
GROWN = 3


class Counted(NamedTuple):
    """What one run takes: millions of instructions at whole and at half size, the lines of the listing, and the most memory in MB."""

    whole: float
    half: float | None
    listed: int
    memory: float


def counted(program, row):
    """What a row takes."""
    whole = measure.instructions([program], row.text())
    half = measure.instructions([program], row.half()) if row.size else None
    return Counted(whole, half, *measure.lines_and_memory([program], row.text()))


def counted_rows(program, rows, jobs, said):
    """Each row with what it takes, when it is counted. Where several run side by side, those that the page says to be long begin first."""
    def length(row):
        return number_of(said.get(row.words, NONE)[1], "M") or (0, 0)

    pool = concurrent.futures.ThreadPoolExecutor(jobs)
    try:
        order = sorted(rows, key=length, reverse=True) if 1 < jobs else rows
        counts = {pool.submit(counted, program, row): row for row in order}
        for count in concurrent.futures.as_completed(counts):
            yield counts[count], count.result()
    finally:
        pool.shutdown(cancel_futures=True)


def millions(count):
    return f"{count:,.1f} M" if count < 100 else f"{count:,.0f} M"


def cells_of(row, it):
    """The cells of a row behind its description."""
    half = [millions(it.half), f"{it.whole / it.half:.1f}"] if it.half else ["-", "-"]
    beside = [f"{it.whole / row.plain:.1f}" if row.plain else "-"]
    beside_memory = [f"{it.memory / row.plain_memory:.1f}" if row.plain_memory else "-"]
    return [f"{it.listed:,}", millions(it.whole), *half, *beside, f"{it.memory:.1f} MB", *beside_memory]


def line_of(row, cells):
    return f"| {row.words} | {' | '.join(cells)} |\n"


def parts_of_page():
    """What stands before the table of the page, its rows by their descriptions, and what stands behind it."""
    with open(README, encoding="utf-8") as page:
        before, rest = page.read().split(FIRST)
    inside, after = rest.split(LAST)
    rows = [[cell.strip() for cell in line.strip("|").split("|")] for line in inside.splitlines()[2:]]
    return before, {row[0]: row[1:] for row in rows}, after


def number_of(cell, unit):
    """The number that a cell says, and by how much it may have been rounded."""
    found = re.fullmatch(rf"([\d,]+(?:\.(\d+))?) {unit}", cell)
    return found and (float(found[1].replace(",", "")), 0.5 * 10.0 ** -len(found[2] or ""))


def over(cell, unit, count, least=0.0):
    """Whether a count is over a twentieth more than a cell says, by more than the cell was rounded and more than the least that counts."""
    said = sum(number_of(cell, unit) or (math.inf, 0))
    return count > 1.05 * said and count > said + least


def growth_of(row, it, said):
    """The lines that tell what of a row has grown, beside what the page says of it."""
    told = []
    if over(said[1], "M", it.whole):
        told.append(f"{row.words}: {millions(it.whole)}, before {said[1]}")
    if it.half and over(said[2], "M", it.half):
        told.append(f"{row.words}, half of it: {millions(it.half)}, before {said[2]}")
    if over(said[5], "MB", it.memory, 0.5):
        told.append(f"{row.words}: {it.memory:.1f} MB, before {said[5]}")
    return told


def write_page(new):
    """The page with these rows; the others stay as they are, and one that was never counted has no figures."""
    before, said, after = parts_of_page()
    rows = [line_of(row, new.get(row.words) or said.get(row.words) or NONE) for row in table.ROWS]
    with open(README, "w", encoding="utf-8") as page:
        page.write(before + FIRST + HEAD + "".join(rows) + LAST + after)


def asked():
    parser = argparse.ArgumentParser(description=__doc__, formatter_class=argparse.RawDescriptionHelpFormatter)
    parser.add_argument("program", metavar="PROGRAM", nargs="?", default="./mvt", help="the program, ./mvt where none is given")
    parser.add_argument("words", metavar="WORD", nargs="*", help="only the sessions that have one of the words in name or description")
    parser.add_argument("--jobs", metavar="N", type=int, default=1, help="so many runs side by side (1)")
    parser.add_argument("--compare", action="store_true",
                        help=f"name what takes over a twentieth more than bench/README.md says; the status is {GROWN} if anything does")
    parser.add_argument("--write", action="store_true", help="write each row that is counted into bench/README.md")
    parser.add_argument("--list", action="store_true", help="name the sessions, with what they are made of, and count nothing")
    parser.add_argument("--print", metavar="NAME", dest="shown", help="write the session of this name, and count nothing")
    told = parser.parse_intermixed_args()
    if told.jobs < 1:
        parser.error("--jobs takes a number from 1")
    if told.shown and told.shown not in [row.name for row in table.ROWS]:
        parser.error(f"there is no session {told.shown}: --list names them")
    unknown = table.unknown(told.words)
    if unknown:
        parser.error(f"no session has in its name or description: {', '.join(unknown)}; --list names them")
    if told.list or told.shown:
        return told
    if not os.access(told.program, os.X_OK) or os.path.isdir(told.program):
        parser.error(f"{told.program} is no program")
    if measure.missing():
        parser.error(f"it needs {' and '.join(measure.missing())}")
    return told


def main():
    told = asked()
    if told.list:
        for row in table.rows_of(told.words, slow=True):
            print(f"{row.name}: {row.about}")
        return 0
    if told.shown:
        sys.stdout.buffer.write(next(row for row in table.ROWS if row.name == told.shown).text())
        return 0

    said, new, grown = parts_of_page()[1], {}, []
    print(HEAD, end="", flush=True)
    for row, it in counted_rows(os.path.abspath(told.program), table.rows_of(told.words), told.jobs, said):
        new[row.words] = cells_of(row, it)
        print(line_of(row, new[row.words]), end="", flush=True)
        grown += growth_of(row, it, said.get(row.words, NONE))
        if told.write:
            write_page(new)
    if told.compare:
        print("\n".join(["", "Over a twentieth more than bench/README.md says:", *(grown or ["nothing"])]))
    return GROWN if told.compare and grown else 0


if __name__ == "__main__":
    sys.exit(main())
