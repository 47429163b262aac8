#!/usr/bin/env python3
"""Compares what mvt-check tells of the mistakes of tests/check/mistakes.table, and looks whether each cure, done as it says, leaves a deck without them.

An entry has a deck (or a whole session, where its name begins so), what is told of it, and the deck behind the cure. Decks stand behind the
site with which the table begins, and their lines are counted from their first card. Of the mended one nothing is told but that its job is ASSURED.

Usage: python3 tests/mistakes.py [MVT-CHECK [--write]], by default ./mvt-check; with --write the table is written with what is told now
"""

import difflib
import re
import subprocess
import sys

TABLE = "tests/check/mistakes.table"


def entries_of(text):
    """The remark and the site in front, and the entries: their names, the decks before, what is told, the decks behind."""
    remark, site, *parts = re.split(r"(?m)^== ", text)
    site = site.split("\n", 1)[1]
    entries = []
    for part in parts:
        name, rest = part.split("\n", 1)
        before, rest = rest.split("->\n", 1) if "->\n" in rest else (rest.split("=>\n", 1)[0], "=>\n" + rest.split("=>\n", 1)[1])
        told, after = rest.split("=>\n", 1)
        entries.append((name, before, told, after.rstrip("\n") + "\n"))
    return remark.rstrip("\n"), site.strip("\n") + "\n", entries


def found(program, site, name, deck):
    """What is told of a deck, without the line of sums, and the status."""
    above = 0
    text = deck
    if not name.startswith("session: "):
        text = site + "./ READ\n" + deck + "./ END\n"
        above = site.count("\n") + 1
    ran = subprocess.run([program], input=text.encode("latin-1"), capture_output=True, check=False)
    told = re.sub(r"(?m)^\d+ refused, \d+ at risk, \d+ warnings?\n", "", ran.stdout.decode("latin-1"))
    return re.sub(r"(?m)^line (\d+):", lambda m: "line %d:" % (int(m.group(1)) - above), told), ran.returncode


def is_well(told):
    """Nothing is told but answers of ASSURED."""
    return all(re.match(r"line \d+: job .* is ASSURED: ", line) for line in told.splitlines())


def main():
    program = sys.argv[1] if len(sys.argv) > 1 else "./mvt-check"
    with open(TABLE, encoding="latin-1") as table:
        remark, site, entries = entries_of(table.read())
    differ, written = False, remark + "\n\n== the site of the decks\n" + site + "\n"
    for name, before, wanted, after in entries:
        told, _ = found(program, site, name, before)
        written += "== %s\n%s->\n%s=>\n%s\n" % (name, before, told, after)
        if told != wanted:
            differ = True
            print("DIFFERS %s" % name)
            print("".join(difflib.unified_diff(wanted.splitlines(True), told.splitlines(True), "wanted", "told", n=0)))
        behind, status = found(program, site, name, after)
        if status != 0 or not is_well(behind):
            differ = True
            print("DIFFERS %s, behind its cure\n%s" % (name, behind))
    if len(sys.argv) > 2:
        with open(TABLE, "w", encoding="latin-1") as table:
            table.write(written.rstrip("\n") + "\n")
    print("%d mistakes" % len(entries))
    return 1 if differ else 0


if __name__ == "__main__":
    sys.exit(main())
