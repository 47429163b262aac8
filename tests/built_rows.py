"""Makes crates/worked_rows/data/paths/built.rows: 200 jobs that are built by a rule, and what is told of each before it runs.

What is wanted comes from a reference: a command that reads a session on standard input and writes, for each deck that the session
reads, a line `== n` and what an analysis answers, with the option --views N of mvt.
Usage: python3 tests/built_rows.py COMMAND..
"""

import os
import subprocess
import sys

TABLE = "crates/worked_rows/data/paths/built.rows"
COUNT = 200
REMARK = """Jobs that are built by a rule, and what is told of each before it runs: tests/built_rows.py makes them. The commands are those of
verdicts.rows.
"""
# What each job finds: a set on each volume, both with an entry.
VOLUMES = ("VOL001", "VOL002")
SETS = {"R.A": "VOL001", "R.B": "VOL002"}
OPERATORS = ("GT", "GE", "EQ", "LT", "LE", "NE")
CODES = (0, 4, 4095)


class Dice:
    """Numbers that a rule gives, the same on each machine: the sequence x, 69069 x + 1 modulo 2 to the 32nd, by its upper half."""

    def __init__(self, seed):
        self.state = seed

    def below(self, count):
        self.state = (69069 * self.state + 1) % 2 ** 32
        return (self.state >> 16) % count

    def one_of(self, choices):
        return choices[self.below(len(choices))]


def tests_of(dice, steps, most):
    """A COND parameter with up to so many tests, of all steps before or of one by its name, and with EVEN or ONLY, or none."""
    items = []
    for _ in range(dice.below(most + 1)):
        step = f",S{1 + dice.below(steps)}" if steps and dice.below(2) else ""
        items.append(f"({dice.one_of(CODES)},{dice.one_of(OPERATORS)}{step})")
    if steps and dice.below(3) == 0:
        items.append(dice.one_of(("EVEN", "ONLY")))
    return f",COND=({','.join(items)})" if items else ""


def permanent(dice, there):
    """A DD of a set with a name: one that may be there, or one that is made."""
    names = sorted(there)
    if names and dice.below(3):
        name = dice.one_of(names)
        normal = dice.one_of(("KEEP", "KEEP", "KEEP", "PASS", "UNCATLG", "DELETE"))
        status = dice.one_of(("OLD", "OLD", "SHR", "MOD"))
        place = f",VOL=SER={SETS[name]}" if name in SETS and dice.below(4) == 0 else ""
        if normal in ("DELETE", "UNCATLG"):
            there.discard(name)
        return f"DSN={name},DISP=({status},{normal}{dice.one_of(('', '', ',DELETE', ',KEEP'))}){place}"
    name = dice.one_of([name for name in ("N.A", "N.B", "N.C") if name not in there] or ["N.A"])
    there.add(name)
    place = dice.one_of(("", "", ",VOL=SER=VOL002", ",VOL=REF=R.B"))
    words = dice.one_of(("CATLG", "CATLG", "CATLG,DELETE", "KEEP", "PASS", "PASS,CATLG"))
    return f"DSN={name},DISP=(NEW,{words}){place},SPACE=(TRK,1)"


def temporary(dice, passed):
    """A DD of a temporary set: one that was passed, or one that is made."""
    if passed and dice.below(3):
        name = dice.one_of(sorted(passed))
        words = dice.one_of(("PASS", "PASS", "DELETE", "PASS,DELETE"))
        if words == "DELETE":
            passed.discard(name)
        return f"DSN=&&{name},DISP=({dice.one_of(('OLD', 'SHR', 'MOD'))},{words})"
    name = dice.one_of(("T", "U"))
    passed.add(name)
    return f"DSN=&&{name},DISP=(NEW,PASS),SPACE=(TRK,1)"


def deck_of(dice):
    """The cards of a job of one to seven steps."""
    cards = [f"//J JOB 1{tests_of(dice, 0, 1) if dice.below(4) == 0 else ''}"]
    there, passed = set(SETS), set()
    for step in range(1 + dice.below(7)):
        cards.append(f"//S{step + 1} EXEC PGM=IEFBR14{tests_of(dice, step, 2)}")
        for dd in range(dice.below(4)):
            kind = dice.below(9)
            operand = permanent(dice, there) if kind < 5 else temporary(dice, passed) if kind < 8 else dice.one_of(("DUMMY", "SYSOUT=A"))
            cards.append(f"//D{dd + 1} DD {operand}")
    return cards


def told_by(reference, views, cards):
    """What the reference tells of a deck that finds the sets, in the words of a row."""
    lines = [f"./ VOLUME {serial} 100" for serial in VOLUMES]
    for name, serial in SETS.items():
        lines += [f"./ SET {name} {serial} 1 CAT", "./ END"]
    session = "\n".join([*lines, "./ READ", *cards, "./ END", ""])
    run = subprocess.run([*reference, "--views", str(views)], input=session, capture_output=True, text=True, check=True)
    return [line for line in run.stdout.splitlines() if not line.startswith(("== ", "  "))][0]


def row_of(reference, number):
    """The row of a job."""
    dice = Dice(number)
    views = 1 + dice.below(12) if number % 5 == 0 else 1024
    cards = deck_of(dice)
    told = told_by(reference, views, cards)
    lines = [f"== job {number}"]
    lines += [f"VOLUME {serial}" for serial in VOLUMES]
    for name, serial in SETS.items():
        lines += [f"SET {serial} {name}", f"ENTRY {name} {serial}"]
    lines += ["PLACES VOL001"] + ([f"VIEWS {views}"] if views < 1024 else [])
    return lines + [f"CARD {card}" for card in cards] + ["=>", "REFUSED" if told == "refused" else told, ""]


def main():
    os.chdir(os.path.join(os.path.dirname(os.path.abspath(__file__)), ".."))
    reference = sys.argv[1:]
    if not reference:
        sys.exit(__doc__)
    rows = [line for number in range(1, COUNT + 1) for line in row_of(reference, number)]
    with open(TABLE, "w", encoding="utf-8") as file:
        file.write("\n".join([REMARK, *rows]))


if __name__ == "__main__":
    main()
