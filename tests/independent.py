#!/usr/bin/env python3
"""Builds decks of independent mistakes, and looks whether mvt-check tells each of them, at its line and with its number, and nothing else.

Each mistake is a card or two of a step of its own. How many stand in a deck, which, and in what order is chosen by a generator whose seed is fixed.

Usage: python3 tests/independent.py [MVT-CHECK [DECKS]], by default ./mvt-check and 60
"""

import random
import re
import subprocess
import sys

SITE = """./ VOLUME VOL001 100
./ UNIT SYSDA VOL001
./ PROC COPY
//ONE EXEC PGM=IEFBR14
//A DD DUMMY
./ END
./ PROC PRINT
//ONE EXEC PGM=IEFBR14
//A DD SYSOUT=&CLASS
./ END
./ INIT 1 A
"""

# What stands behind the EXEC of a step, and what is told of which of these cards. # is the number of the step.
DDS = [
    ("C2", ["//D# DD\tDUMMY"]),
    ("C3", ["//D# DD DUMMY,"]),
    ("C4", ["//D# DD DSN=A.B,", "//                  DISP=OLD"]),
    ("C6", ["//D#"]),
    ("N1", ["//D# DD DSN=A..B,DISP=OLD"]),
    ("N2", ["//D# DD DSN=A.LONGNAMED,DISP=OLD"]),
    ("N2", ["//D# DD DSN=&HLQ..LEDGER.SETS,DISP=OLD"]),
    ("N3", ["//D# DD DSN='A.B',DISP=OLD"]),
    ("N4", ["//D# DD DSN=A.B(-256),DISP=OLD"]),
    ("P3", ["//D# DDD DUMMY"]),
    ("P4", ["//D# DD DSN=A.B,DIPS=OLD"]),
    ("P5", ["//D# DD DSN=A.B,DISP=OLD,DISP=OLD"]),
    ("P6", ["//D# DD DSN=A.B,DISP=(NEW,CATALG)"]),
    ("P6", ["//D# DD SYSOUT=AB"]),
    ("P7", ["//D# DD SYSOUT=A,DSN=A.B"]),
    ("P8", ["//D# DD DSN=A.B,DISP=(OLD,KEEP"]),
    ("P9", ["//D# DD DSN=A.B,OLD"]),
    ("P15", ["// DD DSN=A.B,DISP=OLD"]),
    ("P16", ["//D# DD DSN=A.B,UNIT=TAPE,SPACE=(TRK,1)"]),
    ("P17", ["//D# DD DSN=A.B,DISP=OLD,VOL=SER=(VOL001,VOL002)"]),
    ("P18", ["//D# DD DSN=A.B(MEMBER),DISP=OLD"]),
    ("P19", ["//D# DD DSN=A.B,DISP=OLD,TERM=TS"]),
    ("P40", ["//D# DD DSN=*.NOSTEP.X,DISP=OLD"]),
    ("P41", ["//D# DD DSN=*.D#,DISP=OLD"]),
    ("P45", ["//D#%d DD DDNAME=X#%d" % (n, n) for n in range(1, 7)]),
]

# Steps themselves.
EXECS = [
    ("N1", ["//S# EXEC PGM="]),
    ("N2", ["//S# EXEC PGM=LONGPROGRAM"]),
    ("N3", ["//S# EXEC PGM=sort"]),
    ("C5", ["//S# EXEC PGM=IEFBR14,PARM='O'NEIL'"]),
    ("P4", ["//S# EXEC PGM=IEFBR14,CND=EVEN"]),
    ("P6", ["//S# EXEC PGM=IEFBR14,COND=(4,LTT)"]),
    ("P10", ["//S# EXEC COND=EVEN"]),
    ("P13", ["//S# EXEC PGM=IEFBR14,COND=((1,EQ),(2,EQ),(3,EQ),(4,EQ),(5,EQ),", "//  (6,EQ),(7,EQ),(8,EQ),(9,EQ))"]),
    ("P20", ["//S# EXEC NOPROC"]),
    ("P24", ["//S# EXEC COPY", "//TWO.A DD DUMMY"]),
    ("P31", ["//S# EXEC PRINT"]),
    ("P42", ["//S# EXEC PGM=IEFBR14,COND=(4,LT,NOSTEP)"]),
]

# On which of its cards a mistake of several is told, where that is not the first.
PLACES = {"C4": 1, "P24": 1, "P45": 5}


def deck_of(chooser):
    """The cards of a deck, and what is to be told: lines of the deck and numbers."""
    cards, wanted = ["//J JOB 1"], []
    for number in range(1, chooser.randint(2, 26)):
        is_step = chooser.random() < 0.3
        name, own = chooser.choice(EXECS if is_step else DDS)
        while name == "P31" and any(name == other for _, other in wanted):  # it is told once of a procedure of the session
            name, own = chooser.choice(EXECS)
        if not is_step:
            cards.append("//S%d EXEC PGM=IEFBR14" % number)
        wanted.append((len(cards) + 1 + PLACES.get(name, 0), name))
        cards += [card.replace("#", str(number)) for card in own]
    return cards, wanted


def main():
    program = sys.argv[1] if len(sys.argv) > 1 else "./mvt-check"
    count = int(sys.argv[2]) if len(sys.argv) > 2 else 60
    chooser = random.Random(1967)
    session, wanted, decks = SITE, [], []
    for _ in range(count):
        cards, own = deck_of(chooser)
        base = session.count("\n") + 1
        wanted += [(base + line, name) for line, name in own]
        decks.append((base, cards))
        session += "./ READ\n" + "\n".join(cards) + "\n./ END\n"
    ran = subprocess.run([program], input=session.encode("latin-1"), capture_output=True, check=False)
    told = [(int(line), name) for line, name in re.findall(r"(?m)^line (\d+): ([CNP]\d+) ", ran.stdout.decode("latin-1"))]
    lines = session.split("\n")
    for line, name in sorted(set(wanted) - set(told)):
        print("DIFFERS line %d: %s is not told of %s" % (line, name, lines[line - 1]))
    for line, name in sorted(set(told) - set(wanted)):
        print("DIFFERS line %d: %s is told of %s" % (line, name, lines[line - 1]))
    print("%d decks with %d mistakes" % (count, len(wanted)))
    return 0 if sorted(told) == sorted(wanted) else 1


if __name__ == "__main__":
    sys.exit(main())
