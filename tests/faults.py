#!/usr/bin/env python3
"""Compares what mvt-check says of a line of a session that has a fault with tests/check/faults.words: a number, the line, and what is to be said.

Each line is given as a session of its own, behind an event where its number is 8. Where the session has another fault then, or has it on another line,
as a line that needs others before it, nothing is compared; most are.

Usage: python3 tests/faults.py [MVT-CHECK], by default ./mvt-check
"""

import re
import subprocess
import sys

LEAST = 160


def entries():
    """Each number and line, and what is to be said."""
    with open("tests/check/faults.words", encoding="latin-1", newline="\n") as file:
        for entry in file.read().strip("\n").split("\n\n"):
            head, _, words = entry.partition("\n")
            number, _, line = head.partition(" ")
            yield int(number), line, words


def said_of(program, number, line):
    """What is said of the line behind its fault, or None where the session has another fault."""
    before = "./ DISPLAY\n" if number == 8 else ""
    ran = subprocess.run([program], input=(before + line + "\n").encode("latin-1"), capture_output=True, check=False)
    first, _, rest = ran.stdout.decode("latin-1").partition("\n")
    if not re.match(rf"line {2 if before else 1}: session fault S{number};", first):
        return None
    return "\n".join(text for text in rest.split("\n") if text.startswith("    "))


def main():
    program = sys.argv[1] if len(sys.argv) > 1 else "./mvt-check"
    compared = differ = 0
    for number, line, words in entries():
        said = said_of(program, number, line)
        if said is None:
            continue
        compared += 1
        if said != words:
            print(f"DIFFERS S{number} {line!r}:\n{said}\nis not\n{words}")
            differ = 1
    print(f"{compared} lines with a fault compared")
    return 1 if differ or compared < LEAST else 0


if __name__ == "__main__":
    sys.exit(main())
