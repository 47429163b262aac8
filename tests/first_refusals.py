"""Prints the first number that is told of each refused deck, a line each.

Usage: python3 tests/first_refusals.py SESSION TOLD, where TOLD is what mvt-check wrote of the session
"""

import re
import sys


def decks_of(lines):
    """The first and the last line of each deck with the READ statement before it, from 1."""
    start = None
    for number, line in enumerate(lines, 1):
        word = line.split()[1:2] if line.startswith("./ ") else []
        if word == ["READ"] and start is None:
            start = number
        elif word == ["END"] and start is not None:
            yield start, number
            start = None


def main():
    with open(sys.argv[1], encoding="latin-1") as file:
        lines = file.read().split("\n")
    with open(sys.argv[2], encoding="latin-1") as file:
        told = [(int(line), number) for line, number in re.findall(r"^line (\d+): ([A-Z]\d+) ", file.read(), re.M)]
    for first, last in decks_of(lines):
        of_deck = [number for line, number in told if first <= line < last]
        if of_deck:
            print(of_deck[0])


if __name__ == "__main__":
    main()
