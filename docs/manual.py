#!/usr/bin/env python3
"""Writes the manual page of a program from its help.

    python3 docs/manual.py PROGRAM > PROGRAM.1

The help is what the program prints when it is asked with --help, on whichever stream. Its first line says what the program does, then come
its usage and its options, and last, where it has any, lines of a word and a colon. The page is for `man`.
"""

import os
import re
import subprocess
import sys


def asked(program, word):
    """What the program prints when it is asked with a word."""
    ran = subprocess.run([os.path.abspath(program), word], stdin=subprocess.DEVNULL, capture_output=True, text=True, check=False)
    return (ran.stdout or ran.stderr).rstrip("\n")


def plain(text):
    """A text that no command of the page begins in."""
    text = text.replace("\\", "\\e").replace("-", "\\-")
    return re.sub(r"(?m)^([.'])", r"\\&\1", text)


def options(lines):
    """The options, each with what it does."""
    shown = []
    for line in lines:
        found = re.fullmatch(r"\s+(\S.*?)\s{2,}(\S.*)", line)
        if found:
            shown += [".TP", f"\\fB{plain(found[1])}\\fR", plain(found[2])]
    return shown


def page(program):
    """The whole page."""
    name = os.path.basename(program)
    version = asked(program, "--version").split()[-1]
    about, usage, listed, *rest = asked(program, "--help").split("\n\n")
    shown = [f".TH {name.upper()} 1 \"\" \"{name} {version}\"", ".SH NAME", f"{plain(name)} \\- {plain(about[0].lower() + about[1:])}"]
    shown += [".SH SYNOPSIS", f"\\fB{plain(usage.removeprefix('Usage: '))}\\fR", ".SH OPTIONS", *options(listed.split("\n")[1:])]
    for line in "\n".join(rest).split("\n"):
        word, _, text = line.partition(": ")
        if text:
            shown += [f".SH {word.upper()}", plain(text)]
    return "\n".join(shown) + "\n"


if __name__ == "__main__":
    if len(sys.argv) != 2:
        sys.exit(__doc__)
    sys.stdout.write(page(sys.argv[1]))
