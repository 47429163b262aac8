#!/usr/bin/env python3
"""Writes the list of crates in docs/ARCHITECTURE.md: each with what the head of its root file says of it, in the layers and the order of crates.txt.
What the page says behind it, from the word Read on, stays.

Usage: python3 docs/map.py [--check]
"""

import os
import re
import sys
import textwrap

PAGE = "docs/ARCHITECTURE.md"
# What the heads of all law crates say, which the page says once.
OF_LAWS = re.compile(r" (They have|A law has) no code: (a law|it) is a function that does nothing, and its contract is the law\.")
SOURCE = re.compile(r" \((?:GC28-6704|This profile|CLASS and PRTY|DISP parameter|which extents)[^()]*(?:\([^()]*\)[^()]*)*\)$")


def purpose_of(crate):
    """What the head of its root file says, without the sources."""
    root = f"crates/{crate}/src/main.rt"
    if not os.path.isfile(root):
        root = f"crates/{crate}/src/lib.rt"
    with open(root, encoding="utf-8") as file:
        head = " ".join(line[4:].strip() for line in file if line.startswith("//! "))
    return OF_LAWS.sub("", SOURCE.sub("", head))


def layers():
    """Each layer with its crates."""
    found = []
    with open("crates.txt", encoding="utf-8") as file:
        for line in file:
            if line.startswith("# "):
                found.append((line[2:].strip(), []))
            elif re.match(r"\w", line):
                found[-1][1].append(re.match(r"\w+", line)[0])
    return found


def listed(page):
    """The list anew."""
    reads = dict(re.findall(r"(?ms)^- `(\w+)`: (?:(?!^- ).)*?\b(Read\s.*?)(?=\n- |\n\n)", page))
    beside = dict(re.findall(r"(?m)^\*\*([^*]+)\*\*(.*)$", page))
    out = []
    for layer, crates in layers():
        out.append(f"**{layer}**{beside.get(layer, '')}\n")
        for crate in crates:
            text = f"- `{crate}`: {purpose_of(crate)}"
            if crate in reads:
                text += " " + " ".join(reads[crate].split())
            out.append(textwrap.fill(text, 120, subsequent_indent="  ", break_long_words=False, break_on_hyphens=False))
        out.append("")
    return "\n".join(out)


def main():
    with open(PAGE, encoding="utf-8") as file:
        page = file.read()
    begin = page.index("**Names and plans**")
    end = page.index("## From a listing line")
    new = page[:begin] + listed(page[begin:end]) + "\n" + page[end:]
    if "--check" in sys.argv[1:]:
        if new != page:
            print(f"DIFFERS {PAGE}: run docs/map.py")
            return 1
        print("the list of crates is that of their heads")
        return 0
    with open(PAGE, "w", encoding="utf-8") as file:
        file.write(new)
    return 0


if __name__ == "__main__":
    sys.exit(main())
