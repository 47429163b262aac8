#!/usr/bin/env python3
"""Compares what docs/PROVED.md says is asked of callers with the code: each public call that has a `requires` is named there, and no other.

Usage: python3 tests/requires.py
"""

import glob
import re
import sys

CALL = re.compile(r"^( *)pub fn (\w+)(?![^\n]* \{\n)((?:.|\n)*?)\n\1\{", re.M)
OWNER = re.compile(r"^impl(?:<[^\n]*?>)? ([A-Za-z0-9]+)", re.M)


def asking():
    """The calls that ask for something, each with its crate; methods behind their type."""
    for path in sorted(glob.glob("crates/*/src/**/*.rt", recursive=True)):
        crate = path.split("/")[1]
        if crate.endswith("_rows") or crate == "row_table":
            continue
        with open(path, encoding="utf-8") as file:
            text = file.read()
        for call in CALL.finditer(text):
            if re.search(r"\brequires\b", call[3]):
                owners = OWNER.findall(text[: call.start()]) if call[1] else []
                yield crate, f"{owners[-1]}::{call[2]}" if owners else call[2]


def main():
    with open("docs/PROVED.md", encoding="utf-8") as file:
        section = file.read().split("## Asked of the caller\n")[1].split("\n## ")[0]
    named = set(re.findall(r"`([A-Za-z0-9_:]+)`", section))
    asked = list(asking())
    differ = 0
    for crate, call in asked:
        if crate not in named or call not in named:
            print(f"MISSING {crate}: {call}")
            differ = 1
    calls = {call for _, call in asked}
    for name in sorted(named):
        if "::" in name and name not in calls:
            print(f"ASKS NOTHING {name}")
            differ = 1
    if not differ:
        print(f"{len(asked)} calls ask for something, each named with its crate")
    return differ


if __name__ == "__main__":
    sys.exit(main())
