#!/usr/bin/env python3
"""Compares the layers of crates.txt, docs/ARCHITECTURE.md and docs/PROVED.md: each crate stands in all three, below the same heading.

Usage: python3 tests/layers.py
"""

import re
import sys


def layers_of(path, heading, crates):
    """The heading below which each crate is named first: a pattern tells headings, another the lines that name crates."""
    found, layer = {}, None
    with open(path, encoding="utf-8") as file:
        for line in file:
            begins = re.match(heading, line)
            if begins:
                layer = begins[1].strip()
            named = re.match(crates, line)
            if named and layer:
                for crate in re.findall(r"\w+", named[1]):
                    found.setdefault(crate, layer)
    return found


def main():
    listed = layers_of("crates.txt", r"# (.*)", r"(\w+)[^#:]*:")
    names = r"((?:`\w+`(?:, | and )?)+)"
    others = {
        "docs/ARCHITECTURE.md": layers_of("docs/ARCHITECTURE.md", r"\*\*([^*]+)\*\*", "- " + names),
        "docs/PROVED.md": layers_of("docs/PROVED.md", r"## (.*)", "(?:- )?" + names),
    }
    differ = 0
    for crate, layer in listed.items():
        for page, layers in others.items():
            if layers.get(crate) != layer:
                print(f"DIFFERS {crate}: {layer} in crates.txt, {layers.get(crate)} in {page}")
                differ = 1
    if not differ:
        print(f"{len(listed)} crates have one layer each")
    return differ


if __name__ == "__main__":
    sys.exit(main())
