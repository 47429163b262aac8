#!/usr/bin/env python3
"""Looks for what the pages cite: each file exists, has the names that stand beside it, and each call named by its crate is there.

Usage: python3 tests/citations.py

A file is cited by its path, with or without `crates/` in front, or by its name alone: then it is in a crate that was named before it in the same
passage or in the line of crates above it, or one crate alone has it. The names after it, each in quotes of its own, have to be in it, and so has a
word without quotes that ends them, as in `admit_core/specs/Told.antt`, `IsTold`, risk. `Admissions`, Admits cites a name of the file Admissions.antt
of `world_meaning` or `jcl_meaning`. In a table whose last column is "Defined in", a name alone is in a file that the page cited last above it.
In docs/PROVED.md each name in the entry of a crate is one of that crate or of those that it uses. Any other name of the code in quotes, a word with
an underscore or with `::`, is somewhere in a crate, or is an edit; but for docs/GATE.md, which also tells of what was, and for what
docs/DECISIONS.md says was asked for otherwise.
"""

import functools
import glob
import os
import re
import sys

PAGES = ["README.md", *sorted(glob.glob("docs/*.md"))]
FILE = re.compile(r"`([A-Za-z_0-9/]+\.(?:antt|rt))`((?:[,:;]? (?:and |with )?`[A-Za-z_0-9:]+`)*(?:, [A-Za-z_]+(?=[;)]))?)")
CALL = re.compile(r"`([a-z_0-9]+)::([A-Za-z_0-9:]+)`")
CLAUSE = re.compile(r"`([A-Z][A-Za-z]+)`, ([A-Za-z_]+)(?=[;)]| \|)")
CRATE = re.compile(r"`([a-z_0-9]+)(?:/[^`]*)?`")
DEFINED_IN = re.compile(r"^\|[^\n]*\| Defined in \|\n\|[-|]*\|\n((?:\|[^\n]*\n)*)", re.M)
# The crates whose files a page names without a path.
KNOWN = ("world_meaning", "jcl_meaning")


@functools.cache
def text_of(path):
    with open(path, encoding="utf-8") as file:
        return file.read()


@functools.cache
def sources_of(crate):
    return "\n".join(text_of(path) for path in glob.glob(f"crates/{crate}/src/**/*.rt", recursive=True))


@functools.cache
def everything_of(crate):
    return sources_of(crate) + "\n".join(text_of(path) for path in glob.glob(f"crates/{crate}/specs/*.antt"))


def place_of(cited, before):
    """The file that is cited behind a text, or None."""
    for path in (cited, f"crates/{cited}"):
        if os.path.isfile(path):
            return path
    crates = [name for name in CRATE.findall(before) if os.path.isdir(f"crates/{name}")]
    for crate in reversed(crates):
        for path in (f"crates/{crate}/{cited}", f"crates/{crate}/specs/{cited}", f"crates/{crate}/src/{cited}"):
            if os.path.isfile(path):
                return path
    found = glob.glob(f"crates/*/specs/{cited}") + glob.glob(f"crates/*/src/{cited}")
    return found[0] if len(found) == 1 else None


def has_name(text, name):
    return re.search(rf"(?<![A-Za-z_0-9]){re.escape(name.split('::')[-1])}(?![A-Za-z_0-9])", text)


def known_file(name):
    """The file of this name in a crate whose files are named without a path, or None."""
    found = [path for path in (f"crates/{crate}/specs/{name}.antt" for crate in KNOWN) if os.path.isfile(path)]
    return found[0] if found else None


def wrong_in_tables(page):
    """Yields the names in the last columns of tables that the files cited above them do not have."""
    text = text_of(page)
    for table in DEFINED_IN.finditer(text):
        cited = FILE.findall(text[: table.start()])
        path = place_of(cited[-1][0], text[: table.start()]) if cited else None
        for cell in re.findall(r"\| ([^|]*) \|$", table[1], re.M):
            for name in re.findall(r"`([A-Za-z_]+)`", cell):
                if not known_file(name) and not (path and (has_name(text_of(path), name) or has_name(text_of(path), f"{name}_faults"))):
                    yield f"no {name} in {path}"


def wrong_in_entries(page):
    """Yields the names in the entries of crates, as `- `plain`: ..` in docs/PROVED.md, that no crate that the entry is about has, or uses."""
    used = dict(re.findall(r"^(\w+)[^#:\n]*:(.*)$", text_of("crates.txt"), re.M))
    entries = text_of(page).split("## Asked of the caller\n")[0]
    for entry in re.finditer(r"^- ((?:`\w+`(?:, | and )?)+): ((?:.|\n  )*)", entries, re.M):
        crates = re.findall(r"\w+", entry[1])
        if all(crate in used for crate in crates):
            known = "\n".join(everything_of(crate) for own in crates for crate in (own, *used[own].split()))
            for name in re.findall(r"`([A-Za-z_][A-Za-z_0-9:]*)`", entry[2]):
                if name not in used and not has_name(known, name):
                    yield f"no {name} in {' or '.join(crates)}"


@functools.cache
def known_names():
    """All names of the code, of its definitions, of crates and of edits."""
    found = {name for crate in os.listdir("crates") for name in re.findall(r"\w+", everything_of(crate))}
    edits = glob.glob("crates/*/must-fail/*") + glob.glob("tests/edits/*/*")
    return found | set(os.listdir("crates")) | {os.path.basename(edit).split(".")[0] for edit in edits}


def unknown_in(page):
    """Yields the names of the code that no crate has."""
    text = text_of(page).split("## Names that were asked for otherwise\n")[0] if page != "docs/GATE.md" else ""
    for name in dict.fromkeys(re.findall(r"`([A-Za-z]\w*(?:_\w+|(?:::\w+)+))`", re.sub(r"^```.*?^```\n", "", text, flags=re.M | re.S))):
        if name.split("::")[-1] not in known_names():
            yield f"no name {name}"


def wrong_in(page):
    """Yields what a page cites and what is not there."""
    yield from wrong_in_tables(page)
    yield from wrong_in_entries(page) if page == "docs/PROVED.md" else ()
    yield from unknown_in(page)
    heading = ""
    for passage in re.split(r"\n\n|\n(?=- |\||\d+\. )", text_of(page)):
        passage = " ".join(passage.split())
        heading = passage if re.fullmatch(r"`[a-z_0-9]+`(, `[a-z_0-9]+`)*", passage) else heading
        for found in FILE.finditer(passage):
            path = place_of(found[1], heading + passage[: found.start()])
            if path is None:
                yield f"no file {found[1]}"
                continue
            for name in re.findall(r"`([A-Za-z_0-9:]+)`|, ([A-Za-z_]+)$", found[2]):
                name = name[0] or name[1]
                if not os.path.isdir(f"crates/{name}") and not has_name(text_of(path), name):
                    yield f"no {name} in {path}"
        for crate, name in CALL.findall(passage):
            if os.path.isdir(f"crates/{crate}") and not has_name(sources_of(crate), name):
                yield f"no call {crate}::{name}"
        for file, name in CLAUSE.findall(FILE.sub("", passage)):
            path = known_file(file)
            if path is None:
                yield f"no file {file}.antt"
            elif not has_name(text_of(path), name):
                yield f"no {name} in {path}"


def main():
    os.chdir(os.path.join(os.path.dirname(os.path.abspath(__file__)), ".."))
    wrong = [f"{page}: {what}" for page in PAGES for what in wrong_in(page)]
    print("\n".join(wrong or ["each file, name and call that a page cites is there"]))
    return 1 if wrong else 0


if __name__ == "__main__":
    sys.exit(main())
