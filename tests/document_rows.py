"""Makes the table crates/worked_rows/data/sessions/documents.rows.

It has each session that README.md or docs/ shows with what it prints, and those of examples/ that they do not
show. The examples are those that tests/documents.py finds. Each is run with a program that keeps its input,
which is the session of a row.
Usage: python3 tests/document_rows.py [--check]: writes the table, or compares it with the documents
"""

import glob
import os
import re
import sys
import tempfile

from documents import examples_of, printed, text_of

TABLE = "crates/worked_rows/data/sessions/documents.rows"
REMARK = """Sessions that README.md and docs/ show, and the others of examples/, with what they print.
tests/document_rows.py makes this table.

A row is named by its document and the heading over it, or by its file. In a session \\XY is the byte of these two
digits of sixteen.
"""
# A program that keeps its options and the session which it is given. Help and the version are asked for without a session.
KEEPER = """#!/bin/sh
case $1 in --help | --version) exit 2 ;; esac
echo "$@" >'{0}.options'
cat >'{0}'
"""


def heading_over(text, example):
    headings = re.findall(r"^#+ (.*)$", text[: text.index(f"```sh\n{example}")], re.M)
    return headings[-1] if headings else "its beginning"


def session_of(text):
    """The options and the session that an example gives to the program, or None where it runs none."""
    with tempfile.TemporaryDirectory() as folder:
        program, kept = os.path.join(folder, "mvt"), os.path.join(folder, "session")
        with open(program, "w", encoding="utf-8") as file:
            file.write(KEEPER.format(kept))
        os.chmod(program, 0o755)
        printed(text, program)
        return (text_of(f"{kept}.options").strip(), text_of(kept)) if os.path.exists(kept) else None


def line_in_table(line):
    line = line.replace("\\", "\\5C")
    if line.startswith(("!", "== ")) or line == "=>":
        line = f"\\{ord(line[0]):02X}{line[1:]}"
    return f"{line[:-1]}\\20" if line.endswith(" ") else line


def row(name, options, session, printed_lines):
    lines = "".join(f"!{option.strip()}\n" for option in options.split("--")[1:])
    lines += "".join(f"{line_in_table(line)}\n" for line in session.splitlines())
    wanted = re.sub(r"^(session fault S\d at line \d+)$", r"status 1: \1", printed_lines, flags=re.M)
    return f"== {name}\n{lines}=>\n{wanted}"


def shown_sessions():
    """Where a session is shown, its options and the session, and what it prints."""
    for document in ["README.md", *sorted(glob.glob("docs/*.md"))]:
        for example, text, wanted in examples_of(document):
            session = session_of(text)
            if session is not None:
                yield f"{document}, {heading_over(text_of(document), example)}", session, wanted
    for path in sorted(glob.glob("examples/**/*.session", recursive=True)):
        names = [path.replace(".session", end) for end in (".listing", ".error")]
        yield path, ("", text_of(path)), "".join(text_of(name) for name in names if os.path.exists(name))


def rows():
    names, sessions = {}, set()
    for name, session, wanted in shown_sessions():
        if session in sessions:
            continue
        sessions.add(session)
        names[name] = names.get(name, 0) + 1
        yield row(f"{name}, {names[name]}" if names[name] > 1 else name, *session, wanted)


def main():
    os.chdir(os.path.join(os.path.dirname(os.path.abspath(__file__)), ".."))
    table = "\n".join([REMARK, *rows()])
    if sys.argv[1:] == ["--check"]:
        if text_of(TABLE) != table:
            sys.exit(f"{TABLE} is not what the documents show: python3 tests/document_rows.py makes it")
        return
    with open(TABLE, "w", encoding="utf-8") as file:
        file.write(table)


if __name__ == "__main__":
    main()
