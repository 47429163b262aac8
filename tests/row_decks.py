"""Analyses the decks of all rows over both ways to keep views, and tells where these answer differently.

The decks are those of the tables of sessions, stores, records and paths, each with the volumes, units, sets, entries and procedures that
stand before it; groups are left out. Those of the laws of jcl_rows find nothing and may make their sets on one volume. worked_rows
compares the two answers, with path, step and DD.
Usage: python3 tests/row_decks.py [FILE]      behind `make test` or `make rows`, which build worked_rows; FILE keeps the table
"""

import glob
import itertools
import os
import re
import subprocess
import sys
import tempfile

from rows import repeated, rows_of, session_with, unescaped

PROGRAM = "crates/worked_rows/out/worked_rows"
TABLES = "crates/worked_rows/data"
# What a row of a path keeps of a table whose commands it shares.
KEPT = ("UNIT ", "ENTRY ", "CARD ", "PLACE ")
# What a job finds of which a row says nothing.
FOUND = ["UNIT SYSDA", "UNIT DISK", "VOLUME VOL001", "PLACES VOL001"]
# Sessions at the limits have thousands of decks that are alike.
MOST_OF_A_SESSION = 40


def in_stream(name, lines):
    """The cards of a procedure of the library, as they stand in a deck."""
    head = [] if lines and re.match(r"//\S* +PROC\b", lines[0]) else [f"//{name} PROC"]
    return [*head, *lines, "// PEND"]


def with_procedures(deck, procedures):
    """A deck with procedures behind its JOB card."""
    if not procedures:
        return deck
    ends = [k for k, card in enumerate(deck) if k and card.startswith("//") and not card.startswith(("//*", "// "))]
    at = ends[0] if ends else len(deck)
    return deck[:at] + procedures + deck[at:]


def blocks_of(lines):
    """Each statement of a session as its words, and the lines of its block."""
    words, block = None, []
    for line in lines:
        if line.split() == ["./", "END"]:
            if words:
                yield words, block
            words, block = None, []
        elif words:
            block.append(line)
        elif line.startswith("./ "):
            given = line.split()[1:]
            if given and given[0] in ("READ", "PROC", "SET", "PROGRAM"):
                words, block = given, []
            elif given:
                yield given, []


def of_session(text):
    """The input of a row of a path for each deck of a session."""
    found, procedures, serials = [], [], []
    for words, block in blocks_of(text.split("\n")):
        kind = words[0]
        if kind == "VOLUME" and len(words) > 1:
            serials.append(words[1])
            found.append(f"VOLUME {words[1]}")
        elif kind == "UNIT" and len(words) > 1:
            found.append(f"UNIT {words[1]}")
        elif kind == "SET" and len(words) > 2:
            found.append(f"SET {words[2]} {words[1]}")
            found += [f"ENTRY {words[1]} {words[2]}"] if "CAT" in words[3:] else []
        elif kind == "PROC" and len(words) > 1:
            procedures += in_stream(words[1], block)
        elif kind == "READ":
            places = [f"PLACES {serials[0]}"] if serials else []
            yield found + places + [f"CARD {card}" for card in with_procedures(block, procedures)]


def of_table(lines):
    """The input of a row of a path for a row that has the job's cards and what it finds."""
    found, procedure, procedures, serials = [], [], [], []
    for line in lines:
        words = line.split()
        if line.startswith("VOLUME "):
            serials.append(words[1])
            found.append(f"VOLUME {words[1]}")
        elif line.startswith("SET ") and len(words) > 2:
            found.append(" ".join(words[:3]))
        elif line.startswith("LINE "):
            procedure.append(line[5:])
        elif line.startswith("PROC ") and len(words) == 2:
            procedures += in_stream(words[1], procedure)
            procedure = []
        elif line.startswith(KEPT):
            found.append(line)
    deck = with_procedures([line[5:] for line in found if line.startswith("CARD ")], procedures)
    rest = [line for line in found if not line.startswith("CARD ")]
    if deck:
        yield rest + ([f"PLACES {serials[0]}"] if serials else []) + [f"CARD {card}" for card in deck]


def of_records(lines):
    """The input of a row of a path for each deck of a row about records."""
    deck = None
    for line in lines:
        if line == "/ENDDECK":
            yield FOUND + [f"CARD {card}" for card in deck or []]
            deck = None
        elif deck is not None:
            deck.append(line)
        elif line.startswith("//") and " JOB" in line:
            deck = [line]


def of_laws(text):
    """The input of a row of a path for each deck that stands as a text in a file of laws."""
    for deck in re.findall(r'"(//\w+ +JOB\b[^"\\]*(?:\\n[^"\\]*)*)"', text):
        yield FOUND + [f"CARD {card}" for card in deck.split("\\n") if card]


def sessions_of(put_in):
    """The sessions of a row, where its numbers are given to it the first and the last of them."""
    lines = put_in.rstrip("\n").split("\n")
    spans = [re.fullmatch(r"!each (\d+) to (\d+)", line) for line in lines]
    session = unescaped("\n".join(repeated(lines)) + "\n").decode("latin-1")
    numbers = sorted({int(it) for span in spans if span for it in span.groups()}) or [None]
    return [session if number is None else session_with(session, number) for number in numbers]


def inputs():
    """What each deck is from, its name, and its input as a row of a path."""
    for path in sorted(glob.glob(f"{TABLES}/*/*.rows")):
        topic = os.path.basename(os.path.dirname(path))
        for name, put_in, _ in rows_of(path):
            if topic == "sessions":
                made = [it for session in sessions_of(put_in) for it in itertools.islice(of_session(session), MOST_OF_A_SESSION)]
            elif topic == "stores":
                made = list(of_table(put_in.split("\n")))
            elif topic == "records":
                made = list(of_records(put_in.split("\n")))
            elif topic == "paths":
                made = [put_in.rstrip("\n").split("\n")]
            else:
                made = []
            for number, lines in enumerate(made, 1):
                yield topic, f"{path} {name} {number}", lines
    for path in sorted(glob.glob("crates/jcl_rows/specs/*.antt")):
        with open(path, encoding="utf-8") as file:
            for number, lines in enumerate(of_laws(file.read()), 1):
                yield "jcl_rows", f"{path} {number}", lines


def main():
    os.chdir(os.path.join(os.path.dirname(os.path.abspath(__file__)), ".."))
    seen, table, counts = set(), [], {}
    for origin, name, lines in inputs():
        text = "\n".join(line for line in lines if line.isascii())
        if text in seen:
            continue
        seen.add(text)
        counts[origin] = counts.get(origin, 0) + 1
        table.append(f"== {name}\n{text}\n=>\nnothing is wanted\n")
    with tempfile.TemporaryDirectory() as folder:
        path = sys.argv[1] if len(sys.argv) > 1 else os.path.join(folder, "decks.rows")
        with open(path, "w", encoding="ascii") as file:
            file.write("\n".join(table))
        run = subprocess.run([PROGRAM, "paths", path], capture_output=True, text=True, check=False)
    told = run.stderr.split("\n")
    kinds = {word: sum(1 for line in told if line.startswith(word)) for word in ("SAFE", "RISK", "TOOMANY", "REFUSED")}
    wrong = [line for line in told if line.startswith(("BY PLAIN VIEWS", "ITS PATH IS NOT TAKEN"))]
    print(run.stdout.strip())
    print("decks that differ: " + ", ".join(f"{count} of {origin}" for origin, count in sorted(counts.items())))
    print("answers: " + ", ".join(f"{count} {word}" for word, count in kinds.items()) + f"; {len(wrong)} where the two ways differ")
    sys.exit(1 if wrong or not kinds["SAFE"] else 0)


if __name__ == "__main__":
    main()
