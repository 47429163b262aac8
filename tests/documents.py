"""Compares README.md, docs/ and bench/README.md with the program.

An example is a block ```sh that is followed by a block ```text, which it has to print. A block ```sh without one is a
definition for those behind it. Each number of a refusal has its row, what is typed in docs/REFUSALS.md and each of its
faults is told as it says, and no line is longer than 120 columns.
Usage: python3 tests/documents.py [PROGRAM], by default ./mvt
"""

import glob
import os
import re
import subprocess
import sys

BLOCK = re.compile(r"^```(\w+)\n(.*?)^```\n", re.M | re.S)
PROGRAMS = ("make -s run SESSION=/dev/stdin", "./mvt")
# The refusals that have a row of their own: the type that has their numbers, their letter, and where the row stands.
NUMBERED = {
    "CardFault": ("C", "docs/REFUSALS.md"),
    "NameFault": ("N", "docs/REFUSALS.md"),
    "StatementFault": ("P", "docs/REFUSALS.md"),
    "EventFault": ("A", "docs/REFUSALS.md"),
    "QueueFault": ("Q", "docs/REFUSALS.md"),
    "Fault": ("S", "docs/SESSION.md"),
}
# What stands in a session before the deck of which a part was typed.
CONFIGURATION = "./ INIT 1 A\n./ PROC COPY\n//P EXEC PGM=IEFBR14\n//OUT DD SYSOUT=&CLASS\n./ END\n"


def text_of(path):
    with open(path, encoding="utf-8") as file:
        return file.read()


def printed(text, program):
    for name in PROGRAMS:
        text = text.replace(name, program)
    return subprocess.run(["sh", "-c", text], capture_output=True, text=True)


def examples_of(document):
    """The examples of a document, with the definitions before them, and what they are to print."""
    blocks = BLOCK.findall(text_of(document))
    definitions = ""
    for (kind, text), (next_kind, wanted) in zip(blocks, blocks[1:] + [("", "")]):
        if kind != "sh":
            continue
        if next_kind == "text":
            yield text, definitions + text, wanted
        elif "./mvt" in text:
            definitions += text


def examples_that_differ(document, program):
    for shown, text, wanted in examples_of(document):
        run = printed(text, program)
        if run.stdout + run.stderr != wanted:
            yield f"DIFFERS\n{shown}{run.stdout}{run.stderr}"


def long_lines(document):
    for number, line in enumerate(text_of(document).splitlines(), 1):
        if len(line) > 120:
            yield f"line {number} has {len(line)} columns"


def refusals_without_row():
    for path in sorted(glob.glob("crates/*/src/fault.rt")):
        for kind, number in re.findall(r"\b(\w*Fault)::\w+(?:\(_\))? => (\d+)", text_of(path)):
            if kind in NUMBERED:
                letter, document = NUMBERED[kind]
                if f"\n| {letter}{number} |" not in text_of(document):
                    yield f"{document}: no row has {letter}{number}"


def rows_told_otherwise():
    """The rows of the tables of refusals, and of faults of a session, that say something else than crates/refusal_text/src/table.rt."""
    source = text_of("crates/refusal_text/src/table.rt")
    texts = re.findall(r"letter: b'(\w)',\s+number: (\d+),\s+wrong: \"(.*?)\",\s+to_do: \"(.*?)\",", source)
    told = {f"{letter}{number}": (wrong, to_do) for letter, number, wrong, to_do in texts}
    document = text_of("docs/REFUSALS.md")
    rows = re.findall(r"^\| ([CNP]\d+) \| (.*) \| (.*) \|$", document, re.M)
    rows += re.findall(r"^\| (F\d+) \| (.*) \| (.*) \| `[A-Z].* \|$", document, re.M)
    rows += re.findall(r"^\| (S\d+) \| (.*) \| (.*) \|$", text_of("docs/SESSION.md"), re.M)
    for number, wrong, to_do in rows:
        if told.pop(number, None) != (wrong.replace("`", ""), to_do.replace("`", "")):
            yield f"docs: the table of refusal_text has other words for {number}"
    for number in told:
        if not number.startswith("Q"):
            yield f"docs: no row has {number}, which refusal_text has"


def deck_with(typed):
    """A deck that has this statement, or this operation with its operand, where it belongs."""
    job, step = "//J JOB 1", "//S EXEC PGM=IEFBR14"
    if typed.startswith("JOB "):
        return [f"//J {typed}", step]
    if typed.startswith("EXEC "):
        return [job, f"//S {typed}"]
    if typed.startswith("OUT "):
        return [job, step, f"//{typed}"]
    if " DD " in typed:
        return [job, step, typed]
    return [typed, step]


def typed_and_told_otherwise(program):
    """The rows of the first table of docs/REFUSALS.md that do not hold: no number says that the deck is read."""
    table = text_of("docs/REFUSALS.md").split("## From what was typed")[1].split("\n## ")[0]
    for typed, told in re.findall(r"^\| `(.+?)` \| (\w*) \|", table, re.M):
        session = "\n".join([CONFIGURATION + "./ READ", *deck_with(typed), "./ END", ""])
        run = subprocess.run([program], input=session, capture_output=True, text=True)
        if not run.stdout.startswith(f"0001 REJECTED {told}\n" if told else "0001 READ "):
            yield f"docs/REFUSALS.md: `{typed}` is told otherwise\n{run.stdout}{run.stderr}"


def faults_told_otherwise(program):
    """The rows of the table of faults of docs/REFUSALS.md that do not hold, in the session that stands over it."""
    section = text_of("docs/REFUSALS.md").split("## A job meets a fault")[1].split("\n## ")[0]
    configuration = "".join(re.findall(r"^    (\./ .*\n)", section, re.M))
    for fault, typed, told in re.findall(r"^\| (F\d+) \| (`.*`) \| `(.*)` \|$", section, re.M):
        deck = ["//J JOB 1", "//S EXEC PGM=IEFBR14", *(f"//{dd}" for dd in re.findall(r"`(.+?)`", typed))]
        session = "\n".join([configuration + "./ READ", *deck, "./ END", "./ TURN 1*3", ""])
        run = subprocess.run([program], input=session, capture_output=True, text=True)
        if not run.stdout.endswith(f"0001 {told}\n"):
            yield f"docs/REFUSALS.md: {fault} is told otherwise\n{run.stdout}{run.stderr}"


def main():
    os.chdir(os.path.join(os.path.dirname(os.path.abspath(__file__)), ".."))
    program = os.path.abspath(sys.argv[1] if len(sys.argv) > 1 else "mvt")
    wrong = [*refusals_without_row(), *rows_told_otherwise(), *typed_and_told_otherwise(program), *faults_told_otherwise(program)]
    for document in ["README.md", *sorted(glob.glob("docs/*.md")), "bench/README.md", "examples/shop/README.md"]:
        wrong += [f"{document}: {said}" for said in [*examples_that_differ(document, program), *long_lines(document)]]
        count = len([*examples_of(document)])
        if count:
            print(f"{document}: {count} examples")
    for said in wrong:
        print(said)
    sys.exit(bool(wrong))


if __name__ == "__main__":
    main()
