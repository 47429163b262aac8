"""Compares all worked rows that are texts: worked_rows with their tables, and ./mvt with the rows that are whole sessions.

Usage: python3 tests/rows.py PROGRAM       behind `make test` or `make rows`, which build worked_rows
"""

import glob
import itertools
import os
import re
import subprocess
import sys

FOLDER = "crates/worked_rows"
# The commands of a session's row that the program can be asked by its options, or that leave the listing as it is.
PLAIN = ("risk ", "views ", "explain", "read ", "write ", "driven", "times ", "end")


def text_of(path):
    with open(path, encoding="utf-8") as file:
        return file.read()


def compare_tables():
    """Runs worked_rows on its tables, and returns whether it said what stands in its file stdout."""
    command = [os.path.abspath(f"{FOLDER}/out/worked_rows"), *text_of(f"{FOLDER}/args").split()]
    run = subprocess.run(command, cwd=f"{FOLDER}/data", capture_output=True, text=True, check=False)
    sys.stdout.write(run.stdout)
    sys.stderr.write(run.stderr)
    return run.returncode == 0 and run.stdout == text_of(f"{FOLDER}/stdout")


def rows_of(path):
    """Yields each row of a table: its name, what is put in, and what is wanted."""
    for row in re.split(r"^== ", text_of(path), flags=re.M)[1:]:
        name, _, rest = row.partition("\n")
        put_in, _, wanted = rest.partition("=>\n")
        yield name.strip(), put_in, wanted.rstrip("\n") + "\n" if wanted.strip("\n") else ""


def unescaped(text):
    return re.sub(rb"\\(\n|[0-9A-F]{2})", lambda it: b"" if it[1] == b"\n" else bytes([int(it[1], 16)]), text.encode())


def repeated(lines):
    """The lines with each block between !times N and !end N times."""
    out, block, times = [], None, 0
    for line in lines:
        if line.startswith("!times "):
            block, times = [], int(line[7:])
        elif line == "!end":
            out += [session_with("\n".join(block), at) for at in range(1, times + 1)]
            block = None
        elif not line.startswith("!"):
            (out if block is None else block).append(line)
    return out


def session_with(session, number):
    """The session with a number in place of each `\\#`."""
    return re.sub(r"\\#(#*)", lambda it: str(number).zfill(len(it[1]) + 1), session)


def answers_by_number(first, answers, between=":\n"):
    """What is told of answers to numbers from the first on: those that follow one another and are equal once, behind the numbers."""
    told = ""
    for answer, group in itertools.groupby(enumerate(answers, first), key=lambda it: it[1]):
        numbers = [number for number, _ in group]
        told += " to ".join(map(str, sorted({numbers[0], numbers[-1]}))) + between + answer
    return told


def told_by(program, options, session):
    """What a program tells of a session."""
    run = subprocess.run([program, *options], input=unescaped(session), capture_output=True, check=False)
    told = run.stdout.decode("latin-1")
    return told + f"status {run.returncode}: {run.stderr.decode()}" if run.returncode else told


def compare_sessions(program, path):
    """Runs the rows of a table that are whole sessions with the program, and returns how many there are and how many fail."""
    count = failed = 0
    for name, put_in, wanted in rows_of(path):
        lines = put_in.rstrip("\n").split("\n")
        commands = [line[1:] for line in lines if line.startswith("!")]
        spans = [re.fullmatch(r"each (\d+) to (\d+)", command) for command in commands]
        if not all(span or command.startswith(PLAIN) for span, command in zip(spans, commands)):
            continue
        asked = [it.split() for it in commands if it.startswith(("risk ", "views ", "explain"))]
        options = [word for name, *values in asked for word in ("--" + name, *values)]
        session = "\n".join(repeated(lines)) + "\n"
        told = told_by(program, options, session) if not any(spans) else ""
        for first, last in (map(int, span.groups()) for span in spans if span):
            numbers = range(first, last + 1)
            told += answers_by_number(first, [told_by(program, options, session_with(session, number)) for number in numbers])
        count += 1
        if told != unescaped(wanted).decode("latin-1"):
            failed += 1
            sys.stderr.write(f"{path}: {name}\n-- wanted\n{wanted}-- came\n{told}")
    return count, failed


def main():
    os.chdir(os.path.join(os.path.dirname(os.path.abspath(__file__)), ".."))
    holds = compare_tables()
    sums = [compare_sessions(sys.argv[1], path) for path in sorted(glob.glob(f"{FOLDER}/data/sessions/*.rows"))]
    print(f"{sys.argv[1]}: {sum(count for count, _ in sums)} rows that are whole sessions")
    sys.exit(0 if holds and not any(failed for _, failed in sums) else 1)


if __name__ == "__main__":
    main()
