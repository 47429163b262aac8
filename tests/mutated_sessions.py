"""Runs mutated sessions, and asks of each that the program ends well: in ten seconds, by no signal, with status 0, 1 or 3 and what is said of it.

The sessions are those of crates/worked_rows and examples/, of which lines and bytes are changed: a number stands for
one of them. With a reference's command what it lists, says and ends with is asked for too. A session that fails is
kept in out/mutated, and the numbers of those that fail are told.
Usage: python3 tests/mutated_sessions.py PROGRAM FIRST COUNT [COMMAND..]
"""

import collections
import functools
import glob
import multiprocessing
import os
import random
import re
import subprocess
import sys

from rows import repeated, rows_of, session_with, unescaped

SECONDS = 10
SECONDS_OF_REFERENCE = 100
# A longer session takes its time with the reference.
MOST_BYTES = 8_000
SAID = {0: rb"", 1: rb"session fault S[1-8] at line [0-9]+\n", 3: rb"out of memory\n"}
NUMBERS = (b"0", b"1", b"2", b"15", b"16", b"255", b"256", b"4095", b"4096", b"4097", b"9999", b"10000", b"65536", b"18446744073709551616")
BYTES = b"\0\t\r\n ',.*&()/=-+0A\\\x7f\x80\xff"
OPTIONS = ([], [], [], ["--risk", "refuse"], ["--views", "1"], ["--views", "2"], ["--explain"], ["--explain", "--risk", "refuse"])
EVENTS = ("TURN {i}", "TURN {i}*{n}", "WRITE A*{n}", "DEV VOL001", "CANCEL {i}", "DISPLAY", "ZAP {n},{o},{b}", "ZAP {i},{o},{b}")


@functools.cache
def sessions():
    """The sessions that are mutated, and options."""
    found = set()
    for path in sorted(glob.glob("crates/worked_rows/data/sessions/*.rows")):
        for _, put_in, _ in rows_of(path):
            found.add(unescaped("\n".join(repeated(session_with(put_in, 9).rstrip("\n").split("\n"))) + "\n"))
    for path in sorted(glob.glob("examples/*.session")):
        with open(path, "rb") as file:
            found.add(file.read())
    return sorted(it for it in found if 20 < len(it) < MOST_BYTES)


def event(pick):
    bytes_ = pick.choice(("00", "FF", "0001", "0003", "%02X" % pick.randrange(256)))
    said = pick.choice(EVENTS).format(i=pick.randrange(1, 5), n=pick.randrange(1, 12), o=pick.randrange(8, 176), b=bytes_)
    return f"./ {said}\n".encode()


def places_behind(lines):
    """The lines behind the first READ that begin and end no block."""
    first = next((at for at, line in enumerate(lines) if line.startswith(b"./ READ")), len(lines))
    return [at for at in range(first, len(lines)) if not lines[at].startswith((b"./ READ", b"./ END"))]


def change_lines(pick, lines, places):
    """Drops, doubles, swaps or adds a line."""
    at, other = pick.choice(places), pick.choice(places)
    kind = pick.randrange(6)
    if kind == 0:
        del lines[at]
    elif kind == 1:
        lines.insert(other, lines[at])
    elif kind == 2:
        lines[at], lines[other] = lines[other], lines[at]
    else:
        last_deck = max((at for at, line in enumerate(lines) if line.startswith(b"./ END")), default=0)
        lines.insert(pick.randrange(last_deck, len(lines)) + 1, event(pick))


def change_bytes(pick, text):
    """Changes a byte or a number."""
    at = pick.randrange(len(text))
    kind = pick.randrange(4)
    if kind == 0:
        return text[:at] + bytes([pick.choice(BYTES)]) + text[at + 1 :]
    if kind == 1:
        return text[:at] + bytes([text[at] ^ 1 << pick.randrange(8)]) + text[at + 1 :]
    number = pick.choice(list(re.finditer(rb"[0-9]+|$", text)))
    return text[: number.start()] + pick.choice(NUMBERS) + text[number.end() :]


def change(pick, text, everywhere):
    """Changes a session: everywhere, or behind its first READ and no line that begins or ends a block, so that most of it is run."""
    lines = text.splitlines(keepends=True)
    places = list(range(len(lines))) if everywhere else places_behind(lines)
    if not places:
        return text
    kind = pick.randrange(10)
    if everywhere and kind == 0:
        return text[: pick.randrange(len(text))]
    if everywhere and kind == 1:
        more = pick.choice(sessions()).splitlines(keepends=True)
        lines[pick.choice(places) :] = more[pick.randrange(len(more)) :]
    elif kind < 7:
        change_lines(pick, lines, places)
    else:
        at = pick.choice(places)
        lines[at] = change_bytes(pick, lines[at])
    return b"".join(lines)


def mutated(number):
    """The session of a number, and its options."""
    pick = random.Random(number)
    text = pick.choice(sessions())
    everywhere = pick.random() < 0.3
    for _ in range(pick.choice((1, 1, 2, 3, 5, 8))):
        text = change(pick, text, everywhere) if text else text
    return text, pick.choice(OPTIONS)


def run(command, options, text, seconds):
    """The status, the listing, and what is said; None where it does not end."""
    try:
        done = subprocess.run([*command, *options], input=text, capture_output=True, check=False, timeout=seconds)
    except subprocess.TimeoutExpired:
        return None
    return done.returncode, done.stdout, done.stderr


def try_session(number):
    """Runs the session of a number. It returns what is wrong, and the status."""
    text, options = mutated(number)
    came = run([os.path.abspath(sys.argv[1])], options, text, SECONDS)
    wrong = None
    if came is None:
        wrong = "it does not end"
    elif came[0] not in SAID or not re.fullmatch(SAID[came[0]], came[2]):
        wrong = f"status {came[0]}, {came[2]}"
    elif sys.argv[4:] and run(sys.argv[4:], options, text, SECONDS_OF_REFERENCE) not in (came, None):
        wrong = "the reference tells otherwise"
    if wrong:
        os.makedirs("out/mutated", exist_ok=True)
        with open(f"out/mutated/{number}.session", "wb") as file:
            file.write(text)
        wrong = f"{number} {' '.join(options)}: {wrong}"
    return wrong, came and came[0]


def main():
    os.chdir(os.path.join(os.path.dirname(os.path.abspath(__file__)), ".."))
    first, count = map(int, sys.argv[2:4])
    statuses = collections.Counter()
    failed = 0
    with multiprocessing.Pool() as pool:
        for wrong, status in pool.imap(try_session, range(first, first + count), 16):
            statuses[status] += 1
            if wrong:
                failed += 1
                print(wrong, flush=True)
    print(f"{count} mutated sessions, {failed} of them fail; by status: {dict(sorted(statuses.items(), key=str))}")
    sys.exit(1 if failed else 0)


if __name__ == "__main__":
    main()
