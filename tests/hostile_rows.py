"""Makes tables of crates/worked_rows/data/sessions by a rule: damaged records, crossed links, cancels, failing streams.

What is wanted comes from a reference: a command that reads a session on standard input and writes its listing, with the
options of mvt. Where a row says so its session is run once for each of some numbers, and equal answers that follow one
another are told once.
Usage: python3 tests/hostile_rows.py COMMAND..
"""

import multiprocessing
import os
import re
import subprocess
import sys

from rows import answers_by_number, session_with

FOLDER = "crates/worked_rows/data/sessions"
# How many bytes a write takes, where one fails.
BYTES_OF_A_WRITE = 50
MACHINE = """./ VOLUME VOL001 100
./ UNIT SYSDA VOL001
./ INIT 1 A
./ INIT 2 A
"""
SET_JOB = """./ READ
//PAY JOB 1,SMITH
//S1 EXEC PGM=IEFBR14
//OUT DD DSN=PAY.DATA,DISP=(NEW,CATLG),UNIT=SYSDA,
//            SPACE=(TRK,3)
./ END
"""
DUMMY_JOB = """./ READ
//J JOB 1
//S1 EXEC PGM=IEFBR14
//A DD DUMMY
//B DD DUMMY
./ END
"""
JOBS = {"a step that makes a set": SET_JOB, "a step with two dummies": DUMMY_JOB}
# The records that each job has: the JCT, the SCT, and two of its DDs.
RECORDS = (1, 2, 3, 4)


def damaged():
    """Each byte of two jobs' records that a ZAP can reach is set to 00 and to FF: as the job waits, and once it is assured."""
    for job, deck in JOBS.items():
        for record in RECORDS:
            for value in ("00", "FF"):
                zap = f"./ ZAP {record},\\#,{value}\n"
                for when, turns in (("as it waits", ""), ("assured", "./ TURN 1*3\n")):
                    session = f"{MACHINE}{deck}{turns}{zap}./ TURN 1*12\n./ DISPLAY\n"
                    yield f"{job}, {when}: a byte of record {record} is {value}", ["each 8 to 175"], session
    session = f"{MACHINE}{SET_JOB}{SET_JOB}./ ZAP 3,\\#,FF\n./ TURN 1*12\n./ DISPLAY\n./ TURN 2*12\n./ DISPLAY\n"
    yield "the names of a broken job are free for the job behind it", ["each 8 to 175"], session


# The links of the records 1 to 4 of the one job and 5 to 8 of the other: a record, and where its link stands.
LINKS = [
    ("the first step", 1, 12),
    ("the next step", 2, 8),
    ("the first DD", 2, 80),
    ("the next DD", 3, 40),
    ("the data set", 3, 44),
    ("the first step", 5, 12),
    ("the next step", 6, 8),
    ("the first DD", 6, 80),
    ("the next DD of the first", 7, 40),
    ("the data set of the first", 7, 44),
    ("the next DD of the second", 8, 40),
    ("the data set of the second", 8, 44),
]


def crossed():
    """Each link of two jobs leads to each record of both, to none and to a free one, and to those 65,536 further on."""
    for link, record, offset in LINKS:
        for high, where in (("0000", ""), ("0001", ", and 65,536 further on")):
            session = f"{MACHINE}{SET_JOB}{DUMMY_JOB}./ ZAP {record},{offset},{high}000\\#\n./ TURN 1*22\n./ DISPLAY\n"
            yield f"record {record}: {link}{where}", ["each 0 to 9"], session


WRITES = """./ PROGRAM WR
PUT OUT X
CODE 0
./ END
"""
# A step that writes a record, and one that runs only where the first ended abnormally.
WRITING = """./ READ
//J JOB 1
//S1 EXEC PGM=WR
//OUT DD DSN=A.B,DISP=(NEW,CATLG,DELETE),SPACE=(TRK,1)
//S2 EXEC PGM=IEFBR14,COND=((4095,GE,S1),EVEN)
./ END
"""
READS = """./ SET R.SET VOL001 1 CAT
HELLO
./ END
./ PROGRAM RD
GET IN
CODE 0
./ END
"""


def deck(name, *cards):
    return "".join(f"{card}\n" for card in (f"./ READ\n//{name} JOB 1", *cards, "./ END"))


SHARES = deck("J1", "//S1 EXEC PGM=IEFBR14", "//IN DD DSN=R.SET,DISP=SHR")
DELETES = deck("J2", "//S1 EXEC PGM=IEFBR14", "//IN DD DSN=R.SET,DISP=(SHR,DELETE)")
KEEPS_TEN = deck("J1", "//S1 EXEC PGM=IEFBR14", "//OUT DD DSN=A.B,DISP=(NEW,CATLG),SPACE=(TRK,10)")
WANTS_FIVE = deck("J2", "//S1 EXEC PGM=IEFBR14", "//OUT DD DSN=C.D,DISP=(NEW,CATLG),SPACE=(TRK,5)")
GETS = deck("J1", "//S1 EXEC PGM=RD", "//IN DD DSN=R.SET,DISP=SHR") + deck("J2", "//S1 EXEC PGM=RD", "//IN DD DSN=R.SET,DISP=SHR")
GROWS = deck("J", "//S1 EXEC PGM=WR", "//OUT DD DSN=A.B,DISP=(NEW,CATLG,DELETE),SPACE=(TRK,(0,2))")
PASSES = deck(
    "J",
    "//S1 EXEC PGM=IEFBR14",
    "//A DD DSN=A.B,DISP=(NEW,PASS),SPACE=(TRK,1)",
    "//T DD DSN=&&T,DISP=(NEW,PASS),SPACE=(TRK,1)",
    "//S2 EXEC PGM=WR,COND=EVEN",
    "//OUT DD SYSOUT=A",
)
GROUP = """./ GROUP PAY.G 2 SCRATCH
./ SET PAY.G.G0001V00 VOL001 1 CAT
./ END
./ SET PAY.G.G0002V00 VOL001 1 CAT
./ END
"""
ROLLS = deck("J", "//S1 EXEC PGM=IEFBR14", "//OUT DD DSN=PAY.G(+1),DISP=(NEW,CATLG),SPACE=(TRK,1)")
SMALL = MACHINE.replace("100", "11")


def events(text):
    """The statements of events that are named between commas."""
    return "".join(f"./ {event.strip()}\n" for event in text.split(","))


WRITING_ONE = MACHINE + WRITES + WRITING
NAMES = MACHINE + READS + SHARES + DELETES
SPACE = SMALL + KEEPS_TEN + WANTS_FIVE
TWO_GETS = MACHINE + READS + GETS
GROWING = MACHINE + WRITES + GROWS
REST_OF_GETS = "DEV VOL001, TURN 1*2, TURN 2*2, DEV VOL001, TURN 1*5, TURN 2*5"
FIRST_OF_TWO_ENDS = "CANCEL 1, TURN 2, TURN 1*9, TURN 2*9"

# What is cancelled, behind how many turns, of which session, and its events.
CANCELS = [
    ("a step that writes: at first", None, WRITING_ONE, "CANCEL 1, TURN 1*12"),
    ("a step that writes: up to its START", (1, 6), WRITING_ONE, "TURN 1*\\#, CANCEL 1, TURN 1*12"),
    (
        "a step that writes: its device ends behind the cancel",
        (1, 6),
        WRITING_ONE,
        "TURN 1*6, CANCEL 1, TURN 1*\\#, DEV VOL001, TURN 1*12",
    ),
    ("a step that writes: its device has ended", None, WRITING_ONE, "TURN 1*6, DEV VOL001, CANCEL 1, TURN 1*12"),
    ("a step that writes: from its DONE on", (1, 6), WRITING_ONE, "TURN 1*6, DEV VOL001, TURN 1*\\#, CANCEL 1, TURN 1*12"),
    ("two cancels", (1, 6), WRITING_ONE, "TURN 1*\\#, CANCEL 1, CANCEL 1, TURN 1*12"),
    ("two cancels, of two steps", (1, 8), WRITING_ONE, "TURN 1*4, CANCEL 1, TURN 1*\\#, CANCEL 1, TURN 1*12"),
    ("a job that waits for a name", (1, 5), NAMES, "TURN 1*3, TURN 2*\\#, CANCEL 2, TURN 1*6, TURN 2*9"),
    ("a job that waited for a name", (1, 9), NAMES, "TURN 1*3, TURN 2*2, TURN 1*6, TURN 2*\\#, CANCEL 2, TURN 2*9"),
    ("a job for which another waits", (1, 9), NAMES, f"TURN 1*2, TURN 2*2, TURN 1*\\#, {FIRST_OF_TWO_ENDS}"),
    ("a job that waits for space", (1, 6), SPACE, "TURN 1*3, TURN 2*\\#, CANCEL 2, TURN 1*6, TURN 2*9"),
    ("a job for whose space another waits", (1, 9), SPACE, f"TURN 1*2, TURN 2*2, TURN 1*\\#, {FIRST_OF_TWO_ENDS}"),
    (
        "a GET beside that of another job: the first",
        (1, 6),
        TWO_GETS,
        f"TURN 2*5, TURN 1*\\#, TURN 2, CANCEL 1, {REST_OF_GETS}",
    ),
    ("a GET beside that of another job: the second", (1, 8), TWO_GETS, f"TURN 1*6, TURN 2*\\#, CANCEL 2, {REST_OF_GETS}"),
    (
        "a GET beside that of another job: behind its device",
        (1, 5),
        TWO_GETS,
        "TURN 1*6, TURN 2*6, DEV VOL001, TURN 1, TURN 2*\\#, CANCEL 2, TURN 2, DEV VOL001, TURN 1*5, TURN 2*5",
    ),
    ("a PUT that grows: up to its START", (1, 6), GROWING, "TURN 1*\\#, CANCEL 1, DEV VOL001, TURN 1*9"),
    ("a PUT that grows: from its DONE on", (1, 5), GROWING, "TURN 1*6, DEV VOL001, TURN 1*\\#, CANCEL 1, TURN 1*9"),
    ("passed sets at the end", (1, 18), MACHINE + WRITES + PASSES, "TURN 1*\\#, CANCEL 1, TURN 1*18"),
    ("a generation that rolls off", (1, 9), MACHINE + GROUP + ROLLS, "TURN 1*\\#, CANCEL 1, TURN 1*9"),
]


def cancels():
    """A job is cancelled behind each number of turns."""
    for name, span, session, what in CANCELS:
        commands = ["each {} to {}".format(*span)] if span else []
        yield name, commands, session + events(f"{what}, DISPLAY")


MAKES = deck("PAY", "//S1 EXEC PGM=IEFBR14", "//OUT DD DSN=PAY.DATA,DISP=(NEW,CATLG),SPACE=(TRK,3)")
READS_MEMBER = deck("J1", "//S1 EXEC PGM=IEFBR14", "//IN DD DSN=PAY.G.G0001V00,DISP=SHR")
KEEPS_LATE = deck("J1", "//S1 EXEC PGM=IEFBR14", "//S2 EXEC PGM=IEFBR14", "//OUT DD DSN=A.B,DISP=(NEW,CATLG),SPACE=(TRK,10)")
GROWS_BESIDE = deck("J2", "//S1 EXEC PGM=WR", "//OUT DD DSN=C.D,DISP=(NEW,CATLG,DELETE),SPACE=(TRK,(0,2))")
AT_RISK = deck(
    "J",
    "//S1 EXEC PGM=IEFBR14",
    "//X DD DSN=A.B,DISP=(NEW,CATLG,DELETE),SPACE=(TRK,1)",
    "//S2 EXEC PGM=IEFBR14,COND=EVEN",
    "//X DD DSN=A.B,DISP=OLD",
)
MANY_VIEWS = AT_RISK.replace(",COND=EVEN", "")
RISK, VIEWS = MACHINE + AT_RISK, MACHINE + MANY_VIEWS
ROLL, FULL = MACHINE + GROUP + READS_MEMBER + ROLLS, SMALL + WRITES + KEEPS_LATE + GROWS_BESIDE
UP_TO_THE_GETS = "TURN 1*3, TURN 2*3, TURN 1*2, TURN 2*2, TURN 1, TURN 2, DEV VOL001, TURN 1, TURN 2, DEV VOL001"
ZAPS = "./ ZAP 4,40,00000007\n./ ZAP 9,8,00\n./ ZAP 7,16,4343202020202020\n"

# Sessions with their options, for which memory is refused and whose streams fail.
SESSIONS = {
    "a set is made": ([], MACHINE + MAKES, "TURN 1*8"),
    "two jobs read one set": ([], TWO_GETS, f"{UP_TO_THE_GETS}, TURN 2, TURN 1*3, TURN 2*3"),
    "a generation rolls off": ([], ROLL, "TURN 1*3, TURN 2*2, TURN 1*5, TURN 2*7"),
    "a set does not grow": ([], FULL, "TURN 1*5, TURN 2*8, TURN 1*5"),
    "a job at risk runs": (["risk run", "explain"], RISK, "TURN 1*12"),
    "a job at risk is refused": (["risk refuse", "explain"], RISK, "TURN 1*12"),
    "a job of too many views runs": (["risk run", "views 2"], VIEWS, "TURN 1*12"),
    "a job of too many views is refused": (["risk refuse", "views 2"], VIEWS, "TURN 1*12"),
    "a job waits for space": ([], SPACE, "TURN 1*3, TURN 2*4, TURN 1*5, TURN 2*4, CANCEL 2, WRITE A*20"),
    "records are overwritten": ([], MACHINE + DUMMY_JOB * 2 + ZAPS, "TURN 1*2, DISPLAY, TURN 1*10"),
}
# Each statement there is.
STATEMENTS = """./ VOLUME VOL001 100 USED 1,3-5
./ UNIT SYSDA VOL001
./ GROUP A.G 2 SCRATCH
./ SET A.SET VOL001 1 CAT
HELLO
./ END
./ PROC COPY
//P1 EXEC PGM=RD
//OUT DD SYSOUT=&CLASS
./ END
./ PROGRAM RD
GET IN
CODE 0
./ END
./ INIT 1 A
./ READ
//J JOB 1
//S1 EXEC COPY,CLASS=B
//P1.IN DD DSN=A.SET,DISP=SHR
./ END
./ ZAP 1,10,07
./ TURN 1*8
./ DEV VOL001
./ TURN 1
./ CANCEL 1
./ TURN 1*9
./ WRITE A*3
./ DISPLAY
"""


def sessions():
    """The name of each session, its options and its text."""
    for name, (options, session, what) in SESSIONS.items():
        yield name, options, session + events(f"{what}, DISPLAY")


def wanting():
    """The sessions, whose events are driven too: where memory is refused, an event for which it was wanting is repeated."""
    for name, options, session in sessions():
        yield name, [*options, "driven"], session


def failing():
    """Each call of the reader and of the writer fails in turn."""
    for name, options, session in [*sessions(), ("each statement", [], STATEMENTS)]:
        yield f"{name}; each read fails", [*options, "each read fails"], session
        for failure in ("fails", "takes nothing"):
            commands = [*options, f"write {BYTES_OF_A_WRITE}", f"each write {failure}"]
            yield f"{name}; each write of {BYTES_OF_A_WRITE} bytes {failure}", commands, session


TABLES = {
    "damaged.rows": ("Records of two jobs, of which each byte that a ZAP can reach is overwritten.", damaged),
    "crossed.rows": ("Links that lead to each record of two jobs, to none and to a free one.", crossed),
    "cancels.rows": ("Jobs that are cancelled behind each number of their turns.", cancels),
    "wanting.rows": ("Sessions for which tests/refused_memory.sh refuses each allocation in turn.", wanting),
    "streams.rows": ("Sessions of which each call of the reader or the writer fails in turn.", failing),
}
MORE = "tests/hostile_rows.py makes this table; what is wanted came from a reference. listings.rows tells how a row is written.\n"


def listing_of(options, session):
    run = subprocess.run([*sys.argv[1:], *options], input=session.encode(), capture_output=True, check=False)
    return run.stdout.decode() + (f"status {run.returncode}: {run.stderr.decode()}" if run.returncode else "")


def statements_of(session):
    """The first line of each statement, counted from 1, and the text up to its end. A block is one statement."""
    text, first, within = "", 1, False
    for number, line in enumerate(session.splitlines(keepends=True), 1):
        text += line
        if not within:
            first = number
            within = line.split()[1] in ("READ", "SET", "PROC", "PROGRAM")
        within = within and line != "./ END\n"
        if not within:
            yield first, text


def failed_reads(listings, session):
    """A read gives one byte. Where one fails the statements before are run; told is the line of the one that is cut, or the next."""
    for read in range(len(session) + 1):
        whole = [(line, text) for line, text in statements_of(session) if len(text) <= read]
        behind = whole[-1][1].count("\n") + 1 if whole else 1
        size = len(listings[whole[-1][1]]) if whole else 0
        yield f"bytes {size}, status 1: session fault S6 at line {behind}\n"


def failed_writes(listings, session):
    """Where a write fails, those before took their bytes; told is the line of the statement whose lines are cut."""
    for taken in range(0, len(listings[session]), BYTES_OF_A_WRITE):
        line = next(line for line, text in statements_of(session) if len(listings[text]) > taken)
        yield f"bytes {taken}, status 1: session fault S7 at line {line}\n"


def answer(pool, commands, session):
    """What a row wants."""
    options = [word for it in commands if it.startswith(("risk ", "views ", "explain")) for word in f"--{it}".split()]
    span = [re.fullmatch(r"each (\d+) to (\d+)", it) for it in commands]
    if any(span):
        first, last = next(map(int, it.groups()) for it in span if it)
        texts = [session_with(session, number) for number in range(first, last + 1)]
        return answers_by_number(first, pool.starmap(listing_of, [(options, text) for text in texts], 4))
    if not any(it.startswith("each ") for it in commands):
        return listing_of(options, session)
    texts = [text for _, text in statements_of(session)]
    listings = dict(zip(texts, pool.starmap(listing_of, [(options, text) for text in texts], 4)))
    failed = failed_reads if "each read fails" in commands else failed_writes
    return answers_by_number(1, failed(listings, session), ": ")


def row(pool, name, commands, session):
    reads = [] if "each read fails" in commands else ["read 65535"]
    told = "".join(f"!{it}\n" for it in reads + commands)
    return f"== {name}\n{told}{session}=>\n{answer(pool, commands, session)}"


def main():
    os.chdir(os.path.join(os.path.dirname(os.path.abspath(__file__)), ".."))
    with multiprocessing.Pool() as pool:
        for name, (remark, rows) in TABLES.items():
            texts = [row(pool, *each) for each in rows()]
            with open(os.path.join(FOLDER, name), "w", encoding="utf-8") as file:
                file.write("\n".join([f"{remark}\n\n{MORE}", *texts]))


if __name__ == "__main__":
    main()
