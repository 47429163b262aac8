"""Sessions at the limits of the program, and sessions of a machine at work. bench/table.py has their sizes."""

from pieces import EVENTS, INITIATOR, LIMIT, block, deck, fitting, initiators_of, lines, turns_of, volumes

STEP = b"// EXEC PGM=IEFBR14\n"
NAMED_STEP = b"//S EXEC PGM=IEFBR14\n"


# The limits


def empty(_):
    """An empty session"""
    return b""


def turns(n):
    """{:,} turns, one a statement"""
    return INITIATOR + b"./ TURN 1\n" * n


def events(n):
    """{:,} events in few statements"""
    return INITIATOR + turns_of(1, n)


def past(n):
    """{:,} events, nearly all past the last one done"""
    return INITIATOR + b"./ TURN 1*9999\n" * (n // 9999)


def line_feeds(n):
    """{:,} line feeds, more than a session may have"""
    return b"\n" * n


def rejected(n):
    """{:,} jobs, each rejected"""
    return deck(b"") * n


def jobs(n):
    """{:,} jobs, each run to its end"""
    return INITIATOR + (deck(STEP) * 1500 + b"./ TURN 1*9000\n") * (n // 1500) + b"./ WRITE A*9999\n"


def cards(n):
    """A deck of {:,} cards of data"""
    return INITIATOR + deck(NAMED_STEP + b"//D DD *\n" + b"X" * 80 + b"\n" + (b"X" * 79 + b"\n") * (n - 4))


# Decks and procedures


def calls(n):
    """A deck of {:,} cards: 15 procedures and 32 calls

    A step has 64 DDs, half of them overrides, each continued, and the rest of the deck is comments.
    """
    name = [b"P%d" % k for k in range(15)]
    body = lines(b"//D%d DD DUMMY", range(32))
    called = b"".join(b"//%s PROC\n//A EXEC PGM=IEFBR14\n" % p + body + b"// PEND\n" for p in name)
    over = lines(b"//A.D%d DD DUMMY,\n//     DCB=BLKSIZE=80\n//A.E%d DD DUMMY,\n//     DCB=BLKSIZE=80", range(32))
    called += b"".join(b"//S%d EXEC %s\n" % (k, name[k % 15]) + over for k in range(32 * n // 10_000))
    return INITIATOR + deck(called + b"//*\n" * (n - 1 - called.count(b"\n")))


def procedures(n):
    """{:,} procedures of the library, each fifth called"""
    library = lines(b"./ PROC P%d\n//A EXEC PGM=IEFBR14\n./ END", range(n))
    return INITIATOR + library + b"".join(deck(b"// EXEC P%d\n" % k) for k in reversed(range(0, n, 5)))


def beside_statements(symbol, cards):
    """A deck beside a procedure of one step and 9,000 statements: where a symbol is named, it has a value, and the last DD uses it."""
    head = b"//P PROC %s=1\n" % symbol if symbol else b""
    last = b"//Z DD SPACE=(TRK,&%s)\n" % symbol if symbol else b"//Z DD DUMMY\n"
    procedure = block(b"./ PROC P", head + b"//A EXEC PGM=IEFBR14\n" + lines(b"//D%d DD DUMMY", range(1, 8999)) + last)
    return procedure + INITIATOR + deck(cards)


OVERRIDE = b"//S EXEC P\n//A.D%d DD UNIT=A"
BAD_OVERRIDE = b"//S EXEC P\n//X.D1 DD UNIT=A\n"


def overrides(n):
    """{:,} calls of 9,000 statements, with an override"""
    return beside_statements(b"", lines(OVERRIDE, range(1, n + 1)))


def bad_override(n):
    """{:,} calls with an override, the last a bad one

    The procedure has 9,000 statements, and the last override is of a step that is not there.
    """
    return beside_statements(b"", lines(OVERRIDE, range(1, n)) + BAD_OVERRIDE)


def bad_overrides(n):
    """{:,} calls with an override, each a bad one

    The procedure has 9,000 statements, and each override is of a step that is not there.
    """
    return beside_statements(b"", BAD_OVERRIDE * n)


def values(n):
    """{:,} calls of 9,000 statements, with a value

    Each of them gives a symbol another value.
    """
    return beside_statements(b"V", lines(b"//S EXEC P,V=%d", range(1, n + 1)))


def bad_value(n):
    """{:,} calls with a value, the last a bad one

    The procedure has 9,000 statements, and each call gives a symbol another value.
    """
    return beside_statements(b"V", lines(b"//S EXEC P,V=%d", range(1, n)) + b"//S EXEC P,V=X\n")


def bad_values(n):
    """{:,} calls with a value, each a bad one

    The procedure has 9,000 statements, and each call gives a symbol another value.
    """
    return beside_statements(b"V", lines(b"//S EXEC P,V=X%d", range(n)))


def references(n):
    """{:,} calls of 9,000 statements, with a reference

    Each of them has a DD that refers to nothing.
    """
    return beside_statements(b"", lines(b"//S%d EXEC P\n//A.D1 DD DSN=*.S%d.A.X", range(n)))


# Jobs of many DDs


def run(cards, turns):
    """A job, run by one initiator with so many turns."""
    return deck(cards) + turns_of(1, turns)


def steps_of(count, dds):
    """So many steps of so many DDs."""
    return (NAMED_STEP + b"//D DD DUMMY\n" * dds) * count


def most_dds(n):
    """A job of {:,} DDs in 32 steps, run to its end"""
    return INITIATOR + run(steps_of(32, n // 32), 4 + 2 * n + 2 * 32)


def many_steps(n):
    """{:,} jobs of 32 steps of 16 DDs, run to their ends"""
    return INITIATOR + run(steps_of(32, 16), 4 + 32 * 34) * n


def one_step(n):
    """{:,} jobs of one step of 16 DDs, run to their ends"""
    return INITIATOR + run(steps_of(1, 16), 4 + 34) * n


# Queues and output


def idle(n):
    """{:,} idle turns beside 2,047 jobs that wait

    The turns are those of an initiator of eight classes, and the jobs have another class.
    """
    job = deck(STEP, b"J JOB 1,CLASS=O")
    return b"./ INIT 1 ABCDEFGH\n" + job * 2047 + b"./ TURN 1*5000\n" * (n // 5000) + b"./ TURN 1*%d\n" % (n % 5000 + 1)


def waiting(n):
    """Thirty idle turns for each of {:,} jobs that wait

    The turns are those of fifteen initiators of eight classes, and the jobs have another class.
    """
    job = deck(STEP, b"J JOB 1,CLASS=O")
    return initiators_of(15, b"ABCDEFGH") + job * n + b"".join(b"./ TURN %d*%d\n" % (i, 2 * n) for i in range(1, 16))


def initiators(n):
    """{:,} jobs under fifteen initiators

    They run as far as the events go.
    """
    job = deck(STEP)
    return initiators_of(15) + (job * 150 + lines(b"./ TURN %d*60", range(1, 16))) * (n // 150) + job * (n % 150)


def one_writer(n):
    """The output of {:,} jobs, by one writer"""
    job = deck(STEP, b"J JOB 1,MSGCLASS=B")
    return INITIATOR + (job * 750 + b"./ TURN 1*4500\n") * (n // 750) + b"./ WRITE B*2250\n" * (n * 7 // 2250)


WRITERS = b"ABCDEFGHIJKLMNOPQRSTUVWXYZ0123456789"


def many_writers(n):
    """The output of {:,} jobs, by 36 writers"""
    decks = [deck(STEP, b"J JOB 1,MSGCLASS=%c" % WRITERS[i % len(WRITERS)]) for i in range(n)]
    ran = b"".join(b"".join(decks[k:k + 750]) + b"./ TURN 1*4500\n" for k in range(0, n, 750))
    writes = b"".join(b"./ WRITE %c*%d\n" % (c, n * 7 // len(WRITERS)) for c in reversed(WRITERS))
    return INITIATOR + ran + writes


# Sets


def catalogued(n):
    """{:,} jobs, each of which makes a set

    Fifteen initiators run them as far as the events go, and each job catalogues its set.
    """
    decks = [deck(STEP + b"//A DD DSN=A%d,DISP=(,CATLG),SPACE=(TRK,1)\n" % k) for k in range(n)]
    ran = b"".join(b"".join(decks[k:k + 15]) + lines(b"./ TURN %d*8", range(1, 16)) for k in range(0, n, 15))
    return volumes(3) + initiators_of(15) + ran


def small_jobs(n):
    """{:,} jobs of classes under fifteen initiators

    Each makes and catalogues a set while the session has room for one; at last the initiators have all events that are left.
    """
    room, left = LIMIT * (n + 1) // 10_000 - 3968, (EVENTS + 1) * (n + 1) // 10_000 - 1 - n
    some_turns = lines(b"./ TURN %d*5", range(1, 16))
    parts = [lines(b"./ VOLUME VOL%d 4000", range(3)), b"./ UNIT SYSDA VOL0,VOL1,VOL2\n"]
    parts += [b"./ INIT %d %s\n" % (i, b"AB" if i % 2 else b"BA") for i in range(1, 16)]
    size = sum(len(part) for part in parts)
    for k in range(n):
        made = b"//D DD DSN=A.B%d,DISP=(,CATLG),SPACE=(TRK,1)\n" % k
        job = b"J%d JOB CLASS=%c" % (k, b"AB"[k % 2])
        fits = size + len(deck(NAMED_STEP + made, job)) + 70 * (n - k - 1) <= room
        parts.append(deck(NAMED_STEP + made * fits, job) + some_turns * (k % 15 == 14))
        size += len(parts[-1])
    left -= 75 * (n // 15)
    last = [b"./ TURN %d*%d\n" % (i + 1, min(600, left - 600 * i)) for i in range(15) if 600 * i < left]
    return b"".join(parts + last)


def broken_up(first, last, step):
    """A volume on which each so manyth track is used, from the first to the last."""
    return b"./ VOLUME VOL001 4000 USED " + b",".join(b"%d" % k for k in range(first, last + 1, step)) + b"\n"


def unnamed(n):
    """{:,} jobs of 64 unnamed sets, three side by side

    They are on a volume of 2,000 free extents.
    """
    used = b",".join(b"%d" % k for k in range(0, 4000, 2))
    job = deck(STEP + b"//D DD SPACE=(TRK,1)\n" * 64)
    rounds = lines(b"./ TURN %d*67", range(1, 4)) * 2
    return b"./ VOLUME V 4000 USED " + used + b"\n" + initiators_of(3) + (job * 3 + rounds) * (n // 3)


def fragments(n):
    """{:,} jobs of 64 sets of one to five tracks

    Three run side by side, on a volume of 2,000 free extents of one track.
    """
    def job(k):
        return deck(NAMED_STEP + b"".join(b"//A%d DD SPACE=(TRK,%d)\n" % (i, (2 * i + k) % 5 + 1) for i in range(64)), b"F%d JOB" % k)

    rounds = lines(b"./ TURN %d*15", range(1, 4)) * 9
    return broken_up(1, 3999, 2) + initiators_of(3) + b"".join(job(k) + job(k + 1) + job(k + 2) + rounds for k in range(0, n, 3))


def deleted(n):
    """{:,} jobs of 20 sets, made and then deleted

    The volume has free extents of all lengths. Each odd job makes and catalogues the sets, the next one deletes them.
    """
    used = b",".join(b"%d" % (7 * k + k % 5) for k in range(560))
    head = b"./ VOLUME V 4000 USED " + used + b"\n" + INITIATOR

    def job(k, operands):
        return run(STEP + b"".join(b"//D DD DSN=A%d.B%d,%s\n" % (k % 50, j, operands(j)) for j in range(20)), 46)

    def both(k):
        return job(k, lambda j: b"DISP=(,CATLG),SPACE=(TRK,%d)" % (j % 7 + 1)) + job(k, lambda j: b"DISP=(OLD,DELETE)")

    return head + b"".join(both(k) for k in range(n // 2))


def long_extents(n):
    """Jobs of 20 sets, which are deleted: {:,} bytes

    The sets have up to eight tracks, and the volume has free extents of three. Of three jobs two delete the sets that they make; the
    third catalogues them for a job that deletes them.
    """
    def job(k, more, operands):
        names = b"".join(b"//A%d DD DSN=K%d.S%d,%s\n" % (i, k, i, operands(i)) for i in range(20))
        return deck(NAMED_STEP + names, b"L%d%s JOB" % (k, more)) + turns_of(1, 47)

    def both(k):
        word = b"DELETE" if k % 3 else b"CATLG"
        yield job(k, b"", lambda i: b"DISP=(,%s),SPACE=(TRK,%d)" % (word, (k + 3 * i) % 9))
        if k % 3 == 0:
            yield job(k, b"X", lambda i: b"DISP=(OLD,DELETE)")

    head = broken_up(1, 3989, 4) + INITIATOR
    return head + fitting((job for k in range(n) for job in both(k)), n - len(head))


# Names


def names(n):
    """{:,} jobs of 255 names, run to their ends

    Their steps have 64 DDs.
    """
    old = lines(b"./ SET N%d V 1 CAT\n./ END", range(255))
    cards = b"".join(NAMED_STEP + lines(b"//D DD DSN=N%d,DISP=SHR", range(k, min(k + 64, 255))) for k in range(0, 255, 64))
    return b"./ VOLUME V 4000\n" + old + INITIATOR + run(cards, 3 + 4 * 2 + 2 * 255 + 1) * n


def long_names(n):
    """Jobs of 255 longer names, in turn: {:,} bytes

    Each of fifteen initiators runs a job to its end in its turn.
    """
    old = lines(b"./ SET LONG.NAME.N%d VOL001 0 CAT\n./ END", range(255))
    cards = b"".join(NAMED_STEP + lines(b"//D%d DD DSN=LONG.NAME.N%d,DISP=SHR", range(k, min(k + 64, 255))) for k in range(0, 255, 64))
    head = b"./ VOLUME VOL001 100\n" + old + initiators_of(15)
    return head + fitting((deck(cards, b"N%d JOB" % k) + turns_of(k % 15 + 1, 522) for k in range(n)), n - len(head))


def blocked(n):
    """{:,} turns of a job that waits for 255 names

    Beside it is the job that holds them.
    """
    dds = [b"//D DD DSN=N%d,DISP=(OLD,DELETE)\n" % k for k in range(255)]
    job = deck(b"".join(NAMED_STEP + b"".join(dds[k:k + 64]) for k in range(0, 255, 64)))
    rounds = b"./ TURN 2*9999\n" * (n // 9999) + b"./ TURN 2*%d\n" % (n % 9999 + 1)
    return initiators_of(2) + job * 2 + b"./ TURN 1*3\n" + rounds


# Programs


def requests(n):
    """Three programs of {:,} GETs and PUTs

    To each request is a device's end, and to each program are five times as many lines of a writer.
    """
    old = block(b"./ SET OLD V 125 CAT", b"A\n" * (n // 2))
    program = block(b"./ PROGRAM RW", b"GET IN\nPUT OUT A\n" * (n // 2) + b"CODE 0\n")
    cards = b"//S EXEC PGM=RW\n//IN DD DSN=OLD,DISP=SHR\n//OUT DD SPACE=(TRK,125)\n"
    job = deck(cards) + b"./ TURN 1*7\n" + b"./ DEV V\n./ TURN 1*2\n" * n + b"./ TURN 1*4\n"
    return b"./ VOLUME V 4000\n" + INITIATOR + old + program + job * 3 + b"./ WRITE A*%d\n" % n * 5


def three_programs(n):
    """{:,} PUTs to a set, GETs, and PUTs to SYSOUT each

    The PUTs to a set run twice, once on a set that grows. Each turn and each device's end is a statement, and idle turns end the session.
    """
    programs = [(b"PUTS", lines(b"PUT OUT record number %d", range(n))),
                (b"SPOOLS", lines(b"PUT LIST line %d", range(n))),
                (b"GETS", b"GET IN\n" * n)]
    jobs = [(1, b"P JOB", b"PUTS", b"OUT DD DSN=A.B,DISP=(NEW,CATLG),SPACE=(TRK,(1,1))"),
            (1, b"Q JOB", b"PUTS", b"OUT DD DSN=A.C,DISP=(NEW,CATLG),SPACE=(TRK,200)"),
            (2, b"G JOB", b"GETS", b"IN DD DSN=A.C,DISP=SHR")]
    text = b"./ VOLUME VOL001 4000\n" + initiators_of(3)
    text += b"".join(block(b"./ PROGRAM " + name, body + b"CODE 0\n") for name, body in programs)
    for i, job, program, dd in jobs:
        each = b"./ TURN %d*1\n./ DEV VOL001\n./ TURN %d*1\n" % (i, i)
        text += deck(b"//S EXEC PGM=%s\n//%s\n" % (program, dd), job) + turns_of(i, 5) + each * n + turns_of(i, 10)
    text += deck(b"//S EXEC PGM=SPOOLS\n//LIST DD SYSOUT=C\n", b"R JOB MSGCLASS=B") + turns_of(3, n + 20)
    text += b"./ WRITE C*9999\n./ WRITE B*9999\n"
    left = (EVENTS + 1) * n // 4000 - 1 - (10 * n + 20_067)
    return text + (turns_of(1, left) if 0 < left else b"")
