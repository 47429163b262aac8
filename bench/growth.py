"""Sessions of one kind each that grow: what is long in them was dear once, or may be.

bench/table.py has their sizes.
"""

from pieces import INITIATOR, LIMIT, block, deck, fitting, initiators_of, lines, turns_of, volumes


# Decks and procedures


def procedure_called_often(n):
    """{:,} calls of thirty comment cards for each call

    They are one procedure, and each job calls it.
    """
    return block(b"./ PROC P", b"//A EXEC PGM=IEFBR14\n" + b"//*\n" * (30 * n)) + INITIATOR + deck(b"// EXEC P\n") * n


def long_procedure(n):
    """Calls of a procedure of {:,} comment cards

    A job calls it for each thousand of these.
    """
    return block(b"./ PROC P", b"//A EXEC PGM=IEFBR14\n" + b"//*\n" * n) + INITIATOR + deck(b"// EXEC P\n") * (n // 1000)


def calls_with_symbols(n):
    """{:,} calls, each with another value of a symbol

    The procedure has four comment cards for each call.
    """
    cards = b"//P PROC A=1\n//A EXEC PGM=IEFBR14\n" + b"//*\n" * (4 * n)
    return block(b"./ PROC P", cards) + INITIATOR + deck(lines(b"// EXEC P,A=%d", range(n)))


def dd_names(n):
    """A step of {:,} DDs, each with DDNAME of the next"""
    return INITIATOR + deck(b"//S EXEC PGM=IEFBR14\n" + b"".join(b"//D%d DD DDNAME=D%d\n" % (k, k + 1) for k in range(n)))


def blank_cards(n):
    """A deck of {:,} blank cards of data"""
    return block(b"./ READ", b"//J JOB 1\n// EXEC PGM=IEFBR14\n//D DD *\n" + b"\n" * n)


def data_and_turns(n):
    """A deck of {:,} blank cards, and nine turns"""
    return INITIATOR + deck(b"// EXEC PGM=IEFBR14\n//D DD *\n" + b"\n" * n) + turns_of(1, 9)


def blank_procedure(n):
    """A procedure of {:,} blank cards"""
    return block(b"./ PROC P", b"\n" * n)


def long_unit(n):
    """A unit that names its volume again {:,} times

    Twenty sets are made on it.
    """
    unit = b"./ UNIT U V" + b",V" * n + b"\n"
    return b"./ VOLUME V 9\n" + unit + INITIATOR + deck(b"// EXEC PGM=IEFBR14\n" + b"//D DD UNIT=U,SPACE=(TRK,99)\n" * 20) + turns_of(1, 20)


def unit_in_pieces(n):
    """{:,} serials of a unit, of two volumes in pieces

    Every second track of them is used: half of the tracks are free, and no five extents hold a set. Twenty sets are asked for at each of twenty turns.
    """
    used = b",".join(b"%d" % track for track in range(1, 400, 2))
    configured = b"".join(b"./ VOLUME V%d 400 USED %s\n" % (volume, used) for volume in range(2))
    unit = b"./ UNIT U " + b",".join(b"V%d" % (k % 2) for k in range(n)) + b"\n"
    return configured + unit + INITIATOR + deck(b"// EXEC PGM=IEFBR14\n" + b"//D DD UNIT=U,SPACE=(TRK,99)\n" * 20) + turns_of(1, 20)


# Configurations


def blank_sets(n):
    """{:,} sets of 116,000 blank records"""
    sets = b"".join(block(b"./ SET A%d V%d 4000" % (k, k), b"\n" * 116_000) for k in range(n))
    return volumes(n) + sets


def set_records(n):
    """{:,} sets of 127,000 records of one character"""
    names = [(b"A", b"V"), (b"B", b"W")][:n]
    records = b"A\n" * 127_000
    return b"".join(b"./ VOLUME %s 4000\n" % volume + block(b"./ SET %s %s 4000 CAT" % (name, volume), records) for name, volume in names)


def longest_programs(n):
    """{:,} programs of 4,096 requests"""
    return b"".join(block(b"./ PROGRAM P%d" % k, b"GET A\n" * 4095 + b"CODE 0\n") for k in range(n))


def groups(n):
    """{:,} groups of 255 generations at most"""
    return fitting((b"./ GROUP G%d 255\n" % k for k in range(n)), LIMIT)


def sets(n):
    """{:,} catalogued sets on sixteen volumes

    Each has one track.
    """
    return volumes(16) + b"".join(b"./ SET A%d V%d 1 CAT\n./ END\n" % (k, k % 16) for k in range(n))


def units(n):
    """{:,} units of one volume"""
    return b"./ VOLUME V 9\n" + lines(b"./ UNIT U%d V", range(n))


# Turns


def displays(n):
    """{:,} DISPLAYs of sixteen volumes"""
    return volumes(16) + b"./ DISPLAY\n" * n


def puts_to_output(n):
    """{:,} jobs of 4,095 PUTs to SYSOUT, and a writer

    The writer writes 9,999 lines.
    """
    job = deck(b"// EXEC PGM=P\n//O DD SYSOUT=B\n") + turns_of(1, 4105)
    return block(b"./ PROGRAM P", b"PUT O AAAAAAAA\n" * 4095 + b"CODE 0\n") + INITIATOR + job * n + b"./ WRITE B*9999\n"


def generations(n):
    """{:,} jobs that each make the next generation

    Their group is full.
    """
    job = deck(b"// EXEC PGM=IEFBR14\n//D DD DSN=G(+1),DISP=(,CATLG),SPACE=(TRK,1)\n") + turns_of(1, 9)
    return b"./ VOLUME V 4000\n./ GROUP G 255 SCRATCH\n" + INITIATOR + job * n


def places(n):
    """A job of {:,} steps of 58 unnamed sets"""
    step = b"//S EXEC PGM=IEFBR14\n" + lines(b"//D%d DD SPACE=(TRK,0)", range(58))
    return b"./ VOLUME V 100\n" + INITIATOR + deck(step * n) + turns_of(1, 118 * n + 4)


def old_sets(word, n):
    """Jobs of 240 sets each that are there, and that end by this word."""
    n -= n % 240
    all_sets = b"".join(b"./ SET A%d V%d 1 CAT\n./ END\n" % (k, k % 4) for k in range(n))
    jobs = b""
    for first in range(0, n, 240):
        steps = b""
        for begin in range(first, first + 240, 60):
            steps += b"// EXEC PGM=IEFBR14\n" + b"".join(b"//D DD DSN=A%d,DISP=(OLD,%s)\n" % (k, word) for k in range(begin, begin + 60))
        jobs += deck(steps) + turns_of(1, 500)
    return volumes(4) + all_sets + INITIATOR + jobs


def scratched(n):
    """{:,} sets that are deleted, by jobs of 240"""
    return old_sets(b"DELETE", n)


def uncatalogued(n):
    """{:,} sets that are uncatalogued, by jobs of 240"""
    return old_sets(b"UNCATLG", n)


# Waits


def held(volume, tracks):
    """A volume, two initiators, and a job that keeps so many tracks of it."""
    job = deck(b"// EXEC PGM=IEFBR14\n//A DD DSN=H,DISP=(,KEEP),SPACE=(TRK,%d)\n" % tracks)
    return b"./ VOLUME V %d\n" % volume + initiators_of(2) + job + turns_of(1, 4)


def simple_wait_for_space(n):
    """{:,} turns of a wait for the space of one set"""
    return held(10, 9) + deck(b"// EXEC PGM=IEFBR14\n//D DD SPACE=(TRK,5)\n") + turns_of(2, n + 2)


def long_wait_for_space(n):
    """{:,} turns of a wait for the space of 256 sets

    The job has four steps of 64 sets.
    """
    return held(100, 9) + deck((b"// EXEC PGM=IEFBR14\n" + b"//D DD SPACE=(TRK,1)\n" * 64) * 4) + turns_of(2, n + 2)


def wait_with_views(n):
    """{:,} turns of a wait for space, with 1,023 views"""
    steps = b"".join(b"//S%d EXEC PGM=IEFBR14,COND=EVEN\n//D DD SPACE=(TRK,5)\n" % k for k in range(1, 13))
    tests = b"//Y EXEC PGM=IEFBR14,COND=(EVEN,(1,LT,S1),(2,LT,S2),(3,LT,S3),\n// (4,LT,S4),(5,LT,S5),(6,LT,S6),(7,LT,S7))\n"
    return held(10, 9) + deck(steps + tests + b"//Z EXEC PGM=IEFBR14,COND=(EVEN,(8,LT,S8),(9,LT,S9))\n") + turns_of(2, n + 2)


def waits_for_space(n):
    """{:,} turns of each of 14 jobs that wait for space

    Each has 64 sets, and one job more holds the tracks.
    """
    holder = deck(b"// EXEC PGM=IEFBR14\n//A DD DSN=H,DISP=(,KEEP),SPACE=(TRK,3990)\n") + turns_of(1, 4)
    job = deck(b"// EXEC PGM=IEFBR14\n" + b"//D DD SPACE=(TRK,1)\n" * 64)
    return b"./ VOLUME V 4000\n" + initiators_of(15) + holder + job * 15 + b"".join(turns_of(k, n + 2) for k in range(2, 16))


def waits_for_a_name(n):
    """{:,} turns of fourteen jobs that wait for one name

    They take sixty turns each, again and again.
    """
    job = deck(b"// EXEC PGM=IEFBR14\n//D DD DSN=A,DISP=(NEW,CATLG),SPACE=(TRK,1)\n")
    rounds = [2 + k % 14 for k in range(n // 60)]
    return b"./ VOLUME V 9\n" + initiators_of(15) + job * 15 + turns_of(1, 3) + b"".join(turns_of(k, 60) for k in rounds)


def waits_for_the_last_name(n):
    """{:,} turns of a wait for the last of 255 names"""
    all_sets = b"".join(b"./ SET N%03d V 0 CAT\n./ END\n" % k for k in range(255))

    steps = b""
    for begin in range(0, 255, 64):
        words = [(k, b"OLD" if k == 254 else b"SHR") for k in range(begin, min(begin + 64, 255))]
        steps += b"// EXEC PGM=IEFBR14\n" + b"".join(b"//D DD DSN=N%03d,DISP=%s\n" % it for it in words)
    return b"./ VOLUME V 9\n" + all_sets + initiators_of(2) + deck(steps) * 2 + turns_of(1, 3) + turns_of(2, n)


def cancelled_last(n):
    """{:,} jobs that wait, the last cancelled as often

    Another one is read for each that is cancelled.
    """
    job = deck(b"//S EXEC PGM=IEFBR14\n")
    return b"./ INIT 1 B\n" + job * n + b"".join(b"./ CANCEL %04d\n" % (n + k) + job for k in range(n))


# Analysis


def scenes(pairs, steps):
    """A job of so many pairs, of which each makes a set on some paths, and of steps of sixty sets that stay, four steps' in all."""
    old = b"".join(b"./ SET R.S%d V 1 CAT\n./ END\n" % k for k in range(240))
    made = b"".join(b"//A%d EXEC PGM=IEFBR14,COND=EVEN\n//B%d EXEC PGM=IEFBR14,COND=(EVEN,(0,NE,A%d))\n" % (k, k, k)
                    + b"//T DD DSN=X%d,DISP=(NEW,CATLG),SPACE=(TRK,1)\n" % k for k in range(pairs))
    kept = [lines(b"//D DD DSN=R.S%d,DISP=(OLD,KEEP)", range(begin, begin + 60)) for begin in range(0, 240, 60)]
    later = b"".join(b"//Z%d EXEC PGM=IEFBR14,COND=EVEN\n" % k + kept[k % 4] for k in range(steps))
    return b"./ VOLUME V 4000\n" + old + INITIATOR + deck(made + later) + turns_of(1, 2000)


def five_scenes(n):
    """A job of 32 scenes, then {:,} steps of 60 sets

    Five pairs of steps make a set on some paths, and the sets of the other steps stay.
    """
    return scenes(5, n)


def nine_scenes(n):
    """A job of 512 scenes, then {:,} steps of 60 sets

    Nine pairs of steps make a set on some paths, and the sets of the other steps stay.
    """
    return scenes(9, n)


def seven_scenes(n):
    """A job of 128 scenes, then {:,} steps of 60 sets

    Seven pairs of steps make a set on some paths, and the sets of the other steps stay.
    """
    return scenes(7, n)


def pairs(count, own):
    """So many pairs of steps: the second of each, with these DDs, runs on some paths alone."""
    form = b"//A%d EXEC PGM=IEFBR14,COND=EVEN\n//B%d EXEC PGM=IEFBR14,COND=(EVEN,(0,NE,A%d))\n"
    return b"".join(form % (k, k, k) + own.replace(b"#", b"%d" % k) for k in range(count))


def beside_pairs(count, own, kept, first, n):
    """A job of so many pairs, each for a set on two volumes, and of so many steps that use first some sets, then sets that stay."""
    both = b"".join(b"./ SET X%d V1 1 CAT\n./ END\n./ SET X%d V2 1\n./ END\n" % (k, k) for k in range(count))
    old = b"".join(b"./ SET R.S%d V1 1 CAT\n./ END\n" % k for k in range(240))
    steps, at = b"", 0
    for k in range(n):
        left = [(at + i) % 240 for i in range(kept)]
        at += 60
        steps += b"//Z%d EXEC PGM=IEFBR14,COND=EVEN\n" % k + first + lines(b"//D DD DSN=R.S%d,DISP=(OLD,KEEP)", left)
    return b"./ VOLUME V1 4000\n./ VOLUME V2 4000\n" + both + old + INITIATOR + deck(pairs(count, own) + steps) + turns_of(1, 10)


def passed_scenes(n):
    """64 scenes by passed sets, then {:,} steps of 60

    Six pairs of steps pass an old set on some paths, and the sets of the other steps stay.
    """
    return beside_pairs(6, b"//T DD DSN=X#,DISP=(OLD,PASS)\n", 60, b"", n)


def touched_scenes(n):
    """32 scenes, whose sets {:,} later steps use

    Five pairs of steps catalogue a set anew on some paths; the later steps use these and 55 others.
    """
    own = b"//T DD DSN=X#,DISP=(OLD,UNCATLG)\n//U DD DSN=X#,DISP=(OLD,CATLG),VOL=SER=V2\n"
    return beside_pairs(5, own, 55, lines(b"//D DD DSN=X%d,DISP=(OLD,KEEP)", range(5)), n)


def full_groups(count, n):
    """A job of so many pairs that make a set on some paths, and of steps that each read the newest generations of fifty full groups."""
    numbers = [(k, g) for k in range(50) for g in range(1, 256)]
    kept = b"".join(b"./ SET G%d.G%04dV00 V%d 1 CAT\n./ END\n" % (k, g, (255 * k + g) % 4) for k, g in numbers)
    made = pairs(count, b"//T DD DSN=X#,DISP=(NEW,CATLG),SPACE=(TRK,1)\n")
    read = lines(b"//D DD DSN=G%d(0),DISP=SHR", range(50))
    steps = b"".join(b"//Z%d EXEC PGM=IEFBR14,COND=EVEN\n" % k + read for k in range(n))
    return volumes(4) + lines(b"./ GROUP G%d 255", range(50)) + kept + INITIATOR + deck(made + steps) + b"./ TURN 1*3\n"


def groups_of_two_pairs(n):
    """Four scenes, then {:,} steps of 50 full groups

    Two pairs of steps make a set on some paths, and the others read the newest generation of each group.
    """
    return full_groups(2, n)


def groups_of_four_pairs(n):
    """Sixteen scenes, then {:,} steps of 50 full groups

    Four pairs of steps make a set on some paths, and the others read the newest generation of each group.
    """
    return full_groups(4, n)


# The tests of the last two steps, by which a job has 1,023 views.
EIGHT_TESTS = b"(EVEN,(1,LT,S1),(2,LT,S2),(3,LT,S3),\n// (4,LT,S4),(5,LT,S5),(6,LT,S6),(7,LT,S7),(8,LT,S8))"
LAST_TEST = b"(EVEN,(7,LT,S9))"


def steps_with_views(dds_of, count=32):
    """The steps of a job of 1,023 views, with these DDs."""
    words = [b"EVEN"] * (count - 2) + [EIGHT_TESTS, LAST_TEST]
    return b"".join(b"//S%d EXEC PGM=IEFBR14,COND=%s\n" % (k, word) + dds_of(k) for k, word in enumerate(words, 1))


def jobs_with_views(dds_of, each, n, steps=32):
    """Jobs of 1,023 views, whose steps have so many DDs each, run to their ends."""
    cards = steps_with_views(dds_of, steps)
    return b"".join(deck(cards, b"V%d JOB" % k) + turns_of(1, 4 + steps * (2 * each + 2)) for k in range(n))


def kept_sets(count):
    """A volume, and so many catalogued sets on it."""
    return b"./ VOLUME VOL001 4000\n" + lines(b"./ SET R.S%d VOL001 0 CAT\n./ END", range(count)) + INITIATOR


def old_or_temporary(count):
    """The DDs of a step: old sets, of which each third is a temporary one."""
    forms = {True: b"//D%d DD DSN=&&T%d,SPACE=(TRK,1)\n", False: b"//D%d DD DSN=R.S%d,DISP=(OLD,KEEP)\n"}
    return lambda step: b"".join(forms[(step + k) % 3 == 0] % (k, k) for k in range(count))


def views_of_old_sets(n):
    """{:,} jobs of 1,023 views: 12 old sets a step

    They have 32 steps.
    """
    return kept_sets(12) + jobs_with_views(lambda step: lines(b"//D%d DD DSN=R.S%d,DISP=(OLD,KEEP)", range(12)), 12, n)


def views_of_no_sets(n):
    """{:,} jobs of 1,023 views: 12 DUMMYs a step

    They have 32 steps.
    """
    return b"./ VOLUME VOL001 4000\n" + INITIATOR + jobs_with_views(lambda step: lines(b"//D%d DD DUMMY", range(12)), 12, n)


def views_of_unnamed_sets(n):
    """{:,} jobs of 1,023 views: 12 unnamed sets a step

    They have 32 steps.
    """
    return b"./ VOLUME VOL001 4000\n" + INITIATOR + jobs_with_views(lambda step: lines(b"//D%d DD SPACE=(TRK,1)", range(12)), 12, n)


def views_of_both(n):
    """{:,} jobs of 1,023 views: 12 old or new sets a step

    They have 32 steps, and each third set is a temporary one.
    """
    return kept_sets(12) + jobs_with_views(old_or_temporary(12), 12, n)


def views_of_few_dds(n):
    """{:,} jobs of 1,023 views: 6 old or new sets a step

    They have 32 steps, and each third set is a temporary one.
    """
    return kept_sets(6) + jobs_with_views(old_or_temporary(6), 6, n)


def job_of_classes(plain, n):
    """A job of steps, the first ones without tests, each other one with eight tests of codes of its own."""
    steps = lines(b"//S%d EXEC PGM=IEFBR14", range(1, plain + 1))
    for k in range(n - plain):
        tests = [b"(%d,LT)" % (8 * k + i) for i in range(8)]
        steps += b"//S%d EXEC PGM=IEFBR14,\n//  COND=(%s,\n//  %s)\n" % (plain + k + 1, b",".join(tests[:4]), b",".join(tests[4:]))
    return INITIATOR + deck(steps, b"C JOB") + turns_of(1, 600)


def most_classes(n):
    """A job of {:,} steps, a quarter with eight tests

    The last ones have the tests, and each test is of another code.
    """
    return job_of_classes(n - n // 4, n)


def longest_views(n):
    """Two jobs of 1,023 views and {:,} steps of six sets

    Each third set is a temporary one.
    """
    return kept_sets(6) + jobs_with_views(old_or_temporary(6), 6, 2, n)


def many_classes(n):
    """A job of {:,} steps of eight tests each

    All but the first have tests, and each test is of another code.
    """
    return job_of_classes(1, n)


def longest_wait_for_space(n):
    """{:,} turns of a wait for the space of 32 steps

    Each step has twelve temporary sets, and the job has 1,023 views.
    """
    job = steps_with_views(lambda step: lines(b"//D%d DD DSN=&&T%d,SPACE=(TRK,1)", range(12)))
    return held(400, 390) + deck(job) + b"./ TURN 2*%d\n" % (n + 2)


def job_of_unnamed(steps, each):
    """A job of so many steps of so many unnamed sets, run to its end."""
    step = b"//S EXEC PGM=IEFBR14\n" + lines(b"//D%d DD SPACE=(TRK,0)", range(each))
    return deck(step * steps, b"M JOB") + turns_of(1, 4 + steps * (2 * each + 2))


def largest_jobs(n):
    """{:,} jobs of 32 steps of 58 unnamed sets"""
    return b"./ VOLUME VOL001 100\n" + INITIATOR + job_of_unnamed(32, 58) * n


def largest_job(n):
    """A job of {:,} steps of 64 unnamed sets"""
    return b"./ VOLUME VOL001 100\n" + INITIATOR + job_of_unnamed(n, 64)


def opposite_tests(n):
    """{:,} jobs of twelve steps of eight tests each

    The tests are of all relations in turn.
    """
    words = (b"EQ", b"NE", b"LE", b"GT", b"LT", b"GE")
    steps = b"// EXEC PGM=IEFBR14\n" * 20
    for k in range(20, 32):
        tests = [b"(%d,%s)" % (16 * (8 * k + i), words[(k - 20 + i) % 6]) for i in range(8)]
        steps += b"// EXEC PGM=IEFBR14,\n//  COND=(%s,\n//  %s)\n" % (b",".join(tests[:4]), b",".join(tests[4:]))
    return INITIATOR + deck(steps) * n + turns_of(1, 69 * n)


def waits_beside_shared_names(n):
    """{:,} turns of a wait, beside 126 shared names

    The job waits for one name, and the 126 are shared with fourteen others.
    """
    shared = [lines(b"//D DD DSN=N%d,DISP=SHR", range(begin, end)) for begin, end in ((0, 64), (64, 126))]
    steps = b"".join(b"// EXEC PGM=IEFBR14\n" + dds for dds in shared)
    own = deck(steps + b"// EXEC PGM=IEFBR14\n//D DD DSN=ZZ,DISP=OLD\n")
    starts = lines(b"./ TURN %d*2", range(2, 15))
    return b"./ VOLUME V 9\n" + initiators_of(15) + own + b"./ TURN 1*2\n" + deck(steps) * 13 + starts + own + turns_of(15, n)
