#!/usr/bin/env python3
"""Compares what mvt-check says in words with listings, session by session, and tells each sentence that contradicts.

Of each RISK it looks at the fault, the step and the DD, how the steps before it end, and what happened last, beside the lines that --explain shows; at what
comes of the job if each step ends with code 0, and at what it is answered when it is run again, beside a listing of the session with other programs. Of a
session that has a fault it looks at the number, the line, and whether the line that is marked has that fault by itself.

It is run by hand: the sessions are files, generated or mutated as one likes.
Usage: python3 tests/check_words.py MVT-CHECK MVT-PLAY MVT SESSION..
"""

import collections
import datetime
import functools
import multiprocessing
import re
import subprocess
import sys

DEEDS = {
    "makes it": r"TAKE {dd} \S+ MADE",
    "receives it": r"TAKE {dd} \S+ RECEIVED",
    "deletes it": r"DISP {dd} \S+ DELETED",
    "keeps it": r"DISP {dd} \S+ KEPT",
    "keeps it, since it has not expired": r"DISP {dd} \S+ UNEXPIRED",
    "passes it": r"DISP {dd} \S+ PASSED",
    "catalogs it": r"DISP {dd} \S+ CATALOGED",
    "uncatalogs it": r"DISP {dd} \S+ UNCATALOGED",
}
ENDS = {"deletes it": "DELETED", "keeps it": "KEPT", "keeps it, since it has not expired": "UNEXPIRED"}
# What explains a fault: a set that is missing was deleted, or left the catalog.
EXPLAINS = {
    "F1": {"deletes it", "uncatalogs it"},
    "F4": {"deletes it", "uncatalogs it"},
    "F5": {"deletes it", "uncatalogs it"},
    "F8": {"deletes it"},
    "F2": {"makes it", "receives it", "keeps it", "keeps it, since it has not expired", "passes it", "catalogs it"},
    "F3": {"catalogs it"},
}
# When a set expires that stays: a day that the deck codes or the machine has, or days.
EXPIRES = re.compile(r"since it expires (?:on (\d{4})/(\d{3})|(\d+) days? after the job's date|after 2155)")
CONFIGURATION = {"VOLUME", "UNIT", "GROUP", "SET", "PROC", "PROGRAM", "INIT"}
RISK = re.compile(r"^line \d+: job (\d+) (\S+) (?:is at RISK|fails): (.*)$")
OTHER = re.compile(r"^line \d+: job (\d+) (\S+) is ASSURED: ")


def run(program, text, *options):
    """What a program writes of a session, on the output and on the errors."""
    ran = subprocess.run([program, *options], input=text, capture_output=True, check=False)
    return ran.stdout.decode("latin-1"), ran.stderr.decode("latin-1")


def answers_in(listing):
    """The last answer of each job, and the lines that explain it."""
    answers, job = {}, None
    for line in listing.split("\n"):
        found = re.match(r"(\d{4}) (RISK .*|ASSURED .*|TOOMANY .*|WAIT SPACE .*)$", line)
        if found:
            job = int(found[1])
            answers[job] = (found[2], [])
        elif line.startswith("-- PATH "):
            answers[int(line[8:12])][1].append(line[13:])
    return answers


def names_in(path, said):
    """The steps of a path by their numbers, as words call them: a name that several steps have is followed by the step's number."""
    names, several = {}, set(re.findall(r"(\S+) \(\d+\)", said))
    for line in path:
        found = re.match(r"STEP (\d+) (\S+) ", line)
        if found:
            several |= {found[2]} & set(names.values()) - {"-"}
            names[int(found[1])] = found[2]
    return {step: "%s (%d)" % (name, step) if name in several else name for step, name in names.items()}


def subject(names, step):
    """A step as the subject of a sentence."""
    name = names.get(step, "?")
    return "step %d" % step if name == "-" else name


def outcome(word, behind_end):
    ends = "" if behind_end else " ends"
    if word == "B":
        return " is bypassed"
    if word == "F":
        return " is flushed"
    return ends + (" with code %d" % int(word[1:]) if word[0] == "C" else " abnormally")


def path_words(path, names):
    """How the steps before end, in words."""
    words = [] if path == "-" else path.split(",")
    if len(words) > 1 and all(word == "C0000" for word in words):
        return ", for example when the %d steps before it end with code 0" % len(words)
    text, behind_end = "", False
    for place, word in enumerate(words):
        joint = ", for example when " if place == 0 else " and " if place + 1 == len(words) else ", "
        text += joint + subject(names, place + 1) + outcome(word, behind_end)
        behind_end = word[0] in "CU"
    return text


def deeds_of(path, names, who):
    """The lines of a step on a path, or of the job's end."""
    running, lines = 0, []
    for line in path:
        found = re.match(r"STEP (\d+) ", line)
        if found:
            running = int(found[1])
        left = line.startswith("LEFT ")
        if (who == "the job's end") if left else subject(names, running) == who:
            lines.append(line)
    return lines


def check_deed(said, fault, path, names):
    """What happened last is on the path, and explains the fault."""
    said = EXPIRES.sub("since it has not expired", said)
    found = re.match(r"; (.+?) (%s)(?: on (\S+))?$" % "|".join(sorted(DEEDS, key=len, reverse=True)), said)
    if not found:
        return "what happened last is not understood: %r" % said
    who, deed, serial = found.groups()
    lines = deeds_of(path, names, who)
    if who == "the job's end":
        is_there = any(line.endswith(" " + ENDS.get(deed, deed.split()[0].upper() + "?")) for line in lines if line.startswith("LEFT "))
        is_there = is_there or any(re.search(r" (CATALOGED|UNCATALOGED)$", line) for line in lines)
    else:
        is_there = any(re.match(DEEDS[deed].format(dd=r"\d+"), line) for line in lines)
    if not is_there:
        return "%s does not: %r" % (who, said)
    if serial is None and deed not in EXPLAINS.get(fault, ()):
        return "%s does not explain %s" % (deed, fault)
    return None


def check_risk(said, answer, path):
    """The words of a RISK beside its line."""
    found = re.match(r"RISK (F\d+) STEP (\d+) DD (\d+) PATH (\S+)$", answer)
    if not found:
        return "the listing has %r" % answer
    fault, step, dd, outcomes = found[1], int(found[2]), int(found[3]), found[4]
    names = names_in(path, said)
    place = re.match(r"step (\S+(?: \(\d+\))?), DD (\S+): (.*) \((F\d+)\)(.*)$", said)
    if not place:
        return "the words are not understood"
    if place[4] != fault:
        return "%s is told, not %s" % (place[4], fault)
    name = names.get(step, "-")
    if place[1] != (str(step) if name == "-" else name):
        return "step %s is told, not %d %s" % (place[1], step, name)
    taken = [line.split()[2] for line in deeds_of(path, names, subject(names, step)) if re.match(r"(TAKE|DISP) %d " % dd, line)]
    if taken and taken[0] != "-" and place[2] != taken[0]:
        return "DD %s is told, not %s" % (place[2], taken[0])
    wanted = path_words(outcomes, names)
    if not place[5].startswith(wanted):
        return "the path is told as %r, not %r" % (place[5], wanted)
    rest = place[5][len(wanted):]
    if rest and not rest.startswith("; "):
        return "%r is told behind the path" % rest
    return check_deed(rest, fault, path, names) if rest else None


def is_zero(answer):
    """Each step that ends on the path ends with code 0."""
    outcomes = answer.rsplit(" ", 1)[1]
    return outcomes != "-" and all(word in ("C0000", "B", "F") for word in outcomes.split(","))


def blocks_of(text):
    """The statements of a session, blocks whole."""
    lines, blocks, open_block = text.split("\n"), [], False
    for line in lines:
        if open_block:
            blocks[-1].append(line)
            open_block = line.split() != ["./", "END"]
        elif line:
            blocks.append([line])
            open_block = line.split()[1:2] in (["READ"], ["PROC"], ["SET"], ["PROGRAM"])
    return blocks


def idle(text):
    """A session in which each program ends with code 0 at once."""
    names, out = set(re.findall(r"PGM=([A-Z0-9#@$]+)", text)) - {"IEFBR14"}, []
    for block in blocks_of(text):
        if block[0].split()[1:2] != ["PROGRAM"]:
            out += block
    configured = [line for name in sorted(names) for line in ("./ PROGRAM " + name, "CODE 0", "./ END")]
    return "\n".join(configured + out) + "\n"


def fault_lines(listing, job):
    """The first fault that the listing of a job tells, behind its answer: step, DD and fault; None where the job ends without one."""
    running, admitted = 0, False
    for line in listing.split("\n"):
        if not line.startswith("%04d " % job):
            continue
        line = line[5:]
        admitted = admitted or line.startswith(("RISK", "ASSURED"))
        found = re.match(r"STEP (\d+) ", line)
        running = int(found[1]) if found else running
        found = re.match(r"FAULT (F\d+) STEP (\d+) DD (\d+)$", line)
        if admitted and found:
            return found[1], int(found[2])
        found = re.match(r"DISP (\d+) \S+ (F\d)$", line)
        if admitted and found:
            return found[2], running
        found = re.match(r"LEFT (\d+)\.(\d+) .*(F\d)$", line)
        if admitted and found:
            return found[3], int(found[1])
        if line == "END":
            return None
    return "no end"


def is_plain(text):
    """One deck alone, which nothing from outside touches."""
    return text.count("./ READ") == 1 and not re.search(r"^\./ (CANCEL|ZAP)", text, re.M)


def check_trial(play, text, job, said, count):
    """What comes of a job whose steps end with code 0, beside a session whose programs do so."""
    if not is_plain(text):
        return None
    listing, _ = run(play, idle(text).encode("latin-1"), "--explain")
    fault = fault_lines(listing, job)
    if fault == "no end":
        return None
    count["trials of one deck"] += 1
    told = re.search(r"\((F\d+)\)", said)
    if fault is None:
        return None if said.endswith("it ends well") else "it ends well, and is told to meet a fault: %r" % said
    if not told or told[1] != fault[0]:
        return "it meets %s in step %d, and is told: %r" % (fault[0], fault[1], said)
    return None


def check_again(play, text, said, count):
    """What a job is answered once more, beside a session that reads it twice."""
    if not is_plain(text):
        return None
    once, _ = run(play, idle(text).encode("latin-1"), "--events")
    deck = next(block for block in blocks_of(text) if block[0].split()[1:2] == ["READ"])
    twice = once.rstrip("\n") + "\n" + "\n".join(deck) + "\n"
    listing, errors = run(play, twice.encode("latin-1"), "--explain")
    answers = answers_in(listing)
    if errors or 1 not in answers or not answers[1][0].startswith("ASSURED") or 2 not in answers:
        return None
    count["second runs of one deck"] += 1
    answer = answers[2][0]
    words = {"ASSURED": "is ASSURED", "RISK": r"(is at RISK|fails): .*\((F\d+)\)", "TOOMANY": "has too many paths", "WAIT": "waits for space"}
    found = re.search(words[answer.split()[0]], said)
    if not found or (found.lastindex == 2 and found[2] != answer.split()[1]):
        return "it is answered %r once more, and is told: %r" % (answer, said)
    return None


def check_fault(mvt, text, told):
    """A fault of the session: its number, its line, and the line by itself."""
    found = re.match(r"line (\d+): session fault S(\d);.*\n(?:    (.*)\n)?( +\^\n)?", told)
    _, errors = run(mvt, text.encode("latin-1"))
    wanted = re.search(r"session fault S(\d) at line (\d+)", errors)
    if not found:
        return "a fault is not told: %r" % errors if wanted else None
    if not wanted or (found[1], found[2]) != (wanted[2], wanted[1]):
        return "S%s on line %s is told: %r" % (found[2], found[1], errors)
    if not found[4]:
        return None
    own = blocks_of("\n".join(text.split("\n")[int(found[1]) - 1:]))[0]
    if found[2] == "8":  # by itself it may lack the configuration before it
        return None if own[0].split()[1] in CONFIGURATION else "line %s is no configuration" % found[1]
    _, errors = run(mvt, ("\n".join(own) + "\n").encode("latin-1"))
    alone = re.search(r"session fault S(\d) at line", errors)
    if not alone or alone[1] != found[2]:
        return "line %s is marked for S%s, and has by itself: %r" % (found[1], found[2], errors)
    return None


def is_counted(text, year, day):
    """Whether a day is so many days behind a date of the session as a card says."""
    dates = {(1970, 1)} | {(int(a), int(b)) for a, b in re.findall(r"^\./ DATE +(\d{4})/(\d{3})", text, re.M)}
    wanted = datetime.date(int(year), 1, 1).toordinal() + int(day)
    days = {int(n) for n in re.findall(r"RETPD=(\d{1,4})\b", text)}
    return any(datetime.date(a, 1, 1).toordinal() + b + n == wanted for a, b in dates for n in days)


def check_expiry(text, line):
    """When a set is told to expire, a card or its SET says so, or a card counts the days from a date."""
    found = EXPIRES.search(line)
    if not found or found[0].endswith("2155"):
        return None
    year, day, days = found.groups()
    if days:
        return None if re.search(r"RETPD=0*%s\b" % days, text) else "no card says so"
    coded = r"EXPDT(=| +)%s/%s\b|EXPDT=%s%s\b" % (year, day, year[2:] if year.startswith("19") else "none", day)
    return None if re.search(coded, text) or is_counted(text, year, day) else "no card says so"


def check_session(programs, path):
    """What contradicts in a session, and what was looked at."""
    check, play, mvt = programs
    with open(path, encoding="latin-1", newline="\n") as file:
        text = file.read()
    count, wrong = collections.Counter(), []
    told, _ = run(check, text.encode("latin-1"), "--again")

    def note(what, line):
        if what:
            wrong.append("%s: %s\n    %s" % (path, what, line))

    note(check_fault(mvt, text, told), told.partition("\n")[0])
    count["faults of a session"] += told.startswith("line") and ": session fault " in told.partition("\n")[0]
    listing, _ = run(play, text.encode("latin-1"), "--explain")
    answers, job, trial = answers_in(listing), None, False
    for line in told.split("\n"):
        count["days of expiry"] += bool(EXPIRES.search(line))
        note(check_expiry(text, line), line)
        found = RISK.match(line)
        if found:
            job = int(found[1])
            count["risks"] += 1
            answer, explained = answers.get(job, ("nothing", []))
            note(check_risk(found[3], answer, explained), line)
        elif OTHER.match(line):
            job = int(OTHER.match(line)[1])
        elif line.startswith("    with code 0 from each step it fails like this"):
            count["risks with code 0"] += 1
            note(None if is_zero(answers[job][0]) else "the path has other codes", line)
        elif line.startswith("    with code 0 from each step"):
            count["trials"] += 1
            note(check_trial(play, text, job, line, count), line)
        elif line.startswith("    run again, it "):
            count["second runs"] += 1
            note(check_again(play, text, line, count), line)
    return wrong, count


def main():
    if len(sys.argv) < 5:
        sys.exit(__doc__)
    programs, paths = sys.argv[1:4], sys.argv[4:]
    count, contradictions = collections.Counter(), 0
    with multiprocessing.Pool() as pool:
        for wrong, own in pool.imap(functools.partial(check_session, programs), paths, chunksize=8):
            count += own
            contradictions += len(wrong)
            for what in wrong:
                print(what)
    print("%d sessions, %s; %d contradictions" % (len(paths), ", ".join("%d %s" % (n, what) for what, n in sorted(count.items())), contradictions))
    return 1 if contradictions else 0


if __name__ == "__main__":
    sys.exit(main())
