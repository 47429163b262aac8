#!/usr/bin/env python3
"""Reads pictures of sessions, and says what they lack.

Usage: tests/pictures.py PICTURE SESSION   of a session that has its listing beside it
       tests/pictures.py --made PROGRAM    of sessions that are made here, and drawn with the program

Each picture is XML. Each job that was read stands in the queue and, if it was selected, in an initiator's lane, by its name where its
rectangle has room. What admission answered, codes and ABENDs stand below the lane. Each volume has its size. A row of events that do nothing
is cut, and a session that only reads shows its queue.
"""

import re
import subprocess
import sys
import xml.etree.ElementTree as tree

SVG = "{http://www.w3.org/2000/svg}"
# A letter takes so many pixels of a rectangle, and so many are beside its words.
LETTER, MARGIN = 7, 6
LONG = """./ VOLUME VOL001 40
./ INIT 1 A
./ READ
//ONE JOB 1
//S1 EXEC PGM=IEFBR14
./ END
./ TURN 1*{turns}
./ TURN 1
"""
DECK = "./ READ\n//JOB{n} JOB 1\n//S1 EXEC PGM=IEFBR14\n./ END\n"
READING = "./ INIT 1 A\n" + "".join(DECK.format(n=n) for n in range(20)) + "./ READ\n//\n./ END\n"
NAMES = """./ VOLUME VOL001 40
./ UNIT SYSDA VOL001
./ INIT 1 A
./ INIT 2 A
./ READ
//FIRST JOB 1
//S1 EXEC PGM=IEFBR14
//A DD DSN=WANTED,DISP=(NEW,KEEP),UNIT=SYSDA,SPACE=(TRK,1)
//B DD DSN=OWN,DISP=(NEW,KEEP),UNIT=SYSDA,SPACE=(TRK,1)
./ END
./ READ
//SECOND JOB 1
//S1 EXEC PGM=IEFBR14
//A DD DSN=WANTED,DISP=OLD
./ END
./ TURN 1*3
./ TURN 2*3
"""


def groups_of(picture, kind):
    return [group for group in picture.iter(f"{SVG}g") if group.get("class") == kind]


def words_of(element):
    return [text.text or "" for text in element.iter(f"{SVG}text")]


def of_class(element, kind):
    return [shape for shape in element.iter() if kind in (shape.get("class") or "").split()]


def rectangles_without_name(picture, names):
    """The rectangles of one job that have room for its name and do not begin with it."""
    for group in picture.iter(f"{SVG}g"):
        labels = {(text.get("x"), text.get("y")): text.text or "" for text in group.iter(f"{SVG}text")}
        for shape in group.iter(f"{SVG}rect"):
            title = shape.find(f"{SVG}title")
            told = re.match(r"(?:held alone, |shared, )?job (\d{4}) (\S+)", title.text if title is not None and title.text else "")
            if not told or told.group(1) not in names or int(shape.get("width")) < LETTER * len(told.group(2)) + MARGIN:
                continue
            label = labels.get((str(int(shape.get("x")) + 3), str(int(shape.get("y")) + 14)), "")
            if label.split(" ")[:1] != [names[told.group(1)]]:
                yield f"job {told.group(1)}: a rectangle with room has the words '{label}'"


def titles_of(picture, kind):
    return "\n".join(title.text or "" for group in groups_of(picture, kind) for title in group.iter(f"{SVG}title"))


def jobs_lacking(picture, listing, names):
    """The jobs that were read, or selected, and stand in no lane. Where several are drawn together their names are not told."""
    queue, initiators = titles_of(picture, "queue"), titles_of(picture, "initiator")
    for job, name in names.items():
        if f"job {job} {name} waits in the queue" not in queue and " periods" not in queue:
            yield f"the queue lacks job {job} {name}"
        if re.search(rf"^{job} SELECTED", listing, re.M) and f"job {job} {name}" not in initiators and " periods" not in initiators:
            yield f"the initiators lack job {job} {name}"


def lacks(picture, session, listing):
    names = dict(re.findall(r"^(\d{4}) READ (\S+)", listing, re.M))
    yield from rectangles_without_name(picture, names)
    yield from jobs_lacking(picture, listing, names)
    notes = " ".join(text.text or "" for text in of_class(picture, "note"))
    for word in ("ASSURED", "RISK", "TOOMANY", "ABEND", "CODE", "FAULT"):
        if re.search(rf"^\d{{4}} {word}", listing, re.M) and word not in notes:
            yield f"no words below a lane say {word}"
    words = words_of(picture)
    for serial, tracks in re.findall(r"^\./ VOLUME (\S+) (\d+)", session, re.M):
        if serial not in words or f"{int(tracks)} tracks" not in words:
            yield f"volume {serial} lacks its size"
    writers = set(re.findall(r"^-- WRITER (\S)", listing, re.M))
    for kind in writers:
        if f"writer {kind}" not in words:
            yield f"writer {kind} has no lane"


def text_of(path):
    with open(path, encoding="latin-1") as file:
        return file.read()


def drawn(program, session):
    return tree.fromstring(subprocess.run([program], input=session, capture_output=True, text=True).stdout)


def lacks_made(program):
    """What pictures of sessions that are made here lack."""
    cut = drawn(program, LONG.format(turns=300))
    if len(of_class(cut, "cut")) != 1 or "//" not in words_of(cut) or int(cut.get("width")) > 1000:
        yield "300 turns that do nothing are not cut"
    if of_class(drawn(program, LONG.format(turns=8)), "cut"):
        yield "a session without spare turns is cut"
    reading = drawn(program, READING)
    words = [word for group in groups_of(reading, "queue") for word in words_of(group)]
    for name in ["queue", "more jobs", "R"] + [f"JOB{n}" for n in range(16)]:
        if name not in words:
            yield f"a session that only reads lacks {name} in its queue"
    names = drawn(program, NAMES)
    lanes = [words_of(group)[0] for group in groups_of(names, "name")]
    if lanes != ["WANTED"] or not any("OWN" in word for group in groups_of(names, "names") for word in words_of(group)):
        yield f"the names that jobs want have the lanes {lanes}"
    if not any(text.text == "WAIT WANTED OF FIRST" for text in of_class(names, "note")):
        yield "it is not said what a job waits for"


def main():
    if sys.argv[1] == "--made":
        found = [f"made here: {line}" for line in lacks_made(sys.argv[2])]
    else:
        path, session = sys.argv[1:3]
        try:
            found = list(lacks(tree.parse(path).getroot(), text_of(session), text_of(session.replace(".session", ".listing"))))
        except tree.ParseError as fault:
            found = [f"the picture is not well-formed: {fault}"]
        found = [f"{session}: {line}" for line in found]
    print("".join(f"{line}\n" for line in found), end="")
    return 1 if found else 0


sys.exit(main())
