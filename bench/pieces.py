"""Pieces that the sessions of bench/ are made from."""

INITIATOR = b"./ INIT 1 A\n"
# The most bytes and the most events that a session has.
LIMIT = 1_048_576
EVENTS = 65_535


def lines(form, numbers):
    """A line for each number, by a form that holds it as often as it has places."""
    places = form.count(b"%")
    return b"".join(form % ((number,) * places) + b"\n" for number in numbers)


def block(head, body):
    return head + b"\n" + body + b"./ END\n"


def deck(cards, job=b"J JOB 1"):
    """A deck of one job."""
    return block(b"./ READ", b"//" + job + b"\n" + cards)


def fitting(texts, room):
    """These texts, one after another, while there is room for the next."""
    taken = []
    for text in texts:
        room -= len(text)
        if room < 0:
            break
        taken.append(text)
    return b"".join(taken)


def turns_of(initiator, count):
    """So many turns, in statements of 9,999 at most."""
    return b"./ TURN %d*9999\n" % initiator * (count // 9999) + b"./ TURN %d*%d\n" % (initiator, count % 9999)


def volumes(count):
    return lines(b"./ VOLUME V%d 4000", range(count))


def initiators_of(count, classes=b"A"):
    """So many initiators of these classes."""
    return b"".join(b"./ INIT %d %s\n" % (i, classes) for i in range(1, count + 1))
