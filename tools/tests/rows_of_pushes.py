"""Rows on pushes, on lists of things under ids and on desks: what is read, and the line that must come of it.

A row is a line as unproved/tests_desk/src/records.rt reads it, and its answer a line, or nothing.
"""

import hashlib

import rows_of_desks
from rows_histories import LOG, MAIN, History
from rows_objects import EMPTY_TREE, ZEROS, object_id

HEAD, END = b"gittuf-push 1\n", b"end\n"
# The greatest push and the greatest object, in bytes.
PUSH, OBJECT = 64 << 20, 16 << 20
WRITTEN = b"the same push again\n"


def record(kind, body, id=None, size=None):
    """An object's record, which may name another id or size than its own."""
    named = object_id(kind, body) if id is None else id
    return b"object %s %s %d\n%s\n" % (named.encode(), kind, len(body) if size is None else size, body)


def pushed(objects, entry):
    """The push of objects, which are (kind, body), with the entry's id."""
    ordered = sorted(objects, key=lambda it: object_id(*it))
    return HEAD + b"".join(record(*it) for it in ordered) + b"entry %s\n" % entry.encode() + END


def entries():
    """A commit, and the bodies of two entries that record it and then that it is gone."""
    history = History()
    target = history.commit({})
    history.record(MAIN, target)
    history.record(MAIN, ZEROS)
    second = history.repository.references[LOG]
    body = history.repository.objects[second][1]
    first = body.split(b"parent ", 1)[1][:64].decode()
    return (b"commit", history.repository.objects[target][1]), (first, history.repository.objects[first]), (second, (b"commit", body))


def text(body, *asked):
    """A text, and what is asked of it."""
    return (b"text %d\n%s\n" % (len(body), body), b""), *asked


def read(answer):
    return b"read\n", answer


def malformed(body, at):
    return text(body, read(b"malformed %d\n" % at), (b"write\n", b"malformed %d\n" % at))


def whole():
    """Pushes that are read, and written as they were read."""
    target, (first, one), (second, two) = entries()
    blobs = [(b"blob", b"body %d\n" % it) for it in range(9)] + [(b"blob", b""), (b"tree", b""), (b"blob", b"no tag\n")]
    for number, entry, objects in ((1, first, [one]), (2, second, [two]), (1, first, [one, target]), (2, second, [two, target, *blobs])):
        said = b"push of entry %d with objects %d\n" % (number, len(objects))
        yield text(pushed(objects, entry), read(said), (b"write\n", WRITTEN))


def broken():
    """The first line that is not as wanted, and where it begins."""
    target, (first, one), (second, two) = entries()
    good = pushed([one, target], first)
    low, high = sorted((one, target), key=lambda it: object_id(*it))
    entry = b"entry %s\n" % first.encode()
    front = len(HEAD)
    behind = front + len(record(*low))
    last = behind + len(record(*high))
    yield malformed(b"", 0)
    yield malformed(HEAD[:-1], 0)
    yield malformed(b"gittuf-push 2\n" + good[front:], 0)
    yield malformed(HEAD, front)
    yield malformed(good[: last - 1], behind)
    yield malformed(good[:last], last)
    yield malformed(good[: last + len(entry) - 1], last)
    yield malformed(good[: last + len(entry)], last + len(entry))
    yield malformed(good[:-1], last + len(entry))
    yield malformed(good + b"\n", len(good))
    yield malformed(good + good, len(good))
    yield malformed(HEAD + record(*high) + record(*low) + entry + END, front + len(record(*high)))
    yield malformed(HEAD + record(*low) + record(*low) + entry + END, behind)
    yield malformed(HEAD + record(*low, id=object_id(*high)) + entry + END, front)
    yield malformed(HEAD + record(*low, size=len(low[1]) + 1) + record(*high) + entry + END, front)
    yield malformed(HEAD + record(b"file", low[1]) + entry + END, front)
    yield malformed(HEAD + record(*one).replace(b" commit ", b" commit 0") + entry + END, front)
    yield malformed(HEAD + record(*one).replace(first.encode(), first.upper().encode()) + entry + END, front)
    # An entry that is not among the objects, one that is no entry, and one that is no commit.
    yield malformed(HEAD + record(*target) + entry + END, front + len(record(*target)))
    yield malformed(pushed([target], object_id(*target)), front + len(record(*target)))
    blob = (b"blob", one[1])
    yield malformed(pushed([blob], object_id(*blob)), front + len(record(*blob)))
    # The log itself is recorded by no entry.
    own = (b"commit", one[1].replace(b"ref: " + MAIN.encode(), b"ref: " + LOG.encode()))
    yield malformed(pushed([own], object_id(*own)), front + len(record(*own)))


def too_large():
    """Both sides of what is too large: an object's size, read before its body, and the length of the whole."""
    name = hashlib.sha256(b"").hexdigest().encode()
    for size in (OBJECT + 1, 1 << 63, (1 << 64) - 1):
        yield text(HEAD + b"object %s blob %d\n" % (name, size), read(b"too large %d\n" % size))
    yield text(HEAD + b"object %s blob %d\n" % (name, 1 << 64), read(b"too large %d\n" % ((1 << 64) - 1)))
    yield malformed(HEAD + b"object %s blob %d\n" % (name, OBJECT), len(HEAD))
    yield (b"spaces %d\n" % PUSH, b""), read(b"malformed 0\n")
    yield (b"spaces %d\n" % (PUSH + 1), b""), read(b"too large %d\n" % (PUSH + 1))


def lists():
    """A list of things under ids: the first place of each, one twice, and what is left where the last goes."""
    ids = [hashlib.sha256(b"%d" % it).hexdigest().encode() for it in range(40)]
    put = lambda it: (b"put %s\n" % ids[it], b"")
    find = lambda it, place: (b"find %s\n" % ids[it], b"is not there\n" if place is None else b"stands at %d\n" % place)
    at = lambda place, it: (b"at %d\n" % place, b"is %s\n" % ids[it])
    none = lambda place, count: (b"at %d\n" % place, b"none of %d\n" % count)
    pop = (b"pop\n", b"")
    yield pop, none(0, 0), find(0, None)
    yield put(0), find(0, 0), find(1, None), at(0, 0), none(1, 1)
    yield put(1), put(0), at(2, 0), find(0, 0), pop, none(2, 2), find(0, 0)
    yield pop, find(1, None), pop, find(0, None), none(0, 0)
    yield (*map(put, range(40)), *(find(it, it) for it in range(40)), none(40, 40))
    yield (*(pop for _ in range(20)), find(19, 19), find(20, None), none(20, 20), put(20), find(20, 20))


ROWS = (whole, broken, too_large, lists, *rows_of_desks.ROWS)


def files():
    """The rows and the lines that must come of them."""
    made = [step for row in ROWS for steps in row() for step in steps]
    return b"".join(it for it, _ in made), b"".join(it for _, it in made)
