"""Rows on a desk over a store in memory: pushes, stops, calls that fail, and the lines that must come of them.

A row is a line as unproved/tests_desk/src/records.rt reads it, and its answer, which may be nothing.
"""

from rows_histories import LOG, MAIN, History
from rows_objects import DIRECTORY, FILE, LINK, MODULE, ZEROS, object_id

# The calls of a store that a step makes: one read for each needed id that is not in the push, and then the commit.
AWAY = "ab" * 32
OTHER = "cd" * 32
TAG = b"object %s\ntype commit\ntag v1\ntagger rows <rows@localhost> 0 +0000\n\nversion\n"


class Pushes:
    """The entries of a history, each with the objects that came with it."""

    def __init__(self):
        self.history, self.before = History(), set()

    def new(self):
        """The objects since the last push, and the id of the last entry."""
        objects = self.history.repository.objects
        fresh = [objects[id] for id in objects if id not in self.before]
        self.before = set(objects)
        return fresh, self.history.ids[-1]

    def record(self, target, reference=MAIN):
        self.history.record(reference, target)
        return self.new()


def text(objects, entry):
    """The text of a push of objects, which are (kind, body), with the entry's id."""
    ordered = sorted(set(objects), key=lambda it: object_id(*it))
    records = (b"object %s %s %d\n%s\n" % (object_id(*it).encode(), it[0], len(it[1]), it[1]) for it in ordered)
    body = b"gittuf-push 1\n" + b"".join(records) + b"entry %s\nend\n" % entry.encode()
    return b"text %d\n%s\n" % (len(body), body), b""


def step(answer, seat=1):
    return b"step %d\n" % seat, answer


def check(answer):
    return b"check\n", answer


def done(number, entry):
    return b"done %d id %s\n" % (number, entry.encode())


def tip(number, entry, command=b"tip\n", doubt=False):
    return command, b"entries %d\nlast %s\n%s" % (number, entry.encode(), b"one is in doubt\n" if doubt else b"")


def stop(number, entry):
    return tip(number, entry, b"stop\n")


def is_at(line, id):
    return line, b"none\n" if id is None else b"is %s\n" % id.encode()


def value(name, id):
    return is_at(b"value %s\n" % name.encode(), id)


def number(count, id):
    return is_at(b"number %d\n" % count, id)


def seat(place, of):
    return b"seat %d\n" % place, b"none\n" if of is None else b"seat %d\n" % of


def quiet(line):
    return line, b""


DESK, SETTLED = quiet(b"desk\n"), (b"settle\n", b"clear\n")


def incomplete(id):
    return b"incomplete %s\n" % id.encode()


def files(count):
    return {b"src/%d" % it: b"file %d\n" % it for it in range(count)}


def taken():
    """Entries of a log, one after the other: each is done once, and then there already."""
    pushes = Pushes()
    first = pushes.record(pushes.history.commit(files(2)))
    second = pushes.record(pushes.history.commit(files(3)), "refs/heads/side")
    gone = pushes.record(ZEROS, "refs/heads/side")
    pushes.history.annotate(False, [second[1]], None, b"a note")
    note = pushes.new()
    yield DESK, tip(0, ZEROS), number(0, None), number(1, None), seat(0, None), value(LOG, None), SETTLED
    yield text(*first), check(b"would be taken\n"), tip(0, ZEROS), value(LOG, None), step(done(1, first[1])), tip(1, first[1])
    yield check(b"already 1\n"), step(b"already 1\n", 2), value(LOG, first[1]), SETTLED, number(1, first[1]), number(2, None)
    yield text(*second), step(done(2, second[1]), 2), value(LOG, second[1]), seat(0, 1), seat(1, 2), seat(2, None)
    target = pushes.history.repository.objects[second[1]][1].split(b"targetID: ")[1][:64].decode()
    yield value("refs/heads/side", target), text(*gone), step(done(3, gone[1])), value("refs/heads/side", None)
    yield text(*note), step(done(4, note[1])), text(*first), step(b"already 1\n"), text(*second), step(b"already 2\n")
    yield stop(4, note[1]), seat(0, 0), seat(3, 0), number(2, second[1]), text(*note), step(b"already 4\n")


def two_at_once():
    """Two entries behind the same: the second goes back to another than the last."""
    one, other = Pushes(), Pushes()
    first = one.record(one.history.commit(files(1)))
    other.record(other.history.commit(files(1)))
    left = one.record(one.history.commit(files(2)))
    right = other.record(other.history.commit(files(5)))
    yield DESK, text(*first), step(done(1, first[1])), text(*left), step(done(2, left[1]))
    yield text(*right), check(b"stale 2 tip %s\n" % left[1].encode()), step(b"stale 2 tip %s\n" % left[1].encode(), 2)
    yield text(*left), step(b"already 2\n"), tip(2, left[1])
    yield DESK, text(*left), step(b"stale 0 tip %s\n" % ZEROS.encode()), tip(0, ZEROS)


def misnumbered():
    """An entry that counts another number of entries before it, whatever else is missing."""
    pushes = Pushes()
    first = pushes.record(pushes.history.commit(files(1)))
    pushes.history.record(MAIN, AWAY)
    _, (kind, body) = pushes.new(), pushes.history.repository.objects[pushes.history.ids[-1]]
    wrong = (kind, body.replace(b"number: 2\n", b"number: 3\n"))
    yield DESK, text(*first), step(done(1, first[1]))
    yield text([wrong], object_id(*wrong)), check(b"misnumbered 3 expected 2\n"), step(b"misnumbered 3 expected 2\n"), tip(1, first[1])


def needed():
    """The first needed id that is nowhere: depth first, each id at its first visit."""

    def missing(target, objects, id):
        """A push of an entry that records a target, with these objects, lacks an id, or nothing."""
        pushes = Pushes()
        pushes.history.record(MAIN, target)
        fresh, entry = pushes.new()
        return DESK, text([*fresh, *objects], entry), step(done(1, entry) if id is None else incomplete(id)), tip(id is None, ZEROS if id else entry)

    history = History()
    repository, add = history.repository, history.repository.add
    blob = repository.blob(b"kept\n")
    get = repository.objects.get
    yield missing(AWAY, [], AWAY)
    # A commit names its tree, and then its parents.
    lone = repository.commit(AWAY, b"lone", [OTHER])
    yield missing(lone, [get(lone)], AWAY)
    tree = repository.tree({b"a": (FILE, blob)})
    child = repository.commit(tree, b"child", [OTHER])
    yield missing(child, [get(child)], tree)
    yield missing(child, [get(child), get(tree)], blob)
    yield missing(child, [get(child), get(tree), get(blob)], OTHER)
    # A tree names what stands in it, one after the other, but no module.
    mixed = repository.tree({b"b/c": (FILE, AWAY), b"a": (MODULE, OTHER), b"d": (LINK, OTHER)})
    inner = repository.tree({b"c": (FILE, AWAY)})
    yield missing(mixed, [get(mixed)], inner)
    yield missing(mixed, [get(mixed), get(inner)], AWAY)
    modules = repository.tree({b"a": (MODULE, OTHER)})
    yield missing(modules, [get(modules)], None)
    # A tag names its object; a tag or a tree that is not read names nothing, and a blob nothing.
    tag = add(b"tag", TAG % child.encode())
    yield missing(tag, [get(tag)], child)
    wrong = add(b"tag", b"object " + AWAY.encode())
    yield missing(wrong, [get(wrong)], None)
    broken = add(b"tree", b"100644 a")
    yield missing(broken, [get(broken)], None)
    yield missing(blob, [get(blob)], None)
    # A tree far down, and one that stands many times.
    deep = {b"/".join([b"d"] * 60) + b"/f": (FILE, AWAY)}
    root = repository.tree(deep)
    yield missing(root, [it for it in map(get, reached(repository, root)) if it], AWAY)
    twice = repository.tree({b"%d/a" % it: (FILE, blob) for it in range(9)} | {b"z": (FILE, AWAY)})
    yield missing(twice, [it for it in map(get, reached(repository, twice)) if it], AWAY)
    yield missing(ZEROS, [], None)


def reached(repository, tree):
    """The ids of a tree and of the trees and files in it that are there."""
    kind, body = repository.objects[tree]
    ids = [tree]
    while kind == b"tree" and body:
        mode, _, rest = body.partition(b" ")
        id, body = rest.partition(b"\0")[2][:32].hex(), rest.partition(b"\0")[2][32:]
        if id in repository.objects:
            ids += reached(repository, id) if mode == DIRECTORY else [id]
    return ids


def from_store():
    """What the store has is not asked for again, and is not walked through."""
    pushes = Pushes()
    history, repository = pushes.history, pushes.history.repository
    first = pushes.record(repository.blob(b"one\n"))
    yield DESK, text(*first), step(done(1, first[1]))
    lone = repository.commit(AWAY, b"lone")
    history.record(MAIN, lone)
    fresh, entry = pushes.new()
    yield text(fresh, entry), step(incomplete(AWAY))
    # Another history keeps the commit without its tree, among the objects of an entry that does not need it.
    history = History()
    history.record(MAIN, ZEROS)
    carried = [repository.objects[lone], *history.repository.objects.values()]
    one = history.ids[-1]
    history.record(MAIN, lone)
    two = history.ids[-1]
    yield DESK, text(carried, one), step(done(1, one)), text([history.repository.objects[two]], two), step(done(2, two)), value(MAIN, lone)


def failing():
    """A commit that fails leaves its entry in doubt, which is dropped, or taken in where the store has it."""
    pushes = Pushes()
    first = pushes.record(pushes.history.commit(files(1)))
    second = pushes.record(pushes.history.commit(files(2)))
    # All that the second needs comes with it, so that its first call is the commit.
    begun = DESK, text(*first), step(done(1, first[1])), text([*first[0], *second[0]], second[1])
    doubted = step(b"fault\n", 2), tip(1, first[1], doubt=True), number(2, None), step(b"one is in doubt\n"), check(b"would be taken\n")
    yield (*begun, quiet(b"fail 1\n"), *doubted, (b"settle\n", b"clear\n"), tip(1, first[1]), value(LOG, first[1]), step(done(2, second[1]), 2), seat(1, 2))
    kept = (*begun, quiet(b"keep 1\n"), step(b"fault\n", 2), tip(1, first[1], doubt=True), value(LOG, second[1]))
    took = b"settle\n", b"took in %s\n" % second[1].encode()
    yield (*kept, took, tip(2, second[1]), seat(1, 0), number(2, second[1]), step(b"already 2\n", 2), SETTLED)
    yield (*kept, stop(2, second[1]), step(b"already 2\n"))
    yield (*begun, quiet(b"fail 1\n"), step(b"fault\n"), stop(1, first[1]), step(done(2, second[1])))
    # Each call of a settlement fails in turn: reading the log's reference, and putting it there again.
    for call, calls in ((b"fail 1\n", 1), (b"fail 2\n", 2), (b"keep 2\n", 2)):
        yield (*begun, quiet(b"fail 1\n"), step(b"fault\n"), quiet(call), (b"settle\n", b"fault\n"), tip(1, first[1], doubt=True), SETTLED, tip(1, first[1]))
        yield (*kept, quiet(call), (b"settle\n", b"fault\n"), tip(1, first[1], doubt=True), took, tip(2, second[1]))
    # A needed id is looked up first: the fault of that leaves nothing in doubt.
    pushes.history.record(MAIN, AWAY)
    third = pushes.new()
    yield (*begun, step(done(2, second[1])), text(*third), quiet(b"fail 1\n"), step(b"fault\n"), tip(2, second[1]), step(incomplete(AWAY)))
    yield (*begun, step(done(2, second[1])), text(*third), quiet(b"fail 1\n"), check(b"fault\n"), check(incomplete(AWAY)))
    # Loading reads the log's reference, and then each entry.
    for call in (1, 2, 3):
        yield (*begun, step(done(2, second[1])), quiet(b"fail %d\n" % call), (b"stop\n", b"fault\n"), stop(2, second[1]))


def clashing():
    """An object of the log is never replaced by another push's, and one pushed again stays."""
    pushes = Pushes()
    first = pushes.record(pushes.history.commit(files(1)))
    second = pushes.record(pushes.history.commit(files(2)))
    yield DESK, text(*first), step(done(1, first[1])), text([*first[0], *second[0]], second[1]), step(done(2, second[1])), stop(2, second[1])


ROWS = (taken, two_at_once, misnumbered, needed, from_store, failing, clashing)
