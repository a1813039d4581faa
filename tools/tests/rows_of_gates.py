"""Rows on a gate over a store in memory: pushes that are denied and such as are not, and the lines that must come of them.

A row is a line as unproved/tests_gate/src/records.rt reads it, and its answer, which may be nothing.
"""

from rows_histories import AFTER, BEFORE, KEEPER, MAIN, MAINTAINER, NEWCOMER, REVIEWER
from rows_histories import base_files, base_top, guarded, main_rule, top_file
from rows_objects import ZEROS
from rows_of_desks import reached, text
from rows_of_successions import next_root

STORE, SETTLED = (b"store\n", b""), (b"settle\n", b"clear\n")
SIDE = "refs/heads/side"


class Log:
    """A guarded history, each entry of which is a push with the objects that came since the push before it."""

    def __init__(self, top=None):
        self.history = guarded(top)
        self.objects = self.history.repository.objects
        self.before = self.sent = set()
        self.first = self.push()

    def push(self):
        """The text of the last entry, with the objects that came since the push before."""
        self.before, self.sent = self.sent, set(self.objects)
        return text([self.objects[id] for id in self.objects if id not in self.before], self.history.ids[-1])

    def record(self, target, signer=None, reference=MAIN):
        self.history.record(reference, target, signer)
        return self.push()

    def skip(self, number, signer):
        self.history.skip(number, signer)
        return self.push()

    def only(self, *ids):
        """The text of the last entry, with these objects and no others."""
        return text([self.objects[id] for id in (*ids, self.history.ids[-1])], self.history.ids[-1])

    def below(self, tree):
        """The ids of what stands in a tree, and in the trees in it."""
        repository = self.history.repository
        return [id for id in reached(repository, tree) if id != tree]

    def whole(self):
        """The text of the last entry, with every object."""
        return self.only(*self.objects)

    def drop(self):
        """Takes the last entry back, as one that was denied, with which no object was kept."""
        self.history.ids.pop()
        self.sent = self.before
        return self


class Keeping:
    """A key that keeps the last signature that it made."""

    def __init__(self, key):
        self.key, self.id, self.last = key, key.id, None

    def sign(self, leaf, message):
        self.last = self.key.sign(leaf, message)
        return self.last


class Borrowed:
    """Whoever signs with the last signature that a key made."""

    def __init__(self, keeping):
        self.keeping, self.id = keeping, keeping.id

    def sign(self, _leaf, _message):
        return self.keeping.last


def add(number):
    return b"add\n", b"done %d\n" % number


def loaded(count):
    return b"gate\n", b"entries %d\n" % count


def step(answer, seat=1):
    return b"step %d\n" % seat, answer


def done(number):
    return step(b"done %d\n" % number)


def denied(number, line):
    return step(b"denied %d\n%s\n" % (number, line))


def tip(count):
    return b"tip\n", b"entries %d\n" % count


def verdict(line, name=MAIN):
    return b"verdict %s\n" % name.encode(), line + b"\n"


def quiet(line):
    return line, b""


def begun(log):
    """A gate that loaded the policy alone."""
    return STORE, log.first, add(1), loaded(1)


def refused():
    """Main by a stranger is denied with the line of the violation, and nothing changes; the same target by one who may is done."""
    log = Log()
    target = log.history.commit(BEFORE)
    by_stranger = log.record(target, KEEPER)
    yield begun(log)
    line = b"violation refs/heads/main 2 ref-rule main 0 of 1"
    yield by_stranger, denied(2, line), tip(1), verdict(b"accepted refs/heads/main 0 entries"), denied(2, line)
    # What came with it was not kept.
    again = log.drop().record(target, MAINTAINER)
    yield log.only(), step(b"incomplete %s\n" % target.encode()), again, done(2), step(b"already 2\n"), tip(2)
    yield verdict(b"accepted refs/heads/main 1 entries"),


def unsigned():
    """An entry that nobody signed is denied, and one of a reference that no rule names is not."""
    log = Log()
    yield begun(log)
    yield log.record(log.history.commit(BEFORE)), denied(2, b"violation refs/heads/main 2 ref-rule main 0 of 1")
    log.drop()
    yield log.record(log.history.commit(AFTER), None, SIDE), done(2), verdict(b"accepted refs/heads/side 1 entries", SIDE)


def borrowed():
    """The signature of the entry before, which was just found good, is none of another entry that names its key."""
    log, key = Log(), Keeping(MAINTAINER)
    yield begun(log)
    yield log.record(log.history.commit(BEFORE), key), done(2)
    target = log.history.commit(AFTER)
    yield log.record(target, Borrowed(key)), denied(3, b"violation refs/heads/main 3 ref-rule main 0 of 1"), tip(2)
    yield log.drop().record(target, key), done(3), verdict(b"accepted refs/heads/main 2 entries")


def fixed():
    """A loaded violation is mended: its skip is taken, and then the files that stood before."""
    log = Log()
    good = log.record(log.history.commit(BEFORE), MAINTAINER)
    bad = log.record(log.history.commit(AFTER), KEEPER)
    yield STORE, log.first, add(1), good, add(2), bad, add(3), loaded(3)
    yield verdict(b"violation refs/heads/main 3 ref-rule main 0 of 1"),
    yield log.skip(3, MAINTAINER), done(4)
    yield log.record(log.history.commit(BEFORE), MAINTAINER), done(5), verdict(b"accepted refs/heads/main 3 entries"), tip(5)


def not_fixed():
    """The files that stood before, by a stranger, are denied behind a loaded violation too."""
    log = Log()
    good = log.record(log.history.commit(BEFORE), MAINTAINER)
    bad = log.record(log.history.commit(AFTER), KEEPER)
    yield STORE, log.first, add(1), good, add(2), bad, add(3), loaded(3), log.skip(3, MAINTAINER), done(4)
    yield log.record(log.history.commit(BEFORE), KEEPER), denied(5, b"violation refs/heads/main 5 ref-rule main 0 of 1"), tip(4)


def annotated():
    """An annotation is never denied, whoever makes it."""
    log = Log()
    yield begun(log)
    yield log.record(log.history.commit(BEFORE), MAINTAINER), done(2), log.skip(2, KEEPER), done(3), log.skip(2, None), done(4)
    yield verdict(b"accepted refs/heads/main 1 entries"),


def policies():
    """A policy that does not succeed is denied with its line; the next one that does is in force for the push behind it."""
    log = Log()
    yield begun(log)
    log.history.policy(base_files(base_top()) | {"root": (next_root(3), [NEWCOMER])})
    yield log.push(), denied(2, b"violation refs/gittuf/policy 2 not-epoch root-version 1 3"), tip(1)
    log.drop().history.policy(base_files(top_file([MAINTAINER], [main_rule(MAINTAINER)], 2)))
    yield log.push(), done(2)
    target = log.history.commit(BEFORE)
    yield log.record(target, REVIEWER), denied(3, b"violation refs/heads/main 3 ref-rule main 0 of 1")
    yield log.drop().record(target, MAINTAINER), done(3), verdict(b"accepted refs/heads/main 1 entries")


def approved():
    """An approval counts for the one change that it was given for."""
    log = Log(base_top(threshold=2))
    yield begun(log)
    target, other = log.history.commit(BEFORE), log.history.commit(AFTER)
    log.history.approve(target, REVIEWER)
    yield log.push(), done(2)
    yield log.record(other, MAINTAINER), denied(3, b"violation refs/heads/main 3 ref-rule main 1 of 2"), tip(2)
    yield log.drop().record(target, MAINTAINER), done(3), verdict(b"accepted refs/heads/main 1 entries")


def moved():
    """Two move main behind the same entry, each with an approval. The second is stale; made anew it is judged from where
    the first one put main, and its approval, which is from before, counts no more."""
    log = Log(base_top(threshold=2))
    first, second = log.history.commit(BEFORE), log.history.commit(AFTER)
    yield begun(log)
    log.history.approve(second, REVIEWER)
    yield log.push(), done(2)
    late = log.record(second, MAINTAINER)
    log.drop().history.approve(first, REVIEWER)
    yield log.push(), done(3), late, step(b"stale 3\n", 2)
    yield log.record(first, MAINTAINER), done(4), late, step(b"stale 4\n", 2)
    log.history.approve(second, REVIEWER)
    yield log.push(), done(5), log.record(second, MAINTAINER), denied(6, b"violation refs/heads/main 6 ref-rule main 1 of 2")
    log.drop().history.approve(second, REVIEWER, before=first)
    yield log.push(), done(6), log.record(second, MAINTAINER), done(7), verdict(b"accepted refs/heads/main 2 entries")


def repaired():
    """A commit came without its tree, among the objects of an entry that does not need it. An entry that is judged by that
    tree is denied until a push has it."""
    log = Log()
    target = log.history.commit(BEFORE)
    tree = log.history.repository.tree_of(target)
    log.history.record(SIDE, ZEROS)
    carried = log.only(target)
    log.history.record(MAIN, target, MAINTAINER)
    line = b"violation refs/heads/main 3 broken %s" % tree.encode()
    lone, whole = log.only(), log.whole()
    yield begun(log)
    yield carried, done(2), lone, denied(3, line), tip(2), whole, done(3), verdict(b"accepted refs/heads/main 1 entries")
    # Where such an entry is loaded, the next one is judged by what its push brings, and the loaded one by what was there,
    # until all is loaded anew.
    yield STORE, log.first, add(1), carried, add(2), lone, add(3), loaded(3), verdict(line)
    other = log.history.commit(AFTER)
    log.history.record(MAIN, other, MAINTAINER)
    without = [id for id in log.objects if id not in (tree, *log.below(tree))]
    yield log.only(*without), denied(4, b"violation refs/heads/main 4 broken %s" % tree.encode()), tip(3)
    yield log.whole(), done(4), verdict(line), loaded(4), verdict(b"accepted refs/heads/main 2 entries")


def each_fails(calls, asked):
    """Each of so many calls of the store fails in turn, and nothing is added."""
    for call in range(1, calls + 1):
        yield from (quiet(b"fail %d\n" % call), step(b"fault\n"), *asked)


def failing():
    """Each call of the store fails in turn. One that reads leaves nothing in doubt, and a commit its entry, which is dropped
    or taken in, and is judged then."""
    log = Log()
    good = log.record(log.history.commit(BEFORE), MAINTAINER)
    bad = log.record(log.history.commit(AFTER), KEEPER)
    # Of a commit, its two trees, the file and the entry it is asked whether another stands in their place.
    asked, accepted = 5, verdict(b"accepted refs/heads/main 1 entries")
    failed, kept = quiet(b"fail %d\n" % (asked + 1)), quiet(b"keep %d\n" % (asked + 1))
    yield begun(log)
    yield good, *each_fails(asked, (tip(1), SETTLED)), failed, step(b"fault\n"), tip(1), SETTLED, tip(1)
    yield verdict(b"accepted refs/heads/main 0 entries"), failed, step(b"fault\n")
    yield quiet(b"fail 1\n"), (b"settle\n", b"fault\n"), SETTLED, done(2), accepted
    # The entry that is taken in is judged by the next call, which reads its commit and trees.
    read, took = 3, (good, kept, step(b"fault\n"), tip(1), (b"settle\n", b"took in\n"), tip(2))
    for call in range(1, read + 2):
        yield begun(log)
        yield *took, quiet(b"fail %d\n" % call), verdict(b"fault"), accepted
    for call in range(1, read + 1):
        yield begun(log)
        yield *took, quiet(b"fail %d\n" % call), step(b"fault\n"), tip(2), step(b"already 2\n"), accepted
    # A push behind it is judged by what was there before, which is read then.
    line = b"violation refs/heads/main 3 ref-rule main 0 of 1"
    for call in range(1, asked + read + 1):
        yield begun(log)
        yield *took, step(b"already 2\n"), bad, quiet(b"fail %d\n" % call), step(b"fault\n"), tip(2), denied(3, line), accepted
    # Loading reads the log's reference, then its entries, and then what judging reads.
    yield STORE, log.first, add(1), good, add(2)
    for call in range(1, 9):
        yield quiet(b"fail %d\n" % call), (b"gate\n", b"fault\n")
    yield loaded(2), accepted


ROWS = (refused, unsigned, borrowed, fixed, not_fixed, annotated, policies, approved, moved, repaired, failing)


def files(rows):
    """Rows and the lines that must come of them."""
    made = [step for row in rows for steps in row() for step in steps]
    return b"".join(it for it, _ in made), b"".join(it for _, it in made)
