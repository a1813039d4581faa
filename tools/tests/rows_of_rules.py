"""Rows on the rules of a verdict, case by case: whose signatures and approvals count, and where a reference must stand."""

from rows_histories import AFTER, ATTESTATIONS, BEFORE, KEEPER, MAIN, MAINTAINER, NEWCOMER, REVIEWER
from rows_histories import asked, asked_again, base_top, guarded, main_rule, top_file
from rows_objects import ZEROS
from rows_policies import approval, rule
from rows_signing import LMS_TYPE, long, sha256


def heads(name):
    return f"refs/heads/{name}"


def asked_each(*verdicts):
    """The verdicts on branches, which are (status, branch, what is printed with `@` for the branch), over one stream."""
    first, *rest = [(status, text.replace("@", heads(name)), heads(name)) for status, name, text in verdicts]
    return (asked(*first), *(asked_again(*it) for it in rest))


class Named:
    """A key that signs under the id of another one."""

    def __init__(self, id, key):
        self.id, self.sign = id, key.sign


class Repeated:
    """A signature that was made of another text, under the id of its key."""

    def __init__(self, key):
        self.id, self.sign = key.id, lambda leaf, _message: key.sign(leaf, b"another text")


class OfAnotherType:
    """A key of a type that no standard knows, whose signatures say the same type and are good otherwise."""

    kind, TYPE, AT = "lms", long(10), 1128

    def __init__(self, key):
        self.public = self.TYPE + key.public[4:]
        self.id = sha256(self.public).hex()
        self.key = key

    def sign(self, leaf, message):
        signature = self.key.sign(leaf, message)
        assert signature[self.AT : self.AT + 4] == LMS_TYPE
        return signature[: self.AT] + self.TYPE + signature[self.AT + 4 :]


def heads_top(*who, threshold=1, keys=None):
    """A top file with one rule, for all branches."""
    return top_file(keys or who, [rule("heads", "git:refs/heads/*", who, threshold)])


def signatures_that_do_not_count():
    """One under another key's id, one of another text, none, one by a listed key that no file has, one by a key of an
    unknown type; and one that counts."""
    unknown = OfAnotherType(REVIEWER)
    listed = (MAINTAINER, REVIEWER, NEWCOMER, unknown)
    history = guarded(heads_top(*listed, keys=(MAINTAINER, REVIEWER, unknown)))
    signers = (Named(MAINTAINER.id, NEWCOMER), Repeated(MAINTAINER), None, NEWCOMER, unknown, REVIEWER)
    for name, signer in zip("abcdef", signers):
        history.record(heads(name), history.commit(BEFORE), signer)
    bad = ((1, name, f"violation @ {number} ref-rule heads 0 of 1") for number, name in enumerate("abcde", 2))
    return (history, *asked_each(*bad, (0, "f", "accepted @ 1 entries")))


def approvals_that_do_not_count():
    """Two must sign. One approval is of another branch, of one the text names another branch; one goes from where the
    branch was before, of one the text says so; one names its key in upper case, and one the other key."""
    history = guarded(heads_top(MAINTAINER, REVIEWER, threshold=2))
    first, second = history.commit(BEFORE), history.commit(AFTER)
    tree = history.repository.tree_of(first)
    history.approve(first, REVIEWER, reference=heads("b"))
    history.record(heads("a"), first, MAINTAINER)
    history.approve(first, REVIEWER, reference=heads("b"), payload=approval(heads("a"), ZEROS, tree))
    history.record(heads("b"), first, MAINTAINER)
    for name, payload in (("c", None), ("d", approval(heads("d"), ZEROS, history.repository.tree_of(second)))):
        history.approve(first, REVIEWER, reference=heads(name))
        history.record(heads(name), first, MAINTAINER)
        history.approve(second, REVIEWER, reference=heads(name), before=first if payload else ZEROS, payload=payload)
        history.record(heads(name), second, MAINTAINER)
    for name, id in (("e", REVIEWER.id.upper()), ("f", MAINTAINER.id)):
        history.approve(first, Named(id, REVIEWER), reference=heads(name))
        history.record(heads(name), first, MAINTAINER)
    places = (("a", 3), ("b", 5), ("c", 9), ("d", 13), ("e", 15), ("f", 17))
    return (history, *asked_each(*((1, name, f"violation @ {at} ref-rule heads 1 of 2") for name, at in places)))


def approvals_that_count():
    """Two must sign. One approves each step of a branch, its end too; one approves the tree of another commit; both
    approve what nobody recorded by name."""
    history = guarded(heads_top(MAINTAINER, REVIEWER, threshold=2))
    first, second, same = history.commit(BEFORE), history.commit(AFTER), history.commit(BEFORE)
    for before, target in ((ZEROS, first), (first, second), (second, ZEROS)):
        history.approve(target, REVIEWER, reference=heads("a"), before=before)
        history.record(heads("a"), target, MAINTAINER)
    history.approve(same, REVIEWER, reference=heads("b"))
    history.record(heads("b"), first, MAINTAINER)
    history.approve(first, MAINTAINER, REVIEWER, reference=heads("c"))
    history.record(heads("c"), first)
    counts = (("a", 3), ("b", 1), ("c", 1))
    return (history, *asked_each(*((0, name, f"accepted @ {count} entries") for name, count in counts)))


def behind_tags():
    """Both the branch and the attestations stand at tags, and the approval is of the tree behind one."""
    history = guarded(base_top(2))
    target = history.commit(BEFORE)
    approved = history.approve(target, REVIEWER)
    tags = (history.repository.add(b"tag", b"object %s\ntype commit\n\n" % it.encode()) for it in (approved, target))
    history.record(ATTESTATIONS, next(tags))
    history.record(MAIN, next(tags), MAINTAINER)
    return history, asked(0, "accepted refs/heads/main 1 entries")


def approved_past_a_skip(from_the_skipped=False):
    """Two must sign. What one alone recorded is skipped, and the way back is approved from the target before it."""
    history = guarded(base_top(2))
    first, alone, back = history.commit(BEFORE), history.commit(AFTER), history.commit(BEFORE)
    history.approve(first, REVIEWER)
    history.record(MAIN, first, MAINTAINER)
    history.record(MAIN, alone, MAINTAINER)
    history.skip(4, MAINTAINER)
    history.approve(back, REVIEWER, before=alone if from_the_skipped else first)
    history.record(MAIN, back, MAINTAINER)
    return history, asked(0, "accepted refs/heads/main 3 entries")


def approved_from_the_skipped():
    """The same, approved from the target that was skipped."""
    history, _ = approved_past_a_skip(True)
    return history, asked(1, "violation refs/heads/main 4 ref-rule main 1 of 2")


def attestations_skipped():
    """The last attestations have no approval and are skipped. They are the last all the same, though their branch goes
    back to those before."""
    history = guarded(base_top(2))
    target = history.commit(BEFORE)
    approved = history.approve(target, REVIEWER)
    history.record(ATTESTATIONS, history.commit({}))
    history.skip(3, KEEPER)
    history.repository.set(ATTESTATIONS, approved)
    history.record(MAIN, target, MAINTAINER)
    return (
        history,
        asked(1, "violation refs/heads/main 5 ref-rule main 1 of 2"),
        asked_again(0, "accepted refs/gittuf/attestations 2 entries", ATTESTATIONS),
    )


def attestations_of_a_stranger():
    """The attestations are the keeper's, and nobody signed their entry, whose approval counts all the same."""
    rules = [main_rule(MAINTAINER, REVIEWER, threshold=2), rule("kept", f"git:{ATTESTATIONS}", [KEEPER])]
    history = guarded(top_file([KEEPER, MAINTAINER, REVIEWER], rules))
    target = history.commit(BEFORE)
    history.approve(target, REVIEWER)
    history.record(MAIN, target, MAINTAINER)
    return (
        history,
        asked(0, "accepted refs/heads/main 1 entries"),
        asked_again(1, "violation refs/gittuf/attestations 2 ref-rule kept 0 of 1", ATTESTATIONS),
    )


def references_that_moved():
    """One is gone, one stands elsewhere, and of one nothing is recorded."""
    history = guarded(heads_top(MAINTAINER))
    first, second = history.commit(BEFORE), history.commit(AFTER)
    for name, at in (("a", ZEROS), ("b", second)):
        history.record(heads(name), first, MAINTAINER)
        history.repository.set(heads(name), at)
    history.repository.set(heads("c"), second)
    told = (("a", ZEROS, first), ("b", second, first), ("c", second, ZEROS))
    return (history, *asked_each(*((1, name, f"tip-differs @ kept {at} recorded {to}") for name, at, to in told)))


ROWS = (
    signatures_that_do_not_count,
    approvals_that_do_not_count,
    approvals_that_count,
    behind_tags,
    approved_past_a_skip,
    approved_from_the_skipped,
    attestations_skipped,
    attestations_of_a_stranger,
    references_that_moved,
)
