"""Rows on who may skip an entry, and on how far a recovery goes."""

from rows_histories import AFTER, BEFORE, KEEPER, MAIN, MAINTAINER, NEWCOMER, REVIEWER
from rows_histories import asked, asked_again, guarded, top_file
from rows_objects import ZEROS
from rows_of_rules import Named, asked_each, heads, heads_top
from rows_policies import rule

NOWHERE = "1" * 64
OTHER = {b"src/x": b"another\n"}


def who_may_skip():
    """Of each branch two entries, and then an annotation of the second. Where it is skipped the branch goes back. Of `rel`
    the search ends before the maintainer's rule; no rule reaches the tags; the reviewer's key is in the policy alone."""
    rules = [rule("rel", "git:refs/heads/rel", [KEEPER], terminating=True), rule("all", "git:refs/heads/*", [MAINTAINER])]
    history = guarded(top_file([KEEPER, MAINTAINER, REVIEWER], rules))
    first, second = history.commit(BEFORE), history.commit(AFTER)
    ways = (
        (heads("rel"), KEEPER, True, MAINTAINER, False),
        (heads("a"), MAINTAINER, True, MAINTAINER, True),
        (heads("b"), MAINTAINER, True, REVIEWER, False),
        (heads("c"), MAINTAINER, True, Named(MAINTAINER.id, NEWCOMER), False),
        (heads("d"), MAINTAINER, False, MAINTAINER, False),
        ("refs/tags/a", None, True, REVIEWER, True),
        ("refs/tags/b", None, True, NEWCOMER, False),
        ("refs/tags/c", None, True, None, False),
    )
    for name, signer, skip, by, is_skipped in ways:
        history.record(name, first, signer)
        history.record(name, second, signer)
        # Beside the second entry of the branch, that of `rel` is always listed, and an id of which nothing is kept.
        history.annotate(skip, [NOWHERE, history.ids[-1], history.ids[2]], by)
        if is_skipped:
            history.repository.set(name, first)
    runs = [asked_again(0, f"accepted {name} 2 entries", name) for name, *_ in ways[1:]]
    return history, asked(0, "accepted refs/heads/rel 2 entries", heads("rel")), *runs


def skipped_by_another_key_of_a_person():
    """Alice has two keys; one signed both entries, and the other skips the second."""
    top = top_file(
        [MAINTAINER, REVIEWER], [rule("main", f"git:{MAIN}", ["alice"])], people={"alice": [MAINTAINER, REVIEWER]}
    )
    history = guarded(top)
    first, second = history.commit(BEFORE), history.commit(AFTER)
    history.record(MAIN, first, MAINTAINER)
    history.record(MAIN, second, MAINTAINER)
    history.skip(3, REVIEWER)
    return history, asked(1, f"tip-differs refs/heads/main kept {second} recorded {first}")


def put_back(bads, skips, fixed, files=BEFORE, signer=MAINTAINER):
    """Main has files by the maintainer, then others that the keeper put there, some of which are skipped, and then files by
    a signer. `fixed` is what is said then."""
    history = guarded()
    history.record(MAIN, history.commit(BEFORE), MAINTAINER)
    for bad in bads:
        history.record(MAIN, history.commit(bad), KEEPER)
    for number in skips:
        history.skip(number, MAINTAINER)
    history.record(MAIN, history.commit(files), signer)
    return history, asked(*fixed)


REFUSED_AT_3 = (1, "violation refs/heads/main 3 ref-rule main 0 of 1")


def put_back_to_another_tree():
    """The files put there then are others than before."""
    return put_back([AFTER], [3], REFUSED_AT_3, OTHER)


def put_back_by_nobody():
    """The same files as before, and nobody signed."""
    return put_back([AFTER], [3], REFUSED_AT_3, signer=None)


def put_back_by_a_stranger():
    """The same, and the keeper signed, who may not."""
    return put_back([AFTER], [3], REFUSED_AT_3, signer=KEEPER)


def put_back_to_the_same_target():
    """Main goes back to the very commit where it was before."""
    history = guarded()
    first = history.commit(BEFORE)
    for target, signer in ((first, MAINTAINER), (history.commit(AFTER), KEEPER)):
        history.record(MAIN, target, signer)
    history.skip(3, MAINTAINER)
    history.record(MAIN, first, MAINTAINER)
    return history, asked(0, "accepted refs/heads/main 3 entries")


def two_put_back():
    """Two of the keeper's entries are skipped, the second first."""
    return put_back([AFTER, OTHER], [4, 3], (0, "accepted refs/heads/main 4 entries"))


def put_back_behind_one_that_stays():
    """Of two of the keeper's entries the first alone is skipped. The second has the tree from before, and stays."""
    return put_back([AFTER, BEFORE], [3], REFUSED_AT_3)


def last_of_a_stranger_is_not_put_back():
    """Nothing is skipped, and the maintainer records the files that the keeper put there."""
    return put_back([AFTER], [], REFUSED_AT_3, AFTER)


def what_was_before_is_not_put_back():
    """The keeper's first entry stays; the maintainer's is after it, and the recovery goes back to that one."""
    history = guarded()
    for files, signer in ((OTHER, KEEPER), (BEFORE, MAINTAINER), (AFTER, KEEPER)):
        history.record(MAIN, history.commit(files), signer)
    history.skip(4, MAINTAINER)
    history.record(MAIN, history.commit(BEFORE), MAINTAINER)
    return history, asked(1, "violation refs/heads/main 2 ref-rule main 0 of 1")


def broken_and_put_back():
    """The tree of the second target is not kept; the entry is skipped, and main goes back."""
    history = guarded()
    broken = history.commit(AFTER)
    del history.repository.objects[history.repository.tree_of(broken)]
    history.record(MAIN, history.commit(BEFORE), MAINTAINER)
    history.record(MAIN, broken, MAINTAINER)
    history.skip(3, MAINTAINER)
    history.record(MAIN, history.commit(BEFORE), MAINTAINER)
    return history, asked(0, "accepted refs/heads/main 3 entries")


def one_branch_put_back():
    """Each of two branches has an entry of a stranger's that is skipped, and one of them goes back."""
    history = guarded(heads_top(MAINTAINER))
    for files, signer in ((BEFORE, MAINTAINER), (AFTER, KEEPER)):
        for name in "ab":
            history.record(heads(name), history.commit(files), signer)
    history.annotate(True, history.ids[3:5], MAINTAINER)
    history.record(heads("a"), history.commit(BEFORE), MAINTAINER)
    return (history, *asked_each((0, "a", "accepted @ 3 entries"), (1, "b", "violation @ 5 ref-rule heads 0 of 1")))


def recoveries_in_one_another():
    """The keeper puts other files there, and then the old ones, which ends no recovery. Both entries are skipped, and the
    maintainer's way back takes in both."""
    return put_back([AFTER, BEFORE], [3, 4], (0, "accepted refs/heads/main 4 entries"))


def put_back_after(*skips):
    """The keeper's entry is skipped by annotations of the entries of these numbers, and main is put back."""
    history = guarded()
    history.record(MAIN, history.commit(BEFORE), MAINTAINER)
    history.record(MAIN, history.commit(AFTER), KEEPER)
    for numbers in skips:
        history.annotate(True, [history.ids[number - 1] for number in numbers], MAINTAINER)
    history.record(MAIN, history.commit(BEFORE), MAINTAINER)
    return history, asked(0, "accepted refs/heads/main 3 entries")


def skipped_twice():
    """The keeper's entry is skipped, beside the policy's, and then once more."""
    return put_back_after((1, 3), (3,))


def skip_that_is_skipped():
    """The keeper's entry is skipped, and then the skip, which counts all the same."""
    return put_back_after((3,), (4,))


def way_back_skipped_later():
    """The entry that ends a recovery is skipped then. What it took in stays so, and main goes back to the first commit."""
    history = guarded()
    first = history.commit(BEFORE)
    for target, signer in ((first, MAINTAINER), (history.commit(AFTER), KEEPER)):
        history.record(MAIN, target, signer)
    history.skip(3, MAINTAINER)
    history.record(MAIN, history.commit(BEFORE), MAINTAINER)
    history.skip(5, MAINTAINER)
    history.repository.set(MAIN, first)
    return history, asked(0, "accepted refs/heads/main 3 entries")


def deleted_and_put_back():
    """Main is deleted, put back and deleted again, by the maintainer each time."""
    history = guarded()
    first = history.commit(BEFORE)
    for target in (first, ZEROS, first, ZEROS):
        history.record(MAIN, target, MAINTAINER)
    return history, asked(0, "accepted refs/heads/main 4 entries")


ROWS = (
    who_may_skip,
    skipped_by_another_key_of_a_person,
    put_back_to_another_tree,
    put_back_by_nobody,
    put_back_by_a_stranger,
    put_back_to_the_same_target,
    two_put_back,
    put_back_behind_one_that_stays,
    last_of_a_stranger_is_not_put_back,
    what_was_before_is_not_put_back,
    broken_and_put_back,
    one_branch_put_back,
    recoveries_in_one_another,
    skipped_twice,
    skip_that_is_skipped,
    way_back_skipped_later,
    deleted_and_put_back,
)
