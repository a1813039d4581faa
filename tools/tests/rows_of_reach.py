"""Rows on which rules a search reaches, and on which paths a change touches."""

from rows_histories import BEFORE, KEEPER, MAIN, MAINTAINER, NEWCOMER, REVIEWER, asked, asked_again, guarded, main_rule
from rows_histories import top_file
from rows_of_rules import asked_each, heads
from rows_of_states import changed_later
from rows_objects import FILE, LINK, ZEROS, object_id
from rows_policies import rule, rule_file

FREE = "refs/heads/free"


def chains():
    """A history with a rule `one`, which ends the search, and `one-below` and `wide` in its file; `two`, in whose file
    `two-below` ends the search; and `all`. `one-below` and `all` are the maintainer's, and `wide` is the reviewer's."""
    top = top_file(
        [KEEPER, MAINTAINER, REVIEWER],
        [
            rule("one", "git:refs/heads/one*", [KEEPER], terminating=True),
            rule("two", "git:refs/heads/two*", [KEEPER]),
            rule("all", "git:refs/heads/*", [MAINTAINER]),
        ],
    )
    one = [rule("one-below", "git:refs/heads/one-*", [MAINTAINER]), rule("wide", "git:*", [REVIEWER])]
    two = [rule("two-below", "git:refs/heads/two-a*", [KEEPER], terminating=True)]
    return guarded(
        top,
        one=(rule_file("one", [MAINTAINER, REVIEWER], one), [KEEPER]),
        two=(rule_file("two", [KEEPER], two), [KEEPER]),
    )


def rules_reached_below_others():
    """A rule that ends the search is followed into its own file, and one below another ends it for the rules above too. A
    rule is not reached where the one above it does not match, whatever it matches itself."""
    history = chains()
    signers = (("one-x", MAINTAINER), ("one", MAINTAINER), ("two-a", MAINTAINER), ("two-b", MAINTAINER), ("x", REVIEWER))
    for name, signer in signers:
        history.record(heads(name), history.commit(BEFORE), signer)
    return (
        history,
        *asked_each(
            (0, "one-x", "accepted @ 1 entries"),
            (1, "one", "violation @ 3 ref-rule one 0 of 1"),
            (1, "two-a", "violation @ 4 ref-rule two 0 of 1"),
            (0, "two-b", "accepted @ 1 entries"),
            (1, "x", "violation @ 6 ref-rule all 0 of 1"),
        ),
    )


def rule_that_does_not_match():
    """The first rule would end the search, and is another branch's."""
    rules = [rule("other", "git:refs/heads/other", [KEEPER], terminating=True), rule("all", "git:*", [MAINTAINER])]
    history = guarded(top_file([KEEPER, MAINTAINER], rules))
    history.record(MAIN, history.commit(BEFORE), MAINTAINER)
    return history, asked(0, "accepted refs/heads/main 1 entries")


def reference_before_path():
    """Neither the branch's rule is met nor that of a path, and the branch's is told."""
    history = guarded()
    history.record(MAIN, history.commit({b"keys/a": b"a\n"}), NEWCOMER)
    return history, asked(1, "violation refs/heads/main 2 ref-rule main 0 of 1")


def paths_of_many_rules():
    """The least of the changed paths that are not met is told, in whatever order the rules stand, and how many signed."""
    rules = [
        main_rule(MAINTAINER),
        rule("c", "file:c", [KEEPER, REVIEWER], 2),
        rule("b", "file:b", [KEEPER]),
        rule("a", "file:a", [MAINTAINER]),
    ]
    history = guarded(top_file([KEEPER, MAINTAINER, REVIEWER], rules))
    files = {b"a": b"a\n", b"c": b"c\n", b"d": b"d\n"}
    first, second = history.commit(files), history.commit(files | {b"b": b"b\n"})
    history.record(MAIN, first, MAINTAINER)
    history.record("refs/heads/next", second)
    history.approve(first, REVIEWER, reference="refs/heads/last")
    history.record("refs/heads/last", first, MAINTAINER)
    return (
        history,
        asked(1, "violation refs/heads/main 2 path-rule c c 0 of 2"),
        asked_again(1, "violation refs/heads/next 3 path-rule a a 0 of 1", "refs/heads/next"),
        asked_again(1, "violation refs/heads/last 5 path-rule c c 1 of 2", "refs/heads/last"),
    )


def protected_paths_deleted():
    """A branch goes, and with it a path that is the keeper's: once without the keeper, and once approved."""
    history = guarded()
    target = history.commit({b"keys/a": b"a\n"})
    for name, signer in ((MAIN, MAINTAINER), (FREE, None)):
        history.approve(target, KEEPER, reference=name)
        history.record(name, target, signer)
    history.record(MAIN, ZEROS, MAINTAINER)
    history.approve(ZEROS, KEEPER, reference=FREE, before=target)
    history.record(FREE, ZEROS)
    return (
        history,
        asked(1, "violation refs/heads/main 6 path-rule keys/a keys 0 of 1"),
        asked_again(0, "accepted refs/heads/free 2 entries", FREE),
    )


def protected_directory_becomes_a_file():
    """What stood below the directory has changed, though a file of its name is nobody's."""
    history = changed_later({b"keys/a": b"a\n"}, {b"keys": b"a\n"})
    return history, asked(1, "violation refs/heads/main 4 path-rule keys/a keys 0 of 1")


def protected_file_becomes_a_directory():
    """A file of the keeper's becomes a directory, below which all is the keeper's."""
    history = changed_later({b"keys/a": b"a\n", b"x": b"x\n"}, {b"keys/a/b": b"a\n", b"x": b"x\n"})
    return history, asked(1, "violation refs/heads/main 4 path-rule keys/a keys 0 of 1")


def neighbours_of_a_protected_directory():
    """Names that begin as the directory's, before and after it in the tree, and a directory of its name below another."""
    kept = {b"keys/a": b"a\n"}
    new = {name: b"new\n" for name in (b"keys.b", b"keys0", b"key/s", b"keysx/a", b"src/keys/a")}
    history = changed_later(kept, kept | new)
    return history, asked(0, "accepted refs/heads/main 2 entries")


def protected_file_becomes_a_link():
    """The same bytes stand at the path, as a link."""
    blob = object_id(b"blob", b"a\n")
    history = changed_later({b"keys/a": (FILE, blob)}, {b"keys/a": (LINK, blob)})
    return history, asked(1, "violation refs/heads/main 4 path-rule keys/a keys 0 of 1")


ROWS = (
    rules_reached_below_others,
    rule_that_does_not_match,
    reference_before_path,
    paths_of_many_rules,
    protected_paths_deleted,
    protected_directory_becomes_a_file,
    protected_file_becomes_a_directory,
    neighbours_of_a_protected_directory,
    protected_file_becomes_a_link,
)
