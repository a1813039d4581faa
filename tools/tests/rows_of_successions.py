"""Rows on which policy may follow another one, and on whose signatures the files of a policy need."""

from rows_histories import BEFORE, KEEPER, MAIN, MAINTAINER, NEWCOMER, OWNER, POLICY, REVIEWER
from rows_histories import History, asked, asked_again, base_files, base_root, base_top, guarded, keys_rule, main_rule
from rows_histories import top_file
from rows_objects import LINK
from rows_policies import root, rule, rule_file

NEXT = "refs/heads/next"
FIRST, SECOND = f"violation {POLICY} 1 not-epoch ", f"violation {POLICY} 2 not-epoch "
FOLLOWS = f"accepted {POLICY} 2 entries"


def next_root(version=2):
    """A root in which the root role is the newcomer's, and the other one the owner's."""
    return root(version, [OWNER, NEWCOMER], [NEWCOMER], [OWNER])


def next_top(version=2):
    return top_file([KEEPER, MAINTAINER], [keys_rule(), main_rule(MAINTAINER)], version)


def inner_file(version=1, keeper=KEEPER):
    """A file of the rule main, which has a rule of its own."""
    return rule_file("main", [keeper], [rule("inner", f"git:{MAIN}", [keeper])], version)


def innermost_file():
    """A file of the rule in that one."""
    return rule_file("inner", [REVIEWER], [rule("innermost", f"git:{MAIN}", [REVIEWER])])


def with_files():
    """The files of a policy with two more in one another, below the rule main."""
    below = {"main": (inner_file(), [MAINTAINER]), "inner": (innermost_file(), [KEEPER])}
    return base_files(base_top()) | below


def followed(files, status, said, first=None):
    """What is said of the policy's reference, where these files follow on the first ones."""
    history = History()
    history.policy(first or base_files(base_top()))
    history.policy(files)
    return history, asked(status, said, POLICY)


def another_root_of_its_version():
    """The root is another one, which both role holders signed, and has the old one's version."""
    files = base_files(base_top()) | {"root": (next_root(1), [NEWCOMER, OWNER])}
    return followed(files, 1, SECOND + "root-version 1 1")


def root_version_first():
    """The root is two versions later, the old one did not sign it, and the top file is another one of its version."""
    files = base_files(next_top(1)) | {"root": (next_root(3), [NEWCOMER])}
    return followed(files, 1, SECOND + "root-version 1 3")


def root_succession_next():
    """The same with the next version."""
    files = base_files(next_top(1)) | {"root": (next_root(), [NEWCOMER])}
    return followed(files, 1, SECOND + "root-succession 0 of 1")


def same_root_signed_by_another():
    """The root is the same, and now signed by the keeper alone, which is no root."""
    return followed(base_files(next_top()) | {"root": (base_root(), [KEEPER])}, 1, SECOND + "root-threshold 0 of 1")


def top_file_of_an_earlier_version():
    """The first top file has version 2, and the second another payload of version 1."""
    return followed(base_files(next_top(1)), 1, SECOND + "file-version targets", base_files(next_top(2)))


def files_are_tried_in_order():
    """The top file and the one below it are others and have kept their versions, and one more is gone."""
    other = {"main": (inner_file(1, MAINTAINER), [MAINTAINER])}
    return followed(base_files(next_top(1)) | other, 1, SECOND + "file-version targets", with_files())


def file_below_kept_its_version():
    """The same with the top file as it was: of two files the first that is another one is told."""
    other = {"main": (inner_file(1, MAINTAINER), [MAINTAINER])}
    return followed(base_files(base_top()) | other, 1, SECOND + "file-version main", with_files())


def file_gone_below_a_raised_one():
    """The innermost file is gone, and that with its rule has a higher version."""
    raised = {"main": (inner_file(2), [MAINTAINER])}
    return followed(base_files(base_top()) | raised, 0, FOLLOWS, with_files())


def file_gone_below_one_that_stays():
    """The innermost file is gone, and that with its rule stays as it was."""
    same = {"main": (inner_file(), [MAINTAINER])}
    return followed(base_files(base_top()) | same, 1, SECOND + "file-dropped inner", with_files())


def files_gone_together():
    """Both files below the top file are gone. The innermost may go with the other, and that one may not."""
    return followed(base_files(base_top()), 1, SECOND + "file-dropped main", with_files())


def files_gone_below_a_raised_top():
    """The same, and the top file has a higher version."""
    return followed(base_files(next_top()), 0, FOLLOWS, with_files())


def top_file_gone():
    """No rule file is left, and the root is the same."""
    return followed({"root": (base_root(), [OWNER])}, 1, SECOND + "file-dropped targets")


def top_file_gone_with_another_root():
    """The root has the next version too, and the old one's signature. Nothing is protected then."""
    history, run = followed({"root": (next_root(), [NEWCOMER, OWNER])}, 0, FOLLOWS)
    history.record(MAIN, history.commit({b"keys/a": b"a\n"}))
    return history, run, asked_again(0, "accepted refs/heads/main 1 entries")


def file_signed_by_a_key_of_another_file():
    """The rule main lists the newcomer, whose key stands in the file of this rule alone, which the newcomer signed."""
    top = top_file([MAINTAINER], [main_rule(MAINTAINER, NEWCOMER)])
    below = rule_file("main", [NEWCOMER], [rule("inner", f"git:{MAIN}", [NEWCOMER])])
    return guarded(top, main=(below, [NEWCOMER])), asked(1, FIRST + "file-threshold main 0 of 1", POLICY)


def root_signed_by_a_key_of_another_file():
    """The root role lists the maintainer too, whose key stands in the top file alone, and who alone signed the root."""
    listed = root(1, [OWNER], [OWNER, MAINTAINER], [OWNER])
    return guarded(root=(listed, [MAINTAINER])), asked(1, FIRST + "root-threshold 0 of 1", POLICY)


def top_file_signed_by_its_own_keys():
    """The top file is signed by the maintainer, whose key it has, and not by the root's role for it."""
    history = History()
    history.policy(base_files(base_top()) | {"targets": (base_top(), [MAINTAINER])})
    return history, asked(1, FIRST + "file-threshold targets 0 of 1", POLICY)


def first_fault(said, **files):
    """What is said of the first policy, in which these files stand in place of those that are well."""
    return guarded(**files), asked(1, FIRST + said, POLICY)


TWICE = top_file([MAINTAINER], [main_rule(MAINTAINER), main_rule(MAINTAINER)])


def bad_file_before_the_signatures_of_the_root():
    """A file below the top file is none, and nobody who may signed the root."""
    return first_fault("bad-file main", root=(base_root(), [KEEPER]), main=(b"{}", [MAINTAINER]))


def signatures_of_the_root_before_names():
    """Nobody who may signed the root, and two rules have one name."""
    return first_fault("root-threshold 0 of 1", root=(base_root(), [KEEPER]), targets=(TWICE, [OWNER]))


def names_before_the_signatures_of_files():
    """Two rules have one name, in a file that nobody signed who may."""
    return first_fault("duplicate-name main", targets=(TWICE, [KEEPER]))


def top_file_before_those_below():
    """Nobody who may signed the top file nor the one below it."""
    below = {"main": (inner_file(), [KEEPER])}
    return first_fault("file-threshold targets 0 of 1", targets=(base_top(), [KEEPER]), **below)


def what_is_no_policy_file():
    """Beside the policy's files stand others: of another name, a link, in a directory, and in another directory."""
    history = History()
    link = (LINK, history.repository.blob(b"root.json"))
    files = base_files(base_top()).items()
    rows = {b"metadata/%s.json" % stem.encode(): history.seal(*sealed) for stem, sealed in files}
    rows |= {b"metadata/a": b"{}", b"metadata/b.JSON": b"{}", b"metadata/c.json": link}
    rows |= {b"metadata/d/e.json": b"{}", b"metadata0/f.json": b"{}"}
    history.record(POLICY, history.commit(rows), OWNER)
    return history, asked(0, f"accepted {POLICY} 1 entries", POLICY)


def anchored():
    """The second policy's root is the newcomer's. Where that key is asked for, the first policy is refused and the second
    is the first in force; where the owner's is, the second need not have it. Of `next` nothing is protected."""
    history = History()
    history.policy(base_files(base_top()))
    history.record(MAIN, history.commit(BEFORE), MAINTAINER)
    history.policy(base_files(base_top()) | {"root": (next_root(), [NEWCOMER, OWNER])})
    for name in (MAIN, NEXT):
        history.record(name, history.commit(BEFORE), MAINTAINER)
    owners, newcomers = (f" --root {key.id}" for key in (OWNER, NEWCOMER))
    return (
        history,
        asked(0, FOLLOWS, POLICY, owners),
        asked_again(1, FIRST + "anchor", POLICY, newcomers),
        asked_again(0, "accepted refs/heads/main 2 entries", MAIN, owners),
        asked_again(1, "violation refs/heads/main 2 no-policy", MAIN, newcomers),
        asked_again(0, "accepted refs/heads/next 1 entries", NEXT, newcomers),
    )


def anchored_by_two():
    """The root role lists the owner and the newcomer, of whom the owner alone must sign. Both are asked for, or none is."""
    history = guarded(root=(root(1, [OWNER, NEWCOMER], [OWNER, NEWCOMER], [OWNER]), [OWNER]))
    one, two, again = (OWNER.id,), (NEWCOMER.id, OWNER.id), (OWNER.id, NEWCOMER.id, OWNER.id)
    answers = ((1, FIRST + "anchor", one), (0, f"accepted {POLICY} 1 entries", two), (0, f"accepted {POLICY} 1 entries", again))
    asks = ((status, said, POLICY, f" --root {','.join(ids)}") for status, said, ids in answers)
    return history, asked(*next(asks)), *(asked_again(*it) for it in asks)


def many_rules(**more):
    """A policy whose top file has 1,024 rules of one person, and more rule files."""
    digits = "0123456789abcdefghijklmnopqrstuv"
    rules = [rule(a + b, "file:a", ["p"]) for a in digits for b in digits]
    return guarded(top_file([MAINTAINER], rules, people={"p": [MAINTAINER]}), **more)


def as_many_rules_as_may_be():
    """There are 1,024 rules."""
    return many_rules(), asked(0, f"accepted {POLICY} 1 entries", POLICY)


def one_rule_too_many():
    """A file below the first of them has one more. Each file is read without a refusal."""
    below = rule_file("00", [MAINTAINER], [rule("more", "file:a", [MAINTAINER])])
    return many_rules(**{"00": (below, [MAINTAINER])}), asked(1, FIRST + "too-many", POLICY)


def policy_of_nobody():
    """A rule says that the policy's reference is the keeper's. Nobody signed the entry of the next policy, and it is judged
    by its files alone."""
    rules = [main_rule(MAINTAINER), rule("kept", f"git:{POLICY}", [KEEPER])]
    history = History()
    history.policy(base_files(top_file([KEEPER, MAINTAINER], rules)))
    history.policy(base_files(top_file([KEEPER, MAINTAINER], rules[1:], 2)), None)
    history.record(MAIN, history.commit(BEFORE))
    return history, asked(0, FOLLOWS, POLICY), asked_again(0, "accepted refs/heads/main 1 entries")


def policy_skipped():
    """The second policy takes main from the reviewer, and its entry is skipped. Its reference goes back, and it is in force
    all the same."""
    history = History()
    history.policy(base_files(base_top()))
    first = history.repository.references[POLICY]
    history.policy(base_files(next_top()))
    history.skip(2, OWNER)
    history.repository.set(POLICY, first)
    history.record(MAIN, history.commit(BEFORE), REVIEWER)
    return (
        history,
        asked(1, "violation refs/heads/main 4 ref-rule main 0 of 1"),
        asked_again(0, FOLLOWS, POLICY),
    )


def policy_put_back():
    """A policy without a root is skipped, and the first one is recorded again."""
    history = History()
    history.policy(base_files(base_top()))
    first = history.repository.references[POLICY]
    history.record(POLICY, history.commit({b"metadata/targets.json": b"{}"}), OWNER)
    history.skip(2, OWNER)
    history.record(POLICY, first, OWNER)
    return history, asked(0, f"accepted {POLICY} 3 entries", POLICY)


ROWS = (
    another_root_of_its_version,
    root_version_first,
    root_succession_next,
    same_root_signed_by_another,
    top_file_of_an_earlier_version,
    files_are_tried_in_order,
    file_below_kept_its_version,
    file_gone_below_a_raised_one,
    file_gone_below_one_that_stays,
    files_gone_together,
    files_gone_below_a_raised_top,
    top_file_gone,
    top_file_gone_with_another_root,
    file_signed_by_a_key_of_another_file,
    root_signed_by_a_key_of_another_file,
    top_file_signed_by_its_own_keys,
    bad_file_before_the_signatures_of_the_root,
    signatures_of_the_root_before_names,
    names_before_the_signatures_of_files,
    top_file_before_those_below,
    what_is_no_policy_file,
    anchored,
    anchored_by_two,
    as_many_rules_as_may_be,
    one_rule_too_many,
    policy_of_nobody,
    policy_skipped,
    policy_put_back,
)
