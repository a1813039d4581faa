"""Rows on who signed an entry, on skips, and on recoveries."""

from rows_histories import AFTER, ATTESTATIONS, BEFORE, KEEPER, MAIN, MAINTAINER, NEWCOMER, OWNER, REVIEWER
from rows_histories import History, asked, asked_again, base_files, base_top, guarded, keys_rule, main_rule
from rows_histories import top_file
from rows_objects import ZEROS
from rows_policies import approval, rule, rule_file
from rows_runs import Run
from rows_signing import OneLeaf, TwoLevels


def no_policy():
    """The first entry of the log is of main, and no policy is there."""
    history = History()
    history.record(MAIN, history.commit(BEFORE))
    return history, asked(1, "violation refs/heads/main 1 no-policy")


def approved_by_another_key():
    """Two must sign: one approves the change, then the other records it."""
    history = guarded(base_top(2))
    target = history.commit(BEFORE)
    history.approve(target, REVIEWER)
    history.record(MAIN, target, MAINTAINER)
    return history, asked(0, "accepted refs/heads/main 1 entries")


def approved_without_key_id():
    """The same with a signature that does not say whose it is."""
    history = guarded(base_top(2))
    target = history.commit(BEFORE)
    history.approve(target, REVIEWER, named=False)
    history.record(MAIN, target, MAINTAINER)
    return history, asked(0, "accepted refs/heads/main 1 entries")


def approved_by_a_key_of_two_levels():
    """The same by a key of two levels."""
    two_levels = TwoLevels("of two levels")
    rules = [keys_rule(), main_rule(MAINTAINER, two_levels, threshold=2)]
    history = guarded(top_file([KEEPER, MAINTAINER, two_levels], rules))
    target = history.commit(BEFORE)
    history.approve(target, two_levels)
    history.record(MAIN, target, MAINTAINER)
    return history, asked(0, "accepted refs/heads/main 1 entries")


def signed_by_keys_of_each_type():
    """Keys of 5 to 25 levels, of each width, sign an entry each, by the last leaf, the first or one between."""
    types = ((5, 1, 31), (10, 2, 0), (15, 4, 2**15 - 1), (20, 8, 54321), (25, 4, 2**25 - 1))
    keys = [OneLeaf(*it) for it in types]
    history = guarded(top_file(keys, [main_rule(*keys)]))
    for key in keys:
        history.record(MAIN, history.commit(BEFORE), key)
    return history, asked(0, f"accepted refs/heads/main {len(keys)} entries")


def approved_by_the_same_key_twice():
    """Two must sign, and one key signs the entry and the approval, this twice."""
    history = guarded(base_top(2))
    target = history.commit(BEFORE)
    history.approve(target, MAINTAINER, MAINTAINER)
    history.record(MAIN, target, MAINTAINER)
    return history, asked(1, "violation refs/heads/main 3 ref-rule main 1 of 2")


def approved_for_another_tree():
    """The approval is of another tree than the entry's target has."""
    history = guarded(base_top(2))
    target = history.commit(BEFORE)
    history.approve(history.commit(AFTER), REVIEWER)
    history.record(MAIN, target, MAINTAINER)
    return history, asked(1, "violation refs/heads/main 3 ref-rule main 1 of 2")


def approval_says_another_tree():
    """The approval stands where the entry's is looked up, and what was signed names another tree."""
    history = guarded(base_top(2))
    target, other = history.commit(BEFORE), history.commit(AFTER)
    payload = approval(MAIN, ZEROS, history.repository.tree_of(other))
    history.approve(target, REVIEWER, payload=payload)
    history.record(MAIN, target, MAINTAINER)
    return history, asked(1, "violation refs/heads/main 3 ref-rule main 1 of 2")


def attestations_moved_back():
    """A later entry moves the attestations to where no approval is, before main's entry is recorded."""
    history = guarded(base_top(2))
    target = history.commit(BEFORE)
    history.approve(target, REVIEWER)
    history.record(ATTESTATIONS, history.commit({}))
    history.record(MAIN, target, MAINTAINER)
    return history, asked(1, "violation refs/heads/main 4 ref-rule main 1 of 2")


def attestations_moved_back_later():
    """The attestations are moved back after main's entry, which has its approval all the same; by no entry, too."""
    history = guarded(base_top(2))
    target, empty = history.commit(BEFORE), history.commit({})
    history.approve(target, REVIEWER)
    history.record(MAIN, target, MAINTAINER)
    history.record(ATTESTATIONS, empty)
    last = history.commit({b"note": b"the last recorded\n"})
    history.record(ATTESTATIONS, last)
    history.repository.set(ATTESTATIONS, empty)
    differs = f"tip-differs refs/gittuf/attestations kept {empty} recorded {last}"
    return history, asked(0, "accepted refs/heads/main 1 entries"), asked_again(1, differs, ATTESTATIONS)


def signer_of_a_rule_file_out_of_reach():
    """The rule of main lists a newcomer whose key stands in the file of a rule that main does not reach."""
    rules = [main_rule(MAINTAINER, NEWCOMER), rule("other", "git:refs/heads/other", [MAINTAINER])]
    other = rule_file("other", [NEWCOMER], [rule("inner", "git:refs/heads/other", [NEWCOMER])])
    history = guarded(top_file([MAINTAINER], rules), other=(other, [MAINTAINER]))
    history.record(MAIN, history.commit(BEFORE), NEWCOMER)
    return history, asked(0, "accepted refs/heads/main 1 entries")


def signer_whose_key_the_root_alone_has():
    """The rule of main lists the owner, whose key stands in no file but the root."""
    history = guarded(top_file([MAINTAINER], [main_rule(MAINTAINER, OWNER)]))
    history.record(MAIN, history.commit(BEFORE), OWNER)
    return history, asked(0, "accepted refs/heads/main 1 entries")


def signer_whom_no_rule_in_reach_lists():
    """The newcomer's key is one of the policy's, and only a rule that main does not reach lists it."""
    rules = [main_rule(MAINTAINER), rule("other", "git:refs/heads/other", [MAINTAINER])]
    other = rule_file("other", [NEWCOMER], [rule("inner", "git:refs/heads/other", [NEWCOMER])])
    history = guarded(top_file([MAINTAINER], rules), other=(other, [MAINTAINER]))
    history.record(MAIN, history.commit(BEFORE), NEWCOMER)
    return history, asked(1, "violation refs/heads/main 2 ref-rule main 0 of 1")


def recovered(signer=MAINTAINER):
    """The keeper's entry is skipped, and the next one is at the tree that was there before."""
    history = guarded()
    history.record(MAIN, history.commit(BEFORE), MAINTAINER)
    history.record(MAIN, history.commit(AFTER), KEEPER)
    history.skip(3, signer)
    history.record(MAIN, history.commit(BEFORE), MAINTAINER)
    return history, asked(0, "accepted refs/heads/main 3 entries")


def recovered_and_hurt():
    """The same from each front of its stream, from a source that fails at a call, and from a store that does; and it
    goes in and comes out as the same bytes."""
    history, whole = recovered()
    fault, accepted = (4, "", "fault\n"), whole.endings[0]
    return (
        history,
        Run(whole.words, (3, "", "stream 5\n"), way="fronts"),
        Run(whole.words, fault, accepted, way="failing-source"),
        Run("import", (0, "imported\n", "")),
        Run("export", (0, history.repository.stream(), "")),
        asked_again(0, "accepted refs/heads/main 3 entries"),
        # The line is printed after the last call of the store, so that of the line nothing is printed before.
        Run(f"verify-ref {MAIN}", fault, accepted, way="failing-store"),
    )


def skipped_too_late():
    """The entry at the tree that was there before comes before the skip."""
    history = guarded()
    history.record(MAIN, history.commit(BEFORE), MAINTAINER)
    history.record(MAIN, history.commit(AFTER), KEEPER)
    history.record(MAIN, history.commit(BEFORE), MAINTAINER)
    history.skip(3, MAINTAINER)
    return history, asked(1, "violation refs/heads/main 3 ref-rule main 0 of 1")


def recovered_by_deletion():
    """The first entry is the keeper's and is skipped, and the reference is deleted then."""
    history = guarded()
    history.record(MAIN, history.commit(BEFORE), KEEPER)
    history.skip(2, MAINTAINER)
    history.record(MAIN, ZEROS, MAINTAINER)
    return history, asked(0, "accepted refs/heads/main 2 entries")


def stands_at_a_skipped_target():
    """The last entry is skipped, and the reference still stands at its target."""
    history = guarded()
    first, second = history.commit(BEFORE), history.commit(AFTER)
    history.record(MAIN, first, MAINTAINER)
    history.record(MAIN, second, MAINTAINER)
    history.skip(3, MAINTAINER)
    return history, asked(1, f"tip-differs refs/heads/main kept {second} recorded {first}")


def skipped_by_a_stranger():
    """The skip is signed by the keeper, whom no rule of main lists."""
    history, _ = recovered(KEEPER)
    return history, asked(1, "violation refs/heads/main 3 ref-rule main 0 of 1")


def skipped_under_a_later_policy(signer=NEWCOMER):
    """Main is the newcomer's alone by the time at which the entry is skipped, and the newcomer skips it."""
    history = guarded()
    history.record(MAIN, history.commit(BEFORE), MAINTAINER)
    history.record(MAIN, history.commit(AFTER), KEEPER)
    later = top_file([KEEPER, MAINTAINER, NEWCOMER], [keys_rule(), main_rule(NEWCOMER)], 2)
    history.policy(base_files(later))
    history.skip(3, signer)
    history.record(MAIN, history.commit(BEFORE), NEWCOMER)
    return history, asked(0, "accepted refs/heads/main 3 entries")


def skipped_by_who_was_listed_before():
    """The same, skipped by the maintainer, whom the rule listed when the entry was made and lists no more."""
    history, _ = skipped_under_a_later_policy(MAINTAINER)
    return history, asked(1, "violation refs/heads/main 3 ref-rule main 0 of 1")


def under_another_root():
    """The caller wants the first policy to be another key's, and then that it is the owner's."""
    history = guarded()
    history.record(MAIN, history.commit(BEFORE), MAINTAINER)
    no_policy, accepted = "violation refs/heads/main 2 no-policy", "accepted refs/heads/main 1 entries"
    return (
        history,
        asked(1, no_policy, words=f" --root {MAINTAINER.id}"),
        asked_again(0, accepted, words=f" --root {OWNER.id}"),
        asked_again(1, no_policy, words=f" --root {OWNER.id},{MAINTAINER.id}"),
    )


def unprotected():
    """No rule is reached, and nobody signed."""
    history = guarded()
    history.record("refs/heads/free", history.commit(BEFORE))
    return history, asked(0, "accepted refs/heads/free 1 entries", "refs/heads/free")


def used_up():
    """Each leaf of the key file is used, and the store stays as it was."""
    history = guarded()
    history.record(MAIN, history.commit(BEFORE), MAINTAINER)
    key = MAINTAINER.file(b"\1" * 32)
    stream = history.repository.stream()
    return (
        history,
        Run("import", (0, "imported\n", "")),
        Run(f"record {MAIN}", (6, "", "exhausted\n"), key=key),
        Run("export", (0, stream, "")),
    )


ROWS = (
    no_policy,
    approved_by_another_key,
    approved_without_key_id,
    approved_by_a_key_of_two_levels,
    signed_by_keys_of_each_type,
    approved_by_the_same_key_twice,
    approved_for_another_tree,
    approval_says_another_tree,
    attestations_moved_back,
    attestations_moved_back_later,
    signer_of_a_rule_file_out_of_reach,
    signer_whose_key_the_root_alone_has,
    signer_whom_no_rule_in_reach_lists,
    recovered,
    recovered_and_hurt,
    skipped_too_late,
    recovered_by_deletion,
    stands_at_a_skipped_target,
    skipped_by_a_stranger,
    skipped_under_a_later_policy,
    skipped_by_who_was_listed_before,
    under_another_root,
    unprotected,
    used_up,
)
