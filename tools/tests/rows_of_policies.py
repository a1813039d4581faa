"""Rows on which policy is in force, and on what its rules and persons ask for."""

from rows_histories import BEFORE, KEEPER, MAIN, MAINTAINER, NEWCOMER, OWNER, POLICY, REVIEWER
from rows_histories import History, asked, asked_again, base_files, base_root, base_top, guarded, keys_rule, main_rule
from rows_histories import top_file
from rows_policies import root, root_of_people, rule, rule_file


def policy_in_force_at_the_number():
    """The reviewer may change main until a policy with a new top file says that the maintainer alone may."""
    history = guarded()
    history.record(MAIN, history.commit(BEFORE), REVIEWER)
    later = top_file([KEEPER, MAINTAINER], [keys_rule(), main_rule(MAINTAINER)], 2)
    history.policy(base_files(later))
    history.record(MAIN, history.commit(BEFORE), REVIEWER)
    return history, asked(1, "violation refs/heads/main 4 ref-rule main 0 of 1")


def root_that_the_old_one_did_not_sign():
    """A root of version 2 is the newcomer's and signed by nobody else, so the old policy stays in force."""
    history = guarded()
    later = root(2, [OWNER, NEWCOMER], [NEWCOMER], [OWNER])
    history.policy(base_files(base_top()) | {"root": (later, [NEWCOMER])}, NEWCOMER)
    history.record(MAIN, history.commit(BEFORE), MAINTAINER)
    return (
        history,
        asked(1, "violation refs/gittuf/policy 2 not-epoch root-succession 0 of 1", POLICY),
        asked_again(0, "accepted refs/heads/main 1 entries"),
    )


def root_that_both_signed():
    """The same root signed by the owner too."""
    history = guarded()
    later = root(2, [OWNER, NEWCOMER], [NEWCOMER], [OWNER])
    history.policy(base_files(base_top()) | {"root": (later, [NEWCOMER, OWNER])}, NEWCOMER)
    return history, asked(0, "accepted refs/gittuf/policy 2 entries", POLICY)


def root_two_versions_later():
    """The root's version is the old one plus 2."""
    history = guarded()
    later = root(3, [OWNER, NEWCOMER], [NEWCOMER], [OWNER])
    history.policy(base_files(base_top()) | {"root": (later, [NEWCOMER, OWNER])}, NEWCOMER)
    return history, asked(1, "violation refs/gittuf/policy 2 not-epoch root-version 1 3", POLICY)


def top_file_with_its_version_kept():
    """The top file is another one, and has the old one's version."""
    history = guarded()
    later = top_file([KEEPER, MAINTAINER], [keys_rule(), main_rule(MAINTAINER)], 1)
    history.policy(base_files(later))
    return history, asked(1, "violation refs/gittuf/policy 2 not-epoch file-version targets", POLICY)


def terminating_rule_comes_first():
    """The first rule that is reached ends the search, so that the second, which is met, is not reached."""
    rules = [
        rule("rel", "git:refs/heads/*", [KEEPER], terminating=True),
        rule("all", "git:*", [MAINTAINER]),
    ]
    history = guarded(top_file([KEEPER, MAINTAINER], rules))
    history.record(MAIN, history.commit(BEFORE), MAINTAINER)
    return history, asked(1, "violation refs/heads/main 2 ref-rule rel 0 of 1")


def one_met_rule_is_enough():
    """The same with a first rule that does not end the search."""
    rules = [rule("rel", "git:refs/heads/*", [KEEPER]), rule("all", "git:*", [MAINTAINER])]
    history = guarded(top_file([KEEPER, MAINTAINER], rules))
    history.record(MAIN, history.commit(BEFORE), MAINTAINER)
    return history, asked(0, "accepted refs/heads/main 1 entries")


def top_of_people(people=None):
    """A top file in which alice has two keys and carol one, and both must sign for main."""
    people = people or {"alice": [MAINTAINER, REVIEWER], "carol": [KEEPER]}
    rules = [rule("main", f"git:{MAIN}", ["alice", "carol"], 2)]
    return top_file([MAINTAINER, REVIEWER, KEEPER], rules, people=people)


def approved_by_the_same_person():
    """Alice signs the entry with her first key and the approval with her second."""
    history = guarded(top_of_people())
    target = history.commit(BEFORE)
    history.approve(target, REVIEWER)
    history.record(MAIN, target, MAINTAINER)
    return history, asked(1, "violation refs/heads/main 3 ref-rule main 1 of 2")


def approved_by_the_same_person_twice():
    """Alice signs the entry with her first key and the approval with both."""
    history = guarded(top_of_people())
    target = history.commit(BEFORE)
    history.approve(target, REVIEWER, MAINTAINER)
    history.record(MAIN, target, MAINTAINER)
    return history, asked(1, "violation refs/heads/main 3 ref-rule main 1 of 2")


def approved_by_another_person():
    """Alice signs the entry, and carol the approval."""
    history = guarded(top_of_people())
    target = history.commit(BEFORE)
    history.approve(target, KEEPER)
    history.record(MAIN, target, MAINTAINER)
    return history, asked(0, "accepted refs/heads/main 1 entries")


def key_of_two_persons_of_a_file():
    """Carol has a key of alice's too, in one file, which is refused."""
    history = guarded(top_of_people({"alice": [MAINTAINER, REVIEWER], "carol": [KEEPER, REVIEWER]}))
    return history, asked(1, "violation refs/gittuf/policy 1 not-epoch bad-file targets", POLICY)


def key_of_persons_in_two_files(approves=True):
    """One key is alice's in the top file and anna's in the file below it, where bert must sign too."""
    top = top_file(
        [MAINTAINER, KEEPER],
        [rule("main", f"git:{MAIN}", ["alice", "carol"], 2)],
        people={"alice": [MAINTAINER], "carol": [KEEPER]},
    )
    below = rule_file(
        "main",
        [MAINTAINER, REVIEWER],
        [rule("inner", "git:refs/heads/*", ["anna", "bert"], 2)],
        people={"anna": [MAINTAINER], "bert": [REVIEWER]},
    )
    history = guarded(top, main=(below, [MAINTAINER, KEEPER]))
    target = history.commit(BEFORE)
    if approves:
        history.approve(target, REVIEWER)
    history.record(MAIN, target, MAINTAINER)
    return history, asked(0, "accepted refs/heads/main 1 entries")


def key_of_persons_in_two_files_alone():
    """The same key alone: in each of the two files it is one person of two, and the first rule is told."""
    history, _ = key_of_persons_in_two_files(False)
    return history, asked(1, "violation refs/heads/main 2 ref-rule main 1 of 2")


def root_signed_twice_by_one_person():
    """Two persons must sign the root, and one signs it with both of her keys."""
    people = {"alice": [OWNER, NEWCOMER], "carol": [KEEPER]}
    payload = root_of_people(1, [OWNER, NEWCOMER, KEEPER], people, ["alice", "carol"], ["alice"], (2, 1))
    history = guarded(root=(payload, [OWNER, NEWCOMER]))
    return history, asked(1, "violation refs/gittuf/policy 1 not-epoch root-threshold 1 of 2", POLICY)


def rule_file_that_its_rule_did_not_sign():
    """The file of the rule main is signed by the owner, whom the rule does not list."""
    below = rule_file("main", [REVIEWER], [rule("inner", "git:refs/heads/*", [REVIEWER])])
    history = guarded(main=(below, [OWNER]))
    return history, asked(1, "violation refs/gittuf/policy 1 not-epoch file-threshold main 0 of 1", POLICY)


def rule_name_twice():
    """Two rules of the top file have one name."""
    history = guarded(top_file([MAINTAINER], [main_rule(MAINTAINER), main_rule(MAINTAINER)]))
    return history, asked(1, "violation refs/gittuf/policy 1 not-epoch duplicate-name main", POLICY)


def root_whose_json_is_too_deep():
    """The root's payload is arrays in one another, 200 deep."""
    history = History()
    history.policy(base_files(base_top()) | {"root": (b"[" * 200 + b"]" * 200, [OWNER])})
    return history, asked(1, "violation refs/gittuf/policy 1 not-epoch bad-file root", POLICY)


def first_policy_that_is_valid():
    """The first entry of the policy's reference has no root, and is a violation; the second is the first policy in
    force."""
    history = History()
    history.record(POLICY, history.commit({b"metadata/targets.json": b"{}"}), OWNER)
    history.policy({"root": (base_root(), [OWNER]), "targets": (base_top(), [OWNER])})
    history.record(MAIN, history.commit(BEFORE), MAINTAINER)
    return (
        history,
        asked(1, "violation refs/gittuf/policy 1 not-epoch no-root", POLICY),
        asked_again(0, "accepted refs/heads/main 1 entries"),
    )


ROWS = (
    policy_in_force_at_the_number,
    root_that_the_old_one_did_not_sign,
    root_that_both_signed,
    root_two_versions_later,
    top_file_with_its_version_kept,
    terminating_rule_comes_first,
    one_met_rule_is_enough,
    approved_by_the_same_person,
    approved_by_the_same_person_twice,
    approved_by_another_person,
    key_of_two_persons_of_a_file,
    key_of_persons_in_two_files,
    key_of_persons_in_two_files_alone,
    root_signed_twice_by_one_person,
    rule_file_that_its_rule_did_not_sign,
    rule_name_twice,
    root_whose_json_is_too_deep,
    first_policy_that_is_valid,
)
