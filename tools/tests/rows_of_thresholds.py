"""Rows on how many persons must sign the files of a policy, and with which keys."""

from rows_histories import KEEPER, MAINTAINER, NEWCOMER, OWNER, POLICY, REVIEWER, asked, asked_again, base_files, base_top
from rows_histories import guarded, main_rule, top_file
from rows_of_policies import top_of_people
from rows_of_successions import FIRST, FOLLOWS, SECOND, followed, inner_file, next_root
from rows_policies import root, root_of_people

ALICE_AND_CAROL = {"alice": [OWNER, REVIEWER], "carol": [KEEPER]}


def of_people(listed, threshold):
    """A root whose role lists these of two persons, of whom so many must sign."""
    return root_of_people(1, [OWNER, REVIEWER, KEEPER], ALICE_AND_CAROL, listed, ["alice"], (threshold, 1))


def next_signed_by(first, signers, *more):
    """The files of a policy whose root is the newcomer's, signed by more, and of one before it with this root."""
    files = base_files(base_top())
    return files | {"root": (next_root(), [NEWCOMER, *more])}, files | {"root": (first, signers)}


def next_root_signed_by_one_of_two():
    """Two must sign what follows, and the root that does asks for one."""
    first = root(1, [OWNER, KEEPER], [OWNER, KEEPER], [OWNER], (2, 1))
    files, before = next_signed_by(first, [OWNER, KEEPER], OWNER)
    return followed(files, 1, SECOND + "root-succession 1 of 2", before)


def next_root_signed_by_both():
    """The same, and the second one signs too, whose key the new root has no more."""
    first = root(1, [OWNER, KEEPER], [OWNER, KEEPER], [OWNER], (2, 1))
    files, before = next_signed_by(first, [OWNER, KEEPER], OWNER, KEEPER)
    return followed(files, 0, FOLLOWS, before)


def next_root_without_old_keys():
    """The new root has the newcomer's key alone, and the owner signed it with one that only the old root has."""
    newcomers = root(2, [NEWCOMER], [NEWCOMER], [NEWCOMER])
    files = {"root": (newcomers, [NEWCOMER, OWNER]), "targets": (base_top(), [NEWCOMER])}
    return followed(files, 0, FOLLOWS)


def next_root_signed_by_the_other_key():
    """Alice signed the first root with one key, and what follows with her other one."""
    files, before = next_signed_by(of_people(["alice"], 1), [OWNER], REVIEWER)
    return followed(files, 0, FOLLOWS, before)


def next_root_signed_twice_by_one_person():
    """Alice and carol must sign, and alice signed what follows with both of her keys."""
    files, before = next_signed_by(of_people(["alice", "carol"], 2), [OWNER, KEEPER], OWNER, REVIEWER)
    return followed(files, 1, SECOND + "root-succession 1 of 2", before)


def next_root_signed_by_a_key_of_another_file():
    """The old root role lists the maintainer too, who signed what follows with a key of the old top file alone."""
    files, before = next_signed_by(root(1, [OWNER], [OWNER, MAINTAINER], [OWNER]), [OWNER], MAINTAINER)
    return followed(files, 1, SECOND + "root-succession 0 of 1", before)


def file_signed_by_one_of_two():
    """The rule of the file asks for two, and one signed it."""
    top = top_file([MAINTAINER, REVIEWER], [main_rule(MAINTAINER, REVIEWER, threshold=2)])
    return guarded(top, main=(inner_file(), [MAINTAINER])), asked(1, FIRST + "file-threshold main 1 of 2", POLICY)


def file_signed_twice_by_one_person():
    """The rule of the file asks for alice and carol, and alice signed it with both of her keys."""
    history = guarded(top_of_people(), main=(inner_file(), [MAINTAINER, REVIEWER]))
    return history, asked(1, FIRST + "file-threshold main 1 of 2", POLICY)


def top_file_signed_by_one_of_two():
    """The root's role for the top file asks for two, and its own role for one."""
    of_two = root(1, [OWNER, KEEPER], [OWNER], [OWNER, KEEPER], (1, 2))
    return guarded(root=(of_two, [OWNER])), asked(1, FIRST + "file-threshold targets 1 of 2", POLICY)


def top_file_signed_by_a_key_of_its_own():
    """The root's role for the top file lists the maintainer too, whose key stands in that file alone, and who signed it."""
    listed = root(1, [OWNER], [OWNER], [OWNER, MAINTAINER])
    history = guarded(root=(listed, [OWNER]), targets=(base_top(), [MAINTAINER]))
    return history, asked(1, FIRST + "file-threshold targets 0 of 1", POLICY)


def anchored_by_a_person():
    """The root role lists alice, of whom both keys are asked for or the first policy is refused; carol's is not."""
    history = guarded(root=(of_people(["alice"], 1), [REVIEWER]), targets=(base_top(), [OWNER]))
    one, both, all_three = OWNER.id, f"{OWNER.id},{REVIEWER.id}", f"{OWNER.id},{REVIEWER.id},{KEEPER.id}"
    return (
        history,
        asked(1, FIRST + "anchor", POLICY, f" --root {one}"),
        asked_again(0, f"accepted {POLICY} 1 entries", POLICY, f" --root {both}"),
        asked_again(1, FIRST + "anchor", POLICY, f" --root {all_three}"),
    )


ROWS = (
    next_root_signed_by_one_of_two,
    next_root_signed_by_both,
    next_root_without_old_keys,
    next_root_signed_by_the_other_key,
    next_root_signed_twice_by_one_person,
    next_root_signed_by_a_key_of_another_file,
    file_signed_by_one_of_two,
    file_signed_twice_by_one_person,
    top_file_signed_by_one_of_two,
    top_file_signed_by_a_key_of_its_own,
    anchored_by_a_person,
)
