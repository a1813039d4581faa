"""The row of a large history: 5,000 files in 300 directories, 40 rules in 6 files, and 300 entries of five references
by 12 keys, all of them lawful."""

from rows_histories import ATTESTATIONS, MAIN, POLICY, History, asked, asked_again, top_file
from rows_objects import FILE, ZEROS, object_id
from rows_policies import approval, root, rule, rule_file
from rows_signing import Key

NEXT, NOTES = "refs/heads/next", "refs/heads/notes"
# With one entry each of the policy and of the attestations these are 300.
ENTRIES = {MAIN: 180, NEXT: 60, NOTES: 58}
KEYS = [Key(f"one of twelve, {number}") for number in range(12)]
OWNER = KEYS[0]
# The files: 6 directories of 7 of 6 are 300 in all, of which the lowest 252 have 20 files or 19.
TOPS, MIDDLES, LOWEST, FILES = 6, 7, 6, 5_000


def those(*numbers):
    return [KEYS[number] for number in numbers]


def base_files():
    """The files that all three branches begin with, whose bytes are not kept: 20 in a directory, or 19."""
    places = [f"d{top}/{middle}/{low}" for top in range(TOPS) for middle in range(MIDDLES) for low in range(LOWEST)]
    full = FILES - 19 * len(places)
    counts = [20 if at < full else 19 for at in range(len(places))]
    names = [f"{place}/{name}".encode() for place, count in zip(places, counts) for name in range(count)]
    assert len(names) == FILES
    assert len({name.rsplit(b"/", depth)[0] for name in names for depth in (1, 2, 3)}) == 300
    return {name: (FILE, object_id(b"blob", name)) for name in names}


def who_may(top, middle):
    """The numbers of the keys one of which must sign a change below d<top>/<middle>/, by the rules below."""
    in_part = {0: range(2, 8), 1: range(4, 10), 2: (8, 9, 10, 11, 0, 1)}
    in_whole = {0: (0, 1), 1: (2, 3), 2: (4, 5, 6, 7), 3: (8,), 4: (9,), 5: range(12)}
    more = in_part[top][middle : middle + 1] if top in in_part else ()
    return {*in_whole[top], *more}


def policy_files():
    """Six files with forty rules: ten in the top file, and six in the files of five of them."""
    top = [
        rule("main", f"git:{MAIN}", those(*range(6))),
        rule("next", f"git:{NEXT}", KEYS, terminating=True),
        rule("notes", f"git:{NOTES}", those(*range(6, 12))),
        rule("tags", "git:refs/tags/*", those(0)),
        rule("all", "git:*", those(11), 1, True),
        rule("d0", "file:d0/*", those(0, 1)),
        rule("d1", "file:d1/*", those(2, 3)),
        rule("d2", "file:d2/*", those(4, 5, 6, 7), terminating=True),
        rule("d3", "file:d3/*", those(8)),
        rule("d4", "file:d4/*", those(9)),
    ]
    below = {
        "main": [rule(f"main-{who}", "git:refs/heads/m*", those(who)) for who in range(6, 12)],
        "notes": [rule(f"notes-{who}", "git:refs/heads/*", those(who)) for who in range(6)],
        "d0": [rule(f"d0-{part}", f"file:d0/{part}/*", those(2 + part)) for part in range(6)],
        "d1": [rule(f"d1-{part}", f"file:d1/{part}/?/*", those(4 + part)) for part in range(6)],
        "d2": [rule(f"d2-{part}", f"file:*/{part}/*", those((8 + part) % 12)) for part in range(6)],
    }
    signers = {"main": 2, "notes": 6, "d0": 1, "d1": 2, "d2": 4}
    assert (len(top) + sum(map(len, below.values())), 1 + len(below)) == (40, 6)
    files = {"root": (root(1, those(0), those(0), those(0)), those(0)), "targets": (top_file(KEYS, top), those(0))}
    for name, rules in below.items():
        files[name] = (rule_file(name, KEYS, rules), those(signers[name]))
    return files


def approve_all(history, target):
    """Records approvals of the first entry of each branch, which changes the paths of all."""
    tree = history.repository.tree_of(target)
    rows = {}
    for branch in ENTRIES:
        path = f"reference-authorizations/{branch}/{ZEROS}-{tree}"
        rows[path.encode()] = history.seal(approval(branch, ZEROS, tree), those(1, 2, 4, 8, 9))
    history.record(ATTESTATIONS, history.commit(rows), KEYS[3])


def branches():
    """The branch of each entry after the first of each, as evenly among one another as their numbers allow."""
    left = {branch: count - 1 for branch, count in ENTRIES.items()}
    places = [((at + 1) / count, branch) for branch, count in left.items() for at in range(count)]
    return [branch for _, branch in sorted(places)]


def changes(history, files):
    """For each key, three commits that change one file each of those that it may change."""
    made = {}
    for number, key in enumerate(KEYS):
        places = [(top, middle) for top in range(TOPS) for middle in range(MIDDLES) if number in who_may(top, middle)]
        for top, middle in (places[0], places[len(places) // 2], places[-1]):
            path = f"d{top}/{middle}/{number % LOWEST}/7".encode()
            changed = files | {path: (FILE, object_id(b"blob", b"changed by %d" % number))}
            made.setdefault(number, []).append(history.commit(changed))
    return made


def large_and_lawful():
    """One key after the other changes a file and puts it back, on the branch whose turn it is."""
    history, files = History(), base_files()
    history.policy(policy_files(), OWNER)
    base = history.commit(files)
    approve_all(history, base)
    made = changes(history, files)
    for number, branch in enumerate(ENTRIES):
        history.record(branch, base, KEYS[number])
    turns = {branch: 0 for branch in ENTRIES}
    changing = {}
    for branch in branches():
        if branch in changing:
            history.record(branch, base, KEYS[changing.pop(branch)])
            continue
        turn = sum(turns.values())
        turns[branch] += 1
        number = turn % len(KEYS)
        changing[branch] = number
        history.record(branch, made[number][turn // len(KEYS) % len(made[number])], KEYS[number])
    assert len(history.ids) == 300 and set(history.used) == set(KEYS)
    return (
        history,
        asked(0, "accepted refs/heads/main 180 entries"),
        asked_again(0, "accepted refs/heads/next 60 entries", NEXT),
        asked_again(0, "accepted refs/heads/notes 58 entries", NOTES),
        asked_again(0, "accepted refs/gittuf/policy 1 entries", POLICY),
    )


ROWS = (large_and_lawful,)
