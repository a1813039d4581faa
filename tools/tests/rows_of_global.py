"""Rows on the verdict by global rules: what no delegation undoes, by the policy that is in force at each entry."""

from rows_histories import AFTER, BEFORE, KEEPER, MAIN, MAINTAINER, OWNER, POLICY, REVIEWER
from rows_histories import History, base_files, base_top, top_file
from rows_objects import FILE, ZEROS
from rows_policies import rule, text_of
from rows_runs import Run, done

GLOBAL = b"global/rules.json"
OTHER = {b"src/x": b"another\n"}


def least(name, count, *paths):
    return {"name": name, "kind": "threshold", "threshold": count, "paths": list(paths)}


def no_rewind(name, *paths):
    return {"name": name, "kind": "no-rewind", "paths": list(paths)}


def global_file(*rules):
    return text_of({"type": "global", "rules": list(rules)})


TWO = least("two", 2, f"git:{MAIN}")
KEEP = no_rewind("keep", "git:refs/heads/*")


def add_policy(history, payload, top=None, signers=(OWNER,), mode=FILE, files=None, signer=OWNER, path=GLOBAL, size=0):
    """Records a policy with a file of global rules, which these signed, and which has so many bytes at least."""
    rows = {}
    for stem, sealed in (files or base_files(top or base_top())).items():
        rows[b"metadata/%s.json" % stem.encode()] = history.seal(*sealed)
    if payload is not None:
        rows[path] = (mode, history.repository.blob(history.seal(payload, list(signers)).ljust(size)))
    history.record(POLICY, history.commit(rows), signer)


def ruled(*rules, **more):
    """A history whose first entry is the policy that is in force unless a row says otherwise, with these global rules."""
    history = History()
    add_policy(history, global_file(*rules), **more)
    return history


def kept(count, name=MAIN, words=""):
    return done(f"verify-global {name}{words}", f"global-kept {name} {count} entries")


def broken(number, why, name=MAIN, words=""):
    return Run(f"verify-global {name}{words}", (1, f"global-violation {name} {number} {why}\n", ""))


def accepted(count):
    return done(f"verify-ref {MAIN}", f"accepted {MAIN} {count} entries")


def asks(history, *runs):
    return history, done("import", "imported"), *runs


def two_persons_always():
    """Main asks for one of two, and a global rule for two persons: one who signs is accepted and is too few. Two are
    enough, one by the entry and one by an approval, each as a key of his own."""
    one = ruled(TWO)
    one.record(MAIN, one.commit(BEFORE), MAINTAINER)
    return asks(one, accepted(1), broken(2, f"threshold two git:{MAIN} 1 of 2"), kept(0, "refs/heads/a"))


def two_persons_by_an_approval():
    """Behind an approval of the change two have signed for it, and for the next change one has again."""
    history = ruled(TWO)
    first = history.commit(BEFORE)
    history.approve(first, REVIEWER)
    history.record(MAIN, first, MAINTAINER)
    second = history.commit(AFTER)
    history.record(MAIN, second, MAINTAINER)
    return asks(history, broken(4, f"threshold two git:{MAIN} 1 of 2"))


def the_greatest_count_counts():
    """Main reaches two rules. Of the first nobody signed, of the second two did: two is enough for a global rule of two,
    and too few for one of three."""
    rules = [rule("one", f"git:{MAIN}", [KEEPER]), rule("more", f"git:{MAIN}", [MAINTAINER, REVIEWER])]
    top = top_file([KEEPER, MAINTAINER, REVIEWER], rules)
    runs = []
    history = ruled(TWO, least("three", 3, f"git:{MAIN}"), top=top)
    first = history.commit(BEFORE)
    history.approve(first, REVIEWER)
    history.record(MAIN, first, MAINTAINER)
    runs.append(broken(3, f"threshold three git:{MAIN} 2 of 3"))
    return asks(history, accepted(1), *runs)


def nobody_where_no_rule_is_reached():
    """No rule is reached for a tag, so anybody may set it, and nobody counts for a global rule that asks for one."""
    history = ruled(least("tags", 1, "git:refs/tags/*"))
    history.record("refs/tags/a", history.commit(BEFORE), MAINTAINER)
    return asks(history, broken(2, "threshold tags git:refs/tags/a 0 of 1", "refs/tags/a"))


def persons_and_not_keys():
    """Two keys of one person are one, also by a global rule."""
    rules = [rule("main", f"git:{MAIN}", ["alice", "bob"])]
    people = {"alice": [MAINTAINER, REVIEWER], "bob": [KEEPER]}
    history = ruled(TWO, top=top_file([KEEPER, MAINTAINER, REVIEWER], rules, people=people))
    first = history.commit(BEFORE)
    history.approve(first, REVIEWER)
    history.record(MAIN, first, MAINTAINER)
    return asks(history, accepted(1), broken(3, f"threshold two git:{MAIN} 1 of 2"))


def paths_that_change():
    """A rule of files speaks of the paths that change, the first in the order of their bytes, behind the reference. A path is
    one printable word."""
    history = ruled(least("release", 1, "file:rel*"))
    history.record(MAIN, history.commit(BEFORE), MAINTAINER)
    history.record(MAIN, history.commit(BEFORE | {b"rel b": b"1\n", b"rel/a": b"2\n"}), MAINTAINER)
    return asks(history, broken(3, "threshold release file:rel%20b 0 of 1"))


def paths_that_stay():
    """A path that is the same before and after an entry is not spoken of, and one that goes away is."""
    history = History()
    add_policy(history, None)
    history.record("refs/heads/a", history.commit(BEFORE), None)
    add_policy(history, global_file(least("release", 1, "file:src/*")))
    history.record("refs/heads/a", history.commit(BEFORE | {b"a": b"1\n"}), None)
    history.record("refs/heads/a", history.commit({b"a": b"1\n"}), None)
    return asks(history, broken(5, "threshold release file:src/x 0 of 1", "refs/heads/a"))


def the_reference_before_its_paths():
    """A rule of both tells the reference first, and a later rule is told where the first is kept."""
    history = ruled(least("both", 2, "file:src/*", f"git:{MAIN}"), KEEP)
    history.record(MAIN, history.commit(BEFORE), MAINTAINER)
    return asks(history, broken(2, f"threshold both git:{MAIN} 1 of 2"))


def child_of(history, parents, files=AFTER):
    rows = {path: (FILE, history.repository.blob(body)) for path, body in files.items()}
    history.commits += 1
    return history.repository.commit(history.repository.tree(rows), b"child %d" % history.commits, parents)


def a_rewind():
    """A reference that goes to a commit's parent goes back."""
    history = ruled(KEEP)
    parent = history.commit(BEFORE)
    child = child_of(history, [parent])
    history.record(MAIN, child, MAINTAINER)
    history.record(MAIN, parent, MAINTAINER)
    return asks(history, accepted(2), broken(3, "rewound keep"))


def no_rewind_where_it_goes_on():
    """One that goes to a child goes on, by the second parent of a merge too, through a tag, and past a parent of which
    nothing is kept."""
    history = ruled(KEEP)
    parent = history.commit(BEFORE)
    child = child_of(history, [parent])
    merge = child_of(history, ["1" * 64, child], OTHER)
    tag = history.repository.add(b"tag", f"object {merge}\ntype commit\ntag v\ntagger rows <rows@localhost> 0 +0000\n\nv\n".encode())
    for target in (parent, child, child, tag, merge):
        history.record(MAIN, target, MAINTAINER)
    return asks(history, accepted(5), kept(5))


def a_reference_that_is_taken_away():
    """To nothing a reference goes back, and from nothing anything goes on."""
    history = ruled(KEEP)
    history.record(MAIN, ZEROS, MAINTAINER)
    history.record(MAIN, history.commit(BEFORE), MAINTAINER)
    history.record(MAIN, ZEROS, MAINTAINER)
    return asks(history, broken(4, "rewound keep"))


def from_where_the_reference_stood():
    """Where an entry is skipped, the next goes on from the one before that: it is no child of the skipped one's commit."""
    history = ruled(KEEP)
    first = history.commit(BEFORE)
    history.record(MAIN, first, MAINTAINER)
    history.record(MAIN, child_of(history, [first]), MAINTAINER)
    history.skip(3, MAINTAINER)
    history.record(MAIN, child_of(history, [first], OTHER), MAINTAINER)
    return asks(history, kept(3))


def a_skipped_violation():
    """An entry that breaks a global rule and is skipped is none, whenever it is skipped."""
    history = ruled(TWO)
    history.record(MAIN, history.commit(BEFORE), MAINTAINER)
    history.skip(2, MAINTAINER)
    return asks(history, kept(1))


def no_other_reference():
    """Rules speak of the names that they match alone, and a target that is no commit goes back."""
    history = ruled(TWO, no_rewind("keep", "git:refs/heads/a"))
    blob = history.repository.blob(b"no commit\n")
    for target in (history.commit(BEFORE), blob):
        history.record("refs/heads/a", target, None)
        history.record("refs/heads/b", target, None)
    return asks(history, broken(4, "rewound keep", "refs/heads/a"), kept(2, "refs/heads/b"))


def a_broken_state_has_no_paths():
    """Of a state that is broken no path is spoken of."""
    history = ruled(least("all", 1, "file:*"))
    history.record("refs/heads/a", history.repository.commit("2" * 64, b"no tree"), None)
    history.record("refs/heads/a", history.commit(BEFORE), None)
    history.record("refs/heads/a", history.commit(AFTER), None)
    return asks(history, broken(4, "threshold all file:src/x 0 of 1", "refs/heads/a"))


def the_first_rule_that_is_broken():
    """Of two rules that one entry breaks the first of the file is told, of whichever kind it is."""
    history = History()
    add_policy(history, None)
    parent = history.commit(BEFORE)
    child, side = child_of(history, [parent]), "refs/heads/a"
    history.record(MAIN, child, MAINTAINER)
    history.record(side, child, None)
    add_policy(history, global_file(TWO, KEEP))
    history.record(MAIN, parent, MAINTAINER)
    add_policy(history, global_file(KEEP, least("two", 2, f"git:{side}")))
    history.record(side, parent, None)
    return asks(history, broken(5, f"threshold two git:{MAIN} 1 of 2"), broken(7, "rewound keep", side))


ROWS = (
    two_persons_always,
    two_persons_by_an_approval,
    the_greatest_count_counts,
    nobody_where_no_rule_is_reached,
    persons_and_not_keys,
    paths_that_change,
    paths_that_stay,
    the_reference_before_its_paths,
    a_rewind,
    no_rewind_where_it_goes_on,
    a_reference_that_is_taken_away,
    from_where_the_reference_stood,
    a_skipped_violation,
    no_other_reference,
    a_broken_state_has_no_paths,
    the_first_rule_that_is_broken,
)
