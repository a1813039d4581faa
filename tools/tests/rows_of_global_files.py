"""Rows on the file of global rules: what is none, which policy's is in force, and what is told of neither."""

from rows_histories import ATTESTATIONS, BEFORE, LOG, MAIN, MAINTAINER, NEWCOMER, OWNER, POLICY
from rows_histories import History, base_files, base_top
from rows_objects import EXECUTABLE, LINK
from rows_of_global import GLOBAL, TWO, add_policy, asks, broken, global_file, kept, least, ruled
from rows_policies import root
from rows_runs import Run, failing, refused, room

# The most bytes of a file of global rules.
LARGEST = 1_048_576


def bad_files():
    """A file that is refused, that too few signed, or that is a link is bad at each entry."""
    runs = []
    ways = (
        {"payload": global_file()},
        {"payload": b"no JSON"},
        {"payload": global_file(TWO), "signers": (NEWCOMER,)},
        {"payload": global_file(TWO), "signers": ()},
        {"payload": global_file(TWO), "mode": LINK},
    )
    history = History()
    for number, way in enumerate(ways):
        add_policy(history, **way)
        history.record(f"refs/tags/{number}", history.commit(BEFORE), None)
        runs.append(broken(2 * number + 2, "bad-file", f"refs/tags/{number}"))
    return asks(history, *runs)


def sizes_of_files():
    """A file of 1 MiB is read, and one that has a byte more is bad. What stands behind the value of JSON is white space."""
    history = History()
    tags = global_file(least("tags", 1, "git:refs/tags/*"))
    for number, size in enumerate((LARGEST, LARGEST + 1)):
        add_policy(history, tags, size=size)
        history.record(f"refs/tags/{number}", history.commit(BEFORE), None)
    return asks(history, broken(2, "threshold tags git:refs/tags/0 0 of 1", "refs/tags/0"), broken(4, "bad-file", "refs/tags/1"))


def no_file():
    """Where there is a directory, another file or none, there are no global rules; an executable file is one."""
    history = History()
    ways = (
        {"payload": None},
        {"payload": global_file(TWO), "path": GLOBAL + b"/x"},
        {"payload": global_file(TWO), "path": b"global/rules"},
    )
    runs = []
    for number, way in enumerate(ways):
        add_policy(history, **way)
        history.record(f"refs/tags/{number}", history.commit(BEFORE), None)
        runs.append(kept(1, f"refs/tags/{number}"))
    add_policy(history, global_file(least("tags", 1, "git:refs/tags/*")), mode=EXECUTABLE)
    history.record("refs/tags/a", history.commit(BEFORE), None)
    return asks(history, *runs, broken(8, "threshold tags git:refs/tags/a 0 of 1", "refs/tags/a"))


def the_policy_in_force():
    """An entry is judged by the policy that was in force at its number: one before there was any is kept, one that is
    refused changes nothing, and a later one does not reach back."""
    tags = least("tags", 1, "git:refs/tags/*")
    history = History()
    history.record("refs/tags/a", history.commit(BEFORE), None)
    add_policy(history, global_file(tags))
    history.record("refs/tags/b", history.commit(BEFORE), None)
    add_policy(history, None, files=base_files(base_top()) | {"root": (root(1, [NEWCOMER], [NEWCOMER], [NEWCOMER]), [NEWCOMER])})
    history.record("refs/tags/c", history.commit(BEFORE), None)
    add_policy(history, None)
    history.record("refs/tags/d", history.commit(BEFORE), None)
    return asks(
        history,
        kept(1, "refs/tags/a"),
        broken(3, "threshold tags git:refs/tags/b 0 of 1", "refs/tags/b"),
        broken(5, "threshold tags git:refs/tags/c 0 of 1", "refs/tags/c"),
        kept(1, "refs/tags/d"),
    )


def the_policys_own_reference():
    """The policy's own reference and the log's are outside, and entries of the attestations are judged."""
    history = ruled(least("all", 1, "git:refs/gittuf/*"))
    history.record(ATTESTATIONS, history.commit(BEFORE), None)
    outside = [refused(f"verify-global {it}".rstrip(), 2, "words refused") for it in (POLICY, LOG, "main", f"{MAIN} --stdin", "")]
    return asks(history, *outside, broken(2, f"threshold all git:{ATTESTATIONS} 0 of 1", ATTESTATIONS))


def a_log_that_breaks():
    """Where the log breaks there is no verdict by global rules either, and a sink that fails at its line has a front of it."""
    history = ruled(TWO)
    history.record(MAIN, history.commit(BEFORE), MAINTAINER)
    gone = history.ids[0]
    del history.repository.objects[gone]
    line = f"log-broken {gone}\n"
    return asks(
        history,
        Run(f"verify-global {MAIN}", (3, line, "")),
        Run(f"verify-global {MAIN}", (4, line[:-1], "fault\n"), over=[room("sink", len(line) - 1)]),
    )


def the_first_policys_keys():
    """With the ids of other keys no policy is in force, and so there are no global rules."""
    history = ruled(TWO)
    history.record(MAIN, history.commit(BEFORE), MAINTAINER)
    found = f"threshold two git:{MAIN} 1 of 2"
    roots = [f" --root {ids}" for ids in (OWNER.id, f"{OWNER.id},{OWNER.id}", MAINTAINER.id, f"{OWNER.id},{MAINTAINER.id}")]
    return asks(history, broken(2, found, words=roots[0]), broken(2, found, words=roots[1]), *(kept(1, words=it) for it in roots[2:]))


def a_line_that_is_not_told():
    """A sink without room for the line, and a store that fails at its first call and at a later one."""
    history = ruled(TWO)
    history.record(MAIN, history.commit(BEFORE), MAINTAINER)
    words, line = f"verify-global {MAIN}", f"global-violation {MAIN} 2 threshold two git:{MAIN} 1 of 2\n"
    fault = (4, "", "fault\n")
    return asks(
        history,
        Run(words, fault, over=[room("sink", len(line) - 1)]),
        Run(words, fault, over=[failing("store", 1)]),
        Run(words, fault, over=[failing("store", 4)]),
        Run(words, (1, line, ""), over=[room("sink", len(line))]),
    )


ROWS = (
    bad_files,
    sizes_of_files,
    no_file,
    the_policy_in_force,
    the_policys_own_reference,
    a_log_that_breaks,
    the_first_policys_keys,
    a_line_that_is_not_told,
)
