"""Rows on `push` where nothing or too much is to be sent: what an entry lacks, what fails, and the largest push."""

from rows_histories import AFTER, BEFORE, LOG, MAIN, History
from rows_objects import EMPTY_TREE, FILE, ZEROS
from rows_of_pushes import PUSH, pushed
from rows_of_sending import NOWHERE, OBJECT, PORT, asked, below, child, kept, reply, sent, taken
from rows_runs import Run, Sent, failing, room


def nothing_of_an_entry_sent():
    """A log without the number, one that breaks, and an entry of which an object is not there: of several the first in the
    order in which they are met, and none that the value before leads to."""
    empty, broken, one = History(), History(), History()
    broken.record(MAIN, ZEROS)
    broken.repository.set(LOG, NOWHERE)
    one.record(MAIN, ZEROS)
    input_refused = (3, "", "input\n")
    runs = [
        *kept(empty),
        asked(1, input_refused),
        Sent(),
        *kept(one),
        asked(2, input_refused),
        Sent(),
        *kept(broken),
        asked(1, (3, f"log-broken {NOWHERE}\n", "")),
        asked(2, (3, f"log-broken {NOWHERE}\n", "")),
        Sent(),
    ]
    for gone, missing in (((0,), 0), ((1,), 1), ((2,), 2), ((3,), 3), ((1, 3), 1), ((2, 4), 2), ((3, 4), 3), ((4,), 4)):
        history = History()
        parent = history.commit(BEFORE)
        commit = child(history, AFTER, parent)
        history.record(MAIN, commit)
        ids = [*below(history, commit), parent]
        runs += [*kept(history, *(ids[it] for it in gone)), asked(1, (3, "", f"object {ids[missing]}\n")), Sent()]
    # An entry of the log names the empty tree, which nothing keeps.
    history = History()
    history.record(MAIN, ZEROS)
    history.record("refs/heads/log", history.ids[0])
    runs += [*kept(history), asked(2, (3, "", f"object {EMPTY_TREE}\n")), Sent()]
    # What the value before leads to is not asked for.
    history = History()
    first = history.commit(BEFORE)
    history.record(MAIN, first)
    second = child(history, BEFORE | {b"src/y": b"more\n"}, first)
    history.record(MAIN, second)
    old, new = below(history, first), below(history, second)
    send = sent(history, 2, *(id for id in new if id not in old))
    runs += [*kept(history, old[3]), taken(2, reply(201, b"done 2\n"), "done 2\n"), send]
    runs += [asked(1, (3, "", f"object {old[3]}\n")), Sent()]
    return (History(), *runs)


def pushes_over_what_fails():
    """A peer that cannot be reached, one that fails while it is written to or read, and one without room for all; a store
    that fails; and a sink without room for the body, for the line of no reply or for that of a break."""
    fault, said = (4, "", "fault\n"), reply(201, b"done 1\n")
    history, broken = History(), History()
    history.record(MAIN, history.commit(BEFORE))
    goes = below(history, history.repository.references[MAIN])
    broken.record(MAIN, ZEROS)
    broken.repository.set(LOG, NOWHERE)
    bad = (7, "bad reply\n", "desk refused\n")
    return (
        History(),
        *kept(history),
        asked(1, fault, said, over=[failing("peer", 1)]),
        Sent(),
        asked(1, fault, said, over=[failing("peer", 2)]),
        Sent(PORT),
        Run(f"push {PORT} 1", fault, bad, way="failing-peer"),
        asked(1, fault, said, over=[room("peer", 0)]),
        Sent(PORT),
        Run(f"push {PORT} 1", fault, bad, way="failing-store"),
        asked(1, fault, said, over=[room("sink", len("done 1\n") - 1)]),
        sent(history, 1, *goes),
        asked(1, fault, b"", over=[room("sink", len("bad reply\n") - 1)]),
        sent(history, 1, *goes),
        asked(1, (7, "bad reply\n", ""), b"", over=[room("refusals", len("desk refused\n") - 1)]),
        asked(1, (0, "done 1\n", ""), said),
        sent(history, 1, *goes),
        *kept(broken),
        asked(1, fault, over=[room("sink", 10)]),
        Sent(),
    )


def with_blobs(history, ids):
    """A commit of blobs in one folder."""
    rows = {b"src/%d" % it: (FILE, id) for it, id in enumerate(ids)}
    return history.repository.commit(history.repository.tree(rows), b"large")


def entry_of_size(history, name, blobs, fill, size):
    """Records a commit of these blobs and one more, with which the push of the entry has so many bytes, and tells the ids
    that go with it."""
    # A record is longer by as much as its body, as long as its size has eight digits.
    least = 10 << 20
    tried, number = History(), len(history.ids)
    tried.repository.objects, tried.ids = dict(history.repository.objects), list(history.ids)
    target = with_blobs(tried, [*blobs, tried.repository.blob(b"." * least)])
    tried.record(name, target)
    ids = {*below(tried, target), tried.ids[number]}
    length = len(pushed([tried.repository.objects[id] for id in ids], tried.ids[number]))
    target = with_blobs(history, [*blobs, history.repository.blob(fill * (least + size - length))])
    history.record(name, target)
    return below(history, target)


def largest_push():
    """A push of 64 MiB is sent, and one that would have a byte more is not."""
    history = History()
    blobs = [history.repository.blob(bytes([it]) * OBJECT) for it in (1, 2, 3)]
    ids = entry_of_size(history, MAIN, blobs, b"4", PUSH)
    entry_of_size(history, "refs/heads/more", blobs, b"5", PUSH + 1)
    over = [room("peer", PUSH + 1_000)]
    return (
        History(),
        *kept(history),
        asked(1, (0, "done 1\n", ""), reply(201, b"done 1\n"), over=over),
        sent(history, 1, *ids),
        asked(2, (3, "", "too large\n"), over=over),
        Sent(),
    )


ROWS = (
    nothing_of_an_entry_sent,
    pushes_over_what_fails,
    largest_push,
)
