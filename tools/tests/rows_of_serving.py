"""Rows on `serve`, as far as it comes before a desk is opened: its numbers, and the line that says that it is ready."""

from rows_histories import LOG, History
from rows_objects import ZEROS, object_id
from rows_of_logs import entry_body
from rows_runs import Anew, Run, done, failing, refused, room

OUTSIDE = ("0 1 1", "65536 1 1", "1 0 1", "1 65 1", "1 1 0", "1 1 1000001", "01 1 1", "1 1", "1 1 1 1", "1 1 x", "")
OUTSIDE += ("1 1 1 --gate --gate", "1 1 1 --gate=1", "1 1 1 -- --gate", "1 1 --gate", "1 1 1 --gates")
WORDS = "serve 8080 2 1000"


def numbers_of_a_desk_refused():
    """A port, a number of workers or of connections outside is refused before the store is looked at."""
    return (History(), *(refused(f"serve {it}".rstrip(), 2, "words refused") for it in OUTSIDE))


def log_of(count, tip=None):
    """Takes a log of so many entries into an empty store, whose reference may stand elsewhere."""
    history, last = History(), ZEROS
    for number in range(1, count + 1):
        body = entry_body(number, last if number > 1 else None)
        history.repository.add(b"commit", body)
        last = object_id(b"commit", body)
    history.repository.set(LOG, tip or last)
    return Anew(), done("import", "imported", source=history.repository.stream())


def desks_that_are_ready():
    """With no entry, with one and with three, at the least and the greatest numbers; and a log that breaks."""
    ready = lambda words, count: Run(words, (0, f"ready {count} entries\n", ""))
    return (
        History(),
        ready("serve 1 1 1", 0),
        ready("serve 65535 64 1000000", 0),
        ready("serve 1 1 1 --gate", 0),
        ready("serve --gate 65535 64 1000000", 0),
        *log_of(1),
        ready(WORDS, 1),
        *log_of(3),
        ready(WORDS, 3),
        *log_of(2, "ab" * 32),
        Run(WORDS, (3, f"log-broken {'ab' * 32}\n", "")),
    )


def readiness_that_is_not_told():
    """A sink without room for the line, or for that of a break, and a store that fails at the log's reference or an entry."""
    fault = (4, "", "fault\n")
    return (
        History(),
        *log_of(2),
        Run(WORDS, fault, over=[room("sink", len("ready 2 entries\n") - 1)]),
        Run(WORDS, fault, over=[failing("store", 1)]),
        Run(WORDS, fault, over=[failing("store", 3)]),
        Run(WORDS, (0, "ready 2 entries\n", "")),
        *log_of(1, "ab" * 32),
        Run(WORDS, fault, over=[room("sink", 10)]),
    )


ROWS = (numbers_of_a_desk_refused, desks_that_are_ready, readiness_that_is_not_told)
