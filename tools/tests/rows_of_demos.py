"""Rows on demonstrations, whose repositories are made here from the formats alone."""

import functools

import made_keys
from rows_histories import MAIN, POLICY, History, asked_again
from rows_objects import FILE
from rows_policies import root, rule, rule_file
from rows_runs import Run, done, refused

# So many files are changed in turn, and one more by each of so many changes.
FILES, PERIOD, KEY_TURN = 64, 30, 10


class Key(made_keys.Key):
    """The key of a number, of which any leaf may sign."""

    kind = "lms"

    def __init__(self, number):
        super().__init__("", 10, 4, 1024)
        self.identifier = made_keys.digest(b"demo-i-%d" % number)[:16]
        self.seed = made_keys.digest(b"demo-seed-%d" % number)
        self.finish(made_keys.leaves_of(self, 0, self.leaves))

    def sign(self, leaf, message):
        self.used = leaf
        return super().sign(message)


@functools.cache
def keys():
    """The three keys, which take seconds to make."""
    return [Key(number) for number in range(3)]


def demonstration(count):
    """The history of so many changes."""
    history, files = History(), {}

    def at(seconds):
        history.repository.author = b"gittuf <gittuf@localhost> %d +0000" % seconds

    first, second, _ = keys()
    rules = [
        rule("keys", "file:keys/*", [second], terminating=True),
        rule("main", f"git:{MAIN}", sorted(keys(), key=lambda key: key.id)),
    ]
    at(0)
    sealed = {"root": root(1, [first], [first], [first]), "targets": rule_file("targets", keys(), rules)}
    policy = {f"metadata/{stem}.json".encode(): (FILE, history.seal(text, [first])) for stem, text in sealed.items()}
    history.record(POLICY, history.snapshot(POLICY, policy), first)
    for number in range(1, count + 1):
        at(number)
        files[b"src/f%d" % (number % FILES)] = (FILE, b"%d" % number)
        if number % PERIOD == KEY_TURN:
            files[b"keys/k"] = (FILE, b"%d" % number)
        history.record(MAIN, history.snapshot(MAIN, files), keys()[number % 3])
    return history


def shown(count):
    return done(f"demo {count}", f"demo {count}\naccepted {MAIN} {count} entries")


def log_of(history):
    """The log of a demonstration."""
    targets = {}
    for number, id in enumerate(history.ids, 1):
        lines = history.repository.objects[id][1].decode().splitlines()
        name, target = (next(it for it in lines if it.startswith(word)).split()[1] for word in ("ref: ", "targetID: "))
        targets[number] = f"entry {number} {id} ref {name} {target}\n"
    return Run("log", (0, "".join(targets.values()), ""))


def ten_changes_shown():
    """What is made is kept whole, to its last byte, and nothing is made beside something."""
    history = demonstration(10)
    return (
        History(),
        shown(10),
        asked_again(0, f"accepted {MAIN} 10 entries"),
        log_of(history),
        Run("export", (0, history.repository.stream(), "")),
        refused("demo 10", 3, "not empty"),
    )


def two_hundred_changes_shown():
    history = demonstration(200)
    return (History(), shown(200), log_of(history))


def numbers_of_changes_refused():
    """A number outside is refused before the store is looked at."""
    return (
        History(),
        *(refused(words, 2, "words refused") for words in ("demo 0", "demo 501", "demo 01", "demo", "demo 1 1", "demo x")),
    )


def nothing_made_beside_an_object():
    """The store holds one blob and no reference, and as many changes as may be are asked for too."""
    history = History()
    history.repository.blob(b"")
    return (
        history,
        done("import", "imported"),
        refused("demo 200", 3, "not empty"),
        refused("demo 500", 3, "not empty"),
        Run("export", (0, history.repository.stream(), "")),
    )


def nothing_made_beside_a_reference():
    history = History()
    history.repository.set("refs/heads/other", "1" * 64)
    return (history, done("import", "imported"), refused("demo 1", 3, "not empty"))


ROWS = (
    ten_changes_shown,
    two_hundred_changes_shown,
    numbers_of_changes_refused,
    nothing_made_beside_an_object,
    nothing_made_beside_a_reference,
)
