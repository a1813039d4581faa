#!/usr/bin/env python3
"""The checks of tools/test on several clients that push to a desk at once, and on desks that are killed meanwhile.

`python3 tools/tests/check_desk_clients.py [--gate] --seconds SECONDS [SEED]` lets eight clients push for so long, half of it
over a database and half over a folder, to desks that are killed at drawn moments, and compares what is kept with what they
were told. With --gate they are gates over the example's repository, by whose policy each push is judged.
"""

import collections
import itertools
import os
import random
import sys
import tempfile
import threading
import time

from check_repositories import Repositories
from check_serving import desk, exported, guarded, imported, objects_in
from checking import PROGRAM, ZEROS, Failure, in_this_run, run, want, want_run
from desk_clients import LOG, Client, asked, push_at_once, repository_of
from stand_in_desk import NUMBER, PARENT, RECORDED

# So many clients push at once, each so many changes, in the longer run more; and while desks are killed so many push.
CLIENTS, CHANGES, MORE, UNDER_KILLS, WORKERS = 4, 20, 400, 8, 4
# How many seconds desks are killed over each kind of store, in the longer run more, and how many each lives at most, more in
# a run by itself.
SECONDS, LONGER, LIFE, LONGER_LIFE = 2, 30, 1.5, 6
STREAM = b"GET /v1/stream HTTP/1.1\r\nhost: localhost\r\n\r\n"


def references_in(stream):
    """The references of a stream, which stand behind all objects."""
    last = itertools.takewhile(lambda it: it.startswith(b"ref "), reversed(stream.splitlines()[:-1]))
    return dict(it.decode().split()[1:] for it in last)


class Before:
    """What a store has before clients push to it: nothing, or all of a stream, with the ids of its log."""

    def __init__(self, stream=None):
        self.stream, self.ids = stream, []
        self.objects, self.references = (objects_in(stream), references_in(stream)) if stream else ({}, {})
        at = self.references[LOG].encode() if stream else None
        while at:
            self.ids.insert(0, at.decode())
            parent = PARENT.search(self.objects[at][1])
            at = parent and parent[1]

    def client(self, name):
        return Client(name, len(self.ids), self.ids[-1] if self.ids else ZEROS)


NOTHING = Before()


def log_in(stream, before):
    """What the log of a stream has behind what was there before, found by going back from its tip: the number, the id, the
    name and the target of each."""
    objects, found = objects_in(stream), []
    at, last = references_in(stream)[LOG].encode(), before.ids[-1].encode() if before.ids else None
    while at != last:
        body = objects[at][1]
        parent, (name, target) = PARENT.search(body), RECORDED.search(body).groups()
        found.append((int(NUMBER.search(body)[1]), at.decode(), name.decode(), target.decode()))
        at = parent and parent[1]
    return found[::-1]


def text_of(objects, commit):
    """What stands in the one file of a commit."""
    tree = objects[commit.encode()][1][5:69]
    return objects[objects[tree][1].partition(b"\0")[2].hex().encode()][1]


def holds_whole(stream, clients, before=NOTHING):
    """Holds a stream to what clients were told: each change once and where it was told, in each one's order, and nothing else."""
    told, log, objects = [change for it in clients for change in it.told], log_in(stream, before), objects_in(stream)
    wanted = sorted((it.number, it.id, it.branch, it.target) for it in told)
    want(log, wanted, "the entries of the log, of which each was told once")
    want([it[0] for it in log], [*range(len(before.ids) + 1, len(before.ids) + len(log) + 1)], "the numbers of the log")
    for client in clients:
        texts = [text_of(objects, it[3]) for it in log if it[2] == client.branch]
        wanted = [b"change %d of %s\n" % (at, client.name.encode()) for at in range(1, len(client.told) + 1)]
        want(texts, wanted, f"the changes of {client.name} in their order")
    want(stream, repository_of(told, before).stream(), "the whole stream")


def takes_four_at_once(repositories):
    """what four clients push at once is in the log once, where each was told and in each one's order, in memory, a database and a folder"""
    changes, told = in_this_run(CHANGES, MORE), []
    for kind, place in (("memory", "-"), ("database", repositories.path("at once.db")), ("folder", repositories.path("at once") + "/")):
        clients = [Client(f"client-{it}") for it in range(CLIENTS)]
        with desk(place, CLIENTS) as (ran, port):
            want(push_at_once(port, clients, lambda it: len(it.told) < changes), 0, "how many connections were lost")
            code, stream = asked(port, STREAM)
            ran.kill()
        want(code, 200, "the code of the stream")
        holds_whole(stream, clients)
        if place != "-":
            taken_up(place)
            want(exported(place), stream, f"what the {kind} has then")
        told.append(f"{kind}: {sum(it.stale for it in clients)} stale")
    return f"{CLIENTS * changes} taken; {', '.join(told)}"


def taken_up(place):
    """Lets the next command that may change a store mend what a desk that is killed left in a folder, and tells whether that
    was the half of a change."""
    if not place.endswith("/"):
        return False
    was_half = os.path.exists(f"{place}commit.lock")
    # It is refused here, since the store is not empty.
    want_run((PROGRAM, place, "-", "import"), 3, b"", b"stream 8\n")
    want(sorted(os.listdir(place)), ["objects", "refs"], "what is in the folder after a stop")
    return was_half


class Load:
    """A store under clients whose desks are killed, and how often a stop left what: of the entries of which nobody was told
    one is there or none is, and a folder may have been in the middle of a change."""

    def __init__(self, place, before=NOTHING):
        self.place, self.before, self.ends = place, before, collections.Counter()
        self.clients = [before.client(f"client-{it}") for it in range(UNDER_KILLS)]
        if before.stream:
            imported(place, before.stream)

    def desk(self):
        """A gate where there are rules to judge by, or else a desk."""
        return desk(self.place, WORKERS, gate=bool(self.before.stream))

    def stop(self, seconds):
        """Kills a desk after so many seconds, and holds what is kept to what was told by then."""
        with self.desk() as (ran, port):
            timer = threading.Timer(seconds, ran.kill)
            timer.start()
            want(push_at_once(port, self.clients, lambda _: True), len(self.clients), "how many connections were lost")
            timer.join()
        self.ends["half"] += taken_up(self.place)
        self.ends[self.found()] += 1

    def known(self):
        """The changes that were told, by number, and those of which nothing is known, by the ids of their entries."""
        told = {change.number: change for it in self.clients for change in it.told}
        want(len(told), sum(len(it.told) for it in self.clients), "how many numbers were told")
        return told, {it.sent.id: it.sent for it in self.clients if it.sent}

    def found(self):
        """Each change that was told stands at its number, and every other one is one of which nothing was told yet."""
        told, doubts = self.known()
        status, log, errors = run(PROGRAM, self.place, "-", "log")
        want((status, errors), (0, b""), "the status and errors of log after a stop")
        ids, first = [it.split()[2].decode() for it in log.splitlines()], len(self.before.ids)
        want(ids[:first], self.before.ids, "the entries that were there before")
        others = {at: it for at, it in enumerate(ids[first:], first + 1) if at not in told or told[at].id != it}
        want([it for it in others.values() if it not in doubts], [], "the entries that nobody was told of or waits for")
        want(len(ids) - first - len(others), len(told), "how many of the entries that were told are there")
        return "with one" if others else "with none"

    def ended(self):
        """Lets each client hear what became of its last entry, and holds the whole store to all that was told."""
        with self.desk() as (ran, port):
            want(push_at_once(port, self.clients, lambda it: it.sent), 0, "how many connections were lost in the end")
            ran.kill()
        self.ends["half"] += taken_up(self.place)
        holds_whole(exported(self.place), self.clients, self.before)
        halves = self.ends.pop("half")
        ends = ", ".join(f"{count} {end}" for end, count in sorted(self.ends.items()))
        stale, again, already = (sum(getattr(it, name) for it in self.clients) for name in ("stale", "again", "already"))
        taken = sum(len(it.told) for it in self.clients)
        return f"{sum(self.ends.values())} kills ({ends}, {halves} in a change), {taken} entries, {stale} stale, {again} sent again, {already} of them there already"


def kill_all(repositories, seconds, seed, life=LIFE, before=NOTHING):
    drawn, told = random.Random(seed), []
    for kind, name in (("database", "load.db"), ("folder", "load/")):
        place = repositories.path("gates " if before.stream else "") + name
        load, end = Load(place, before), time.monotonic() + seconds
        while time.monotonic() < end:
            load.stop(drawn.uniform(0, life))
        told.append(f"{kind}: {load.ended()}")
    return "; ".join(told)


def keeps_what_it_told(repositories):
    """whenever desks are killed under eight clients, each entry that one was told of is kept, once, and in its client's order"""
    return kill_all(repositories, in_this_run(SECONDS, LONGER), 45)


def keeps_what_a_gate_told(repositories):
    """the same of gates that are killed, over a repository by whose policy each entry is judged"""
    return kill_all(repositories, in_this_run(SECONDS, LONGER), 46, before=Before(guarded()))


CHECKS = (takes_four_at_once, keeps_what_it_told, keeps_what_a_gate_told)


def main():
    words = [it for it in sys.argv[1:] if it != "--gate"]
    if len(words) not in (2, 3) or words[0] != "--seconds" or not all(it.isdigit() for it in words[1:]):
        print("usage: python3 tools/tests/check_desk_clients.py [--gate] --seconds SECONDS [SEED]", file=sys.stderr)
        return 2
    before = Before(guarded()) if "--gate" in sys.argv[1:] else NOTHING
    seed = int(words[2]) if words[2:] else random.randrange(1 << 32)
    print(f"seed {seed}", flush=True)
    with tempfile.TemporaryDirectory(prefix="gittuf-load-") as folder:
        try:
            print(kill_all(Repositories(folder), int(words[1]) / 2, seed, LONGER_LIFE, before))
        except Failure as why:
            print(f"FAILED   {why}")
            return 1
    return 0


if __name__ == "__main__":
    sys.exit(main())
