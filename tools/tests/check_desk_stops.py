#!/usr/bin/env python3
"""The checks of tools/test on desks that are killed while entries are pushed to them, over a database file and over a folder.

`python3 tools/tests/check_desk_stops.py KILLS` kills so many desks at random, which takes longer.
"""

import hashlib
import http.client
import os
import random
import subprocess
import sys
import tempfile
import threading
import time

from check_database_stops import is_sound_to_others
from check_keys import ENTRY_LINE, KEY_LINE, line_of
from check_repositories import Repositories
from check_serving import desk, exported, guarded, imported, objects_in, push, push_text
from check_snapshots import COMMIT_LINE, listing_of
from checking import PROGRAM, Failure, in_this_run, run, want, want_run
from guarded_clones import TOOL, another
from made_folders import END, HEADER

# So many kills in the shorter run, and in the longer one: half of them over each kind of store.
KILLS, MORE = 20, 200
# So many pushes are sent at most until a desk is killed, and so many files has what an entry records.
PUSHES, FILES = 2, 8
# So many entries a key of this height may sign.
SMALL_KEY = 32
BRANCH, LOG = "refs/heads/work", "refs/gittuf/reference-state-log"
# So many desks are killed beneath one `git gittuf push`, and so many entries it has to send.
TIMES, NOTES = 3, 6


class Step:
    """What the store has once an entry was taken, and the push of that entry, but for the first, which is the example's store."""

    def __init__(self, after, text=b"", number=0, entry=b""):
        self.digest, self.ids, self.references = hashlib.sha256(after).digest(), [*objects_in(after)], after.count(b"\nref ")
        self.text, self.entry = text, entry
        self.done, self.already = (201, b"done %d %s\n" % (number, entry)), (200, b"already %d\n" % number)


def made_steps(repositories, count):
    """The example's store, and so many entries that go on from its log, one after the other, each of a branch with other files."""
    place, key = repositories.path("steps.db"), repositories.path("steps.key")
    line_of(KEY_LINE, (PROGRAM, "-", key, "key-gen", "5" if count <= SMALL_KEY else "10", "8"))
    imported(place, guarded())
    steps = [Step(guarded())]
    before = {*steps[0].ids}
    for turn in range(count):
        files = [(b"100644", b"f%d" % it, b"%d of %d\n" % (it, turn) * 100) for it in range(FILES)]
        line_of(COMMIT_LINE, (PROGRAM, place, "-", "snapshot", BRANCH), input=listing_of(files))
        found = line_of(ENTRY_LINE, (PROGRAM, place, key, "record", BRANCH))
        after = exported(place)
        objects = objects_in(after)
        new = {id: it for id, it in objects.items() if id not in before}
        steps.append(Step(after, push_text(new, found[2]), int(found[1]), found[2]))
        before = {*objects}
    return steps


class Kept:
    """A store behind desks that are killed: how many entries they said that they took, and how many it was found to have."""

    def __init__(self, repositories, steps, place):
        self.repositories, self.steps, self.place = repositories, steps, place
        self.told = self.there = 0
        self.ends = {"idle": 0, "before": 0, "after": 0, "half": 0}
        imported(place, guarded())

    def goes_on(self, seconds):
        """Sends again what was sent last, and then new entries until the desk is killed after so many seconds, or has them."""
        with desk(self.place) as (ran, port):
            for step in self.steps[max(self.told, 1) : self.there + 1]:
                want(push(port, step.text), step.already, "the reply to an entry that is there")
            self.told = self.there
            timer = threading.Timer(seconds, ran.kill)
            timer.start()
            try:
                for step in self.steps[self.told + 1 : self.told + 1 + PUSHES]:
                    want(push(port, step.text), step.done, "the reply to an entry")
                    self.told += 1
                return True
            except (OSError, http.client.HTTPException):
                return False
            finally:
                timer.cancel()
                timer.join()
                ran.kill()

    def may_be(self):
        """What the store may have after a stop."""
        return self.steps[self.told : self.told + 2]

    def holds(self):
        """Holds the store to what was told before the stop, and to one entry more at most."""
        if self.place.endswith("/"):
            self.ends["half"] += os.path.exists(f"{self.place}commit.lock")
            # Whoever may change the store next mends what a desk left, and is refused here, since the store is not empty.
            want_run((PROGRAM, self.place, "-", "import"), 3, b"", b"stream 8\n")
            want(sorted(os.listdir(self.place)), ["objects", "refs"], "what is in the folder after a stop")
        else:
            is_sound_to_others(self.repositories, self.place, *(it.references for it in self.may_be()))
        found = hashlib.sha256(exported(self.place)).digest()
        digests = [it.digest for it in self.may_be()]
        want(found in digests, True, f"whether the store has the {self.told} entries that were told, or one more")
        self.there = self.told + digests.index(found)
        log = run(PROGRAM, self.place, "-", "log")
        want((log[0], log[2]), (0, b""), "the status and errors of log after a stop")
        entries = [it.split()[2] for it in log[1].splitlines()]
        wanted = [it.entry for it in self.steps[1 : self.there + 1]]
        want(entries[len(entries) - self.there :], wanted, "the last entries of the log")
        return "after" if self.there > self.told else "before"

    def stop(self, kills, drawn, seconds):
        """Kills so many desks, each at a drawn moment of so many seconds for a push, and tells what the stops left."""
        for _ in range(kills):
            was_idle = self.goes_on(drawn.uniform(0, 1.3 * PUSHES * seconds))
            end = self.holds()
            self.ends["idle" if was_idle and end == "before" else end] += 1
        return ", ".join(f"{count} {end}" for end, count in self.ends.items() if count)


def seconds_of_a_push(step, place):
    """How long a push takes of a desk that is not stopped."""
    imported(place, guarded())
    with desk(place) as (_, port):
        start = time.monotonic()
        want(push(port, step.text), step.done, "the reply to an entry")
        return time.monotonic() - start


def stop_all(repositories, kills, seed):
    drawn, told = random.Random(seed), []
    steps = made_steps(repositories, PUSHES * (kills + 1) // 2 + 1)
    for kind, name in (("database", "stopped{}.db"), ("folder", "stopped{}/")):
        place = repositories.path("") + name
        seconds = seconds_of_a_push(steps[1], place.format(" first"))
        told.append(f"{kind}: {Kept(repositories, steps, place.format('')).stop((kills + 1) // 2, drawn, seconds)}")
    return "; ".join(told)


def keeps_what_it_took(repositories):
    """whenever a desk is killed, each entry that it said it took is in its database or folder, one that is sent again is there once, and nothing is half there unseen"""
    return stop_all(repositories, in_this_run(KILLS, MORE), 38)


def goes_on_by_git_gittuf(repositories):
    """git gittuf push to a desk that is killed meanwhile ends with 4, and the same call to it, opened again, sends what it lacks"""
    clones = another(repositories, "desk killed")
    for it in range(NOTES):
        clones.gittuf("alice", "note", "1", "-m", f"note {it}")
    ids = clones.git("rev-list", "--reverse", LOG, who="alice").decode().split()
    place, lines = repositories.path("pushed by git.db"), [f"done {at} {it}" for at, it in enumerate(ids, 1)]
    imported(place, HEADER + END)
    for turn in range(TIMES):
        with desk(place) as (ran, port):
            words = (TOOL, "push", "--desk", str(port))
            with subprocess.Popen(words, cwd=clones.path("alice"), stdout=subprocess.PIPE, stderr=subprocess.PIPE, text=True) as sending:
                told = sending.stdout.readline()
                ran.kill()
                told, said = (told + sending.stdout.read()).splitlines(), sending.stderr.read()
        at = lines.index(told[0]) if told and told[0] in lines else -1
        want((told, at >= turn), (lines[at : at + len(told)], True), f"what push {turn} prints: {said}")
        want(sending.returncode, 0 if told[-1] == lines[-1] else 4, f"the status of a push whose desk is killed, which says {said!r}")
        there = [it.split()[2].decode() for it in run(PROGRAM, place, "-", "log")[1].splitlines()]
        want(there[: at + len(told)], ids[: at + len(told)], "the entries that were told")
        want(there, ids[: len(there)], "the entries that are there")
    with desk(place) as (ran, port):
        found = clones.gittuf("alice", "push", "--desk", str(port)).decode().splitlines()
        want(found, lines[len(lines) - len(found) :], "what the last push prints")
        ran.kill()
    want([it.split()[2].decode() for it in run(PROGRAM, place, "-", "log")[1].splitlines()], ids, "the entries in the end")


CHECKS = (keeps_what_it_took, goes_on_by_git_gittuf)


def main():
    if len(sys.argv) != 2 or not sys.argv[1].isdigit():
        print("usage: python3 tools/tests/check_desk_stops.py KILLS", file=sys.stderr)
        return 2
    seed = random.randrange(1 << 32)
    print(f"seed {seed}", flush=True)
    with tempfile.TemporaryDirectory(prefix="gittuf-kills-") as folder:
        try:
            print(stop_all(Repositories(folder), int(sys.argv[1]), seed))
        except Failure as why:
            print(f"FAILED   {why}")
            return 1
    return 0


if __name__ == "__main__":
    sys.exit(main())
