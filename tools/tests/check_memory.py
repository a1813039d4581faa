"""The checks of tools/test on commands to which memory is refused: each says so, and nothing is lost but a leaf."""

import http.client
import os
import re
import shutil
import subprocess

from check_desks import desk as stand_in
from check_folder_stops import signing
from check_keys import ENTRY_LINE, KEY_LINE, bytes_of, line_of
from check_serving import entry_more, exported, free_port, push, wait_for_listener
from check_snapshots import listing_of, take_snapshot
from checking import PROGRAM, Failure, in_this_run, run, want
from made_folders import command, expect_same, files_below
from made_twins import made_twins
from refused_commands import trials
from refused_memory import refuse, refusing, refusing_library

MAIN = "refs/heads/main"
# Where a key file's bytes for its leaves begin.
LEAVES = 64
# So many runs in a row in which no call was refused tell that all calls were tried.
MOST_CALLS, ENOUGH = 5000, 4
# Of the calls of a command one in so many is refused in the shorter run, and in the longer one.
STEP, CLOSER = 101, 1
# What differs from run to run: ids and keys, and what is signed.
DRAWN = re.compile(rb"[0-9a-f]{56,}|[A-Za-z0-9+/]{40,}={0,2}")
FAILED = ((5, b"memory\n"), (4, b"fault\n"))


def leaf_used(key, before):
    """Whether a signature's leaf was used, of which there is one at most and it is the first that was not."""
    found, leaf = bytes_of(key), before.index(b"\0", LEAVES)
    if found == before:
        return False
    want(found, before[:leaf] + b"\1" + before[leaf + 1 :], "the key file")
    return True


def record_refused(library, call, place, key, before):
    """Records where a call for memory is refused. Returns whether one was, and whether a leaf was lost."""
    leaves = bytes_of(key)
    status, _, errors, refused = refuse(library, call, (f"{place}/", key, "record", MAIN))
    used = leaf_used(key, leaves)
    if status == 0:
        want((errors, used), (b"", True), "the errors and the leaf of a record that is done")
        return refused, False
    want((status, errors) in FAILED, True, f"the end {status}, {errors!r} of record")
    if status == 5:
        expect_same(place, before)
    return refused, used and status == 5


def loses_a_leaf_at_most(repositories):
    """where memory is refused to record at any call, also after signing, the store is as before and one leaf is used"""
    library = refusing_library(repositories)
    whole, key = repositories.path("scarce"), repositories.path("scarce.key")
    take_snapshot(whole, listing_of(((b"100644", b"README", b"A project.\n"),)), MAIN)
    line_of(KEY_LINE, (PROGRAM, "-", key, "key-gen", "5", "8"))
    line_of(ENTRY_LINE, (PROGRAM, f"{whole}/", key, "record", MAIN))
    before, place, copy = files_below(whole), repositories.path("scarce copy"), repositories.path("scarce copy.key")
    lost = free = 0
    for call in range(1, MOST_CALLS):
        shutil.rmtree(place, ignore_errors=True)
        shutil.copytree(whole, place)
        shutil.copy(key, copy)
        refused, leaf_lost = record_refused(library, call, place, copy, before)
        lost += leaf_lost
        free = 0 if refused else free + 1
        if free == ENOUGH:
            break
    if free < ENOUGH or not lost:
        raise Failure(f"of {call} calls for memory {lost} were refused after signing")


class Scarce:
    """A store and a key file, of which each command to which memory is refused gets a copy."""

    def __init__(self, repositories, name):
        self.library = refusing_library(repositories)
        self.copy, self.copied_key = repositories.path(f"{name} copy"), repositories.path(f"{name} copy.key")
        self.place, self.key, self.signs = signing(repositories)
        self.shown = made_twins(lambda it: repositories.path(f"{name} {it}"), self.place)
        self.before, self.stream = files_below(self.place), exported(f"{self.place}/")

    def put(self, store, key):
        """The words of a store and of a key file as they are before a command."""
        shutil.rmtree(self.copy, ignore_errors=True)
        if store == "copy":
            shutil.copytree(self.place, self.copy)
        if os.path.exists(self.copied_key):
            os.remove(self.copied_key)
        if key == "copy":
            shutil.copy(self.key, self.copied_key)
        return "-" if store == "memory" else f"{self.copy}/", "-" if key == "none" else self.copied_key

    def held(self, trial, status, about):
        """Holds the store and the key file to what a command that ended so may leave."""
        if trial.store == "copy" and status == 5:
            expect_same(self.copy, self.before)
        elif trial.store == "copy":
            want(run(*command(self.copy, "verify-ref", MAIN))[0] < 2, True, f"whether there is a verdict after {about}")
        elif trial.store == "new" and status:
            want(os.path.exists(self.copy), False, f"whether there is a folder after {about}")
        if trial.key == "copy":
            leaf_used(self.copied_key, bytes_of(self.key))

    def refused(self, trial, call, whole):
        """Runs a command of which this call for memory is refused, holds its end to the table, and tells whether one was refused."""
        words = (*self.put(trial.store, trial.key), *trial.words)
        status, output, errors, refused = refuse(self.library, call, words, trial.given)
        about = f"{' '.join(trial.words)[:60]} where call {call} for memory is refused"
        if (status, errors) in FAILED:
            want(len(output) <= len(whole[1]), True, f"whether more than all was printed by {about}")
        else:
            want((status, DRAWN.sub(b"-", output), errors), (whole[0], DRAWN.sub(b"-", whole[1]), whole[2]), f"the end of {about}")
        self.held(trial, status, about)
        return refused

    def all_of(self, trial):
        """How many calls for memory of a command were refused, one a run."""
        whole = run(PROGRAM, *self.put(trial.store, trial.key), *trial.words, input=trial.given)
        step = in_this_run(STEP, CLOSER) * trial.step
        for count in range(MOST_CALLS):
            if not self.refused(trial, 1 + count * step, whole):
                return count
        raise Failure(f"{trial.words[0]} asks for memory more than {MOST_CALLS * step} times")

    def served(self, call, text, after):
        """Opens a desk of which this call for memory is refused, pushes an entry, and tells whether a call was refused."""
        port, about = free_port(), f"serve where call {call} for memory is refused"
        words = (*self.put("copy", "none"), "serve", str(port), "1", "1")
        with refusing(self.library, call) as (how, refused):
            with subprocess.Popen((PROGRAM, *words), stdout=subprocess.PIPE, stderr=subprocess.PIPE, **how) as ran:
                code, line = pushed(ran, port, text)
                errors = ran.stderr.read()
        ended = (ran.returncode, errors)
        want(ended in FAILED or ended == (0, b"") and code in (201, 503), True, f"whether {code} {line!r} and {ended} are an end of {about}")
        found = exported(f"{self.copy}/")
        want(found in ((after,) if code == 201 else (self.stream, after)), True, f"whether the store is old or new after {about}")
        return refused[0], code


def pushed(ran, port, text):
    """What a desk that was begun replies to a push, or 0 where it ends before it does."""
    if not ran.stdout.readline():
        return 0, b""
    try:
        wait_for_listener(port, ran)
        return push(port, text)
    except (Failure, OSError, http.client.HTTPException) as why:
        return 0, str(why).encode()


def says_that_memory_is_refused(repositories):
    """where a call for memory is refused each command says `memory` or `fault`, or answers as ever, and its store is whole (with --long at any call)"""
    scarce = Scarce(repositories, "refused")
    _, number, _, after = entry_more(repositories, "refused more", scarce.stream, scarce.key)
    counts = {}
    with stand_in("201", f"done {number}") as port:
        for trial in trials(scarce, after, port):
            counts[trial.words[0]] = counts.get(trial.words[0], 0) + scarce.all_of(trial)
    return ", ".join(f"{count} of {name}" for name, count in counts.items())


def serves_where_memory_is_refused(repositories):
    """where a call for memory is refused to a desk it says so, or serves on, and what it acknowledged is there (with --long at any call)"""
    scarce = Scarce(repositories, "served")
    text, _, _, after = entry_more(repositories, "refused served", scarce.stream, scarce.key)
    codes = {}
    for count in range(MOST_CALLS):
        refused, code = scarce.served(1 + count * in_this_run(STEP, CLOSER), text, after)
        if not refused:
            return ", ".join(f"{it} {name or 'without a reply'}" for name, it in codes.items())
        codes[code] = codes.get(code, 0) + 1
    raise Failure(f"serve asks for memory more than {MOST_CALLS} times")


CHECKS = (loses_a_leaf_at_most, says_that_memory_is_refused, serves_where_memory_is_refused)
