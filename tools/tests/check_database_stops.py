#!/usr/bin/env python3
"""The checks of tools/test on stores in database files that are stopped, have no room, or are wanted by many at once.

`python3 tools/tests/check_database_stops.py KILLS` stops so many imports and records at random, which takes longer.
"""

import contextlib
import os
import random
import shutil
import signal
import subprocess
import sys
import tempfile
import time

from check_repositories import Repositories
from checking import PROGRAM, Failure, Skip, in_this_run, run, want, want_run
from made_databases import FAULT, big_stream, bytes_of, command, is_sound, rows_of, small_database
from made_folders import END, HEADER, IMPORTED

# So many stops in the shorter run, and in the longer one.
KILLS, MORE = 24, 500
# So many records begin at once, and so often.
AT_ONCE, TURNS = 6, 3
# So many KiB of room are left on a small disk.
ROOMS = (0, 16, 64, 128, 256, 512, 1024)
FILLED = """
mount -t tmpfs -o size="$1"k tmpfs "$2" || exit 99
cp "$3" "$2/kept.db"; to=$4; at=$2/kept.db; shift 4
program=$1; shift
"$program" "$at" "$@" > "$to/output" 2> "$to/errors"; status=$?
for it in "$at" "$at-wal"; do [ ! -e "$it" ] || cp "$it" "$to"; done
exit "$status"
"""


def fills_a_disk(repositories):
    """on a disk that is full a change is a fault or whole, and what the store had is there afterwards"""
    if not shutil.which("unshare") or run("unshare", "-Urm", "true")[0]:
        raise Skip("nobody may mount a small disk here")
    place, whole = small_database(repositories, "filled.db")
    key, disk = repositories.path("filled.key"), repositories.path("disk")
    os.mkdir(disk)
    want(run(PROGRAM, "-", key, "key-gen", "5", "8")[0], 0, "the status of key-gen")
    pages, ends = os.path.getsize(place) // 1024, {"fault": 0, "whole": 0}
    for room in ROOMS:
        to = repositories.path(f"copied {room}")
        os.mkdir(to)
        words = ("unshare", "-Urm", "sh", "-c", FILLED, "sh", str(pages + room), disk, place, to, PROGRAM, key, "record", "refs/heads/main")
        status, errors = run(*words)[0], bytes_of(os.path.join(to, "errors"))
        want((status, errors) in ((0, b""), (4, FAULT)), True, f"whether {status} and {errors} are answers with {room} KiB of room")
        copied = os.path.join(to, "kept.db")
        entries = len(run(*command(copied, "log"))[1].splitlines())
        want(entries, 1 if status == 0 else 0, f"the entries with {room} KiB of room")
        if status:
            want_run(command(copied, "export"), 0, whole)
        is_sound(copied)
        ends["whole" if status == 0 else "fault"] += 1
    want(min(ends.values()) > 0, True, f"whether both were seen: {ends}")
    return ", ".join(f"{count} {end}" for end, count in ends.items())


def is_whole_by_many(repositories):
    """of many records that begin at once each is an entry that stays or a fault, and none waits for ever"""
    place, _ = small_database(repositories, "many.db")
    pipe, entries, faults = subprocess.PIPE, 0, 0
    for turn in range(TURNS):
        keys = [repositories.path(f"many {turn} {it}.key") for it in range(AT_ONCE)]
        for key in keys:
            want(run(PROGRAM, "-", key, "key-gen", "5", "8")[0], 0, "the status of key-gen")
        ran = [subprocess.Popen((PROGRAM, place, key, "record", "refs/heads/main"), stdout=pipe, stderr=pipe) for key in keys]
        told = [(*it.communicate(timeout=60), it.returncode) for it in ran]
        want({(errors, status) for _, errors, status in told} <= {(b"", 0), (FAULT, 4)}, True, f"whether {told} are answers")
        entries, faults = entries + sum(it[2] == 0 for it in told), faults + sum(it[2] == 4 for it in told)
        want(len(run(*command(place, "log"))[1].splitlines()), entries, "the entries that are there")
        want(entries > 0, True, "whether one came through")
    is_sound(place)
    return f"{entries} entries, {faults} faults"


def stopped(words, stream, seconds):
    """Kills a program after so many seconds, and returns its status and what it had answered, where it had."""
    process = subprocess.Popen(words, stdin=subprocess.PIPE, stdout=subprocess.PIPE, stderr=subprocess.DEVNULL)
    try:
        output = process.communicate(stream, timeout=seconds)[0]
    except subprocess.TimeoutExpired:
        process.send_signal(signal.SIGKILL)
        output = process.communicate()[0]
    return process.returncode, output


def seconds_of(*words, input=b""):
    """How long a program takes that is not stopped."""
    start = time.monotonic()
    want(run(*words, input=input)[0], 0, f"the status of {words[3]}")
    return time.monotonic() - start


def is_sound_to_others(repositories, place, *counts):
    """Holds a copy of a database, with its log, to what the C library and its shell find: nothing wrong, and one of these counts of references."""
    copy = repositories.path("copy.db")
    for it in ("", "-wal", "-shm"):
        with contextlib.suppress(FileNotFoundError):
            os.remove(copy + it)
        if os.path.exists(place + it):
            shutil.copyfile(place + it, copy + it)
    is_sound(copy)
    ((count,),) = rows_of(copy, "SELECT count(*) FROM refs")
    want(count in counts, True, f"whether the {count} references that the C library finds are as many as of {counts}")
    if shutil.which("sqlite3"):
        words = ("sqlite3", copy, "PRAGMA integrity_check; SELECT count(*) FROM refs")
        want_run(words, 0, b"ok\n%d\n" % count)


def stop_imports(repositories, kills, drawn):
    """Kills imports at random: the store is empty or whole, and whole where that was answered."""
    stream = big_stream()
    whole = repositories.path("counted.db")
    seconds = seconds_of(*command(whole, "import"), input=stream)
    ends = {"nothing": 0, "empty": 0, "whole": 0}
    for turn in range(kills):
        place = repositories.path(f"stopped import {turn}.db")
        status, output = stopped(command(place, "import"), stream, drawn.uniform(0, 1.2 * seconds))
        if not os.path.exists(place):
            want(status != 0, True, "whether an import without a file was answered")
            ends["nothing"] += 1
            continue
        found = run(*command(place, "export"))
        want(found[0], 0, "the status of export after a stop")
        want(found[1] in (HEADER + END, stream), True, "whether the store is empty or whole")
        if output == IMPORTED:
            want(found[1], stream, "the store after an answer")
        ends["whole" if found[1] == stream else "empty"] += 1
        is_sound_to_others(repositories, place, 1 if found[1] == stream else 0)
        os.remove(place)
    return ends


def stop_records(repositories, kills, drawn):
    """Kills records at random, one after the other over one store: each entry that was answered is there, and none is half there."""
    place, _ = small_database(repositories, "records.db")
    key = repositories.path("records.key")
    want(run(PROGRAM, "-", key, "key-gen", "10", "8")[0], 0, "the status of key-gen")
    words = (PROGRAM, place, key, "record", "refs/heads/main")
    seconds = seconds_of(*words)
    logged = run(*command(place, "log"))[1].splitlines()
    for _ in range(kills):
        status, output = stopped(words, b"", drawn.uniform(0, 1.2 * seconds))
        found = run(*command(place, "log"))
        want((found[0], found[2]), (0, b""), "the status and errors of log after a stop")
        lines = found[1].splitlines()
        want(lines[: len(logged)], logged, "the entries before")
        grew = len(lines) - len(logged)
        want(grew in ((1,) if status == 0 else (0, 1)), True, f"whether {len(lines)} entries come of {len(logged)}, after {output!r}")
        want(run(*command(place, "verify-ref", "refs/heads/main"))[0] < 2, True, "whether there is a verdict")
        is_sound_to_others(repositories, place, 2 if lines else 1)
        logged = lines
    is_sound(place)
    return len(logged)


def stop_all(repositories, kills, seed):
    drawn = random.Random(seed)
    ends = stop_imports(repositories, kills // 2, drawn)
    entries = stop_records(repositories, kills - kills // 2, drawn)
    return ", ".join(f"{count} {end}" for end, count in ends.items()) + f", {entries} entries"


def stops_anywhere(repositories):
    """a kill at any moment of an import or a record leaves the store as it was or with the whole change"""
    return stop_all(repositories, in_this_run(KILLS, MORE), 31)


CHECKS = (
    fills_a_disk,
    is_whole_by_many,
    stops_anywhere,
)


def main():
    if len(sys.argv) != 2 or not sys.argv[1].isdigit():
        print("usage: python3 tools/tests/check_database_stops.py KILLS", file=sys.stderr)
        return 2
    seed = random.randrange(1 << 32)
    print(f"seed {seed}", flush=True)
    with tempfile.TemporaryDirectory(prefix="gittuf-kills-") as folder:
        try:
            print(stop_all(Repositories(folder), int(sys.argv[1]), seed))
        except Failure as why:
            print(f"FAILED   {why}")
            return 1
    return 0


if __name__ == "__main__":
    sys.exit(main())
