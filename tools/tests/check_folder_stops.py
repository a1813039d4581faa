"""The checks of tools/test on kept folders that are stopped, have no room, or are read while they change.

Nothing is removed by hand in any of them: what a stop left the next command mends that may change the store.
"""

import os
import random
import re
import shutil
import subprocess
import time

from check_keys import KEY_LINE, line_of
from check_serving import guarded
from check_snapshots import listing_of
from checking import PROGRAM, Failure, Skip, in_this_run, run, want, want_run
from made_folders import END, FAULT, HEADER, IMPORTED, command, object_file, small_store, stream_of, write

MAIN = "refs/heads/main"
# Calls that change what is in the file system, and those that read the stream and write the answer.
CALLS = "openat,open,creat,mkdir,mkdirat,rename,renameat,renameat2,unlink,unlinkat,rmdir,write,close,read"
# Of the stops at system calls one in so many is tried in the shorter run of a command that signs, and in the longer one.
STEP, CLOSER = 9, 1
# So much room of a small disk is tried, in KiB, from none on, and in such steps.
MOST_ROOM, ROOM_STEP, ROOM_CLOSER = 80, 8, 2
# So many times a store is read beside a writer.
READS, MORE_READS = 40, 4000
# In a name space of its own: a small disk with what stands at $2, and but so much room, on which a program runs; $3 gets what is there then.
FILLED = """
mount -t tmpfs -o size="$1"k,nr_inodes=0 tmpfs "$4" || exit 99
[ ! -e "$2" ] || cp -r "$2" "$4/store"
to=$3; at=$4; room=$5; shift 5
if [ "$room" != all ]; then
    cat /dev/zero > "$at/filler" 2> "$to/filled"
    left=$(($(stat -c %s "$at/filler") - room * 1024))
    [ "$left" -gt 0 ] || left=0
    truncate -s "$left" "$at/filler"
fi
"$@" > "$to/output" 2> "$to/errors"; status=$?
rm "$at/filler"
[ ! -e "$at/store" ] || cp -r "$at/store" "$to/store"
exit "$status"
"""


def bytes_of(path):
    with open(path, "rb") as file:
        return file.read()


def names_in(place):
    """What is in a folder, or nothing where there is none."""
    return sorted(os.listdir(place)) if os.path.isdir(place) else None


def copied(store, place):
    shutil.rmtree(place, ignore_errors=True)
    shutil.copytree(store, place)


def unused(repositories, key):
    """A copy of a key file that has signed nothing, since there are more tries than leaves of a small key."""
    return shutil.copy(key, repositories.path("unused.key"))


def signing(repositories):
    """A store with a log, and the commands that sign in it, by their words, with what each reads."""
    place = repositories.path("signed")
    if not os.path.exists(place):
        want_run(command(place, "import"), 0, IMPORTED, input=guarded())
    key = repositories.path("signing.key")
    if not os.path.exists(key):
        line_of(KEY_LINE, (PROGRAM, "-", key, "key-gen", "5", "8"))
    entry = run(*command(place, "log"))[1].splitlines()[-1].split()
    files = listing_of([(b"100644", b"f%d" % it, b"%d\n" % it * 100) for it in range(3)])
    return place, key, (
        (("record", MAIN), b""),
        (("annotate", "note", entry[2].decode()), b"why\n"),
        (("approve", MAIN, entry[-1].decode()), b""),
        (("policy-apply",), b""),
        (("snapshot", "refs/heads/work"), files),
    )


def is_mended(place, was, about):
    """Holds a folder, in which a command was stopped or had no room, to the next command that may change it: it is whole then."""
    found = run(*command(place, "import"), input=HEADER + END)
    want(found, (3, b"", b"stream 8\n"), f"what an import into it answers after {about}")
    want(names_in(place), ["objects", "refs"], f"what is in the folder after {about}")
    status, after, errors = run(*command(place, "export"))
    want((status, errors), (0, b""), f"the status and errors of export after {about}")
    refs, before = (sorted(re.findall(rb"^ref .*\n", it, re.MULTILINE)) for it in (after, was))
    objects = [{*re.findall(rb"^object ([0-9a-f]{64}) ", it, re.MULTILINE)} for it in (was, after)]
    want(objects[0] <= objects[1], True, f"whether each object from before is there after {about}")
    want({it.split()[2] for it in refs} <= objects[1], True, f"whether each reference names an object that is there after {about}")
    want(run(*command(place, "verify-ref", MAIN))[0] < 2, True, f"whether there is a verdict after {about}")
    return "old" if refs == before else "new"


def calls_of(repositories, *words, input=b""):
    """The system calls of a program that runs to its end, each with how often it makes it."""
    log = repositories.path("calls")
    status, _, errors = run("strace", "-o", log, "-e", f"trace={CALLS}", *words, input=input)
    if status or errors:
        raise Skip("strace cannot trace here")
    numbers = {}
    with open(log, "rb") as file:
        for found in (re.match(rb"(\w+)\(", line) for line in file):
            if found:
                numbers[found[1].decode()] = numbers.get(found[1].decode(), 0) + 1
    return [(call, number) for call, times in numbers.items() for number in range(1, times + 1)]


def kill_at(call, number, *words, input=b""):
    """Kills a program at this system call, and returns its status."""
    inject = ("-e", f"trace={call}", "-e", f"inject={call}:signal=KILL:when={number}")
    return run("strace", "-o", os.devnull, *inject, *words, input=input)[0]


def stops_an_import(repositories):
    """after a kill at each system call of an import the next import is taken, or the first one's store is whole"""
    if not shutil.which("strace"):
        raise Skip("strace is not here")
    _, objects = small_store(repositories, "of the stopped")
    whole = stream_of(objects, [(b"refs/heads/main", objects[1][0].encode())])
    counted, ends = repositories.path("counted"), {"nothing": 0, "marked": 0, "whole": 0}
    for call, number in calls_of(repositories, *command(counted, "import"), input=whole):
        for there in (False, True):
            ends[import_stopped_at(repositories, whole, call, number, there)] += 1
    if not all(ends.values()):
        raise Failure(f"the stops led to {ends}")
    return ", ".join(f"{count} {end}" for end, count in ends.items())


def import_stopped_at(repositories, whole, call, number, there):
    """Kills an import at this system call, and says what stands there then."""
    place, about = repositories.path("stopped"), f"a kill at {call} {number}"
    if there:
        os.mkdir(place)
    kill_at(call, number, *command(place, "import"), input=whole)
    found = names_in(place)
    status, output, errors = run(*command(place, "export"))
    if not found:
        end = "nothing"
        want((there, status), (found is not None, 0 if there else 4), f"what {about} leaves")
    elif found == ["objects", "refs"]:
        end = "whole"
        want((status, output), (0, whole), f"what {about} leaves")
    else:
        end = "marked"
        want((status, output, errors), (4, b"", FAULT), f"what export answers after {about}")
    again = run(*command(place, "import"), input=whole)
    want(again in ((0, IMPORTED, b""), (3, b"", b"stream 8\n")), True, f"whether {again!r} is an answer after {about}")
    want_run(command(place, "export"), 0, whole)
    want(names_in(place), ["objects", "refs"], f"what is in the folder after {about}")
    shutil.rmtree(place)
    for left in os.listdir(repositories.folder):
        if left.startswith("stopped."):
            shutil.rmtree(repositories.path(left))
    return end


def stops_a_change(repositories):
    """after kills at system calls of the commands that add to a log the next one finds the store as it was, or with the whole change"""
    if not shutil.which("strace"):
        raise Skip("strace is not here")
    store, key, commands = signing(repositories)
    was, ends = run(*command(store, "export"))[1], {"old": 0, "new": 0}
    place = repositories.path("stopped change")
    for words, given in commands:
        run_words = (PROGRAM, f"{place}/", unused(repositories, key), *words)
        copied(store, place)
        calls = calls_of(repositories, *run_words, input=given)
        for call, number in calls[:: in_this_run(STEP, CLOSER)]:
            copied(store, place)
            unused(repositories, key)
            kill_at(call, number, *run_words, input=given)
            ends[is_mended(place, was, f"a kill of {words[0]} at {call} {number}")] += 1
    want(min(ends.values()) > 0, True, f"whether both were seen: {ends}")
    return ", ".join(f"{count} {end}" for end, count in ends.items())


def on_small_disk(repositories, kilobytes, store, room, *words, input=b""):
    """Runs a program on a small disk, on which a copy of a store is and but so much room, and returns its status, errors and what is there."""
    disk, to = repositories.path("disk"), repositories.path("copied")
    shutil.rmtree(to, ignore_errors=True)
    os.makedirs(disk, exist_ok=True)
    os.mkdir(to)
    at = os.path.join(disk, "store")
    words = [f"{at}/" if it is None else it for it in words]
    status = run("unshare", "-Urm", "sh", "-c", FILLED, "sh", str(kilobytes), store, to, disk, str(room), *words, input=input)[0]
    return status, bytes_of(os.path.join(to, "errors")), os.path.join(to, "store")


def fills_a_disk(repositories):
    """on a disk that is full a command is a fault that leaves nothing of its own, or its change is whole"""
    if not shutil.which("unshare") or run("unshare", "-Urm", "true")[0]:
        raise Skip("nobody may mount a small disk here")
    store, key, commands = signing(repositories)
    was, ends = run(*command(store, "export"))[1], {"fault": 0, "whole": 0}
    more = sorted(object_file(b"blob", b"%d" % it + b"x" * 5000)[::-1] for it in range(8))
    big = stream_of(more, [(b"refs/heads/a/b", more[0][0].encode()), (b"refs/heads/main", more[1][0].encode())])
    for room in range(0, MOST_ROOM, in_this_run(ROOM_STEP, ROOM_CLOSER)):
        about = f"an import into {room} KiB of room"
        status, errors, left = on_small_disk(repositories, 1024, "", room, PROGRAM, None, "-", "import", input=big)
        want((status, errors) in ((0, b""), (4, FAULT)), True, f"whether {status} and {errors} are answers of {about}")
        if status:
            want(names_in(left), None, f"what is there after {about}")
        else:
            want_run(command(left, "export"), 0, big)
        ends["fault" if status else "whole"] += 1
        for words, given in commands:
            about = f"{words[0]} in {room} KiB of room"
            status, errors, left = on_small_disk(repositories, 2048, store, room, PROGRAM, None, unused(repositories, key), *words, input=given)
            want((status, errors) in ((0, b""), (4, FAULT)), True, f"whether {status} and {errors} are answers of {about}")
            want(names_in(left), ["objects", "refs"], f"what is in the folder after {about}")
            if status:
                want_run(command(left, "export"), 0, was)
            want(is_mended(left, was, about), "old" if status else "new", f"the references after {about}")
            ends["fault" if status else "whole"] += 1
    want(min(ends.values()) > 0, True, f"whether both were seen: {ends}")
    return ", ".join(f"{count} {end}" for end, count in ends.items())


def tells_no_room(repositories):
    """where a file cannot grow the import is a fault, and the folder that it made goes, or is as it was"""
    text, object_id = object_file(b"blob", b"x" * 100_000)
    small = sorted([object_file(b"blob", b"small")[::-1], (object_id, text)])
    for there in (False, True):
        place = repositories.path(f"no room {there}")
        if there:
            os.mkdir(place)
        words = ("sh", "-c", "trap '' XFSZ; ulimit -f 16; exec \"$@\"", "sh", *command(place, "import"))
        want_run(words, 4, b"", FAULT, input=stream_of(small, []))
        want(names_in(place), [] if there else None, "what is there")
        want_run(command(place, "import"), 0, IMPORTED, input=stream_of(small, []))


def reads_beside_a_writer(repositories):
    """an export or a verdict beside a writer is right or a fault: no stream lacks an object that a reference of it names"""
    store, _, commands = signing(repositories)
    place, drawn = repositories.path("busy"), random.Random(7)
    copied(store, place)
    ends, reads = {"fault": 0, "right": 0}, in_this_run(READS, MORE_READS)
    words, listing = commands[-1]
    write(repositories.folder, "busy.listing", listing)
    script = 'trap "exit 0" TERM; while :; do "$@" < "$0" > /dev/null; sleep 0.03; done'
    given = repositories.path("busy.listing")
    with subprocess.Popen(("sh", "-c", script, given, *command(place, *words)), stderr=subprocess.DEVNULL) as writer:
        try:
            for _ in range(reads):
                time.sleep(drawn.uniform(0, 0.04))
                status, output, errors = run(*command(place, "export"))
                want((status, errors) in ((0, b""), (4, FAULT)), True, f"whether {status} and {errors} are answers beside a writer")
                ends["fault" if status else "right"] += 1
                if status == 0:
                    ids = {*re.findall(rb"^object ([0-9a-f]{64}) ", output, re.MULTILINE)}
                    named = [it.split()[2] for it in re.findall(rb"^ref .*\n", output, re.MULTILINE)]
                    want({*named} <= ids, True, "whether a stream has each object that a reference names")
        finally:
            writer.terminate()
    want(is_mended(place, run(*command(store, "export"))[1], "a writer"), "new", "the references after a writer")
    return ", ".join(f"{count} {end}" for end, count in ends.items())


CHECKS = (
    stops_an_import,
    stops_a_change,
    fills_a_disk,
    tells_no_room,
    reads_beside_a_writer,
)
