"""The checks of tools/test on the desk that `serve` opens: entries that it takes, its end, and what keeps it from being opened."""

import contextlib
import http.client
import itertools
import os
import re
import signal
import socket
import sqlite3
import subprocess
import time

import stand_in_desk
from check_keys import ENTRY_LINE, KEY_LINE, line_of
from checking import PROGRAM, TOP, ZEROS, Failure, in_this_run, run, want, want_run
from made_databases import SCHEMA, TABLES
from rows_objects import object_id

GUARDED = os.path.join(TOP, "examples", "guarded.stream")
MAIN = "refs/heads/main"
TRIES = 2000
# The most bytes of a stream that a desk gives, and those of most blobs of a long one.
MOST_BYTES, BLOB_BYTES = 268_435_456, 8_388_608


def free_port():
    with socket.socket() as listener:
        listener.bind(("127.0.0.1", 0))
        return listener.getsockname()[1]


def ask(port, method, path, body=None):
    """The code and the body of a reply."""
    connection = http.client.HTTPConnection("127.0.0.1", port, timeout=60)
    try:
        connection.request(method, path, body)
        reply = connection.getresponse()
        return reply.status, reply.read()
    finally:
        connection.close()


def tip_of(port):
    code, body = ask(port, "GET", "/v1/tip")
    want(code, 200, "the code of the tip")
    return body


def push(port, text):
    return ask(port, "POST", "/v1/push", text)


@contextlib.contextmanager
def desk(store, workers=2, connections=100_000, gate=False):
    """A desk or a gate over a store, by its process and its port, once a connection to it comes about."""
    port = free_port()
    words = (PROGRAM, store, "-", "serve", str(port), str(workers), str(connections), *["--gate"] * gate)
    with opened(words, port) as ran:
        yield ran, port


@contextlib.contextmanager
def opened(words, port, folder=None):
    """The process of words that open a desk at a port, once it listens."""
    with subprocess.Popen(words, cwd=folder, stdin=subprocess.DEVNULL, stdout=subprocess.PIPE, stderr=subprocess.PIPE) as ran:
        try:
            ready = ran.stdout.readline()
            if not (ready.startswith(b"ready ") and ready.endswith(b" entries\n")):
                raise Failure(f"serve printed {ready!r}, and said {ran.stderr.read()!r}")
            wait_for_listener(port, ran)
            yield ran
        finally:
            ran.kill()


def wait_for_listener(port, ran):
    # A connection that is not used is one of those that a worker serves. In the table those that listen stand first.
    for _ in range(TRIES):
        with open("/proc/net/tcp", encoding="ascii") as table:
            next(table)
            if any(f":{port:04X} 00000000:0000 0A" in line for line in itertools.takewhile(lambda it: " 00000000:0000 0A " in it, table)):
                return
        if ran.poll() is not None:
            break
        time.sleep(0.01)
    raise Failure(f"nothing listens at {port}")


def imported(place, stream):
    want_run((PROGRAM, place, "-", "import"), 0, b"imported\n", input=stream)


def exported(place):
    status, stream, errors = run(PROGRAM, place, "-", "export")
    want((status, errors), (0, b""), "the status and errors of export")
    return stream


def guarded():
    with open(GUARDED, "rb") as file:
        return file.read()


def objects_in(stream):
    """The objects of a stream by their ids."""
    found, at = {}, len(b"gittuf-stream 1\n")
    while it := stand_in_desk.OBJECT.match(stream, at):
        found[it[1]] = (it[2], stream[it.end() : it.end() + int(it[3])])
        at = it.end() + int(it[3]) + 1
    return found


def push_text(objects, entry):
    records = (b"object %s %s %d\n%s\n" % (id, *(objects[id][0], len(objects[id][1]), objects[id][1])) for id in sorted(objects))
    return stand_in_desk.HEADER + b"".join(records) + b"entry %s\n" % entry + stand_in_desk.END


def entry_more(repositories, name, stream, key):
    """The text of a push of one entry more on the log of a stream, with its number, its id, and the stream with it."""
    place = repositories.path(name)
    imported(place, stream)
    found = line_of(ENTRY_LINE, (PROGRAM, place, key, "record", MAIN))
    after = exported(place)
    before = objects_in(stream)
    new = {id: it for id, it in objects_in(after).items() if id not in before}
    want([object_id(*it).encode() for it in new.values()], [*new], "the ids of what is new")
    return push_text(new, found[2]), int(found[1]), found[2], after


def made_key(repositories, name):
    key = repositories.path(name)
    line_of(KEY_LINE, (PROGRAM, "-", key, "key-gen", "5", "8"))
    return key


def line_of_log(place):
    """How many entries the log of a store has, and the id of the last."""
    lines = run(PROGRAM, place, "-", "log")[1].splitlines()
    return len(lines), lines[-1].split()[2] if lines else ZEROS.encode()


def takes_an_entry_once(repositories):
    """an entry that goes on from the last one is taken, once, is in the store, and another one of its number is stale"""
    key = made_key(repositories, "once-desk.key")
    for name in ("once.db", "once/"):
        place = repositories.path("") + name
        imported(place, guarded())
        text, number, entry, after = entry_more(repositories, f"more of {name.strip('/')}.db", guarded(), key)
        other = entry_more(repositories, f"other of {name.strip('/')}.db", guarded(), key)[0]
        with desk(place) as (ran, port):
            want(push(port, text), (201, b"done %d %s\n" % (number, entry)), "the reply to the entry")
            want(push(port, text), (200, b"already %d\n" % number), "the reply to it once more")
            want(push(port, other), (409, b"stale %d %s\n" % (number, entry)), "the reply to another one of its number")
            want(tip_of(port), b"tip %d %s\n" % (number, entry), "the tip")
            want(ask(port, "GET", "/v1/stream"), (200, after), "the stream")
            line = run(PROGRAM, "-", "-", "verify-ref", MAIN, "--stdin", input=after)[1]
            want(ask(port, "GET", f"/v1/verify/{MAIN}"), (200, line), "the verdict")
            want_run((PROGRAM, place, "-", "verify-ref", MAIN), 4, b"", b"fault\n")
            ran.send_signal(signal.SIGKILL)
        # Whoever may change the store next takes over what the desk left, and is refused here, since the store is not empty.
        want_run((PROGRAM, place, "-", "import"), 3, b"", b"stream 8\n")
        want(exported(place), after, "what the store has after the desk was killed")


def ends_after_its_connections(repositories):
    """a desk whose workers have served their connections ends with 0, and leaves its store to others"""
    for name in ("ends.db", "ends/"):
        place = repositories.path("") + name
        imported(place, guarded())
        with desk(place, 1, 3) as (ran, port):
            for path, code in (("/v1/tip", 200), ("/v1/nothing", 404), ("/v1/push", 405)):
                want(ask(port, "GET", path)[0], code, f"the code of {path}")
            want(ran.wait(60), 0, "the status of serve")
        want(exported(place), guarded(), "what the store has then")


def is_refused_a_port(repositories):
    """a port that another program has is a fault, words outside the limits are refused, and a broken log is named"""
    place = repositories.path("ports.db")
    imported(place, guarded())
    with socket.socket() as listener:
        listener.bind(("127.0.0.1", 0))
        listener.listen()
        port = str(listener.getsockname()[1])
        want_run((PROGRAM, place, "-", "serve", port, "1", "1"), 4, b"ready %d entries\n" % line_of_log(place)[0], b"fault\n")
    for words in (("0", "1", "1"), ("65536", "1", "1"), ("1", "0", "1"), ("1", "65", "1"), ("1", "1", "0"), ("1", "1", "1000001"), ("1", "1")):
        want_run((PROGRAM, place, "-", "serve", *words), 2, b"", b"words refused\n")


def listens_at_a_low_port(repositories):
    """a desk listens at the port that it is given, where that is far below those that the system hands out, too"""
    place = repositories.path("low.db")
    imported(place, guarded())
    for port in range(1025, 8080):
        with contextlib.suppress(OSError), socket.socket() as listener:
            listener.bind(("127.0.0.1", port))
            break
    number, tip = line_of_log(place)
    with opened((PROGRAM, place, "-", "serve", str(port), "1", "100"), port):
        want(tip_of(port), b"tip %d %s\n" % (number, tip), "the tip")


def takes_what_push_sends(repositories):
    """`push` sends a desk each entry of a store's log with what it needs, is told what became of it, and where there is no desk"""
    key = made_key(repositories, "sending.key")
    _, number, entry, after = entry_more(repositories, "sending.db", guarded(), key)
    other = entry_more(repositories, "other sending.db", guarded(), key)[2]
    source, place = repositories.path("sending.db"), repositories.path("sent-to.db")
    send = lambda store, port, it: (PROGRAM, store, "-", "push", str(port), str(it))
    with desk(place) as (_, port):
        for it, id in enumerate(re.findall(rb"entry \d+ ([0-9a-f]{64})", run(PROGRAM, source, "-", "log")[1]), 1):
            want_run(send(source, port, it), 0, b"done %d %s\n" % (it, id))
        want_run(send(source, port, number), 0, b"already %d\n" % number)
        stale = b"stale %d %s\n" % (number, entry)
        want_run(send(repositories.path("other sending.db"), port, number), 7, stale, b"desk refused\n")
        want(tip_of(port), b"tip %d %s\n" % (number, entry), f"the tip, which is not {other.decode()}")
        want_run(send(source, port, number + 1), 3, b"", b"input\n")
    reached = exported(place)
    want([it for it in objects_in(reached) if it not in objects_in(after)], [], "what the desk has beside the store")
    want(run(PROGRAM, place, "-", "verify-ref", MAIN), run(PROGRAM, source, "-", "verify-ref", MAIN), "the verdict there")
    want_run(send(source, free_port(), 1), 4, b"", b"fault\n")


def blob_line(size):
    return b"object %s blob %d\n" % (ZEROS.encode(), size)


def sizes_of_blobs(size):
    """The numbers and sizes of blobs that have a stream of so many bytes, which has nothing else."""
    left, number = size - len(b"gittuf-stream 1\nend\n"), 0
    while left:
        # Behind a body stands a line feed. What is left is not so little that its number of digits decides.
        most = left - len(blob_line(left)) - 1
        count = BLOB_BYTES if most > 2 * BLOB_BYTES else most
        left, number = left - len(blob_line(count)) - count - 1, number + 1
        yield number, count


def numbered_blob(number, count):
    """The blob of a number, of so many bytes, and its id."""
    body = (b"%d\n" % number).ljust(count, b"x")
    return object_id(b"blob", body), body


def gives_a_long_stream(repositories):
    """a desk gives a stream of 256 MiB, and says of one that has a byte more that it is too large (with --long; else one of 1 MiB)"""
    for size in in_this_run((1 << 20,), (MOST_BYTES, MOST_BYTES + 1)):
        place = repositories.path(f"{size} bytes.db")
        with contextlib.closing(sqlite3.connect(place)) as database:
            database.executescript(TABLES + SCHEMA)
            blobs = (numbered_blob(*it) for it in sizes_of_blobs(size))
            database.executemany("INSERT INTO objects VALUES (?, 1, ?)", ((bytes.fromhex(id), body) for id, body in blobs))
            database.commit()
        with desk(place) as (_, port):
            code, body = ask(port, "GET", "/v1/stream")
        found = (code, len(body), body[:16]) if code == 200 else (code, body)
        wanted = (200, size, b"gittuf-stream 1\n") if size <= MOST_BYTES else (413, b"too large %d\n" % MOST_BYTES)
        want(found, wanted, f"what is given of a stream of {size} bytes")


def names_what_is_damaged(repositories):
    """a desk over a database in which an object is kept under another's id names that id where its stream is asked for, and gives none"""
    place, body = repositories.path("damaged.db"), b"kept\n"
    id = object_id(b"blob", b"another\n")
    with contextlib.closing(sqlite3.connect(place)) as database:
        database.executescript(TABLES + SCHEMA)
        database.execute("INSERT INTO objects VALUES (?, 1, ?)", (bytes.fromhex(id), body))
        database.commit()
    with desk(place) as (_, port):
        want(ask(port, "GET", "/v1/stream"), (422, f"incomplete {id}\n".encode()), "what is given of a stream with it")


CHECKS = (
    takes_an_entry_once,
    listens_at_a_low_port,
    takes_what_push_sends,
    ends_after_its_connections,
    is_refused_a_port,
    gives_a_long_stream,
    names_what_is_damaged,
)
