"""The checks of tools/test on what is as large as it may be and a little larger: a log, the listing of a snapshot, a stream."""

import contextlib
import sqlite3
import subprocess

from check_keys import ENTRY_LINE, KEY_LINE, line_of
from check_serving import numbered_blob, sizes_of_blobs
from check_snapshots import COMMIT_LINE, listing_of
from checking import PROGRAM, in_this_run, run, want
from made_databases import KINDS, SCHEMA, TABLES, command
from made_folders import END, HEADER, IMPORTED
from rows_histories import LOG, MAIN
from rows_objects import AUTHOR, EMPTY_TREE, object_id

# A log has so many entries at most, a listing so many rows, and so many bytes of paths, and a stream so many bytes.
MOST_ENTRIES, MOST_ROWS, MOST_PATH_BYTES, MOST_BYTES = 1_000_000, 262_144, 67_108_864, 1 << 30
# A command over a log of that length may take so long.
LONG_SECONDS = 900
TARGET = object_id(b"blob", b"target\n")


def entries_of_a_log(count, ids):
    """The rows of so many entries, none of them signed; the id of the last is added to a list."""
    parent = ""
    for number in range(1, count + 1):
        head = f"tree {EMPTY_TREE}\n{parent}author {AUTHOR.decode()}\ncommitter {AUTHOR.decode()}\n"
        body = f"{head}\nRSL Reference Entry\n\nref: {MAIN}\ntargetID: {TARGET}\nnumber: {number}\n".encode()
        id = object_id(b"commit", body)
        parent = f"parent {id}\n"
        if number == count:
            ids.append(id)
        yield bytes.fromhex(id), KINDS[b"commit"], body


def takes_the_last_entry(repositories):
    """`record` takes the 1,000,000th entry of a log, and no entry more (with --long; else the 1,000th, and one more)"""
    place, key, ids = repositories.path("longest.db"), repositories.path("longest.key"), []
    line_of(KEY_LINE, (PROGRAM, "-", key, "key-gen", "5", "8"))
    count = in_this_run(1_000, MOST_ENTRIES)
    with contextlib.closing(sqlite3.connect(place)) as database:
        database.executescript(TABLES + SCHEMA)
        database.executemany("INSERT INTO objects VALUES (?, ?, ?)", entries_of_a_log(count - 1, ids))
        for name, id in ((LOG, ids[0]), (MAIN, TARGET)):
            database.execute("INSERT INTO refs VALUES (?, ?)", (name.encode(), bytes.fromhex(id)))
        database.commit()
    words = (PROGRAM, place, key, "record", MAIN)
    for number in (count, count + 1):
        status, output, errors = run(*words, seconds=LONG_SECONDS)
        if number > MOST_ENTRIES:
            want((status, output, errors), (3, b"", b"too large\n"), f"what is said of entry {number}")
        else:
            found = ENTRY_LINE.fullmatch(output)
            want((status, errors, found and int(found[1])), (0, b"", number), f"what is said of entry {number}")


def listed(count, length):
    """A listing of so many empty files, of which each path has so many bytes."""
    return listing_of((b"100644", (b"%03x/%03x" % divmod(it, 512)).ljust(length, b"x"), b"") for it in range(count))


def takes_so_many_rows(repositories):
    """`snapshot` takes 262,144 rows, and as many with 64 MiB of paths, and refuses a row or a byte more (with --long; else it takes 8,192)"""
    for count, length in in_this_run(((8_192, 7),), ((MOST_ROWS, 7), (MOST_ROWS, MOST_PATH_BYTES // MOST_ROWS))):
        place, listing = repositories.path(f"paths of {length} bytes.db"), listed(count, length)
        words = command(place, "snapshot", MAIN)
        status, output, errors = run(*words, input=listing, seconds=LONG_SECONDS)
        want((status, errors, bool(COMMIT_LINE.fullmatch(output))), (0, b"", True), f"what is said of {count} paths of {length} bytes")
        if count == MOST_ROWS:
            longer = listing.replace(b"x\n", b"xx\n", 1) if count * length == MOST_PATH_BYTES else listing + listing_of(((b"100644", b"one", b""),))
            want(run(*words, input=longer, seconds=LONG_SECONDS), (3, b"", b"input\n"), "what is said of more than that")


def takes_so_long_a_stream(repositories):
    """`import` takes a stream of 2^30 bytes, and refuses one that has a byte more as too large (with --long; else it takes one of 1 MiB)"""
    for size in in_this_run((1 << 20,), (MOST_BYTES, MOST_BYTES + 1)):
        place = repositories.path(f"{size} bytes of a stream")
        with open(place, "wb") as stream:
            stream.write(HEADER)
            for _, number, count in sorted((numbered_blob(*it)[0], *it) for it in sizes_of_blobs(size)):
                id, body = numbered_blob(number, count)
                stream.write(b"object %s blob %d\n%s\n" % (id.encode(), count, body))
            stream.write(END)
            want(stream.tell(), size, "the bytes of the stream")
        with open(place, "rb") as stream:
            ran = subprocess.run(command(f"{place}.db", "import"), stdin=stream, capture_output=True, timeout=LONG_SECONDS, check=False)
        wanted = (0, IMPORTED, b"") if size <= MOST_BYTES else (3, b"", b"stream 4\n")
        want((ran.returncode, ran.stdout, ran.stderr), wanted, f"what is said of a stream of {size} bytes")


CHECKS = (takes_the_last_entry, takes_so_many_rows, takes_so_long_a_stream)
