"""A store in a database file for the checks of tools/test: its rows, through the C library, and what is held of it."""

import contextlib
import os
import sqlite3

from checking import PROGRAM, want, want_run
from made_folders import END, HEADER, IMPORTED, object_file, stream_of

FAULT = b"fault\n"
# The number of each kind in the rows of objects.
KINDS = {b"blob": 1, b"tree": 2, b"commit": 3, b"tag": 4}
TABLES = """
CREATE TABLE objects (id BLOB NOT NULL PRIMARY KEY, kind INTEGER NOT NULL, body BLOB NOT NULL) STRICT;
CREATE TABLE refs (name BLOB NOT NULL PRIMARY KEY, id BLOB NOT NULL) STRICT;
CREATE TABLE facts (name TEXT NOT NULL PRIMARY KEY, value INTEGER NOT NULL) STRICT;
"""
# So many objects has a stream that takes a while.
BIG = 400
SCHEMA = "INSERT INTO facts (name, value) VALUES ('schema', 1)"
ASKED = (("export",), ("verify-ref", "refs/heads/main"))


def command(place, *words):
    """The words of a command over the store in this database file."""
    return (PROGRAM, place, "-", *words)


def rows_of(place, query):
    """What the C library answers."""
    with contextlib.closing(sqlite3.connect(place)) as database:
        return database.execute(query).fetchall()


def change(place, *statements):
    """Has the C library make a change, and close the file."""
    with contextlib.closing(sqlite3.connect(place)) as database:
        for it in statements:
            if isinstance(it, str):
                database.executescript(it)
            else:
                database.execute(*it)
        database.commit()


@contextlib.contextmanager
def locked(place, how):
    """While this lasts the C library holds the file."""
    with contextlib.closing(sqlite3.connect(place, isolation_level=None)) as database:
        database.execute(f"BEGIN {how}")
        yield
        database.execute("ROLLBACK")


def is_sound(place):
    """Holds a database to be one that the C library finds nothing wrong with."""
    want(rows_of(place, "PRAGMA integrity_check"), [("ok",)], f"what the C library finds in {os.path.basename(place)}")


def bytes_of(place):
    with open(place, "rb") as file:
        return file.read()


def big_stream(count=BIG, size=300):
    """A stream of so many blobs with a reference to the first."""
    objects = sorted(object_file(b"blob", b"%d " % it * (size // 4))[::-1] for it in range(count))
    return stream_of(objects, [(b"refs/heads/main", objects[0][0].encode())])


def small_objects():
    """Three objects by rising id, with the texts of their files, and a stream of them with a reference to the second."""
    objects = sorted(object_file(b"blob", b"body %d\n" % it)[::-1] for it in range(3))
    return objects, stream_of(objects, [(b"refs/heads/main", objects[1][0].encode())])


def small_database(repositories, name):
    """A new database with three objects and a reference to the second, and the stream of it."""
    place = repositories.path(name)
    _, whole = small_objects()
    want_run(command(place, "import"), 0, IMPORTED, input=whole)
    return place, whole


def is_refused(place, status=4, line=FAULT):
    """Holds each command over a file to a refusal that changes no byte of it."""
    before = bytes_of(place)
    for words in (*ASKED, ("import",)):
        want_run(command(place, *words), status, b"", line, input=HEADER + END)
        want(bytes_of(place), before, "the bytes of a file that was not to change")
