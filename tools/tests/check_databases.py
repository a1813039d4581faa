"""The checks of tools/test on stores in database files, which the C library reads and writes beside the program."""

import os
import random
import shutil
import subprocess
import tempfile

import rows_of_entries
from check_locks import wait_for
from check_serving import objects_in
from checking import PROGRAM, run, want, want_run
from made_databases import ASKED, FAULT, KINDS, SCHEMA, TABLES, big_stream, bytes_of, change, command, is_refused, is_sound, locked, rows_of
from made_databases import small_database, small_objects
from made_folders import END, HEADER, IMPORTED
from made_folders import command as folder_command

JUDGED = rows_of_entries.ROWS[:8]
# Who is nobody on every system, for what the owner of all files may do anyway.
NOBODY = 65534


def holds_what_came(repositories):
    """a database gives back the stream that it took, as a folder does, and the C library reads the rows that are told"""
    objects, whole = small_objects()
    place, _ = small_database(repositories, "whole.db")
    folder = repositories.path("whole")
    want_run(folder_command(folder, "import"), 0, IMPORTED, input=whole)
    for words in (command(place, "export"), folder_command(folder, "export")):
        want_run(words, 0, whole)
    want_run(command(place, "import"), 3, b"", b"stream 8\n", input=whole)
    is_sound(place)
    rows = [(bytes.fromhex(id), 1, text.partition(b"\0")[2]) for id, text in objects]
    want(rows_of(place, "SELECT id, kind, body FROM objects ORDER BY id"), rows, "the rows of objects")
    want(rows_of(place, "SELECT name, id FROM refs"), [(b"refs/heads/main", rows[1][0])], "the rows of references")
    want(rows_of(place, "SELECT name, value FROM facts"), [("schema", 1)], "the facts")


def goes_between(repositories):
    """a repository goes from Git into a database, a folder and back with the same bytes, each kind of object among them"""
    repositories.needed()
    stream = repositories.stream_of()
    first, folder, second = (repositories.path(it) for it in ("first.db", "between", "second.db"))
    want_run(command(first, "import"), 0, IMPORTED, input=stream)
    want_run(folder_command(folder, "import"), 0, IMPORTED, input=run(*command(first, "export"))[1])
    want_run(command(second, "import"), 0, IMPORTED, input=run(*folder_command(folder, "export"))[1])
    want_run(command(second, "export"), 0, stream)
    for place in (first, second):
        is_sound(place)
    wanted = sorted((bytes.fromhex(id.decode()), KINDS[kind]) for id, (kind, _) in objects_in(stream).items())
    want(rows_of(second, "SELECT id, kind FROM objects ORDER BY id"), wanted, "the kind of each object")
    want(len({kind for _, kind in wanted}) > 2, True, "whether there are enough kinds")


def judges_alike(repositories):
    """a database gives the verdict and the log that the stream itself gives, in histories with policies, approvals and skips"""
    reference = "refs/heads/main"
    for row in JUDGED:
        stream = row()[0].repository.stream()
        stream = stream if isinstance(stream, bytes) else stream.encode()
        place = repositories.path(f"{row.__name__}.db")
        want_run(command(place, "import"), 0, IMPORTED, input=stream)
        told = run(PROGRAM, "-", "-", "verify-ref", reference, "--stdin", input=stream)
        want(told[0] < 2, True, f"whether {row.__name__} is judged")
        want_run(command(place, "verify-ref", reference), *told)
        want_run(command(place, "export"), 0, stream)


def takes_rows_of_others(repositories):
    """rows that the C library put into the tables are the store's, and an empty database gets the tables, of no byte or one too"""
    objects, whole = small_objects()
    place = repositories.path("of others.db")
    rows = [("INSERT INTO objects VALUES (?, 1, ?)", (bytes.fromhex(id), text.partition(b"\0")[2])) for id, text in reversed(objects)]
    named = ("INSERT INTO refs VALUES (?, ?)", (b"refs/heads/main", bytes.fromhex(objects[1][0])))
    change(place, TABLES, SCHEMA, *rows, named)
    want_run(command(place, "export"), 0, whole)
    empty = repositories.path("empty.db")
    change(empty, "VACUUM")
    want_run(command(empty, "import"), 0, IMPORTED, input=whole)
    want_run(command(empty, "export"), 0, whole)
    for text in (b"", b"x"):
        nothing = repositories.path(f"{len(text)} bytes.db")
        with open(nothing, "wb") as file:
            file.write(text)
        want_run(command(nothing, "export"), 0, HEADER + END)
        is_sound(nothing)


def tells_another_schema(repositories):
    """a database of another schema is refused with its number, with 0 where no row names one, and not written to"""
    for number in (0, 2, 9, -1, (1 << 63) - 1):
        place = repositories.path(f"schema {number}.db")
        change(place, TABLES, ("INSERT INTO facts VALUES ('schema', ?)", (number,)))
        is_refused(place, 3, b"schema %d\n" % number)
    for name, row in (("no row", "SELECT 1"), ("another row", "INSERT INTO facts VALUES ('Schema', 1)")):
        place = repositories.path(f"{name}.db")
        change(place, TABLES, row)
        is_refused(place, 3, b"schema 0\n")


def tells_foreign_tables(repositories):
    """a database with other tables or a view alone is a fault, no stream comes of it, and it is not written to"""
    foreign = {
        "others": "CREATE TABLE notes (text TEXT); INSERT INTO notes VALUES ('mine')",
        "a view": "CREATE VIEW facts AS SELECT 'schema' AS name, 1 AS value",
        "no number": TABLES.replace("value INTEGER", "value TEXT") + "INSERT INTO facts VALUES ('schema', 'one')",
        "other columns": "CREATE TABLE facts (key TEXT PRIMARY KEY, number INTEGER)",
    }
    for name, made in foreign.items():
        place = repositories.path(f"{name}.db")
        change(place, made)
        before = bytes_of(place)
        for words in (*ASKED, ("import",)):
            status, output, errors = run(*command(place, *words), input=HEADER + END)
            want((status, errors), (4, FAULT), f"the status and errors of {words[0]} over {name}")
            want(output in (b"", HEADER), True, f"whether {output!r} is no answer")
            want(bytes_of(place), before, "the bytes of a database that was not to change")


def holds_its_own_beside_others(repositories):
    """a database that somebody gave an index, a table or a view more takes, judges and gives back what is its own"""
    more = {
        "an index": "CREATE INDEX by_kind ON objects (kind)",
        "a table": "CREATE TABLE notes (text TEXT); INSERT INTO notes VALUES ('mine')",
        "a view": "CREATE VIEW bodies AS SELECT id, body FROM objects",
    }
    row, reference = JUDGED[-1], "refs/heads/main"
    stream = row()[0].repository.stream()
    stream = stream if isinstance(stream, bytes) else stream.encode()
    told = run(PROGRAM, "-", "-", "verify-ref", reference, "--stdin", input=stream)
    for name, made in more.items():
        place = repositories.path(f"{name} more.db")
        change(place, TABLES, SCHEMA, made)
        want_run(command(place, "import"), 0, IMPORTED, input=stream)
        is_sound(place)
        want_run(command(place, "verify-ref", reference), *told)
        want_run(command(place, "export"), 0, stream)
        want(rows_of(place, "SELECT count(*) FROM objects")[0][0], stream.count(b"\nobject "), f"the rows of objects beside {name}")


def tells_no_database(repositories):
    """a file that is no database, or a part of one, is a fault, and not written to; a folder and nothing are, too"""
    _, whole = small_database(repositories, "to cut.db")
    database = bytes_of(repositories.path("to cut.db"))
    drawn = random.Random(31)
    texts = [b"xx", b"no database\n" * 1000, whole, b"SQLite format 3\0", database[:100], database[:4096], database[:-1]]
    texts += [database[: drawn.randrange(1, len(database))] for _ in range(6)]
    texts += [b"sqlite" + database[6:], bytes(len(database))]
    for number, text in enumerate(texts):
        place = repositories.path(f"no database {number}")
        with open(place, "wb") as file:
            file.write(text)
        is_refused(place)
    for words in ASKED:
        want_run(command(repositories.path("nowhere.db"), *words), 4, b"", FAULT)
        want_run(command(repositories.folder, *words), 4, b"", FAULT)
        want_run(command(repositories.path("no folder/kept.db"), *words), 4, b"", FAULT)
    want(os.path.exists(repositories.path("nowhere.db")), False, "whether a database was made to be read")


def tells_rows_of_nothing(repositories):
    """a row that stands for nothing is a fault where a command meets it, and the store is whole once it is gone"""
    place, whole = small_database(repositories, "rows.db")
    objects, _ = small_objects()
    first = bytes.fromhex(objects[1][0])
    rows = {
        "a short id": ("objects", (first[:31], 1, b"x")),
        "a long id": ("objects", (first + b"\0", 1, b"x")),
        "kind 0": ("objects", (b"\xff" * 32, 0, b"x")),
        "kind 5": ("objects", (b"\xff" * 32, 5, b"x")),
        "a kind far off": ("objects", (b"\xff" * 32, 1 << 32 | 1, b"x")),
        "two dots": ("refs", (b"refs/heads/a..b", first)),
        "no reference": ("refs", (b"main", first)),
        "a long name": ("refs", (b"refs/heads/" + b"n" * 300, first)),
        "a short value": ("refs", (b"refs/heads/other", first[:31])),
        "a long value": ("refs", (b"refs/heads/other", first + b"\0")),
    }
    for name, (table, row) in rows.items():
        change(place, (f"INSERT INTO {table} VALUES ({', '.join('?' * len(row))})", row))
        status, output, errors = run(*command(place, "export"))
        want((status, errors), (4, FAULT), f"the status and errors of export with {name}")
        want(output.endswith(END), False, f"whether the stream with {name} is whole")
        change(place, (f"DELETE FROM {table} WHERE {'name' if table == 'refs' else 'id'} = ?", (row[0],)))
        want_run(command(place, "export"), 0, whole)
    # No command asks for what stands under no byte.
    change(place, ("INSERT INTO objects VALUES (?, 1, ?)", (b"", b"x")), ("INSERT INTO refs VALUES (?, ?)", (b"", first)))
    want_run(command(place, "export"), 0, whole)
    is_sound(place)


def slow_import(place, stream):
    """An import that has the database open and waits for the rest of its stream, and what it still wants."""
    pipe = subprocess.PIPE
    process = subprocess.Popen(command(place, "import"), bufsize=0, stdin=pipe, stdout=pipe, stderr=pipe)
    process.stdin.write(stream[: len(stream) // 2])
    # The file is locked before its log is made.
    wait_for(f"{place}-wal")
    return process, stream[len(stream) // 2 :]


def is_one_at_a_time(repositories):
    """a database that another process has open is a fault, and the first one's change is whole"""
    _, whole = small_objects()
    for turn in range(3):
        place = repositories.path(f"two at once {turn}.db")
        change(place, TABLES, SCHEMA)
        process, rest = slow_import(place, whole)
        want_run(command(place, "import"), 4, b"", FAULT, input=whole)
        want_run(command(place, "export"), 4, b"", FAULT)
        output, errors = process.communicate(rest, timeout=60)
        want((process.returncode, output, errors), (0, IMPORTED, b""), "what the first import answers")
        want_run(command(place, "export"), 0, whole)
    place, _ = small_database(repositories, "held.db")
    for how in ("IMMEDIATE", "EXCLUSIVE"):
        # To open the file here as well would end the lock.
        with locked(place, how):
            for words in (*ASKED, ("import",)):
                want_run(command(place, *words), 4, b"", FAULT, input=whole)
    want_run(command(place, "export"), 0, whole)


def as_nobody(*words, input=b""):
    """What a program answers where nobody runs it who may do all."""
    who = {"user": NOBODY, "group": NOBODY, "extra_groups": []} if os.geteuid() == 0 else {}
    ran = subprocess.run(words, input=input, capture_output=True, check=False, timeout=60, **who)
    return ran.returncode, ran.stdout, ran.stderr


def open_folder(name):
    """A folder that everybody may read and enter."""
    folder = tempfile.mkdtemp(prefix=f"gittuf-{name}-", dir="/tmp")
    os.chmod(folder, 0o755)
    return folder


def tells_what_may_not_be_written(repositories):
    """a file or a folder that may not be written is a fault, for a command that only reads too, and stays as it is"""
    place, whole = small_database(repositories, "closed.db")
    folder = open_folder("closed")
    try:
        program = shutil.copy(PROGRAM, os.path.join(folder, "gittuf"))
        inside = shutil.copy(place, os.path.join(folder, "kept.db"))
        before = bytes_of(inside)
        for mode, at in ((0o444, inside), (0o000, inside), (0o555, folder)):
            kept = os.stat(at).st_mode
            os.chmod(at, mode)
            for words in (*ASKED, ("import",)):
                want(as_nobody(program, inside, "-", *words, input=whole), (4, b"", FAULT), f"what {words[0]} answers")
            want(as_nobody(program, os.path.join(folder, "new.db"), "-", "import", input=whole), (4, b"", FAULT), "what import answers")
            os.chmod(at, kept)
        want(bytes_of(inside), before, "the bytes of the database")
        want(sorted(os.listdir(folder)), ["gittuf", "kept.db"], "what is in the folder")
    finally:
        shutil.rmtree(folder)


def tells_no_room(repositories):
    """a file that cannot grow is a fault, and what the store had is there afterwards"""
    place, whole = small_database(repositories, "no room.db")
    key = repositories.path("key")
    want(run(PROGRAM, "-", key, "key-gen", "5", "8")[0], 0, "the status of key-gen")
    limited = ("sh", "-c", 'trap "" XFSZ; ulimit -f "$0"; exec "$@"')
    for blocks in (0, 1, 8, 16):
        words = (*limited, str(blocks), PROGRAM, place, key, "record", "refs/heads/main")
        status, _, errors = run(*words)
        want((status, errors), (4, FAULT), f"the status and errors of record with {blocks} blocks of room")
        want_run(command(place, "export"), 0, whole)
    other = repositories.path("no room at first.db")
    want_run((*limited, "16", *command(other, "import")), 4, b"", FAULT, input=big_stream())
    status, output, errors = run(*command(other, "export"))
    want((status, output, errors) in ((0, HEADER + END, b""), (4, b"", FAULT)), True, "whether nothing is there")


CHECKS = (
    holds_what_came,
    goes_between,
    judges_alike,
    takes_rows_of_others,
    holds_its_own_beside_others,
    tells_another_schema,
    tells_foreign_tables,
    tells_no_database,
    tells_rows_of_nothing,
    is_one_at_a_time,
    tells_what_may_not_be_written,
    tells_no_room,
)
