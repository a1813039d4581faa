"""The store as a database, as docs/FORMATS.md has it: one file, in which a change is whole or not at all.

The program and this read and write it by turns, each with nobody beside. Python has the library that this is read with.
"""

import contextlib
import os

import stream_format
from git_gittuf import program
from git_gittuf.files import remove_tree, row_of, write_out
from git_gittuf.kept import Kept
from git_gittuf.repository import Stopped
from stream_format import END, HEADER

KINDS = (b"blob", b"tree", b"commit", b"tag")
# What the program makes, and by which row it knows it.
TABLES, SCHEMA = {"objects", "refs", "facts"}, [("schema", 1)]
# So many bytes has an id.
ID = 32
# What is said of an error of the library, by a word of it; any other is of the file.
WAYS = {"locked": "another program has it open: wait for it", "full": "make room on the disk"}


class Unusable(Stopped):
    """What the library said of the file, and whether that is what is wrong."""

    def __init__(self, said, is_damaged):
        super().__init__(said)
        self.is_damaged = is_damaged


class Database(Kept):
    KIND, IS_SHARED = "database", False

    def __init__(self, folder):
        super().__init__(folder)
        self.place, self.made = (os.path.join(folder, it) for it in ("kept.db", "beside.db"))
        # The library, and the file once it is open.
        self.library, self.connection = None, None

    def opened_file(self):
        if self.connection is None:
            # Few stores want it, and it takes long to load.
            import sqlite3

            self.library = sqlite3
            if not self.is_there():
                raise Stopped(f"the store {self.place} is not there any more: run it again")
            self.connection = sqlite3.connect(self.place, isolation_level=None)
            # Nobody may come in between, and no file is needed by which others would know of it.
            self.connection.execute("PRAGMA locking_mode=EXCLUSIVE")
        return self.connection

    def ask(self, text, *values):
        """The rows that the library answers."""
        try:
            return self.opened_file().execute(text, values).fetchall()
        except self.library.Error as why:
            way = next((says for word, says in WAYS.items() if word in str(why)), "git gittuf setup --anew makes it again")
            # What is outside of the file, as a lock or a disk that is full, is an error of another kind.
            is_damaged = not isinstance(why, self.library.OperationalError)
            raise Unusable(f"the store {self.place} cannot be used, {why}: {way}", is_damaged) from None

    def let_go(self):
        """Closes the file, after which all of it is in the one file."""
        if self.connection is not None:
            self.connection.close()
            self.connection = None

    def for_program(self):
        self.let_go()
        return self.place

    def can_be_read(self):
        """Whether the file is a database of this kind, with what it wants to be read at all."""
        try:
            tables = {name for name, in self.ask("SELECT name FROM sqlite_master WHERE type = 'table'")}
            return tables == TABLES and self.ask("SELECT name, value FROM facts") == SCHEMA
        except Unusable as why:
            self.let_go()
            if not why.is_damaged:
                raise
            return False

    def rows(self):
        """The file, which has another time after each change of an object or a reference."""
        self.let_go()
        return [row_of(self.place)]

    def new_place(self):
        for it in ("", "-wal", "-shm"):
            remove_tree(self.made + it)
        return self.made

    def take_place(self):
        self.let_go()
        made = Database(self.beside)
        made.place = self.made
        # What is in its log is put into the one file.
        made.ask("PRAGMA wal_checkpoint(TRUNCATE)")
        made.let_go()
        for it in ("-wal", "-shm"):
            # That of an earlier one would be taken for its own.
            remove_tree(self.made + it)
            remove_tree(self.place + it)
        os.rename(self.made, self.place)
        write_out(self.beside)
        self.changes += 1

    def make(self):
        self.changes += 1
        self.tidy()
        # One in a folder is what a move was stopped at.
        remove_tree(self.folder)
        if not self.is_there():
            self.remove()

    def is_there(self):
        return os.path.isfile(self.place)

    def marks(self):
        """A change is one transaction, and leaves none."""
        return set()

    def unmark(self):
        """There are none."""

    def remove(self):
        """Puts an empty one into its place, so that it stays known that it is to be a database."""
        place = self.new_place()
        status, printed, said = program.told(place, "-", "import", input=HEADER + END)
        if status:
            raise Stopped(f"no store is made at {place}: {printed.decode()}{said}")
        self.take_place()
        self.mark_small()

    def leave(self):
        """Takes it away, where another store is there."""
        self.let_go()
        os.remove(self.place)
        for it in ("-wal", "-shm"):
            remove_tree(self.place + it)

    def list_references(self):
        found = {}
        for name, value in self.ask("SELECT name, id FROM refs"):
            if stream_format.is_reference_name(name):
                found[name] = value.hex().encode() if len(value) == ID else None
        return found

    def has(self, object_id):
        return bool(self.ask("SELECT 1 FROM objects WHERE id = ?", bytes.fromhex(object_id.decode())))

    def text_of(self, object_id):
        for kind, body in self.ask("SELECT kind, body FROM objects WHERE id = ?", bytes.fromhex(object_id.decode())):
            return (KINDS[kind - 1] if 0 < kind <= len(KINDS) else b""), body
        return None

    def is_all_sound(self):
        try:
            if not self.can_be_read() or self.ask("PRAGMA integrity_check") != [("ok",)]:
                return False
            names = {name for name, in self.ask("SELECT name FROM refs")}
            objects = [it.hex().encode() for it, in self.ask("SELECT id FROM objects")]
        except Unusable as why:
            if not why.is_damaged:
                raise
            return False
        return names == {it for it, value in self.list_references().items() if value} and all(map(self.is_sound, objects))

    def put(self, object_id, kind, body):
        self.changes += 1
        self.tried.add(object_id)
        row = (bytes.fromhex(object_id.decode()), KINDS.index(kind) + 1, body)
        self.ask("INSERT OR REPLACE INTO objects VALUES (?, ?, ?)", *row)

    def take_out(self, object_id):
        self.changes += 1
        self.tried.discard(object_id)
        self.ask("DELETE FROM objects WHERE id = ?", bytes.fromhex(object_id.decode()))

    def write_out(self):
        """A transaction that ended stands on the disk."""

    @contextlib.contextmanager
    def opened(self):
        """Makes one transaction of what is done meanwhile."""
        self.ask("BEGIN IMMEDIATE")
        try:
            yield
            self.ask("COMMIT")
        except BaseException:
            self.changes += 1
            # An open transaction goes with it.
            self.let_go()
            raise

    def set_references(self, held, wanted):
        self.moves += 1
        for name in held.keys() - wanted.keys():
            self.ask("DELETE FROM refs WHERE name = ?", name)
        for name, value in wanted.items():
            if held.get(name) != value:
                self.ask("INSERT OR REPLACE INTO refs VALUES (?, ?)", name, bytes.fromhex(value.decode()))
