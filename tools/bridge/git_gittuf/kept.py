"""The store beside the repository's own objects: a kept folder as docs/FORMATS.md has it.

It belongs to git-gittuf, of which one run at a time works here, and to the program that such a run starts. What is put
in is first written beside the folder and then renamed into it, so no file in it is ever half written by this. In
`kept_database` the same is a database, and `stores` says which of them is there.
"""

import contextlib
import fcntl
import os
import re

import stream_format
from git_gittuf.files import remove_tree, rows_in, sync, write_out
from git_gittuf.repository import Stopped

VALUE = re.compile(rb"[0-9a-f]{64}\n")
# The marks of whoever may change a store, of a change, and of one that was about to begin.
MARKS = ("open.lock", "commit.lock", "commit.new")
# More new files than these are written out by one call for the whole file system, and not one by one.
FEW = 64


class Kept:
    # What such a store is called, and whether several programs may read it side by side.
    KIND, IS_SHARED = "folder", True

    def __init__(self, folder):
        self.beside = folder
        self.folder = self.place = os.path.join(folder, "kept")
        self.made = os.path.join(folder, "beside")
        self.objects = os.path.join(self.folder, "objects")
        self.small = os.path.join(folder, "small")
        self.trial = os.path.join(folder, "trial")
        self.added, self.tried = [], set()
        # How often something here was, or may have been, changed, and how often references alone; and these as they were then.
        self.changes, self.moves, self.listed = 0, 0, (None, {})
        # The files of its objects as they were looked at, but those that were changed here since.
        self.looked_at = {}

    def for_program(self):
        """The store as a word of the program, which nobody else has open then."""
        return f"{self.folder}/"

    def let_go(self):
        """Nothing is held open."""

    def can_be_read(self):
        """A file of a folder is read once it is asked for."""
        return True

    def rows(self):
        """What tells whether anything in it is another: the files of its objects, by their names.

        Each is looked at once, until somebody else may have changed it.
        """
        new, names = rows_in(self.objects, self.looked_at)
        there = {**self.looked_at, **new}
        self.looked_at = {it: there[it] for it in names}
        return sorted(self.looked_at.values())

    def may_differ(self):
        """Notes that others may have changed anything in it."""
        self.changes += 1
        self.looked_at = {}

    def new_place(self):
        """Where such a store is made beside before it is this one, as a word of the program."""
        remove_tree(self.made)
        return f"{self.made}/"

    def take_place(self):
        """Makes what was made beside this store, at once."""
        sync(self.made)
        remove_tree(self.folder)
        os.rename(self.made, self.folder)
        write_out(self.beside)
        self.may_differ()

    def tidy(self, *more):
        """Takes away what a call that was stopped left of other stores."""
        for it in ("removed", "beside", "beside.db", "beside.db-wal", "beside.db-shm", *more):
            remove_tree(os.path.join(self.beside, it))

    def mark_small(self):
        with open(self.small, "wb"):
            # That it is there is all that it says.
            pass

    def make(self):
        self.may_differ()
        self.tidy("kept.db-wal", "kept.db-shm")
        if not self.is_there():
            self.mark_small()
        for it in (self.objects, os.path.join(self.folder, "refs")):
            os.makedirs(it, exist_ok=True)

    def is_there(self):
        return os.path.isdir(self.objects)

    def is_whole(self):
        """Whether it is there, and no call that was stopped left anything to be mended."""
        return self.is_there() and self.can_be_read() and not self.marks() and not self.is_tried()

    def is_small(self):
        """Whether only what judging reads was put in, which earlier stores did not keep to."""
        return os.path.exists(self.small)

    def marks(self):
        return {it for it in MARKS if os.path.lexists(os.path.join(self.folder, it))}

    def unmark(self):
        for it in self.marks():
            os.remove(os.path.join(self.folder, it))

    def remove(self):
        """Takes the whole store away, and at once, so that no half of one is found."""
        self.may_differ()
        aside = os.path.join(self.beside, "removed")
        remove_tree(aside)
        if os.path.lexists(self.folder):
            os.rename(self.folder, aside)
        remove_tree(aside)

    def leave(self):
        """Takes it away, where another store is there."""
        self.remove()

    def references(self):
        """The names with their values, and None for a value that is none."""
        if self.listed[0] != (self.changes, self.moves):
            self.listed = (self.changes, self.moves), self.list_references()
        return dict(self.listed[1])

    def list_references(self):
        top, found = os.path.join(self.folder, "refs"), {}
        for at, _, files in os.walk(top):
            for file in files:
                path = os.path.join(at, file)
                name = os.fsencode(os.path.relpath(path, self.folder))
                if stream_format.is_reference_name(name):
                    with open(path, "rb") as it:
                        text = it.read(66)
                    found[name] = text[:-1] if VALUE.fullmatch(text) else None
        return found

    def has(self, object_id):
        return os.path.exists(os.path.join(self.objects, object_id.decode()))

    def is_sound(self, object_id):
        """Whether an object is here and is what its id says."""
        try:
            self.read(object_id)
        except (Stopped, OSError):
            return False
        return True

    def is_all_sound(self):
        """Whether each file of the store is what its name says."""
        try:
            return all(self.is_sound(os.fsencode(it)) for it in os.listdir(self.objects)) and None not in self.references().values()
        except OSError:
            return False

    def read(self, object_id):
        """The kind and body of an object, which has this id."""
        kept = self.text_of(object_id)
        if kept is None:
            raise Stopped(f"the store lacks the object {object_id.decode()}: git gittuf setup --anew makes it again")
        kind, body = kept
        found = stream_format.hash_of(kind, len(body))
        found.update(body)
        if found.hexdigest().encode() != object_id:
            raise Stopped(f"the store's object {object_id.decode()} is damaged: git gittuf setup --anew makes it again")
        return kind, body

    def text_of(self, object_id):
        """The kind and the body that are kept under an id, or nothing."""
        try:
            with open(os.path.join(self.objects, object_id.decode()), "rb") as file:
                head, _, body = file.read().partition(b"\0")
        except FileNotFoundError:
            return None
        kind = head.split(b" ")[0]
        # The program takes no other length.
        return kind if head == b"%s %d" % (kind, len(body)) else b"", body

    def write(self, path, text):
        beside = os.path.join(self.beside, "new")
        with open(beside, "wb") as file:
            file.write(text)
        os.rename(beside, path)
        self.added.append(path)

    def put(self, object_id, kind, body):
        self.changes += 1
        self.looked_at.pop(object_id.decode(), None)
        self.tried.add(object_id)
        self.write(os.path.join(self.objects, object_id.decode()), b"%s %d\0%s" % (kind, len(body), body))

    def take_out(self, object_id):
        """Removes an object again."""
        self.changes += 1
        self.looked_at.pop(object_id.decode(), None)
        self.tried.discard(object_id)
        os.remove(os.path.join(self.objects, object_id.decode()))

    def is_tried(self):
        """Whether a trial was stopped before its end, which may have left what Git has not."""
        return os.path.exists(self.trial)

    def end_trial(self):
        if self.is_tried():
            os.remove(self.trial)

    @contextlib.contextmanager
    def tried_out(self):
        """Takes all objects and references that are put in meanwhile away again. A stop in between leaves a mark of that."""
        held, self.tried = self.references(), set()
        with open(self.trial, "wb"):
            # That it is there is all that it says.
            pass
        try:
            yield
        finally:
            # Where a change of the references was not whole the mark stays, by which the store is made again.
            if "commit.lock" not in self.marks():
                with self.opened():
                    self.set_references(self.references(), held)
                    for it in list(self.tried):
                        self.take_out(it)
                self.end_trial()

    def write_out(self):
        """Waits until what was put in stands on the disk, before a reference says that it is there."""
        if len(self.added) <= FEW:
            for it in self.added:
                write_out(it)
        else:
            sync(self.folder)
        self.added = []

    def mark(self, name):
        """Makes a mark, and returns its open file."""
        try:
            return os.open(os.path.join(self.folder, name), os.O_CREAT | os.O_EXCL | os.O_WRONLY, 0o644)
        except FileExistsError:
            raise Stopped(f"another gittuf works in {self.folder}: wait for it, or see git gittuf doctor") from None

    @contextlib.contextmanager
    def opened(self):
        """Keeps others out while objects are put in, as each command does that may change the store."""
        held = self.mark("open.lock")
        try:
            # Without it the program would take the mark for one that a stop left. Not every file system has locks.
            with contextlib.suppress(OSError):
                fcntl.flock(held, fcntl.LOCK_EX | fcntl.LOCK_NB)
            yield
        finally:
            if "commit.lock" not in self.marks():
                self.unmark()
            os.close(held)

    def set_references(self, held, wanted):
        """Makes the references what is wanted. A stop in between leaves the mark of a change that is not whole, and does not say which."""
        self.write_out()
        self.moves += 1
        os.close(self.mark("commit.lock"))
        for name in held.keys() - wanted.keys():
            self.drop(os.path.join(self.folder, os.fsdecode(name)))
        for name, value in wanted.items():
            if held.get(name) != value:
                path = os.path.join(self.folder, os.fsdecode(name))
                os.makedirs(os.path.dirname(path), exist_ok=True)
                if os.path.isdir(path):
                    os.rmdir(path)
                self.write(path, value + b"\n")
        self.write_out()
        os.remove(os.path.join(self.folder, "commit.lock"))

    def drop(self, path):
        """Removes a reference's file, and the folders above it that became empty."""
        os.remove(path)
        top = os.path.join(self.folder, "refs")
        at = os.path.dirname(path)
        while at != top and not os.listdir(at):
            os.rmdir(at)
            at = os.path.dirname(at)
