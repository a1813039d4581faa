"""Kept folders that the measurements of tools/bench make, file by file, in the form that docs/FORMATS.md tells."""

import hashlib
import os

ZEROS = bytes(32)
LOG = b"refs/gittuf/reference-state-log"
POLICY = b"refs/gittuf/policy"
DIRECTORY, FILE = b"40000", b"100644"


class Store:
    """A kept folder that is being made. Ids are bytes."""

    def __init__(self, place):
        self.place = place
        self.objects = os.path.join(place, "objects")
        os.makedirs(self.objects)
        self.empty_tree = self.add(b"tree", b"")

    @property
    def folder(self):
        """The word by which the program takes the folder."""
        return self.place + "/"

    def path_of(self, found):
        return os.path.join(self.objects, found.hex())

    def add(self, kind, body):
        """Keeps an object, and returns its id."""
        text = b"%s %d\0%s" % (kind, len(body), body)
        found = hashlib.sha256(text).digest()
        with open(self.path_of(found), "wb") as file:
            file.write(text)
        return found

    def tree(self, entries):
        """Keeps a tree of modes, names and ids, and returns its id."""
        ordered = sorted(entries, key=lambda it: it[1] + (b"/" if it[0] == DIRECTORY else b""))
        return self.add(b"tree", b"".join(b"%s %s\0%s" % it for it in ordered))

    def commit(self, tree, parent=None, moment=0):
        """Keeps a commit with a tree, and returns its id."""
        parents = b"parent %s\n" % parent.hex().encode() if parent else b""
        head = b"tree %s\n%s%s" % (tree.hex().encode(), parents, author(moment))
        return self.add(b"commit", head + b"\nmade\n")

    def stand(self, name, found):
        """Sets a reference."""
        path = os.path.join(self.place, name.decode())
        os.makedirs(os.path.dirname(path), exist_ok=True)
        with open(path, "wb") as file:
            file.write(found.hex().encode() + b"\n")


def author(moment):
    who = b"gittuf <gittuf@localhost> %d +0000\n" % moment
    return b"author %scommitter %s" % (who, who)


class Log:
    """The log of a store, to which entries are added; `stand` sets its reference at the last one."""

    def __init__(self, store):
        self.store, self.tip, self.ids = store, None, []

    def record(self, name, target, signature=None):
        """Adds the entry that a reference took a target. What signs it gets the text, and answers the id of a key in
        hexadecimal and the signature in base64."""
        number = len(self.ids) + 1
        parent = b"parent %s\n" % self.tip.hex().encode() if self.tip else b""
        head = b"tree %s\n%s%s" % (self.store.empty_tree.hex().encode(), parent, author(number))
        target_line = b"targetID: %s\n" % target.hex().encode()
        rest = b"\nRSL Reference Entry\n\nref: %s\n%snumber: %d\n" % (name, target_line, number)
        line = b"lmssig %s %s\n" % signature(head + rest) if signature else b""
        self.tip = self.store.add(b"commit", head + line + rest)
        self.ids.append(self.tip)

    def stand(self):
        self.store.stand(LOG, self.tip)
