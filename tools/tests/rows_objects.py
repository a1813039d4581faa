"""Git's objects in the format SHA-256, uncompressed, and the stream of a whole repository."""

import hashlib

ZEROS = "0" * 64
FILE, EXECUTABLE, LINK, MODULE, DIRECTORY = b"100644", b"100755", b"120000", b"160000", b"40000"
# Log entries have the empty tree, which is not kept.
EMPTY_TREE = hashlib.sha256(b"tree 0\0").hexdigest()
AUTHOR = b"rows <rows@localhost> 0 +0000"
# The author of what the commands of a row commit, whose clock gives each of them the moment 1.
PROGRAM = b"gittuf <gittuf@localhost> 1 +0000"


def object_id(kind, body):
    return hashlib.sha256(b"%s %d\0" % (kind, len(body)) + body).hexdigest()


def tree_body(entries):
    """The body of a tree of entries, which are (mode, name, id)."""

    def place(entry):
        mode, name, _ = entry
        return name + b"/" if mode == DIRECTORY else name

    return b"".join(b"%s %s\0%s" % (mode, name, bytes.fromhex(id)) for mode, name, id in sorted(entries, key=place))


class Repository:
    """Objects by id, and references by name. All commits have one author."""

    def __init__(self, author=AUTHOR):
        self.objects, self.references, self.author = {}, {}, author

    def add(self, kind, body):
        id = object_id(kind, body)
        self.objects[id] = (kind, body)
        return id

    def blob(self, body):
        return self.add(b"blob", body)

    def tree(self, files):
        """The tree of files, which are (mode, id) by path, with all trees below it."""
        entries, below = [], {}
        for path, value in files.items():
            first, slash, rest = path.partition(b"/")
            if slash:
                below.setdefault(first, {})[rest] = value
            else:
                entries.append((value[0], first, value[1]))
        entries += [(DIRECTORY, name, self.tree(inner)) for name, inner in below.items()]
        return self.add(b"tree", tree_body(entries))

    def commit(self, tree, message, parents=()):
        lines = [b"tree %s" % tree.encode(), *(b"parent %s" % parent.encode() for parent in parents)]
        lines += [b"author " + self.author, b"committer " + self.author, b"", message]
        return self.add(b"commit", b"".join(line + b"\n" for line in lines))

    def set(self, name, id):
        """Puts a reference at an id, or takes it away for zeros."""
        if id == ZEROS:
            self.references.pop(name, None)
        else:
            self.references[name] = id

    def tree_of(self, commit):
        """The id of the tree of a commit, zeros for none."""
        return ZEROS if commit == ZEROS else self.objects[commit][1][5:69].decode()

    def records(self):
        """The records of the stream, from its first line to its last."""
        yield b"gittuf-stream 1\n"
        for id, (kind, body) in sorted(self.objects.items()):
            yield b"object %s %s %d\n%s\n" % (id.encode(), kind, len(body), body)
        for name, id in sorted((name.encode(), id) for name, id in self.references.items()):
            yield b"ref %s %s\n" % (name, id.encode())
        yield b"end\n"

    def stream(self):
        return b"".join(self.records())
