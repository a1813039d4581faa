"""Rows on the states of targets at the edges of their limits, and on the paths that differ between two."""

from rows_histories import History
from rows_objects import DIRECTORY, EXECUTABLE, FILE, LINK, MODULE, ZEROS, object_id, tree_body
from rows_runs import Asked, done, failing

NOWHERE = "e" * 64
# Trees are so deep, paths so many and so long, and tags so many at most.
DEEPEST, PATHS, LONGEST_PATH, TAGS = 32, 262_144, 4_096, 8


class Store:
    """A repository for questions, and the runs that ask them after it is taken in."""

    def __init__(self):
        self.history = History()
        self.add, self.runs = self.history.repository.add, []

    def file(self, text):
        """The id of a blob that is not kept, since no walk reads it."""
        return object_id(b"blob", text)

    def tree(self, *entries):
        return self.add(b"tree", tree_body(entries))

    def row(self, mode, count, id):
        return self.tree(*((mode, b"%02d" % number, id) for number in range(count)))

    def commit(self, tree, rest=b""):
        return self.add(b"commit", f"tree {tree}\n".encode() + rest)

    def tag(self, id, kind):
        return self.add(b"tag", f"object {id}\ntype {kind}\n".encode())

    def ask(self, target, answer):
        self.runs.append(Asked("state", [target], answer))

    def whole(self, target, tree, paths, trees):
        self.ask(target, f"whole {tree} paths {paths} trees {trees}")

    def broken(self, target, id):
        self.ask(target, f"broken {id}")

    def differ(self, one, other, *paths):
        """These paths differ between two targets, whichever comes first."""
        for from_, to in ((one, other), (other, one)):
            trees = [self.history.repository.tree_of(it) for it in (from_, to)]
            self.runs.append(Asked("changes", [from_, to], " ".join([f"from {trees[0]} to {trees[1]}", *paths])))

    def first_broken(self, one, other, id):
        self.runs.append(Asked("changes", [one, other], f"broken {id}"))

    def done(self):
        return self.history, done("import", "imported"), *self.runs


def nothing_there():
    """Zeros are no state, and an id of which nothing is kept is a broken one."""
    store = Store()
    store.ask(ZEROS, "absent")
    store.broken(NOWHERE, NOWHERE)
    store.differ(ZEROS, ZEROS)
    store.first_broken(ZEROS, NOWHERE, NOWHERE)
    return store.done()


def depths():
    """Trees in one another: 32 are a state, and of 33 the lowest is bad."""
    store = Store()
    top = lowest = store.tree((FILE, b"a", store.file(b"a")))
    for depth in range(2, DEEPEST + 2):
        top = store.tree((DIRECTORY, b"d", top))
        if depth == DEEPEST:
            store.whole(store.commit(top), top, 1, DEEPEST)
    store.broken(store.commit(top), lowest)
    return store.done()


def numbers_of_paths():
    """64 trees of 64 trees of 64 files are 262,144 paths in 4,161 trees, and one path more is too many."""
    store = Store()
    many = store.row(DIRECTORY, 64, store.row(DIRECTORY, 64, store.row(FILE, 64, store.file(b""))))
    assert 64**3 == PATHS
    store.whole(store.commit(many), many, PATHS, 1 + 64 + 64 * 64)
    last = store.tree((EXECUTABLE, b"x", store.file(b"x")))
    store.broken(store.commit(store.tree((DIRECTORY, b"a", many), (DIRECTORY, b"b", last))), last)
    return store.done()


def bytes_of_paths():
    """Paths of 256 bytes: 262,144 of them are 64 MiB, and with each a byte longer they are too many bytes before they are
    too many paths."""
    store = Store()
    for length in (256, 257):
        files = store.row(FILE, 64, store.file(b""))
        middle = store.row(DIRECTORY, 64, files)
        inner = store.row(DIRECTORY, 64, middle)
        top = store.tree((DIRECTORY, b"n" * (length - 9), inner))
        if length == 256:
            store.whole(store.commit(top), top, PATHS, 2 + 64 + 64 * 64)
        else:
            store.broken(store.commit(top), files)
    return store.done()


def lengths_of_paths():
    """A path of 4,096 bytes and one of 4,097, whose tree is bad."""
    store = Store()
    for length in (LONGEST_PATH, LONGEST_PATH + 1):
        holder = store.tree((FILE, b"n" * (length - 2), store.file(b"")))
        top = store.tree((DIRECTORY, b"d", holder))
        if length == LONGEST_PATH:
            store.whole(store.commit(top), top, 1, 2)
        else:
            store.broken(store.commit(top), holder)
    return store.done()


def tags_before_a_commit():
    """Eight tags are gone through, and of nine the last is bad; so is an object of another kind than its tag names."""
    store = Store()
    empty = store.tree()
    start = store.commit(empty)
    lowest = top = store.tag(start, "commit")
    for _ in range(TAGS - 1):
        top = store.tag(top, "tag")
    store.whole(top, empty, 0, 1)
    store.broken(store.tag(top, "tag"), lowest)
    for kind in ("blob", "tree", "tag"):
        store.broken(store.tag(start, kind), start)
    for kind in ("blob", "tree", "commit"):
        store.broken(store.tag(lowest, kind), lowest)
    store.broken(store.tag(store.file(b"lost"), "commit"), store.file(b"lost"))
    return store.done()


def no_states():
    """An empty tree below the root, a blob or a tree in the place of a commit, and a malformed tree and commit."""
    store = Store()
    empty = store.tree()
    store.broken(store.commit(store.tree((DIRECTORY, b"d", empty))), empty)
    blob = store.add(b"blob", b"")
    store.broken(blob, blob)
    store.broken(empty, empty)
    bad = store.add(b"tree", b"100644 a\0")
    store.broken(store.commit(bad), bad)
    commit = store.add(b"commit", b"tree \n")
    store.broken(commit, commit)
    return store.done()


def files_and_directories():
    """A file that becomes a directory, between names that stand before and after it in a tree and in the order of bytes;
    a mode and a module; and everything against nothing."""
    store = Store()
    id, other = store.file(b"a"), store.file(b"2")
    inner = store.tree((FILE, b"x", id))
    one = store.tree(*((FILE, name, id) for name in (b"a", b"a.b", b"a0")))
    two = store.tree((FILE, b"a.b", id), (DIRECTORY, b"a", inner), (FILE, b"a0", inner))
    store.differ(store.commit(one), store.commit(two), "a", "a/x", "a0")
    one = store.tree((MODULE, b"m", id), (FILE, b"n", id), (FILE, b"o", id))
    two = store.tree((MODULE, b"m", other), (LINK, b"n", id), (FILE, b"o", id))
    store.differ(store.commit(one), store.commit(two), "m", "n")
    whole = store.commit(store.tree((DIRECTORY, b"d", inner), (EXECUTABLE, b"e", inner)))
    store.differ(ZEROS, whole, "d/x", "e")
    return store.done()


def equal_trees():
    """An equal tree at another place, one that stays, and one that is gone; and two commits of one tree, which 300 visits
    walk: the store is called twice for the commits and once for each visit, and not for the second one."""
    store = Store()
    shared = store.tree((FILE, b"s", store.file(b"s")))
    one = store.tree(*((DIRECTORY, name, shared) for name in (b"b", b"same", b"z")))
    two = store.tree(*((DIRECTORY, name, shared) for name in (b"c", b"same")))
    store.differ(store.commit(one), store.commit(two), "b/s", "c/s", "z/s")
    row, small = store.row(DIRECTORY, 98, shared), store.row(DIRECTORY, 2, shared)
    top = store.tree(*((DIRECTORY, name, row) for name in (b"a", b"b", b"c")), (DIRECTORY, b"d", small))
    first, second = store.commit(top, b"1"), store.commit(top, b"2")
    for call, answer in ((304, f"from {top} to {top}"), (303, "fault")):
        store.runs.append(Asked("changes", [first, second], answer, over=[failing("store", call)]))
    return store.done()


def trees_of_one_path():
    """A tree is made of a path of names, 32 levels deep at most, also of a commit of another repository, and of no
    directory."""
    store = Store()
    tree = store.tree((FILE, b"f", ZEROS))
    store.runs.append(Asked("tree", ["100644", "f"], f"tree {tree} of 1"))
    for _ in range(DEEPEST - 1):
        tree = store.tree((DIRECTORY, b"d", tree))
    store.runs.append(Asked("tree", ["120000", "d/" * DEEPEST + "f"], "no-tree"))
    store.runs.append(Asked("tree", ["100644", "d/" * (DEEPEST - 1) + "f"], f"tree {tree} of {DEEPEST}"))
    store.runs.append(Asked("tree", ["160000", "f"], f"tree {store.tree((MODULE, b'f', ZEROS))} of 1"))
    store.runs.append(Asked("tree", ["40000", "f"], "no-tree"))
    return store.done()


def two_broken_targets():
    """A tree that is missing in one target, before and after the other one ends, and in both: the first is named."""
    store = Store()
    here, early, late = (store.file(it) for it in (b"here", b"early", b"late"))
    whole = store.commit(store.tree((FILE, b"m", here)))
    first = store.commit(store.tree((DIRECTORY, b"a", early), (FILE, b"m", here)))
    last = store.commit(store.tree((FILE, b"m", here), (DIRECTORY, b"z", late)))
    for one, other, id in ((whole, first, early), (last, whole, late), (first, last, early), (last, first, late)):
        store.first_broken(one, other, id)
    return store.done()


ROWS = (
    nothing_there,
    depths,
    numbers_of_paths,
    bytes_of_paths,
    lengths_of_paths,
    tags_before_a_commit,
    no_states,
    files_and_directories,
    equal_trees,
    trees_of_one_path,
    two_broken_targets,
)
