"""Rows on the paths that an entry changes, and on targets that have no state."""

from rows_histories import BEFORE, KEEPER, MAIN, MAINTAINER, asked, guarded
from rows_objects import DIRECTORY, EXECUTABLE, FILE, MODULE, object_id, tree_body

# Some id of a commit of another repository, and another one.
MODULE_AT, MODULE_LATER = "1" * 64, "2" * 64
TOO_DEEP, TOO_MANY = 33, 262_145


def protected_paths():
    """The maintainer changes two paths that are the keeper's, and one that is nobody's."""
    history = guarded()
    files = {b"keys/a": b"a\n", b"keys/b": b"b\n", b"src/x": b"x\n"}
    history.record(MAIN, history.commit(files), MAINTAINER)
    return history, asked(1, "violation refs/heads/main 2 path-rule keys/a keys 0 of 1")


def changed_later(files, changed):
    """Main has files with the keeper's approval, and the maintainer alone changes them."""
    history = guarded()
    target = history.commit(files)
    history.approve(target, KEEPER)
    history.record(MAIN, target, MAINTAINER)
    history.record(MAIN, history.commit(changed), MAINTAINER)
    return history


def protected_paths_kept():
    """What is the keeper's stays as it was, and another path changes."""
    history = changed_later({b"keys/a": b"a\n", b"src/x": b"x\n"}, {b"keys/a": b"a\n", b"src/x": b"y\n"})
    return history, asked(0, "accepted refs/heads/main 2 entries")


def protected_directory_renamed():
    """The directory goes on under another name, with the same tree."""
    history = changed_later({b"keys/a": b"a\n", b"src/x": b"x\n"}, {b"old/a": b"a\n", b"src/x": b"x\n"})
    return history, asked(1, "violation refs/heads/main 4 path-rule keys/a keys 0 of 1")


def directory_renamed_to_a_protected_one():
    """The other way round: the tree was there under a name that is nobody's."""
    history = changed_later({b"new/a b": b"a\n", b"src/x": b"x\n"}, {b"keys/a b": b"a\n", b"src/x": b"x\n"})
    return history, asked(1, "violation refs/heads/main 4 path-rule keys/a%20b keys 0 of 1")


def protected_file_made_executable():
    """The file's bytes stay, and its mode changes."""
    blob = object_id(b"blob", b"a\n")
    history = changed_later({b"keys/a": (FILE, blob)}, {b"keys/a": (EXECUTABLE, blob)})
    return history, asked(1, "violation refs/heads/main 4 path-rule keys/a keys 0 of 1")


def module_under_a_rule():
    """A commit of another repository, which is not here, stands at a protected path, and another one then."""
    history = changed_later({b"keys/m": (MODULE, MODULE_AT)}, {b"keys/m": (MODULE, MODULE_LATER)})
    return history, asked(1, "violation refs/heads/main 4 path-rule keys/m keys 0 of 1")


def module_under_no_rule():
    """The same at a path that is nobody's."""
    history = changed_later({b"src/m": (MODULE, MODULE_AT)}, {b"src/m": (MODULE, MODULE_LATER)})
    return history, asked(0, "accepted refs/heads/main 2 entries")


def nested(history, depth):
    """A commit of trees in one another, so many, and the id of the deepest."""
    add = history.repository.add
    deepest = tree = add(b"tree", tree_body([(FILE, b"x", history.repository.blob(b"x\n"))]))
    for _ in range(depth - 1):
        tree = add(b"tree", tree_body([(DIRECTORY, b"d", tree)]))
    return history.repository.commit(tree, b"deep"), deepest


def trees_too_deep():
    """The trees of the target are 33 deep, and nobody signed."""
    history = guarded()
    target, deepest = nested(history, TOO_DEEP)
    history.record(MAIN, target)
    return history, asked(1, f"violation refs/heads/main 2 broken {deepest}")


def trees_just_not_too_deep():
    """They are 32 deep, so that it is told who did not sign."""
    history = guarded()
    target, _ = nested(history, TOO_DEEP - 1)
    history.record(MAIN, target)
    return history, asked(1, "violation refs/heads/main 2 ref-rule main 0 of 1")


def many(history, more):
    """A commit whose trees repeat to 64 times 64 times 64 paths, with one more path in a tree of its own or not, and
    the id of that tree."""
    blob, add = history.repository.blob(b"x\n"), history.repository.add
    names = [b"%02d" % number for number in range(64)]
    files = add(b"tree", tree_body([(FILE, name, blob) for name in names]))
    middle = add(b"tree", tree_body([(DIRECTORY, name, files) for name in names]))
    last = add(b"tree", tree_body([(FILE, b"one", blob)]))
    entries = [(DIRECTORY, name, middle) for name in names] + ([(DIRECTORY, b"more", last)] if more else [])
    return history.repository.commit(add(b"tree", tree_body(entries)), b"many"), last


def too_many_paths():
    """The subtrees of the target repeat past 262,144 paths, and nobody signed."""
    assert TOO_MANY == 64**3 + 1
    history = guarded()
    target, last = many(history, True)
    history.record(MAIN, target)
    return history, asked(1, f"violation refs/heads/main 2 broken {last}")


def just_not_too_many_paths():
    """There are 262,144 paths, so that it is told who did not sign."""
    history = guarded()
    target, _ = many(history, False)
    history.record(MAIN, target)
    return history, asked(1, "violation refs/heads/main 2 ref-rule main 0 of 1")


def tree_that_is_missing():
    """The tree of the target is not kept."""
    history = guarded()
    target = history.commit(BEFORE)
    tree = history.repository.tree_of(target)
    del history.repository.objects[tree]
    history.record(MAIN, target, MAINTAINER)
    return history, asked(1, f"violation refs/heads/main 2 broken {tree}")


ROWS = (
    protected_paths,
    protected_paths_kept,
    protected_directory_renamed,
    directory_renamed_to_a_protected_one,
    protected_file_made_executable,
    module_under_a_rule,
    module_under_no_rule,
    trees_too_deep,
    trees_just_not_too_deep,
    too_many_paths,
    just_not_too_many_paths,
    tree_that_is_missing,
)
