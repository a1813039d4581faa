"""The checks of tools/test on a store that is kept in a folder, over a large Git repository."""

import hashlib
import os
import shutil

from check_repositories import COMMITS, LONGEST_NAME, NAME_BYTES, UNUSUAL_NAME
from checking import ACCEPTED, EMPTY_TREE, LAUNCHER, STREAM_TO_GIT, VERIFY, ZEROS
from checking import Failure, want, want_refusal, want_run
from made_folders import END, HEADER, IMPORTED, command, expect_same, files_below, is_no_store, record
from made_folders import small_store, stream_of, write


def large_store(repositories):
    """The folder of the large repository's store, which is made at the first call."""
    stream, place = repositories.large_stream(), repositories.path("large")
    if not os.path.isdir(place):
        want_run(command(place, "import"), 0, IMPORTED, input=stream)
    return place


def has_all_kinds(repositories):
    """the large repository has 300 commits, a merge, a submodule, tags of tags and names with every byte"""

    def git(*words):
        return repositories.git(*words, name=repositories.large())

    counts = [git("rev-list", "--count", *it, "--all").strip() for it in ([], ["--min-parents=2"])]
    want(counts, [b"%d" % COMMITS, b"1"], "the numbers of commits and of merges")
    entries = [it.partition(b"\t") for it in git("ls-tree", "-r", "-z", "refs/heads/main").split(b"\0")]
    # A name's byte ends it, and another path holds all of them.
    ends = {path[-1] for _, _, path in entries if path.startswith(b"names/n")}
    want(ends, set(NAME_BYTES), "the bytes at the ends of names")
    if not any(bytes(NAME_BYTES) in path for _, _, path in entries):
        raise Failure("no name holds all bytes")
    modes = {it.split(b" ")[0] for it, _, _ in entries if it}
    want(modes, {b"100644", b"100755", b"120000", b"160000"}, "the modes")
    kinds = [git("cat-file", "tag", it).splitlines()[1] for it in ("of-of-v2", "of-v2", "v2")]
    want(kinds, [b"type tag", b"type tag", b"type commit"], "what the tags are of")


def goes_through_a_folder(repositories):
    """300 commits go from Git through a kept folder to Git and back, byte for byte"""
    stream = repositories.large_stream()
    want_run(command(large_store(repositories), "export"), 0, stream)
    repositories.from_stream(stream, "large-copy.git")
    repositories.git("fsck", "--strict", name="large-copy.git")
    again = repositories.stream_of("large-copy.git")
    want(again.replace(EMPTY_TREE, b""), stream.replace(EMPTY_TREE, b""), "the second stream without the empty tree")
    log = ("log", "--all", "--format=%H %T %P %s")
    want(repositories.git(*log, name="large-copy.git"), repositories.git(*log, name="large.git"), "the log of the copy")
    return f"{stream.count(b'object ')} objects, {len(stream)} bytes"


def holds_what_git_holds(repositories):
    """a kept folder's files are Git's objects and references, each under its own name"""
    place = large_store(repositories)
    objects = os.path.join(place, "objects")
    found = {}
    for name in os.listdir(objects):
        with open(os.path.join(objects, name), "rb") as file:
            text = file.read()
        want(hashlib.sha256(text).hexdigest(), name, "the id of an object's file")
        found[name] = text.partition(b"\0")[0].decode()
    listing = repositories.git("cat-file", "--batch-all-objects", "--batch-check", name="large.git").decode()
    want(found, dict(line.split(" ", 1) for line in listing.splitlines()), "the objects by id, with kind and size")
    references = {b"refs/" + name: text for name, text in files_below(os.path.join(place, "refs")).items() if text}
    listing = repositories.git("for-each-ref", "--format=%(refname) %(objectname)", name="large.git")
    wanted = dict(line.split(b" ") for line in listing.splitlines())
    want(references, {name: value + b"\n" for name, value in wanted.items()}, "the references' files")
    want(sorted(os.listdir(place)), ["objects", "refs"], "what is in the folder")


def judges_a_folder(repositories):
    """verify-ref prints the same of a kept folder as of its stream"""
    stream, place = repositories.large_stream(), large_store(repositories)
    before = files_below(place)
    for name in (b"refs/heads/main", UNUSUAL_NAME, LONGEST_NAME, b"refs/heads/absent"):
        tip = repositories.git("for-each-ref", "--format=%(objectname)", name, name="large.git").decode().strip()
        line = f"tip-differs %s kept {tip} recorded {ZEROS}\n" if tip else "accepted %s 0 entries\n"
        told = line.encode() % name
        status = 1 if tip else 0
        want_run(command(place, "verify-ref", name), status, told)
        want_run((LAUNCHER, "-", "-", "verify-ref", name, "--stdin"), status, told, input=stream)
    expect_same(place, before)


def imports_once(repositories):
    """a second import into the same folder is refused, and changes nothing"""
    place, objects = small_store(repositories, "imported twice")
    before = files_below(place)
    for stream in (stream_of(objects, []), repositories.large_stream(), HEADER + END, b""):
        want_run(command(place, "import"), 3, b"", b"stream 8\n", input=stream)
        expect_same(place, before)


def refuses_streams(repositories):
    """a refused stream leaves a folder that was there as it was, and no other"""
    stream = repositories.large_stream()
    _, objects = small_store(repositories, "three objects")
    first, text = objects[0]
    whole, reference = stream_of(objects, []), (b"refs/heads/main", first.encode())
    refusals = [
        (b"stream 1\n", b"gittuf-stream 2\nend\n"),
        (b"stream 1\n", stream + b"\n"),
        (b"stream 2\n", stream.replace(b"A project", b"a project", 1)),
        (b"stream 3\n", stream_of(objects[::-1], [])),
        (b"stream 3\n", stream_of(objects, [reference, reference])),
        (b"stream 4\n", HEADER + b"object %s blob %d\n" % (first.encode(), (16 << 20) + 1)),
        (b"stream 5\n", stream[: len(stream) // 2]),
        (b"stream 5\n", stream[:-1]),
        (b"stream 5\n", whole[: len(HEADER + record(text, first)) + 20]),
        (b"stream 5\n", b""),
    ]
    for number, (line, it) in enumerate(refusals):
        above = repositories.path(f"refused {number}")
        place = os.path.join(above, "a", "store")
        want_run(command(place, "import"), 3, b"", line, input=it)
        want(os.path.lexists(above), False, f"whether a folder is there after {line.decode().strip()}")
        # A folder that was there stays, and takes a whole stream afterwards.
        os.mkdir(above)
        want_run(command(above, "import"), 3, b"", line, input=it)
        want(os.listdir(above), [], f"what is in the folder after {line.decode().strip()}")
        want_run(command(above, "import"), 0, IMPORTED, input=whole)
        want_run(command(above, "export"), 0, whole)


def tells_damage(repositories):
    """export names the first object that is damaged, and prints what comes before it, which is no whole stream"""
    place, objects = small_store(repositories, "damaged objects")
    write(place, f"objects/{objects[2][0]}", objects[1][1])
    before = HEADER + b"".join(record(text, object_id) for object_id, text in objects[:2])
    want_run(command(place, "export"), 3, before, f"object {objects[2][0]}\n".encode())
    write(place, f"objects/{ZEROS}", b"blob 0\0")
    want_run(command(place, "export"), 3, HEADER, f"object {ZEROS}\n".encode())
    repositories.needed()
    want_refusal((STREAM_TO_GIT, repositories.path("never.git")), b"cut after", input=before)


def makes_folders(repositories):
    """a command that only reads makes no folder, and one that may change a store makes it and those above it"""
    missing = repositories.path("missing")
    for words in (("verify-ref", "refs/heads/main"), ("export",)):
        want_run(command(missing, *words), 4, b"", b"fault\n")
        want(os.path.lexists(missing), False, f"whether {words[0]} made the folder that was missing")
    place = os.path.join(missing, "above", "store")
    want_run(command(place, *VERIFY[2:]), 0, ACCEPTED, input=HEADER + END)
    want(files_below(missing), {b"above": None, b"above/store": None}, "what verify-ref --stdin made")
    want_run(command(place, "export"), 0, HEADER + END)
    link = repositories.path("a link to a store")
    os.symlink(place, link)
    want_run(command(link, "import"), 0, IMPORTED, input=HEADER + END)
    want_run(command(link, "export"), 0, HEADER + END)
    os.symlink("nowhere", repositories.path("a link to nothing"))
    want_run(command(repositories.path("a link to nothing"), "import"), 4, b"", b"fault\n", input=HEADER + END)


def tells_faults(repositories):
    """a file of another form is a fault"""
    place, objects = small_store(repositories, "other forms")
    object_id, text = objects[0]
    for other in (b"", text[:-1], text + b"\n", b"blob 00\0", b"word 0\0", b"blob 0", b"blob 1 \0a"):
        write(place, f"objects/{object_id}", other)
        want_run(command(place, "export"), 4, HEADER, b"fault\n")
    # More than an object may have is not read.
    with open(os.path.join(place, "objects", object_id), "wb") as file:
        file.write(b"blob %d\0" % (1 << 40))
        file.truncate(1 << 40)
    want_run(command(place, "export"), 4, HEADER, b"fault\n")
    write(place, f"objects/{object_id}", text)
    for other in (b"", object_id.encode(), object_id.encode() + b"\n\n", object_id.upper().encode() + b"\n"):
        write(place, "refs/heads/main", other)
        want_run(command(place, "verify-ref", "refs/heads/main"), 4, b"", b"fault\n")


def tells_failing_streams(repositories):
    """a full or closed standard output, and a folder as standard input, are faults"""
    place, _ = small_store(repositories, "failing streams")
    before = files_below(place)
    export, judge = command(place, "export"), command(place, "verify-ref", "refs/heads/main")
    for redirection, words in (
        ("> /dev/full", export),
        ("> /dev/full", judge),
        (">&-", export),
        (">&-", judge),
        ("< /", (LAUNCHER, "-", "-", "verify-ref", "refs/heads/main", "--stdin")),
        ("< /", (LAUNCHER, "-", "-", "import")),
        ("<&-", (LAUNCHER, "-", "-", "import")),
    ):
        want_run(("sh", "-c", f'exec "$@" {redirection}', "sh", *words), 4, b"", b"fault\n")
    expect_same(place, before)


def refuses_crossed_names(repositories):
    """references whose names lie in each other's way are refused before anything is written"""
    place = repositories.path("crossed")
    _, objects = small_store(repositories, "of the crossed")
    target = objects[0][0].encode()
    # In a folder a reference's name cannot also be that of a folder above another. Others stand in between.
    names = (b"refs/heads/a", b"refs/heads/a-b", b"refs/heads/a.b", b"refs/heads/a/b/c")
    both = stream_of(objects, [(name, target) for name in names])
    want_run(command(place, "import"), 4, b"", b"fault\n", input=both)
    want(os.path.lexists(place), False, "whether a folder is there")
    want_run(command(place, "import"), 0, IMPORTED, input=stream_of(objects, [(it, target) for it in names[:3]]))


def refuses_other_folders(repositories):
    """a Git repository and a folder of other things are no stores"""
    place = repositories.path("other things")
    write(place, "notes", b"text")
    is_no_store(place)
    is_no_store(os.path.join(repositories.needed(), ".git"))


def refuses_words(repositories):
    """words outside the grammar are refused before the folder is looked at, and make none"""
    place = repositories.path("never made")
    for words in ((), ("word",), ("import", "more"), ("export", "--stdin"), ("verify-ref",), ("verify-ref", "main")):
        want_run(command(place, *words), 2, b"", b"words refused\n", input=HEADER + END)
        if os.path.lexists(place):
            raise Failure(f"a folder was made for the words {' '.join(words)}")


def passes_over_other_files(repositories):
    """export and verify-ref pass over files with other names"""
    place, objects = small_store(repositories, "other names")
    target = objects[1][0]
    others = ("objects/README", f"objects/{target}.lock", f"objects/{target.upper()}", "refs/heads/main.lock", "HEAD")
    for name in others:
        write(place, name, b"anything")
    os.mkdir(os.path.join(place, "refs", "heads", "empty"))
    want_run(command(place, "export"), 0, stream_of(objects, [(b"refs/heads/main", target.encode())]))
    told = f"tip-differs refs/heads/main kept {target} recorded {ZEROS}\n".encode()
    want_run(command(place, "verify-ref", "refs/heads/main"), 1, told)
    shutil.rmtree(place)


CHECKS = (
    has_all_kinds,
    goes_through_a_folder,
    holds_what_git_holds,
    judges_a_folder,
    imports_once,
    refuses_streams,
    tells_damage,
    makes_folders,
    tells_faults,
    tells_failing_streams,
    refuses_crossed_names,
    refuses_other_folders,
    refuses_words,
    passes_over_other_files,
)
