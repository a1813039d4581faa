"""The checks of tools/test on folders that two calls want, or that are hostile."""

import contextlib
import fcntl
import os
import shutil
import socket
import subprocess
import time

from checking import PROGRAM, Failure, run, want, want_run
from made_folders import END, HEADER, IMPORTED, command, expect_same, files_below, is_no_store, small_store
from made_folders import stream_of, write

TURNS = 30


def imports(place):
    """An import into this folder, whose stream is still to be given."""
    pipe = subprocess.PIPE
    words = (PROGRAM, f"{place}/", "-", "import")
    return subprocess.Popen(words, bufsize=0, stdin=pipe, stdout=pipe, stderr=pipe)


def give(process, part):
    """Gives an import a part of its stream, of which one that was refused already takes nothing."""
    try:
        process.stdin.write(part)
    except BrokenPipeError:
        pass


def ended(process, stream):
    """What an import answers, once it has the rest of its stream."""
    output, errors = process.communicate(stream, timeout=60)
    return process.returncode, output, errors


def wait_for(path):
    for _ in range(10_000):
        if os.path.lexists(path):
            return
        time.sleep(0.001)
    raise Failure(f"{path} is not there after 10 seconds")


def one_imports_at_a_time(repositories):
    """of two imports at once with slow sources one is taken, the other is refused, and the store is the first one's"""
    _, objects = small_store(repositories, "of the first")
    first, second = stream_of(objects[:2], []), stream_of(objects[1:], [(b"refs/heads/a", objects[1][0].encode())])
    for turn in range(TURNS):
        place = repositories.path(f"two at once {turn}")
        if turn % 3 == 0:
            os.mkdir(place)
        slow = imports(place)
        give(slow, first[: 10 * turn])
        if turn % 2:
            wait_for_holder(os.path.join(place, "open.lock"))
            want(ended(imports(place), second), (4, b"", b"fault\n"), "what the second import answers")
            want_run(command(place, "verify-ref", "refs/heads/a"), 4, b"", b"fault\n")
            want_run(command(place, "export"), 4, b"", b"fault\n")
            want(ended(slow, first[10 * turn :]), (0, IMPORTED, b""), "what the first import answers")
            want_run(command(place, "export"), 0, first)
        else:
            # Which of the two is first is not known here.
            fast = imports(place)
            give(fast, second[: 10 * turn])
            answers = {second: ended(fast, second[10 * turn :]), first: ended(slow, first[10 * turn :])}
            taken = [stream for stream, answer in answers.items() if answer == (0, IMPORTED, b"")]
            refused = [answer for answer in answers.values() if answer in ((4, b"", b"fault\n"), (3, b"", b"stream 8\n"))]
            want((len(taken), len(refused)), (1, 1), f"how many are taken and refused of {list(answers.values())!r}")
            want_run(command(place, "export"), 0, taken[0])
        want(sorted(os.listdir(place))[:1], ["objects"], "what is in the folder")
    left = [it for it in os.listdir(repositories.folder) if it.endswith(".lock")]
    want(left, [], "the folders that are left beside")


def wait_for_holder(path):
    """Waits for a mark that a process holds, which it takes a moment after it made the file."""
    wait_for(path)
    for _ in range(10_000):
        with open("/proc/locks", encoding="ascii") as table:
            if any(f":{os.stat(path).st_ino} " in line for line in table):
                return
        time.sleep(0.001)
    raise Failure(f"nobody holds {path}")


@contextlib.contextmanager
def held(place):
    """Holds the mark of a call that may change the store, as the program and git gittuf do."""
    with open(os.path.join(place, "open.lock"), "wb") as file:
        fcntl.flock(file, fcntl.LOCK_EX | fcntl.LOCK_NB)
        yield
    os.remove(file.name)


def is_not_read(place):
    """Holds each command that only reads to a fault that changes nothing there."""
    before = files_below(place)
    for words in (("verify-ref", "refs/heads/main"), ("export",)):
        want_run(command(place, *words), 4, b"", b"fault\n")
        expect_same(place, before)


def tells_marks(repositories):
    """a mark that is held is a fault for all; one that nobody holds is for those who read, and who may change the store takes it over"""
    place, objects = small_store(repositories, "marked")
    whole = stream_of(objects, [(b"refs/heads/main", objects[1][0].encode())])
    with held(place):
        is_no_store(place)
    want_run(command(place, "export"), 0, whole)
    write(place, "open.lock", b"")
    is_not_read(place)
    want_run(command(place, "import"), 3, b"", b"stream 8\n", input=HEADER + END)
    want(sorted(os.listdir(place)), ["objects", "refs"], "what is in the folder once the mark was taken over")
    want_run(command(place, "export"), 0, whole)
    for text in (b"", b"gittuf-change 1\nobject ", b"gittuf-change 2\nwhole\n"):
        write(place, "commit.lock", text)
        is_no_store(place)
    write(place, "commit.lock", b"gittuf-change 1\ndrop refs/heads/main\nwhole\n")
    is_not_read(place)
    want_run(command(place, "import"), 3, b"", b"stream 8\n", input=HEADER + END)
    want_run(command(place, "export"), 0, stream_of(objects, []))
    empty = repositories.path("marked and empty")
    write(empty, "open.lock", b"")
    is_not_read(empty)
    want_run(command(empty, "import"), 0, IMPORTED, input=whole)
    want_run(command(empty, "export"), 0, whole)


def put_other(place, name, kind):
    """Puts something else in the place of a file or of a folder."""
    path = os.path.join(place, name)
    if os.path.isdir(path):
        shutil.rmtree(path)
    elif os.path.lexists(path):
        os.remove(path)
    os.makedirs(os.path.dirname(path), exist_ok=True)
    if kind == "pipe":
        os.mkfifo(path)
    elif kind == "socket":
        with socket.socket(socket.AF_UNIX) as it:
            here = os.open(os.path.dirname(path), os.O_RDONLY)
            it.bind(f"/proc/self/fd/{here}/{os.path.basename(path)}")
            os.close(here)
    elif kind == "device":
        try:
            os.mknod(path, 0o600 | 0o020000, os.makedev(1, 5))
        except PermissionError:
            os.mkfifo(path)
    else:
        os.symlink(kind, path)


def passes_no_link(repositories):
    """a link, a pipe, a socket or a device in the place of a file or a folder is a fault, and no link is followed"""
    outside = repositories.path("outside")
    write(outside, "objects/of others", b"text")
    write(outside, "file", b"text")
    for number, kind in enumerate((".", "..", outside, os.path.join(outside, "file"), "nowhere", "pipe", "socket", "device")):
        place, objects = small_store(repositories, f"hostile {number}")
        before = files_below(outside)
        target, judge = objects[1][0], ("verify-ref", "refs/heads/main")
        for name, words, front in (
            (f"objects/{target}", ("export",), HEADER + stream_of(objects[:1], [])[len(HEADER) : -len(END)]),
            ("refs/heads/main", ("export",), None),
            ("refs/heads/main", judge, b""),
            ("refs/heads/a", ("export",), None),
            ("refs/heads", ("export",), None),
            ("refs/heads", judge, b""),
            ("refs", judge, b""),
            ("objects", ("export",), b""),
        ):
            put_other(place, name, kind)
            status, output, errors = run(*command(place, *words))
            want((status, errors), (4, b"fault\n"), f"the status and errors of {words[0]} with {kind} at {name}")
            want(output if front is not None else not output.endswith(END), front if front is not None else True, "the output")
            shutil.rmtree(place)
            place, _ = small_store(repositories, f"hostile {number}")
        # Nothing is written over a link: not a mark, not the folders, not a new file.
        for name in ("open.lock", "commit.lock", "objects", "refs"):
            other = repositories.path(f"hostile {number} {name}")
            put_other(other, name, kind)
            want_run(command(other, "import"), 4, b"", b"fault\n", input=stream_of(objects, []))
            want(os.listdir(other), [name], "what is in the folder")
        expect_same(outside, before)


CHECKS = (
    one_imports_at_a_time,
    tells_marks,
    passes_no_link,
)
