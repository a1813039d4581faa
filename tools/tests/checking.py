"""What the checks of tools/test share: running programs, and holding what they do to what is wanted."""

import contextlib
import fcntl
import os
import pty
import resource
import select
import signal
import subprocess
import sys
import tempfile
import time

TOP = os.path.dirname(os.path.dirname(os.path.dirname(os.path.realpath(__file__))))
BRIDGE = os.path.join(TOP, "tools", "bridge")
# Some checks ask modules of git gittuf itself.
sys.path.insert(1, BRIDGE)
LAUNCHER = os.path.join(TOP, "gittuf")
BUILD_PROGRAM = os.path.join(TOP, "tools", "build", "build-program")
GIT_TO_STREAM = os.path.join(TOP, "tools", "git-to-stream")
STREAM_TO_GIT = os.path.join(TOP, "tools", "stream-to-git")
EMPTY_STREAM = os.path.join(TOP, "examples", "empty.stream")
EMPTY_TREE = b"object 6ef19b41225c5369f1c104d45d8d85efa9b057b53b14b4b9b939dd74decc5321 tree 0\n\n"
ZEROS = "0" * 64
VERIFY = ("-", "-", "verify-ref", "refs/heads/main", "--stdin")
ACCEPTED = b"accepted refs/heads/main 0 entries\n"
# How a question ends.
QUESTION = b"[y/N] "
# The first call may build the program, and no other takes long.
SECONDS = 120
# A script has many lines.
SCRIPT_SECONDS = 600
# The environment names the folder that the topics of a run share, and the programs, and says whether it is the longer run.
SHARED, PROGRAMS, LONG = "GITTUF_TEST_SHARED", "GITTUF_TEST_PROGRAMS", "GITTUF_TEST_LONG"


def programs():
    """The program that the launcher runs, the small one that it asks, and gittuf-inspect: those that are built here, or the
    released ones."""
    if SHARED in os.environ and PROGRAMS in os.environ:
        return os.environ[PROGRAMS].split("\n")
    told = subprocess.run((BUILD_PROGRAM, "--programs"), stdin=subprocess.DEVNULL, capture_output=True, check=True).stdout.decode()
    found = dict(line.split(" ", 1) for line in told.splitlines())
    built = (os.path.join(TOP, "crates", it, "out", it) for it in ("gittuf", "source_check", "gittuf_inspect"))
    return [found.get(word, path) for word, path in zip(("program", "small", "inspect"), built)]


PROGRAM, SMALL_PROGRAM, INSPECT = programs()


# What calls took of the processor that were no programs of their own, as others than this process counted it.
counted = []


def processor_seconds():
    """What the programs that have ended so far took of the processor, of which other work on the machine changes little."""
    used = resource.getrusage(resource.RUSAGE_CHILDREN)
    return used.ru_utime + used.ru_stime + sum(counted)


@contextlib.contextmanager
def shared():
    """A folder that all topics share, with what users keep in their caches and what is made once for all of them."""
    if SHARED in os.environ:
        yield
        return
    # What is compiled is to be kept there, and read by the tools that keep nothing themselves.
    os.environ.pop("PYTHONDONTWRITEBYTECODE", None)
    with tempfile.TemporaryDirectory(prefix="gittuf-test-") as folder:
        cache = os.path.join(os.path.realpath(folder), "cache")
        os.mkdir(cache)
        compiled = os.path.join(cache, "gittuf", "python")
        os.environ.update({SHARED: folder, "XDG_CACHE_HOME": cache, "PYTHONPYCACHEPREFIX": compiled})
        yield


def share_programs():
    """Tells the topics of a run which programs run. Only the launcher's first call may have made them, or seen that they are proved."""
    os.environ[PROGRAMS] = "\n".join(programs())


def shared_folder():
    """The folder of a run of tools/test that its topics share, which goes with the run."""
    return os.environ[SHARED]


def in_this_run(count, longer):
    """How often something is tried in this run, which is the longer one by `tools/test --long`."""
    return longer if os.environ.get(LONG) else count


@contextlib.contextmanager
def alone(name):
    """Lets the topics of a run do something one after the other, which have a lock of this name for it."""
    with open(os.path.join(shared_folder(), name), "wb") as lock:
        fcntl.flock(lock, fcntl.LOCK_EX)
        yield


class Failure(Exception):
    """What was found in place of what a check wants."""


class Skip(Exception):
    """Why a check cannot be made here."""


def run(*words, input=b"", folder=None, builds=False, seconds=SECONDS):
    """Runs a program to its end, and returns its status, its output and, where nothing is built, its errors.

    Where nothing is built it has so many seconds.
    """
    errors, most = (None, None) if builds else (subprocess.PIPE, seconds)
    try:
        ran = subprocess.run(words, input=input, cwd=folder, stdout=subprocess.PIPE, stderr=errors, timeout=most)
    except subprocess.TimeoutExpired:
        raise Failure(f"{os.path.basename(words[0])} did not end in {most} seconds") from None
    return ran.returncode, ran.stdout, ran.stderr


def at_terminal(script, folder, answer="y"):
    """Runs a script of bash where all of it is a terminal, on which a person answers each question so.

    Returns its status and what stands on the terminal then.
    """
    near, far = pty.openpty()
    ran = subprocess.Popen(("bash", "-c", script), cwd=folder, stdin=far, stdout=far, stderr=far, start_new_session=True)
    os.close(far)
    told, end = b"", time.monotonic() + SCRIPT_SECONDS
    while piece := read_until(near, end):
        told += piece
        if told.endswith(QUESTION):
            os.write(near, f"{answer}\n".encode())
    os.close(near)
    if time.monotonic() >= end:
        os.killpg(ran.pid, signal.SIGKILL)
        ran.wait()
        raise Failure(f"a script did not end in {SCRIPT_SECONDS} seconds, after {short(told[-400:])}")
    return ran.wait(), told.decode().replace("\r\n", "\n")


def on_terminal(*words, folder=None):
    """Runs a program of which standard error alone is a terminal.

    Returns its status, its output, and all that stands on the terminal once nobody can write there any more.
    """
    near, far = pty.openpty()
    ran = subprocess.run(words, cwd=folder, stdin=subprocess.DEVNULL, stdout=subprocess.PIPE, stderr=far, check=False)
    os.close(far)
    end = time.monotonic() + SCRIPT_SECONDS
    told = b"".join(iter(lambda: read_until(near, end), b""))
    os.close(near)
    return ran.returncode, ran.stdout, told.replace(b"\r\n", b"\n")


def read_until(terminal, end):
    """What stands on a terminal next, or nothing where it was closed, or not before this time."""
    try:
        ready, _, _ = select.select([terminal], [], [], max(end - time.monotonic(), 0))
        return os.read(terminal, 1 << 16) if ready else b""
    except OSError:
        return b""


def short(found):
    """A value for the line of a failure, cut where it is long."""
    found = repr(found)
    return found if len(found) <= 400 else f"{found[:400]}.."


def want(found, wanted, what):
    if found == wanted:
        return
    where = ""
    if isinstance(found, bytes) and isinstance(wanted, bytes):
        place = len(os.path.commonprefix([found, wanted]))
        where = f", which differ at byte {place}"
        found, wanted = found[max(place - 80, 0) :], wanted[max(place - 80, 0) :]
    raise Failure(f"{what}: found {short(found)}, and wanted is {short(wanted)}{where}")


def want_run(words, status, output=b"", errors=b"", **how):
    """Runs a program, and holds its status and all that it wrote to what is wanted."""
    found = run(*words, **how)
    name = os.path.basename(words[0])
    want(found[::2], (status, errors), f"the status and errors of {name}")
    want(found[1], output, f"the output of {name}")


def want_refusal(words, part, input=b""):
    """Runs a tool that is to refuse its work in one line with this part."""
    status, _, errors = run(*words, input=input)
    tool = os.path.basename(words[0])
    want(status, 1, f"the status of {tool}")
    if not errors.startswith(f"{tool}: ".encode()) or part not in errors or errors.count(b"\n") != 1:
        raise Failure(f"{tool} says {errors!r}, and one line with {part!r} is wanted")
