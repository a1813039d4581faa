"""The program gittuf, run on the store, and what a person at a terminal is told while something takes long."""

import os
import subprocess
import sys
import time

from git_gittuf.budgets import budget
from git_gittuf.repository import Stopped
from stream_format import Git

TOP = os.path.dirname(os.path.dirname(os.path.dirname(os.path.dirname(os.path.realpath(__file__)))))
LAUNCHER = os.path.join(TOP, "gittuf")
# What a command of the program is asked of.
CALLED = LAUNCHER
# The names of gittuf-inspect where it is packed or released, for each processor and for a newer one.
INSPECT, NEWER_INSPECT = "gittuf-inspect", "gittuf-inspect-x86-64-v3"
# What the launcher looks at, in each of the places where a program may be.
NAMES = ("gittuf", "gittuf-x86-64-v2", "gittuf-x86-64-v3", INSPECT, NEWER_INSPECT, "gittuf.cpu", "gittuf.sources", "version")
# Where the program gittuf-inspect was built here.
BUILT_INSPECT = os.path.join(TOP, "crates", "gittuf_inspect", "out", "gittuf_inspect")
# A person waits so many seconds before something is said.
PATIENCE = 2


def released():
    """The folders into which the launcher may have unpacked released programs."""
    cache = os.environ.get("XDG_CACHE_HOME") or os.path.join(os.environ.get("HOME", "/nowhere"), ".cache")
    return [os.path.join(TOP, "crates", "gittuf", "out", "released"), f"{cache}/gittuf{TOP}"]


def files():
    """The files that decide which programs run and what they are: those that are built, released or packaged here, and their sources."""
    folders = [TOP, os.path.join(TOP, "crates", "gittuf", "out"), *released()]
    found = [BUILT_INSPECT, *(os.path.join(folder, name) for folder in folders for name in NAMES)]
    for folder in folders[1:]:
        try:
            with open(os.path.join(folder, "gittuf.files"), encoding="utf-8") as file:
                found += [os.path.join(TOP, it.rstrip("\n")) for it in file]
        except OSError:
            # No program is there.
            continue
    return found


class Ended(Exception):
    """The program ended with another status than 0, and has said why."""

    def __init__(self, words, status, printed):
        super().__init__(words[0])
        self.words, self.status, self.printed = words, status, printed


class Progress:
    """A line on a terminal that is written over, and nothing elsewhere."""

    def __init__(self, patience=PATIENCE):
        self.start, self.last, self.patience = time.monotonic(), 0, patience
        self.shown = False

    def tell(self, line):
        now = time.monotonic()
        if now - self.start < self.patience or now - self.last < 0.2 or not os.isatty(2):
            return
        self.last, self.shown = now, True
        os.write(2, f"\r\033[K{line}".encode())

    def end(self):
        if self.shown:
            os.write(2, b"\r\033[K")
        self.shown, self.start = False, time.monotonic()


def run(store, key, *words, input=b"", output=subprocess.PIPE):
    """Runs the program to its end, and returns its status and what it printed. Its errors go to the caller's."""
    return ended(CALLED, (store, key, *words), input, False, output)[:2]


def told(store, key, *words, input=b""):
    """The same with what it said of an error, which goes nowhere else."""
    status, printed, said = ended(CALLED, (store, key, *words), input, True)
    return status, printed, said.decode(errors="replace").strip()


def offered(store, pieces, *words):
    """The same as `told` for standard input in pieces, which is not held as a whole. The program may take it for none early."""
    command = (CALLED, store, "-", *words)
    how = {"stdin": subprocess.PIPE, "stdout": subprocess.PIPE, "stderr": subprocess.PIPE, "pass_fds": Git.kept_open}
    with subprocess.Popen(command, **how) as ran:
        try:
            with ran.stdin:
                for it in pieces:
                    ran.stdin.write(it)
        except BrokenPipeError:
            # What it says of that decides.
            pass
        except BaseException:
            ran.kill()
            raise
        # It prints a line, and only once nothing more comes in.
        printed, said = ran.stdout.read(), ran.stderr.read()
    return ran.returncode, printed, said.decode(errors="replace").strip()


def piped(first, second):
    """Gives what the program prints for these words to it for others, and returns what either says that failed, or nothing."""
    how = {"stdout": subprocess.PIPE, "stderr": subprocess.PIPE, "pass_fds": Git.kept_open}
    with subprocess.Popen((CALLED, *first), stdin=subprocess.DEVNULL, **how) as gives:
        with subprocess.Popen((CALLED, *second), stdin=gives.stdout, **how) as takes:
            # Where nobody takes any more, who gives is to be told.
            gives.stdout.close()
            said = takes.communicate()[1], gives.stderr.read()
    ends = (first[-1], gives.returncode, said[1]), (second[-1], takes.returncode, said[0])
    return ", ".join(f"{word} says {text.decode(errors='replace').strip() or status}" for word, status, text in ends if status)


def ended(called, words, input, is_told, output=subprocess.PIPE):
    """Runs a program to its end. What it says of an error is told with its status and what it printed, or else goes to the caller's."""
    command, errors = (called, *words), subprocess.PIPE if is_told else None
    sys.stdout.flush()
    started, progress = time.monotonic(), Progress()
    # Where the program itself writes on the terminal a line would stand among its own.
    quiet = output is None and os.isatty(1)
    try:
        ran = subprocess.Popen(command, stdin=subprocess.PIPE, stdout=output, stderr=errors, pass_fds=Git.kept_open)
    except OSError as error:
        raise Stopped(f"{called} does not run: {error.strerror}") from None
    budget.hold(ran.pid)
    with ran:
        while True:
            try:
                printed, said = ran.communicate(input, timeout=PATIENCE)
                break
            except subprocess.TimeoutExpired:
                # What was given is remembered, and may not be given again.
                input = None
                if not quiet:
                    name, word = os.path.basename(called), words[1 if called != CALLED else 2]
                    progress.tell(f"{name} {word} is at work, for {time.monotonic() - started:.0f} s now")
    progress.end()
    budget.expect_left(ran.returncode)
    return ran.returncode, printed, said
