"""The text of a repository as a stream, and what git-to-stream and stream-to-git share.

    gittuf-stream 1 LF
    object <id> <kind> <size> LF <body> LF      by rising id
    ref <name> <id> LF                          by rising bytes of the name
    end LF

An id is the SHA-256, in lower-case hexadecimal, of the kind, a space, the size in decimal, a zero byte and the body.
"""

import functools
import hashlib
import os
import re
import signal
import subprocess
import sys

HEADER = b"gittuf-stream 1\n"
END = b"end\n"
KINDS = (b"blob", b"tree", b"commit", b"tag")
MAX_BODY = 16 << 20
MAX_STREAM = 1 << 30
MAX_NAME = 255
MAX_COMPONENTS = 16
# Bodies are handed on in pieces of this many bytes, so that no large one is held as a whole.
PIECE = 1 << 20

ID = rb"[0-9a-f]{64}"
# What a name may not hold; the second line says what no part of it may be, begin with or end with.
NOT_IN_NAMES = re.compile(
    rb"\.\.|@\{|[\x00-\x20\x7f~^:?*\[\\]"
    rb"|//|/\.|\.lock(?:/|\Z)|[./]\Z"
)


class Refused(Exception):
    """Why the work ended early, in one line for the person who called."""


@functools.lru_cache(maxsize=1 << 16)
def is_reference_name(name):
    """Whether a stream takes these bytes as the name of a reference."""
    try:
        name.decode("utf-8")
    except UnicodeDecodeError:
        return False
    is_short = len(name) <= MAX_NAME and name.count(b"/") < MAX_COMPONENTS
    return is_short and name.startswith(b"refs/") and not NOT_IN_NAMES.search(name)


def hash_of(kind, size):
    """The hash that gives an object's id once its body has been added."""
    return hashlib.sha256(b"%s %d\0" % (kind, size))


def readable(name):
    """A name for an error's line, with each byte outside printed ASCII escaped."""
    return "".join(chr(it) if 32 < it < 127 else f"\\x{it:02x}" for it in name)


def environment():
    """The environment for git, without what would lead it to another repository or to other objects."""
    kept = re.compile("(?!GIT_)|GIT_(EXEC_PATH|CONFIG|CEILING)")
    found = {name: value for name, value in os.environ.items() if kept.match(name)}
    # Neither a replacement nor a graft is what an object says.
    true = {"GIT_NO_REPLACE_OBJECTS": "1", "GIT_GRAFT_FILE": os.devnull, "GIT_NO_LAZY_FETCH": "1"}
    return {**found, **true, "LC_ALL": "C"}


def temporary():
    """A file without a name, which goes once it is closed."""
    if hasattr(os, "memfd_create"):
        return open(os.memfd_create("gittuf"), "w+b")
    # It takes long to load.
    import tempfile

    return tempfile.TemporaryFile()


class Git:
    """A running git, of which nothing is left when the `with` block ends."""

    # Files that each git has open too, as the lock of a call that is to last as long as what it started.
    kept_open = ()
    # What each git is told beside, as where the objects of a push stand that is not taken yet.
    told_too = {}

    def __init__(self, *words, input=subprocess.DEVNULL):
        # What it said, a line each, is here once it has ended.
        self.said, self.lines = temporary(), []
        try:
            how = {"stdin": input, "stdout": subprocess.PIPE, "stderr": self.said, "env": {**environment(), **self.told_too}}
            how["pass_fds"] = self.kept_open
            self.process = subprocess.Popen(["git", *words], bufsize=PIECE, **how)
        except FileNotFoundError:
            raise Refused("git is not installed, or not on the PATH") from None
        self.output = self.process.stdout

    def __enter__(self):
        return self

    def __exit__(self, *_):
        self.process.kill()
        self.process.wait()
        self.output.close()
        self.said.close()

    def end(self):
        """Waits for its end, and returns its status and what it said of an error in a line, or the empty text."""
        status = self.process.wait()
        self.said.seek(0)
        lines = self.said.read().decode(errors="replace").strip().splitlines()
        lines += [f"it ended with status {status}"] if status and not lines else []
        self.lines = lines
        # Advice can follow the line that tells what is wrong.
        fatal = [it for it in lines if it.startswith("fatal: ")]
        said = (fatal or lines[-1:] or [""])[0]
        return status, re.sub("^(fatal|error|warning): ", "", said)


def git(*words, input=b""):
    """Runs git to its end, and returns its status, its output and what it said of an error."""
    with temporary() as given:
        given.write(input)
        given.seek(0)
        with Git(*words, input=given) as ran:
            output = ran.output.read()
            status, said = ran.end()
            return status, output, said


def main(tool, usage, work):
    """Runs the tool's work on its one word. A refusal is one line on standard error, and status 1."""
    words = sys.argv[1:]
    if words in (["--help"], ["-h"]):
        print(usage.strip())
        return 0
    if len(words) != 1 or not words[0]:
        print(f"{tool}: takes one word; {tool} --help says more", file=sys.stderr)
        return 2

    def interrupt(number, _):
        raise Refused(f"stopped by {signal.Signals(number).name}")

    for it in (signal.SIGINT, signal.SIGTERM, signal.SIGHUP):
        signal.signal(it, interrupt)
    try:
        work(words[0])
        return 0
    except Refused as why:
        print(f"{tool}: {why}", file=sys.stderr)
    except BrokenPipeError:
        print(f"{tool}: standard output was closed before the end", file=sys.stderr)
    except OSError as error:
        print(f"{tool}: {': '.join(filter(None, [error.filename, error.strerror]))}", file=sys.stderr)
    return 1
