"""The checks of tools/test on key files, and on a log that the commands write."""

import fcntl
import os
import re
import shutil
import stat

from checking import ACCEPTED, PROGRAM, ZEROS
from checking import Failure, run, want, want_run
from made_folders import IMPORTED, command

KEY_LINE = re.compile(rb"key [0-9a-f]{64} [0-9a-f]{112}\n")
ENTRY_LINE = re.compile(rb"entry ([0-9]+) ([0-9a-f]{64})\n")
LOG = "refs/gittuf/reference-state-log"


def bytes_of(path):
    with open(path, "rb") as file:
        return file.read()


def line_of(form, words, input=b""):
    """Runs a command that is to succeed with one line of this form, and returns the line's match."""
    status, output, errors = run(*words, input=input)
    want((status, errors), (0, b""), f"the status and errors of {words[3]}")
    found = form.fullmatch(output)
    if not found:
        raise Failure(f"{words[3]} printed {output!r}")
    return found


def makes_a_key_once(repositories):
    """key-gen makes a key file that is its owner's alone, and leaves one that is there"""
    key = repositories.path("once.key")
    words = (PROGRAM, "-", key, "key-gen", "5", "8")
    line_of(KEY_LINE, words)
    want(stat.S_IMODE(os.stat(key).st_mode), 0o600, "the rights on the key file")
    made = bytes_of(key)
    want(len(made), 96, "the bytes of the key file")
    want_run(words, 3, errors=b"not empty\n")
    want(bytes_of(key), made, "the key file that was there")


def keeps_a_second_signer_out(repositories):
    """a key file that another program has locked is a fault, and stays as it is"""
    key = repositories.path("locked.key")
    with open(key, "wb") as file:
        fcntl.flock(file, fcntl.LOCK_EX)
        want_run((PROGRAM, "-", key, "key-gen", "5", "8"), 4, errors=b"fault\n")
    want(bytes_of(key), b"", "the key file")


def makes_no_key_file_unasked(repositories):
    """a command that uses no key, and words outside the grammar, make no key file"""
    key = repositories.path("unasked.key")
    want_run((PROGRAM, "-", key, "verify-ref", "refs/heads/main"), 0, ACCEPTED)
    want_run((PROGRAM, "-", key, "key-gen", "5", "3"), 2, errors=b"words refused\n")
    want(os.path.exists(key), False, "whether the key file is there")


def records_a_log(repositories):
    """what record writes is what log prints, and passes git fsck --strict as a Git repository"""
    repositories.needed()
    place, key = repositories.path("logged"), repositories.path("log.key")
    want_run(command(place, "import"), 0, IMPORTED, input=repositories.stream_of())
    line_of(KEY_LINE, (PROGRAM, "-", key, "key-gen", "5", "4"))
    tip = repositories.git("rev-parse", "refs/heads/main").decode().strip()
    lines, ids = b"", []
    for number, (name, target) in enumerate((("refs/heads/main", tip), ("refs/heads/gone", ZEROS)), start=1):
        found = line_of(ENTRY_LINE, (PROGRAM, f"{place}/", key, "record", name))
        want(int(found[1]), number, "the number of the entry")
        ids.append(found[2].decode())
        lines += f"entry {number} {ids[-1]} ref {name} {target}\n".encode()
    want(bytes_of(key)[64:], b"\1\1" + bytes(30), "the leaves of the key file that are used")
    want_run(command(place, "log"), 0, lines)
    want_run(command(place, "verify-ref", "refs/heads/main"), 1, b"violation refs/heads/main 1 no-policy\n")
    status, stream, _ = run(*command(place, "export"))
    want(status, 0, "the status of export")
    repositories.from_stream(stream, "logged.git")
    repositories.git("fsck", "--strict", name="logged.git")
    found = repositories.git("log", "--format=%H", LOG, name="logged.git").decode().split()
    want(found, ids[::-1], "the log as Git reads it")


def names_a_break(repositories):
    """a log that stands at a commit which is no entry is told to be broken there"""
    project = repositories.needed()
    tip = repositories.git("rev-parse", "refs/heads/main").decode().strip()
    shutil.copytree(project, repositories.path("breaking"), symlinks=True)
    repositories.git("update-ref", LOG, tip, name="breaking")
    place = repositories.path("broken")
    want_run(command(place, "import"), 0, IMPORTED, input=repositories.stream_of("breaking"))
    line = f"log-broken {tip}\n".encode()
    want_run(command(place, "log"), 3, line)
    want_run(command(place, "verify-ref", "refs/heads/main"), 3, line)


CHECKS = (
    makes_a_key_once,
    keeps_a_second_signer_out,
    makes_no_key_file_unasked,
    records_a_log,
    names_a_break,
)
