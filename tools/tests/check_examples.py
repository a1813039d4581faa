"""The checks of tools/test on the streams of examples/: what README shows first."""

import os
import re

from checking import LAUNCHER, TOP, VERIFY, want, want_run

MAKE_EXAMPLE = os.path.join(TOP, "tools", "make-example")
KEPT = os.path.join(TOP, "examples", "guarded.stream")
MOST = 60_000
LOG, MAIN, ATTESTATIONS = b"refs/gittuf/reference-state-log", b"refs/heads/main", b"refs/gittuf/attestations"
ENTRY = re.compile(rb"^object ([0-9a-f]{64}) commit \d+\n(?:(?!\nobject ).)*?\nref: (\S+)\ntargetID: ([0-9a-f]{64})\nnumber: (\d+)\n", re.MULTILINE | re.DOTALL)


def stream_of():
    with open(KEPT, "rb") as file:
        return file.read()


def makes_the_kept_example(repositories):
    """make-example makes examples/guarded.stream, which has at most 60 kB, and of which the verdict is accepted"""
    made, stream = repositories.path("guarded.stream"), stream_of()
    want_run((MAKE_EXAMPLE, made), 0)
    with open(made, "rb") as file:
        want(file.read(), stream, "the stream")
    want(len(stream) <= MOST, True, f"that {len(stream)} bytes are at most {MOST}")
    want_run((LAUNCHER, *VERIFY), 0, b"accepted refs/heads/main 4 entries\n", input=stream)
    return f"{len(stream)} bytes"


def tells_the_violation(repositories):
    """as the example stood before its recovery, the verdict was the violation that make-example tells"""
    stream = stream_of()
    entries = {int(number): (id, name, target) for id, name, target, number in ENTRY.findall(stream)}
    bad, name, stolen = entries[6]
    want(name, MAIN, "the reference of entry 6")
    for reference, id in ((LOG, bad), (MAIN, stolen), (ATTESTATIONS, entries[4][2])):
        stream, count = re.subn(rb"^ref %s [0-9a-f]{64}$" % reference, b"ref %s %s" % (reference, id), stream, flags=re.MULTILINE)
        want(count, 1, f"how often {reference.decode()} stands in the example")
    want_run((LAUNCHER, *VERIFY), 1, b"violation refs/heads/main 6 ref-rule main 0 of 2\n", input=stream)


def reads_as_git(repositories):
    """the example is a Git repository that git fsck --strict passes, and goes both ways"""
    repositories.needed()
    repositories.from_stream(stream_of(), "example.git")
    repositories.git("fsck", "--strict", name="example.git")
    want(repositories.git("rev-list", "--count", "main", name="example.git"), b"4\n", "the number of commits on main")


CHECKS = (makes_the_kept_example, tells_the_violation, reads_as_git)
