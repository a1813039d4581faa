"""The checks of tools/test on git gittuf and a desk: entries that go to it, and what comes of it."""

import contextlib
import os
import subprocess
import sys

import loaded
from checking import Failure, at_terminal, want
from guarded_clones import MAIN, another
from rows_objects import object_id

DESK = os.path.join(os.path.dirname(os.path.realpath(__file__)), "stand_in_desk.py")
LOG, THEIRS = "refs/gittuf/reference-state-log", "refs/gittuf-remotes/desk/reference-state-log"
BRANCH = "refs/remotes/desk/main"


@contextlib.contextmanager
def desk(*said):
    """A desk that has nothing yet, or that answers each push so, by its port."""
    with subprocess.Popen((sys.executable, DESK, *said), stdin=subprocess.DEVNULL, stdout=subprocess.PIPE) as ran:
        try:
            yield ran.stdout.readline().decode().strip()
        finally:
            ran.terminate()


def sent(clones, who, port, status=0):
    return clones.gittuf(who, "push", "--desk", port, status=status).decode().splitlines()


def entries(clones, who="alice"):
    """The ids of the entries of a clone's log, the first one first."""
    return clones.git("rev-list", "--reverse", LOG, who=who).decode().split()


def takes_each_entry_once(repositories):
    """a desk gets the entries that it lacks, one after the other, with their files, and the next call sends the new ones alone"""
    clones = another(repositories, "desk takes")
    with desk() as port:
        ids = entries(clones)
        want(sent(clones, "alice", port), [f"done {at + 1} {it}" for at, it in enumerate(ids)], "what the first push prints")
        want(sent(clones, "alice", port), [], "what the same push prints")
        clones.commit("alice", "folder/file")
        clones.gittuf("alice", "record", "main")
        clones.gittuf("alice", "note", "1", "-m", "seen")
        new = entries(clones)[len(ids) :]
        want(sent(clones, "alice", port), [f"done {len(ids) + at + 1} {it}" for at, it in enumerate(new)], "what a push of two more prints")
        status, said = at_terminal(f"git gittuf push --desk {port}", clones.path("alice"))
        want((status, said), (0, f"The desk has all {len(ids) + 2} entries that are here.\n"), "what is said where nothing is new")


def gives_what_it_has(repositories):
    """what a desk has comes as a remote's: its branches, its log, which is followed, and nothing of it where nothing is new"""
    clones = another(repositories, "desk gives")
    with desk() as port:
        clones.commit("alice")
        clones.gittuf("alice", "record", "main")
        sent(clones, "alice", port)
        found = clones.gittuf("bob", "fetch", "--desk", port).decode().splitlines()
        want(f"fetched {BRANCH} {clones.tip('alice')}" in found, True, f"what the first fetch prints: {found}")
        want(clones.tip("bob", THEIRS), clones.tip("alice", LOG), "the log of the desk")
        want(clones.tip("bob", LOG), clones.tip("alice", LOG), "the own log, which follows it")
        clones.git("merge", "--quiet", "--ff-only", BRANCH, who="bob")
        clones.verdict("bob", f"accepted {MAIN} 2 entries")
        want(clones.gittuf("bob", "fetch", "--desk", port), b"", "what the same fetch prints")
        clones.commit("bob")
        clones.gittuf("bob", "record", "main")
        found = clones.gittuf("bob", "doctor", status=1).decode()
        want(f"git gittuf push --desk {port}" in found, True, f"what doctor says: {found}")
        want(len(sent(clones, "bob", port)), 1, "how many entries bob sends")
        clones.gittuf("alice", "fetch", "--desk", port, "--remote", "shop")
        want(clones.tip("alice", "refs/remotes/shop/main"), clones.tip("bob"), "where alice has the branch")
        clones.git("fetch", "--quiet", "--all", who="alice")
        clones.git("merge", "--quiet", "--ff-only", "refs/remotes/shop/main", who="alice")
        clones.gittuf("alice", "push")
        clones.sound("alice", "bob")
        clones.git("tag", "v1", who="alice")
        clones.gittuf("alice", "record", "v1")
        sent(clones, "alice", port)
        way = f"refs/tags/v1 is not made here, as tags and others are not taken: git update-ref refs/tags/v1 {clones.tip('alice', 'v1')}"
        _, _, said = clones.asked("bob", "fetch", "--desk", port)
        want(way in said.decode(), True, f"what bob is told of a tag: {said}")
        clones.copied("bob", f"git update-ref refs/tags/v1 {clones.tip('alice', 'v1')}")
        want(clones.asked("bob", "fetch", "--desk", port), (0, b"", b""), "what is said of a tag that stands as at the desk")


def tells_nothing_of_remotes_of_others(repositories):
    """of what a desk has from the clone whose stream was brought into it, nothing that stood there of remotes is to be put here"""
    clones = another(repositories, "desk of a clone")
    clones.refused("bob", "doctor", "--take", "desk", status=3, part="and git gittuf fetch --desk PORT makes one of a desk")
    clones.git("push", "--quiet", "origin", "main:idea", who="alice")
    clones.gittuf("alice", "note", "1")
    clones.gittuf("alice", "push")
    with told(loaded.stream_of(clones.path("alice"))) as port:
        found, _, said = clones.asked("bob", "fetch", "--desk", port)
    want((found, said), (0, b""), "what bob is told")
    want(clones.tip("bob", "refs/remotes/desk/main"), clones.tip("alice"), "where bob has its branch")
    want("refs/gittuf-remotes/origin" in clones.git("for-each-ref", "refs/gittuf-remotes/desk", who="bob").decode(), False, "what else bob has of it")


def is_named_where_it_is_alone(repositories):
    """in a clone that has a desk and no remote of Git, what carries an entry to others is the desk, and no remote is wanted"""
    clones = another(repositories, "desk alone")
    with desk() as port:
        sent(clones, "alice", port)
        clones.gittuf("bob", "fetch", "--desk", port)
        clones.git("remote", "remove", "origin", who="bob")
        clones.commit("bob")
        status, said = at_terminal("git gittuf record main", clones.path("bob"))
        way = f"git gittuf push --desk {port}"
        want((status, f"{way} carries it to the desk." in said), (0, True), f"what is said once something is recorded: {said}")
        clones.refused("bob", "push", status=3, part=f"there is no remote but a desk: {way}")
        want(len(sent(clones, "bob", port)), 1, "how many entries bob sends there")


def says_what_an_answer_means(repositories):
    """each answer is a line, with a sentence for a person, and one that does not take the entry ends the call with 7"""
    clones = another(repositories, "desk answers")
    first, zeros = entries(clones)[0], "0" * 64
    for code, line, status, part in (
        (201, f"done 1 {first}", 0, "The desk has entry 1 now"),
        (200, "already 1", 0, "The desk had entry 1 already"),
        (409, f"stale 2 {first}", 7, "Another was faster: the desk has 2 entries by now"),
        (400, "malformed 14", 7, "The desk does not read the push of entry 1"),
        (422, f"incomplete {first}", 7, f"names {first[:12]}, which neither is here nor has the desk"),
        (413, "too large 67108865", 7, "larger than a push may be"),
        (422, "misnumbered 1 3", 7, "The desk wants entry 3 next"),
        (502, f"moved {first} {zeros}", 7, "moved the log in its store"),
        (500, "fault", 7, "The store of the desk failed"),
        (503, "memory", 7, "The desk wanted memory"),
        (403, f"violation {MAIN} 1 ref-rule main 0 of 2", 7, "of the 2 persons whom rule main wants 0 signed that"),
        (403, f"violation {MAIN} 1 path-rule {'a' * 4000}/{'%0A' * 2000} keys 0 of 1", 7, "git gittuf doctor --take desk give it up"),
        (403, "violation refs/gittuf/policy 1 not-epoch bad-root", 7, "recorded a policy that does not follow"),
    ):
        with desk(str(code), line) as port:
            found, said = at_terminal(f"git gittuf push --desk {port}", clones.path("alice"))
        want((found, said.splitlines()[0], part in said), (status, line, True), f"what is said of {line}: {said}")


def says_how_much_is_brought(repositories):
    """an entry that recorded more than a push may have is told with the line that brings a repository into the store of a desk"""
    clones = another(repositories, "desk large")
    for name in "abcde":
        clones.commit("alice", f"large/{name}", name * (14 << 20))
    clones.gittuf("alice", "record", "main")
    with desk() as port:
        found, printed, said = clones.asked("alice", "push", "--desk", port)
    way = b"has more than 64 MiB, and no desk takes it as one push: git-to-stream PROJECT | gittuf STORE - import"
    want((found, printed.count(b"done "), way in said), (3, 2, True), f"what is said of five files of 14 MiB: {said}")


def refuses_what_does_not_fit(repositories):
    """a desk that is none, is not there, has other entries or more, and words that do not fit are refused, and nothing goes"""
    clones = another(repositories, "desk refused")
    with desk("200", "welcome") as port:
        clones.refused("alice", "push", "--desk", port, status=4, part="answers 200: welcome")
        clones.refused("alice", "push", "main", "--desk", port, status=2, part="takes no branch")
        clones.refused("alice", "fetch", "--desk", port, "--remote", "origin", status=3, part="origin is a remote of Git already")
    with desk("0", "") as port:
        part = "it may have the entry all the same, and the same call again says so"
        clones.refused("alice", "push", "--desk", port, status=4, part=part)
    clones.refused("alice", "push", "--desk", port, status=4, part="does not answer")
    clones.refused("alice", "push", "--desk", "65536", status=2, part="is no port")
    with desk() as port:
        clones.gittuf("alice", "note", "1", "-m", "first")
        sent(clones, "alice", port)
        clones.refused("bob", "push", "--desk", port, status=3, part=f"git gittuf fetch --desk {port} brings them")
        clones.gittuf("bob", "note", "1", "-m", "second")
        clones.refused("bob", "push", "--desk", port, status=3, part="has another entry 3 than is here")
        found, _, said = clones.asked("bob", "fetch", "--desk", port)
        want((found, b"of desk went apart" in said), (0, True), f"what bob is told: {said}")
        clones.git("update-ref", "-d", THEIRS, who="bob")
        clones.refused("bob", "push", "--remote", "desk", status=3, part="desk is a desk")
        clones.refused("bob", "mirror", "desk", status=3, part=f"curl -s http://127.0.0.1:{port}/v1/stream | gittuf mirror.db - mirror")


def takes_nothing_of_a_bad_stream(repositories):
    """what a desk sends that is no stream, or that lacks an object, leaves every reference as it was"""
    clones = another(repositories, "desk lies")
    before = clones.git("for-each-ref", who="bob")
    for name, text, part in made_streams(clones):
        with told(text) as port:
            found, output, said = clones.asked("bob", "fetch", "--desk", port)
        if found not in (3, 4) or output or part not in said.decode():
            raise Failure(f"a stream that is {name} ended with {found}, {output!r} and {said!r}")
        want(clones.git("for-each-ref", who="bob"), before, f"the references after a stream that is {name}")


def stream(commit, at, value):
    """A stream of one commit, which stands there by this id, and of main at this value."""
    record = b"object %s commit %d\n%s\n" % (at, len(commit), commit)
    return b"gittuf-stream 1\n%sref %s %s\nend\n" % (record, MAIN.encode(), value)


def made_streams(clones):
    """Streams that are none, each with what is said of it."""
    commit = clones.git("cat-file", "commit", clones.tip("alice"), who="alice").replace(b"\n\n", b"\n\nanother ")
    lone = commit.replace(commit[5:69], b"ab" * 32)
    own, lacking = (object_id(b"commit", it).encode() for it in (commit, lone))
    yield "cut", b"gittuf-stream 1\n", "the stream is cut"
    yield "another", b"gittuf-push 1\nend\n", "is no stream"
    yield "false", stream(commit, b"ab" * 32, own), "has bytes whose id is"
    yield "lacking", stream(lone, lacking, lacking), "git does not take what the desk at port"
    yield "dangling", stream(commit, own, b"cd" * 32), "lacks something that it names"


@contextlib.contextmanager
def told(text):
    """A port at which one question is answered with this stream."""
    program = (
        "import http.server, sys\n"
        "class It(http.server.BaseHTTPRequestHandler):\n"
        "    log_message = lambda *_: None\n"
        "    def do_GET(self):\n"
        "        self.send_response(200); self.send_header('content-length', str(len(text))); self.end_headers(); self.wfile.write(text)\n"
        "text = sys.stdin.buffer.read()\n"
        "server = http.server.HTTPServer(('127.0.0.1', 0), It)\n"
        "print(server.server_port, flush=True)\n"
        "server.serve_forever()\n"
    )
    with subprocess.Popen((sys.executable, "-c", program), stdin=subprocess.PIPE, stdout=subprocess.PIPE) as ran:
        try:
            ran.stdin.write(text)
            ran.stdin.close()
            yield ran.stdout.readline().decode().strip()
        finally:
            ran.terminate()


CHECKS = (
    takes_each_entry_once,
    gives_what_it_has,
    tells_nothing_of_remotes_of_others,
    is_named_where_it_is_alone,
    says_what_an_answer_means,
    says_how_much_is_brought,
    refuses_what_does_not_fit,
    takes_nothing_of_a_bad_stream,
)
