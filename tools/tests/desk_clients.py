"""Clients of a desk over sockets of their own, which push at once, and a slow reading of the log that must come of it.

`desk_clients.py PORT NAME SECONDS` is one of them, for measurements: it pushes for so many seconds to a desk that had
nothing, and prints how many of its entries the desk took and how many were stale.
"""

import re
import socket
import sys
import threading
import time
from typing import NamedTuple

sys.dont_write_bytecode = True

from rows_objects import EMPTY_TREE, FILE, ZEROS, Repository, object_id, tree_body
from rows_of_pushes import pushed, record

LOG = "refs/gittuf/reference-state-log"
WHO = b"client <client@localhost> 0 +0000"
ENTRY = "tree {tree}\n{parent}author {who}\ncommitter {who}\n\nRSL Reference Entry\n\nref: {reference}\ntargetID: {target}\nnumber: {number}\n"
REPLY = re.compile(
    rb"HTTP/1\.1 ([0-9]{3}) ([A-Z][A-Za-z ]*)\r\ncontent-type: text/plain\r\ncontent-length: ([0-9]+)\r\nconnection: close\r\n\r\n(.*)",
    re.DOTALL,
)
# A desk lets a connection wait for 30 seconds, so a client that waits for longer waits in vain.
SECONDS = 60
PIECE = 1 << 16
# The most bytes of a head and of a body.
HEAD, BODY = 16_384, 64 << 20


class Lost(OSError):
    """A connection ended before a whole reply had come."""


def connected(port):
    link = socket.create_connection(("127.0.0.1", port), SECONDS)
    link.setsockopt(socket.IPPROTO_TCP, socket.TCP_NODELAY, 1)
    return link


def received(link):
    """All that comes until the other end closes."""
    return b"".join(iter(lambda: link.recv(PIECE), b""))


def parts_of(came):
    """The code and the body of a reply, which is to have come whole and with nothing behind it."""
    found = REPLY.fullmatch(came)
    if not found or int(found[3]) != len(found[4]):
        raise Lost(f"no whole reply came, but {came[:200]!r}")
    return int(found[1]), found[4]


def asked(port, request):
    """What a desk replies to the bytes of a request."""
    with connected(port) as link:
        link.sendall(request)
        return parts_of(received(link))


def post(text):
    """The bytes of the request that brings a push."""
    return b"POST /v1/push HTTP/1.1\r\nhost: localhost\r\ncontent-length: %d\r\n\r\n" % len(text) + text


def entry_of(number, parent, reference, target):
    """The body of an unsigned entry of this number."""
    behind = "" if parent == ZEROS else f"parent {parent}\n"
    words = {"tree": EMPTY_TREE, "who": WHO.decode(), "reference": reference, "target": target, "number": number}
    return ENTRY.format(parent=behind, **words).encode()


def large_push(size=BODY):
    """A push of so many bytes, the most that are read or fewer, which no log takes: its entry is behind another than the last."""
    entry = (b"commit", entry_of(2, "ab" * 32, "refs/heads/large", ZEROS))
    largest = size // 4
    # Each record has the digits of its size in place of the one of an empty body.
    digits = 4 * (len(record(b"blob", b"")) - 1 + len(str(largest)))
    last = size - 3 * largest - digits - len(pushed([entry], object_id(*entry)))
    blobs = [(b"blob", b"%d" % at * length) for at, length in enumerate((largest, largest, largest, last))]
    return pushed([entry, *blobs], object_id(*entry))


def slowly(port, request, waits, may_end):
    """What a desk replies to a request that comes piece by piece, and whose last byte comes once it may."""
    with connected(port) as link:
        for at in range(0, len(request) - 1, 1 << 20):
            link.sendall(request[at : at + (1 << 20)][: len(request) - 1 - at])
            time.sleep(0.001)
        waits()
        may_end()
        link.sendall(request[-1:])
        return parts_of(received(link))


def memory_of(process, word):
    """What a process has of memory by the word of the system, `VmRSS` for now and `VmHWM` for the most so far, in bytes."""
    with open(f"/proc/{process}/status", encoding="ascii") as file:
        return 1024 * int(re.search(rf"^{word}:\s+(\d+) kB$", file.read(), re.MULTILINE)[1])


class Change(NamedTuple):
    """A change with the number and the id of its entry, where it stands, and all objects of it."""

    number: int
    id: str
    branch: str
    target: str
    objects: list


class Client:
    """Somebody who records one change after another of a branch of their own: a commit, its tree and a file each.

    A change is recorded behind the last entry that the client knows of, and anew where another was faster; where no
    reply came the same entry is sent again, since the desk may have taken it. `told` has each change that the desk said
    to have taken, in the order in which it was said, and `sent` the one of which nothing is known.
    """

    def __init__(self, name, count=0, tip=ZEROS):
        self.branch, self.name = f"refs/heads/{name}", name
        self.count, self.tip, self.told = count, tip, []
        self.stale = self.again = self.already = 0
        self.sent, self.parent = None, None
        self.change()

    def change(self):
        """Makes the next change behind the one before."""
        blob = (b"blob", b"change %d of %s\n" % (len(self.told) + 1, self.name.encode()))
        tree = (b"tree", tree_body([(FILE, b"file", object_id(*blob))]))
        behind = b"parent %s\n" % self.parent.encode() if self.parent else b""
        lines = b"tree %s\n%sauthor %s\ncommitter %s\n\nchange\n" % (object_id(*tree).encode(), behind, WHO, WHO)
        self.objects = [blob, tree, (b"commit", lines)]
        self.target = object_id(*self.objects[-1])

    def push(self, port):
        """Sends the change once, and tells whether the desk has it now."""
        if self.sent is None:
            entry = (b"commit", entry_of(self.count + 1, self.tip, self.branch, self.target))
            self.sent = Change(self.count + 1, object_id(*entry), self.branch, self.target, [*self.objects, entry])
        else:
            self.again += 1
        sent = self.sent
        code, body = asked(port, post(pushed(sent.objects, sent.id)))
        self.sent = None
        word, *rest = body.decode().split()
        if (code, word) == (409, "stale"):
            self.stale += 1
            self.count, self.tip = int(rest[0]), rest[1]
            return False
        if (code, word, *rest) not in ((201, "done", str(sent.number), sent.id), (200, "already", str(sent.number))):
            raise ValueError(f"a desk answered entry {sent.number}, {sent.id}, by {code} and {body!r}")
        self.already += word == "already"
        self.count, self.tip, self.parent = sent.number, sent.id, sent.target
        self.told.append(sent)
        self.change()
        return True


def push_at_once(port, clients, goes_on):
    """Lets all clients push side by side, each for as long as that holds of it or until its connection is lost, and tells
    how many were lost."""
    ends = []

    def work(client):
        try:
            while goes_on(client):
                client.push(port)
        except Exception as why:
            ends.append(why)

    threads = [threading.Thread(target=work, args=(it,)) for it in clients]
    for it in threads:
        it.start()
    for it in threads:
        it.join()
    for it in ends:
        if not isinstance(it, OSError):
            raise it
    return len(ends)


def repository_of(changes, before):
    """The repository of a desk that had the objects and references of another before, and took these changes."""
    made = Repository()
    made.objects.update((id.decode(), it) for id, it in before.objects.items())
    made.references.update(before.references)
    for it in sorted(changes, key=lambda it: it.number):
        made.objects.update((object_id(*one), one) for one in it.objects)
        made.set(it.branch, it.target)
        made.set(LOG, it.id)
    return made


def main():
    port, name, seconds = sys.argv[1:]
    client, end = Client(name), time.monotonic() + float(seconds)
    while time.monotonic() < end:
        client.push(int(port))
    print(len(client.told), client.stale)


if __name__ == "__main__":
    main()
