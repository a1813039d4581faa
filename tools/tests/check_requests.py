"""The checks of tools/test on the bytes of requests to a desk: cut ones, ones at the edges, and many that look drawn."""

import collections
import contextlib
import random
import socket

from check_serving import desk, guarded, imported, objects_in
from checking import PROGRAM, in_this_run, run, want
from desk_clients import connected, parts_of, received
from drawn_requests import NAMES, drawn_request, made_pushes
from slow_requests import LOG, SlowDesk
from stand_in_desk import PARENT

# So many requests are drawn in the shorter run, and in the longer one, and so many of the cut ones come in two pieces.
REQUESTS, MORE = 600, 10_000
SEED = 39
# The codes that the drawn requests reach. The others are those of a desk that takes something, or that fails.
CODES = (200, 400, 404, 405, 409, 411, 413, 422)


@contextlib.contextmanager
def asked_desk(repositories, name):
    """A desk over the example's store, by its port, with the slow reading of it."""
    place, stream = repositories.path(name), guarded()
    imported(place, stream)
    objects = objects_in(stream)
    log = [run(PROGRAM, place, "-", "log")[1].splitlines()[-1].split()[2]]
    while parent := PARENT.search(objects[log[0]][1]):
        log.insert(0, parent[1])
    kept = [it for it in NAMES if b"ref %s " % it in stream and it != LOG]
    verdicts = {it: run(PROGRAM, place, "-", "verify-ref", it)[1] for it in kept}
    want(len(verdicts), 3, "how many names of the store are asked for")
    with desk(place) as (_, port):
        yield port, SlowDesk(stream, objects, log, verdicts)


def told(port, *pieces):
    """What comes of a request in pieces behind which the input ends: the code and the body of the reply, or nothing."""
    with connected(port) as link:
        for it in pieces:
            link.sendall(it)
        link.shutdown(socket.SHUT_WR)
        came = received(link)
    return parts_of(came) if came else None


def head(*lines):
    return b"".join(it + b"\r\n" for it in (b"POST /v1/push HTTP/1.1", *lines, b""))


def answers_what_is_cut(repositories):
    """a request that is cut at any byte, of its head or its body, is a bad one, nothing is answered to none, and one in two pieces is as one"""
    with asked_desk(repositories, "cut.db") as (port, slow):
        text = b"gittuf-push 1\nnone\n"
        push = head(b"host: localhost", b"content-length: %d" % len(text)) + text
        for request, whole in ((b"GET /v1/tip HTTP/1.1\r\nhost: localhost\r\n\r\n", slow.reply(b"GET /v1/tip HTTP/1.0\n\n")), (push, (400, b"malformed 14\n"))):
            want(told(port, request), whole, "the reply to the whole request")
            for at in range(len(request)):
                want(told(port, request[:at]), (400, b"bad request\n") if at else None, f"the reply to {request[:at]!r}")
                want(told(port, request[:at], request[at:]), whole, f"the reply to the same in two pieces, the first {request[:at]!r}")


def reads_lengths(repositories):
    """of a length that is said twice, is past 2^63, has a sign, a zero or spaces in it nothing is read, and only spaces beside one are none of it"""
    text, bad = b"gittuf-push 1\n", (400, b"bad request\n")
    taken, large = (400, b"malformed 14\n"), lambda it: (413, b"too large %d\n" % it)
    size = b"%d" % len(text)
    rows = (
        ([size], taken),
        ([b"  " + size + b"\t "], taken),
        ([], (411, b"length required\n")),
        ([size, size], bad),
        ([size, b"0"], bad),
        ([b"%d" % (1 << 63)], bad),
        ([b"%d" % (1 << 64)], bad),
        ([b"%d" % ((1 << 63) - 1)], large((1 << 63) - 1)),
        ([b"%d" % ((64 << 20) + 1)], large((64 << 20) + 1)),
        ([b"%d" % (64 << 20)], bad),
        ([b"%d" % (len(text) + 1)], bad),
        ([b"%d" % (len(text) - 1)], (400, b"malformed 0\n")),
        *(([it], bad) for it in (b"+" + size, b"-" + size, b"0" + size, b"1 4", b"14,14", b"14 14", b"0xe", b"1e1", b"", b"14.0", b"\xd9\xa1\xd9\xa4")),
    )
    with asked_desk(repositories, "lengths.db") as (port, slow):
        for values, wanted in rows:
            request = head(*(b"content-length:" + b" " + it for it in values)) + text
            want(told(port, request), wanted, f"the reply where the lengths {values} are said")
            want(slow.reply(request), wanted, f"what the slow reading says of {values}")


def answers_drawn_ones(repositories):
    """requests that look drawn get the replies that a slow reading of the formats gives, and change nothing"""
    drawn, seen = random.Random(SEED), collections.Counter()
    with asked_desk(repositories, "drawn.db") as (port, slow):
        texts = [*made_pushes(slow.shop.objects, slow.shop.log)]
        for turn in range(in_this_run(REQUESTS, MORE)):
            request = drawn_request(drawn, texts)
            wanted = slow.reply(request)
            want(told(port, request), wanted, f"the reply to request {turn} of seed {SEED}, {request[:200]!r}")
            seen[wanted and wanted[0]] += 1
        want(told(port, b"GET /v1/stream HTTP/1.1\r\n\r\n"), (200, guarded()), "the stream in the end")
    want([it for it in CODES if not seen[it]], [], "the codes that no request reached")
    return ", ".join(f"{count} {code or 'silent'}" for code, count in sorted(seen.items(), key=str))


CHECKS = (answers_what_is_cut, reads_lengths, answers_drawn_ones)
