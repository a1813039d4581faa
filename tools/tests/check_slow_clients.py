"""The checks of tools/test on clients of a desk that send nothing, or little, or slowly: what they keep from others, for how long, and in how much memory."""

import contextlib
import select
import threading
import time

from check_serving import desk, tip_of
from checking import ZEROS, in_this_run, want
from desk_clients import BODY, HEAD, connected, large_push, memory_of, parts_of, post, received, slowly

TIP = b"GET /v1/tip HTTP/1.1\r\nhost: localhost\r\n\r\n"
EMPTY = 200, f"tip 0 {ZEROS}\n".encode()
# So many questions of others are answered beside a client that waits.
OTHERS = 20
# A connection ends after so many seconds without a byte, and the system is given some more.
LIMIT, MORE = 30, 5
# A thread's stack and what a store and a listener have are little beside the requests.
LITTLE = 1 << 20


def is_quiet(link, seconds=0):
    """Whether nothing comes on a connection for so long, and it does not end."""
    return not select.select([link], [], [], seconds)[0]


def keeps_one_worker(repositories):
    """a client that sends nothing, or one byte, keeps one worker of two, the other answers all others, and it is answered itself once it asks"""
    for front in (b"", b"G", TIP[:-1]):
        with desk("-") as (_, port), connected(port) as slow:
            slow.sendall(front)
            for _ in range(OTHERS):
                want(tip_of(port), EMPTY[1], "the tip beside a client that waits")
            want(is_quiet(slow), True, f"whether the client waits that sent {front!r}")
            with connected(port) as second, connected(port) as third:
                second.sendall(front)
                third.sendall(TIP)
                want(is_quiet(third, 0.2), True, "whether nobody is answered while both workers wait")
                slow.sendall(TIP[len(front) :])
                want(parts_of(received(slow)), EMPTY, "what the first client is answered in the end")
                want(parts_of(received(third)), EMPTY, "what the third is answered then")


def ends_who_sends_nothing(repositories):
    """a connection ends after 30 seconds without a byte, and not while bytes come (with --long; else that it lives for two)"""
    with desk("-", 3) as (_, port), connected(port) as silent, connected(port) as begun, connected(port) as lives:
        start, at = time.monotonic(), 0
        begun.sendall(TIP[:1])
        if not in_this_run(False, True):
            want([is_quiet(it, 1) for it in (silent, begun)], [True] * 2, "whether both connections live after two seconds")
            return
        while time.monotonic() < start + LIMIT + MORE:
            if time.monotonic() < start + LIMIT - MORE:
                want([is_quiet(it) for it in (silent, begun)], [True] * 2, "whether both connections live before their time")
            lives.sendall(TIP[at : at + 1])
            at += 1
            time.sleep(3)
        want([received(it) for it in (silent, begun)], [b""] * 2, "what comes on the connections without a byte")
        lives.sendall(TIP[at:])
        want(parts_of(received(lives)), EMPTY, "what the client is answered that sent byte by byte")


def holds_what_comes(repositories):
    """what a desk holds of large pushes that come slowly is at most its workers' times one and a head, and twice that once they are looked at"""
    workers, size = in_this_run((2, BODY // 4), (3, BODY))
    request = post(large_push(size))
    whole, may_end, replies = threading.Semaphore(0), threading.Event(), []
    with desk("-", workers) as (ran, port):
        before = memory_of(ran.pid, "VmRSS")
        ask = lambda: replies.append(slowly(port, request, whole.release, may_end.wait))
        clients = [threading.Thread(target=ask) for _ in range(workers + 1)]
        with ended(clients, may_end):
            for _ in range(workers):
                want(whole.acquire(timeout=60), True, "whether a worker takes all but the last byte")
            held = memory_of(ran.pid, "VmHWM") - before
        most = memory_of(ran.pid, "VmHWM") - before
    want(replies, [(409, f"stale 0 {ZEROS}\n".encode())] * len(clients), "the replies to the pushes")
    want(held <= workers * (size + HEAD) + LITTLE, True, f"whether {held} bytes are no more than {workers} workers hold")
    want(held >= workers * size, True, f"whether {held} bytes are a push of each worker")
    want(most <= 2 * workers * (size + HEAD) + LITTLE, True, f"whether {most} bytes are held while pushes are looked at")
    return f"{held / workers / size:.2f} and {most / workers / size:.2f} times {size >> 20} MiB of each worker"


@contextlib.contextmanager
def ended(clients, may_end):
    """Starts the clients, and lets them end and waits for them, whatever happens between."""
    for it in clients:
        it.start()
    try:
        yield
    finally:
        may_end.set()
        for it in clients:
            it.join()


CHECKS = (keeps_one_worker, ends_who_sends_nothing, holds_what_comes)
