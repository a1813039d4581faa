"""A desk on this machine: what it is asked over HTTP, and what it answers."""

import contextlib
import re

from git_gittuf.repository import ZEROS, Stopped
from git_gittuf.shown import plain

# The remote that a desk is where nothing else is said.
NAME = "desk"
# A desk that sends nothing for so many seconds is not waited for.
SECONDS = 30
# The most bytes that are read of an answer, but of a stream: the line of a violation may name a long path.
MOST = 1 << 16
TIP = re.compile(rb"tip (0|[1-9][0-9]*) ([0-9a-f]{64})\n")
# What it answers of a push. Another program at the port may say anything.
LINE = re.compile(
    rb"(done|stale) [0-9]+ [0-9a-f]{64}|(already|malformed|too large) [0-9]+|misnumbered [0-9]+ [0-9]+|incomplete [0-9a-f]{64}"
    rb"|moved [0-9a-f]{64} [0-9a-f]{64}|fault|memory|bad request|not found|method not allowed|length required"
    rb"|violation [!-~]+ [0-9]+ (no-policy|broken [0-9a-f]{64}|ref-rule [!-~]+ [0-9]+ of [0-9]+|path-rule [!-~]+ [!-~]+ [0-9]+ of [0-9]+"
    rb"|not-epoch [ -~]+)"
)
TAKEN = (200, 201)


class Desk:
    """The desk at a port of this machine, to which each question is a connection of its own."""

    def __init__(self, port):
        self.port, self.name = port, f"the desk at port {port}"

    @contextlib.contextmanager
    def asked(self, method, path, body=None):
        """The answer to a question, of which nothing is read yet but the head."""
        # Few calls want it, and it takes long to load.
        import http.client

        connection = http.client.HTTPConnection("127.0.0.1", self.port, timeout=SECONDS)
        try:
            connection.request(method, path, body)
            yield connection.getresponse()
        except http.client.HTTPException:
            raise Stopped(f"{self.name} gives no answer that can be read: is it one?") from None
        except OSError as error:
            raise Stopped(f"{self.name} does not answer: {error.strerror or error}") from None
        finally:
            connection.close()

    def refused(self, code, said):
        return Stopped(f"{self.name} answers {code}: {plain(said[:80].decode(errors='replace').strip())}")

    def tip(self):
        """How many entries it has, and the id of the last, or zeros."""
        with self.asked("GET", "/v1/tip") as answer:
            said = answer.read(MOST)
        found = TIP.fullmatch(said)
        if answer.status != 200 or not found or (found[1] == b"0") != (found[2] == ZEROS):
            raise self.refused(answer.status, said)
        return int(found[1]), found[2]

    def push(self, text):
        """Sends a push, and returns whether it was taken, and the line that says what became of it."""
        try:
            with self.asked("POST", "/v1/push", text) as answer:
                said = answer.read(MOST)
        except Stopped as why:
            raise Stopped(f"{why}; it may have the entry all the same, and the same call again says so") from None
        if not said.endswith(b"\n") or not LINE.fullmatch(said[:-1]):
            raise self.refused(answer.status, said)
        return answer.status in TAKEN, said[:-1].decode()

    @contextlib.contextmanager
    def stream(self):
        """What the stream of its repository is read from."""
        with self.asked("GET", "/v1/stream") as answer:
            if answer.status != 200:
                raise self.refused(answer.status, answer.read(MOST))
            yield answer
