"""What is run in a row, as records, and the lines that must come of it."""

import hashlib
import re

# A text of more bytes is printed by its digest.
LONG = 1000
# A byte that stands twice as often is written down as a piece of so many that is taken again and again; and another piece
# where it stands there more than a few times.
PIECE, FEW = 1024, 10
RUN = re.compile(rb"(.)\1{%d,}" % (2 * PIECE), re.DOTALL)


def quoted(text):
    """A text as it is printed: between quotes, or, if it is long or not plain, by its length and its digest."""
    body = text if isinstance(text, bytes) else text.encode()
    if len(body) > LONG or not all(byte == 10 or 32 <= byte <= 126 for byte in body):
        return digest(body)
    return '"' + body.decode().replace("\n", "\\n") + '"'


def digest(body):
    return f"{len(body)} bytes of SHA-256 {hashlib.sha256(body).hexdigest()}"


def sized(word, body):
    return b"%s %d\n%s\n" % (word, len(body), body)


def source_records(word, body, repeated=None):
    """Bytes as records. What stands there very often, which is one byte or what is told, is written once."""
    runs = RUN if repeated is None else re.compile(rb"(?:%s){%d,}" % (re.escape(repeated), FEW))
    at = 0
    for found in runs.finditer(body):
        unit = repeated or found[0][:1] * PIECE
        name = hashlib.sha256(unit).hexdigest()[:8].encode()
        count = len(found[0]) // len(unit)
        yield sized(word, body[at : found.start()])
        yield sized(b"piece " + name, unit) + b"times %d %s\n" % (count, name)
        word, at = b"bytes", found.start() + count * len(unit)
    yield sized(word, body[at:])


def room(part, size):
    """An object has room for so many bytes alone in the next command."""
    return b"room %s %d\n" % (part.encode(), size)


def failing(part, *calls):
    """The calls of these numbers of an object fail in the next command."""
    return b"failing %s %s\n" % (part.encode(), b" ".join(b"%d" % call for call in calls))


def moments(*seconds):
    """The clock gives these moments to the next command, and then none."""
    return b"moments %s\n" % b" ".join(b"%d" % second for second in seconds)


def random(body):
    """These are the random bytes for the next command."""
    return sized(b"random", body)


def answer(body):
    """A peer answers this to the next command."""
    return sized(b"answer", body)


class Run:
    """A command, how it is run, and the endings that must be seen: a status, what is printed, and what is said. What is
    told of a key file and of standard input is for this run and for those after it in the row; each of them finds the
    key file as the run before left it. What is told of the objects is for this run alone."""

    def __init__(self, words, *endings, way="run", key=None, source=None, over=()):
        self.way, self.words, self.endings, self.key, self.source, self.over = way, words, endings, key, source, over

    def record(self, _name):
        key = b"" if self.key is None else sized(b"key", self.key)
        source = b"" if self.source is None else b"".join(source_records(b"source", self.source))
        return key + source + b"".join(self.over) + f"{self.way} {self.words}\n".encode()

    def lines(self, name):
        return "".join(f"{name} {status} {quoted(printed)} {quoted(said)}\n" for status, printed, said in self.endings)


class Anew:
    """The row begins again, with an empty store, no bytes and an empty key file."""

    def record(self, name):
        return b"row %s\n" % name

    def lines(self, _name):
        return ""


class Held:
    """What the key file must hold."""

    def __init__(self, body):
        self.body = body

    def record(self, _name):
        return b"held\n"

    def lines(self, name):
        return f"{name} {quoted(self.body)}\n"


class Sent:
    """What the command before must have sent, and the port at which; without a port, that it connected to none."""

    def __init__(self, port=None, body=b""):
        self.text = b"" if port is None else b"port %d\n" % port + body

    def record(self, _name):
        return b"sent\n"

    def lines(self, name):
        return f"{name} {quoted(self.text)}\n"


class Endless:
    """An export of a store of blobs of so many bytes without an end, and how it must end."""

    def __init__(self, size, status, printed, said):
        self.size, self.status, self.printed, self.said = size, status, printed, said

    def record(self, _name):
        return b"endless %d\n" % self.size

    def lines(self, name):
        return f"{name} {self.status} {quoted(self.printed)} {quoted(self.said)}\n"


class Asked:
    """A question of a text, or of ids and objects outside, to a call below the commands, and the answer that must come.
    A part of the text may stand in it many times."""

    def __init__(self, word, of, answer, over=(), repeated=None):
        self.word, self.of, self.answer, self.over, self.repeated = word.encode(), of, answer, over, repeated

    def record(self, _name):
        if isinstance(self.of, bytes):
            return b"".join(source_records(b"source", self.of, self.repeated)) + self.word + b"\n"
        return b"".join(self.over) + b" ".join([self.word, *(it.encode() for it in self.of)]) + b"\n"

    def lines(self, name):
        return f"{name} {quoted(self.answer)}\n"


def done(words, printed, **more):
    return Run(words, (0, printed + "\n", ""), **more)


def refused(words, status, said, **more):
    return Run(words, (status, "", said + "\n"), **more)


def given(text, **more):
    """The store is exported as this text."""
    return Run("export", (0, text, ""), **more)
