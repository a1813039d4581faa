"""A reading of requests to a desk, after docs/FORMATS.md alone and in another language: the reply that each must have.

It goes through a request as the page does, the head first and then one refusal after the other, and through a push line by
line, and looks up in lists what the desk has.
"""

import re

from rows_objects import object_id
from stand_in_desk import END, ENTRY, HEADER, Shop
from stream_format import is_reference_name

LOG = b"refs/gittuf/reference-state-log"
LARGEST_HEAD, MOST_FIELDS, LARGEST_PUSH, LARGEST_OBJECT = 16_384, 64, 64 << 20, 16 << 20
TOKEN = rb"[!#$%&'*+\-.^_`|~0-9A-Za-z]+"
FIELD = rb"(%s):([\t\x20-\x7e\x80-\xff]*)\r?\n" % TOKEN
HEAD = re.compile(rb"(?:\r?\n)*(%s) ([^\x00-\x20\x7f]+) HTTP/1\.[01]\r?\n((?:%s)*)\r?\n" % (TOKEN, FIELD))
FIELDS = re.compile(FIELD)
# A number as it is written, without a sign, a zero in front or anything beside it.
LENGTH = re.compile(rb"0|[1-9][0-9]*")
OBJECT = re.compile(rb"object ([0-9a-f]{64}) (blob|tree|commit|tag) (0|[1-9][0-9]*)\n")
METHODS = {b"/v1/tip": b"GET", b"/v1/stream": b"GET", b"/v1/push": b"POST"}
VERDICT = b"/v1/verify/"
BAD = 400, b"bad request\n"


def head_of(request):
    """The method, the target, the fields and what is behind them, or nothing where no head stands in front."""
    found = HEAD.match(request)
    if not found or len(found[0]) > LARGEST_HEAD:
        return None
    try:
        found[2].decode("utf-8")
    except UnicodeDecodeError:
        return None
    fields = [(name.lower(), value.strip(b" \t")) for name, value in FIELDS.findall(found[3])]
    return (found[1], found[2], fields, request[found.end() :]) if len(fields) <= MOST_FIELDS else None


def length_in(fields):
    """Whether what fields say of the length of the body is taken, and what they say."""
    said = [value for name, value in fields if name == b"content-length"]
    if any(name == b"transfer-encoding" for name, _ in fields) or len(said) > 1:
        return False, None
    if not said:
        return True, None
    return bool(LENGTH.fullmatch(said[0])) and int(said[0]) < 1 << 63, int(said[0]) if LENGTH.fullmatch(said[0]) else None


class SlowDesk:
    """A desk with these objects, entries and lines of verdicts by name, of which nothing changes."""

    def __init__(self, stream, objects, log, verdicts):
        self.shop, self.whole, self.verdicts = Shop(), stream, verdicts
        self.shop.objects, self.shop.log = objects, log

    def reply(self, request):
        """The code and the body of the reply, or nothing where none comes."""
        if not request:
            return None
        head = head_of(request)
        if head is None:
            return BAD
        method, target, fields, rest = head
        is_taken, length = length_in(fields)
        if not is_taken:
            return BAD
        is_verdict = target.startswith(VERDICT) and target != VERDICT
        if target not in METHODS and not is_verdict:
            return 404, b"not found\n"
        if method != METHODS.get(target, b"GET"):
            return 405, b"method not allowed\n"
        if is_verdict:
            return self.verdict(target[len(VERDICT) :])
        if target == b"/v1/tip":
            return 200, b"tip %d %s\n" % (len(self.shop.log), self.shop.log[-1])
        if target == b"/v1/stream":
            return 200, self.whole
        return self.body(length, rest)

    def verdict(self, name):
        if not is_reference_name(name) or name == LOG:
            return BAD
        return 200, self.verdicts.get(name, b"accepted %s 0 entries\n" % name)

    def body(self, length, rest):
        if length is None:
            return 411, b"length required\n"
        if length > LARGEST_PUSH:
            return 413, b"too large %d\n" % length
        return BAD if len(rest) < length else self.push(rest[:length])

    def push(self, text):
        """The reply to a push: the first line that is not as wanted, or what the desk says of the entry."""
        if not text.startswith(HEADER):
            return 400, b"malformed 0\n"
        objects, at = {}, len(HEADER)
        while found := OBJECT.match(text, at):
            size = int(found[3])
            if size > LARGEST_OBJECT:
                return 413, b"too large %d\n" % min(size, (1 << 64) - 1)
            end = found.end() + size
            body = text[found.end() : end]
            is_rising = not objects or found[1] > max(objects)
            if text[end : end + 1] != b"\n" or object_id(found[2], body).encode() != found[1] or not is_rising:
                return 400, b"malformed %d\n" % at
            objects[found[1]], at = (found[2], body), end + 1
        entry = ENTRY.match(text, at)
        if not entry or objects.get(entry[1], (b"", b""))[0] != b"commit" or b"\n\nRSL " not in objects[entry[1]][1]:
            return 400, b"malformed %d\n" % at
        if text[entry.end() :] != END:
            return 400, b"malformed %d\n" % (entry.end() + (len(END) if text.startswith(END, entry.end()) else 0))
        code, line = self.shop.push(text)
        if code == 201:
            raise AssertionError("a drawn push would be taken")
        return code, line + b"\n"
