"""Requests to a desk that look drawn: good ones, each part of which may be another, and mutants of them."""

from desk_clients import entry_of
from made_mutants import EDGES, bytes_of
from rows_objects import ZEROS, object_id
from rows_of_pushes import pushed

MAIN = b"refs/heads/main"
OFTEN = 16
METHODS = (b"HEAD", b"PUT", b"get", b"DELETE", b"OPTIONS", b"GE(T", b"", b"\xc3\xa9", b"GET GET", b"P")
TARGETS = (b"/", b"*", b"", b"/v1", b"/v1/", b"/v1/tip/", b"/v1/tip?", b"/v1//tip", b"/V1/tip", b"/v1/t%69p", b"/v1/tip#", b"/v2/tip")
TARGETS += (b"/v1/verify", b"/v1/verify/", b"/v1/verify//", b"/v1/push/", b"/v1/pus", b"/v1/stream/x", b"http://127.0.0.1/v1/tip")
TARGETS += (b"/v1/\xff", b"/v1/\xc3\xa9", b"/v1/ti p")
NAMES = (MAIN, b"refs/gittuf/policy", b"refs/gittuf/attestations", b"refs/heads/nobody", b"refs/tags/v1", b"refs/heads/\xc3\xa9", b"refs/x")
NAMES += (b"refs/gittuf/reference-state-log", b"refs/heads/a..b", b"refs", b"refs/", b"main", b"HEAD", b"refs/heads/a.lock", b"refs/heads/.a")
NAMES += (b"refs/heads/" + b"a" * 244, b"refs/heads/" + b"a" * 245, b"refs" + b"/a" * 15, b"refs" + b"/a" * 16)
NAMES += (b"refs/heads/a/", b"refs/heads/a~b", b"refs/heads/@{", b"refs%2Fheads/main")
VERSIONS = (b"HTTP/1.0", b"HTTP/1.2", b"HTTP/2.0", b"http/1.1", b"HTTP/1.", b"HTTP/1.10", b"HTTP/01.1", b"", b"HTTP/1.1 ")
LINE_ENDS = (b"\n", b"\r", b"\r\r\n", b" \r\n", b"\r\n\r\n", b"\0")
BLANK = (b"\r\n", b"\n", b"\n\r\n", b"\r", b" ")
FIELDS = (b"host: 127.0.0.1", b"origin: http://other.example", b"accept: */*", b"x:", b"x: \t y\t", b"X-Y: \xff\x80")
FIELDS += (b"expect: 100-continue", b"connection: keep-alive")
ODD_FIELDS = (b"transfer-encoding: chunked", b"Transfer-Encoding:", b" folded: yes", b"a b: c", b": y", b"x", b"x : y", b"x: \x01", b"x: \x7f")
ODD_FIELDS += (b"content-length : 3",)


def often(drawn, value, others):
    """A value as a rule, and now and then another one."""
    return value if drawn.randrange(OFTEN) else drawn.choice(others)


def lengths(drawn, length):
    """The lines that say the length of a body, which are right as a rule."""
    number = b"%d" % length
    line = lambda it: drawn.choice((b"content-length: ", b"Content-Length:", b"CONTENT-LENGTH:\t")) + it
    odd = (b"", b"+" + number, b"-" + number, b"0" + number, number + b" " + number, number + b", " + number, b"0x" + number, number + b".0", number + b"\v")
    others = [[line(it)] for it in (*odd, b" " + number + b" \t", b"%d" % (length + 1), b"%d" % max(length - 1, 0), b"%d" % drawn.choice(EDGES))]
    return often(drawn, [line(number)], (*others, [line(number)] * 2, [line(number), line(b"1")], [], []))


def fields(drawn):
    """Fields of no meaning, at times many, long or none of HTTP."""
    found = [drawn.choice(FIELDS) for _ in range(drawn.randrange(4))]
    many = [b"f%d: v" % it for it in range(drawn.randint(58, 68))]
    long = [b"long: " + b"v" * drawn.choice((100, 8_000, drawn.randint(16_200, 16_400), 20_000))]
    return often(drawn, found, (many, long, [*found, drawn.choice(ODD_FIELDS)], [*found, drawn.choice(ODD_FIELDS)]))


def body_of(drawn, texts):
    """A push that no desk with these entries takes, or a mutant of one, or anything."""
    text = drawn.choice(texts)
    return drawn.choice((text, text, bytes_of(drawn, text), bytes_of(drawn, text), b"", b"gittuf-push 1\n", b"x" * drawn.randrange(100)))


def drawn_request(drawn, texts):
    """The bytes of a request, or of what is nearly one."""
    is_push = drawn.randrange(5) < 2
    body = body_of(drawn, texts) if is_push else often(drawn, b"", (b"x" * 10, drawn.choice(texts)))
    verdict = b"/v1/verify/" + drawn.choice(NAMES)
    target = b"/v1/push" if is_push else drawn.choice((b"/v1/tip", verdict, verdict, b"/v1/stream"))
    method = often(drawn, b"POST" if is_push else b"GET", (*METHODS, b"GET", b"POST"))
    lines = [b" ".join((method, often(drawn, target, TARGETS), often(drawn, b"HTTP/1.1", VERSIONS)))]
    lines += fields(drawn) + (lengths(drawn, len(body)) if is_push or body else [])
    head = b"".join(line + often(drawn, b"\r\n", LINE_ENDS if not drawn.randrange(5) else LINE_ENDS[:1]) for line in (*lines, b""))
    request = (b"" if drawn.randrange(20) else drawn.choice(BLANK)) + head + body
    return bytes_of(drawn, request) if not drawn.randrange(4) else request


def made_pushes(objects, log):
    """Texts of pushes that a desk with this log refuses or has already, each for another reason."""
    tip, count, text = log[-1].decode(), len(log), MAIN.decode()
    entry = lambda *words: (b"commit", entry_of(*words))
    refused = [entry(count + 1, "ab" * 32, text, ZEROS), entry(count + 3, tip, text, ZEROS), entry(count + 1, tip, text, "cd" * 32)]
    yield from (pushed([it], object_id(*it)) for it in refused)
    yield pushed([refused[2], (b"blob", b"beside it\n")], object_id(*refused[2]))
    yield from (pushed([objects[it]], it.decode()) for it in (log[0], log[-1]))
    blob = (b"blob", b"no entry\n")
    yield pushed([blob], object_id(*blob))
    yield b"gittuf-push 1\nobject %s blob %d\n" % (object_id(*blob).encode(), (16 << 20) + 1)
