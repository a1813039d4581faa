"""Mutants of good inputs, drawn from a seed: by bytes, whatever these mean, and by structure, so that they reach further."""

import copy
import hashlib
import json
import re

# Numbers beside the limits of formats and of machines.
EDGES = (0, 1, 2, 31, 32, 33, 64, 65, 127, 128, 255, 256, 257, 399, 400, 1023, 1024, 1025, 4096, 65535, 65536, 262144)
EDGES += (1 << 20, (1 << 20) + 1, 1 << 24, (1 << 24) + 1, (1 << 31) - 1, 1 << 31, (1 << 32) - 1, 1 << 32)
EDGES += ((1 << 63) - 1, 1 << 63, (1 << 64) - 1, 1 << 64, 10**40)
TEXTS = (b"", b" ", b"\n", b"\0", b"\r\n", b"-", b"--", b"/", b"..", b"refs/", b"refs/heads/main", b"HEAD", b"*", b"?", b"\\", b"%", b"\xff", b"\xc3\xa9")
TEXTS += (b"0" * 64, b"f" * 64, b"end\n", b"object ", b"ref ", b"gittuf-stream 1\n", b"\xed\xa0\x80", b"\xf4\x90\x80\x80")
TEXTS += (b"A" * 5000, b"[" * 200, b'{"a":' * 130)
VALUES = (None, True, False, -1, 0.5, 1e300, "", "x", "\ud800", [], {}, [[]], [None], {"": None})
NUMBER = re.compile(rb"[0-9]+")
ID = re.compile(rb"[0-9a-f]{64}")


def bytes_of(drawn, text):
    """A text with one to three changes of its bytes."""
    for _ in range(drawn.choice((1, 1, 1, 2, 3))):
        text = drawn.choice(BY_BYTES)(drawn, text)
    return text


def place(drawn, text):
    return drawn.randint(0, len(text))


def flip(drawn, text):
    if not text:
        return text
    at = drawn.randrange(len(text))
    return text[:at] + bytes([text[at] ^ 1 << drawn.randrange(8)]) + text[at + 1 :]


def put_in(drawn, text):
    at = place(drawn, text)
    return text[:at] + drawn.choice(TEXTS) + text[at:]


def cut_out(drawn, text):
    at = place(drawn, text)
    return text[:at] + text[at + drawn.choice((1, 1, 2, 8, 64, 1000)) :]


def cut_off(drawn, text):
    return text[: place(drawn, text)]


def say_twice(drawn, text):
    at = place(drawn, text)
    return text[: at + drawn.choice((1, 8, 64, 1000))] + text[at:]


def other_number(drawn, text):
    found = [*NUMBER.finditer(text)]
    if not found:
        return put_in(drawn, text)
    it = drawn.choice(found)
    near = int(it[0][:30]) + drawn.choice((-1, 1))
    return text[: it.start()] + str(drawn.choice((*EDGES, near))).encode() + text[it.end() :]


def other_line(drawn, text):
    lines = text.splitlines(keepends=True)
    if len(lines) < 2:
        return flip(drawn, text)
    at, other = drawn.randrange(len(lines)), drawn.randrange(len(lines))
    way = drawn.randrange(3)
    if way == 0:
        del lines[at]
    elif way == 1:
        lines.insert(at, lines[other])
    else:
        lines[at], lines[other] = lines[other], lines[at]
    return b"".join(lines)


BY_BYTES = (flip, flip, put_in, cut_out, cut_off, say_twice, other_number, other_line)


def places_in(value, at=()):
    """The places of all values in one of JSON."""
    yield at
    rows = value.items() if isinstance(value, dict) else enumerate(value) if isinstance(value, list) else ()
    for name, it in rows:
        yield from places_in(it, (*at, name))


def json_of(drawn, text):
    """A text of JSON in which one value is another, is gone, or stands twice."""
    value = json.loads(text)
    at = drawn.choice([*places_in(value)])
    if not at:
        return json.dumps(drawn.choice(VALUES)).encode()
    held = value
    for it in at[:-1]:
        held = held[it]
    old, way = held[at[-1]], drawn.randrange(6)
    if way == 0:
        del held[at[-1]]
    elif way == 1 and isinstance(held, list):
        held.extend(copy.deepcopy([old] * drawn.choice((1, 2, 64, 1024))))
    elif way == 2 and isinstance(old, str):
        held[at[-1]] = drawn.choice((old.upper(), old[:-1], old + "0", old * 300, bytes_of(drawn, old.encode(errors="replace")).decode(errors="replace")))
    elif way == 3:
        held[at[-1]] = drawn.choice(EDGES)
    elif way == 4 and isinstance(held, dict):
        # A name stands twice, which no value can say.
        named = json.dumps(at[-1]).encode() + b":"
        return json.dumps(value, separators=(",", ":")).encode().replace(named, named + b'"x",' + named, 1)
    else:
        held[at[-1]] = drawn.choice(VALUES)
    return json.dumps(value, separators=drawn.choice(((",", ":"), None))).encode()


class Objects:
    """The objects and references of a stream, of which one may be another while all that name it follow."""

    RECORD = re.compile(rb"object ([0-9a-f]{64}) (\w+) (\d+)\n")

    def __init__(self, stream):
        self.objects, self.references, at = {}, {}, stream.index(b"\n") + 1
        while found := self.RECORD.match(stream, at):
            size = int(found[3])
            self.objects[found[1]] = (found[2], stream[found.end() : found.end() + size])
            at = found.end() + size + 1
        for line in stream[at:].splitlines()[:-1]:
            _, name, value = line.split(b" ")
            self.references[name] = value

    def records(self):
        return [b"object %s %s %d\n%s\n" % (it, kind, len(body), body) for it, (kind, body) in sorted(self.objects.items())]

    def stream(self, records=None):
        lines = [b"ref %s %s\n" % it for it in sorted(self.references.items())]
        return b"".join([b"gittuf-stream 1\n", *(self.records() if records is None else records), *lines, b"end\n"])

    def change(self, object_id, kind, body):
        """Puts another object in the place of one, and lets each that names it name that."""
        waiting = [(object_id, kind, body)]
        while waiting:
            old, kind, body = waiting.pop()
            new = hashlib.sha256(b"%s %d\0%s" % (kind, len(body), body)).hexdigest().encode()
            if new == old or new in self.objects:
                continue
            self.objects.pop(old, None)
            self.objects[new] = (kind, body)
            self.references = {name: new if value == old else value for name, value in self.references.items()}
            binary = (bytes.fromhex(old.decode()), bytes.fromhex(new.decode()))
            for it, (its_kind, text) in [*self.objects.items()]:
                other = text.replace(*binary) if its_kind == b"tree" else text.replace(old, new)
                if other != text:
                    waiting.append((it, its_kind, other))


def body_of(drawn, kind, body):
    """Another body of an object, by the structure of its kind where it has one."""
    if kind == b"blob" and body[:1] == b"{" and drawn.random() < 0.7:
        return json_of(drawn, body)
    if kind == b"commit" and drawn.random() < 0.5:
        ids = ID.findall(body)
        return body.replace(drawn.choice(ids), drawn.choice((*ids, b"0" * 64, b"f" * 64)), 1)
    return bytes_of(drawn, body)


def stream_of(drawn, stream):
    """A stream of other objects, other records or other references."""
    found = Objects(stream)
    way = drawn.randrange(6)
    if way < 3:
        object_id = drawn.choice(sorted(found.objects))
        kind, body = found.objects[object_id]
        found.change(object_id, drawn.choice((kind, kind, kind, b"blob", b"tree", b"commit", b"tag")), body_of(drawn, kind, body))
        return found.stream()
    records = found.records()
    at = drawn.randrange(len(records))
    if way == 3:
        del records[at]
    elif way == 4:
        records.insert(drawn.randrange(len(records)), bytes_of(drawn, records[at]))
    else:
        name, value = drawn.choice(sorted(found.references)), drawn.choice(sorted(found.objects))
        found.references[drawn.choice((name, bytes_of(drawn, name).replace(b"\n", b"")))] = value
    return found.stream(records)
