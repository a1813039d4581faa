"""A desk that stands in for the program's where git gittuf is tried: it takes pushes into memory, and judges nothing.

It prints the port that it has on this machine, and answers until it is ended. Where words are given each push is
answered by them alone, a code and a line, or by the code 0 not at all.
"""

import http.server
import re
import sys

sys.dont_write_bytecode = True

from rows_objects import ZEROS, object_id

HEADER, END = b"gittuf-push 1\n", b"end\n"
OBJECT = re.compile(rb"object ([0-9a-f]{64}) (blob|tree|commit|tag) ([0-9]+)\n")
ENTRY = re.compile(rb"entry ([0-9a-f]{64})\n")
NUMBER = re.compile(rb"^number: ([0-9]+)$", re.MULTILINE)
RECORDED = re.compile(rb"\n\nRSL Reference Entry\n\nref: ([^\n]+)\ntargetID: ([0-9a-f]{64})\n")
PARENT = re.compile(rb"^parent ([0-9a-f]{64})$", re.MULTILINE)
NAMED = re.compile(rb"^(?:tree|parent|object) ([0-9a-f]{64})$", re.MULTILINE)
TREE_ENTRY = re.compile(rb"([0-7]+) [^\0]+\0(.{32})", re.DOTALL)
LOG = b"refs/gittuf/reference-state-log"


def named_in(kind, body):
    """The ids that an object names, but those of commits of other repositories."""
    if kind == b"tree":
        return [it[2].hex().encode() for it in TREE_ENTRY.finditer(body) if it[1] != b"160000"]
    return NAMED.findall(body.partition(b"\n\n")[0]) if kind in (b"commit", b"tag") else []


def read(text):
    """The objects of a push by their ids, and the id of its entry, or nothing where it is none."""
    objects, at = {}, len(HEADER)
    while found := OBJECT.match(text, at):
        body = text[found.end() : found.end() + int(found[3])]
        if object_id(found[2], body).encode() != found[1] or objects and found[1] <= max(objects):
            return None
        objects[found[1]] = (found[2], body)
        at = found.end() + len(body) + 1
    entry = ENTRY.match(text, at)
    is_whole = text.startswith(HEADER) and entry and text[entry.end() :] == END and entry[1] in objects
    return (objects, entry[1]) if is_whole else None


class Shop:
    """What the desk has."""

    def __init__(self):
        self.objects, self.references, self.log = {}, {}, []

    def missing(self, objects, target):
        """The first id that is needed and that nobody has."""
        seen, ahead = set(), [target]
        while ahead:
            it = ahead.pop(0)
            if it in seen or it == ZEROS.encode():
                continue
            seen.add(it)
            if it not in objects and it not in self.objects:
                return it
            ahead = named_in(*objects[it]) + ahead if it in objects else ahead
        return None

    def push(self, text):
        """The code and the line that answer a push."""
        found = read(text)
        if found is None:
            return 400, b"malformed 0"
        objects, entry = found
        body, tip = objects[entry][1], self.log[-1] if self.log else None
        parent, number, recorded = PARENT.search(body), int(NUMBER.search(body)[1]), RECORDED.search(body)
        if entry in self.log:
            return 200, b"already %d" % (self.log.index(entry) + 1)
        if (parent and parent[1]) != tip:
            return 409, b"stale %d %s" % (len(self.log), tip or ZEROS.encode())
        if number != len(self.log) + 1:
            return 422, b"misnumbered %d %d" % (number, len(self.log) + 1)
        lacks = recorded and self.missing(objects, recorded[2])
        if lacks:
            return 422, b"incomplete %s" % lacks
        self.objects.update(objects)
        if recorded:
            self.references[recorded[1]] = recorded[2]
            if recorded[2] == ZEROS.encode():
                del self.references[recorded[1]]
        self.references[LOG] = entry
        self.log.append(entry)
        return 201, b"done %d %s" % (number, entry)

    def stream(self):
        records = [b"object %s %s %d\n%s\n" % (it, kind, len(body), body) for it, (kind, body) in sorted(self.objects.items())]
        return b"".join([b"gittuf-stream 1\n", *records, *(b"ref %s %s\n" % it for it in sorted(self.references.items())), b"end\n"])


class Handler(http.server.BaseHTTPRequestHandler):
    shop, said = Shop(), None

    def log_message(self, *_):
        """Nothing is told of what is asked."""

    def answer(self, code, body):
        self.send_response(code)
        self.send_header("content-length", str(len(body)))
        self.end_headers()
        self.wfile.write(body)

    def do_GET(self):
        if self.path == "/v1/stream":
            self.answer(200, self.shop.stream())
        elif self.path == "/v1/tip":
            log = self.shop.log
            self.answer(200, b"tip %d %s\n" % (len(log), log[-1] if log else ZEROS.encode()))
        else:
            self.answer(404, b"not found\n")

    def do_POST(self):
        text = self.rfile.read(int(self.headers["content-length"]))
        code, line = self.said or self.shop.push(text)
        if code:
            self.answer(code, line + b"\n")
        else:
            self.close_connection = True


def main():
    if sys.argv[1:]:
        Handler.said = (int(sys.argv[1]), sys.argv[2].encode())
    server = http.server.HTTPServer(("127.0.0.1", 0), Handler)
    print(server.server_port, flush=True)
    server.serve_forever()


if __name__ == "__main__":
    main()
