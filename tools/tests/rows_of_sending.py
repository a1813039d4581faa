"""Rows on `push`: what is sent of an entry, what a desk may answer and what is printed of it."""

from rows_histories import AFTER, BEFORE, MAIN, History
from rows_objects import FILE, MODULE, ZEROS
from rows_of_pushes import pushed
from rows_runs import Anew, Run, Sent, answer, done, refused

OUTSIDE = ("0 1", "65536 1", "1 0", "1 1000001", "01 1", "1 01", "x 1", "1 x", "1", "1 1 1", "")
PORT, NOWHERE, TAG = 8080, "e" * 64, "refs/tags/v1"
# A reply's head has so many bytes and fields at most, and its body so many bytes.
HEAD, FIELDS, BODY = 16_384, 64, 4_096
# The greatest object, in bytes.
OBJECT = 16 << 20


def reply(code, body, *fields, version="1.1", said=None):
    """A reply of a desk with this body, whose head says its length, or what is told in place of it, and these fields."""
    length = [f"content-length: {len(body)}"] if said is None else said
    lines = [f"HTTP/{version} {code} Phrase", "content-type: text/plain", *length, "connection: close", *fields]
    return "".join(line + "\r\n" for line in lines).encode() + b"\r\n" + body


def asked(number, ending, body=None, port=PORT, over=()):
    """The push of an entry, which the desk at the port answers with this, and how it must end."""
    return Run(f"push {port} {number}", ending, over=[*over, *([] if body is None else [answer(body)])])


def taken(number, body, printed):
    return asked(number, (0, printed, ""), body)


def not_taken(number, body, printed):
    return asked(number, (7, printed, "desk refused\n"), body)


def request(body):
    return b"POST /v1/push HTTP/1.1\r\nhost: localhost\r\ncontent-length: %d\r\n\r\n" % len(body) + body


def sent(history, number, *ids, port=PORT):
    """The request must have been sent that has just the objects of these ids beside the entry of the number."""
    entry = history.ids[number - 1]
    return Sent(port, request(pushed([history.repository.objects[id] for id in {*ids, entry}], entry)))


def kept(history, *but):
    """The repository of a history, but for some of its objects, is taken into an empty store."""
    for id in but:
        del history.repository.objects[id]
    return Anew(), done("import", "imported", source=history.repository.stream())


def below(history, commit):
    """A commit of files in one folder, its tree, and all below it."""
    objects, tree = history.repository.objects, history.repository.tree_of(commit)
    entries = objects[tree][1].split(b" ", 1)[1].split(b"\0", 1)[1]
    folder = entries[:32].hex()
    blobs = [part[:32].hex() for part in objects[folder][1].split(b"\0")[1:]]
    return commit, tree, folder, *blobs


def numbers_of_a_push_refused():
    """A port or a number of an entry outside is refused, and nothing is sent."""
    return (History(), *(refused(f"push {it}".rstrip(), 2, "words refused") for it in OUTSIDE), Sent())


def numbers_of_a_push():
    """The least port and the greatest, and the greatest number, which no log here has."""
    history = History()
    history.record(MAIN, ZEROS)
    said = reply(201, b"done\n")
    return (
        History(),
        *kept(history),
        asked(1, (0, "done\n", ""), said, port=1),
        sent(history, 1, port=1),
        asked(1, (0, "done\n", ""), said, port=65_535),
        sent(history, 1, port=65_535),
        asked(1_000_000, (3, "", "input\n")),
        Sent(),
    )


def child(history, files, *parents):
    """A commit of files on others."""
    repository = history.repository
    rows = {path: (FILE, repository.blob(body)) for path, body in files.items()}
    return repository.commit(repository.tree(rows), b"child", parents)


def what_goes_with_an_entry():
    """All that its target leads to and the value before does not: of a first commit and of one after it, of one after an
    entry that is skipped, which the branch had all the same, nothing of an annotation and where the branch is taken away,
    all of it where it comes back, and what a tag leads to, but not the commit of a submodule."""
    history = History()
    repository = history.repository
    first = history.commit(BEFORE)
    second = child(history, AFTER, first)
    third = child(history, AFTER | {b"src/y": b"more\n"}, second)
    history.record(MAIN, first)
    history.record(MAIN, second)
    history.skip(2, None)
    history.record(MAIN, third)
    history.record(MAIN, ZEROS)
    history.record(MAIN, second)
    module = repository.commit(repository.tree({b"sub": (MODULE, NOWHERE)}), b"module", [third])
    tag = repository.add(b"tag", b"object %s\ntype commit\n" % module.encode())
    history.record(TAG, tag)
    own = [below(history, commit) for commit in (first, second, third)]
    goes = (
        own[0],
        own[1],
        (),
        (third, *own[2][1:3], *(id for id in own[2][3:] if id not in own[1])),
        (),
        own[0] + own[1],
        (tag, module, repository.tree_of(module), *own[0], *own[1], *own[2]),
    )
    runs = []
    for number, ids in enumerate(goes, 1):
        runs += [taken(number, reply(201, b"done %d\n" % number), f"done {number}\n"), sent(history, number, *ids)]
    return (History(), *kept(history), *runs)


def short_log():
    """A log of one entry, with which nothing goes."""
    history = History()
    history.record(MAIN, ZEROS)
    return kept(history)


def replies_of_a_desk():
    """200 and 201 say that the push was taken, and every other code that it was not; what else a head says is passed over."""
    id = b"a" * 64
    refusals = (
        (409, b"stale 7 " + id + b"\n"),
        (400, b"malformed 14\n"),
        (422, b"incomplete " + id + b"\n"),
        (413, b"too large 67108865\n"),
        (422, b"misnumbered 3 4\n"),
        (502, b"moved " + id + b" " + id + b"\n"),
        (500, b"fault\n"),
        (503, b"memory\n"),
        (100, b"go on\n"),
        (199, b"below\n"),
        (202, b"above\n"),
        (404, b""),
        (999, b"last\n"),
    )
    return (
        History(),
        *short_log(),
        taken(1, reply(201, b"done 1 " + id + b"\n"), f"done 1 {id.decode()}\n"),
        taken(1, reply(200, b"already 1\n"), "already 1\n"),
        *(not_taken(1, reply(code, body), body.decode()) for code, body in refusals),
        taken(1, reply(201, b""), ""),
        taken(1, reply(201, b"no line"), "no line"),
        taken(1, reply(201, b"done\n", version="1.0"), "done\n"),
        taken(1, reply(201, b"done\n", said=["Content-Length:   5  "]), "done\n"),
        taken(1, reply(201, b"done\n", "transfer-encoding: chunked", "x: y"), "done\n"),
    )


def long_head(size):
    """A field by which the head of the reply of a body with four digits of length has so many bytes."""
    front = len(reply(201, b"." * 1_000, "x: ")) - 1_000
    return "x: " + "y" * (size - front)


def with_fields(count):
    """As many fields as let a reply have so many."""
    return [f"x{it}: y" for it in range(count - 3)]


def replies_at_their_limits():
    """A head of 16,384 bytes, 64 fields and a body of 4,096 bytes, all that is read of what comes but for one byte; one
    more of each is no reply."""
    body = b"z" * BODY
    bad = lambda text: not_taken(1, text, "bad reply\n")
    whole = reply(201, body, long_head(HEAD))
    assert len(whole) == HEAD + BODY
    return (
        History(),
        *short_log(),
        taken(1, whole, body),
        bad(whole + b"z"),
        bad(whole + b"z" * 70_000),
        bad(reply(201, b"z" * 1_000, long_head(HEAD + 1))),
        taken(1, reply(201, b"z\n", *with_fields(FIELDS)), "z\n"),
        bad(reply(201, b"z\n", *with_fields(FIELDS + 1))),
        taken(1, reply(409, body)[:9] + b"200" + reply(409, body)[12:], body),
        bad(reply(201, body + b"z")),
    )


def what_is_no_reply():
    """Nothing, what is no head or a part of one, a head that says no length, two, one that is no plain number, or another
    than its body's."""
    good = reply(201, b"done\n")
    head = good[: -len(b"done\n")]
    said = lambda *fields: reply(201, b"done\n", said=list(fields))
    rows = (
        b"",
        b"done\n",
        b"GET / HTTP/1.1\r\n\r\n",
        head[:-2],
        head,
        good[:-1],
        good + b"\n",
        good + good,
        said(),
        said("content-length: 5", "content-length: 5"),
        said("content-length: 5", "content-length: 6"),
        said("content-length: 05"),
        said("content-length: +5"),
        said("content-length: five"),
        said("content-length: 5, 5"),
        said("content-length:"),
        said("content-length: 4"),
        said("content-length: 6"),
        said("content-length: 18446744073709551621"),
    )
    return (History(), *short_log(), *(not_taken(1, row, "bad reply\n") for row in rows))


ROWS = (
    numbers_of_a_push_refused,
    numbers_of_a_push,
    what_goes_with_an_entry,
    replies_of_a_desk,
    replies_at_their_limits,
    what_is_no_reply,
)
