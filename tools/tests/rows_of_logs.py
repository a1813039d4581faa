"""Rows on the bodies of log entries, line by line, and on logs that are whole or break."""

from rows_histories import LOG, MAIN, MAINTAINER, POLICY, History, lines_of
from rows_objects import EMPTY_TREE, PROGRAM, ZEROS, object_id
from rows_runs import Anew, Asked, Run, digest, done, failing, refused, room
from rows_signing import LEAVES

BLOB = object_id(b"blob", b"")
FULL = "AAECAwQFBgcICQoLDA0ODxAREhMUFRYXGBkaGxwdHh8gISIjJCUmJygpKissLS4v"
FILLED = FULL[:-1] + "="
REFERENCE = (
    f"tree {EMPTY_TREE}",
    "author A <a@b> 1 +0000",
    "committer A <a@b> 1 +0000",
    "",
    "RSL Reference Entry",
    "",
    f"ref: {MAIN}",
    f"targetID: {BLOB}",
    "number: 1",
)
ANNOTATION = (
    f"tree {EMPTY_TREE}",
    f"parent {BLOB}",
    "author A <a@b> 1 +0000",
    "committer A <a@b> 1 +0000",
    f"lmssig {BLOB} AA==",
    "",
    "RSL Annotation Entry",
    "",
    f"entryID: {BLOB}",
    f"entryID: {EMPTY_TREE}",
    "skip: false",
    "number: 7",
    "-----BEGIN MESSAGE-----",
    FULL,
    "AAAA",
    "-----END MESSAGE-----",
)
# An entry names at most so many ids, and has at most this number; a message may have so many bytes in words.
MOST_IDS, LAST_NUMBER, LONGEST_MESSAGE = 256, 1_000_000, 65_536


def bad(body, line):
    return Asked("entry", lines_of(body) if not isinstance(body, bytes) else body, f"bad-entry {line}")


def good(body, signer=None, signature=b"", number=None, parent=None, tail=""):
    """What must be read of a body in these parts."""
    signed = lines_of(it for it in body if not it.startswith("lmssig "))
    text = f"entry {number}" + (f" parent {parent}" if parent else "") + f" signed {digest(signed)}"
    if signer:
        text += f" by {signer} as {digest(signature)}"
    return Asked("entry", lines_of(body), text + tail)


def good_reference(body=REFERENCE, name=MAIN, **more):
    return good(body, tail=f" ref {name} {BLOB}", number=1, **more)


def good_annotation(body=ANNOTATION, number=7, ids=(BLOB, EMPTY_TREE), message=bytes(range(48)) + bytes(3), signed=True):
    listed = digest(b"".join(bytes.fromhex(id) for id in ids))
    tail = f" note {listed} message {digest(message)}"
    signer = (BLOB, b"\0") if signed else (None, b"")
    return good(body, *signer, number=number, parent=BLOB, tail=tail)


def put(body, at, *lines):
    """The body with these lines in place of the one of this number."""
    return (*body[: at - 1], *lines, *body[at:])


def lines_missing_repeated_or_swapped():
    """The number of the first line that is not as wanted, for each line; 0 is none. A word alone, without its space, is none
    of a line of a person."""
    missing = (1, 11, 3, 4, 0, 6, 7, 8, 0, 0, 11, 12, 13, 0, 0, 16)
    repeated = (2, 3, 4, 5, 6, 7, 8, 9, 0, 0, 12, 13, 14, 0, 16, 17)
    swapped = (1, 3, 3, 4, 6, 6, 7, 8, 0, 11, 11, 12, 13, 15, 16)
    runs = [good_reference(), good_annotation()]
    for at, line in enumerate(REFERENCE, 1):
        runs += [bad(put(REFERENCE, at), at), bad(put(REFERENCE, at, line, line), at + 1), bad(put(REFERENCE, at, "x"), at)]
    runs += [bad(put(REFERENCE, at, word), at) for at, word in ((2, "author"), (3, "committer"))]
    for at in range(1, len(REFERENCE)):
        runs.append(bad(put(put(REFERENCE, at, REFERENCE[at]), at + 1, REFERENCE[at - 1]), at))
    for at, line in enumerate(ANNOTATION, 1):
        runs += [annotation_row(put(ANNOTATION, at), missing[at - 1])]
        runs += [annotation_row(put(ANNOTATION, at, line, line), repeated[at - 1]), bad(put(ANNOTATION, at, "x"), at)]
    for at, wrong in enumerate(swapped, 1):
        runs.append(annotation_row(put(put(ANNOTATION, at, ANNOTATION[at]), at + 1, ANNOTATION[at - 1]), wrong))
    return History(), *runs


def annotation_row(body, wrong):
    """Where no line is wrong, what is read is told by the lines that are there."""
    if wrong:
        return bad(body, wrong)
    ids = [it[9:] for it in body if it.startswith("entryID: ")]
    first = body.index("-----BEGIN MESSAGE-----") + 1
    message = b"".join(text_of(it) for it in body[first:-1])
    signed = any(it.startswith("lmssig ") for it in body)
    return good_annotation(body, ids=ids, message=message, signed=signed)


def text_of(line):
    return bytes(range(48)) if line == FULL else bytes(3) if line == "AAAA" else bytes(range(47))


def numbers_and_names():
    """Numbers at both ends and in other forms, ids in capitals or with a digit less or more, and names that stand in no
    entry."""
    rows = [f"number: {it}" for it in ("0", "1", "1000001", "02", "+2", "", "2 ", "18446744073709551618")]
    runs = [bad(put(ANNOTATION, 12, it), 12) for it in rows]
    runs += [good_annotation(put(ANNOTATION, 12, f"number: {it}"), it) for it in (2, LAST_NUMBER)]
    runs.append(bad(put(REFERENCE, 9, "number: 2"), 9))
    runs += [bad(put(REFERENCE, 7, it), 7) for it in (f"ref: {LOG}", "ref: heads/main", "ref: refs/", f"ref:{MAIN}")]
    ids = (BLOB.upper(), BLOB[1:], f"{BLOB}0")
    runs += [bad(put(REFERENCE, 8, f"targetID: {it}"), 8) for it in ids]
    for at, tail in ((2, "parent {}"), (5, "lmssig {} AA=="), (9, "entryID: {}")):
        runs += [bad(put(ANNOTATION, at, tail.format(it)), at) for it in ids]
    runs.append(good_reference(put(REFERENCE, 7, f"ref: {POLICY}"), POLICY))
    return History(), *runs


def base64_stands_or_not():
    """The last line of a message, and lines of 64 characters that fill up, which are the last; and a signature."""
    runs = [bad(put(ANNOTATION, 15, it), 15) for it in ("AB==", "AAA", "AA==AAAA", "", "AA-_", "AA ==", FULL + "AAAA")]
    full = bytes(range(48))
    runs += [good_annotation(put(ANNOTATION, 15, it), message=full + bytes(n)) for it, n in (("AA==", 1), ("AAA=", 2))]
    runs += [bad(put(ANNOTATION, 14, FILLED), 15), bad(put(ANNOTATION, 14, FULL[:60]), 15)]
    runs.append(good_annotation(put(ANNOTATION, 15, FILLED), message=full + bytes(range(47))))
    runs.append(bad(put(ANNOTATION, 5, f"lmssig {BLOB} "), 5))
    return History(), *runs


def ends_of_bodies():
    """A body ends early, after each line or within one, or goes on. An annotation may end behind its number, and its message
    has a line."""
    whole = lines_of(REFERENCE)
    rows = ((b"", 1), (REFERENCE[0].encode(), 1), (whole[:-1], 9), (whole + b"x", 10), (whole + b"x\n", 10))
    fronts = [body[:at] for body in (REFERENCE, ANNOTATION) for at in range(1, len(body)) if body[at - 1] != "number: 7"]
    runs = [bad(front, len(front) + 1) for front in fronts]
    runs += [good_annotation(ANNOTATION[:12], message=b""), bad((*ANNOTATION[:13], ANNOTATION[15]), 14)]
    return History(), *(bad(body, line) for body, line in rows), *runs


def with_ids(count):
    return (*ANNOTATION[:8], *[f"entryID: {ZEROS}"] * count, *ANNOTATION[10:])


def so_many_ids():
    """An entry annotates 1 to 256 ids, in its body and in words."""
    history = History(PROGRAM)
    history.annotate(False, [ZEROS] * MOST_IDS, MAINTAINER)
    words = f"annotate note {','.join([ZEROS] * MOST_IDS)}"
    return (
        History(),
        good_annotation(with_ids(MOST_IDS), ids=[ZEROS] * MOST_IDS),
        good_annotation(with_ids(1), ids=[ZEROS]),
        bad(with_ids(MOST_IDS + 1), 9 + MOST_IDS),
        bad(with_ids(0), 9),
        refused(f"{words},{ZEROS}", 2, "words refused", key=MAINTAINER.file(bytes(LEAVES))),
        refused("annotate note ", 2, "words refused"),
        done(words, f"entry 1 {history.ids[0]}"),
    )


def messages_of_many_lengths():
    """Each message is in the entry that the command makes; of 65,537 bytes there is none."""
    history, runs = History(PROGRAM), []
    for length in (1, 47, 48, 49, 96, 10_000, LONGEST_MESSAGE):
        history.annotate(True, [ZEROS], MAINTAINER, b"m" * length)
        number = len(history.ids)
        runs.append(done(f"annotate skip {ZEROS} --message {'m' * length}", f"entry {number} {history.ids[-1]}"))
    more = f"annotate skip {ZEROS} --message {'m' * (LONGEST_MESSAGE + 1)}"
    key = MAINTAINER.file(bytes(LEAVES))
    return History(), refused(more, 2, "words refused", key=key), *runs


def entry_body(number, parent=None, parents=None):
    head = [f"tree {EMPTY_TREE}", *(f"parent {it}" for it in parents or ([parent] if parent else []))]
    tail = ["", "RSL Reference Entry", "", f"ref: {MAIN}", f"targetID: {ZEROS}", f"number: {number}"]
    return lines_of([*head, "author a", "committer a", *tail])


def log_told(objects, tip, status, text):
    """What `log` prints of a store of objects, which are (kind, body), whose log stands at an id."""
    history = History()
    for kind, body in objects:
        history.repository.add(kind, body)
    history.repository.set(LOG, tip)
    if tip == ZEROS:
        history.repository.references[LOG] = ZEROS
    return Anew(), done("import", "imported", source=history.repository.stream()), Run("log", (status, text, ""))


def logs_that_break():
    """Where an entry is missing, a number is passed over, a parent is too much or too little, there are two parents, an
    object of another kind stands there, or the reference stands at zeros."""
    one = entry_body(1)
    first = object_id(b"commit", one)
    two = entry_body(2, first)
    second = object_id(b"commit", two)
    rows = [((b"commit", entry_body(3, second)), second, [(b"commit", one)]), ((b"commit", entry_body(3, first)), first, [])]
    rows += [((b"commit", it), None, []) for it in (entry_body(1, first), entry_body(2), entry_body(2, parents=[first] * 2))]
    rows += [((b"blob", two), None, []), ((b"commit", two + b"\n"), None, [])]
    runs = [*log_told([(b"commit", one)], ZEROS, 3, f"log-broken {ZEROS}\n"), *log_told([], first, 3, f"log-broken {first}\n")]
    for (kind, body), broken, _ in rows:
        tip = object_id(kind, body)
        runs += log_told([(b"commit", one), (kind, body)], tip, 3, f"log-broken {broken or tip}\n")
    lines = [f"entry {number} {id} ref {MAIN} {ZEROS}\n" for number, id in ((1, first), (2, second))]
    runs += log_told([(b"commit", one), (b"commit", two)], second, 0, "".join(lines))
    return History(), *runs


def printing_that_fails():
    """A sink without room, also for the line of a break, and a store that fails at the second reading of an entry."""
    one, tip = entry_body(1), object_id(b"commit", entry_body(1))
    line, broken = f"entry 1 {tip} ref {MAIN} {ZEROS}\n", f"log-broken {ZEROS}\n"
    imported = log_told([(b"commit", one)], tip, 0, line)
    return (
        History(),
        *imported,
        Run("log", (4, "", "fault\n"), over=[room("sink", len(line) - 1)]),
        Run("log", (4, "", "fault\n"), over=[failing("store", 3)]),
        Run("log", (4, "", "fault\n"), (0, line, ""), way="failing-store"),
        *log_told([(b"commit", one)], ZEROS, 3, broken),
        Run("log", (4, "", "fault\n"), over=[room("sink", 10)]),
        Anew(),
        Run("log", (0, "", "")),
    )


ROWS = (
    lines_missing_repeated_or_swapped,
    numbers_and_names,
    base64_stands_or_not,
    ends_of_bodies,
    so_many_ids,
    messages_of_many_lengths,
    logs_that_break,
    printing_that_fails,
)
