"""Rows on streams that go in and out, on what is refused of them, on objects outside that fail, and on words that ask
for no command."""

from rows_histories import LOG, MAIN, History
from rows_objects import EMPTY_TREE, ZEROS, object_id
from rows_runs import Anew, Asked, Endless, Run, done, failing, given, refused, room

HEAD, END = b"gittuf-stream 1\n", b"end\n"
EMPTY = HEAD + END
BLOB = object_id(b"blob", b"")
VERIFY = f"verify-ref {MAIN} --stdin"
ACCEPTED = f"accepted {MAIN} 0 entries\n"
DIFFERS = f"tip-differs {MAIN} kept {BLOB} recorded {ZEROS}\n"
# The largest body, and the longest line of a stream without its line feed.
LARGEST, LONGEST = 16_777_216, 399


def blob_line(size, id=BLOB):
    return f"object {id} blob {size}\n".encode()


def ref_line(name, id):
    return f"ref {name} {id}\n".encode()


ONE_BLOB = HEAD + blob_line(0) + b"\n" + END
MAIN_AT_BLOB = HEAD + ref_line(MAIN, BLOB) + END


def tree_commit_and_tag():
    """A commit, its empty tree, a tag of it, and a name for each of the first and the last."""
    repository = History().repository
    tree = repository.add(b"tree", b"")
    author = b"author A <a@b> 1 +0000\ncommitter A <a@b> 1 +0000\n"
    commit = repository.add(b"commit", b"tree " + tree.encode() + b"\n" + author + b"\nm\n")
    tag = repository.add(b"tag", b"object " + commit.encode() + b"\ntype commit\ntag v1\n\nm\n")
    repository.set(MAIN, commit)
    repository.set("refs/tags/v1", tag)
    return repository.stream()


def streams_taken_and_given_back():
    """Each of four streams goes in and comes out, and none goes in where something is held."""
    assert len(ONE_BLOB) == 100
    runs = []
    for stream in (EMPTY, ONE_BLOB, MAIN_AT_BLOB, tree_commit_and_tag()):
        runs += [Anew(), done("import", "imported", source=stream), given(stream)]
    runs += [refused("import", 3, "stream 8", source=EMPTY), refused(VERIFY, 3, "stream 8", source=EMPTY)]
    return History(), *runs, given(stream)


def large_body():
    """A blob of two million bytes goes in and out."""
    body = b"x" * 2_000_000
    stream = HEAD + blob_line(len(body), object_id(b"blob", body)) + body + b"\n" + END
    return History(), done("import", "imported", source=stream), given(stream, over=[room("sink", 2_100_000)])


def export_past_the_limit():
    """A record has 86 bytes of line and 1 behind its body, and a stream's first line has 16: of blobs of 16 MiB 63 are
    within 2^30 bytes."""
    bytes_of = 16 + 63 * (86 + LARGEST + 1)
    assert bytes_of < 2**30 < bytes_of + 86 + LARGEST + 1
    return History(), Endless(LARGEST, 3, f"{bytes_of} bytes of 64 objects read", "too large\n")


def stream_that_is_cut():
    """Each proper front of a stream is cut."""
    return History(), Run(VERIFY, (3, "", "stream 5\n"), way="fronts", source=tree_commit_and_tag())


def streams_judged():
    """What is taken is judged, and held then."""
    broken = [(LOG, BLOB), (LOG, ZEROS)]
    rows = [(EMPTY, 0, ACCEPTED), (ONE_BLOB, 0, ACCEPTED), (HEAD + ref_line(MAIN, ZEROS) + END, 0, ACCEPTED)]
    rows += [(MAIN_AT_BLOB, 1, DIFFERS)]
    rows += [(HEAD + ref_line(*it) + END, 3, f"log-broken {it[1]}\n") for it in broken]
    runs = []
    for stream, status, line in rows:
        runs += [Anew(), Run(VERIFY, (status, line, ""), source=stream), given(stream)]
    return History(), *runs


def streams_refused():
    """What is wrong first decides, and the store stays empty: at the end, in a body, an id, an order, a size, a line."""
    tree = f"object {EMPTY_TREE} tree 0\n\n".encode()
    blob = blob_line(0) + b"\n"
    rows = [
        (b"", 5),
        (HEAD, 5),
        (ONE_BLOB[:-2], 5),
        (ONE_BLOB + b"\n", 1),
        (HEAD + blob_line(0) + b"\r" + END, 1),
        (HEAD + blob_line(0, ZEROS) + b"\n" + END, 2),
        (HEAD + tree + blob + END, 3),
        (HEAD + blob + blob + END, 3),
        (HEAD + ref_line(MAIN, BLOB) + blob + END, 3),
        (HEAD + 2 * ref_line(MAIN, BLOB) + END, 3),
        (HEAD + blob_line(10**20) + b"\n" + END, 4),
        (HEAD + blob_line(LARGEST + 1), 4),
        (HEAD + blob_line(LARGEST), 5),
        (HEAD + b"x" * LONGEST, 5),
        (HEAD + b"x" * (LONGEST + 1), 1),
        (b"gittuf-stream 2\n" + END, 1),
        (HEAD + f"object {BLOB.upper()} blob 0\n\n".encode() + END, 1),
        (HEAD + f"object {BLOB} bulb 0\n\n".encode() + END, 1),
        (HEAD + f"object {BLOB} blob 00\n\n".encode() + END, 1),
        (HEAD + ref_line(LOG + "/", BLOB) + END, 1),
    ]
    runs = []
    for stream, number in rows:
        runs += [refused(VERIFY, 3, f"stream {number}", source=stream), given(EMPTY)]
    return History(), *runs


def places_of_refusals():
    """The offset of the line or of the byte, the ids, the limit, or the length."""
    tree = f"object {EMPTY_TREE} tree 0\n\n".encode()
    blob, ref = blob_line(0) + b"\n", ref_line("refs/heads/a", EMPTY_TREE)
    rows = [
        (ONE_BLOB, "taken"),
        (HEAD + blob, "truncated 96"),
        (b"", "truncated 0"),
        (ONE_BLOB + b"\n", "bad-line 100"),
        (b"gittuf-stream 2\n", "bad-line 0"),
        (HEAD + blob_line(0) + b"\r" + END, "bad-line 95"),
        (HEAD + b"x" * (LONGEST + 1), "bad-line 16"),
        (HEAD + tree + blob + END, "order 96"),
        (HEAD + ref + blob + END, "order 98"),
        (HEAD + ref + ref + END, "order 98"),
        (HEAD + tree + blob_line(LARGEST + 1) + b"\n" + END, f"too-large {LARGEST}"),
        (HEAD + blob_line(0, ZEROS) + b"\n" + END, f"id-differs {ZEROS} {BLOB}"),
    ]
    return History(), *(Asked("stream", stream, answer) for stream, answer in rows)


def blobs_in_order(count, size):
    """So many blobs of so many bytes, as (id, body), by rising ids."""
    bodies = [b"%d\n" % it + b"x" * (size - len(b"%d\n" % it)) for it in range(count)]
    return sorted((object_id(b"blob", it), it) for it in bodies)


def record_of(id, body, size=None, end=b"\n"):
    return f"object {id} blob {len(body) if size is None else size}\n".encode() + body + end


def objects_that_are_hashed_together():
    """Of a run of objects the first that is wrong decides, wherever it stands: none behind it, and no group of them."""
    blobs = blobs_in_order(24, 400)
    records = [record_of(*it) for it in blobs]
    whole = HEAD + b"".join(records)
    rows = [(whole + END, "taken"), (whole + ref_line(MAIN, blobs[0][0]) + END, "taken")]
    for at in (7, 8, 20):
        id, body = blobs[at]
        front, line, rest = HEAD + b"".join(records[:at]), len(records[at]) - len(body) - 1, b"".join(records[at + 1 :]) + END
        other = id[:-1] + ("0" if id[-1] != "0" else "1")
        flipped = body[:-1] + b"y"
        late = record_of(*blobs[at]) + records[at - 1]
        rows += [
            (front + record_of(other, body) + rest, f"id-differs {other} {id}"),
            (front + record_of(id, flipped) + rest, f"id-differs {id} {object_id(b'blob', flipped)}"),
            (front + record_of(id, body, end=b"\r") + rest, f"bad-line {len(front) + line + len(body)}"),
            (front + record_of(id, body, size="0400") + rest, f"bad-line {len(front)}"),
            (front + record_of(id, body, size=LARGEST + 1) + rest, f"too-large {LARGEST}"),
            (front + records[at][:-9], f"truncated {len(front) + len(records[at]) - 9}"),
            (HEAD + b"".join(records[: at - 1]) + late + rest, f"order {len(front)}"),
            (front + records[at] + records[at] + rest, f"order {len(front) + len(records[at])}"),
            (front + ref_line(MAIN, id) + records[at] + rest, f"order {len(front) + len(ref_line(MAIN, id))}"),
        ]
    return History(), *(Asked("stream", stream, answer) for stream, answer in rows)


def objects_behind_a_source_that_fails():
    """A source of many objects that fails at a call of it: what was read before that decides."""
    blobs = blobs_in_order(24, 400)
    records = [record_of(*it) for it in blobs]
    whole = HEAD + b"".join(records) + END
    early, late = (whole.replace(records[at], record_of(blobs[at][0], blobs[at][1][:-1] + b"y")) for at in (2, 20))
    runs = []
    for stream, call, ends in ((whole, 1, None), (whole, 2, None), (early, 1, None), (early, 2, 2), (late, 2, None), (late, 50, 2)):
        over = [failing("source", call)]
        runs += [Anew(), refused(VERIFY, 3, f"stream {ends}", source=stream, over=over) if ends else refused(VERIFY, 4, "fault", source=stream, over=over)]
        runs += [given(EMPTY)]
    return History(), *runs


def endings_that_no_row_comes_to():
    """Want of memory, and refusals of streams by their numbers."""
    rows = [Asked("refused", [str(number)], f"3 stream {number}\n") for number in (1, 8, 255)]
    return History(), Asked("memory", [], "5 memory\n"), *rows


def bodies_of_some_sizes():
    """A body that is written in one piece with its line, and some that are not."""
    runs = []
    for size in (3, 4_095, 4_096, 4_097, 5_000):
        body = b"\7" * size
        stream = HEAD + blob_line(size, object_id(b"blob", body)) + body + b"\n" + END
        runs += [Anew(), done("import", "imported", source=stream), given(stream)]
    return History(), *runs


def objects_outside_that_fail():
    """A source, a sink without room, and a sink for refusals without room, which changes no status."""
    none = (f"verify-ref {MAIN}", 0, ACCEPTED)
    return (
        History(),
        refused(VERIFY, 4, "fault", over=[failing("source", 1)]),
        given(EMPTY),
        Run(VERIFY, (3, "", ""), source=b"", over=[room("refusals", 3)]),
        Run(VERIFY, (4, "", "fault\n"), source=MAIN_AT_BLOB, over=[room("sink", len(DIFFERS) - 1)]),
        given(MAIN_AT_BLOB),
        Run("export", (4, HEAD.decode(), "fault\n"), over=[room("sink", len(HEAD))]),
        Anew(),
        Run(none[0], none[1:] + ("",)),
        refused(none[0], 4, "fault", over=[failing("store", 1)]),
        given(EMPTY),
    )


def store_that_fails():
    """Its third call is the commit, and the fourth asks for the log's reference. A failed commit is kept, or not."""
    runs = []
    for call, kept, then in ((1, 0, EMPTY), (3, 0, EMPTY), (3, 3, MAIN_AT_BLOB), (4, 0, MAIN_AT_BLOB), (5, 0, MAIN_AT_BLOB)):
        over = [failing("store", call), failing("kept", kept)]
        runs += [Anew(), refused(VERIFY, 4, "fault", source=MAIN_AT_BLOB, over=over), given(then)]
    return History(), *runs


def words_refused():
    """Words outside the grammar touch nothing."""
    words = (
        "",
        "verify-ref",
        f"verify-ref {MAIN} refs/heads/side",
        "verify-ref refs/heads/a..b --stdin",
        f"verify-ref {LOG} --stdin",
        f"verify {MAIN} --stdin",
        f"verify-ref {MAIN} --stdin --stdin",
        f"{VERIFY} --root",
        "import --stdin",
        "key-gen 5",
        "key-gen 5 8 8",
        f"record {LOG}",
        "log log",
    )
    return History(), *(run for it in words for run in (refused(it, 2, "words refused", source=MAIN_AT_BLOB), given(EMPTY)))


ROWS = (
    streams_taken_and_given_back,
    large_body,
    export_past_the_limit,
    stream_that_is_cut,
    streams_judged,
    streams_refused,
    places_of_refusals,
    objects_that_are_hashed_together,
    objects_behind_a_source_that_fails,
    endings_that_no_row_comes_to,
    bodies_of_some_sizes,
    objects_outside_that_fail,
    store_that_fails,
    words_refused,
)
