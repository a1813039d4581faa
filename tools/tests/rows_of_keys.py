"""Rows on keys that are made, and on what is signed where the disk, the store, the clock or the sink fails."""

import functools
import hashlib

from rows_histories import KEEPER, LOG, MAIN, MAINTAINER, History
from rows_objects import PROGRAM, ZEROS
from rows_of_streams import EMPTY, END, HEAD, ref_line
from rows_policies import encoded
from rows_runs import Anew, Held, Run, done, failing, given, moments, random, refused, room
from rows_signing import INNER, LEAF, LEAVES, PUBLIC, long, sha256, short

# The identifier and the seed that are drawn.
DRAWN = bytes((7,)) * 48
# What another implementation of RFC 8554 makes of them with height 5 and width 8.
OTHERS = (
    "key 2a33d1a80147fac88d7f19ac7f704a3812b02a3a773eef999047c4aacd20321e "
    "00000005000000040707070707070707070707070707070"
    "71b8e795f1cb742562702c7f658cf11208e5d0b530bde4326dc24c3e8135c7f4c"
)
LMS_TYPES, OTS_TYPES = {5: 5, 10: 6}, {1: 1, 2: 2, 4: 3, 8: 4}
CHAINS = {1: 265, 2: 133, 4: 67, 8: 34}
# A payload and an envelope have at most so many bytes.
MOST = 1_048_576


def one_time_public(identifier, seed, leaf, width):
    ends = []
    for chain in range(CHAINS[width]):
        front = identifier + long(leaf) + short(chain)
        value = sha256(front, b"\xff", seed)
        for step in range(2**width - 1):
            value = hashlib.sha256(front + bytes((step,)) + value).digest()
        ends.append(value)
    return sha256(identifier, long(leaf), short(PUBLIC), *ends)


def types_of(height, width):
    return long(LMS_TYPES[height]) + long(OTS_TYPES[width])


@functools.cache
def key_line(height, width):
    """The line that tells the key of this height and width of what is drawn."""
    identifier, seed, leaves = DRAWN[:16], DRAWN[16:], 2**height
    nodes = {}
    for leaf in range(leaves):
        public = one_time_public(identifier, seed, leaf, width)
        nodes[leaves + leaf] = sha256(identifier, long(leaves + leaf), short(LEAF), public)
    for node in range(leaves - 1, 0, -1):
        nodes[node] = sha256(identifier, long(node), short(INNER), nodes[2 * node], nodes[2 * node + 1])
    public = types_of(height, width) + identifier + nodes[1]
    return f"key {sha256(public).hex()} {public.hex()}"


def key_file(height, width):
    return b"LMSKEY01" + types_of(height, width) + DRAWN + bytes(2**height)


def keys_made():
    """A key of each width and of two heights, of the same random bytes; the first as another implementation makes it."""
    assert key_line(5, 8) == OTHERS
    runs = []
    for height, width in ((5, 8), (5, 4), (5, 2), (5, 1), (10, 1)):
        over = [random(DRAWN), room("disk", 64 + 2**height)]
        runs += [Anew(), done(f"key-gen {height} {width}", key_line(height, width), over=over)]
        runs.append(Held(key_file(height, width)))
    for words in ("4 8", "6 8", "20 8", "25 8", "5 0", "5 3", "5 16", "05 8"):
        runs.append(refused(f"key-gen {words}", 2, "words refused", over=[random(DRAWN)]))
    # What is too dear to be made here is asked for where the key file holds something.
    for words in ("10 2", "10 4", "10 8", "15 1", "15 2", "15 4", "15 8"):
        runs.append(refused(f"key-gen {words}", 3, "not empty", key=b"x", over=[random(DRAWN)]))
    return History(), *runs


def two_level_line(height, width):
    """The line that tells the key of two levels whose top key has this height and width."""
    public = long(2) + bytes.fromhex(key_line(height, width).split()[2])
    return f"key {sha256(public).hex()} {public.hex()}"


def two_level_file(height, width, bottom):
    return b"LMSKEY02" + types_of(height, width) + DRAWN + types_of(bottom, width) + bytes(2 ** (height + bottom))


def keys_of_two_levels_made():
    """The key on top is that of one level, and the heights of both add up to 15 at most. What may be made and is dear is
    asked for where the key file holds something."""
    runs = []
    for width in (8, 1):
        over = [random(DRAWN), room("disk", 72 + 2**10)]
        runs += [Anew(), done(f"key-gen 5 {width} --bottom 5", two_level_line(5, width), over=over)]
        runs.append(Held(two_level_file(5, width, 5)))
    over = [random(DRAWN), room("disk", 71 + 2**10)]
    runs += [Anew(), refused("key-gen 5 8 --bottom 5", 4, "fault", over=over)]
    for words in ("5 8 --bottom 4", "5 8 --bottom 15", "10 8 --bottom 10", "15 8 --bottom 5", "5 8 --bottom"):
        runs.append(refused(f"key-gen {words}", 2, "words refused", over=[random(DRAWN)]))
    for words in ("5 8 --bottom 10", "10 1 --bottom 5"):
        runs.append(refused(f"key-gen {words}", 3, "not empty", key=b"x", over=[random(DRAWN)]))
    return History(), *runs


def no_key_made():
    """The key file holds something, there are no random bytes or too few, the disk has no room, and each of its calls
    fails in turn."""
    words = "key-gen 5 8"
    return (
        History(),
        refused(words, 3, "not empty", key=b"x", over=[random(DRAWN)]),
        Held(b"x"),
        refused(words, 4, "fault", key=b""),
        refused(words, 4, "fault", over=[random(DRAWN[:47])]),
        refused(words, 4, "fault", over=[random(DRAWN), failing("random", 1)]),
        Held(b""),
        refused(words, 4, "fault", over=[random(DRAWN), room("disk", 95)]),
        refused(words, 4, "fault", over=[random(DRAWN), failing("disk", 1)]),
        Held(b""),
        refused(words, 4, "fault", over=[random(DRAWN), room("disk", 96), failing("disk", 2)]),
        Held(b""),
        # The file is written, and may not be there after a stop.
        refused(words, 4, "fault", over=[random(DRAWN), room("disk", 96), failing("disk", 3)]),
        Held(key_file(5, 8)),
        refused(words, 3, "not empty", over=[random(DRAWN)]),
        refused(words, 4, "fault", key=b"", over=[random(DRAWN), room("sink", len(OTHERS))]),
        Held(key_file(5, 8)),
    )


def marks_that_a_stop_left():
    """A leaf is used whatever byte but zero stands for it, and the first that is not used signs."""
    runs = []
    for marks, leaf in ((b"\0", 0), (b"\1", 1), (b"\2", 1), (b"\x80", 1), (b"\xff", 1), (b"0\0", 1), (b"1\xff", 2), (b"\0\1", 0)):
        marks = marks.ljust(LEAVES, b"\0")
        history = History()
        history.used[KEEPER] = leaf
        runs.append(Run("seal", (0, history.seal(b"{}", [KEEPER]) + b"\n", ""), source=b"{}", key=KEEPER.file(marks)))
        runs.append(Held(KEEPER.file(marks[:leaf] + b"\1" + marks[leaf + 1 :])))
    return History(), *runs


def no_files_of_two_levels():
    """A file of two levels that is cut, is longer, or has a type that its levels may not have."""
    file = two_level_file(5, 8, 5)
    none = [file[:63], file[:71], file[:72], file[:-1], file + b"\0"]
    for at, byte in ((7, b"3"), (11, b"\7"), (15, b"\0"), (67, b"\x08"), (67, b"\6"), (71, b"\0"), (71, b"\5")):
        none.append(file[:at] + byte + file[at + 1 :])
    return History(), *(refused("seal", 3, "key file", source=b"{}", key=key) for key in none)


def file_of_15_levels():
    """A file of two levels whose heights add up to 15 is a key file, and here each of its leaves is used."""
    used = two_level_file(5, 1, 10)[: -(2**15)] + b"\1" * 2**15
    return History(), refused("seal", 6, "exhausted", source=b"{}", key=used)


def with_first_used(key):
    return key.file(b"\1" + bytes(LEAVES - 1))


def recorded_by_a_disk_that_fails():
    """The sync is the fifth call of the disk: its length, its header and its marks are read, and the mark is written.
    Before it nothing is used, and at it a leaf is, and the next entry is signed by the leaf after it."""
    history, fresh = History(PROGRAM), MAINTAINER.file(bytes(LEAVES))
    runs = []
    for call, held in ((1, fresh), (2, fresh), (3, fresh), (4, fresh), (5, with_first_used(MAINTAINER))):
        over = [failing("disk", call)]
        runs += [refused(f"record {MAIN}", 4, "fault", key=fresh, over=over), Held(held), given(EMPTY)]
    history.used[MAINTAINER] = 1
    history.record(MAIN, ZEROS, MAINTAINER)
    used = MAINTAINER.file(b"\1\1" + bytes(LEAVES - 2))
    return History(), *runs, done(f"record {MAIN}", f"entry 1 {history.ids[0]}"), Held(used)


def recorded_by_a_store_that_fails():
    """The commit is the third call of the store, behind the readings of the log's reference and of the branch. It is
    kept or not, and either way the leaf is used."""
    history, runs = History(PROGRAM), []
    history.record(MAIN, ZEROS, MAINTAINER)
    for call, kept, used, log in (
        (1, 0, b"\0", ""),
        (2, 0, b"\0", ""),
        (3, 0, b"\1", ""),
        (3, 3, b"\1", f"entry 1 {history.ids[0]} ref {MAIN} {ZEROS}\n"),
    ):
        over = [failing("store", call), failing("kept", kept)]
        runs += [Anew(), refused(f"record {MAIN}", 4, "fault", key=MAINTAINER.file(bytes(LEAVES)), over=over)]
        runs += [Held(MAINTAINER.file(used + bytes(LEAVES - 1))), Run("log", (0, log, ""))]
    return History(), *runs


def not_recorded():
    """A key file that is none; of which each leaf is used, once the clock was asked; and a clock that fails."""
    exhausted, fresh = MAINTAINER.file(b"1" * LEAVES), MAINTAINER.file(bytes(LEAVES))
    words = f"record {MAIN}"
    return (
        History(),
        refused(words, 3, "key file", key=b"LMSKEY01"),
        refused(words, 3, "key file", key=b"LMSKEY01"[:7] + b"2" + fresh[8:]),
        refused(words, 3, "key file", key=fresh[:-1]),
        refused(words, 3, "key file", key=fresh + b"\0"),
        refused(words, 6, "exhausted", key=exhausted),
        refused(words, 4, "fault", over=[moments()]),
        refused(words, 4, "fault", key=fresh, over=[failing("clock", 1)]),
        Held(fresh),
        given(EMPTY),
    )


def recorded_and_not_told():
    """Where the sink has no room for its line the entry is there; and a log that breaks may go untold too."""
    history = History(PROGRAM)
    history.record(MAIN, ZEROS, MAINTAINER)
    line = f"entry 1 {history.ids[0]}\n"
    stream = HEAD + ref_line(LOG, ZEROS) + END
    broken = (3, f"log-broken {ZEROS}\n", "")
    return (
        History(),
        refused(f"record {MAIN}", 4, "fault", key=MAINTAINER.file(bytes(LEAVES)), over=[room("sink", len(line) - 1)]),
        Run("log", (0, f"entry 1 {history.ids[0]} ref {MAIN} {ZEROS}\n", "")),
        Held(with_first_used(MAINTAINER)),
        Anew(),
        done("import", "imported", source=stream, key=MAINTAINER.file(bytes(LEAVES))),
        Run(f"record {MAIN}", broken, over=[room("sink", len(broken[1]))]),
        refused(f"record {MAIN}", 4, "fault", over=[room("sink", len(broken[1]) - 1)]),
        Held(MAINTAINER.file(bytes(LEAVES))),
    )


def largest_payload_sealed():
    """A payload of 1 MiB is sealed, and one of a byte more is refused before the key file is read."""
    history = History()
    sealed = history.seal(bytes(MOST), [KEEPER])
    return (
        History(),
        refused("seal", 3, "input", source=bytes(MOST + 1), key=b""),
        refused("seal", 3, "key file", source=bytes(MOST)),
        Run("seal", (0, sealed + b"\n", ""), key=KEEPER.file(bytes(LEAVES)), over=[room("sink", 2_000_000)]),
    )


def sealed_and_not_told():
    """The leaf is used where the sink has no room, and the next seal has the next leaf. The disk and the source fail."""
    history, message = History(), encoded(b"{}")
    history.sign(KEEPER, message)
    sealed = history.seal(b"{}", [KEEPER])
    return (
        History(),
        refused("seal", 4, "fault", source=b"{}", key=KEEPER.file(bytes(LEAVES)), over=[failing("source", 1)]),
        refused("seal", 4, "fault", over=[failing("disk", 1)]),
        Held(KEEPER.file(bytes(LEAVES))),
        refused("seal", 4, "fault", over=[room("sink", 100)]),
        Held(with_first_used(KEEPER)),
        Run("seal", (0, sealed + b"\n", "")),
    )


ROWS = (
    keys_made,
    keys_of_two_levels_made,
    no_key_made,
    marks_that_a_stop_left,
    no_files_of_two_levels,
    file_of_15_levels,
    recorded_by_a_disk_that_fails,
    recorded_by_a_store_that_fails,
    not_recorded,
    recorded_and_not_told,
    largest_payload_sealed,
    sealed_and_not_told,
)
