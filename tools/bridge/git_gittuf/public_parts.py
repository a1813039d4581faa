"""The public part of a key, made again from its key file by RFC 8554: no leaf signs for that, and nobody else is asked."""

import hashlib
import os
import struct

from git_gittuf import program, signatures
from git_gittuf.repository import Stopped

HEADS = {b"LMSKEY01": 64, b"LMSKEY02": 72}
# A part of the tree that one process makes at once.
PART = 64


def chain_end(front, value, last):
    for step in range(last):
        value = hashlib.sha256(front + bytes((step,)) + value).digest()
    return value


def leaf_value(identifier, seed, height, width, leaf):
    """The value of a leaf of the tree, from the ends of its chains."""
    name, last = identifier + struct.pack(">I", leaf), 2**width - 1
    ends = []
    for it in range(signatures.CHAINS[width]):
        front = name + struct.pack(">H", it)
        ends.append(chain_end(front, hashlib.sha256(front + b"\xff" + seed).digest(), last))
    value = signatures.digest(name, struct.pack(">H", signatures.D_PUBLIC), *ends)
    return signatures.digest(identifier, struct.pack(">IH", 2**height + leaf, signatures.D_LEAF), value)


def part_of_leaves(words, first, count):
    return [leaf_value(*words, leaf) for leaf in range(first, first + count)]


def root_of(identifier, seed, height, width):
    """The root of a key's tree."""
    # Few calls want it, and it takes long to load.
    import concurrent.futures

    parts = range(0, 2**height, PART)
    values, progress = [], program.Progress()
    words = (identifier, seed, height, width)
    with concurrent.futures.ProcessPoolExecutor(os.cpu_count()) as workers:
        for it in workers.map(part_of_leaves, [words] * len(parts), parts, [min(PART, 2**height)] * len(parts)):
            values += it
            progress.tell(f"{len(values)} leaves of the key made again, of {2**height}")
    progress.end()
    for level in reversed(range(height)):
        pairs = zip(values[::2], values[1::2])
        values = [
            signatures.digest(identifier, struct.pack(">IH", 2**level + at, signatures.D_INNER), left, right)
            for at, (left, right) in enumerate(pairs)
        ]
    return values[0]


def line_of(path):
    """The line `key <id> <public part>` of a key file."""
    with open(path, "rb") as file:
        head = file.read(72)
    kinds, identifier, seed = head[8:16], head[16:32], head[32:64]
    if head[:8] not in HEADS or not signatures.is_key(kinds + identifier + bytes(32)):
        raise Stopped(f"{path} is no key file: git gittuf key --file <another path> makes one", 3)
    public = kinds + identifier + root_of(identifier, seed, *signatures.numbers_of(kinds))
    if head[:8] == b"LMSKEY02":
        public = struct.pack(">I", 2) + public
    return f"key {hashlib.sha256(public).hexdigest()} {public.hex()}\n".encode()
