"""LMS keys for the measurements of tools/bench, and their signatures, by RFC 8554 over SHA-256.

A key here has only as many leaves as are to sign. What else its tree has is drawn, and nobody can sign with that; whoever
verifies sees a key and signatures like any others. A key is made from its name, is in no file, and goes with the tool.
"""

import base64
import concurrent.futures
import hashlib
import os
import struct

LMS_TYPES = {5: 5, 10: 6, 15: 7}
OTS_TYPES = {4: 3, 8: 4}
# The number of chains, and by how many bits the sum of the rest of the digits is shifted.
CHAINS, SHIFTS = {4: 67, 8: 34}, {4: 4, 8: 0}
# The number of a step in a byte.
STEPS = [bytes([it]) for it in range(255)]
D_PUBLIC, D_MESSAGE, D_LEAF, D_INNER, D_RANDOM = 0x8080, 0x8181, 0x8282, 0x8383, 0xFFFD


def digest(*parts):
    return hashlib.sha256(b"".join(parts)).digest()


def walk(head, value, start, end):
    """The steps from `start` up to `end` of a chain, `head` being what each step's text begins with."""
    sha256 = hashlib.sha256
    for step in STEPS[start:end]:
        value = sha256(head + step + value).digest()
    return value


def digits_of(text, width):
    """The digits of a text and of their checksum."""
    if width == 8:
        digits = list(text)
    else:
        digits = [it for byte in text for it in (byte >> 4, byte & 15)]
    rest = sum(2**width - 1 - it for it in digits) << SHIFTS[width]
    tail = rest.to_bytes(2, "big")
    return digits + (list(tail) if width == 8 else [tail[0] >> 4, tail[0] & 15, tail[1] >> 4])


def public_of_leaf(key, leaf):
    """A leaf's one-time public key: all its chains to their ends."""
    most = 2**key.width - 1
    ends = [walk(key.head(leaf, it), key.start(leaf, it), 0, most) for it in range(CHAINS[key.width])]
    return digest(key.identifier, struct.pack(">IH", leaf, D_PUBLIC), *ends)


def leaves_of(key, first, end):
    return [public_of_leaf(key, leaf) for leaf in range(first, end)]


class Key:
    """A key by its name, height and width, with so many leaves that may sign, in turn."""

    def __init__(self, name, height, width, leaves):
        self.height, self.width, self.leaves, self.used = height, width, leaves, 0
        self.identifier, self.seed = digest(b"identifier", name.encode())[:16], digest(b"seed", name.encode())
        self.levels = []

    def head(self, leaf, chain):
        return self.identifier + struct.pack(">IH", leaf, chain)

    def start(self, leaf, chain):
        return digest(self.head(leaf, chain), b"\xff", self.seed)

    def finish(self, publics):
        """Makes the tree over the leaves' one-time public keys."""
        level = []
        for leaf, public in enumerate(publics):
            level.append(digest(self.identifier, struct.pack(">IH", 2**self.height + leaf, D_LEAF), public))
        self.levels = [level]
        for depth in range(self.height - 1, -1, -1):
            under, level = self.levels[-1], []
            for place in range((len(under) + 1) // 2):
                pair = (self.node(len(self.levels) - 1, 2 * place), self.node(len(self.levels) - 1, 2 * place + 1))
                level.append(digest(self.identifier, struct.pack(">IH", 2**depth + place, D_INNER), *pair))
            self.levels.append(level)
        root = self.levels[-1][0]
        types = struct.pack(">II", LMS_TYPES[self.height], OTS_TYPES[self.width])
        self.public = types + self.identifier + root
        self.id = digest(self.public).hex()

    def node(self, level, place):
        """A node of the tree, which is drawn where no leaf below it signs."""
        if place < len(self.levels[level]):
            return self.levels[level][place]
        return digest(b"drawn", self.identifier, struct.pack(">II", level, place))

    def sign(self, message):
        """The signature of a message by the next leaf."""
        leaf, self.used = self.used, self.used + 1
        if leaf >= self.leaves:
            raise ValueError("each leaf is used")
        random = digest(self.head(leaf, D_RANDOM), b"\xff", self.seed)
        digits = digits_of(digest(self.identifier, struct.pack(">IH", leaf, D_MESSAGE), random, message), self.width)
        values = [walk(self.head(leaf, it), self.start(leaf, it), 0, digit) for it, digit in enumerate(digits)]
        path = [self.node(level, leaf >> level ^ 1) for level in range(self.height)]
        types = struct.pack(">I", OTS_TYPES[self.width]), struct.pack(">I", LMS_TYPES[self.height])
        return b"".join([struct.pack(">I", leaf), types[0], random, *values, types[1], *path])


def make_keys(keys):
    """Makes the trees of keys, on all processors, and returns the keys."""
    pieces = [(key, first, min(first + 64, key.leaves)) for key in keys for first in range(0, key.leaves, 64)]
    with concurrent.futures.ProcessPoolExecutor(os.cpu_count()) as pool:
        made = list(pool.map(leaves_of, *zip(*pieces)))
    for key in keys:
        key.finish([it for (owner, _, _), part in zip(pieces, made) if owner is key for it in part])
    return keys


def base64_of(text):
    return base64.b64encode(text)
