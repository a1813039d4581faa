"""Signatures of keys of one level and of two, read by RFC 8554 alone: which leaves they name, and whether they are good.

A public key and a signature are bytes as docs/FORMATS.md has them.
"""

import base64
import binascii
import hashlib
import struct

try:
    # For texts as short as these the one of Python itself is twice as fast as that of OpenSSL.
    from _sha256 import sha256
except ImportError:
    from hashlib import sha256

HEIGHTS = {5: 5, 6: 10, 7: 15, 8: 20, 9: 25}
WIDTHS = {1: 1, 2: 2, 3: 4, 4: 8}
# The number of chains, and by how many bits the sum of the rest of the digits is shifted, by the width.
CHAINS, SHIFTS = {1: 265, 2: 133, 4: 67, 8: 34}, {1: 7, 2: 6, 4: 4, 8: 0}
D_PUBLIC, D_MESSAGE, D_LEAF, D_INNER = 0x8080, 0x8181, 0x8282, 0x8383
ONE_LEVEL, TWO_LEVELS = 56, 60
STEPS = [bytes((it,)) for it in range(255)]


def digest(*parts):
    return hashlib.sha256(b"".join(parts)).digest()


def numbers_of(public):
    """The height and the width of an LMS key, which its types say."""
    kind, ots = struct.unpack(">II", public[:8])
    return HEIGHTS[kind], WIDTHS[ots]


def is_key(public):
    """Whether these are the bytes of a public key of one level or of two."""
    if len(public) == TWO_LEVELS:
        return public[:4] == struct.pack(">I", 2) and is_key(public[4:])
    number = lambda at: int.from_bytes(public[at : at + 4], "big")
    return len(public) == ONE_LEVEL and number(0) in HEIGHTS and number(4) in WIDTHS


def length_of(public):
    """The bytes of a signature by an LMS key."""
    height, width = numbers_of(public)
    return 4 + 36 + 32 * CHAINS[width] + 4 + 32 * height


def digits_of(text, width):
    """The digits of a text and of their checksum, from the high bits on."""
    split = lambda it: [it >> at & (1 << width) - 1 for at in range(8 - width, -1, -width)]
    digits = [digit for byte in text for digit in split(byte)]
    rest = sum((1 << width) - 1 - it for it in digits) << SHIFTS[width]
    return (digits + [digit for byte in rest.to_bytes(2, "big") for digit in split(byte)])[: CHAINS[width]]


def end_of_chain(front, value, start, last):
    """The value after the steps of a chain from `start` to its end."""
    for step in STEPS[start:last]:
        value = sha256(front + step + value).digest()
    return value


def root_of(public, message, signature):
    """The leaf that a signature names, and the root that it leads to (RFC 8554, algorithm 6a)."""
    height, width = numbers_of(public)
    identifier, leaf = public[8:24], int.from_bytes(signature[:4], "big")
    digits = digits_of(digest(identifier, struct.pack(">IH", leaf, D_MESSAGE), signature[8:40], message), width)
    ends = [
        end_of_chain(identifier + struct.pack(">IH", leaf, it), signature[40 + 32 * it : 72 + 32 * it], digit, 2**width - 1)
        for it, digit in enumerate(digits)
    ]
    node = 2**height + leaf
    value = digest(identifier, struct.pack(">IH", leaf, D_PUBLIC), *ends)
    value = digest(identifier, struct.pack(">IH", node, D_LEAF), value)
    path = signature[44 + 32 * CHAINS[width] :]
    for level in range(height):
        beside = path[32 * level : 32 * level + 32]
        pair = (beside, value) if node & 1 else (value, beside)
        node >>= 1
        value = digest(identifier, struct.pack(">IH", node, D_INNER), *pair)
    return leaf, value


def parts_of(public, signature):
    """The LMS keys and signatures in a signature, from the top one on: (public, signature), or none where it has another form."""
    if not is_key(public):
        return None
    if len(public) == ONE_LEVEL:
        parts = [(public, signature)]
    else:
        top, rest = public[4:], signature[4:]
        below = rest[length_of(top) :][:ONE_LEVEL]
        parts = [(top, rest[: length_of(top)]), (below, rest[length_of(top) + ONE_LEVEL :])]
        if signature[:4] != struct.pack(">I", 1) or not is_key(below):
            return None
    for key, it in parts:
        height, width = numbers_of(key)
        at = 40 + 32 * CHAINS[width]
        if len(it) != length_of(key) or it[4:8] != key[4:8] or it[at : at + 4] != key[:4] or int.from_bytes(it[:4], "big") >> height:
            return None
    return parts


def leaf_of(public, signature):
    """The leaf that a signature by this key names, as key files count them, or none where it is no signature of such a key."""
    parts = parts_of(public, signature)
    if not parts:
        return None
    leaf = 0
    for key, it in parts:
        leaf = (leaf << numbers_of(key)[0]) + int.from_bytes(it[:4], "big")
    return leaf


def is_good(public, message, signature):
    """Whether a signature of a message is one by this key."""
    parts = parts_of(public, signature)
    if not parts:
        return False
    messages = [key for key, _ in parts[1:]] + [message]
    return all(root_of(key, text, it)[1] == key[24:] for (key, it), text in zip(parts, messages))


def signed_bytes(kind, payload):
    """What the signatures of an envelope are over."""
    return b"DSSEv1 %d %s %d %s" % (len(kind), kind, len(payload), payload)


def decoded(text):
    """The bytes of a signature in one of the two alphabets, and none where it is no such text."""
    try:
        return base64.b64decode(text.replace("-", "+").replace("_", "/"), validate=True)
    except (binascii.Error, ValueError):
        return b""
