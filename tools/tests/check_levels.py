"""The checks of tools/test on keys of two levels, whose signatures are judged here by RFC 8554 alone."""

import base64
import json
import os
import re
import shutil
import struct

from check_keys import bytes_of, line_of
from checking import PROGRAM, Skip, TOP
from checking import run, want, want_run
from git_gittuf.signatures import digest, is_good, leaf_of, length_of, root_of

KEY_LINE = re.compile(rb"key ([0-9a-f]{64}) ([0-9a-f]{120})\n")
ONE_LEVEL_LINE = re.compile(rb"key ([0-9a-f]{64}) ([0-9a-f]{112})\n")
CASTLE = "/usr/share/java/bcprov.jar"
VECTORS = os.path.join(TOP, "tools", "lms-vectors", "LmsVectors.java")


def leaves_in(public, message, signature):
    """The leaves of both levels in a signature that is good by a key of two levels, and its signed key."""
    want((public[:4], signature[:4]), (struct.pack(">I", 2), struct.pack(">I", 1)), "the numbers of levels")
    top, rest = public[4:], signature[4:]
    link, below, last = rest[: length_of(top)], rest[length_of(top) :][:56], rest[length_of(top) + 56 :]
    want(len(last), length_of(below), "the bytes of the last signature")
    above, root = root_of(top, below, link)
    want(root, top[24:], "the root that the first signature leads to")
    leaf, root = root_of(below, message, last)
    want(root, below[24:], "the root that the last signature leads to")
    return above, leaf, signature[: len(signature) - len(last)]


def sealed(key, public, payload):
    """Seals a payload, and returns the bytes that were signed and the signature."""
    status, output, errors = run(PROGRAM, "-", key, "seal", input=payload)
    want((status, errors), (0, b""), "the status and errors of seal")
    envelope = json.loads(output)
    kind, signature = envelope["payloadType"].encode(), envelope["signatures"][0]
    want(signature["keyid"], digest(public).hex(), "the id of the key")
    return b"DSSEv1 %d %s %d %s" % (len(kind), kind, len(payload), payload), base64.b64decode(signature["sig"])


def signs_over_a_change_of_the_key_below(repositories):
    """signatures 31 and 32 of a key of two levels are good by RFC 8554, and carry different keys below"""
    key = repositories.path("levels.key")
    found = line_of(KEY_LINE, (PROGRAM, "-", key, "key-gen", "5", "4", "--bottom", "5"))
    public = bytes.fromhex(found[2].decode())
    want(digest(public).hex(), found[1].decode(), "the id of the key")
    made = bytes_of(key)
    want((len(made), made[:8]), (1096, b"LMSKEY02"), "the bytes and the magic of the key file")
    with open(key, "r+b") as file:
        file.seek(72)
        file.write(b"\1" * 31)
    first, second, third = (leaves_in(public, *sealed(key, public, it)) for it in (b"31", b"32", b"33"))
    want((first[:2], second[:2], third[:2]), ((0, 31), (1, 0), (1, 1)), "the leaves that signed")
    want((first[2] == second[2], second[2] == third[2]), (False, True), "which signed keys are one")
    want(bytes_of(key)[72:107], b"\1" * 34 + b"\0", "the leaves that are used")


def reads_signatures_of_each_width(repositories):
    """git gittuf reads the leaf of a signature of each width, and takes it for its message and key alone"""
    for width in ("1", "2", "4", "8"):
        key = repositories.path(f"width-{width}.key")
        found = line_of(ONE_LEVEL_LINE, (PROGRAM, "-", key, "key-gen", "5", width))
        public = bytes.fromhex(found[2].decode())
        for leaf in range(2):
            text, signature = sealed(key, public, b"what is sealed")
            cases = {
                "its own": (public, text, signature),
                "another message": (public, text + b".", signature),
                "another key": (public[:-1] + bytes([public[-1] ^ 1]), text, signature),
                "another leaf": (public, text, (leaf + 1).to_bytes(4, "big") + signature[4:]),
                "cut": (public, text, signature[:-1]),
            }
            good = {name: is_good(*case) for name, case in cases.items()}
            want([name for name, it in good.items() if it], ["its own"], f"of width {width}, what is good")
            want(leaf_of(public, signature), leaf, f"the leaf of a signature of width {width}")


def takes_no_taller_levels(repositories):
    """two heights of 10 are outside the grammar, and a header that has them is none"""
    key = repositories.path("taller.key")
    want_run((PROGRAM, "-", key, "key-gen", "10", "4", "--bottom", "10"), 2, errors=b"words refused\n")
    line_of(KEY_LINE, (PROGRAM, "-", key, "key-gen", "10", "4", "--bottom", "5"))
    want(len(bytes_of(key)), 72 + 2**15, "the bytes of the key file")
    with open(key, "r+b") as file:
        file.seek(67)
        file.write(b"\6")
    want_run((PROGRAM, "-", key, "seal"), 3, errors=b"key file\n", input=b"{}")


def another_implementation_takes_signatures(repositories):
    """Bouncy Castle takes what keys of two levels sign, and nothing else"""
    if not (os.path.exists(CASTLE) and shutil.which("javac") and shutil.which("java")):
        raise Skip("Bouncy Castle is not here")
    made = repositories.path("castle")
    want_run(("javac", "-cp", CASTLE, "-d", made, VECTORS), 0)
    judge = ("java", "-cp", f"{made}:{CASTLE}", "org.bouncycastle.pqc.crypto.lms.LmsVectors", "check")
    for heights in (("5", "5"), ("5", "10"), ("10", "5")):
        key = repositories.path(f"{'-'.join(heights)}.key")
        found = line_of(KEY_LINE, (PROGRAM, "-", key, "key-gen", heights[0], "4", "--bottom", heights[1]))
        public = bytes.fromhex(found[2].decode())
        text, signature = sealed(key, public, b"what is sealed")
        for message, output in ((text, b"true\n"), (text + b".", b"false\n")):
            files = {"public": public, "message": message, "signature": signature}
            for name, content in files.items():
                with open(os.path.join(made, name), "wb") as file:
                    file.write(content)
            want_run((*judge, *(os.path.join(made, it) for it in files)), 0, output)


CHECKS = (
    another_implementation_takes_signatures,
    signs_over_a_change_of_the_key_below,
    reads_signatures_of_each_width,
    takes_no_taller_levels,
)
