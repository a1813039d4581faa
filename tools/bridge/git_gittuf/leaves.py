"""Which leaves of a key have signed, as everybody who has the repository sees it.

A key file marks each leaf before it signs. So a file that has a leaf as unused which is seen to have signed, or one above
it, is an older copy: what it signs next may be the second signature of a leaf, by which others can forge.
"""

import base64
import json
import os
import re

from git_gittuf import keys, signatures
from git_gittuf.remotes import BESIDE
from git_gittuf.repository import ATTESTATIONS, LOG, OWN, POLICY, STAGED, Stopped

ENTRY_SIGNATURE = re.compile(rb"\nlmssig ([0-9a-f]{64}) ([A-Za-z0-9+/=]+)\n")
# The largest file in which the program reads signatures.
MAX_ENVELOPE = 1 << 20
SIGNED = tuple(it[len(OWN) - 1 :] for it in (LOG, POLICY, STAGED, ATTESTATIONS))


def first_unused(path):
    """The least leaf that a key file has as unused, or the number of its leaves."""
    leaves = keys.leaves_of(path)
    found = leaves.find(b"\0")
    return len(leaves) if found < 0 else found


class Looked:
    """What was looked through for a key: the commits up to which, and the greatest leaf that was seen below the unused ones."""

    def __init__(self, repository, key_id):
        self.path, self.key_id = os.path.join(repository.folder, "leaves"), key_id
        self.tips, self.greatest = [], -1

    @classmethod
    def read(cls, repository, key_id):
        found = cls(repository, key_id)
        try:
            with open(found.path, encoding="utf-8") as file:
                noted = json.load(file)
            if noted["key"] == key_id:
                found.tips, found.greatest = [it.encode() for it in noted["tips"]], int(noted["greatest"])
        except (OSError, ValueError, KeyError, TypeError, AttributeError):
            # What is not noted is looked through again.
            pass
        return found

    def write(self):
        noted = {"key": self.key_id, "tips": [it.decode() for it in self.tips], "greatest": self.greatest}
        # Calls that only read write it side by side.
        beside = f"{self.path}.{os.getpid()}"
        with open(beside, "w", encoding="utf-8") as file:
            json.dump(noted, file)
        os.rename(beside, self.path)


def tips_of(repository):
    """Where the log, the policies and the approvals stand, also those of remotes."""
    there = repository.references().items()
    return sorted({value for name, value in there if name.startswith((OWN, BESIDE)) and name.endswith(SIGNED)})


def readable_objects(repository, tips, looked):
    """The commits and the small files that these tips reach, and those that were looked through do not."""
    if set(tips) <= set(looked):
        return []
    lines = b"".join(b"%s\n" % it for it in (*tips, *(b"^" + it for it in repository.there(looked))))
    words = ("rev-list", "--objects", "--no-object-names", "--stdin")
    ids = repository.lines("list what is signed, as git fsck may say", *words, input=lines)
    return [it[0] for it in repository.rows(ids) if it and (it[1] == b"commit" or it[1] == b"blob" and int(it[2]) <= MAX_ENVELOPE)]


def of_entry(body, key_id):
    """What a log's entry has of a key: the signed bytes and the signature."""
    head, _, rest = body.partition(b"\n\n")
    found = ENTRY_SIGNATURE.search(head + b"\n")
    if found and found[1] == key_id:
        yield head.replace(found[0][:-1], b"", 1) + b"\n\n" + rest, signatures.decoded(found[2].decode())


def of_envelope(text, key_id):
    """What an envelope has of a key: the signed bytes and each signature."""
    try:
        envelope = json.loads(text)
        signed = signatures.signed_bytes(envelope["payloadType"].encode(), base64.b64decode(envelope["payload"]))
        for it in envelope["signatures"]:
            if it.get("keyid") == key_id.decode():
                yield signed, signatures.decoded(it["sig"])
    except (ValueError, KeyError, TypeError, AttributeError, RecursionError):
        # It is no envelope, and nothing in it counts as signed.
        return


def is_signed(text, key_id, public):
    """Whether an envelope has a good signature by this key."""
    return any(signatures.is_good(public, signed, it) for signed, it in of_envelope(text, key_id.encode()))


def claims(repository, ids, key_id, public):
    """The leaves that signatures under this key's id name in these objects, each with the signed bytes and the signature."""
    found = []
    for _, kind, body in repository.bodies(ids):
        if key_id not in body:
            continue
        for signed, signature in (of_entry if kind == b"commit" else of_envelope)(body, key_id):
            leaf = signatures.leaf_of(public, signature)
            if leaf is not None:
                found.append((leaf, signed, signature))
    return found


def seen_above(repository, path):
    """The greatest leaf that is seen to have signed, and is not below the first unused one of the key file; or none."""
    key_id, public = keys.id_and_public(path)
    public, first, tips = bytes.fromhex(public), first_unused(path), tips_of(repository)
    looked = Looked.read(repository, key_id)
    if looked.greatest >= first:
        looked = Looked(repository, key_id)
    found = claims(repository, readable_objects(repository, tips, looked.tips), key_id.encode(), public)
    # Whoever writes a number into a signature of his own spoils nobody's key.
    for leaf, signed, signature in sorted(found, key=lambda it: -it[0]):
        if leaf >= first and signatures.is_good(public, signed, signature):
            return leaf
    looked.tips, looked.greatest = tips, max([looked.greatest, *(leaf for leaf, *_ in found if leaf < first)])
    looked.write()
    return None


def spoilt(repository, path):
    """In a sentence that the key is spoilt, or nothing."""
    leaf = seen_above(repository, path)
    if leaf is None:
        return None
    return (
        f"the key {path} is spoilt: its leaf {leaf} signed already, as is seen here, and the file has leaf {first_unused(path)}"
        " as unused, as a copy that was put back has it"
    )


def signing_key(repository):
    """The path of the key that signs, whose next leaf nobody has seen."""
    path = keys.needed(repository)
    said = spoilt(repository, path)
    if said:
        raise Stopped(f"{said}; nothing is signed: git gittuf key --file <another path> makes another, for policy person", 3)
    return path
