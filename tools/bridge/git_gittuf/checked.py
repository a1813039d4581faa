"""Which entries were found signed by the key that they name, so that each is looked at once: by a sum of the key and the entry.

What is kept says who is named, and no more: whether a signature suffices is the program's to say, which reads nothing of it.
Of many at once gittuf-inspect tells it, where that is here: it looks at them in one pass, and many times as quickly.
"""

import functools
import hashlib
import os

from git_gittuf import leaves, notes, signatures

# So many are worth several processes, each of which takes so many at once.
MANY, PIECE = 400, 100
# So many bytes are read of what was kept.
MOST = 256 << 20


def sum_of(public, body):
    return hashlib.sha256(b"%d %s%s" % (len(public), public, body)).hexdigest()


def are_good(asked):
    """Whether each of these entries has a good signature by the key with it."""
    found = []
    for public, body in asked:
        signed = leaves.of_entry(body, hashlib.sha256(public).hexdigest().encode())
        found.append(any(signatures.is_good(public, *it) for it in signed))
    return found


def looked_at(asked):
    """The same, by all processors where there are many."""
    if len(asked) < MANY:
        return are_good(asked)
    # Few calls want it, and it takes long to load.
    import concurrent.futures

    pieces = [asked[at : at + PIECE] for at in range(0, len(asked), PIECE)]
    with concurrent.futures.ProcessPoolExecutor(len(os.sched_getaffinity(0))) as pool:
        return [it for piece in pool.map(are_good, pieces) for it in piece]


class Checked:
    """What was found of signatures in a repository."""

    def __init__(self, repository):
        self.path = os.path.join(repository.folder, "signed")
        # What is not as it was written is looked at again.
        lines = (notes.read(self.path, MOST) or b"").decode().splitlines()
        self.found = {it[2:]: it[:1] == "+" for it in lines}
        # Each is asked for more than once.
        self.sum_of = functools.lru_cache(maxsize=None)(sum_of)

    def are_good(self, asked):
        """The same, of which those that were looked at before are known."""
        sums = [self.sum_of(*it) for it in asked]
        new = {it: one for it, one in zip(sums, asked) if it not in self.found}
        if new:
            self.keep(zip(new, looked_at([*new.values()])))
        return [self.found[it] for it in sums]

    def is_new(self, public, body):
        return self.sum_of(public, body) not in self.found

    def learn(self, told):
        """Keeps what the program told of these: the public key, the entry, and whether its signature is good by that key."""
        self.keep((self.sum_of(public, body), is_good) for public, body, is_good in told)

    def keep(self, found):
        self.found.update(found)
        lines = [f"{'+' if good else '-'} {it}\n" for it, good in sorted(self.found.items())]
        notes.write(self.path, "".join(lines).encode())
