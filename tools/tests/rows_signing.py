"""Keys and signatures of LMS with LM-OTS over SHA-256 (RFC 8554), of height 5 and width 8.

Secrets come from one seed as in the standard's appendix A, and so does the randomizer of each leaf, under the chain
number 0xfffd. Nothing here may guard anything: a key's seed is its name.
"""

import functools

try:
    # Of short texts Python's own makes the most in a time: what hashlib calls takes longer to begin.
    from _sha256 import sha256 as hash_of
except ImportError:
    from hashlib import sha256 as hash_of

HEIGHT, LEAVES, CHAINS, LAST = 5, 32, 34, 255
LMS_TYPE, OTS_TYPE = (5).to_bytes(4, "big"), (4).to_bytes(4, "big")
# The values of a chain at each so many steps are kept: a leaf signs in several rows.
APART, STEPS = 4, [bytes((it,)) for it in range(LAST)]
RANDOMIZER, MESSAGE, PUBLIC, LEAF, INNER = 0xFFFD, 0x8181, 0x8080, 0x8282, 0x8383


def sha256(*parts):
    return hash_of(b"".join(parts)).digest()


def short(number):
    return number.to_bytes(2, "big")


def long(number):
    return number.to_bytes(4, "big")


def walked_on(front, value, first, end):
    """The value of a chain after the steps from the first up to the end."""
    for step in STEPS[first:end]:
        value = hash_of(front + step + value).digest()
    return value


class Key:
    """A key by name, whose tree is made when it is first asked for. What it signs is signed by the leaf that is told."""

    kind = "lms"

    def __init__(self, name):
        self.identifier = sha256(b"identifier of ", name.encode())[:16]
        self.seed = sha256(b"seed of ", name.encode())

    @functools.cached_property
    def nodes(self):
        """The values of the tree's nodes by their numbers, of which the root's is 1."""
        found = {LEAVES + leaf: self.leaf_node(leaf) for leaf in range(LEAVES)}
        for node in range(LEAVES - 1, 0, -1):
            found[node] = sha256(self.identifier, long(node), short(INNER), found[2 * node], found[2 * node + 1])
        return found

    @functools.cached_property
    def public(self):
        return LMS_TYPE + OTS_TYPE + self.identifier + self.nodes[1]

    @functools.cached_property
    def id(self):
        return sha256(self.public).hex()

    def derived(self, leaf, number):
        return sha256(self.identifier, long(leaf), short(number), b"\xff", self.seed)

    @functools.cache
    def kept(self, leaf, chain):
        """The values of a chain after 0, 4, 8 and further steps from its secret start."""
        front, found = self.identifier + long(leaf) + short(chain), [self.derived(leaf, chain)]
        for at in range(0, LAST - APART + 1, APART):
            found.append(walked_on(front, found[-1], at, at + APART))
        return found

    def walked(self, leaf, chain, steps):
        """The value of a chain after so many steps from its secret start."""
        near = min(steps, LAST) // APART
        return walked_on(self.identifier + long(leaf) + short(chain), self.kept(leaf, chain)[near], near * APART, steps)

    def leaf_node(self, leaf):
        ends = [self.walked(leaf, chain, LAST) for chain in range(CHAINS)]
        public = sha256(self.identifier, long(leaf), short(PUBLIC), *ends)
        return sha256(self.identifier, long(LEAVES + leaf), short(LEAF), public)

    def sign(self, leaf, message):
        """The LMS signature of a message by a leaf, 1,292 bytes."""
        if not 0 <= leaf < LEAVES:
            raise ValueError("the key has no such leaf")
        randomizer = self.derived(leaf, RANDOMIZER)
        digest = sha256(self.identifier, long(leaf), short(MESSAGE), randomizer, message)
        digits = digest + short(sum(LAST - digit for digit in digest))
        values = [self.walked(leaf, chain, digit) for chain, digit in enumerate(digits)]
        node, path = LEAVES + leaf, []
        while node > 1:
            path.append(self.nodes[node ^ 1])
            node //= 2
        return b"".join((long(leaf), OTS_TYPE, randomizer, *values, LMS_TYPE, *path))

    def file(self, marks):
        """The key file of this key, with a byte a leaf."""
        return b"LMSKEY01" + LMS_TYPE + OTS_TYPE + self.identifier + self.seed + marks


class OneLeaf:
    """A key of any height and width with one leaf: what stands beside the way from it to the root is drawn, and the root is
    worked out from that, so that no tree is made."""

    kind = "lms"
    types = {5: 5, 10: 6, 15: 7, 20: 8, 25: 9}
    # The code of the one-time keys of a width, and by how many bits their checksum is moved to the left.
    one_time_types = {1: (1, 7), 2: (2, 6), 4: (3, 4), 8: (4, 0)}

    def __init__(self, height, width, leaf):
        drawn = b"one leaf of %d levels" % height
        self.identifier, self.seed, self.width, self.leaf = sha256(b"identifier", drawn)[:16], sha256(b"seed", drawn), width, leaf
        self.path = [sha256(drawn, long(level)) for level in range(height)]
        code, self.moved = self.one_time_types[width]
        self.lms_type, self.ots_type = long(self.types[height]), long(code)
        last = 2**width - 1
        ends = [self.walked(chain, last) for chain in range(len(self.digits(bytes(32))))]
        node, front = 2**height + leaf, self.identifier
        value = sha256(front, long(node), short(LEAF), sha256(front, long(leaf), short(PUBLIC), *ends))
        for beside in self.path:
            pair = (beside, value) if node % 2 else (value, beside)
            node //= 2
            value = sha256(front, long(node), short(INNER), *pair)
        self.public = self.lms_type + self.ots_type + front + value
        self.id = sha256(self.public).hex()

    def digits(self, digest):
        """The digest and its checksum in digits of the width."""

        def cut(body):
            return [byte >> at & 2**self.width - 1 for byte in body for at in range(8 - self.width, -1, -self.width)]

        first = cut(digest)
        checksum = sum(2**self.width - 1 - digit for digit in first) << self.moved
        # As many digits of the checksum count as are not moved in from the right.
        return first + cut(short(checksum))[: (16 - self.moved) // self.width]

    def walked(self, chain, steps):
        front = self.identifier + long(self.leaf) + short(chain)
        value = sha256(front, b"\xff", self.seed)
        for step in range(steps):
            value = hash_of(front + bytes((step,)) + value).digest()
        return value

    def sign(self, _leaf, message):
        """The signature by the one leaf."""
        randomizer = sha256(self.seed, message)
        digest = sha256(self.identifier, long(self.leaf), short(MESSAGE), randomizer, message)
        values = [self.walked(chain, digit) for chain, digit in enumerate(self.digits(digest))]
        return b"".join((long(self.leaf), self.ots_type, randomizer, *values, self.lms_type, *self.path))


class Levels:
    """A key of several levels (HSS): a leaf of each key but the last signs the key below it, and the last one's sign messages."""

    kind = "hss"

    def __init__(self, links, last):
        """Of keys from the top one down, each with the leaf that signs the next, and of the last one."""
        self.links, self.last = links, last
        self.public = long(len(links) + 1) + (links[0][0] if links else last).public
        self.id = sha256(self.public).hex()

    def sign(self, leaf, message):
        """The HSS signature of a message by a leaf of the last key, by two levels 2,644 bytes."""
        below = [key.public for key, _ in self.links[1:]] + [self.last.public]
        signed = [key.sign(at, public) + public for (key, at), public in zip(self.links, below)]
        return b"".join((long(len(self.links)), *signed, self.last.sign(leaf, message)))


class TwoLevels(Levels):
    """A key of two levels, of which the first leaf of the top key signs the one below."""

    def __init__(self, name):
        super().__init__([(Key(f"{name}, the top"), 0)], Key(f"{name}, the bottom"))
