"""Rows on dossiers: how they are made and read, and what they show of keys of one level and of more."""

from rows_histories import MAIN, MAINTAINER, REVIEWER, History
from rows_objects import object_id
from rows_runs import Run, done, refused, room
from rows_signing import Key, Levels

LEAF = 4
# The most bytes of a body.
LARGEST = 16_777_216
# An object that is nowhere.
NOWHERE = object_id(b"blob", b"nowhere")


class Signed:
    """Entries by one key: a first one, and others behind it, each with a leaf and what it records."""

    def __init__(self, key=MAINTAINER):
        self.history, self.key = History(), key
        self.history.record(MAIN, object_id(b"blob", b"first"))

    def entry(self, number, leaf, letter, key=None):
        """The id of a signed entry of this number, which stands on the one before, and no other on it."""
        other = History()
        other.ids, other.used = self.history.ids[: number - 1], {key or self.key: leaf}
        other.record(MAIN, object_id(b"blob", letter.encode()), key or self.key)
        entry = other.ids[-1]
        self.history.repository.add(*other.repository.objects[entry])
        if len(self.history.ids) < number:
            self.history.ids.append(entry)
        return entry

    def body(self, entry):
        return self.history.repository.objects[entry][1]

    def dossier(self, left, right):
        return dossier_of(self.key.public, self.body(left), self.body(right))


def dossier_of(public, left, right):
    return b"gittuf-evidence 1\nkey %s\nleft %d\n%s\nright %d\n%s\nend\n" % (public.hex().encode(), len(left), left, len(right), right)


def shown(text, *lines):
    """What a dossier shows, which is nothing without these lines."""
    found = "".join(f"{it}\n" for it in lines)
    return Run("evidence-check", (0, found, "") if found else (1, "nothing\n", ""), source=text)


def a_leaf_used_twice():
    """Two entries, of numbers 2 and 3, that one leaf signed show that leaf; with one byte of a signature changed nothing."""
    signed = Signed()
    second, third = signed.entry(2, LEAF, "b"), signed.entry(3, LEAF, "c")
    dossier = signed.dossier(second, third)
    words = f"evidence-make {MAINTAINER.public.hex()}"
    at = dossier.index(b"lmssig ") + 200
    other = b"A" if dossier[at : at + 1] != b"A" else b"B"
    return (
        signed.history,
        done("import", "imported"),
        Run(f"{words} {second} {third}", (0, dossier.decode(), ""), over=[room("sink", 65536)]),
        shown(dossier, f"reuse {LEAF}"),
        shown(dossier[:at] + other + dossier[at + 1 :]),
        shown(dossier.replace(MAINTAINER.public.hex().encode(), REVIEWER.public.hex().encode())),
        refused(f"{words} {NOWHERE} {third}", 3, f"object {NOWHERE}"),
        refused(f"{words} {second} {NOWHERE}", 3, f"object {NOWHERE}"),
    )


def a_number_signed_twice():
    """Two entries of one number by one key are a fork, by two leaves and by one; an entry beside itself is none, and neither
    are two of two numbers, nor two by two keys."""
    signed = Signed()
    once, twice = signed.entry(2, LEAF, "b"), signed.entry(2, LEAF + 1, "c")
    same, later = signed.entry(2, LEAF, "d"), signed.entry(3, LEAF + 2, "e")
    others = signed.entry(2, LEAF, "f", REVIEWER)
    return (
        History(),
        shown(signed.dossier(once, twice), "fork 2"),
        shown(signed.dossier(once, same), "fork 2", f"reuse {LEAF}"),
        shown(signed.dossier(once, once)),
        shown(signed.dossier(once, later)),
        shown(signed.dossier(once, others)),
    )


def no_dossiers():
    """What is no dossier is refused: no bytes, a front of one, a byte more, and another first line; and the words of a key
    that has no length of one."""
    whole = dossier_of(MAINTAINER.public, b"left", b"")
    texts = (b"", whole[:-1], whole + b"\n", whole.replace(b" 1\n", b" 2\n", 1), whole.replace(b"left 4", b"left 5"))
    digits = MAINTAINER.public.hex()
    return (
        History(),
        shown(whole),
        *(refused("evidence-check", 3, "input", source=it) for it in texts),
        refused(f"evidence-make {digits[:-2]} {NOWHERE} {NOWHERE}", 2, "words refused"),
        refused(f"evidence-make {digits.upper()} {NOWHERE} {NOWHERE}", 2, "words refused"),
        refused(f"evidence-make {digits} {NOWHERE}", 2, "words refused"),
        refused("mirror refs/heads/main", 2, "words refused"),
    )


def leaves_of_three_levels():
    """Of a key of three levels the first leaf from the top down shows with which two things were signed, on whichever level: two
    keys below the top, two at the bottom, or two entries. A key below that was signed twice shows nothing, by one leaf or by two."""
    top, middle, bottom = (Key(f"of three levels, the {name}") for name in ("top", "middle", "bottom"))
    other_middle, other_bottom = (Key(f"of three levels, another {name}") for name in ("middle", "bottom"))
    usual = Levels([(top, 3), (middle, 5)], bottom)
    signed = Signed(usual)
    second = signed.entry(2, 7, "b")
    others = (
        (usual, 8, ()),
        (usual, 7, ("reuse 7",)),
        (Levels([(top, 3), (middle, 5)], other_bottom), 9, ("reuse 5",)),
        (Levels([(top, 3), (other_middle, 6)], other_bottom), 9, ("reuse 3",)),
        (Levels([(top, 3), (middle, 6)], bottom), 8, ()),
        (Levels([(top, 4), (middle, 6)], bottom), 7, ("reuse 7",)),
        (Levels([(top, 4), (middle, 5)], other_bottom), 7, ("reuse 5",)),
        (Levels([(top, 4), (other_middle, 5)], other_bottom), 7, ()),
    )
    rows = (shown(signed.dossier(second, signed.entry(3, leaf, letter, key)), *lines) for letter, (key, leaf, lines) in zip("cdefghij", others))
    return History(), *rows


def keys_of_one_to_nine_levels():
    """A key of one level to eight shows what it signed, and one of nine is none. Each level has the same key here, which signs
    itself by leaf after leaf."""
    key = Key("on each of many levels")
    rows = []
    for levels in (1, 8, 9):
        signed = Signed(Levels([(key, at) for at in range(levels - 1)], key))
        rows.append(shown(signed.dossier(signed.entry(2, 20, "b"), signed.entry(3, 20, "c")), *["reuse 20"] * (levels < 9)))
    return History(), *rows


def a_large_dossier():
    """A dossier of two bodies of 16 MiB is one, and shows nothing where they are no entries."""
    return History(), shown(dossier_of(MAINTAINER.public, bytes(LARGEST), bytes(LARGEST)))


ROWS = (
    a_leaf_used_twice,
    a_number_signed_twice,
    no_dossiers,
    leaves_of_three_levels,
    keys_of_one_to_nine_levels,
    a_large_dossier,
)
