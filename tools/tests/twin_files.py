"""The twins of tools/tests/twins: slips that are made alike in a definition and in the code, which no proof refuses.

A twin is a file of lines: `title:` says what the slip means, `by:` names the row, the test as CRATE::TEST, the crate of
unproved/ whose program prints its rows' answers, or where none of them can ask the check of tools/test as MODULE::FUNCTION,
that must refuse it, and below each `file:`, a path from the top of the
repository, stand pairs of lines `old:` and `new:`. Each old text stands in its file exactly once, and all pairs of a file are
made at once, so that two texts may change places.
"""

import os

from checking import TOP

TWINS = os.path.join(TOP, "tools", "tests", "twins")
END = ".twin"
# The crates of unproved/ that print what comes of rows of their own, which have no names there.
PRINTING = ("tests_desk", "tests_gate")
# The modules of tools/tests with checks are named so.
CHECKS = "check_"
# A slip is made in both.
DEFINITION, CODE = ".antt", ".rt"


class BadTwin(Exception):
    """Why a twin cannot be tried."""


class Twin:
    def __init__(self, name):
        self.name, self.title, self.by, self.pairs = name, "", "", []
        file, old = None, None
        with open(os.path.join(TWINS, name + END), encoding="utf-8") as lines:
            for line in lines:
                word, _, text = line.rstrip("\n").partition(": ")
                if word in ("title", "by"):
                    setattr(self, word, text)
                elif word == "file":
                    file = text
                elif word == "old":
                    old = text
                elif word == "new" and file and old:
                    self.pairs.append((file, old, text))
                else:
                    raise BadTwin(f"it has the line {line.rstrip()!r}")

    def crate(self):
        """The crate whose test, or whose program, must refuse it; None where a row of tests_rows must, or a check."""
        crate, found, _ = self.by.partition("::")
        return crate if (found or self.by in PRINTING) and not self.is_for_a_check() else None

    def is_for_a_check(self):
        """Whether a check of tools/test must refuse it, which asks a built program."""
        return self.by.startswith(CHECKS)


def names():
    return sorted(it[: -len(END)] for it in os.listdir(TWINS) if it.endswith(END))


def with_pairs(file, text, pairs):
    """The text of a file with the new texts in place of the old ones, each of which stands in it exactly once."""
    places = []
    for old, new in pairs:
        if text.count(old) != 1:
            raise BadTwin(f"{file} has {text.count(old)} times {old!r}")
        places.append((text.index(old), old, new))
    made, at = "", 0
    for place, old, new in sorted(places):
        if place < at:
            raise BadTwin(f"{old!r} overlaps another text in {file}")
        made, at = made + text[at:place] + new, place + len(old)
    return made + text[at:]


def texts_of(twins):
    """The texts of the files that some twins change, as they are and with all of these slips."""
    pairs = {}
    for twin in twins:
        kinds = {os.path.splitext(file)[1] for file, *_ in twin.pairs}
        if not twin.title or not twin.by or kinds != {DEFINITION, CODE}:
            raise BadTwin("it lacks its title, what refuses it, or texts in a definition and in code")
        for file, *pair in twin.pairs:
            of_file = pairs.setdefault(file, [])
            # One slip that two rows are to refuse is two twins.
            if pair not in of_file:
                of_file.append(pair)
    found = {}
    for file, of_file in pairs.items():
        try:
            with open(os.path.join(TOP, file), encoding="utf-8") as opened:
                text = opened.read()
        except OSError as error:
            raise BadTwin(f"{file}: {error.strerror}") from None
        found[file] = text, with_pairs(file, text, of_file)
    return found
