"""The check of tools/test on repositories that were drawn, with persons, keys of two levels, approvals and global rules."""

import os
import shutil
from collections import Counter

from checking import PROGRAM, in_this_run, want, want_run
from drawn_repositories import NAMES, Drawn
from made_folders import IMPORTED
from rows_histories import POLICY

# The first seed, and how many are drawn in the shorter run, and in the longer one.
FIRST, REPOSITORIES, MORE_REPOSITORIES = 110, 40, 2_000


def word_of(line):
    """What a verdict's line comes to, for the counts: its first word, or the fault of a violation."""
    words = line.split()
    if not words[0].endswith("violation"):
        return words[0]
    return " ".join(words[3:5] if words[3] == "not-epoch" else words[3:4])


def hold_drawn(folder, seed, references=NAMES):
    """Holds the verdicts on some references of the repository that a seed draws to the slow reading, from its stream and, for
    those by global rules, from a folder or a database. Gives the lines."""
    drawn = Drawn(seed)
    stream = drawn.history.repository.stream()
    root = ("--root", ",".join(drawn.log.anchor)) if drawn.log.anchor else ()
    lines = []

    def hold(wanted, *words, **more):
        status, line = wanted
        want_run((PROGRAM, *words, *root), status, f"{line}\n".encode(), **more)
        lines.append(line)

    for name in references:
        hold(drawn.verdict(name), "-", "-", "verify-ref", name, "--stdin", input=stream)
    judged = [name for name in references if name != POLICY]
    if judged:
        place = os.path.join(folder, f"drawn{seed}")
        store = f"{place}/" if seed % 2 else f"{place}.db"
        want_run((PROGRAM, store, "-", "import"), 0, IMPORTED, input=stream)
        for name in judged:
            hold(drawn.global_verdict(name), store, "-", "verify-global", name)
        if seed % 2:
            shutil.rmtree(place)
        else:
            os.remove(store)
            os.remove(f"{store}-wal")
    return lines


def drawn_repositories_are_judged(repositories):
    """drawn repositories get the verdicts of a slow reading in Python, by their policies and by their global rules"""
    folder, words = repositories.path("drawn repositories"), Counter()
    os.makedirs(folder)
    for seed in range(FIRST, FIRST + in_this_run(REPOSITORIES, MORE_REPOSITORIES)):
        words.update(word_of(it) for it in hold_drawn(folder, seed))
    seen = {"accepted", "tip-differs", "ref-rule", "path-rule", "no-policy", "global-kept", "threshold", "rewound", "log-broken"}
    want(seen - set(words), set(), "what no drawn repository came to")
    return ", ".join(f"{count} {it}" for it, count in words.most_common())


CHECKS = (drawn_repositories_are_judged,)
