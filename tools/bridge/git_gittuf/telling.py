"""How a call speaks: the program's lines for whoever reads them, and sentences for a person at a terminal."""

import os
import sys

from git_gittuf.shown import plain_lines


# What was told in this call.
TOLD = set()


def is_heard():
    """Whether a person sits at a terminal, who is told what lines mean."""
    return os.isatty(2)


def say(sentence):
    """Tells a person at a terminal what a line means, and nobody else."""
    if sentence and is_heard():
        print(sentence, file=sys.stderr, flush=True)


def show(printed):
    """Prints lines of the program."""
    print(plain_lines(printed), end="", flush=True)


def tell(sentence):
    """Tells whoever called, on standard error, also where nobody sits at a terminal. One sentence is told once a call."""
    if sentence not in TOLD:
        TOLD.add(sentence)
        print(f"git-gittuf: {sentence}", file=sys.stderr, flush=True)
