"""The checks of tools/test on the rows that crates/tests_rows, unproved/tests_desk and unproved/tests_gate run."""

import os

from checking import TOP, want, want_run

# What makes rows, by the crate that runs them.
MAKERS = {"crates/tests_rows": "make-rows", "unproved/tests_desk": "make-pushes", "unproved/tests_gate": "make-gates"}
# Keys and signatures are made in Python, which takes a minute and a half of processor time.
MOST_SECONDS = 900


def read(folder, name):
    with open(os.path.join(folder, name), "rb") as file:
        return file.read()


def makes(repositories, crate):
    """Holds the rows of a crate, and the wanted lines, to those that are made."""
    folder = repositories.path(MAKERS[crate])
    os.mkdir(folder)
    want_run((os.path.join(TOP, "tools", MAKERS[crate]), folder), 0, seconds=MOST_SECONDS)
    for name in ("stdin", "stdout"):
        want(read(folder, name), read(os.path.join(TOP, crate), name), f"the {name} of {crate}")


def makes_the_kept_rows(repositories):
    """make-rows makes the rows and the wanted lines that are kept"""
    makes(repositories, "crates/tests_rows")


def makes_the_kept_pushes(repositories):
    """make-pushes makes the rows of pushes and the wanted lines that are kept"""
    makes(repositories, "unproved/tests_desk")


def makes_the_kept_gates(repositories):
    """make-gates makes the rows of a gate and the wanted lines that are kept"""
    makes(repositories, "unproved/tests_gate")


CHECKS = (makes_the_kept_rows, makes_the_kept_pushes, makes_the_kept_gates)
