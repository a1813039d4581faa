#!/usr/bin/env python3
"""The crates of unproved/: tests over public calls, and measures, which are built and run and not proved."""

import os
import shutil
import sys

sys.dont_write_bytecode = True

import kits

TOP = os.path.dirname(os.path.dirname(os.path.dirname(os.path.realpath(__file__))))
FOLDER = os.path.join(TOP, "unproved")
LINES = "crates.txt"
# The lines of unproved/, which rt would refuse under the same name.
LISTED = os.path.join(FOLDER, "listed.txt")
# What rt reads beside the crates.
BESIDE = (LINES, "HANDLES")
PARTS = ("src", "specs", "proofs")
# rt refuses sources of a crate that crates.txt does not list, so those of unproved/ have one more ending.
END = ".txt"
# Where a measure is built, and its build stays for the next one.
KEPT = os.path.join(os.environ.get("XDG_CACHE_HOME") or os.path.expanduser("~/.cache"), "gittuf-unproved")


def read(path):
    with open(path, "rb") as file:
        return file.read()


def names_in(path):
    """The crates that a list of crates has."""
    with open(path, encoding="utf-8") as file:
        lines = (it.partition("#")[0] for it in file)
        return [it.partition(":")[0].split()[0] for it in lines if ":" in it]


def names():
    return names_in(LISTED)


def sources(crate, folder, end=""):
    """The sources of a crate of a folder, by the path that each has in a workspace."""
    for part in PARTS:
        for at, folders, files in os.walk(os.path.join(folder, crate, part)):
            folders.sort()
            for name in sorted(files):
                path = os.path.join(at, name)
                yield os.path.join("crates", os.path.relpath(path, folder)).removesuffix(end), read(path)


def texts():
    """The files of a workspace that has the crates of unproved/ beside those of crates/."""
    for name in BESIDE:
        yield name, read(os.path.join(TOP, name)) + (read(LISTED) if name == LINES else b"")
    for crate in names_in(os.path.join(TOP, LINES)):
        yield from sources(crate, os.path.join(TOP, "crates"))
    for crate in names():
        yield from sources(crate, FOLDER, END)


def is_as_built(crate):
    """Whether a library was built here, and no source of it is younger."""
    made = os.path.join(TOP, "crates", crate, "out", "rlib", f"{crate}.rlib")
    if not os.path.exists(made):
        return False
    paths = (os.path.join(TOP, it) for it, _ in sources(crate, os.path.join(TOP, "crates")))
    return all(os.stat(it).st_mtime_ns <= os.stat(made).st_mtime_ns for it in paths)


def built_below(folder):
    """Gives the workspace the libraries that are built in the checkout, each over those below it."""
    new = []
    for crate in names_in(os.path.join(TOP, LINES)):
        made, to = (os.path.join(it, "crates", crate, "out", "rlib") for it in (TOP, folder))
        if is_as_built(crate) and not os.path.exists(to):
            shutil.copytree(made, to, copy_function=os.link if os.stat(made).st_dev == os.stat(folder).st_dev else shutil.copy2)
            new += [] if os.path.exists(os.path.join(to, "stamp")) else [crate]
    if new:
        stamp(folder, new)


def stamp(folder, crates):
    """Lets rt take the libraries of these crates, which rt ci leaves without a stamp, as those of the sources that the workspace has."""
    rt, before = kits.gate(), os.getcwd()
    os.chdir(folder)
    for it in kits.begin(rt, folder):
        has_all = all(os.path.exists(os.path.join(below.folder, "out", "rlib", "stamp")) for below in it.below())
        if it.name in crates and has_all:
            with open(os.path.join(it.folder, "out", "rlib", "stamp"), "w", encoding="utf-8") as file:
                file.write(it.stamp())
    os.chdir(before)


def stamp_built():
    """Lets rt take the libraries that rt ci left in the checkout itself, each where no source of it is younger."""
    rlib = {it: os.path.join(TOP, "crates", it, "out", "rlib") for it in names_in(os.path.join(TOP, LINES))}
    new = [it for it in rlib if is_as_built(it) and not os.path.exists(os.path.join(rlib[it], "stamp"))]
    if new:
        stamp(TOP, new)


def lay(folder):
    """Makes a folder such a workspace, or mends it; what rt made there stays."""
    wanted = dict(texts())
    for crate in os.listdir(os.path.join(folder, "crates")) if os.path.isdir(os.path.join(folder, "crates")) else ():
        for path, _ in list(sources(crate, os.path.join(folder, "crates"))):
            if path not in wanted:
                os.remove(os.path.join(folder, path))
    for path, text in wanted.items():
        place = os.path.join(folder, path)
        if not os.path.exists(place) or read(place) != text:
            os.makedirs(os.path.dirname(place), exist_ok=True)
            with open(place, "wb") as file:
                file.write(text)
    built_below(folder)


def kept_workspace():
    """The workspace of this checkout in which measures are built."""
    folder = os.path.join(KEPT, TOP.strip(os.sep).replace(os.sep, "-"))
    os.makedirs(folder, exist_ok=True)
    lay(folder)
    return folder


def crate_folder(name):
    """Where a crate of unproved/ is built; it has its sources, and the libraries that are built in the checkout."""
    return os.path.join(kept_workspace(), "crates", name)


if __name__ == "__main__":
    print(crate_folder(sys.argv[1]))
