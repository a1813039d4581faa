"""Two entries of one number that a key signed with one leaf, and what shows them."""

import os
import shutil

from check_keys import ENTRY_LINE, line_of
from checking import PROGRAM, run


def made_twins(path, place):
    """Puts both entries, as objects alone, into a store in a folder, and returns the words that make their dossier.

    What is made beside them stands where `path` says.
    """
    key, twins = path("twin.key"), []
    public = run(PROGRAM, "-", key, "key-gen", "5", "8")[1].split()[2].decode()
    for number in range(2):
        other, copy = path(f"twin {number}"), shutil.copy(key, path(f"twin {number}.key"))
        shutil.copytree(place, other)
        found = line_of(ENTRY_LINE, (PROGRAM, f"{other}/", copy, "record", f"refs/heads/twin{number}"))[2].decode()
        shutil.copy(os.path.join(other, "objects", found), os.path.join(place, "objects"))
        twins.append(found)
    return "evidence-make", public, *twins
