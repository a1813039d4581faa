"""From the store back into Git: what a command added, with its references below refs/gittuf/.

Before a command runs a file says where these references stood, and once it is done where they are to stand. So a run
that is stopped is taken back by the next one, or finished.
"""

import json
import os
import re

from git_gittuf.remotes import move
from git_gittuf.repository import TARGETS, ZEROS, Stopped
from packs import EMPTY_TREE, Pack

ENTRY = re.compile(rb"([0-7]+) ([^\0]+)\0(.{32})", re.DOTALL)
PARENT = re.compile(rb"(?:tree|parent) ([0-9a-f]{64})\n")
# The lines of a tag that name another object, and its kind.
TAGGED = re.compile(rb"object ([0-9a-f]{64})\ntype (\w+)\n")
# What Git is given first, so that whatever it has got has all that it names.
ORDER = (b"blob", b"tree", b"commit", b"tag")


class Journal:
    def __init__(self, folder):
        self.path = os.path.join(folder, "journal")

    def write(self, before, after=None):
        """Notes a change that began, or with the new values one that is done in the store."""
        named = {"before": before, "after": after}
        text = {it: values and {name.decode(): value.decode() for name, value in values.items()} for it, values in named.items()}
        with open(f"{self.path}.new", "w", encoding="utf-8") as file:
            json.dump(text, file)
            file.flush()
            os.fsync(file.fileno())
        os.rename(f"{self.path}.new", self.path)

    def read(self):
        """The values before and after, or nothing. After is None where the change was not done."""
        try:
            with open(self.path, encoding="utf-8") as file:
                text = json.load(file)
        except FileNotFoundError:
            return None
        except ValueError:
            # It was cut, with the power say: what it noted is not known to be done.
            return {}, None
        encoded = lambda values: values and {name.encode(): value.encode() for name, value in values.items()}
        return encoded(text["before"]), encoded(text["after"])

    def is_there(self):
        return os.path.exists(self.path)

    def clear(self):
        for it in (self.path, f"{self.path}.new"):
            if os.path.exists(it):
                os.remove(it)


def parents_in(kind, body):
    """The ids of a commit's parents."""
    return PARENT.findall(body.partition(b"\n\n")[0] + b"\n")[1:] if kind == b"commit" else []


def named_in(kind, body):
    """The ids of the objects that a commit, a tag or a tree names, but the commits of other repositories."""
    if kind == b"tag":
        found = TAGGED.match(body)
        return [found[1]] if found else []
    if kind == b"commit":
        return PARENT.findall(body.partition(b"\n\n")[0] + b"\n")
    if kind == b"tree":
        return [it[3].hex().encode() for it in ENTRY.finditer(body) if it[1] != b"160000"]
    return []


def added_objects(kept, tips, known):
    """The objects that these tips reach in the store and those that are known do not, by kind and the oldest first."""
    found, waiting = {}, [it for it in tips if it not in known]
    while waiting:
        object_id = waiting.pop()
        if object_id in found or object_id in known or object_id == EMPTY_TREE:
            continue
        kind, body = kept.read(object_id)
        found[object_id] = (kind, body)
        waiting.extend(named_in(kind, body))
    return in_order(found)


def in_order(found):
    """Objects by kind, and the oldest first, of which the newest were found first."""
    return sorted(reversed(found.items()), key=lambda it: ORDER.index(it[1][0]))


def give_objects(repository, objects):
    # Few calls want it, and it takes long to load.
    import tempfile

    with tempfile.TemporaryFile() as file:
        pack = Pack(file)
        pack.add(EMPTY_TREE, b"tree", 0, [])
        for object_id, (kind, body) in objects:
            pack.add(object_id, kind, len(body), [body])
        pack.end()
        file.seek(0)
        text = file.read()
    repository.asked("take what was added", "unpack-objects", "-q", "--strict", input=text)


def known_to(repository, values):
    """The ids of these commits, and of all that their trees hold."""
    if not values:
        return set()
    lines = b"".join(b"%s\n" % it for it in values)
    words = ("rev-list", "--objects", "--no-object-names", "--no-walk", "--stdin")
    return set(repository.asked("list what is there", *words, input=lines).split())


def give(repository, kept, before, after):
    """Puts into Git what the store has more, and moves the references at once, where they still are as before."""
    # Who does not ask git gittuf may have moved them meanwhile.
    repository.listed = None
    now = repository.own_references()
    changed = [name for name in after if after[name] != before.get(name)]
    moved = [it for it in changed if now.get(it) not in (before.get(it), after[it])]
    if moved:
        raise Stopped(f"{moved[0].decode()} was moved meanwhile, and nothing was changed: run it again")
    # The store has no file of what a target is kept by, and Git has it all.
    tips = [after[it] for it in changed if not it.startswith(TARGETS)]
    known = known_to(repository, {value for name, value in before.items() if not name.startswith(TARGETS)})
    give_objects(repository, added_objects(kept, tips, known))
    move(repository, {it: (now.get(it, ZEROS), after[it]) for it in changed})
