"""What the settings say of whose the first policy must be: as somebody said, or as it was seen here."""

import re

from git_gittuf.repository import Stopped
from git_gittuf.shown import plain

KEY_IDS = re.compile("[0-9a-f]{64}(,[0-9a-f]{64})*")
SAID, SEEN = "gittuf.root", "gittuf.firstRoot"
# An entry that the log is known to have.
ENTRY = "gittuf.entry"


def key_ids(repository, name):
    """The ids of keys that a setting has, or nothing where it is not set."""
    found = repository.config(name)
    if not found:
        return None
    if not KEY_IDS.fullmatch(found[-1]):
        # Whoever meant to name keys is not to go on without.
        raise Stopped(f"{name} is {plain(found[-1])!r}, and no list of ids of keys: git gittuf setup --root KEYID,.. sets gittuf.root", 2)
    return found[-1]


def held_to(repository):
    """The ids that the first policy's root is to have, as somebody said or as it was seen here first, or nothing."""
    return key_ids(repository, SAID) or key_ids(repository, SEEN)


def keep(repository, name, value):
    repository.set("--replace-all", name, value)
