"""Whether an answer of the program is of a store that was damaged, and not of what is here.

Where the store lacks an object that Git has, or has it otherwise, the store is what is wrong; where Git lacks it too it is
missing, and nothing here brings it.
"""

import re

from git_gittuf import copying

# The program's status where something outside of it failed.
FAULT = 4
# The answers that name an object at which the program came to an end.
NAMES = re.compile(rb"(?:violation \S+ \d+ broken|log-broken) ([0-9a-f]{64})\n")


def object_in(printed):
    """The id of the object at which the program came to an end, or nothing."""
    found = NAMES.fullmatch(printed)
    return found[1] if found else None


def is_in_store(work, status, printed):
    """Whether the store alone is why the program answers so."""
    if status == FAULT:
        return not work.kept.is_all_sound()
    found = object_in(printed)
    of_log = printed.startswith(b"log-broken ")
    return found is not None and not work.kept.is_sound(found) and copying.is_takeable(work.repository, found, of_log)
