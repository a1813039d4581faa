"""Holds what gittuf-inspect tells of many drawn logs to a slow reading of them, and does what it says mends them.

`python3 tools/tests/drawn_accounts.py LOGS [SEED]`; the checks of tools/test do few.
"""

import os
import sys
import tempfile
from itertools import count

from check_accounts import drawn, hold_entries, hold_mends
from checking import Failure, Skip


class Folders:
    """A folder for each drawn log, made below one."""

    def __init__(self, folder):
        self.folder = folder

    def path(self, name):
        return os.path.join(self.folder, name)


def hold_drawn(logs, seed):
    """Holds so many logs that are drawn from seeds on to the slow reading, and mends them."""
    done = hopeless = entries = 0
    for _, seed in zip(range(logs), count(seed)):
        log, kept = drawn().drawn_log(seed)
        with tempfile.TemporaryDirectory(prefix="gittuf-drawn-") as folder:
            hold_entries(Folders(folder), seed, log, kept)
            more, none = hold_mends(Folders(folder), seed, log, kept)
        done, hopeless, entries = done + more, hopeless + none, entries + len(log)
    return f"{logs} logs, {entries} entries, {done} violations mended, {hopeless} that nobody may mend so"


def main():
    if not 2 <= len(sys.argv) <= 3 or not all(it.isdigit() for it in sys.argv[1:]):
        print("usage: python3 tools/tests/drawn_accounts.py LOGS [SEED]", file=sys.stderr)
        return 2
    try:
        print(hold_drawn(int(sys.argv[1]), int(sys.argv[2]) if sys.argv[2:] else 1))
    except (Failure, Skip) as why:
        print(f"FAILED   {why}")
        return 1
    return 0


if __name__ == "__main__":
    sys.exit(main())
