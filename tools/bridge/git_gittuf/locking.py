"""The lock of a repository: one call at a time changes the store, and those that only read do so side by side."""

import fcntl
import os
import sys
import time

from git_gittuf.repository import Stopped
from stream_format import Git

# The lock is waited for so many seconds, and after a few of them whoever waits is told; between two tries lies a pause.
SECONDS, PATIENCE, PAUSE = 30, 2, 0.05
ALONE, BESIDE = fcntl.LOCK_EX, fcntl.LOCK_SH


class Lock:
    """The lock of a repository, which what a call starts has with it."""

    def __init__(self, folder, seconds):
        self.file = os.open(os.path.join(folder, "lock"), os.O_RDWR | os.O_CREAT, 0o644)
        self.seconds, self.how = seconds, None

    def take(self, how=ALONE):
        """Waits for the lock, alone or beside others that only read, and says for whom."""
        start, told = time.monotonic(), False
        while True:
            try:
                fcntl.flock(self.file, how | fcntl.LOCK_NB)
                break
            except BlockingIOError:
                waited = time.monotonic() - start
                process = os.pread(self.file, 20, 0).decode(errors="replace").strip()
                said = f"another git gittuf works in this repository, process {process} or what it started"
                if waited >= self.seconds:
                    raise Stopped(f"{said}: wait for it") from None
                if waited >= PATIENCE and not told:
                    print(f"git-gittuf: {said}: waiting for it, up to {self.seconds} s", file=sys.stderr, flush=True)
                    told = True
                time.sleep(PAUSE)
        self.how = how
        if how == ALONE:
            os.ftruncate(self.file, 0)
            os.pwrite(self.file, b"%d\n" % os.getpid(), 0)
        # It stays with the programs that are started, so that none goes on while the next call is at work.
        Git.kept_open = (self.file,)

    def give_back(self):
        Git.kept_open = ()
        fcntl.flock(self.file, fcntl.LOCK_UN)


def seconds_to_wait(repository):
    """How long another call is waited for, by the setting gittuf.wait."""
    found = repository.config("gittuf.wait")
    return int(found[-1]) if found and found[-1].isdigit() else SECONDS
