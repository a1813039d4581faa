"""How much of the processor a server spends on judging a push, where who keeps it set a limit."""

import contextlib
import math
import re
import resource
import signal

from git_gittuf.repository import Stopped
from git_gittuf.shown import plain

SETTING = "gittuf.mostSeconds"
SECONDS = re.compile("[1-9][0-9]{0,5}")


def wrong_limit(repository):
    """What is wrong with the limit that is set, and the line that sets another, or nothing."""
    found = repository.config(SETTING)
    if not found or SECONDS.fullmatch(found[-1]):
        return None
    said = f"{SETTING} is {plain(found[-1])!r}, and no number of seconds from 1 to 999999"
    return said, "git gittuf hook install --server --most-seconds N"


class Budget:
    """What may be spent, in seconds, or without end. A hook of others that was called first has spent its own."""

    most, before = None, 0

    def used(self):
        spent = (resource.getrusage(it) for it in (resource.RUSAGE_SELF, resource.RUSAGE_CHILDREN))
        return sum(it.ru_utime + it.ru_stime for it in spent) - self.before

    def begin(self, repository):
        found = repository.config(SETTING)
        if wrong := wrong_limit(repository):
            # Whoever meant to set a limit is not to go on without.
            raise Stopped(f"{': '.join(wrong)} sets it", 2)
        self.most, self.before = int(found[-1]) if found else None, self.used()

    def hold(self, process):
        """Lets a program that was begun just now spend no more than what is left."""
        if self.most is not None:
            left = max(1, math.ceil(self.most - self.used()))
            # One that has ended by now needs no limit.
            with contextlib.suppress(ProcessLookupError):
                resource.prlimit(process, resource.RLIMIT_CPU, (left, left + 1))

    def expect_left(self, status):
        """Ends where a program was ended by its limit, or more is spent than may be."""
        if self.most is not None and (status == -signal.SIGXCPU or self.used() > self.most):
            said = f"judging takes more than {self.most} seconds of the processor, all that {SETTING} gives a push here"
            raise Stopped(f"{said}; whether it is lawful was not found, and nothing of this push is taken", 1)


budget = Budget()
