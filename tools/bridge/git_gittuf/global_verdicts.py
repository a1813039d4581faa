"""What holds whatever the rules delegate: the line of verify-global on a reference, where a policy has such rules.

Whether a reference goes on asks for history, of which the store has none otherwise. So it gets what lies between the
targets of the reference: what the program passes over because it is not there lies on no way from one of them to another.
"""

import functools
import os

from git_gittuf import epochs, history, policies
from git_gittuf.repository import LOG, POLICY, ZEROS

# How many commits git is given as words at most.
MANY = 1000


def says_no_rewind(text):
    """Whether a file has a rule against going back, as far as it is one."""
    try:
        return any(it["kind"] == "no-rewind" for it in policies.File.read(policies.GLOBAL, text).says["rules"])
    except (ValueError, RecursionError):
        # It is judged to be none.
        return False


def common(repository, commits):
    """The id of a commit that all of these have in their history, in a list, or an empty one."""
    base = []
    for at in range(0, len(commits), MANY):
        some = [it.decode() for it in (*base, *commits[at : at + MANY])]
        status, found, _ = repository.git("merge-base", "--octopus", *some)
        if status:
            return []
        base = found.split()[:1]
    return base


def place_in(target):
    """Where global rules stand in a policy, as git names it."""
    return b"%s:%s" % (target, policies.GLOBAL_PATH)


def are_there(repository, entries):
    """Whether something stands there in a policy that one of these entries recorded."""
    asked = {place_in(rest[1]) for _, _, kind, rest in entries if kind == b"ref" and rest[0] == POLICY}
    return any(repository.rows(sorted(asked)))


class GlobalVerdicts:
    """The verdicts of a log by global rules, each reference once, under a first policy of these keys."""

    def __init__(self, work, root):
        self.work, self.root, self.told = work, root, set()

    @functools.cached_property
    def texts(self):
        """What stands at the place of global rules in each policy that came into force, oldest first, or nothing there."""
        repository = self.work.repository
        status, printed = self.work.read("log") if LOG in repository.references() else (0, b"")
        entries = [] if status else history.entries(printed)
        if not are_there(repository, entries):
            return []
        asked = [place_in(it) for _, it in epochs.of_entries(repository, entries, self.root)]
        # What is too large to be read is there all the same.
        return [(repository.body(b"blob", it) or b"") if row else None for it, row in zip(asked, repository.rows(asked))]

    def bring_history(self, name):
        """Lets the store have the commits between the targets of a reference, where a rule asks whether it goes back."""
        repository = self.work.repository
        targets = {it for it in (history.targets(self.work) or {}).get(name, []) if it != ZEROS}
        there = sorted(repository.there(targets))
        if len(there) < 2 or not any(text and says_no_rewind(text) for text in self.texts):
            return
        lines = b"".join(b"%s\n" % it for it in (*there, *(b"^" + it for it in common(repository, there))))
        self.work.copy(maybe=repository.lines("list what references reach, as git fsck may say", "rev-list", "--stdin", input=lines))

    def of(self, name):
        """The program's status and line on a reference; 0 and nothing where no policy in force has global rules, or it told them."""
        if name in (LOG, POLICY) or name in self.told or not self.texts or self.texts[-1] is None:
            return 0, b""
        self.told.add(name)
        asked = ("verify-global", os.fsdecode(name), *(() if self.root is None else ("--root", self.root)))
        if self.work.answers.get(self.work.place(asked, None, ())) is None:
            self.bring_history(name)
        return self.work.read(*asked)
