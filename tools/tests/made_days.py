"""Random days of four persons over one server: two whom the rule of main asks, one whom none asks, and one who attacks.

Whatever they do, each verdict of a clone is the program's on the whole stream of that clone, and no word ends but by a
status that the pages tell. Where the server has the hook, nothing on it is ever unlawful, and its log never goes back.
"""

import random

import loaded
from checking import PROGRAM, Failure, run, want
from guarded_clones import MAIN, another

LOG = "refs/gittuf/reference-state-log"
PERSONS = ("alice", "bob", "carol", "mallory")
STATUSES = range(7)
# So many steps lie between two looks at a clone.
BETWEEN = 4


class Days:
    """The clones of the four, and what is drawn for them from a seed."""

    def __init__(self, repositories, seed, is_gated=False):
        self.clones, self.drawn = another(repositories, f"days {seed}{' gated' if is_gated else ''}"), random.Random(seed)
        self.is_gated, self.log = is_gated, self.clones.tip("server.git", LOG)
        if is_gated:
            self.clones.gittuf("server.git", "hook", "install", "--server")
        root = self.clones.gittuf("alice", "key", "--id").decode().strip()
        for who in PERSONS[2:]:
            self.clones.clone(who)
            self.clones.git("config", "gittuf.firstRoot", root, who=who)
        self.did, self.verdicts = [], 0

    def git(self, who, *words):
        """Does something that Git may refuse."""
        run("git", "-C", self.clones.path(who), *words)

    def gittuf(self, who, *words):
        """Calls a word of git gittuf, which may be refused, by a status and in sentences."""
        status, output, errors = self.clones.asked(who, *words)
        if status not in STATUSES or b"Traceback" in errors:
            raise Failure(f"after {self.did} git gittuf {' '.join(words)} of {who} ended with {status}: {errors.decode()[-400:]}")
        return output.decode()

    def changes(self, who):
        name = self.drawn.choice(("README", "docs/page", f"of-{who}"))
        self.clones.repositories.seconds += 60
        self.clones.write(who, name, f"{who} {self.clones.repositories.seconds}\n")
        self.git(who, "commit", "--quiet", "--message", f"change {name}")

    def takes(self, who):
        self.git(who, "fetch", "--quiet")
        self.git(who, "merge", "--quiet", "--ff-only", "origin/main")

    def works(self, who):
        self.takes(who)
        self.changes(who)
        self.gittuf(who, "record", "main")
        self.gittuf(who, "push")

    def records_late(self, who):
        self.changes(who)
        self.gittuf(who, "record", "main")

    def begins_a_branch(self, who):
        self.git(who, "branch", "--force", "topic", "HEAD")
        self.gittuf(who, "record", "topic")
        self.gittuf(who, "push", "topic")

    def tags(self, who):
        self.git(who, "tag", "--force", "v1")
        self.gittuf(who, "record", "v1")

    def goes_back(self, who):
        self.git(who, "reset", "--quiet", "--hard", "HEAD~1")

    def annotates(self, who):
        word = self.drawn.choice(("note", "skip"))
        self.gittuf(who, word, str(self.drawn.randint(1, 9)), "-m", f"by {who}")

    def recovers(self, who):
        told = self.gittuf(who, "recover", "main")
        if "entry" in told:
            self.git(who, "revert", "--no-edit", "HEAD")
            self.gittuf(who, "recover", "main")

    def approves(self, who):
        self.gittuf(who, "approve", "main", *(("--anyway",) if self.drawn.random() < 0.3 else ()))

    def syncs(self, who):
        self.gittuf(who, "sync")

    def attacks(self, _):
        """What somebody does who may write to the server, and whom no rule asks."""
        way = self.drawn.randrange(4)
        self.changes("mallory")
        if way == 0:
            self.gittuf("mallory", "record", "main", "--anyway")
            self.gittuf("mallory", "push", "--anyway")
        elif way == 1:
            self.git("mallory", "push", "--quiet", "--force", "origin", "main")
        elif way == 2:
            self.gittuf("mallory", "skip", str(self.drawn.randint(1, 9)), "--anyway")
            self.gittuf("mallory", "push", "--anyway")
        else:
            odd = run("git", "-C", self.clones.path("mallory"), "commit-tree", "-p", LOG, "-m", "odd", "HEAD^{tree}")[1].decode().strip()
            self.git("mallory", "push", "--quiet", "origin", f"{odd}:{LOG}")

    def mends(self, who):
        """Sets the log of the server to one's own, which so may lose what others recorded."""
        self.git(who, "push", "--quiet", "--force", "origin", f"{LOG}:{LOG}")

    WAYS = (works, works, works, takes, records_late, begins_a_branch, tags, goes_back, annotates, recovers, approves, syncs, mends)
    WAYS += (attacks, attacks)

    def step(self, who, way):
        self.did.append(f"{who} {way.__name__}")
        way(self, who)
        if self.is_gated:
            self.look_at_server()

    def look_at_server(self):
        """Holds what is recorded on the server to what is lawful, and its log to what goes on from where it was."""
        before, self.log = self.log, self.clones.tip("server.git", LOG)
        goes_on = run("git", "-C", self.clones.path("server.git"), "merge-base", "--is-ancestor", before, self.log)[0]
        want(goes_on, 0, f"whether the log of the server goes on after {self.did}")
        stream = loaded.stream_of(self.clones.path("server.git"))
        for name in (MAIN, "refs/gittuf/policy", "refs/gittuf/attestations"):
            status, line, _ = run(PROGRAM, "-", "-", "verify-ref", name, "--stdin", input=stream)
            want(status, 0, f"the server's verdict {line} after {self.did}")
            self.verdicts += 1

    def look(self, who):
        """Holds each verdict of a clone on what is there to the program's on its whole stream."""
        # What was fetched is followed first.
        self.gittuf(who, "log")
        names = self.clones.git("for-each-ref", "--format=%(refname)", "refs/heads", "refs/tags", who=who).decode().split()
        stream = loaded.stream_of(self.clones.path(who))
        for name in names:
            found = self.gittuf(who, "verify", name)
            whole = run(PROGRAM, "-", "-", "verify-ref", name, "--stdin", input=stream)[1].decode()
            want(found, whole, f"the verdict of {who} on {name} after {self.did}")
            self.verdicts += 1

    def pass_by(self, steps):
        for who in PERSONS[:2]:
            self.step(who, Days.works)
        for it in range(1, steps + 1):
            self.step(self.drawn.choice(PERSONS), self.drawn.choice(self.WAYS))
            if it % BETWEEN == 0:
                self.look(self.drawn.choice(PERSONS))
        for who in PERSONS:
            self.look(who)
        self.clones.sound(*PERSONS)
        entries = len(self.clones.git("rev-list", LOG, who="alice").split())
        return f"{steps} steps, {entries} entries, {self.verdicts} verdicts on {MAIN} and others"
