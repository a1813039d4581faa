"""What is recorded anew after a remote's log, where another recorded first: as far as it is still lawful there."""

import os
import re

from git_gittuf import checked, commands, following, forms, history, keys, leaves, looking, names, policies, seen, signers, skipping, withheld
from git_gittuf.program import Ended
from git_gittuf.remotes import beside, is_before
from git_gittuf.repository import ATTESTATIONS, LOG, POLICY, STAGED, ZEROS, Stopped
from git_gittuf.shown import plain, quoted
from git_gittuf.telling import show, tell

APPROVAL = re.compile(rb"reference-authorizations/(.+)/([0-9a-f]{64})-([0-9a-f]{64})")
COMMITTED = ("-c", "user.name=gittuf", "-c", "user.email=gittuf@localhost")


def own_key(path):
    """The id and the public part of the key that signs here."""
    key, public = keys.id_and_public(path)
    return key, bytes.fromhex(public)


class Anew:
    """The entries that were given up, to be made again."""

    def __init__(self, work, lost, path, base):
        self.work, self.repository, self.lost, self.path = work, work.repository, lost, path
        self.own = own_key(path)
        # Where each reference stood by the log that both have.
        self.base, self.whole = base, True

    def leave(self, said):
        self.whole = False
        tell(said)

    def all(self):
        ids = {it[1] for it in self.lost}
        latest = {rest[0]: (number, rest[1]) for number, _, kind, rest in self.lost if kind == b"ref"}
        for number, entry, kind, rest in self.lost:
            try:
                if kind != b"ref":
                    self.annotate(number, entry, kind, ids)
                elif rest[0] == ATTESTATIONS:
                    self.approve(rest[1])
                elif rest[0] == POLICY:
                    self.leave(f"entry {number} brought a policy into force, and is given up: git gittuf policy show and git gittuf policy apply")
                elif latest[rest[0]][0] == number:
                    self.record(rest[0], rest[1])
            except (Stopped, Ended) as why:
                self.leave(f"entry {number} is not recorded anew: {plain(str(why))}")
                # What was refused once it was signed stands in the store, and nowhere else.
                self.work.bring()
        return self.whole

    def record(self, name, target):
        here, word = self.repository.references().get(name, ZEROS), quoted(names.short(name))
        theirs = looking.last_counted(self.work, name) or ZEROS
        if here != target:
            self.leave(f"{plain(names.short(name))} no longer stands where it was recorded: git gittuf record {word}")
            return
        if theirs == here:
            return
        moved = theirs != self.base.get(name, ZEROS)
        if moved and not (self.repository.are_commits([theirs, here]) and is_before(self.repository, theirs, here)):
            goes_on = f"git merge {theirs.decode()} && git gittuf record {word}"
            self.leave(f"{plain(names.short(name))} was moved meanwhile by who recorded first: {goes_on}")
            return
        show(commands.recorded_by(self.work, name, None if here == ZEROS else here, self.path))

    def annotate(self, number, entry, kind, ids):
        _, _, body = next(iter(self.repository.bodies([entry])))
        said = body.partition(b"\n\n")[2]
        named = [it for it in history.ANNOTATED.findall(said) if it not in ids]
        if not named:
            return
        text = history.message_of(body)
        more = (f"--message={text}",) if text else ()
        asked = ("annotate", kind.decode(), b",".join(named).decode(), *more)
        show(self.work.change(lambda: self.work.asked(*asked, key=self.path)))

    def is_own_approval(self, commit, path, approved):
        """Whether a file of approvals has the own key's signature, and for what its path says: nobody else's is made again."""
        key, public = self.own
        text = self.repository.body(b"blob", b"%s:%s" % (commit, path))
        if text is None or not leaves.is_signed(text, key, public):
            return False
        try:
            says = forms.json_of(policies.payload_of(text))
            return tuple(says[it].encode(errors="surrogateescape") for it in ("targetRef", "fromRevisionID", "targetTreeID")) == approved
        except (ValueError, KeyError, TypeError, AttributeError, RecursionError):
            return False

    def approve(self, commit):
        """Makes those approvals again that this commit added, as far as the log still has the branch where they begin."""
        words = ("diff-tree", "-r", "-z", "--root", "--no-commit-id", "--name-only", "--diff-filter=AM", commit.decode())
        for path in self.repository.asked("compare approvals", *words).split(b"\0"):
            found = APPROVAL.fullmatch(path)
            if not found or not self.is_own_approval(commit, path, found.groups()):
                continue
            name, start, tree = found.groups()
            if (looking.last_counted(self.work, name) or ZEROS) != start:
                self.leave(f"an approval of {plain(names.short(name))} is given up, as that was moved meanwhile: approve what it is to be now")
                continue
            target = ZEROS
            if tree != ZEROS:
                made = self.repository.asked("make a commit", *COMMITTED, "commit-tree", "-m", "approved", tree.decode())
                target = made.strip()
                self.work.bring([target])
            show(commands.approved_by(self.work, os.fsdecode(name), target, self.path))


def fetch(work, remote):
    """Lets git fetch what a remote has, and the own references go on where they may."""
    with work.unlocked():
        status, _, said = work.repository.git("fetch", "--quiet", remote)
    if status:
        raise Stopped(f"git does not fetch from {plain(remote)}: {plain(said)}")
    work.unfit = None
    work.bring()


def to_mend(remote):
    """What a call that goes over to a remote's log by itself does not tell as what does not fit."""
    return remote, LOG, "apart"


def how_log_stands(work, remote):
    return next((how for other, name, how in work.unfit or () if other == remote and name == LOG), None)


def targets_at(work, tip):
    """Where a log has each reference."""
    listed = history.entries(work.log_at(tip) or b"") if tip else []
    return skipping.targets_of(work, listed)


def expect_no_rewriting(work, remote, value):
    """Refuses to go over to a log that lacks entries which the remote had before: that was no race."""
    last = seen.read(work.repository).get(remote)
    if last is None or not work.repository.there([last]) or is_before(work.repository, last, value):
        return
    said = f"{plain(remote)} had entry {following.count_of(work.repository, last)} of the log here, and has another log now"
    raise Stopped(f"{said}: ask who may write to {plain(remote)}; --anyway goes over to that log", 3)


def take_theirs(work, remote, anyway):
    """Goes over to a remote's log where the own one went apart from it, and records anew; returns whether all was."""
    repository, references = work.repository, work.repository.references()
    own, value = references.get(LOG), references[beside(remote, LOG)]
    printed = work.log_at(value) if repository.are_commits([value]) else None
    if printed is None:
        raise Stopped(f"the log of {plain(remote)} is none, and is not gone over to: git gittuf doctor says more", 3)
    if not anyway:
        expect_no_rewriting(work, remote, value)
    path = leaves.signing_key(repository)
    key, public = own_key(path)
    moves = following.to_take(work, remote, anyway)
    lost = following.given_up(work, history.entries(printed))
    # What only names the own key is of somebody else, and is never signed here.
    by = signers.of_entries(repository, [it[1] for it in lost], {key: public}, are_good=checked.looked_at)
    status, base, _ = repository.git("merge-base", own.decode(), value.decode())
    staged, theirs = references.get(STAGED), references.get(beside(remote, STAGED))
    if staged and theirs and not is_before(repository, staged, theirs):
        moves.pop(STAGED, None)
    work.move(moves)
    seen.forget(repository, remote)
    work.unfit = None
    withheld.bring(work)
    mine = [it for it in lost if by.get(it[1]) == key]
    return Anew(work, mine, path, targets_at(work, None if status else base.strip())).all()


def sync(work, remote, anyway):
    """Fetches, and records anew what another's log took no notice of; returns whether all that was recorded is."""
    fetch(work, remote)
    how, own = how_log_stands(work, remote), work.repository.references().get(LOG)
    if how == "apart":
        try:
            return take_theirs(work, remote, anyway)
        except (Stopped, Ended):
            if work.repository.references().get(LOG) == own:
                tell(following.sentence(work, remote, LOG, how))
            raise
    if how in ("broken", "odd") or how and not anyway:
        raise Stopped(f"the log of {plain(remote)} does not fit: git gittuf doctor says more", 3)
    return True
