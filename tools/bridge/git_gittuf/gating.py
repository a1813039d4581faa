"""What a push would leave, judged before it is taken: nothing of it is, where it would leave something unlawful.

Each reference that a push moves is judged, and each of which its entries speak or which they skip, as far as a rule
protects it or the log speaks of it. The program judges, over the store as it would be after the push.
"""

import contextlib
import os

from git_gittuf import asking, damage, epochs, following, fronts, gate_sentences, history, looking, settings, skipping, verifying, withheld
from git_gittuf.program import Ended
from git_gittuf.remotes import is_before
from git_gittuf.repository import ATTESTATIONS, LOG, OWN, POLICY, TARGETS, ZEROS, Stopped
from git_gittuf.shown import plain, plain_name
from git_gittuf.telling import tell
from git_gittuf.work import DAMAGED
from stream_format import is_reference_name

# The status of the program where the log is none.
BROKEN = 3


class Damaged(Exception):
    """The store was damaged, and the answer is of that."""


class Push:
    """A push: where each reference stands at the place that it goes to, and where it is to stand there, or None for nowhere.

    The log before and after it is named beside, since a push may leave it where it is.
    """

    def __init__(self, moves, log):
        self.moves, self.log = moves, log

    def after(self):
        """Where references are to stand, the log too."""
        return {**{name: new for name, (_, new) in self.moves.items()}, LOG: self.log[1]}


def of_log(work, push):
    """In a sentence why the log may not go where the push takes it, or nothing."""
    repository, (old, new) = work.repository, push.log
    if old == new or old is None:
        return None
    if new is None:
        return "the log is not to go: what it says is wanted for each verdict"
    if not repository.are_commits([old]):
        return f"the log there stands at {old.decode()[:12]}, which is not here: git fetch, and then git gittuf push"
    if not repository.are_commits([new]):
        return f"the log is to stand at {new.decode()[:12]}, which is no commit"
    if is_before(repository, old, new):
        return None
    whole, _ = following.last_whole(work, old)
    if whole != old and (whole is None or is_before(repository, whole, new)):
        # It is none beyond that entry, and so it is mended.
        push.log = whole, new
        return None
    if is_before(repository, new, old):
        last, now = (following.count_of(repository, it) for it in (old, new))
        way = "git push --force-with-lease origin HEAD, say, forces a branch alone"
        return f"the log would go back from entry {last} to entry {now}: {way}"
    return "the log goes on from another entry than the last one there: git gittuf sync records anew what is still lawful, and git gittuf push"


def spoken_of(work, log):
    """The references of which the entries speak that a log has more than before, or say that an entry of them is skipped."""
    old, new = log
    printed = work.log_at(new) if new and old != new and work.repository.are_commits([new]) else None
    if printed is None:
        return []
    entries = history.entries(printed)
    count = following.number_of(work.repository, entries, old) if old and work.repository.are_commits([old]) else 0
    skipped = history.skipped_by(work.repository, entries[count:])
    listed = [rest[0] for number, it, kind, rest in entries if kind == b"ref" and (number > count or it in skipped)]
    return [it for it in dict.fromkeys(listed) if it != LOG]


class Gate:
    """What is judged of a push, while the store is as it would be after that."""

    def __init__(self, work, push):
        self.work, self.push = work, push
        old, new = push.log
        status, printed = self.asked("log")
        self.broken = gate_sentences.of_broken(printed) if status == BROKEN else None
        self.entries = history.entries(printed) if not status else ()
        # So many entries were there before.
        self.count = 0 if old is None else len(self.entries) if old == new else following.number_of(work.repository, self.entries, old)
        self.new = [it for it in self.entries[self.count :] if it[2] == b"ref"]
        self.recorded = {rest[0] for _, _, kind, rest in self.entries if kind == b"ref"}
        self.skipped = self.newly_skipped()
        # Where references stand that were found to be accepted.
        self.accepted = {}

    def asked(self, *words):
        status, printed = self.work.read(*words)
        if damage.is_in_store(self.work, status, printed):
            raise Damaged
        if status not in (0, 1, BROKEN):
            raise Ended(words, status, printed)
        return status, printed

    def newly_skipped(self):
        """The entries that the push skips and that were not skipped before, by their references, each with who skips it."""
        found = {}
        if any(kind == b"skip" for _, _, kind, _ in self.entries[self.count :]):
            skips = skipping.skips(self.work, self.entries)
            for number, it, kind, rest in self.entries:
                if kind == b"ref" and skips.get(it, 0) > self.count:
                    found.setdefault(rest[0], []).append((number, rest[1], skips[it]))
        return found

    def names(self):
        """The references that are judged: those that move, and those of which new entries speak or which these skip."""
        found = dict.fromkeys([*self.push.moves, *(rest[0] for *_, rest in self.new), *self.skipped])
        return [it for it in found if it != LOG]

    def stays(self, name):
        """Whether the push leaves a reference where it is, and records nothing of it."""
        old, new = self.push.moves.get(name, (None, None))
        return old == new and name not in {rest[0] for *_, rest in self.new}

    def is_guarded(self, name):
        if name in self.recorded or name in (POLICY, ATTESTATIONS):
            return True
        return not name.startswith(OWN) and verifying.is_protected(self.work, name)

    def refusals(self):
        """Why the push is refused, each as the program's line, or none, and a sentence."""
        if self.broken:
            return [self.broken]
        names = self.names()
        self.ask_ahead([it for it in names if is_reference_name(it)])
        return list(filter(None, map(self.of_name, names)))

    def ask_ahead(self, names):
        """Asks at once which of these references rules protect, as far as the log speaks of none, and for the verdicts on those that are judged."""
        verifying.ask_for_rules(self.work, [it for it in names if it not in self.recorded])
        root = looking.root_words(self.work)
        asking.ahead(self.work, [(("verify-ref", os.fsdecode(it), *root), None) for it in names if self.is_guarded(it)])

    def of_name(self, name):
        if name.startswith(TARGETS) and name in self.push.moves:
            said = self.of_target(name)
            if said:
                return said
        if not is_reference_name(name):
            return self.of_odd(name)
        if not self.is_guarded(name):
            return None
        status, printed = self.asked("verify-ref", os.fsdecode(name), *looking.root_words(self.work))
        line = os.fsdecode(printed).strip()
        if not status:
            self.accepted[name] = self.work.repository.references().get(name, ZEROS)
            return None
        if name in self.skipped and self.stays(name):
            return self.of_skipped(name, line)
        if line.startswith("tip-differs "):
            return line, gate_sentences.of_tip(line, [it[0] for it in self.new if it[3][0] == name])
        return self.of_violation(name, line)

    def of_skipped(self, name, line):
        """What stands where the push skips that it does is not to stay there; a recovery begins with skips, and goes on later."""
        words = line.split(" ")
        found = [it for it in self.skipped[name] if words[0] == "tip-differs" and it[1] == os.fsencode(words[3])]
        return (line, gate_sentences.of_skipped(words[1], *found[-1][::2])) if found else None

    def of_odd(self, name):
        """What no log can speak of may stand where no rule protects it."""
        status, printed = self.work.read("explain", f"git:{os.fsdecode(name)}")
        if self.push.moves[name][1] is None or not status and not printed.startswith(b"rule "):
            return None
        return None, f"no log can speak of {plain_name(name)}, which a rule may protect"

    def of_target(self, name):
        """What keeps the target of an entry stands at that, and stays."""
        target, (_, new) = name[len(TARGETS) :], self.push.moves[name]
        if new is None and target in {rest[1] for _, _, kind, rest in self.entries if kind == b"ref"}:
            return None, f"{plain_name(name)} keeps what an entry recorded, and is not to go"
        return (None, f"{plain_name(name)} is to stand at {new.decode()[:12]}") if new not in (None, target) else None

    def of_violation(self, name, line):
        found = looking.FAULT.fullmatch(line)
        if int(found[2]) > self.count:
            return line, gate_sentences.of_violation(line)
        new, last = [it for it in self.new if it[3][0] == name], skipping.last_of(self.work, self.entries, name)
        stays = self.push.after().get(name, last) or ZEROS
        if name == POLICY:
            # One that somebody recorded in vain says nothing of those that come later.
            root = settings.held_to(self.work.repository)
            lawful = {number for number, _ in epochs.of_entries(self.work.repository, self.entries, root)}
            odd = [it[0] for it in new if it[0] not in lawful]
            if odd:
                return line, f"entry {odd[0]} records a policy that does not follow the one in force"
            return None if stays == last else (line, gate_sentences.of_older(name, line))
        return line, gate_sentences.of_older(name, line)


def in_the_way(names, name):
    """Those of these names that Git cannot have beside another one, of which the one is a folder of the other."""
    return [it for it in names if it.startswith(name + b"/") or name.startswith(it + b"/")]


def of_folders(work, push):
    """In a sentence which names of the push Git cannot have beside others, or nothing."""
    after = {**work.repository.references(), **push.after()}
    names = [it for it, value in after.items() if value]
    for name in (it for it in push.moves if after[it]):
        for other in in_the_way(names, name):
            return f"{plain_name(name)} and {plain_name(other)} cannot stand side by side"
    return None


def is_judged_before(work, push):
    """Whether a push is lawful by what was judged of the log before it and by its entries alone, where that is told."""
    (old, new), repository = push.log, work.repository
    front = fronts.read(work) if old and new else None
    if not front or not repository.are_commits([old, new]) or not is_before(repository, old, new) or of_folders(work, push):
        return False
    own = fronts.behind(repository, old, new)
    later = own if front.tip == old else fronts.behind(repository, front.tip, new)
    spoken = fronts.recorded_by(own, old) if own is not None else None
    start = fronts.seconds_used()
    found = fronts.extended(work, front, later) if None not in (spoken, later) else None
    after, names = {**repository.references(), **push.after()}, {*push.moves, *(name for name, _ in spoken or ())} - {LOG}
    if found is None or not all(is_known_lawful(found, it, after.get(it) or ZEROS) for it in names):
        return False
    if later:
        fronts.learn(work, found, fronts.seconds_used() - start)
    return True


def is_known_lawful(front, name, value):
    """Whether a reference may stand there by what was judged, or is free."""
    if name.startswith(TARGETS):
        return name[len(TARGETS) :] == value and (name not in front.names or front.names[name] == value)
    if name in front.names:
        return front.names[name] == value
    return name.startswith(OWN) and name not in (POLICY, ATTESTATIONS) and is_reference_name(name)


def judged(work, push, is_new=False):
    """The same by the whole log, over a store that was made again just now, or else may lack a policy: an older one would judge then."""
    said = of_log(work, push) or of_folders(work, push)
    if said:
        return [(None, said)]
    if push.log[1] is None:
        return []
    with work.pushed(push.after()):
        start = fronts.seconds_used()
        gate = Gate(work, push)
        if not is_new and not withheld.are_kept(work, gate.entries):
            raise Damaged
        found = gate.refusals()
        if not found:
            fronts.keep(work, gate.entries, gate.accepted, fronts.seconds_used() - start)
        return found


def refusals(work, push):
    """Why a push is refused, or nothing where it is taken."""
    # Where what was kept cannot be read or written nothing is concluded.
    with contextlib.suppress(OSError):
        if is_judged_before(work, push):
            return []
    work.copy()
    try:
        return judged(work, push)
    except Damaged:
        tell(DAMAGED)
        work.renew()
        return judged(work, push, is_new=True)


def expect_none(work, push):
    """Refuses a push that would leave something unlawful, with the program's lines and a sentence each."""
    found = refusals(work, push)
    for line, sentence in found:
        for it in filter(None, (line, sentence)):
            tell(plain(it))
    if found:
        raise Stopped("nothing of this push is taken", 1)
