"""Which entries are skipped, as the program counts it: by an annotation whose signature counts for that.

Anybody may put an annotation into the log that says skip. It counts where a key of the policy then in force signed it, of
a person whom a rule asks that the entry's reference reaches, or any key of that policy where none is reached. Which rules
these are the program tells of the log up to that annotation.
"""

import os

from git_gittuf import epochs, history, policies, settings, signers
from git_gittuf.program import Ended
from git_gittuf.repository import LOG


class Counting:
    """Who may skip entries of which reference, by the policies that a log brought into force."""

    def __init__(self, work, listed):
        self.work, self.rules = work, {}
        self.is_whole = work.kept.references().get(LOG) == listed[-1][1]
        found = epochs.of_entries(work.repository, listed, settings.held_to(work.repository))
        self.epochs = [(number, policies.Policy(work.repository, it)) for number, it in found]

    def policy_at(self, number):
        """The policy in force at an annotation, with the number of the entry that brought it into force, or nothing."""
        return next((it for it in reversed(self.epochs) if it[0] < number), None)

    def may_skip(self, epoch, annotation, name):
        """The ids of the keys that may skip entries of a reference by a policy, under which an annotation stands."""
        start, policy = epoch
        if (start, name) not in self.rules:
            words = ("explain", f"git:{os.fsdecode(name)}")
            # Where that is the policy in force, the log is asked as it stands.
            status, printed = self.work.read(*words, at=None if self.is_whole and epoch is self.epochs[-1] else (LOG, annotation))
            if status:
                raise Ended(words, status, printed)
            rules = policy.rules_named(os.fsdecode(printed))
            self.rules[start, name] = policy.keys_in(rules) if rules else set(policy.publics())
        return self.rules[start, name]


def skips(work, listed):
    """The number of the first annotation that skips each of these entries, by the ids of those that are skipped."""
    if work.skips[0] is not listed:
        work.skips = listed, found_skips(work, listed)
    return work.skips[1]


def found_skips(work, listed):
    repository, there, found = work.repository, {it[1]: it for it in listed if it[2] == b"ref"}, {}
    annotations = [it[:2] for it in listed if it[2] == b"skip"]
    counting = Counting(work, listed) if annotations else None
    bodies = {it: body or b"" for it, _, body in repository.bodies([it for _, it in annotations])}
    by_epoch = {}
    for number, annotation in annotations:
        epoch = counting.policy_at(number)
        if epoch:
            by_epoch.setdefault(epoch[0], (epoch, []))[1].append((number, annotation))
    for epoch, them in by_epoch.values():
        keys = signers.of_bodies(repository, {it: bodies[it] for _, it in them}, epoch[1].publics())
        for number, annotation in them:
            for entry in history.ANNOTATED.findall(bodies[annotation].partition(b"\n\n")[2]):
                of = there.get(entry)
                if of and of[0] < number and entry not in found and keys[annotation] in counting.may_skip(epoch, annotation, of[3][0]):
                    found[entry] = number
    return found


def last_of(work, listed, name):
    """The target of the last entry of a reference among these that is not skipped, or nothing."""
    return targets_of(work, listed).get(name)


def targets_of(work, listed):
    """The target of the last entry of each reference among these that is not skipped."""
    gone = skips(work, listed)
    return {rest[0]: rest[1] for _, it, kind, rest in listed if kind == b"ref" and it not in gone}
