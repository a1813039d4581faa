"""Verdicts on short logs, worked out the slow way: each question looks through the whole log, as the rules are said of it."""

import functools
from typing import NamedTuple, Optional, Tuple

from rows_histories import POLICY
from rows_objects import ZEROS
from rows_signing import Key

# A target that is not kept.
LOST = "2" * 64


class Move(NamedTuple):
    """A reference is at a target, or at zeros."""

    name: str
    target: object
    signer: Optional[Key]


class Note(NamedTuple):
    """An annotation of entries by their numbers, of which 0 is none."""

    skip: bool
    listed: Tuple[int, ...]
    signer: Optional[Key]


def stays(question):
    """Keeps the answers to a question, which no later entry changes."""

    @functools.wraps(question)
    def asked(log, *about):
        known = (question, *about)
        if known not in log.known:
            log.known[known] = question(log, *about)
        return log.known[known]

    return asked


class SlowLog(list):
    """A log of moves and notes. The first has number 1. What targets and policies are, a kind of log says: `policy_of` a target,
    or None; `no_policy`, why a target has none; `no_follower`, why a policy may not follow the one in force; `may_skip`;
    `change_fault`, why a policy in force does not allow a move; `tree` of a target, or None where it is not kept."""

    def __init__(self, *entries):
        super().__init__(entries)
        self.known = {}

    def entry(self, number):
        return self[number - 1]

    def numbers_of(self, name, end):
        """The entries of a reference with numbers below an end."""
        return [at for at, entry in enumerate(self, 1) if at < end and isinstance(entry, Move) and entry.name == name]

    @stays
    def policy_at(self, number):
        """The policy in force at a number: that of the last entry below it whose policy came into force."""
        epochs = [at for at in self.numbers_of(POLICY, number) if self.not_epoch(at) is None]
        return self.policy_of(self.entry(epochs[-1]).target) if epochs else None

    @stays
    def not_epoch(self, number):
        """Why the policy of an entry does not come into force, or None where it does."""
        old, target = self.policy_at(number), self.entry(number).target
        return self.no_policy(target) or self.no_follower(old, self.policy_of(target))

    @stays
    def skipped(self, number, end):
        """Whether an entry is skipped by an annotation below an end."""
        name = self.entry(number).name
        later = [at for at in range(number + 1, end) if isinstance(self.entry(at), Note)]
        return any(self.entry(at).skip and number in self.entry(at).listed and self.may_skip(at, name) for at in later)

    @stays
    def prior(self, name, end):
        """The last entry of a reference below an end that is not skipped below it, or 0."""
        return max((at for at in self.numbers_of(name, end) if not self.skipped(at, end)), default=0)

    def recorded(self, name, end):
        """Where a reference is by the entries below an end."""
        at = self.prior(name, end)
        return self.entry(at).target if at else ZEROS

    @stays
    def fault(self, number):
        """Why an entry of a reference is not authorised, or None where it is."""
        if self.entry(number).name == POLICY:
            why = self.not_epoch(number)
            return why and f"not-epoch {why}"
        policy = self.policy_at(number)
        return "no-policy" if policy is None else self.change_fault(policy, number)

    @stays
    def is_back(self, number):
        """Whether an entry has the tree that its reference had by the entries before that are not skipped."""
        move = self.entry(number)
        before, now = self.tree(self.recorded(move.name, number)), self.tree(move.target)
        return now is not None and now == before

    def left_behind(self, number):
        """The entries between an entry and its prior."""
        name = self.entry(number).name
        return [at for at in self.numbers_of(name, number) if at > self.prior(name, number)]

    def rescued(self, number):
        """Whether an entry lies inside a completed recovery."""
        later = [at for at in self.numbers_of(self.entry(number).name, len(self) + 1) if at > number]
        return any(self.fault(at) is None and self.is_back(at) and number in self.left_behind(at) for at in later)

    def verdict(self, name, kept):
        """The verdict on a reference that is at a target: a word, and what it tells."""
        end = len(self) + 1
        for number in self.numbers_of(name, end):
            if self.fault(number) and not self.rescued(number):
                return "violation", number, self.fault(number)
        if kept != self.recorded(name, end):
            return "tip-differs", kept, self.recorded(name, end)
        return "accepted", len(self.numbers_of(name, end))
