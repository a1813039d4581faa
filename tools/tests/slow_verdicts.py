"""Logs under policies by which one of two persons may change all branches, worked out the slow way."""

from typing import NamedTuple, Tuple

from rows_histories import MAINTAINER, NEWCOMER, OWNER, POLICY, REVIEWER
from rows_objects import ZEROS
from rows_signing import Key
from slow_logs import LOST, SlowLog

# Each of two persons has a key that signs entries and one that signs policies.
KEYS, ROOT_KEYS = (MAINTAINER, REVIEWER), (OWNER, NEWCOMER)
# Two targets of one tree, and one of another.
FIRST, SAME, OTHER = "first", "same", "other"
TREES = {FIRST: "before", SAME: "before", OTHER: "after", ZEROS: ZEROS}


class Policy(NamedTuple):
    """A policy by which one person may change and skip all branches. Its root has a version and was signed by some keys."""

    holder: int
    version: int
    signers: Tuple[Key, ...]


class TwoPersons(SlowLog):
    """A log whose moves are to these targets, or to policies."""

    def policy_of(self, target):
        return target if isinstance(target, Policy) else None

    def no_policy(self, target):
        if not isinstance(target, Policy):
            return "unreadable"
        return None if ROOT_KEYS[target.holder] in target.signers else "root-threshold 0 of 1"

    def no_follower(self, old, new):
        if old and (old.holder, old.version) != (new.holder, new.version):
            if new.version != old.version + 1:
                return f"root-version {old.version} {new.version}"
            if ROOT_KEYS[old.holder] not in new.signers:
                return "root-succession 0 of 1"
        return None

    def may_skip(self, number, name):
        """Whether an annotation is by somebody who may skip entries of a reference: no rule reaches the policy's, and there
        each key of the policy in force may."""
        policy, signer = self.policy_at(number), self.entry(number).signer
        return policy is not None and (signer is KEYS[policy.holder] or name == POLICY and signer in KEYS)

    def change_fault(self, policy, number):
        move = self.entry(number)
        if LOST in (self.recorded(move.name, number), move.target):
            return f"broken {LOST}"
        return None if move.signer is KEYS[policy.holder] else "ref-rule heads 0 of 1"

    def tree(self, target):
        """Policies with the same files have the same tree."""
        return target if isinstance(target, Policy) else TREES.get(target)
