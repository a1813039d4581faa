"""Logs under policies of persons, with approvals and global rules, worked out the slow way."""

from rows_objects import ZEROS
from slow_logs import LOST, SlowLog
from slow_policies import invalid, may_act, most_signed, no_successor, policy_keys, speaks_of, too_few, unanchored, unmet

ATTESTATIONS = "refs/gittuf/attestations"


class Made:
    """A commit: its id, its files by path, its parents, and what they say, if they are a policy or approvals. Approvals stand by
    the reference, the target before and the tree behind, and have the keys that signed."""

    def __init__(self, id, files, parents=(), policy=None, approvals=()):
        self.id, self.files, self.parents, self.policy, self.approvals = id, files, parents, policy, dict(approvals)

    def ancestors(self):
        found, at = [self], 0
        while at < len(found):
            found += [it for it in found[at].parents if it not in found]
            at += 1
        return found


def files_of(target):
    """The files of a target, or None where it is not kept."""
    if target == ZEROS:
        return {}
    return None if target == LOST else target.files


def word(name):
    """A name or a path as one printable word."""
    return "".join(chr(it) if 33 <= it <= 126 and it != 37 else f"%{it:02X}" for it in name.encode())


def files_in_order(files):
    return tuple(sorted(files.items()))


class Persons(SlowLog):
    """A log whose moves are to commits. The first policy has the keys of an anchor, where there is one."""

    def __init__(self, *entries, anchor=None):
        super().__init__(*entries)
        self.anchor = anchor

    def policy_of(self, target):
        return None if target in (ZEROS, LOST) else target.policy

    def no_policy(self, target):
        if target in (ZEROS, LOST):
            return "unreadable"
        return invalid(target.policy) if target.policy else "no-root"

    def no_follower(self, old, new):
        if old is None:
            return "anchor" if unanchored(new, self.anchor) else None
        return no_successor(old, new)

    def may_skip(self, number, name):
        """Whether an annotation is by a key of the policy in force that a rule lists which the reference reaches."""
        policy, signer = self.policy_at(number), self.entry(number).signer
        return policy is not None and signer in policy_keys(policy) and may_act(policy, f"git:{name}", signer)

    def tree(self, target):
        if target == ZEROS:
            return ZEROS
        found = files_of(target)
        return None if found is None else files_in_order(found)

    def attested(self, number):
        """The approvals by which an entry is judged."""
        before = self.numbers_of(ATTESTATIONS, number)
        target = self.entry(before[-1]).target if before else ZEROS
        return {} if target in (ZEROS, LOST) else target.approvals

    def signers(self, policy, number):
        """The keys of a policy that signed an entry, or approved of just its change."""
        move = self.entry(number)
        change = move.name, self.recorded(move.name, number), self.tree(move.target)
        return policy_keys(policy) & {move.signer, *self.attested(number).get(change, ())}

    def changed(self, number):
        """The paths that an entry changes, in the order of their bytes; None where something is not kept."""
        move = self.entry(number)
        before, after = files_of(self.recorded(move.name, number)), files_of(move.target)
        if before is None or after is None:
            return None
        return [path for path in sorted({*before, *after}) if before.get(path) != after.get(path)]

    def change_fault(self, policy, number):
        paths, signers, name = self.changed(number), self.signers(policy, number), self.entry(number).name
        if paths is None:
            return f"broken {LOST}"
        short = unmet(policy, f"git:{name}", signers)
        if short:
            return f"ref-rule {short}"
        short = ((path, unmet(policy, f"file:{path.decode()}", signers)) for path in paths)
        return next((f"path-rule {word(path.decode())} {it}" for path, it in short if it), None)

    def is_skipped(self, number):
        return self.skipped(number, len(self) + 1)

    def goes_back(self, number):
        """Whether the target of an entry has not the commit where its reference stood among its ancestors."""
        move = self.entry(number)
        before = self.recorded(move.name, number)
        if before == ZEROS:
            return False
        return LOST in (before, move.target) or move.target == ZEROS or before not in move.target.ancestors()

    def guard_broken(self, policy, number, guard):
        """Why an entry breaks a global rule, or None."""
        name, signers = f"git:{self.entry(number).name}", self.signers(policy, number)
        if guard.least is None:
            return f"rewound {guard.name}" if speaks_of(guard.patterns, name) and self.goes_back(number) else None
        for it in (name, *(f"file:{path.decode()}" for path in self.changed(number) or ())):
            got = most_signed(policy, it, signers)
            if speaks_of(guard.patterns, it) and got < guard.least:
                return f"threshold {guard.name} {word(it)} {got} of {guard.least}"
        return None

    def global_fault(self, number):
        """The first global rule of the policy in force that an entry breaks, or None."""
        policy = self.policy_at(number)
        if policy is None or policy.guards is None:
            return None
        if too_few(policy.root.said.people, policy.root.said.root, policy.guards.signers):
            return "bad-file"
        return next((why for why in (self.guard_broken(policy, number, it) for it in policy.guards.said) if why), None)

    def global_verdict(self, name):
        """The line of the verdict by global rules, and its status."""
        numbers = self.numbers_of(name, len(self) + 1)
        for number in numbers:
            why = None if self.is_skipped(number) else self.global_fault(number)
            if why:
                return 1, f"global-violation {name} {number} {why}"
        return 0, f"global-kept {name} {len(numbers)} entries"

