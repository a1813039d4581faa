"""Repositories that are drawn: logs under policies of persons, with keys of two levels, approvals and global rules."""

from drawn_numbers import Draw
from drawn_policies import CAST, STRANGER, drawn_policy, files_of, sealed, subset
from rows_histories import POLICY, History
from rows_objects import FILE, ZEROS
from rows_policies import approval
from slow_logs import LOST, Move, Note
from slow_persons import ATTESTATIONS, Made, Persons
from slow_policies import invalid, policy_keys

BRANCHES = ("refs/heads/main", "refs/heads/main", "refs/heads/next", "refs/tags/v1")
NAMES = tuple(dict.fromkeys((*BRANCHES, POLICY, ATTESTATIONS)))
PATHS, BODIES = (b"src/x", b"src/y", b"docs/z", b"docs/a b", b"top"), (b"one\n", b"two\n")
ALL_KEYS = tuple(key for _, keys in CAST for key in keys)
LEAST, MORE = 8, 9


class Drawn:
    """A repository that is drawn by a seed, with its log as the slow reading has it, and where each reference is kept."""

    def __init__(self, seed):
        self.draw = draw = Draw(seed)
        self.history, self.log, self.made, self.plan, self.gone = History(), Persons(), 0, None, None
        if draw.below(12):
            self.move(POLICY, self.policy(), None)
        self.log.anchor = self.drawn_anchor()
        for _ in range(LEAST + draw.below(MORE)):
            self.add_entry()
        self.kept = {name: self.drawn_place(name) for name in NAMES}
        for name, target in self.kept.items():
            self.history.repository.set(name, self.id_of(target))
        if self.log and draw.below(24) == 0:
            self.gone = draw.of(*self.history.ids)
            del self.history.repository.objects[self.gone]

    # ---- what entries are made of

    @staticmethod
    def id_of(target):
        return target.id if isinstance(target, Made) else target

    def end(self):
        return len(self.log) + 1

    def commit(self, files, parents=(), **said):
        """A commit that is like no other one."""
        self.made += 1
        repository = self.history.repository
        tree = repository.tree({path: (FILE, repository.blob(body)) for path, body in files.items()})
        id = repository.commit(tree, b"change %d" % self.made, [it.id for it in parents])
        return Made(id, files, parents, **said)

    def policy(self):
        """A policy, which mostly may come into force."""
        old = self.log.policy_at(self.end())
        policy = drawn_policy(self.draw, old)
        while (invalid(policy) or self.log.no_follower(old, policy)) and self.draw.below(3):
            policy = drawn_policy(self.draw, old)
        return self.commit(files_of(policy), policy=policy)

    def drawn_anchor(self):
        """The keys of the first policy's root role, other ones, or none."""
        first = next((it.target.policy for it in self.log), None)
        if first is None or self.draw.below(3):
            return None
        root = first.root.said
        right = tuple(key.id for name, keys in root.people if name in root.root.persons for key in keys)
        return self.draw.of(right, right, (STRANGER.id, *right), right[1:] or (STRANGER.id,))

    def drawn_place(self, name):
        """Where a reference is kept: mostly where the log has it."""
        right = self.log.recorded(name, self.end())
        targets = [self.log.entry(at).target for at in self.log.numbers_of(name, self.end())] or [ZEROS]
        return self.draw.of(right, right, right, right, targets[-1], targets[0], ZEROS)

    def signer(self):
        """Mostly a key of the policy in force, or nobody."""
        policy = self.log.policy_at(self.end())
        keys = sorted(policy_keys(policy), key=ALL_KEYS.index) if policy else ALL_KEYS
        return self.draw.of(*keys, *keys, *keys, self.draw.of(*ALL_KEYS, STRANGER, None))

    def target(self, name):
        """A child of where a reference is, or what it was before, or nothing."""
        draw, base = self.draw, self.log.recorded(name, self.end())
        olds = [self.log.entry(at).target for at in self.log.numbers_of(name, self.end())] or [ZEROS]
        kind = draw.below(24)
        if kind < 2:
            return base
        if kind < 6:
            return draw.of(*olds)
        if kind < 8:
            return draw.of(ZEROS, ZEROS, LOST)
        old = draw.of(base, base, base, *olds)
        files = dict(old.files) if isinstance(old, Made) else {draw.of(*PATHS): draw.of(*BODIES)}
        if kind < 20:
            path = draw.of(*PATHS)
            if path in files and len(files) > 1 and draw.below(3) == 0:
                del files[path]
            else:
                files[path] = draw.of(*BODIES, b"%d\n" % draw.below(9))
        return self.commit(files, (base,) if isinstance(base, Made) and draw.below(6) else ())

    # ---- entries

    def move(self, name, target, signer):
        self.log.append(Move(name, target, signer))
        self.history.record(name, self.id_of(target), signer)

    def note(self, skip, listed, signer):
        self.log.append(Note(skip, listed, signer))
        ids = [self.history.ids[number - 1] if number else "1" * 64 for number in listed]
        self.history.annotate(skip, ids, signer)

    def approve(self):
        """Approvals with one more, of a move that is planned next, by some keys."""
        name = self.draw.of(*BRANCHES)
        target, before = self.target(name), self.log.recorded(name, self.end())
        if LOST in (target, before):
            return
        signers = subset(self.draw, (self.signer(), self.draw.of(*ALL_KEYS)))
        signers = tuple(it for it in dict.fromkeys(signers) if it) or (STRANGER,)
        old = self.log.recorded(ATTESTATIONS, self.end())
        files, approvals = (dict(old.files), dict(old.approvals)) if isinstance(old, Made) else ({}, {})
        tree = self.history.repository.tree_of(self.id_of(target))
        path = f"reference-authorizations/{name}/{self.id_of(before)}-{tree}"
        files[path.encode()] = sealed(approval(name, self.id_of(before), tree), signers)
        approvals[name, before, self.log.tree(target)] = signers
        self.move(ATTESTATIONS, self.commit(files, approvals=approvals), self.signer())
        self.plan = name, target

    def repair(self):
        """A step of a recovery of an entry that is neither authorised nor rescued: a skip, or, behind one, the way back."""
        log, draw = self.log, self.draw
        bad = [at for name in NAMES for at in log.numbers_of(name, self.end()) if log.fault(at) and not log.rescued(at)]
        if not bad:
            return self.move_on()
        number = draw.of(*bad)
        name = log.entry(number).name
        if not any(isinstance(entry, Note) and entry.skip and number in entry.listed for entry in log):
            return self.note(True, draw.of((number,), (number, draw.of(*bad))), self.signer())
        back = log.recorded(name, number)
        if isinstance(back, Made) and draw.below(2):
            back = self.commit(back.files, (back,), policy=back.policy, approvals=back.approvals)
        return self.move(name, back, self.signer())

    def move_on(self):
        """The move that was planned, or another one."""
        plan, self.plan = self.plan, None
        name, target = plan if plan and self.draw.below(6) else (None, None)
        name = name or self.draw.of(*BRANCHES)
        self.move(name, target or self.target(name), self.signer())

    def add_entry(self):
        kind = self.draw.below(24)
        if self.plan and kind > 2:
            self.move_on()
        elif kind < 3:
            target = self.policy() if self.draw.below(12) else self.target(self.draw.of(*BRANCHES))
            self.move(POLICY, target, None)
        elif kind < 5:
            listed = tuple(max(0, len(self.log) - self.draw.below(5)) for _ in range(self.draw.of(1, 2)))
            self.note(self.draw.below(4) > 0, listed, self.signer())
        elif kind < 10:
            self.approve()
        elif kind < 15:
            self.repair()
        else:
            self.move_on()

    # ---- what is to be printed

    def verdict(self, name):
        """The status and the line of the verdict on a reference."""
        if self.gone:
            return 3, f"log-broken {self.gone}"
        word, *told = self.log.verdict(name, self.kept[name])
        if word == "violation":
            return 1, f"violation {name} {told[0]} {told[1]}"
        if word == "tip-differs":
            return 1, f"tip-differs {name} kept {self.id_of(told[0])} recorded {self.id_of(told[1])}"
        return 0, f"accepted {name} {told[0]} entries"

    def global_verdict(self, name):
        return (3, f"log-broken {self.gone}") if self.gone else self.log.global_verdict(name)
