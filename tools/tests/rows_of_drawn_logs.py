"""Rows on logs that were drawn: moves of branches, policies, skips and notes, with the verdict on each reference."""

from collections import Counter
from functools import lru_cache

from drawn_numbers import Draw
from rows_histories import AFTER, BEFORE, KEEPER, MAIN, POLICY
from rows_histories import History, asked, asked_again, top_file
from rows_objects import ZEROS
from rows_policies import encoded, envelope, root, rule
from slow_logs import LOST, Move, Note
from slow_verdicts import FIRST, KEYS, OTHER, ROOT_KEYS, SAME, Policy, TwoPersons

SEEDS, LENGTH = range(660, 720), 14
# Each of these comes of the logs at least so often.
LEAST = 5
OUTCOMES = (
    *("accepted", "tip-differs", "no-policy", "broken", "ref-rule"),
    *("unreadable", "root-threshold", "root-version", "root-succession"),
    *("rescued", "recovery", "recovery to another tree", "recovery that is not authorised", "skip", "skip by another"),
)
NEXT = "refs/heads/next"
NAMES = (MAIN, NEXT, POLICY)
FILES = {FIRST: BEFORE, SAME: BEFORE, OTHER: AFTER}
OF_ONE_TREE = {FIRST: SAME, SAME: FIRST}
# A key of no policy, and an id that no entry has.
STRANGER, NOWHERE = KEEPER, "1" * 64


def drawn_policy(draw, log):
    """Half are of policies that may follow. Of the others a stranger signed the root, another person alone did, or its
    version is none that follows; or the policy goes away."""
    old = log.policy_at(len(log) + 1) or Policy(0, 0, ())
    holder, version = draw.below(2), old.version + 1
    own, olds = ROOT_KEYS[holder], ROOT_KEYS[old.holder]
    good = Policy(holder, version, tuple(sorted({own, olds}, key=ROOT_KEYS.index)))
    of_another = Policy(1 - old.holder, version, (ROOT_KEYS[1 - old.holder],))
    too_late = Policy(holder, version + 1, good.signers)
    bad = (Policy(holder, version, (STRANGER,)), of_another, too_late, ZEROS)
    return Move(POLICY, draw.of(good, draw.of(*bad)), None)


def drawn_note(draw, log, signer):
    """An annotation of one entry or two, of the last ones or of none."""
    numbers = [max(0, len(log) - draw.below(5)) for _ in range(draw.of(1, 2))]
    return Note(draw.below(4) > 0, tuple(numbers), signer)


def drawn_repair(draw, log, signer):
    """A step of a recovery from an entry that is neither authorised nor rescued: a skip, by whomever, or, where an annotation
    skips it, rightly or not, the way back to the tree before it."""
    end = len(log) + 1
    bad = [at for name in NAMES for at in log.numbers_of(name, end) if log.fault(at) and not log.rescued(at)]
    if not bad:
        return drawn_move(draw, signer)
    number = draw.of(*bad)
    name = log[number - 1].name
    if not any(isinstance(entry, Note) and entry.skip and number in entry.listed for entry in log):
        return Note(True, draw.of((number,), (number, draw.of(*bad))), draw.of(signer, signer, *KEYS, STRANGER))
    back = log.recorded(name, number)
    return Move(name, draw.of(back, OF_ONE_TREE.get(back, back)), signer)


def drawn_move(draw, signer):
    return Move(draw.of(MAIN, NEXT), draw.of(FIRST, FIRST, FIRST, SAME, SAME, OTHER, OTHER, OTHER, ZEROS, LOST), signer)


def drawn_entry(draw, log):
    """An entry that may stand next. Most are by the holder of the policy in force."""
    old = log.policy_at(len(log) + 1)
    holder = KEYS[old.holder if old else 0]
    signer = draw.of(*[holder] * 6, *KEYS, STRANGER, None)
    kind = draw.below(12)
    if kind < 2:
        return drawn_policy(draw, log)
    if kind < 4:
        return drawn_note(draw, log, signer)
    return drawn_repair(draw, log, signer) if kind < 9 else drawn_move(draw, signer)


def drawn_log(seed):
    """A log, and where each reference is at its end. Most begin with a policy."""
    draw, log = Draw(seed), TwoPersons()
    if draw.below(6):
        log.append(Move(POLICY, Policy(0, 1, ROOT_KEYS[:1]), None))
    while len(log) < LENGTH:
        log.append(drawn_entry(draw, log))
    kept = {}
    for name in NAMES:
        right = log.recorded(name, LENGTH + 1)
        targets = [log[at - 1].target for at in log.numbers_of(name, LENGTH + 1)] or [ZEROS]
        kept[name] = draw.of(right, right, right, targets[-1], targets[0], ZEROS)
    return log, kept


def outcomes(log, kept):
    """What comes of a log, by words that are counted."""
    for name in NAMES:
        word, *told = log.verdict(name, kept[name])
        yield told[-1].split()[name == POLICY] if word == "violation" else word
        for number in log.numbers_of(name, LENGTH + 1):
            if log.fault(number) and log.rescued(number):
                yield "rescued"
            if any(log.fault(at) for at in log.left_behind(number)):
                if log.fault(number):
                    yield "recovery that is not authorised"
                else:
                    yield "recovery" if log.is_back(number) else "recovery to another tree"
            for at in range(number + 1, LENGTH + 1):
                if isinstance(log[at - 1], Note) and log[at - 1].skip and number in log[at - 1].listed:
                    yield "skip" if log.may_skip(at, name) else "skip by another"


LOGS = [drawn_log(seed) for seed in SEEDS]
COUNTS = Counter(word for log, kept in LOGS for word in outcomes(log, kept))
assert all(COUNTS[word] >= LEAST for word in OUTCOMES) and len(COUNTS) == len(OUTCOMES)


class Sealed:
    """Envelopes by keys that sign policies. Each key signs a text once, with its next leaf."""

    def __init__(self):
        self.made, self.used = {}, Counter()

    def by(self, key, payload):
        if (key, payload) not in self.made:
            self.made[key, payload] = key.sign(self.used[key], encoded(payload))
            self.used[key] += 1
        return key.id, self.made[key, payload]

    def envelope(self, payload, keys):
        return envelope(payload, [self.by(key, payload) for key in keys])

    def files(self, policy):
        key, own = KEYS[policy.holder], ROOT_KEYS[policy.holder]
        top = top_file(KEYS, [rule("heads", "git:refs/heads/*", [key])], policy.version)
        return {
            b"metadata/root.json": self.envelope(root(policy.version, [own], [own], [own]), policy.signers),
            b"metadata/targets.json": self.envelope(top, [own]),
        }


def sealed_in(logs):
    """The files of each policy in the logs, which are sealed once for all of them."""
    sealed = Sealed()
    targets = (entry.target for log, _ in logs for entry in log if isinstance(entry, Move))
    return {target: sealed.files(target) for target in targets if isinstance(target, Policy)}


@lru_cache(maxsize=None)
def policies():
    """The files of each policy in the logs of the rows."""
    return sealed_in(LOGS)


class Targets(dict):
    """The ids of targets in a history, which makes the commit of each that is asked for; the files of policies are sealed."""

    def __init__(self, history, files_of_policies):
        super().__init__({ZEROS: ZEROS, LOST: LOST})
        self.history, self.files_of_policies = history, files_of_policies

    def __missing__(self, target):
        files = self.files_of_policies[target] if isinstance(target, Policy) else FILES[target]
        self[target] = self.history.commit(files)
        return self[target]


def line(name, found, ids):
    """The status of a verdict and its line."""
    word, *told = found
    if word == "violation":
        return 1, f"violation {name} {told[0]} {told[1]}"
    if word == "tip-differs":
        return 1, f"tip-differs {name} kept {ids[told[0]]} recorded {ids[told[1]]}"
    return 0, f"accepted {name} {told[0]} entries"


def history_of(log, kept, files_of_policies):
    """A repository with a log, in which each reference is where it is kept, and the ids of its targets."""
    history = History()
    ids = Targets(history, files_of_policies)
    for entry in log:
        if isinstance(entry, Move):
            history.record(entry.name, ids[entry.target], entry.signer)
        else:
            listed = [history.ids[number - 1] if number else NOWHERE for number in entry.listed]
            history.annotate(entry.skip, listed, entry.signer)
    for name, target in kept.items():
        history.repository.set(name, ids[target])
    return history, ids


def verdicts_of(log, kept, ids):
    """The status and the line of the verdict on each reference, and its name."""
    return [(*line(name, log.verdict(name, kept[name]), ids), name) for name in NAMES]


def row_of(place):
    """The row of a drawn log: the verdict on each of its references."""

    def row():
        log, kept = LOGS[place]
        history, ids = history_of(log, kept, policies())
        asks = verdicts_of(log, kept, ids)
        return history, asked(*asks[0]), *(asked_again(*it) for it in asks[1:])

    row.__name__ = f"drawn_log_{place}"
    return row


ROWS = tuple(row_of(place) for place in range(len(LOGS)))
