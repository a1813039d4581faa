"""What was judged of a log up to an entry, kept so that of a longer log only the entries behind it are judged.

An entry that is authorised in a repository is so in every larger one in which the same policies are in force, as
`crates/desk_core` shows. So gittuf-inspect judges new entries over a store beside the store, which has each entry of the
log and each policy, and of what entries recorded only what the new ones are compared with: older entries cost no more there
than to be read. Where each new one is authorised by the policy that is known to be in force, and goes on from where its
reference is known to stand, a reference that stood in no violation stands in none. Of whatever else is told, and wherever
anything is odd, nothing is concluded, and the program judges the whole store.
"""

import hashlib
import json
import os
import resource

from git_gittuf import copying, epochs, history, inspecting, notes, settings
from git_gittuf.files import remove_tree
from git_gittuf.repository import ATTESTATIONS, LOG, POLICY, ZEROS
from packs import EMPTY_TREE

# More entries at once are judged by the program.
MANY = 256
# So many seconds of the processor are not worth to be weighed.
LITTLE = 0.5
# So many bytes are kept of what was judged.
MOST = 64 << 20
PARENT = copying.NO_FILES + b"parent %s\n"


class Chain:
    """The store beside the store. Its objects have their own names, so what is in it is told by them."""

    def __init__(self, work):
        self.folder = os.path.join(work.repository.folder, "chain")
        self.objects = os.path.join(self.folder, "objects")
        self.there = set(os.listdir(self.objects)) if os.path.isdir(self.objects) else set()

    def names(self):
        """A sum of the names of its objects."""
        return hashlib.sha256("\n".join(sorted(self.there)).encode()).hexdigest()

    def for_program(self):
        return f"{self.folder}/"

    def at(self, object_id):
        return os.path.join(self.objects, object_id.decode())

    def make(self, kept, ids):
        """Makes it anew, of these objects of the store, as far as that has them."""
        remove_tree(self.folder)
        os.makedirs(self.objects)
        for it in filter(kept.has, dict.fromkeys(ids)):
            os.link(os.path.join(kept.objects, it.decode()), self.at(it))
        self.there = set(os.listdir(self.objects))

    def has(self, object_id):
        return object_id.decode() in self.there

    def put(self, object_id, kind, body):
        # A file that is there is the store's too.
        with open(self.at(object_id), "xb") as file:
            file.write(b"%s %d\0%s" % (kind, len(body), body))
        self.there.add(object_id.decode())

    def take_out(self, object_id):
        os.remove(self.at(object_id))
        self.there.discard(object_id.decode())

    def stand_at(self, tip):
        path = os.path.join(self.folder, LOG.decode())
        os.makedirs(os.path.dirname(path), exist_ok=True)
        with open(path, "wb") as file:
            file.write(tip + b"\n")


class Costs:
    """What judging took of the processor: the whole log, and what is new in it, each with the number of its entries then."""

    def __init__(self, whole=(0, 0), new=(0, 0)):
        self.whole, self.new = tuple(whole), tuple(new)

    def is_worth_it(self):
        """Whether what is new is judged in less, or that is not known of logs of about the same length."""
        few, many = sorted((self.whole[1], self.new[1]))
        return self.new[0] < max(self.whole[0], LITTLE) or many > 2 * few


def seconds_used():
    """What the programs took that have ended so far."""
    used = resource.getrusage(resource.RUSAGE_CHILDREN)
    return used.ru_utime + used.ru_stime


class Front:
    """A log up to an entry: its id and number, the entry that brought the policy into force, and the last target of the approvals.

    `names` has each reference that is recorded, with where it is known to stand in no violation, or None where that is not
    known. All of that holds over a chain, and as long as what it rests on is the same.
    """

    def __init__(self, chain, rests_on, log, names):
        self.chain, self.rests_on, self.names = chain, rests_on, names
        self.tip, self.count, self.epoch, self.attested = log

    def is_unknown(self, name):
        """Whether a reference is recorded of which it is not known whether it stands in no violation."""
        return self.names.get(name, ZEROS) is None

    def behind(self, recorded, tip):
        """The log with further entries, which recorded these targets of references."""
        attested = [target for name, target in recorded if name == ATTESTATIONS] or [self.attested]
        stand = {name: None if self.is_unknown(name) else target for name, target in recorded}
        log = tip, self.count + len(recorded), self.epoch, attested[-1]
        return Front(self.chain, self.rests_on, log, {**self.names, **stand})


def path_of(work):
    return os.path.join(work.repository.folder, "judged")


def rests_on(work):
    """What holds of a judgement beside the log: whose the first policy must be, and which programs run."""
    text = "\n".join([settings.held_to(work.repository) or "", *work.answers.programs()])
    return hashlib.sha256(text.encode(errors="surrogateescape")).hexdigest()


def kept_in(work):
    """What was written down, or nothing where that is not as it was written."""
    try:
        return json.loads(notes.read(path_of(work), MOST) or b"{}")
    except (ValueError, RecursionError):
        return {}


def costs_in(kept):
    try:
        return Costs(kept["whole"], kept["new"])
    except LookupError:
        return Costs()


def read(work):
    """What was judged, or nothing where none of it holds here."""
    kept, encoded = kept_in(work), lambda text: text and text.encode()
    if "tip" not in kept or kept["rests on"] != rests_on(work):
        return None
    chain = Chain(work)
    if kept["chain"] != chain.names():
        return None
    names = {name.encode(): encoded(target) for name, target in kept["names"].items()}
    log = kept["tip"].encode(), kept["count"], kept["epoch"], encoded(kept["attested"])
    return Front(chain, kept["rests on"], log, names)


def write(work, front, costs):
    """Keeps what was judged, where that is worth it, and what it took."""
    decoded, kept = lambda text: text and text.decode(), {"whole": costs.whole, "new": costs.new}
    if costs.is_worth_it():
        kept |= {"tip": front.tip.decode(), "count": front.count, "epoch": front.epoch, "attested": decoded(front.attested)}
        kept |= {"names": {name.decode(): decoded(target) for name, target in front.names.items()}}
        kept |= {"rests on": front.rests_on, "chain": front.chain.names()}
    else:
        remove_tree(front.chain.folder)
    notes.write(path_of(work), json.dumps(kept).encode())


def forget(work):
    remove_tree(path_of(work))
    remove_tree(Chain(work).folder)


def keep(work, entries, accepted, seconds):
    """Keeps that the program accepted references, each where it stands, by a log of these entries, which the store has."""
    costs = Costs((seconds, len(entries)), costs_in(kept_in(work)).new)
    if work.kept.KIND != "folder" or not entries or not inspecting.place() or not costs.is_worth_it():
        return
    names = {rest[0]: None for _, _, kind, rest in entries if kind == b"ref"}
    names.update(still_known(work, entries))
    names.update({it: value for it, value in accepted.items() if it in names})
    in_force = epochs.of_entries(work.repository, entries, settings.held_to(work.repository))
    chain = Chain(work)
    try:
        chain.make(work.kept, [EMPTY_TREE, *(it[1] for it in entries), *read_of_policies(work.repository, entries)])
    except OSError:
        # There is no room, or the file system takes no second name for a file.
        forget(work)
        return
    log = entries[-1][1], len(entries), in_force[-1][0] if in_force else None, history.last_recorded(entries, ATTESTATIONS)[1]
    write(work, Front(chain, rests_on(work), log, names), costs)


def read_of_policies(repository, entries):
    """The ids of what is read of the policies that these entries recorded."""
    found = sorted({rest[1] for _, _, kind, rest in entries if kind == b"ref" and rest[0] == POLICY} - {ZEROS})
    return [*copying.states_of(repository, found), *copying.files_of(repository, [(POLICY, it) for it in found])]


def still_known(work, entries):
    """What was known of references of which nothing came since, by a log of these entries."""
    front = read(work)
    if front is None or front.count > len(entries) or entries[front.count - 1][1] != front.tip:
        return {}
    later = entries[front.count :]
    skipped = history.skipped_by(work.repository, later)
    gone = {rest[0] for _, it, kind, rest in entries if kind == b"ref" and it in skipped} | {rest[0] for _, _, kind, rest in later if kind == b"ref"}
    return {name: target for name, target in front.names.items() if name not in gone}


def behind(repository, first, last):
    """The ids and bodies of the commits of a log behind one of them, oldest first, or nothing where they are many or not all there."""
    if first == last:
        return []
    words = ("rev-list", "--reverse", f"--max-count={MANY + 1}", last.decode(), f"^{first.decode()}")
    status, printed, _ = repository.git(*words)
    ids = printed.split()
    found = [(it, body) for it, _, body in repository.bodies(ids) if body is not None] if not status and len(ids) <= MANY else []
    return found if found and [it for it, _ in found] == ids else None


def recorded_by(entries, tip):
    """What these entries recorded, each a reference and a target, where they go on from a commit and are none of the policy; else nothing."""
    found = []
    for entry_id, body in entries:
        said = copying.TARGET.search(body)
        if not said or not body.startswith(PARENT % tip) or said[1] == POLICY:
            return None
        found.append(said.groups())
        tip = entry_id
    return found


def compared(work, front, recorded):
    """What judging these entries reads of what is recorded: where references stand and are to stand, and the approvals."""
    repository, known = work.repository, [it for it in recorded if not front.is_unknown(it[0])]
    approvals = {front.attested, *(target for name, target in recorded if name == ATTESTATIONS)} - {None, ZEROS}
    states = {target for _, target in known} | {front.names[name] for name, _ in known if name in front.names} | approvals
    ids = [*copying.states_of(repository, states - {ZEROS}), *copying.files_of(repository, [(ATTESTATIONS, it) for it in sorted(approvals)])]
    return [it for it in repository.bodies(dict.fromkeys(ids)) if it[2] is not None]


def as_told(front, number, stands, entry):
    """What gittuf-inspect is to tell of an entry: that it is authorised, and goes on from where its reference is known to stand."""
    entry_id, name, target = entry
    told = {"number": number, "id": entry_id.decode(), "kind": "reference", "reference": name.decode(), "target": target.decode(), "skipped": None}
    if not front.is_unknown(name):
        told |= {"verdict": "authorised", "fault": None, "epoch": front.epoch, "from": stands[name].decode() if name in stands else None}
    return told


def are_authorised(rows, front, entries):
    """Whether just these entries are told, and each of a reference of which more is known as an authorised one."""
    if rows is None or len(rows) != len(entries):
        return False
    stands = dict(front.names)
    for number, (it, entry) in enumerate(zip(rows, entries), start=front.count + 1):
        wanted = as_told(front, number, stands, entry)
        # A number that is written otherwise is none.
        if json.dumps({key: it[key] for key in wanted if key in it}) != json.dumps(wanted):
            return False
        stands[entry[1]] = entry[2]
    return True


def told_of(work, front, tip):
    """What gittuf-inspect tells of the entries behind those that were judged, by the chain, which stands there then."""
    root = settings.held_to(work.repository)
    front.chain.stand_at(tip)
    words = ("log", "--from", str(front.count + 1), *(("--root", root) if root else ()))
    return inspecting.told(work, *words, store=front.chain.for_program())


def extended(work, front, entries):
    """What is known behind further entries, by their ids and bodies, oldest first, where each is authorised; else nothing."""
    recorded = recorded_by(entries, front.tip) if entries else []
    if not recorded or len(entries) > MANY:
        return None if entries else front
    chain, new = front.chain, {it: (it, b"commit", body) for it, body in entries}
    objects = {**{it[0]: it for it in compared(work, front, recorded)}, **new}
    added, is_lawful = [it for it in objects if not chain.has(it)], False
    try:
        for it in added:
            chain.put(*objects[it])
        rows = told_of(work, front, entries[-1][0])
        is_lawful = are_authorised(rows, front, [(it, *said) for it, said in zip(new, recorded)])
    finally:
        for it in filter(chain.has, added):
            if not is_lawful or it not in new:
                chain.take_out(it)
    return front.behind(recorded, entries[-1][0]) if is_lawful else None


def learn(work, front, seconds):
    """Keeps what is known behind further entries, and what judging these took."""
    write(work, front, Costs(costs_in(kept_in(work)).whole, (seconds, front.count)))
