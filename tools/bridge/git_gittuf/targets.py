"""What entries recorded stays in Git, whatever becomes of the branches: each target is kept by a reference of its own.

Such a reference goes to others with the log. So it is made by who records, and for what a remote has anyway: whoever writes
the id of a commit that was never pushed into an entry does not so get it pushed.

Where Git lost what the own key recorded it is given back from the store, as far as that leaves nothing in Git that names
what is not there. All else that Git lost goes from the store as well, so that each clone judges it alike: as broken, until
one has it whole.
"""

from git_gittuf import checked, giving, keys, signers
from git_gittuf.remotes import BESIDE, fetched
from git_gittuf.repository import OWN, TARGETS, ZEROS, Stopped
from git_gittuf.telling import tell
from packs import EMPTY_TREE

# So many references at once are packed into one file of Git's.
MANY = 256


def by_remotes(references):
    """What remotes keep of what entries recorded."""
    rest = TARGETS[len(OWN) - 1 :]
    return {value for name, value in references.items() if name.startswith(BESIDE) and name.endswith(rest + value)}


def recorded(entries, kept):
    """The targets of branches and tags, and of others those that remotes keep, with the first entry that recorded each."""
    found = {}
    for number, entry_id, kind, rest in entries:
        if kind == b"ref" and rest[1] != ZEROS and (not rest[0].startswith(OWN) or rest[1] in kept):
            found.setdefault(rest[1], (number, entry_id))
    return found


def state_in_store(kept, target):
    """The objects of a target's state in the store, by kind and body, and the ids of all that they name beside."""
    found, named, waiting = {}, set(), [target]
    while waiting:
        object_id = waiting.pop()
        if object_id in found or object_id == EMPTY_TREE:
            continue
        if object_id != target and not kept.has(object_id):
            named.add(object_id)
            continue
        kind, body = kept.read(object_id)
        found[object_id] = (kind, body)
        parents = set(giving.parents_in(kind, body))
        named |= parents
        waiting += [it for it in giving.named_in(kind, body) if it not in parents]
    return found, named - set(found)


def give_back(work, target):
    """Gives Git back what the store has of a target, where Git then has all that it names; returns whether that was done."""
    try:
        found, named = state_in_store(work.kept, target)
        if named - work.repository.there(named):
            return False
        giving.give_objects(work.repository, giving.in_order(found))
    except Stopped:
        # What the store has is damaged, or is no object that Git takes.
        return False
    return True


def own_entries(repository, ids):
    """Those of these entries that the key here signed."""
    key = signers.own_key(repository)
    if key is None:
        return set()
    publics = {key: bytes.fromhex(keys.id_and_public(keys.path_of(repository))[1])}
    return {it for it, by in signers.of_entries(repository, ids, publics, are_good=checked.looked_at).items() if by == key}


def of_lost(work, lost):
    """The targets of these that Git has again from the store; the others go from the store as well."""
    again, own = set(), own_entries(work.repository, [it[1] for it in lost.values()])
    for target, (number, entry_id) in sorted(lost.items(), key=lambda it: it[1]):
        what = f"Git lost what entry {number} recorded, {target.decode()[:12]}"
        if entry_id in own and give_back(work, target):
            tell(f"{what}, and has it again from the store")
            again.add(target)
            continue
        with work.kept.opened():
            work.kept.take_out(target)
        tell(f"{what}, and it is judged as missing: who has it whole brings it by git gittuf push, and then git fetch")
    return again


def keep(work, entries):
    """Keeps each target that these entries recorded, as far as a remote has it, and gives back what Git lost."""
    references = work.repository.references()
    kept = by_remotes(references)
    targets = recorded(entries, kept)
    lacking = [it for it in targets if TARGETS + it not in references]
    if not lacking:
        return
    there = work.repository.there(lacking)
    wanted = there & kept | fetched(work.repository, references, there - kept)
    lost = {it: targets[it] for it in lacking if it not in there and work.kept.has(it)}
    if lost:
        with work.alone():
            wanted |= of_lost(work, lost)
    work.move({TARGETS + it: (ZEROS, it) for it in lacking if it in wanted})
    if len(wanted) >= MANY:
        work.repository.asked("pack references", "pack-refs", "--all")
