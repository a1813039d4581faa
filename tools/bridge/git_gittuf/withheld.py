"""Policies that the log names and that are not here: what comes after one would be judged by an older policy.

A server need not hand out all that it has. The program takes a policy that it cannot read for one that comes into force
nowhere, and judges on by the one before. So it is looked at before whether each is here, and nothing is judged where one
is not: unless as many of those who sign policies as are wanted say that its entry is to be skipped, since whoever writes
into the log may name what never was.
"""

from git_gittuf import epochs, history, policies, signers
from git_gittuf.repository import LOG, POLICY, TREE_ENTRY, ZEROS, Stopped
from git_gittuf.telling import tell
from packs import EMPTY_TREE
from stream_format import MAX_BODY

LACKS = "the store lacks a policy, and is made again from Git"
# The folders of a policy, and the mode of one in a tree.
FOLDERS, FOLDER = (b"metadata", b"global"), b"40000"


def objects_of(repository, targets):
    """All that these commits name, but other commits, each as its id and path; or nothing where Git lacks any of it."""
    lines = b"".join(b"%s\n" % it for it in targets)
    status, output, _ = repository.git("rev-list", "--objects", "--no-walk", "--stdin", input=lines)
    return None if status else [it.partition(b" ")[::2] for it in output.splitlines()]


def policies_of(entries):
    """The entries that record a policy, as number, id and target."""
    rows = [(number, it, rest[1]) for number, it, kind, rest in entries if kind == b"ref" and rest[0] == POLICY]
    return [it for it in rows if it[2] != ZEROS]


def holder_in(policy, key):
    """Who of the root of a policy has a key: the person, or in schema 1 the key itself; or nothing."""
    role = policy.role("root")
    person = signers.persons_of(policy).get(key)
    return person if person in role.get("persons", []) else key if key in role.get("keyids", []) else None


def is_taken_back(repository, entries, entry_id):
    """Whether as many of the root of the policy then in force as it wants signed that an entry is to be skipped."""
    starts, signed = epochs.of_entries(repository, entries), set()
    skips = set(history.skips_of(repository, entries, entry_id))
    for number, annotation, *_ in entries:
        before = [target for start, target in starts if start < number]
        if annotation not in skips or not before:
            continue
        policy = policies.Policy(repository, before[-1])
        key = signers.of_entries(repository, [annotation], policy.publics()).get(annotation)
        signed.add(holder_in(policy, key))
        if len(signed - {None}) >= policy.role("root")["threshold"]:
            return True
    return False


def found_of(repository, rows):
    """What is here of the policies that these entries record, each its id and path, and the targets of those that are not whole here."""
    targets = [it[2] for it in rows]
    found = objects_of(repository, targets) if rows else []
    if found is not None:
        return found, ()
    there = {it: objects_of(repository, [it]) for it in targets}
    return [row for them in there.values() for row in them or ()], {it for it, them in there.items() if them is None}


def listed(work):
    """The entries of the log, or none where it is none."""
    status, printed = work.read("log") if LOG in work.repository.references() else (0, b"")
    return history.entries(printed) if not status else ()


def looked_for(work):
    """The entries whose policy is not here, and that nobody took back, as number, id and target; and what is here of the others."""
    repository, entries = work.repository, listed(work)
    rows = policies_of(entries)
    found, away = found_of(repository, rows)
    return [it for it in rows if it[2] in away and not is_taken_back(repository, entries, it[1])], found


def are_kept(work, entries):
    """Whether the store has what the program reads of the policies that are here, by the entries of a log."""
    rows = policies_of(entries)
    return is_whole(work.kept, {it[2] for it in rows}) or is_kept(work, found_of(work.repository, rows)[0])


def tree_in(kept, object_id):
    """The entries of a tree of the store, each as mode, name and id."""
    kind, body = kept.read(object_id)
    return [(it[1], it[2], it[3].hex().encode()) for it in TREE_ENTRY.finditer(body)] if kind == b"tree" else []


def is_whole(kept, targets):
    """Whether the store has all that these commits have of policies, by itself, so that Git need not be asked what that is."""
    try:
        commits = [kept.read(it) for it in targets]
        tops = {body[5:69] for kind, body in commits if kind == b"commit"}
        folders = {it for top in tops for _, name, it in tree_in(kept, top) if name in FOLDERS}
        trees, files = set(), set()
        while folders:
            folder = folders.pop()
            trees.add(folder)
            rows = tree_in(kept, folder)
            folders |= {it for mode, _, it in rows if mode == FOLDER} - trees
            files |= {it for mode, name, it in rows if mode != FOLDER and name.endswith(b".json")}
        return all(kind == b"commit" for kind, _ in commits) and all(map(kept.is_sound, files))
    except (Stopped, OSError):
        return False


def is_kept(work, there):
    """The same by what is here of them."""
    return all(map(work.kept.is_sound, read_of(work.repository, there)))


def lacking(work):
    return looked_for(work)[0]


def sentence(number, target):
    return f"entry {number} recorded a policy that is not here, {target.decode()[:12]}", (
        f"git fetch may bring it; a server may hold it back, or it never was, and then git gittuf skip {number} by who signs policies says so"
    )


def expect_none(work):
    """Refuses to judge where a policy is not here. A store that lacks of one what the program reads is made again."""
    found, there = looked_for(work)
    if found:
        what, way = sentence(found[0][0], found[0][2])
        raise Stopped(f"{what}, and by the one before nothing is judged: {way}", 3)
    if not is_kept(work, there):
        tell(LACKS)
        work.renew()


def expect_here(work):
    """The same of what is to be signed, where Git is asked only if the store by itself is not whole."""
    if not is_whole(work.kept, {it[2] for it in policies_of(listed(work))}):
        expect_none(work)


def bring(work, extra=(), maybe=()):
    """Makes the store what Git is, and anew where it lacks a policy: what is signed and pushed is judged over it."""
    count = work.bring(extra, maybe)
    if are_kept(work, listed(work)):
        return count
    tell(LACKS)
    work.renew()
    return work.bring(extra, maybe)


def read_of(repository, there):
    """The ids of what the program reads of these objects of policies, as far as a store takes it."""
    fronts = tuple(it + b"/" for it in FOLDERS)
    files = {it for it, path in there if path.startswith(fronts) and path.endswith(b".json")}
    ids = files | {it for it, path in there if path in (b"", *FOLDERS) or path.startswith(fronts)}
    rows = filter(None, repository.rows(sorted(ids - {EMPTY_TREE})))
    most = {b"commit": MAX_BODY, b"tree": MAX_BODY, b"blob": epochs.MAX_FILE}
    return [it for it, kind, size in rows if int(size) <= most.get(kind, -1) and (kind != b"blob" or it in files)]
