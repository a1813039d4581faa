"""Which entries of the log brought a policy into force, as the program tells it.

Whether an entry of the policy's reference does so hangs on its policy and on the one in force before, and on no other
entry nor on who signed it. So the program judges the policy's reference in a stream that has a log of these entries
alone, and each that it calls none is left out of the next stream.
"""

import re

import stream_format
from git_gittuf import copying, program
from git_gittuf.program import Ended
from git_gittuf.repository import LOG, POLICY, ZEROS
from packs import EMPTY_TREE

NO_EPOCH = re.compile(rb"violation refs/gittuf/policy (\d+) not-epoch [^\n]+\n")
# The largest file of a policy that the program reads.
MAX_FILE = 1 << 20


def entry(number, parent, target, name=POLICY):
    """The id and the body of an unsigned entry that records the policy, or another reference."""
    lines = [b"tree " + EMPTY_TREE, *([b"parent " + parent] if parent else [])]
    lines += [it + b" gittuf <gittuf@localhost> 0 +0000" for it in (b"author", b"committer")]
    lines += [b"", b"RSL Reference Entry", b"", b"ref: " + name, b"targetID: " + target, b"number: %d" % number]
    body = b"".join(b"%s\n" % it for it in lines)
    found = stream_format.hash_of(b"commit", len(body))
    found.update(body)
    return found.hexdigest().encode(), body


def files_of(repository, target):
    """The ids of the files that the program reads of a policy."""
    named = [object_id for _, name, object_id in repository.tree(b"%s:metadata" % target) if name.endswith(b".json")]
    return [it[0] for it in repository.rows(named) if it and it[1] == b"blob" and int(it[2]) <= MAX_FILE]


def objects_of(repository, targets):
    """What the program reads of the policies at these targets, as far as it is here, by their ids."""
    ids = set(copying.states_of(repository, targets))
    for it in repository.there(targets):
        ids.update(files_of(repository, it))
    return {object_id: (kind, body) for object_id, kind, body in repository.bodies(sorted(ids)) if body is not None}


def stream_of(objects, targets):
    """The stream of a repository with these objects, whose log records these policies one after the other."""
    objects, tip = dict(objects), None
    for number, target in enumerate(targets, start=1):
        tip, body = entry(number, tip, target)
        objects[tip] = (b"commit", body)
    pieces = [stream_format.HEADER]
    for object_id, (kind, body) in sorted(objects.items()):
        pieces += [b"object %s %s %d\n" % (object_id, kind, len(body)), body, b"\n"]
    pieces += [b"ref %s %s\n" % it for it in ((POLICY, targets[-1]), (LOG, tip))]
    return b"".join([*pieces, stream_format.END])


def of_entries(repository, entries, root=None):
    """The entries that brought a policy into force, oldest first, each as its number and the policy's id.

    With ids of keys the first one's root role is to have just these.
    """
    left = [(number, rest[1]) for number, _, kind, rest in entries if kind == b"ref" and rest[0] == POLICY]
    asked = (*left, root)
    if asked not in repository.epochs:
        repository.epochs[asked] = asked_of(repository, left, root)
    return list(repository.epochs[asked])


def asked_of(repository, left, root):
    """The same of entries for the policy, each as its number and the policy's id."""
    left = list(left)
    objects = objects_of(repository, {target for _, target in left if target != ZEROS})
    while left:
        words = ("verify-ref", POLICY.decode(), *(("--root", root) if root else ()), "--stdin")
        status, printed = program.run("-", "-", *words, input=stream_of(objects, [it[1] for it in left]))
        if not status:
            break
        found = NO_EPOCH.fullmatch(printed)
        if not found:
            raise Ended(words, status, printed)
        del left[int(found[1]) - 1]
    return left
