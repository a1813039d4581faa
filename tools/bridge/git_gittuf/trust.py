"""Whose the first policy must be: whose somebody said it is, or else whose it was when it was first seen here."""

import os
import sys

from git_gittuf import epochs, history, policies, signers
from git_gittuf.repository import LOG, Stopped
from git_gittuf.settings import ENTRY, KEY_IDS, SAID, SEEN, keep, key_ids
from git_gittuf.shown import plain

GIVEN = "--root"


def first_policy(work):
    """The first policy of the log that came into force, whoever's it is, or nothing."""
    entries = history.entries(work.asked("log")) if LOG in work.repository.references() else []
    found = epochs.of_entries(work.repository, entries)
    return policies.Policy(work.repository, found[0][1]) if found else None


def root_keys(policy):
    """The ids of the keys in a policy's root role, in its order."""
    role = policy.role("root")
    return list(dict.fromkeys(role.get("keyids") or policy.of_keys(role.get("persons", []))))


def see(work):
    """Notes whose the first policy is that is seen here, and tells it once."""
    policy = first_policy(work)
    if policy is None:
        return None
    root = ",".join(root_keys(policy))
    if not KEY_IDS.fullmatch(root):
        return None
    keep(work.repository, SEEN, root)
    who = ", ".join(map(plain, policy.role("root").get("persons", []))) or "these keys"
    whose, way = f"that of {who}", f": ask them for the ids of their keys, and git gittuf setup --root {root} pins it"
    if is_own(work, root):
        whose, way = "your own", ""
    print(f"git-gittuf: the first policy seen here is {whose}, and each later one is to come from it{way}", file=sys.stderr, flush=True)
    return root


def is_own(work, root):
    """Whether just the key here has to have signed the first policy, which nobody else then can have made."""
    return root is not None and root == signers.own_key(work.repository)


def anchor(work, words):
    """The ids that the first policy's root is to have, and where these come from, or nothing of both."""
    repository = work.repository
    if words.root is not None:
        return words.root, GIVEN
    said = key_ids(repository, SAID)
    if said:
        return said, SAID
    if words.pinned:
        raise Stopped("nobody said whose the first policy is: git gittuf setup --root KEYID,.. keeps that, or --root names it", 3)
    found = key_ids(repository, SEEN)
    if not found:
        with work.alone():
            found = key_ids(repository, SEEN) or see(work)
    return (found, SEEN) if found else (None, None)


def pin(work):
    """Keeps whose the first policy is that is seen here, where nobody said it, before anybody edits or signs by it."""
    if not key_ids(work.repository, SAID) and not key_ids(work.repository, SEEN):
        with work.alone():
            see(work)


def expect_entry(work, words):
    """Refuses to judge by a log that lacks an entry which somebody said that it has: one that was cut, or is another."""
    known = [words.entry] if words.entry else work.repository.config(ENTRY)[-1:]
    entries = history.entries(work.asked("log")) if known and LOG in work.repository.references() else []
    for it in known:
        if os.fsencode(it) not in {entry for _, entry, *_ in entries}:
            said = f"the log here lacks the entry {plain(it)}, which it is to have"
            raise Stopped(f"{said}: git fetch may bring it; else it was cut, or is another one: ask who may write to the server", 3)
