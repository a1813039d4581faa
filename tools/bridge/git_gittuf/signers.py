"""Who signed the entries of a log, to be shown. Whether that suffices is the program's to say, and nobody is named unproved."""

import base64
import os
import re

from git_gittuf import forms, keys, leaves, policies
from git_gittuf.checked import Checked
from git_gittuf.repository import Stopped
from git_gittuf.shown import plain

SIGNED = re.compile(rb"\nlmssig ([0-9a-f]{64}) [A-Za-z0-9+/=]+\n")


def key_in(body):
    """The id of the key that an entry names, or nothing."""
    body = body or b""
    end = body.find(b"\n\n")
    # A copy of each of many heads would take as long as the search.
    found = SIGNED.search(body, 0, end + 1) if end >= 0 else SIGNED.search(body + b"\n")
    return found[1] if found else None


def named_in(bodies):
    """The id of the key that each of these entries names, or None where it names none."""
    found = {it: key_in(body) for it, body in bodies.items()}
    return {it: key.decode() if key else None for it, key in found.items()}


def of_bodies(repository, bodies, publics=None, are_good=None, named=None):
    """The same, or None where it is one of these by which the entry is not good."""
    found = named_in(bodies) if named is None else {it: named[it] for it in bodies}
    listed = [it for it, key in found.items() if key in (publics or {})]
    asked = [(publics[found[it]], bodies[it]) for it in listed]
    good = (are_good or Checked(repository).are_good)(asked) if asked else []
    return {**found, **{it: found[it] if is_good else None for it, is_good in zip(listed, good)}}


def of_entries(repository, ids, publics=None, **how):
    """The same of entries by their ids."""
    return of_bodies(repository, {it: body or b"" for it, _, body in repository.bodies(ids)}, publics, **how)


def says(text, name, source, tree):
    """Whether an approval is one of this change, as who signed it would have it."""
    said = {"fromRevisionID": source, "targetRef": name, "targetTreeID": tree}
    try:
        envelope = forms.json_of(text)
        payload = forms.json_of(base64.b64decode(envelope["payload"]))
        return envelope["payloadType"] == policies.TYPE and all(payload[it] == os.fsdecode(value) for it, value in said.items())
    except (ValueError, LookupError, TypeError, RecursionError):
        return False


def of_approval(text, name, source, tree, publics):
    """The ids of those of these keys by which an approval of this change is signed."""
    if len(text) > leaves.MAX_ENVELOPE or not says(text, name, source, tree):
        return []
    return [key for key, public in publics.items() if key.encode() in text and leaves.is_signed(text, key, public)]


def own_key(repository):
    """The id of the key that signs here, or nothing."""
    try:
        path = keys.path_of(repository)
        return keys.id_and_public(path)[0] if keys.is_there(path) else None
    except (Stopped, OSError):
        return None


def persons_of(policy):
    """The persons of a policy by their keys."""
    return {key: name for name, them in policy.persons().items() for key in them}


class People:
    """The persons of a policy, by whose keys entries are signed."""

    def __init__(self, policy=None):
        self.policy = policy
        self.persons, self.publics = (persons_of(policy), policy.publics()) if policy else ({}, {})

    def keys_of(self, repository, entries):
        return of_entries(repository, [it[1] for it in entries], self.publics)

    def shown(self, key):
        """How the holder of a key is named: as the policy does, or by the front of the key's id."""
        if key is None:
            return "nobody"
        return plain(self.persons[key]) if key in self.persons else f"the key {key[:12]}"

    def who_signed(self, repository, entries):
        return ", ".join(dict.fromkeys(map(self.shown, self.keys_of(repository, entries).values())))


def in_force(work):
    """The persons of the policy in force, and nobody where it cannot be read."""
    try:
        return People(policies.in_force(work))
    except Stopped:
        return People()


def numbers(entries):
    """The numbers of entries, as a sentence has them."""
    first, last = entries[0][0], entries[-1][0]
    return f"entry {first}" if first == last else f"entries {first} to {last}"
