"""Policies that the measurements of tools/bench make: roots and rule files in their envelopes."""

import json

from made_keys import base64_of
from made_stores import DIRECTORY, FILE, POLICY

TYPE = b"application/vnd.gittuf+json"


def signer_of(key):
    """What signs an entry of a log by a key."""
    return lambda text: (key.id.encode(), base64_of(key.sign(text)))


def envelope(payload, key):
    """The envelope of a payload with a signature of a key."""
    signed = b"DSSEv1 %d %s %d %s" % (len(TYPE), TYPE, len(payload), payload)
    signature = b'{"keyid":"%s","sig":"%s"}' % (key.id.encode(), base64_of(key.sign(signed)))
    return b'{"payload":"%s","payloadType":"%s","signatures":[%s]}' % (base64_of(payload), TYPE, signature)


def listed(identifier, public):
    return {"keyid": identifier, "keytype": "lms", "public": public.hex()}


def compact(value):
    return json.dumps(value, separators=(",", ":"), sort_keys=True).encode()


def root(key, version=1):
    """The payload of a root whose two roles are a key's."""
    role = {"keyids": [key.id], "threshold": 1}
    keys = [listed(key.id, key.public)]
    return compact({"type": "root", "version": version, "keys": keys, "roles": {"root": role, "targets": role}})


def rule(name, patterns, keyids, terminating=False):
    return {"name": name, "paths": patterns, "terminating": terminating, "keyids": keyids, "threshold": 1}


def rule_file(name, keys, rules, version=1):
    """The payload of a rule file with these listed keys and rules."""
    return compact({"type": "rules", "name": name, "version": version, "keys": keys, "rules": rules})


def add_policy(store, files, parent=None, others=()):
    """Keeps a commit whose tree has the files of a policy by their names, in `metadata`, and other entries beside it.
    Returns the ids of the commit and of the files."""
    blobs = {name: store.add(b"blob", text) for name, text in files.items()}
    metadata = store.tree([(FILE, b"%s.json" % name.encode(), found) for name, found in blobs.items()])
    tree = store.tree([(DIRECTORY, b"metadata", metadata), *others])
    commit = store.commit(tree, parent)
    store.stand(POLICY, commit)
    return commit, blobs
