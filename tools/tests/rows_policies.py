"""The files of a policy, and approvals, as DSSE envelopes of JSON."""

import base64
import json

PAYLOAD_TYPE = "application/vnd.gittuf+json"


def text_of(value):
    """Compact JSON, the fields of each object in the order of their names."""
    return json.dumps(value, sort_keys=True, separators=(",", ":")).encode()


def base64_of(body):
    return base64.b64encode(body).decode()


def encoded(payload, kind=PAYLOAD_TYPE):
    """What DSSE signs."""
    return b"DSSEv1 %d %s %d %s" % (len(kind), kind.encode(), len(payload), payload)


def envelope(payload, signatures, kind=PAYLOAD_TYPE):
    """The envelope of a payload with signatures, which are (key id or None, bytes)."""
    listed = [{"sig": base64_of(sig)} | ({} if id is None else {"keyid": id}) for id, sig in signatures]
    return text_of({"payload": base64_of(payload), "payloadType": kind, "signatures": listed})


def listed_keys(keys):
    return [{"keyid": key.id, "keytype": key.kind, "public": key.public.hex()} for key in keys]


def ids_of(keys):
    return [key.id for key in keys]


def people_of(people):
    """Persons of schema 2, which are keys by name."""
    return [{"name": name, "keyids": ids_of(keys)} for name, keys in people.items()]


def root(version, keys, root, targets, thresholds=(1, 1)):
    """A root of schema 1, each role with keys."""
    roles = {
        "root": {"keyids": ids_of(root), "threshold": thresholds[0]},
        "targets": {"keyids": ids_of(targets), "threshold": thresholds[1]},
    }
    return text_of({"type": "root", "version": version, "keys": listed_keys(keys), "roles": roles})


def root_of_people(version, keys, people, root, targets, thresholds=(1, 1)):
    """A root of schema 2, each role with names of persons."""
    roles = {
        "root": {"persons": root, "threshold": thresholds[0]},
        "targets": {"persons": targets, "threshold": thresholds[1]},
    }
    head = {"type": "root", "version": version, "schema": 2}
    return text_of(head | {"keys": listed_keys(keys), "persons": people_of(people), "roles": roles})


def rule(name, pattern, who, threshold=1, terminating=False):
    """A rule of one pattern. Who may sign are keys, or names of persons in a file of schema 2."""
    if all(isinstance(it, str) for it in who):
        listed = {"persons": who}
    else:
        listed = {"keyids": ids_of(who)}
    return {"name": name, "paths": [pattern], "terminating": terminating, "threshold": threshold} | listed


def rule_file(name, keys, rules, version=1, people=None):
    """A rule file, of schema 2 where it has persons."""
    head = {"type": "rules", "name": name, "version": version, "keys": listed_keys(keys), "rules": rules}
    if people is not None:
        head |= {"schema": 2, "persons": people_of(people)}
    return text_of(head)


def approval(reference, before, tree):
    fields = {"type": "approval", "targetRef": reference, "fromRevisionID": before, "targetTreeID": tree}
    return text_of(fields)
