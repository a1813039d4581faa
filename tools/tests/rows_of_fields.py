"""Rows on the fields of roots, rule files and envelopes: each is asked for, of its kind and within its numbers."""

import json

from rows_histories import KEEPER, History
from rows_of_edges import envelope_of
from rows_of_metadata import LAST_THRESHOLD, LAST_VERSION, A, H, asked, counted, listed, person, role, root, rule, rules
from rows_runs import Anew, Run, refused
from rows_signing import LEAVES

# What is no text, no list and no object, and none of those that a list or an object may hold.
NO_TEXT, NO_LIST, NO_OBJECT = (None, True, 1, ["a"], {}), (None, True, 1, "a", {}), (None, True, 1, "a", [])
NO_NUMBER, NO_TRUTH = (None, True, "1", 1.0, -1, [], {}), (None, 1, "true", [], {})
# What the list of ids or of names may not hold.
NO_ITEMS = tuple([it] for it in NO_TEXT)
# What the id of a key is not.
NO_IDS = (A.id.upper(), A.id[1:], A.id + "0", "")


def with_each(value, field, others):
    return [value | {field: it} for it in others]


def of_one(make, value, field, others):
    """What is made of each value that has another under the field."""
    return [make(it) for it in with_each(value, field, others)]


def of_keys(make):
    """What is made of one key, each of whose fields is of another kind."""
    return [it for field in ("keyid", "keytype", "public") for it in of_one(make, A.listed(), field, NO_TEXT)]


def of_persons(make):
    """What is made of one person, each of whose fields is of another kind, and of what is no person."""
    alice = person("alice", A)
    made = of_one(make, alice, "name", NO_TEXT) + of_one(make, alice, "keyids", NO_LIST + NO_ITEMS)
    return made + of_one(make, alice, "keyids", [[it] for it in NO_IDS]) + [make(it) for it in NO_OBJECT]


def roots_of_another_kind():
    """Each field of a root, a key, a role and a person is of another kind, and what is no key, no role and no person."""
    one, alice = role([A.id]), role(["alice"], 1, "persons")
    first, second = root([A.listed()], one), root([A.listed()], alice, alice, [person("alice", A)])
    bad = with_each(first, "type", NO_TEXT) + with_each(first, "version", NO_NUMBER) + with_each(first, "schema", NO_NUMBER)
    bad += with_each(first, "keys", NO_LIST + NO_ITEMS) + with_each(first, "roles", NO_OBJECT)
    bad += with_each(second, "persons", NO_LIST + NO_ITEMS)
    bad += of_keys(lambda it: root([it], one)) + of_persons(lambda it: second | {"persons": [it]})
    for name in ("root", "targets"):
        for held, who in ((first, one), (second, alice)):
            (field,) = set(who) - {"threshold"}
            bad += [held | {"roles": roles} for roles in with_each(held["roles"], name, NO_OBJECT)]
            bad += of_one(lambda it, held=held: held | {"roles": held["roles"] | {name: it}}, who, field, NO_LIST + NO_ITEMS)
            bad += of_one(lambda it, held=held: held | {"roles": held["roles"] | {name: it}}, who, "threshold", NO_NUMBER)
    return History(), *(asked("root", it, "missing-field") for it in bad), asked("root", root([H.listed(public="00" * 61)], one), "bad-key 0")


def rule_files_of_another_kind():
    """Each field of a rule file, a key, a person and a rule is of another kind, and what is no key, person or rule."""
    alice = rule(who=("alice",), field="persons")
    first, second = rules([A.listed()], [rule()]), rules([A.listed()], [alice], [person("alice", A)])
    bad = with_each(first, "type", NO_TEXT) + with_each(first, "name", NO_TEXT) + with_each(first, "version", NO_NUMBER)
    bad += with_each(first, "schema", NO_NUMBER) + with_each(first, "keys", NO_LIST + NO_ITEMS)
    bad += with_each(first, "rules", NO_LIST + NO_ITEMS) + with_each(second, "persons", NO_LIST + NO_ITEMS)
    bad += of_keys(lambda it: rules([it], [rule()])) + of_persons(lambda it: second | {"persons": [it]})
    kinds = {"name": NO_TEXT, "paths": NO_LIST + NO_ITEMS, "terminating": NO_TRUTH, "threshold": NO_NUMBER}
    for field, others in kinds.items():
        bad += of_one(lambda it: rules([A.listed()], [rule(), it]), rule("more"), field, others)
    bad += of_one(lambda it: rules([A.listed()], [it]), rule(), "keyids", NO_LIST + NO_ITEMS)
    bad += of_one(lambda it: second | {"rules": [it]}, alice, "persons", NO_LIST + NO_ITEMS)
    return History(), *(asked("rules", it, "missing-field") for it in bad)


def numbers_and_schemas_of_a_rule_file():
    """The first version and the last, thresholds up to the last that is read, schemas 1 and 2 alone, persons in schema 2
    alone, and listed ids."""
    held, who = f"keys{listed([A])}", f"persons{counted([(A.id, 1)])}"
    told = f"targets schema %s version %s {held} persons%s rule main patterns 1 terminating 1 %s"
    one, alice = rules([A.listed()], [rule()]), rule(who=("alice",), field="persons")
    two, named = rules([A.listed()], [alice], [person("alice", A)]), counted([("alice", 1)])
    ids = [rule(who=(A.id, it)) for it in NO_IDS]
    return (
        History(),
        *(asked("rules", one | {"version": it}, told % (1, it, " 0", who)) for it in (1, LAST_VERSION)),
        *(asked("rules", one | {"version": it}, "missing-field") for it in (0, LAST_VERSION + 1)),
        asked("rules", rules([A.listed()], [rule(threshold=LAST_THRESHOLD)]), "bad-threshold 0"),
        asked("rules", rules([A.listed()], [rule(threshold=LAST_THRESHOLD + 1)]), "missing-field"),
        asked("rules", one | {"schema": 1, "persons": 3}, told % (1, 1, " 0", who)),
        asked("rules", two, told % (2, 1, named, f"persons{named}")),
        *(asked("rules", it | {"schema": number}, "missing-field") for it in (one, two) for number in (0, 3)),
        asked("rules", {field: it for field, it in two.items() if field != "persons"}, "missing-field"),
        *(asked("rules", rules([A.listed()], [it]), "missing-field") for it in ids),
    )


def fields_of_an_envelope():
    """Each field of an envelope and of a signature is missing or of another kind by itself; a key id alone may be missing,
    and what else stands there is nothing."""
    fresh, signature = KEEPER.file(bytes(LEAVES)), {"keyid": "k", "sig": "AA=="}
    good = {"payload": "", "payloadType": "t", "signatures": [signature]}
    bad = [{name: it for name, it in good.items() if name != field} for field in good]
    bad += with_each(good, "payload", NO_TEXT) + with_each(good, "payloadType", NO_TEXT)
    bad += with_each(good, "signatures", NO_LIST) + [good | {"signatures": [signature, it]} for it in NO_OBJECT]
    bad += of_one(lambda it: good | {"signatures": [signature, it]}, signature, "sig", NO_TEXT)
    bad += of_one(lambda it: good | {"signatures": [signature, it]}, signature, "keyid", NO_TEXT)
    bad += [good | {"signatures": [signature, {"keyid": "k"}]}]
    runs = [refused("seal --add", 3, "input", source=json.dumps(it).encode(), key=fresh) for it in bad]
    ours = KEEPER.sign(0, b"DSSEv1 1 t 0 ")
    for more in ({}, {"x": [{}]}):
        taken = good | {"signatures": [{"sig": "AA=="} | more, signature]} | more
        wanted = envelope_of(b"", [("", b"\0"), ("k", b"\0"), (KEEPER.id, ours)])
        runs += [Anew(), Run("seal --add", (0, wanted + b"\n", ""), source=json.dumps(taken).encode(), key=fresh)]
    return History(), *runs


ROWS = (
    roots_of_another_kind,
    rule_files_of_another_kind,
    numbers_and_schemas_of_a_rule_file,
    fields_of_an_envelope,
)
