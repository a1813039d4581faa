"""Rows on the texts of roots and rule files: what is read of them, and the first thing that is wrong."""

import hashlib
import json

from rows_histories import History
from rows_runs import Asked

# Keys, persons and rules of a file, patterns of a rule, keys of a person, bytes of a name and of a pattern, at most.
MOST, MOST_PATTERNS, MOST_OF_A_PERSON, LONGEST_NAME, LONGEST_PATTERN = 1_024, 64, 16, 64, 512
LAST_VERSION, LAST_THRESHOLD = 2**64 - 1, 2**32 - 1


class Key:
    """A public key of these bytes, of which only the length counts here."""

    def __init__(self, public, kind="lms"):
        self.public, self.kind, self.id = public, kind, hashlib.sha256(public).hexdigest()

    def listed(self, **fields):
        return {"keyid": self.id, "keytype": self.kind, "public": self.public.hex()} | fields


A, B, H = Key(bytes(56)), Key(bytes(55) + b"\1"), Key(bytes(60), "hss")
# The ids as another hand has computed them.
assert [key.id[:8] for key in (A, B, H)] == ["d4817aa5", "909b9175", "5dcc1b58"]
OF_ANOTHER_KIND, OF_55_BYTES = A.listed(keytype="rsa"), A.listed(public="00" * 55)
IN_UPPER_CASE, ID_IN_UPPER_CASE = A.listed(public="AA" * 56), A.listed(keyid=A.id.upper())
WITH_ANOTHER_ID = A.listed(keyid=B.id)


def keys(count):
    return [Key(b"%056d" % number) for number in range(count)]


def role(who, threshold=1, field="keyids"):
    return {field: who, "threshold": threshold}


def person(name, *keys):
    return {"name": name, "keyids": [key.id for key in keys]}


def root(keys, root, targets=None, persons=None, **fields):
    head = {"type": "root", "version": 1} | ({} if persons is None else {"schema": 2, "persons": persons})
    return head | fields | {"keys": keys, "roles": {"root": root, "targets": targets or role([A.id])}}


def rules(keys, rules, persons=None, **fields):
    head = {"type": "rules", "name": "targets", "version": 1}
    return head | ({} if persons is None else {"schema": 2, "persons": persons}) | fields | {"keys": keys, "rules": rules}


def rule(name="main", paths=("git:*",), who=(A.id,), threshold=1, field="keyids"):
    return {"name": name, "paths": list(paths), "terminating": True, field: list(who), "threshold": threshold}


def compact(value):
    return json.dumps(value, separators=(",", ":"), ensure_ascii=False).encode()


def asked(word, value, answer):
    """Asks of a text, or of a JSON value, of whose lists the last item of a long one may be repeated."""
    if isinstance(value, bytes):
        return Asked(word, value, answer)
    long = [it[-1] for it in value.values() if isinstance(it, list) and len(it) >= MOST]
    return Asked(word, compact(value), answer, repeated=compact(long[0]) + b"," if long else None)


def counted(named):
    """Persons as an answer tells them, by their names, and keys by their ids: (name, number)."""
    return "".join([f" {len(named)}", *(f" {name}:{number}" for name, number in sorted(named))])


def listed(keys):
    return "".join([f" {len(keys)}", *(f" {key.id}:{len(key.public)}" for key in keys)])


def rows(word, table, make):
    return History(), *(asked(word, make(*args), answer) for *args, answer in table)


def roots_read():
    """Of each listed id one person is made in schema 1, whether the file has its key or not, and repeated ones count
    once; in schema 2 those who are listed and are of the file."""
    first = root([A.listed(), H.listed()], role([A.id, B.id, A.id, H.id], 2))
    named = [person("bob", B, A, B), person("alice", H)]
    second = root(
        [A.listed(), B.listed(), H.listed()],
        role(["bob", "carol", "alice", "bob"], 2, "persons"),
        role(["bob"], 1, "persons"),
        named,
    )
    ids = counted([(key.id, 1) for key in (A, B, H)])
    bob, both = counted([("bob", 2)]), counted([("alice", 1), ("bob", 2)])
    one = counted([(A.id, 1)])
    return (
        History(),
        asked("root", first, f"schema 1 version 1 keys{listed([A, H])} persons 0 root 2 persons{ids} targets 1 persons{one}"),
        asked(
            "root",
            second,
            f"schema 2 version 1 keys{listed([A, B, H])} persons{both} root 2 persons{both} targets 1 persons{bob}",
        ),
    )


def fields_of_a_root():
    """A field is missing or of another kind, and what is no JSON at all."""
    good = f"schema 1 version %s keys{listed([A])} persons 0 " + " ".join(
        f"{it} 1 persons{counted([(A.id, 1)])}" for it in ("root", "targets")
    )
    tail = b',"keys":%s,"roles":%s}' % tuple(
        compact(it) for it in ([A.listed()], {"root": role([A.id]), "targets": role([A.id])})
    )
    table = [
        (b'"type":"root","version":1', good % 1),
        (b'"type":"root","version":%d' % LAST_VERSION, good % LAST_VERSION),
        (b'"type":"root","version":0,"version":1', good % 1),
        (b'"type":"root","version":1,"schema":1,"persons":3', good % 1),
        (b'"x":[{}],"type":"root","version":1', good % 1),
    ]
    versions = (b"0", b"1.0", b"1e3", b"%d" % (LAST_VERSION + 1), b'"1"', b"-1", b"null", b'1,"schema":3', b'1,"schema":0')
    versions += tuple(b'1,"schema":' + it for it in (b'"1"', b"null", b"1.0"))
    table += [(b'"type":"root","version":' + it, "missing-field") for it in versions]
    table += [(b'"type":"root","version":1,"schema":2,"persons":[]', "missing-field")]
    table += [(it, "missing-field") for it in (b'"type":"rules","version":1', b'"version":1', b'"type":"root"')]
    table += [(it, "not-json") for it in (b'"type":"\xff","version":1', b'"type":"root","version":1,"x":1e999', b"1")]
    deep = (b"[" * 126 + b"]" * 126, b"[" * 127 + b"]" * 127)
    table += [(b'"type":"root","version":1,"x":' + deep[0], good % 1), (b'"type":"root","version":1,"x":' + deep[1], "not-json")]
    return History(), asked("root", b"{", "not-json"), *(asked("root", b"{" + it + tail, answer) for it, answer in table)


def without(value, field):
    return {name: it for name, it in value.items() if name != field}


def fields_that_are_missing():
    """Each field of a file, a key, a person, a role and a rule by itself; and listed ids and thresholds that are none."""
    one, alice = root([A.listed()], role([A.id])), role(["alice"], 1, "persons")
    two = root([A.listed()], alice, alice, [person("alice", A)])
    file = rules([A.listed()], [rule()])
    roots = [without(one, it) for it in ("keys", "roles")] + [without(two, "persons")]
    roots += [one | {"keys": [without(A.listed(), it)]} for it in ("keyid", "keytype", "public")]
    roots += [one | {"roles": without(one["roles"], it)} for it in ("root", "targets")]
    roots += [root([A.listed()], role([A.id]), without(role([A.id]), it)) for it in ("keyids", "threshold")]
    roots += [root([A.listed()], alice, without(alice, "persons"), [person("alice", A)])]
    roots += [root([A.listed()], role([A.id, it])) for it in (A.id.upper(), A.id[1:], A.id + "0", "")]
    roots += [root([A.listed()], role([A.id], it)) for it in ("1", 1.0, -1)]
    roots += [two | {"persons": [without(person("alice", A), it)]} for it in ("name", "keyids")]
    files = [without(file, it) for it in ("type", "name", "version", "keys", "rules")] + [file | {"type": "root"}]
    files += [file | {"rules": [without(rule(), it)]} for it in ("name", "paths", "terminating", "keyids", "threshold")]
    return (
        History(),
        *(asked("root", it, "missing-field") for it in roots),
        *(asked("rules", it, "missing-field") for it in files),
    )


def first_fault_of_a_root():
    """The smaller number wins, and the least place."""
    one, none, past = role([A.id]), role([A.id], 0), role([A.id], LAST_THRESHOLD + 1)
    twice, unknown = role([A.id, A.id], 2), role([A.id, B.id], 2)
    table = [
        ([A.listed()], one, past, "missing-field"),
        ([A.listed()], one, role([A.id], LAST_THRESHOLD), "bad-threshold 1"),
        ([ID_IN_UPPER_CASE], one, one, "missing-field"),
        ([OF_ANOTHER_KIND] * (MOST + 1), none, one, f"bad-count {MOST + 1}"),
        ([OF_ANOTHER_KIND] * MOST, none, one, "bad-key 0"),
        ([OF_ANOTHER_KIND], one, one, "bad-key 0"),
        ([OF_55_BYTES], one, one, "bad-key 0"),
        ([A.listed(public="00" * 57)], one, one, "bad-key 0"),
        ([A.listed(keytype="hss")], one, one, "bad-key 0"),
        ([H.listed(keytype="lms")], one, one, "bad-key 0"),
        ([H.listed(public="00" * 59)], one, one, "bad-key 0"),
        ([IN_UPPER_CASE], one, one, "bad-key 0"),
        ([WITH_ANOTHER_ID, OF_55_BYTES], one, one, "bad-key 1"),
        ([WITH_ANOTHER_ID], none, one, "key-id-differs 0"),
        ([A.listed()], none, none, "bad-threshold 0"),
        ([A.listed()], one, none, "bad-threshold 1"),
        ([A.listed()], twice, one, "bad-threshold 0"),
        ([A.listed()], unknown, one, "bad-threshold 0"),
        ([A.listed()] * (MOST + 1), one, one, f"bad-count {MOST + 1}"),
    ]
    who = counted([(A.id, 1)])
    most = f"schema 1 version 1 keys{listed([A] * MOST)} persons 0 root 1 persons{who} targets 1 persons{who}"
    return rows("root", [*table, ([A.listed()] * MOST, one, one, most)], root)


def first_fault_of_persons():
    """Names, keys and repeated keys of persons, in a root."""
    one, two = role(["alice"], 1, "persons"), role(["alice", "carol"], 2, "persons")
    alice, bob = person("alice", A), person("bob", A)
    many = keys(MOST_OF_A_PERSON + 1)
    held = [key.listed() for key in (A, H, *many)]
    good = listed([A, H, *many])

    def read(named):
        persons = counted([("alice", 1)])
        return f"schema 2 version 1 keys{good} persons{counted(named)} root 1 persons{persons} targets 1 persons{persons}"

    longest, longer = "n" * LONGEST_NAME, "n" * (LONGEST_NAME + 1)
    table = [
        (person(".root", H), one, read([("alice", 1), (".root", 1)])),
        (person(longest, H), one, read([("alice", 1), (longest, 1)])),
        (person("n", *many[:MOST_OF_A_PERSON]), one, read([("alice", 1), ("n", MOST_OF_A_PERSON)])),
        ({"keyids": []}, two, "missing-field"),
        (person("a b", A), two, "bad-threshold 0"),
        (person("a b", A), one, "bad-person 1"),
        (person("", H), one, "bad-person 1"),
        (person(longer, H), one, "bad-person 1"),
        (alice, one, "bad-person 1"),
        (person("dave", B), one, "bad-person 1"),
        (person("erin"), one, "bad-person 1"),
        (person("n", *many), one, "bad-person 1"),
        (bob, one, "shared-key 1"),
    ]
    made = [([*held], who, one, [alice, second], answer) for second, who, answer in table]
    made += [([*held], one, one, [person("erin"), alice], "bad-person 0")]
    made += [([*held], two, one, [alice] * (MOST + 1), f"bad-count {MOST + 1}")]
    made += [([*held], one, one, [alice] * MOST, "bad-person 1")]
    return rows("root", made, root)


def rule_files_read():
    """A file with a rule of two patterns, one of persons, and rules with the most patterns and the longest names."""
    held, who = f"keys{listed([A])}", f" persons{counted([(A.id, 1)])}"
    two = rule(paths=("git:refs/heads/main", "file:keys/*"))
    names = [rule("n" * LONGEST_NAME), rule("m", ["file:" + "p" * (LONGEST_PATTERN - 5)]), rule("k", ["git:*"] * MOST_PATTERNS)]
    told = "".join(f" rule {it['name']} patterns {len(it['paths'])} terminating 1{who}" for it in names)
    return (
        History(),
        asked("rules", rules([A.listed()], [two]), f"targets schema 1 version 1 {held} persons 0 rule main patterns 2 terminating 1{who}"),
        asked("rules", rules([A.listed()], names), f"targets schema 1 version 1 {held} persons 0{told}"),
        asked("rules", rules([A.listed()], []), f"targets schema 1 version 1 {held} persons 0"),
    )


def first_fault_of_a_rule_file():
    """Counts, keys, thresholds, patterns and names, in the order of their numbers and places."""
    good, none, named = rule(), rule(threshold=0), rule("root")
    pattern = rule("root", ["git:*", "file:"])
    many = rule(paths=["git:*"] * (MOST_PATTERNS + 1))
    table = [
        ([OF_55_BYTES], [many, {"name": "main"}], "missing-field"),
        ([OF_55_BYTES], [many] + [named] * MOST, f"bad-count {MOST + 1}"),
        ([OF_55_BYTES], [none] + [named] * (MOST - 1), "bad-key 0"),
        ([OF_55_BYTES] * (MOST + 1), [many], f"bad-count {MOST + 1}"),
        ([OF_55_BYTES], [good, many], f"bad-count {MOST_PATTERNS + 1}"),
        ([OF_55_BYTES], [rule(paths=()), many], "bad-count 0"),
        ([OF_55_BYTES], [none, good], "bad-key 0"),
        ([WITH_ANOTHER_ID], [none, good], "key-id-differs 0"),
        ([A.listed()], [pattern, none], "bad-threshold 1"),
        ([A.listed()], [rule(threshold=2)], "bad-threshold 0"),
        ([A.listed()], [named, pattern], "bad-pattern 1 1"),
        ([A.listed()], [named, good], "bad-name 0"),
    ]
    names = (".a", "targets", "", "n" * (LONGEST_NAME + 1), "a b", "a/b", "é")
    table += [([A.listed()], [good, rule(it)], "bad-name 1") for it in names]
    texts = ("git:", "file:", "*", "Git:*", "git:[a]", "file:a\\b", "file:" + "p" * (LONGEST_PATTERN - 4))
    table += [([A.listed()], [rule(paths=[it])], "bad-pattern 0 0") for it in texts]
    return rows("rules", table, rules)


def persons_of_a_rule_file():
    """Persons are judged last, and counted behind the patterns."""
    who = rule("m", who=("alice",), field="persons")
    many = rule("m", ["git:*"] * (MOST_PATTERNS + 1), who=("alice",), field="persons")
    table = [
        ([OF_55_BYTES], [who], [person("alice", A)] * (MOST + 1), f"bad-count {MOST + 1}"),
        ([OF_55_BYTES], [who], [person("alice", A)] * MOST, "bad-key 0"),
        ([OF_55_BYTES], [many], [person("alice", A)] * (MOST + 1), f"bad-count {MOST_PATTERNS + 1}"),
        ([A.listed()], [who], [person("alice", A), person("bob")], "bad-person 1"),
        ([A.listed()], [who], [person("alice", A), person("bob", A)], "shared-key 1"),
        ([A.listed()], [rule("targets", who=("alice",), field="persons")], [person("alice")], "bad-name 0"),
    ]
    return History(), asked("rules", b"{", "not-json"), *(asked("rules", rules(*it), answer) for *it, answer in table)


ROWS = (
    roots_read,
    fields_of_a_root,
    fields_that_are_missing,
    first_fault_of_a_root,
    first_fault_of_persons,
    rule_files_read,
    first_fault_of_a_rule_file,
    persons_of_a_rule_file,
)
