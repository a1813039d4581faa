"""Policies of persons that are drawn, and their files."""

from functools import lru_cache

from rows_policies import encoded, envelope, listed_keys, people_of, text_of
from rows_signing import LEAVES, Key, TwoLevels, sha256
from slow_policies import Guard, Policy, Role, Root, Rule, RuleFile, Signed

CAST = (
    ("alice", (Key("alice"), Key("alice, another"))),
    ("bob", (Key("bob"),)),
    ("carol", (TwoLevels("carol"),)),
    ("dave", (Key("dave"),)),
)
STRANGER = Key("stranger")
REFERENCES = ("git:refs/heads/main", "git:refs/heads/main", "git:refs/heads/*", "git:refs/heads/mai?", "git:refs/tags/*", "git:refs/*")
PATHS = ("file:src/*", "file:src/x", "file:docs/?", "file:*", "file:*/z")
# The names of rules in files, of which each file may have its own below it.
TOP, BELOW, LAST = ("main", "team", "files"), ("inner", "inmost"), ("deep",)


def subset(draw, values):
    """Some of the values, one at least."""
    found = tuple(it for it in values if draw.below(2))
    return found or (draw.of(*values),)


def drawn_people(draw):
    """Some of the cast, each with some keys. Of schema 1, in which each key is a person by its id, is one of four."""
    found = tuple((name, subset(draw, keys)) for name, keys in subset(draw, CAST))
    return found if draw.below(4) else tuple((key.id, (key,)) for _, keys in found for key in keys)


def drawn_role(draw, people):
    persons = subset(draw, tuple(name for name, _ in people))
    return Role(persons, draw.of(1, 1, len(persons)))


def drawn_file(draw, names, version):
    people = drawn_people(draw)
    rules = []
    for name in subset(draw, names):
        patterns = subset(draw, (draw.of(*REFERENCES), draw.of(*PATHS)))
        rules.append(Rule(name, patterns, drawn_role(draw, people), draw.below(4) == 0))
    return RuleFile(version, people, tuple(rules))


def signed(draw, said, *asked):
    """What is signed by a key of each person of these roles, and now and then by fewer or by a stranger too."""
    keys = [draw.of(*held) for people, role in asked for name, held in people if name in role.persons]
    keys = list(dict.fromkeys(keys))
    if draw.below(10) == 0:
        keys = keys[1:]
    return Signed(said, tuple(keys) if keys else (STRANGER,))


def with_files(draw, root, versions, old):
    """The rule files of a policy: some of the old ones, and others with versions that mostly rise."""
    kept, found, names = dict(old.files if old else ()), {}, {"targets": TOP, "team": BELOW, "inner": LAST}
    holders = {"targets": (root.people, root.targets)}
    for name, below in names.items():
        if name in kept and draw.below(2):
            found[name] = kept[name]
        elif name in holders and (name == "targets" or draw.below(2)):
            version = versions.get(name, 0) + draw.of(1, 1, 1, 2, 0)
            said = drawn_file(draw, below, max(1, version))
            found[name] = signed(draw, said, holders[name])
        if name in found:
            said = found[name].said
            holders |= {rule.name: (said.people, rule.who) for rule in said.rules}
    if draw.below(24) == 0:
        found.pop("targets", None)
    return tuple(sorted(found.items(), key=lambda it: (it[0] != "targets", it[0])))


def drawn_guards(draw, root):
    rules = (
        Guard("two", draw.of(1, 2), subset(draw, (draw.of(*REFERENCES), draw.of(*PATHS)))),
        Guard("keep", None, subset(draw, REFERENCES[2:5])),
    )
    return signed(draw, subset(draw, rules), (root.people, root.root))


def drawn_policy(draw, old):
    """A policy that may mostly follow the old one."""
    if old and draw.below(3):
        root = old.root
    else:
        people = drawn_people(draw)
        version = (old.root.said.version if old else 0) + draw.of(1, 1, 1, 1, 2)
        said = Root(version, people, drawn_role(draw, people), drawn_role(draw, people))
        before = [(old.root.said.people, old.root.said.root)] if old else []
        root = signed(draw, said, (people, said.root), *before)
    versions = {name: file.said.version for name, file in old.files} if old else {}
    guards = old.guards if old and draw.below(2) else drawn_guards(draw, root.said) if draw.below(2) else None
    return Policy(root, with_files(draw, root.said, versions, old), guards)


# ---- the files of a policy


def is_plain(people):
    return all(name == keys[0].id for name, keys in people)


def schema_of(people):
    keys = [key for _, held in people for key in held]
    return {"keys": listed_keys(keys)} | ({} if is_plain(people) else {"schema": 2, "persons": people_of(dict(people))})


def role_fields(people, role):
    return {"keyids" if is_plain(people) else "persons": list(role.persons), "threshold": role.threshold}


def root_text(root):
    roles = {"root": role_fields(root.people, root.root), "targets": role_fields(root.people, root.targets)}
    return text_of({"type": "root", "version": root.version, "roles": roles} | schema_of(root.people))


def rule_text(people, rule):
    return {"name": rule.name, "paths": list(rule.patterns), "terminating": rule.terminating} | role_fields(people, rule.who)


def file_text(name, file):
    rules = [rule_text(file.people, rule) for rule in file.rules]
    return text_of({"type": "rules", "name": name, "version": file.version, "rules": rules} | schema_of(file.people))


def guard_fields(guard):
    kind = {"kind": "no-rewind"} if guard.least is None else {"kind": "threshold", "threshold": guard.least}
    return {"name": guard.name, "paths": list(guard.patterns)} | kind


@lru_cache(maxsize=65536)
def sealed(payload, signers):
    """The envelope of a payload. Which leaf signs is drawn by the payload."""
    message, leaf = encoded(payload), sha256(payload)[0] % LEAVES
    return envelope(payload, [(key.id, key.sign(leaf, message)) for key in signers])


def files_of(policy):
    found = {b"metadata/root.json": sealed(root_text(policy.root.said), policy.root.signers)}
    for name, file in policy.files:
        found[b"metadata/%s.json" % name.encode()] = sealed(file_text(name, file.said), file.signers)
    if policy.guards:
        rules = text_of({"type": "global", "rules": [guard_fields(it) for it in policy.guards.said]})
        found[b"global/rules.json"] = sealed(rules, policy.guards.signers)
    return found
