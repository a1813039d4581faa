"""Policies of persons, worked out the slow way: which is valid and may follow another, which rules a name reaches, who is enough."""

from functools import lru_cache
from typing import NamedTuple, Optional, Tuple

from rows_signing import Key

People = Tuple[Tuple[str, Tuple[Key, ...]], ...]


class Role(NamedTuple):
    """So many of these persons must sign."""

    persons: Tuple[str, ...]
    threshold: int


class Root(NamedTuple):
    version: int
    people: People
    root: Role
    targets: Role


class Rule(NamedTuple):
    name: str
    patterns: Tuple[str, ...]
    who: Role
    terminating: bool


class RuleFile(NamedTuple):
    version: int
    people: People
    rules: Tuple[Rule, ...]


class Guard(NamedTuple):
    """A global rule: so many persons, or none for one against going back."""

    name: str
    least: Optional[int]
    patterns: Tuple[str, ...]


class Signed(NamedTuple):
    """A root, a rule file or global rules, and the keys that signed it."""

    said: object
    signers: Tuple[Key, ...]


class Policy(NamedTuple):
    """Its rule files stand by name, the top file's first and the others in their order; guards are the file of global rules."""

    root: Signed
    files: Tuple[Tuple[str, Signed], ...]
    guards: Optional[Signed]

    def file(self, name):
        return dict(self.files).get(name)


def keys_of(people):
    return {key for _, keys in people for key in keys}


def count(people, role, signers):
    """How many persons of a role have a key among the signers."""
    return sum(1 for name, keys in people if name in role.persons and any(key in signers for key in keys))


def too_few(people, role, signers):
    """How many signed of how many who must, or None where these are enough. Keys of other files do not count."""
    got = count(people, role, keys_of(people) & set(signers))
    return None if got >= role.threshold else f"{got} of {role.threshold}"


def policy_keys(policy):
    """The keys by which entries, approvals and annotations count."""
    return keys_of(policy.root.said.people).union(*(keys_of(file.said.people) for _, file in policy.files))


# ---- what is valid


def chains(policy, name="targets"):
    """Each chain of rules, as their files' names and the rules, in pre-order."""
    file = policy.file(name)
    for rule in file.said.rules if file else ():
        yield ((name, rule),)
        for rest in chains(policy, rule.name):
            yield ((name, rule), *rest)


def holder(policy, name):
    """The file that has the rule of a file's name, and that rule; None for the top file."""
    return next(((file, rule) for file, signed in policy.files for rule in signed.said.rules if rule.name == name), None)


def invalid(policy):
    """Why a policy is none, or None."""
    root = policy.root.said
    short = too_few(root.people, root.root, policy.root.signers)
    if short:
        return f"root-threshold {short}"
    names = [rule.name for _, file in policy.files for rule in file.said.rules]
    twice = [name for at, name in enumerate(names) if name in names[:at]]
    if twice:
        return f"duplicate-name {twice[0]}"
    reached = {"targets", *(chain[-1][1].name for chain in chains(policy))}
    away = [name for name, _ in policy.files if name not in reached]
    if away:
        return f"unreachable {away[0]}"
    for name, file in policy.files:
        if name == "targets":
            short = too_few(root.people, root.targets, file.signers)
        else:
            above, rule = holder(policy, name)
            short = too_few(policy.file(above).said.people, rule.who, file.signers)
        if short:
            return f"file-threshold {name} {short}"
    return None


def unanchored(policy, anchor):
    """Whether the persons of the root role have not exactly the keys of these ids."""
    root = policy.root.said
    held = {key.id for name, keys in root.people if name in root.root.persons for key in keys}
    return anchor is not None and held != set(anchor)


def may_go(old, new, name):
    """Whether a file may go: what held its rule has a higher version or goes too, and for the top file the root has one."""
    held = holder(old, name)
    if name == "targets" or held is None:
        return new.root.said.version > old.root.said.version
    above = new.file(held[0])
    return above is None or above.said.version > old.file(held[0]).said.version


def no_successor(old, new):
    """Why a policy may not follow another, or None."""
    before, after = old.root.said, new.root.said
    if before != after:
        if after.version != before.version + 1:
            return f"root-version {before.version} {after.version}"
        short = too_few(before.people, before.root, new.root.signers)
        if short:
            return f"root-succession {short}"
    for name, file in old.files:
        other = new.file(name)
        if other and other.said != file.said and other.said.version <= file.said.version:
            return f"file-version {name}"
    gone = [name for name, _ in old.files if new.file(name) is None and not may_go(old, new, name)]
    return f"file-dropped {gone[0]}" if gone else None


# ---- whom a name needs


@lru_cache(maxsize=4096)
def is_match(pattern, name):
    """Whether a pattern matches a name, both with their space before a colon."""
    if not pattern:
        return not name
    if pattern[0] == "*":
        return any(is_match(pattern[1:], name[at:]) for at in range(len(name) + 1))
    return bool(name) and pattern[0] in ("?", name[0]) and is_match(pattern[1:], name[1:])


def speaks_of(patterns, name):
    """Whether one of the patterns matches. No star reaches into the space."""
    space = name[: name.index(":") + 1]
    return any(it.startswith(space) and is_match(it[len(space) :], name[len(space) :]) for it in patterns)


def reached(policy, name):
    """The chains that a name reaches: all rules match, and no chain before it that it does not go on ended the search."""
    matching = [chain for chain in chains(policy) if all(speaks_of(rule.patterns, name) for _, rule in chain)]

    def is_stopped(at):
        return any(chain[-1][1].terminating and matching[at][: len(chain)] != chain for chain in matching[:at])

    return [chain for at, chain in enumerate(matching) if not is_stopped(at)]


def counts(policy, name, signers):
    """Of each chain that a name reaches the last rule, and how many of its persons are among the signers."""
    for chain in reached(policy, name):
        file, rule = chain[-1]
        yield rule, count(policy.file(file).said.people, rule.who, signers)


def unmet(policy, name, signers):
    """The rule that is told where a name is not met, or None."""
    found = list(counts(policy, name, signers))
    if not found or any(got >= rule.who.threshold for rule, got in found):
        return None
    rule, got = found[0]
    return f"{rule.name} {got} of {rule.who.threshold}"


def may_act(policy, name, key):
    """Whether a key of the policy may skip entries of a name."""
    found = list(counts(policy, name, {key}))
    return not found or any(got for _, got in found)


def most_signed(policy, name, signers):
    """The most persons that signed of one rule that a name reaches."""
    return max((got for _, got in counts(policy, name, signers)), default=0)
