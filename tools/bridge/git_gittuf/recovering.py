"""The way out of a violation: what is to be skipped, which files are wanted, and the entry that completes it."""

import os

from git_gittuf import commands, consents, history, inspecting, leaves, looking, names, policies, settings, signers, skipping, withheld
from git_gittuf.remotes import beside, of_git
from git_gittuf.repository import LOG, POLICY, ZEROS, Stopped
from git_gittuf.shown import plain, quoted
from git_gittuf.telling import show, tell

# An annotation names so many entries at most.
MOST = 256


def violation_of(work, name):
    """The number at which a reference stands in violation, or nothing, with the program's line."""
    line = looking.verdict(work, name)
    found = looking.FAULT.fullmatch(line)
    return (int(found[2]), found[3], line) if found else (None, None, line)


def of_name(entries, name):
    return [(number, it, rest[1]) for number, it, kind, rest in entries if kind == b"ref" and rest[0] == name]


def plan(work, name, number):
    """The entries that are still to be skipped, and the target whose files are wanted, or zeros for none."""
    entries = history.entries(work.asked("log"))
    gone, own = skipping.skips(work, entries), of_name(entries, name)
    told = inspecting.mends(work, name, settings.held_to(work.repository))
    if told and set(told[0]) <= {at for at, *_ in own}:
        skip, start, tree = told
        if tree is None:
            said = f"what {plain(names.short(name))} had before entry {number} is not here whole, and no recovery leads back to it"
            raise Stopped(f"{said}: git fetch may bring it", 3)
        return [it for at, it, _ in own if at in skip], start or ZEROS
    before = [target for at, it, target in own if at < number and it not in gone]
    to_skip = [it for at, it, _ in own if at >= number and it not in gone]
    return to_skip, before[-1] if before else ZEROS


def way_to(work, name, wanted):
    """The line that brings a branch to the files that are wanted, or nothing where it has them."""
    repository, word = work.repository, quoted(names.short(name))
    value = repository.references().get(name)
    again = f"git gittuf recover {word}"
    if wanted == ZEROS:
        if value is None:
            return None
        return f"before it there was none, so it is to go: git update-ref -d {quoted(os.fsdecode(name))} && {again}"
    if not repository.there([wanted]):
        raise Stopped(f"the files of {wanted.decode()} are wanted, and are not here: git fetch, or ask who has them", 3)
    if value is not None and looking.tree_at(repository, value) == looking.tree_at(repository, wanted):
        return None
    restore = f"git restore --source={wanted.decode()} --staged --worktree :/ && git commit -m 'Take back'"
    if repository.head() != name:
        restore = f"git switch {word} && {restore}"
    if not name.startswith(b"refs/heads/") or value is None or names.short(name).startswith("refs/"):
        restore = f"git update-ref {quoted(os.fsdecode(name))} {wanted.decode()}"
    return f"the files of {wanted.decode()[:12]} are wanted: {restore} && {again}"


def first_pushed(repository):
    """How others get the skips that an approval of a recovery goes on from, where no remote has them."""
    found, references = of_git(repository), repository.references()
    if not found or any(references.get(beside(it, LOG)) == references.get(LOG) for it in found):
        return ""
    return f", once git push {quoted(found[0])} 'refs/gittuf/*:refs/gittuf/*' has brought the skip there"


def who_lacks(work, name, wanted, key):
    """Which rule a recovery by this key does not meet, and who approves it by which line; or nothing where it meets one.

    The program says only whether the violation has ended. This is a hint beside that, and nothing is decided by it.
    """
    policy, value = policies.in_force(work), None if wanted == ZEROS else wanted
    of_keys, said = signers.persons_of(policy), ""
    signed = {of_keys.get(it) for it in (*looking.approvers(work, policy, name, value), key)}
    for rule in looking.rules_for(work, f"git:{os.fsdecode(name)}"):
        persons = rule.get("persons") or []
        missing = [it for it in persons if it not in signed]
        if len(persons) - len(missing) >= rule["threshold"]:
            return ""
        if missing and not said:
            wants = f"rule {plain(rule['name'])} wants {rule['threshold']} of {looking.listing(persons)} for the recovery of {plain(names.short(name))}"
            way = f"{looking.approval_of(work.repository, name, value)}{first_pushed(work.repository)}"
            said = f"{wants}; missing is {' or '.join(map(plain, missing))}, who approves it by {way}"
    return said


def recover(work, words):
    withheld.bring(work)
    repository = work.repository
    name = names.own_name(repository, words.branch, lambda: history.recorded_names(work))
    shown = plain(names.short(name))
    if name not in repository.references() and name not in history.recorded_names(work):
        raise names.no_such(repository, words.branch, history.recorded_names(work))
    if name != POLICY and not words.anyway:
        withheld.expect_here(work)
    number, fault, line = violation_of(work, name)
    if number is None:
        way = f": git gittuf verify {quoted(names.short(name))} says what leads on" if line.startswith("tip-differs ") else ""
        raise Stopped(f"nothing is to be recovered of {shown}: {plain(line) or 'no verdict is to be had'}{way}", 3)
    if fault == "no-policy":
        raise Stopped(f"entry {number} was recorded before a policy was in force, and no recovery takes that in", 3)
    path = leaves.signing_key(repository)
    if not words.anyway:
        looking.expect_person(work, looking.key_id(path), "a recovery by it")
    to_skip, wanted = plan(work, name, number)
    if to_skip and not words.anyway:
        consents.expect_skips(work, [it.decode() for it in to_skip], looking.key_id(path))
    if to_skip:
        numbers = {it[1]: str(it[0]) for it in history.entries(work.asked("log"))}
        tell(f"{shown} stands in violation since entry {number}, and these entries of it are skipped: {', '.join(numbers[it] for it in to_skip)}")
    for at in range(0, len(to_skip), MOST):
        ids = b",".join(to_skip[at : at + MOST]).decode()
        show(work.change(lambda ids=ids: work.asked("annotate", "skip", ids, key=path)))
    way, lacking = way_to(work, name, wanted), who_lacks(work, name, wanted, looking.key_id(path))
    if way:
        if lacking:
            tell(lacking)
        tell(f"{shown} is to be recovered from entry {number} on; {way}")
        return 1
    try:
        show(commands.recorded_by(work, name, repository.references().get(name), path, words.anyway))
    except Stopped as why:
        if lacking and str(why).startswith("nothing is recorded, as "):
            raise Stopped(f"nothing is recorded, as {lacking}; --anyway records it all the same", 3) from None
        raise
    show(f"{looking.verdict(work, name)}\n".encode())
    return 0
