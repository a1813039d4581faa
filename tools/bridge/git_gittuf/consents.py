"""What an approval or a skip would count for, looked at before a leaf is used.

An approval is a signature for an entry that somebody else records. So gittuf-inspect tells what that entry would be by the
approvals alone, with each rule that is not met; where it is not here the program judges it without a signature on top of
the log, and says which rule wants one first. Who may skip an entry gittuf-inspect tells; where that is not here, they are
those whom the rules of its reference ask, as the program names these rules.
"""

import os

from git_gittuf import inspecting, looking, policies, settings, skipping
from git_gittuf.looking import ANYWAY, COUNTS, FAULT
from git_gittuf.names import short
from git_gittuf.repository import ZEROS, Stopped
from git_gittuf.shown import plain, quoted
from git_gittuf.telling import tell


# A key that no policy knows.
NOBODY = "0" * 64


def refuse(what, said):
    raise Stopped(f"nothing is {what}, as {said}; {ANYWAY}", 3)


def asked_by_paths(policy):
    """The rules of a policy that speak of paths."""
    return [it for _, it in policy.rules() if any(path.startswith("file:") for path in it["paths"])]


def leads_back(work, name, value):
    """Whether a change leads to the files of the last entry that counts, as each recovery does, or to nothing where there is none."""
    last = looking.last_counted(work, name) or ZEROS
    if value is None or last == ZEROS:
        return (value or ZEROS) == last
    first, second = (work.repository.git("rev-parse", "--verify", "--quiet", f"{it.decode()}^{{tree}}")[1] for it in (last, value))
    return first == second


def expect_wanted(work, name, value, key):
    """Refuses an approval that no entry of this value can count, and tells who is missing still where it counts."""
    looking.expect_person(work, key, "an approval by it")
    if expect_told_wanted(work, name, value, key):
        return
    number, line, listed = looking.unsigned(work, name, value)
    found = FAULT.fullmatch(line)
    if not found:
        refuse_unwanted(name, value)
    if int(found[2]) < number:
        expect_recovery(work, name, value, key, (number, line, listed))
        return
    counts = COUNTS.fullmatch(found[4] or "")
    if found[3] not in ("ref-rule", "path-rule") or not counts:
        refuse("approved", looking.reason(work, name, value, line, key))
    policy = policies.in_force(work)
    unmet = policies.unescaped(counts[2]), counts[4], asked_by_paths(policy)
    expect_counts(work, name, value, key, unmet, looking.approvers(work, policy, name, value))


def refuse_unwanted(name, value):
    shown = plain(short(name))
    refuse("approved", f"no rule wants a signature for that {shown} {'goes' if value is None else 'goes there'}: git gittuf record {quoted(short(name))}")


def expect_told_wanted(work, name, value, key):
    """The same by what gittuf-inspect tells of an entry that nobody signs; returns whether it told that."""
    told, listed = inspecting.would(work, name, value, NOBODY, settings.held_to(work.repository)), looking.entries_of(work)
    if told is None or told[0]["number"] != len(listed) + 1:
        return False
    entry, faults = told
    standing = looking.verdict(work, name) if any(rest[0] == name for _, _, kind, rest in listed if kind == b"ref") else ""
    if FAULT.fullmatch(standing):
        expect_recovery(work, name, value, key, (entry["number"], standing, listed))
        return True
    if not faults:
        refuse_unwanted(name, value)
    first = faults[0]
    if first["kind"] not in ("ref-rule", "path-rule"):
        refuse("approved", f"it would be a violation: {looking.reason_for(work, name, value, [first], key, entry)}")
    # Where each changed path is met, no rule for paths wants one.
    of_paths = asked_by_paths(policies.in_force(work)) if any(it["kind"] == "path-rule" for it in faults) else []
    rule = policies.unescaped(os.fsdecode(inspecting.word_of(first["rule"])))
    expect_counts(work, name, value, key, (rule, first["need"], of_paths), entry["signers"])
    return True


def expect_recovery(work, name, value, key, looked):
    """Refuses to approve what would not end a violation, given with the number of the entry and the log before it."""
    number, line, listed = looked
    if looking.is_sure(line, number, listed, work, name, key) or not leads_back(work, name, value):
        refuse("approved", looking.in_violation(name, int(FAULT.fullmatch(line)[2]), "what this approves"))
    # It is a recovery, of which the program tells no rule.
    expect_asked(work, name, key, f"the rules for {plain(short(name))}", asked_by_paths(policies.in_force(work)))


def expect_asked(work, name, key, which, of_paths):
    """Refuses an approval by somebody whom no rule for a reference asks, nor one of these for paths."""
    rules = [*looking.rules_for(work, f"git:{os.fsdecode(name)}"), *of_paths]
    if rules and key not in policies.in_force(work).keys_in(rules):
        asked = dict.fromkeys(person for it in rules for person in it.get("persons", []))
        refuse("approved", f"{which} and for paths ask {looking.listing(asked)}, and not you")


def expect_counts(work, name, value, key, unmet, given):
    """Refuses an approval by somebody whom no rule asks, or who gave it already, of a rule that is not met, its threshold and those for paths."""
    policy, (name_of_rule, threshold, of_paths) = policies.in_force(work), unmet
    persons, _ = looking.who_is_missing(policy, name_of_rule, [])
    rule = f"rule {plain(name_of_rule)} wants {threshold} of {looking.listing(persons)}"
    expect_asked(work, name, key, f"{rule}, and the rules for {plain(short(name))}", of_paths)
    if key in given:
        _, missing = looking.who_is_missing(policy, name_of_rule, given)
        refuse("approved", f"you approved it already: {rule}, and missing is {' or '.join(map(plain, missing)) or 'nobody'}")
    _, missing = looking.who_is_missing(policy, name_of_rule, [*given, key])
    have = len(persons) - len(missing)
    # Who records it signs too.
    if persons and int(threshold) - have > 1:
        tell(f"{rule}: with you {have} signed, and missing is {' or '.join(map(plain, missing))}: {looking.approval_of(work.repository, name, value)}")


def expect_skips(work, ids, key):
    """Refuses to skip entries of which none, or not each, would be skipped by this key."""
    looking.expect_person(work, key, "a skip by it")
    listed = looking.entries_of(work)
    gone, policy = skipping.skips(work, listed), policies.in_force(work)
    told = inspecting.skips(work, ids, key, settings.held_to(work.repository))
    for number, entry_id, kind, rest in listed:
        if entry_id.decode() not in ids:
            continue
        if kind != b"ref":
            refuse("skipped", f"entry {number} is a {plain(os.fsdecode(kind))}, and a skip counts for what entries recorded alone")
        if entry_id in gone:
            refuse("skipped", f"entry {number} is skipped already")
        rules = looking.rules_for(work, f"git:{os.fsdecode(rest[0])}")
        counts = not rules or key in policy.keys_in(rules) if told is None else told[entry_id.decode()]
        if not counts:
            asked = sorted({name for it in rules for name in it.get("persons", [])})
            said = f"entry {number} is of {plain(short(rest[0]))}, which {looking.listing(asked)} may change, and not you"
            refuse("skipped", f"{said}: git gittuf recover {quoted(short(rest[0]))} by one of them")
