"""What an entry would be before it is signed, and before what was signed goes into Git.

Where others than the key here are asked, gittuf-inspect tells what an entry of this key would be, before a leaf is used. Where
that is not here the program judges an entry without a signature on top of the log, which is looked at and taken away again:
where more than one signature is missing, or the key here is nobody's, no leaf is used. Whatever was signed is judged in the
store, and given to Git only where it is lawful. This is the one place that decides so.
"""

import os
import re

from git_gittuf import asking, epochs, history, inspecting, keys, notes, policies, sentences, settings, signers, skipping
from git_gittuf.names import HEADS, short
from git_gittuf.program import Ended
from git_gittuf.remotes import fetched, of_git
from git_gittuf.repository import ATTESTATIONS, LOG, OWN, ZEROS, Stopped
from git_gittuf.shown import plain, quoted

FAULT = re.compile(r"violation (\S+) (\d+) (\S+)(?: (.*))?")
COUNTS = re.compile(r"(?:(\S+) )?(\S+) (\d+) of (\d+)")
ANYWAY = "--anyway signs it all the same"
# A note is no longer.
MOST = 1 << 16


def root_words(work):
    root = settings.held_to(work.repository)
    return ("--root", root) if root else ()


def verdict(work, name, **how):
    """The program's line on a reference as it stands in the store."""
    words = ("verify-ref", os.fsdecode(name), *root_words(work))
    status, printed = work.read(*words, **how)
    if status not in (0, 1):
        # What nobody judged is not recorded.
        raise Ended(words, status, printed)
    return os.fsdecode(printed).strip()


def entries_of(work):
    return history.entries(work.asked("log")) if LOG in work.kept.references() else []


def unsigned(work, name, value):
    """The number that an entry of this value would have, the verdict with one that nobody signed, and the entries before it."""
    tip, listed = work.kept.references().get(LOG), entries_of(work)
    entry_id, body = epochs.entry(len(listed) + 1, tip, value or ZEROS, name)
    line = verdict(work, name, at=(LOG, entry_id), objects=[(entry_id, b"commit", body)])
    return len(listed) + 1, line, listed


def approvers(work, policy, name, value):
    """The ids of the policy's keys by which this change is approved."""
    repository, last = work.repository, last_counted(work, name) or ZEROS
    tree = tree_at(repository, value) or b""
    text = repository.body(b"blob", b"%s:reference-authorizations/%s/%s-%s" % (ATTESTATIONS, name, last, tree))
    return [] if text is None else signers.of_approval(text, name, last, tree, policy.publics())


def last_counted(work, name):
    """The target of the last entry of a reference that is not skipped, or nothing."""
    return skipping.last_of(work, entries_of(work), name)


def rule_of(policy, name):
    """The rule of the policy with this name, from whichever of its files."""
    files = [policy.files["targets"].says] if "targets" in policy.files else []
    files += [it.says for it in policy.delegated().values()]
    return next((it for says in files for it in says["rules"] if it["name"] == name), None)


def who_is_missing(policy, rule, signed):
    """The persons of the rule of this name, and those of them of whom nothing is signed."""
    found = rule_of(policy, rule) or {}
    persons = found.get("persons") or []
    of_keys = signers.persons_of(policy)
    have = {of_keys.get(key) for key in signed}
    return persons, [it for it in persons if it not in have]


def listing(names):
    return ", ".join(map(plain, names)) or "its keys"


def reason(work, name, value, line, key):
    """Why an entry is refused, in words with the next line to type, from the program's line on it."""
    found = FAULT.fullmatch(line)
    fault, rest = found[3], found[4] or ""
    counts = COUNTS.fullmatch(rest)
    if fault == "no-policy":
        return f"it would be a violation: {sentences.NO_POLICY}"
    if fault not in ("ref-rule", "path-rule") or not counts:
        return f"it would be a violation: {plain(sentences.of_line(line)).removesuffix('.')}"
    path, rule = (it and policies.unescaped(it) for it in counts.group(1, 2))
    signed = [*approvers(work, policies.in_force(work), name, value), key]
    return f"it would be a violation: {of_rule(work, name, value, ([path] if fault == 'path-rule' else [], rule, counts[4]), key, signed)}"


def of_rule(work, name, value, unmet, key, signed):
    """What a rule wants that is not met, given as the paths, name and threshold, and who of those whom it asks is missing."""
    policy, (paths, rule, threshold) = policies.in_force(work), unmet
    wanted, missing = who_is_missing(policy, rule, signed)
    what = f"a change of {first_of(paths)}" if paths else "it"
    said = f"rule {plain(rule)} wants {threshold} of {listing(wanted)} for {what}"
    if key not in policy.publics():
        return f"{said}, and your key is that of none of the policy's persons: one of them records it{first_shown(work.repository, value)}"
    who = ' or '.join(map(plain, missing)) or 'one more'
    return f"{said}; missing is {who}, who approves it by {approval_of(work.repository, name, value)}{first_shown(work.repository, value)}"


def first_of(paths):
    """The first of some paths, and how many there are beside it."""
    more = "" if len(paths) == 1 else " and of another path" if len(paths) == 2 else f" and of {len(paths) - 1} other paths"
    return f"{plain(paths[0])}{more}"


def reasons_for(work, name, value, faults, key, entry):
    """The same from the faults of an entry as gittuf-inspect tells both, of a rule once for all paths at which it is not met."""
    alike = {}
    for it in faults:
        alike.setdefault((it["kind"], str(it.get("rule")), it.get("need")), []).append(it)
    return "; and ".join(reason_for(work, name, value, them, key, entry) for them in alike.values())


def reason_for(work, name, value, alike, key, entry):
    """The same from faults of an entry that are of one rule, or one fault of another kind."""
    fault = alike[0]
    if fault["kind"] in ("ref-rule", "path-rule"):
        rule, *paths = (policies.unescaped(os.fsdecode(inspecting.word_of(it))) for it in (fault["rule"], *(at["path"] for at in alike if "path" in at)))
        return of_rule(work, name, value, (paths, rule, fault["need"]), key, [*entry["signers"], key])
    if fault["kind"] == "no-policy":
        return sentences.NO_POLICY
    line = b"violation %s %d %s" % (name, entry["number"], inspecting.fault_in_words(fault))
    return plain(sentences.of_line(os.fsdecode(line))).removesuffix(".")


def first_shown(repository, value):
    """How others get to see what they are to approve, where no remote has it."""
    found, value = of_git(repository), commit_of(repository, value)
    if value is None or not found or not repository.are_commits([value]) or fetched(repository, repository.references(), [value]):
        return ""
    return f", once git push {quoted(found[0])} {value.decode()}:refs/heads/idea, say, has shown it"


def commit_of(repository, value):
    """The commit of a tag, which others have or can be shown where a rule keeps the tag from them until it is recorded; else the value."""
    (row,) = repository.rows([b"%s^{commit}" % value]) if value else [None]
    return row[0] if row else value


def approval_of(repository, name, value):
    """The line by which somebody approves a change."""
    value = commit_of(repository, value)
    # Who approves may not have it, and a word that is not there is taken for a branch. The front of an id may be the name of a tag there.
    word = quoted(short(name) if name.startswith(HEADS) else os.fsdecode(name))
    return f"git gittuf approve {'--delete ' + word if value is None else f'{word} {value.decode()}'}"


def rules_for(work, what):
    """The rules that a branch or a path reaches, as the program names them."""
    return policies.in_force(work).rules_named(os.fsdecode(work.asked("explain", what)))


def keys_for(work, what):
    """The keys of those whom the rules of a branch or a path ask."""
    return policies.in_force(work).keys_in(rules_for(work, what))


def is_sure(line, number, listed, work, name, key):
    """Whether a line on an entry without a signature holds for each signature by this key too."""
    found = FAULT.fullmatch(line)
    if not found:
        return False
    if int(found[2]) < number:
        entry = next((it[1] for it in listed if it[0] == int(found[2])), None)
        # A recovery takes in only what is skipped.
        return entry not in skipping.skips(work, listed)
    counts = COUNTS.fullmatch(found[4] or "")
    if found[3] not in ("ref-rule", "path-rule") or not counts:
        return True
    what = f"file:{policies.unescaped(counts[1])}" if found[3] == "path-rule" else f"git:{os.fsdecode(name)}"
    return int(counts[4]) - int(counts[3]) > 1 or key not in keys_for(work, what)


def in_violation(name, since, what):
    """That a reference stands in violation since an entry, which what is asked for does not end."""
    return f"{plain(short(name))} stands in violation since entry {since}, and {what} would not end it: git gittuf recover {quoted(short(name))} leads out"


def refuse(work, name, value, line, number, key):
    """Refuses an entry of which the program has this line."""
    since = int(FAULT.fullmatch(line)[2])
    said = in_violation(name, since, "this") if since < number else reason(work, name, value, line, key)
    raise Stopped(f"nothing is recorded, as {said.rstrip('.')}; --anyway records it all the same", 3)


def tree_at(repository, value):
    """The id of the tree of a commit or tag, or zeros for none."""
    (row,) = repository.rows([b"%s^{tree}" % value]) if value else [(ZEROS,)]
    return row and row[0]


def last_refused(work, name):
    """Where it is noted that a reference was refused once it was signed, and what is noted of that over this log."""
    return os.path.join(work.repository.folder, "refused"), b"%s %s" % (work.repository.references().get(LOG, ZEROS), name)


def is_alone_asked(work, listed, name, key):
    """Whether only this key is asked for a change of a reference, who also signed the last one.

    Then a look before it is signed finds what the one behind it finds. That a rule asks others too, or that somebody else
    recorded last, lets it be looked at before, so that no leaf is used in vain; so does that one was used so at this log.
    """
    policy, last = policies.in_force(work), history.last_recorded(listed, name)[0]
    place, refused = last_refused(work, name)
    if not policy.files or name.startswith(OWN) or notes.read(place, MOST) == refused:
        return False
    if last and signers.key_in(work.repository.body(b"commit", last)) != key.encode():
        return False
    others = [it for _, it in policy.rules() if it["threshold"] > 1 or key not in policy.keys_in([it])]
    if any(path.startswith("file:") for it in others for path in it["paths"]):
        return False
    said = asking.rules_soon(work, f"git:{os.fsdecode(name)}") if others else b""
    return not any(it in others for it in policy.rules_named(os.fsdecode(said)))


def expect_told_lawful(work, name, value, key, listed):
    """The same by what gittuf-inspect tells; returns whether it told that."""
    root = settings.held_to(work.repository)
    found = inspecting.would(work, name, value, key, root)
    if found is None:
        return False
    entry, faults = found
    if faults:
        standing = verdict(work, name)
        if is_sure(standing, entry["number"], listed, work, name, key):
            # What is wrong with the branch comes before what would be wrong with this entry.
            refuse(work, name, value, standing, entry["number"], key)
        said = reasons_for(work, name, value, faults, key, entry)
        raise Stopped(f"nothing is recorded, as it would be a violation: {said}; --anyway records it all the same", 3)
    if entry["prior"] is None and not any(rest[0] == name for _, _, kind, rest in listed if kind == b"ref"):
        return True
    standing = FAULT.fullmatch(verdict(work, name))
    if standing:
        told = inspecting.mends(work, name, root)
        if told is None:
            return False
        if told[0] or tree_at(work.repository, value) != told[2]:
            refuse(work, name, value, standing[0], entry["number"], key)
    return True


def recorded_already(work, name, value, listed):
    """The number of the last entry of a lawful reference, where that counts and has it at this value, or nothing."""
    last = next((it for it in reversed(listed) if it[2] == b"ref" and it[3][0] == name), None)
    if last is None or last[3][1] != (value or ZEROS) or last[1] in skipping.skips(work, listed):
        return None
    return last[0] if verdict(work, name).startswith("accepted ") else None


def expect_lawful(work, name, value, key):
    """Refuses what no signature by this key makes lawful, before a leaf of it is used, and asks nobody for what is recorded already."""
    listed = entries_of(work)
    try:
        expect_lawful_after(work, name, value, key, listed)
    except Stopped:
        if number := recorded_already(work, name, value, listed):
            raise Stopped(f"nothing is recorded, as entry {number} has {plain(short(name))} where it stands already", 3) from None
        raise


def expect_lawful_after(work, name, value, key, listed):
    """The same after these entries, whatever was recorded already."""
    if is_alone_asked(work, listed, name, key) or expect_told_lawful(work, name, value, key, listed):
        return
    number, line, listed = unsigned(work, name, value)
    if is_sure(line, number, listed, work, name, key):
        refuse(work, name, value, line, number, key)


def expect_accepted(work, name, value, number, key):
    """Refuses an entry that was signed in the store, before Git has it."""
    line = verdict(work, name)
    if line.startswith("violation "):
        notes.write(*last_refused(work, name))
        refuse(work, name, value, line, number, key)


def expect_person(work, key, what):
    """Refuses to sign what counts only by a person of the policy with a key that is nobody's."""
    policy = policies.in_force(work)
    if policy.files and key not in policy.publics():
        raise Stopped(f"your key is that of none of the policy's persons, so {what} counts for nothing; {ANYWAY}", 3)


def key_id(path):
    return keys.id_and_public(path)[0]
