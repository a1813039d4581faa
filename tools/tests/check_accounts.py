"""The checks of tools/test on what gittuf-inspect tells of logs that were drawn: held to a slow reading of the same logs, and
what it says mends them is done."""

import json
import os

from check_inspecting import told
from checking import INSPECT, ZEROS, Skip, run, want
from rows_histories import KEEPER, MAIN, MAINTAINER, NEWCOMER, OWNER, POLICY, REVIEWER, History, top_file
from rows_objects import AUTHOR
from rows_policies import root_of_people, rule
from slow_logs import LOST, Move, Note
from slow_verdicts import KEYS, ROOT_KEYS, TwoPersons


def drawn():
    """The rows on drawn logs, which are made when they are first asked for."""
    import rows_of_drawn_logs

    return rows_of_drawn_logs


def history_of(log, kept):
    """The history of a log, whose policies are sealed for it alone, and the ids of its targets."""
    return drawn().history_of(log, kept, drawn().sealed_in([(log, kept)]))


def folder_of(repositories, name, repository):
    """A kept folder with what a repository has."""
    if not os.path.exists(INSPECT):
        raise Skip("gittuf-inspect is not built here")
    place = repositories.path(name)
    os.makedirs(os.path.join(place, "objects"))
    for id, (kind, body) in repository.objects.items():
        with open(os.path.join(place, "objects", id), "wb") as file:
            file.write(b"%s %d\0%s" % (kind, len(body), body))
    for ref, id in repository.references.items():
        path = os.path.join(place, *ref.split("/"))
        os.makedirs(os.path.dirname(path), exist_ok=True)
        with open(path, "w", encoding="ascii") as file:
            file.write(f"{id}\n")
    return f"{place}/"


def fault_fields(text):
    """A fault as an object, by its words in a verdict's line."""
    word, _, rest = text.partition(" ")
    if word == "broken":
        return {"kind": word, "id": rest}
    if word == "ref-rule":
        rule, got, _, need = rest.split()
        return {"kind": word, "rule": rule, "got": int(got), "need": int(need)}
    return {"kind": word, "why": rest} if word == "not-epoch" else {"kind": word}


def first(numbers):
    return next(iter(numbers), None)


def epoch_at(log, number):
    """The number of the last entry below a number whose policy came into force."""
    return max((at for at in log.numbers_of(POLICY, number) if log.not_epoch(at) is None), default=None)


def said_by(policy):
    """What a drawn policy says in words. Of schema 1, it knows no persons, and names who is asked by the ids of keys."""
    own, key = drawn().ROOT_KEYS[policy.holder].id, KEYS[policy.holder].id
    return {
        "keys": [own, *(it.id for it in KEYS)],
        "persons": [],
        "rules": [f"role root by {own}", f"role targets by {own}", f"rule heads git:refs/heads/* by {key} open"],
        "thresholds": ["role root 1", "role targets 1", "rule heads 1"],
    }


def changed_by(was, now):
    """What changed from what one policy says to what another does."""
    return {it: {"added": [at for at in now[it] if at not in was[it]], "removed": [at for at in was[it] if at not in now[it]]} for it in was}


def changed_at(log, number):
    """The field of what the policy that an entry brings into force changes of the one before it, where there was one."""
    entry = log[number - 1]
    before = log.policy_at(number) if entry.name == POLICY and log.not_epoch(number) is None else None
    return {"changed": changed_by(said_by(before), said_by(entry.target))} if before else {}


def signer_at(log, number):
    """The id of the key that signed an entry, where the policy in force at it has that key."""
    policy, signer = log.policy_at(number), log[number - 1].signer
    return signer.id if policy and signer in (*KEYS, ROOT_KEYS[policy.holder]) else None


def told_of(log, number, history, ids):
    """What is to be told of an entry. No drawn policy knows persons, and nobody approves."""
    entry, own = log[number - 1], {"number": number, "id": history.ids[number - 1], "epoch": epoch_at(log, number)}
    signer = signer_at(log, number)
    own |= {"author": AUTHOR.decode(), "time": 0, "persons": [], "key": entry.signer and entry.signer.id, "signed": signer is not None}
    if isinstance(entry, Note):
        listed = [history.ids[at - 1] if at else drawn().NOWHERE for at in entry.listed]
        return {**own, "kind": "skip" if entry.skip else "note", "entries": listed, "message": "", "verdict": "noted"}
    why, before = log.fault(number), log.prior(entry.name, number)
    later = range(number + 1, len(log) + 1)
    skips = (at for at in later if isinstance(log[at - 1], Note) and log[at - 1].skip and number in log[at - 1].listed)
    moves = (at for at in log.numbers_of(entry.name, len(log) + 1) if at > number)
    rescues = (at for at in moves if not log.fault(at) and log.is_back(at) and number in log.left_behind(at))
    return {
        **own,
        **{"kind": "reference", "reference": entry.name, "target": ids[entry.target]},
        **{"prior": before or None, "from": ids[log[before - 1].target] if before else None},
        **{"verdict": "refused" if why else "authorised", "fault": fault_fields(why) if why else None},
        "signers": [signer] if signer and entry.name != POLICY else [],
        "skipped": first(at for at in skips if log.may_skip(at, entry.name)),
        "rescued": first(rescues) if why else None,
        **changed_at(log, number),
    }


def hold_entries(repositories, place, log, kept):
    """Holds what gittuf-inspect log tells of a log, and verdicts of its references, to the slow reading."""
    history, ids = history_of(log, kept)
    folder = folder_of(repositories, f"drawn {place}", history.repository)
    status, found = told(folder, word="log")
    wanted = [told_of(log, number, history, ids) for number in range(1, len(log) + 1)]
    found = [{it: line[it] for it in {*entry, *({"changed"} & set(line))}} for line, entry in zip(found, wanted)]
    want((status, found), (0, wanted), f"drawn log {place}")
    status, found = told(folder, *kept)
    wanted = [verdict_of(log, name, kept[name], history, ids) for name in kept]
    want((status, found), (int(any(it["verdict"] != "accepted" for it in wanted)), wanted), f"the verdicts of drawn log {place}")


def verdict_of(log, name, target, history, ids):
    """What is to be told of a reference that is kept at a target. The rule of each policy protects all branches."""
    word, *rest = log.verdict(name, target)
    if word == "violation":
        return {"verdict": word, "reference": name, "number": rest[0], "fault": fault_fields(rest[1]), "mends": mend_of(log, name, history, ids)[1]}
    spoken = bool(log.numbers_of(name, len(log) + 1))
    unrecorded = not spoken and name != POLICY and log.policy_at(len(log) + 1) is not None
    own = {"verdict": word, "reference": name, **({"unrecorded": True} if unrecorded else {})}
    if word == "tip-differs":
        return {**own, "kept": ids[rest[0]], "recorded": ids[rest[1]]}
    return {**own, "entries": rest[0]}


def tells_drawn_logs(repositories):
    """gittuf-inspect log and verdicts tell of each entry and each reference of drawn logs what a slow reading finds of it"""
    for place, (log, kept) in enumerate(drawn().LOGS):
        hold_entries(repositories, place, log, kept)
    return f"{sum(len(log) for log, _ in drawn().LOGS)} entries"


def is_seen(entries, number):
    """What stands before a number, of what is told of all entries: a violation that one from it on rescues, one that none does,
    an entry that one from it on skips, and policies that came into force before it and from it on."""
    early, late = entries[: number - 1], entries[number - 1 :]
    refused = [it["rescued"] for it in early if it["verdict"] == "refused"]
    opened = [any(it.get("reference") == POLICY and it["verdict"] == "authorised" for it in part) for part in (early, late)]
    return (
        any(it and it >= number for it in refused),
        None in refused and bool(late),
        any(it.get("skipped") and it["skipped"] >= number for it in early),
        all(opened),
    )


def tells_from_numbers(repositories):
    """gittuf-inspect log --from tells of each entry from a number on what it tells of it without, whatever stands before it"""
    seen, runs = [], 0
    for place, (log, kept) in enumerate(drawn().LOGS):
        folder = folder_of(repositories, f"drawn from {place}", history_of(log, kept)[0].repository)
        lines = run(INSPECT, folder, "log")[1].splitlines(True)
        entries = [json.loads(it) for it in lines]
        # From each number of a few logs, from some of the others, and from behind the last entry.
        for number in range(1, len(lines) + 2, 1 if place < 8 else 7):
            found = run(INSPECT, folder, "log", "--from", str(number))
            want(found, (0, b"".join(lines[number - 1 :]), b""), f"drawn log {place} from {number}")
            seen.append(is_seen(entries, number))
            runs += 1
    want([any(it) for it in zip(*seen)], [True] * 4, "whether each of what may stand before a number did")
    return f"{runs} numbers"


def people_history():
    """A log of two policies of schema 2, of which the second has a person and a rule more, and another key, role and threshold."""
    history = History()
    rules = [rule("main", "git:refs/heads/main", ["dan"])]
    root = root_of_people(1, [OWNER, KEEPER], {"alice": [OWNER], "bob": [KEEPER]}, ["alice"], ["alice"])
    history.policy({"root": (root, [OWNER]), "targets": (top_file([MAINTAINER], rules, 1, {"dan": [MAINTAINER]}), [OWNER])})
    people = {"dan": [MAINTAINER], "eve": [REVIEWER]}
    rules = [rule("docs", "file:a b*", ["dan"], terminating=True), rule("main", "git:refs/heads/main", ["dan", "eve"], 2)]
    root = root_of_people(2, [OWNER, NEWCOMER], {"alice": [OWNER], "bob": [NEWCOMER]}, ["alice"], ["alice", "bob"])
    top = top_file([MAINTAINER, REVIEWER], rules, 2, people)
    history.policy({"root": (root, [OWNER]), "targets": (top, [OWNER])})
    history.record(MAIN, history.commit({b"a": b"a"}), MAINTAINER)
    return history


def tells_changes(repositories):
    """gittuf-inspect log tells what a policy changes of the one before it, and policy --against what one would change"""
    place = folder_of(repositories, "changed policies", people_history().repository)
    status, found = told(place, word="log")
    changed = {
        "keys": {"added": [NEWCOMER.id, REVIEWER.id], "removed": [KEEPER.id]},
        "persons": {"added": [f"bob {NEWCOMER.id}", f"eve {REVIEWER.id}"], "removed": [f"bob {KEEPER.id}"]},
        "rules": {
            "added": [
                "role targets by alice bob",
                "rule docs file:a%20b* by dan terminating",
                "rule main git:refs/heads/main by dan eve open",
            ],
            "removed": ["role targets by alice", "rule main git:refs/heads/main by dan open"],
        },
        "thresholds": {"added": ["rule docs 1", "rule main 2"], "removed": ["rule main 1"]},
    }
    want((status, [it.get("changed", ZEROS) for it in found]), (0, [ZEROS, changed, ZEROS]), "what changed, where the field stands")
    back = {part: {"added": it["removed"], "removed": it["added"]} for part, it in changed.items()}
    policies = [it["target"] for it in found[:2]]
    would = [told(place, "--against", it, word="policy")[1][0]["changed"] for it in policies]
    want(would, [back, {part: {"added": [], "removed": []} for part in changed}], "what the policies would change")
    want(told(place, "--against", found[2]["target"], word="policy")[1][0].get("changed", ZEROS), ZEROS, "what no policy would")


def mend_of(log, name, history, ids):
    """What mends a violation of a name: the numbers to skip, and where the name is then, by the log alone."""
    end = len(log) + 1
    number = next(at for at in log.numbers_of(name, end) if log.fault(at) and not log.rescued(at))
    left = [at for at in log.numbers_of(name, end) if not log.skipped(at, end)]
    skip, before = [at for at in left if at >= number], [at for at in left if at < number]
    back = log[before[-1] - 1].target if before else ZEROS
    tree = None if back == LOST else history.repository.tree_of(ids[back])
    return back, {
        **{"skip": skip, "prior": before[-1] if before else None},
        **{"from": ids[back] if before else None, "tree": tree},
    }


def mended(log, name, skip, back):
    """A log behind which these entries are skipped and a name goes back to a target, both by who may; None where nobody may."""
    policy = log.policy_at(len(log) + 1)
    if policy is None:
        return None
    signer = KEYS[policy.holder]
    longer = TwoPersons(*log, *([Note(True, tuple(skip), signer)] if skip else []), Move(name, back, signer))
    return None if longer.fault(len(longer)) else longer


def hold_mends(repositories, place, log, kept):
    """Holds what mends each violation of a log to the slow reading, and does it: how many were mended, and how many nobody may."""
    done = hopeless = 0
    history, ids = history_of(log, kept)
    folder = folder_of(repositories, f"to be mended {place}", history.repository)
    for name in kept:
        if log.verdict(name, kept[name])[0] != "violation":
            continue
        back, mends = mend_of(log, name, history, ids)
        want(told(folder, name)[1][0]["mends"], mends, f"what mends {name} of drawn log {place}")
        longer = mended(log, name, mends["skip"], back)
        if longer is None:
            hopeless += 1
            continue
        for number in mends["skip"]:
            fewer = mended(log, name, [it for it in mends["skip"] if it != number], back)
            want(fewer and fewer.verdict(name, back)[0] == "accepted", fewer and False, f"what {number} is skipped for")
        after, _ = history_of(longer, {**kept, name: back})
        status, found = told(folder_of(repositories, f"mended {place} {name.replace('/', ' ')}", after.repository), name)
        entries = len(longer.numbers_of(name, len(longer) + 1))
        want((status, found), (0, [{"entries": entries, "reference": name, "verdict": "accepted"}]), f"{name} of drawn log {place}, mended")
        done += 1
    return done, hopeless


def tells_what_mends(repositories):
    """gittuf-inspect verdicts says what mends a violation, each part of it is needed, and done it makes the verdict accepted"""
    found = [hold_mends(repositories, place, *drawn().LOGS[place]) for place in range(len(drawn().LOGS))]
    done, hopeless = (sum(it) for it in zip(*found))
    want((done > 20, hopeless > 0), (True, True), f"whether enough of both were drawn: {done} and {hopeless}")
    return f"{done} mended, {hopeless} that nobody may mend so"


CHECKS = (tells_drawn_logs, tells_from_numbers, tells_changes, tells_what_mends)
