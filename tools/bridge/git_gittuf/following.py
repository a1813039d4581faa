"""How the own log, policy and approvals go on to where a remote has them: only as far as the program has read that.

A remote's log is followed where the program reads it as a chain that goes on from the own one. The policy and the
approvals stand where the own log records them, and nowhere else. What a remote has beside that stays beside.
"""

from git_gittuf import epochs, history, remotes, seen, signers
from git_gittuf.remotes import beside, is_before, standing
from git_gittuf.repository import ATTESTATIONS, LOG, POLICY, STAGED, ZEROS, Stopped
from git_gittuf.shown import plain, quoted

# How what a remote has may stand so that it does not fit what is here.
UNFIT = ("apart", "odd", "broken", "back", "dropped")


def targets_of(entries, name):
    """What entries recorded of a reference, in their order."""
    return [rest[1] for _, _, kind, rest in entries if kind == b"ref" and rest[0] == name]


def where_recorded(repository, entries):
    """Where the log has the policy, which is the one in force, and the approvals."""
    in_force = [target for _, target in epochs.of_entries(repository, entries)]
    found = {POLICY: in_force, ATTESTATIONS: targets_of(entries, ATTESTATIONS)}
    return {name: targets[-1] for name, targets in found.items() if targets and targets[-1] != ZEROS}


def to_recorded(repository, references, entries):
    """The moves of the policy and the approvals from an older place that the log recorded to where it has them now."""
    moves = {}
    for name, target in where_recorded(repository, entries).items():
        own = references.get(name)
        # What no entry recorded is not taken away either.
        if own != target and (own is None or own in targets_of(entries, name)) and repository.are_commits([target]):
            moves[name] = (own or ZEROS, target)
    return moves


def followed_log(work, references):
    """The moves of the log and of what is edited, and what does not fit."""
    moves, unfit, tips = {}, [], seen.read(work.repository)
    for remote, name, _, value, how in standing(work.repository, references):
        if name == LOG:
            how = seen.went_back(work.repository, references, remote, how, tips)
        own = moves[name][1] if name in moves else references.get(name)
        if how == "behind" and own is not None and not is_before(work.repository, own, value):
            continue
        if how in ("behind", "apart") and name == LOG and work.log_at(value) is None:
            how = "broken"
        if how == "behind":
            moves[name] = (references.get(name, ZEROS), value)
        elif how in UNFIT:
            unfit.append((remote, name, how))
    return moves, unfit


def to_follow(work, changed):
    """The moves of the own references to where remotes' go on from them, and what of remotes does not fit."""
    repository, references = work.repository, work.repository.references()
    moves, unfit = followed_log(work, references)
    tip = moves[LOG][1] if LOG in moves else references.get(LOG) if changed else None
    printed = work.log_at(tip) if tip else None
    if printed is not None:
        moves.update(to_recorded(repository, references, history.entries(printed)))
    seen.note(repository, references, moves.get(LOG, (None, references.get(LOG)))[1], unfit)
    return moves, unfit


def count_of(repository, tip):
    """How many commits a log has up to this one."""
    return int(repository.asked("count entries", "rev-list", "--first-parent", "--count", tip.decode()))


def number_of(repository, entries, tip):
    """The same, which is told by these entries where it is the last of them, or near it."""
    return next((number for number, it, *_ in reversed(entries) if it == tip), None) or count_of(repository, tip)


def sentence(work, remote, name, how):
    """What is told of something that a remote has and that does not fit."""
    repository, value = work.repository, work.repository.references().get(beside(remote, name))
    name, whose = plain(name.decode()), plain(remote)
    if how == "dropped":
        return f"{whose} has no {name} any more: git gittuf doctor says more"
    if how == "back":
        last, now = (count_of(repository, it) for it in (seen.read(repository)[remote], value))
        return f"{name} of {whose} went back from entry {last} to entry {now}: git gittuf doctor says more"
    if how == "apart":
        return f"{name} here and that of {whose} went apart, and neither is taken back: git gittuf doctor says more"
    if how == "broken":
        return f"{name} of {whose} is no log, and is not followed: git gittuf doctor says more"
    return f"{name} of {whose} stands at no commit, and is not followed: git gittuf doctor says more"


def last_whole(work, tip):
    """The last commit of a log, back from its tip, up to which the program reads it, and what it printed; or none."""
    printed = work.log_at(tip) if work.repository.are_commits([tip]) else None
    if printed is not None:
        return tip, printed
    listed = work.repository.git("rev-list", "--first-parent", "--reverse", tip.decode())[1].split()
    # What goes on from a chain that is broken is broken too.
    whole, broken, found = 0, len(listed), (None, b"")
    while whole < broken:
        middle = (whole + broken) // 2
        printed = work.log_at(listed[middle])
        if printed is None:
            broken = middle
        else:
            whole, found = middle + 1, (listed[middle], printed)
    return found


def given_up(work, entries):
    """The entries of the own log, as far as it is whole, that are not among these."""
    own = work.repository.references().get(LOG)
    whole, printed = last_whole(work, own) if own else (None, b"")
    kept = {it[1] for it in entries}
    return [it for it in history.entries(printed) if it[1] not in kept] if whole else []


def expect_own(work, entries, again):
    """Refuses to give up entries that somebody else signed."""
    own, by = signers.own_key(work.repository), signers.of_entries(work.repository, [it[1] for it in entries])
    others = [it for it in entries if by.get(it[1]) != own or own is None]
    if others:
        whose = signers.in_force(work).who_signed(work.repository, others)
        said = f"{signers.numbers(entries)} would be given up, of which {len(others)} are not of your key but of {whose}"
        raise Stopped(f"{said}: ask whether they are to go; {again} gives them up", 3)


def to_take(work, remote, anyway=False):
    """The moves by which the own log stands where a remote's is whole, or its own is, and policy and approvals as it records.

    Of entries that go only those of the own key do, unless the others are to go anyway.
    """
    repository, references = work.repository, work.repository.references()
    tip = references.get(beside(remote, LOG) if remote else LOG)
    if tip is None and remote:
        desk = remotes.port_of(repository, remote)
        if not desk and remote not in repository.remotes():
            raise Stopped(f"there is no remote {plain(remote)}: git remote -v lists them, and git gittuf fetch --desk PORT makes one of a desk", 3)
        setup = f"git gittuf fetch --desk {desk}" if desk else f"git gittuf setup {quoted(remote)}, git fetch {quoted(remote)}"
        raise Stopped(f"no log was fetched from {plain(remote)}: {setup}", 3)
    whole, printed = last_whole(work, tip) if tip else (None, b"")
    if not whole:
        raise Stopped(f"no part of the log {'of ' + plain(remote) if remote else 'here'} is one: ask another clone for its log", 3)
    entries = history.entries(printed)
    if not anyway:
        expect_own(work, given_up(work, entries), f"git gittuf doctor --take {quoted(remote)} --anyway")
    wanted = {LOG: whole, **where_recorded(repository, entries)}
    staged = references.get(beside(remote, STAGED)) if remote else None
    if staged and repository.are_commits([staged]):
        wanted[STAGED] = staged
    there = {name: value for name, value in wanted.items() if repository.are_commits([value])}
    return {name: (references.get(name, ZEROS), value) for name, value in there.items() if references.get(name) != value}
