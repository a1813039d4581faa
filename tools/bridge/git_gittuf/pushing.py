"""`git gittuf push` and `git gittuf sync`: branches go with the log that records them, or not at all."""

import os
import re
import sys

from git_gittuf import commands, desk_pushing, following, history, names, remotes, seen, skipping, syncing, verifying, withheld
from git_gittuf.hook_calls import ANYWAY, asked_where
from git_gittuf.remotes import is_before
from git_gittuf.repository import ATTESTATIONS, LOG, POLICY, STAGED, TARGETS, ZEROS, Stopped
from git_gittuf.shown import plain, plain_lines, quoted
from git_gittuf.telling import say, tell
from stream_format import Git

# Another may be faster so often.
TRIES = 8
# How the lines begin that hooks of git gittuf say, here and at the remote.
HOOKS_SAY = ("git-gittuf: ", "remote: git-gittuf: ")
# How those lines of Git begin that say why a remote refuses what it was sent.
REMOTES_SAY = ("remote: ", "error: remote unpack failed: ")
OWN_NAMES = (LOG, POLICY, ATTESTATIONS, STAGED)
# What is said of a remote to which nothing went.
ALL_THERE = "has all of it already, so nothing went there"
# What Git says of a file by which it holds a reference while it moves it, and which stands there already.
LOCKED = re.compile(r"Unable to create '(.*\.lock)': File exists")
HELD = "another git is at work there, and then git gittuf push tries again; or one was killed and left it, and who keeps it removes the file"


def remote_of(work, words):
    remote = remotes.remote_named(work.repository, words.remote)
    if not remote and (desk := remotes.desk_alone(work.repository)):
        raise Stopped(f"there is no remote but a desk: git gittuf push --desk {desk} and git gittuf fetch --desk {desk} talk with it", 3)
    if not remote:
        raise Stopped("there is no remote: git remote add origin <where> && git gittuf setup", 3)
    return remote


def checked_out(repository):
    """The branch that is checked out, where it has a commit."""
    name = repository.head()
    return name if name in repository.references() else None


def named(work, words):
    """The references that are to go, with where they stand, or nothing where they are gone."""
    repository = work.repository
    if not words.branches:
        name = checked_out(repository)
        if name is None:
            say("No branch is checked out, so what is below refs/gittuf/ goes alone.")
        return {name: repository.references()[name]} if name else {}
    references, found = repository.references(), {}
    for word in words.branches:
        name = names.own_name(repository, word, lambda: history.recorded_names(work))
        found[name] = references.get(name)
        if found[name] is None and name not in history.recorded_names(work):
            raise names.no_such(repository, word, history.recorded_names(work))
    return found


def goes_on_there(repository, remote, name, value, known):
    """Whether a push moves a reference at a remote without force, as far as was seen; `known` are those that its log records."""
    there = repository.references().get(names.remote_branch(name, remote)) if name.startswith(names.HEADS) else None
    if value is None:
        return there is not None
    if name.startswith(names.HEADS):
        return there is None or repository.are_commits([there, value]) and is_before(repository, there, value)
    # A tag that it has is not moved.
    return name.startswith(names.TAGS) and name not in known


def entries_there(work, remote):
    """The own log's entries, and how many of them a remote's log has, as far as was seen."""
    repository, references = work.repository, work.repository.references()
    there = references.get(remotes.beside(remote, LOG))
    listed = history.entries(work.asked("log")) if LOG in references else []
    return listed, following.number_of(repository, listed, there) if there and is_before(repository, there, references[LOG]) else 0


def names_in(listed):
    """The references of which these entries speak, in their order."""
    return dict.fromkeys(rest[0] for _, _, kind, rest in listed if kind == b"ref")


def moved_tags(work, remote, found):
    """Where a remote has the tags that its log put there, and that stand elsewhere or are gone by what is to go: no fetch tells, so it is asked."""
    listed, count = entries_there(work, remote)
    had = {(rest[0], rest[1]) for _, _, kind, rest in listed[:count] if kind == b"ref"}
    known = {name for name, _ in had}
    asked = [it for it in {**found, **names_in(listed[count:])} if it.startswith(names.TAGS) and it in known]
    there = asked_where(work.repository, remote, asked) if asked else {}
    return {name: value for name, value in there.items() if (name, value) in had and value != work.repository.references().get(name)}


def recorded_since(work, remote, tags):
    """What entries record that a remote's log lacks, where it stands here as the log has it: it goes with them, as do these tags."""
    repository, references = work.repository, work.repository.references()
    listed, count = entries_there(work, remote)
    known, found = set(names_in(listed[:count])), {}
    for name in names_in(listed[count:]):
        value = references.get(name)
        goes = name in tags or goes_on_there(repository, remote, name, value, known)
        if (value or ZEROS) == skipping.last_of(work, listed, name) and goes:
            found[name] = value
    return found


def is_there_already(repository, remote, name, value):
    """Whether a branch stands at a remote as it does here, as far as was seen, so that a push leaves it where it is."""
    return value is not None and name.startswith(names.HEADS) and repository.references().get(names.remote_branch(name, remote)) == value


def is_behind(repository, remote, name, value):
    """Whether a branch went on at a remote from where it stands here, as far as was seen, so that a push has nothing of it to give."""
    there = repository.references().get(names.remote_branch(name, remote)) if value and name.startswith(names.HEADS) else None
    return there not in (None, value) and repository.are_commits([there, value]) and is_before(repository, value, there)


def without_behind(work, remote, found, is_named):
    """What is to go without a branch that is only behind the remote's, and of which the remote has each entry: the log goes all the same."""
    behind = [name for name, value in found.items() if is_behind(work.repository, remote, name, value)]
    if behind:
        listed, count = entries_there(work, remote)
        behind = [name for name in behind if name not in names_in(listed[count:])]
    for name in behind:
        there = os.fsdecode(names.remote_branch(name, remote)[len(names.REMOTES) :])
        said = f"{plain(names.short(name))} is behind {plain(there)}, which stays as it is"
        if is_named:
            raise Stopped(f"nothing is pushed, as {said}: git gittuf push without a name pushes what is signed; --anyway takes it back there", 3)
        tell(f"{said}; what is signed here goes alone")
    return {name: value for name, value in found.items() if name not in behind}


def expect_recorded(work, remote, found):
    """Refuses to push what a rule protects or the log speaks of where that has it elsewhere."""
    listed = history.entries(work.asked("log")) if LOG in work.repository.references() else []
    last, had = skipping.targets_of(work, listed), {(rest[0], rest[1]) for _, _, kind, rest in listed if kind == b"ref"}
    for name, value in found.items():
        if name in last and last[name] == (value or ZEROS) or name not in last and not (listed and verifying.is_protected(work, name)):
            continue
        if is_there_already(work.repository, remote, name, value):
            continue
        word = quoted(names.short(name))
        said = f"{plain(names.short(name))} stands where no entry of the log has it: git gittuf record {word} comes first"
        if (name, value or ZEROS) in had:
            said = f"{plain(names.short(name))} stands elsewhere than the log has it now: git gittuf verify {word} says more"
        alone = f"git push {quoted(remote)} 'refs/gittuf/*:refs/gittuf/*' carries what else is signed"
        if syncing.how_log_stands(work, remote) == "apart":
            alone = f"git gittuf sync --remote {quoted(remote)} records anew what else is signed"
        raise Stopped(f"{said}, and {alone}; --anyway pushes it all the same", 3)


def specs(work, remote, found, anyway, tags):
    """What git push is given: each branch, forced only over what was seen there, as these tags are, and the own references."""
    references, words = work.repository.references(), []
    for name, value in found.items():
        whole = os.fsdecode(name)
        # What was looked at goes, also where another moves it meanwhile.
        words.append(f":{whole}" if value is None else f"{value.decode()}:{whole}")
        seen_there = references.get(names.remote_branch(name, remote)) if name.startswith(names.HEADS) else None
        over = tags.get(name) or anyway and seen_there
        if over:
            words.insert(0, f"--force-with-lease={whole}:{over.decode()}")
    own = [name for name in references if name in OWN_NAMES or name.startswith(TARGETS)]
    words += [f"{references[name].decode()}:{os.fsdecode(name)}" for name in own if references.get(remotes.beside(remote, name)) != references[name]]
    return [it for it in words if it.startswith("--")], [it for it in words if not it.startswith("--")]


def show_lines(lines):
    """Shows what git said, a line each, to whoever called."""
    print(plain_lines(os.fsencode("".join(f"{it}\n" for it in lines))), end="", file=sys.stderr, flush=True)


def pushed(work, remote, found, anyway, tags):
    """Pushes at once, or nothing; returns whether that was done, what git said of why not, and the lines of who refused it."""
    options, words = specs(work, remote, found, anyway, tags)
    if not words:
        # Without a word Git would push what its settings name.
        return True, "", []
    settings = ("-c", f"{ANYWAY}=true") if anyway else ()
    with work.unlocked():
        with Git(*work.repository.where, *settings, "push", "--porcelain", "--atomic", *options, "--", remote, *words) as ran:
            output = ran.output.read()
            status, said = ran.end()
    if not status:
        moved = [it for it in output.splitlines() if b"\t" in it and not it.startswith(b"=")]
        return True, "" if moved else ALL_THERE, []
    refused = [os.fsdecode(it) for it in output.splitlines() if it.startswith(b"!")]
    judged = [it.strip() for it in ran.lines if it.startswith(HOOKS_SAY)]
    if not refused and not judged:
        # A hook of others here refuses it, or the remote is not reached. The last line may only tell that it failed, and one before it why.
        whys = [it.removeprefix("error: ") for it in ran.lines if it.startswith("error: ")]
        why = said if len(whys) < 2 else whys[0]
        show_lines(it for it in ran.lines if it.strip() and not it.endswith((said, why)))
        raise Stopped(f"git does not push to {plain(remote)}: {plain(why)}")
    if locks := LOCKED.findall("\n".join(ran.lines)):
        return False, f"{locks[0]} stands there", []
    if judged:
        return False, "", judged
    # The others are refused for these alone.
    refused = [it for it in refused if "(atomic push failed)" not in it] or refused
    why = "; ".join(it.rpartition("\t")[2] + " " + it.split("\t")[1].rpartition(":")[2] for it in refused)
    is_sent = any("[remote rejected]" in it for it in refused)
    return False, why, [it.strip() for it in ran.lines if is_sent and it.startswith(REMOTES_SAY)]


def left_behind(work, remote, found):
    """Those branches that a remote has where an earlier entry had them, and that stand here where the log has them now."""
    listed, references = history.entries(work.asked("log")) if LOG in work.repository.references() else [], work.repository.references()
    last, had = skipping.targets_of(work, listed), {(rest[0], rest[1]) for _, _, kind, rest in listed if kind == b"ref"}
    there = {name: references.get(names.remote_branch(name, remote)) for name in found if name.startswith(names.HEADS)}
    return [name for name, value in there.items() if value != found[name] == last.get(name) and (name, value) in had]


def way_on(work, remote, found, why):
    """What leads on where a remote does not take a push, of which git says why."""
    behind = left_behind(work, remote, found)
    if why.endswith(" stands there"):
        return HELD
    if "refs/gittuf/" in why:
        return "git gittuf doctor says more"
    if not behind:
        return "git pull brings what is there"
    word = ' '.join(quoted(names.short(it)) for it in behind)
    way = f"git gittuf push --remote {quoted(remote)} --anyway {word} puts it where the log has it"
    return f"{plain(names.short(behind[0]))} stands there where an earlier entry had it, and {way}"


def push(work, words):
    if words.desk is not None:
        return desk_pushing.push(work, words)
    remote, anyway = remote_of(work, words), words.anyway
    work.mended = syncing.to_mend(remote)
    withheld.bring(work)
    # Without a log nothing would be looked at that goes there.
    commands.expect_one_log(work, anyway)
    how = syncing.how_log_stands(work, remote)
    if how in ("broken", "odd") or how in ("back", "dropped") and not anyway:
        raise Stopped(f"the log of {plain(remote)} does not fit, and nothing is pushed: git gittuf doctor says more", 3)
    for _ in range(TRIES):
        found = named(work, words)
        if not anyway:
            found = without_behind(work, remote, found, words.branches)
            expect_recorded(work, remote, found)
        tags = moved_tags(work, remote, found)
        found = {**found, **recorded_since(work, remote, tags)}
        done, why, lines = pushed(work, remote, found, anyway, tags)
        if done:
            seen.pushed(work.repository, remote)
            if why:
                say(f"{plain(remote)} {why}.")
            for name, value in found.items():
                print(f"pushed {plain(os.fsdecode(name))} {(value or ZEROS).decode()}")
            return 0
        before = work.repository.own_references()
        if not syncing.sync(work, remote, anyway):
            raise Stopped("nothing is pushed: what is said above comes first", 3)
        if before == work.repository.own_references():
            show_lines(lines)
            if lines:
                and_why = f": {plain(why)}" if why else ""
                raise Stopped(f"{plain(remote)} gets nothing of it, for what is said above{and_why}", 3)
            raise Stopped(f"{plain(remote)} does not take it: {plain(why)}; {way_on(work, remote, found, why)}", 3)
        say("Another was faster: what is here was recorded anew after that, and is pushed again.")
    raise Stopped(f"others were faster {TRIES} times: git gittuf push tries again", 3)


def sync(work, words):
    remote = remote_of(work, words)
    work.mended = syncing.to_mend(remote)
    work.bring()
    return 0 if syncing.sync(work, remote, words.anyway) else 3
