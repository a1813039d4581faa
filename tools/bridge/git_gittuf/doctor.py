"""What is missing or odd in a repository, each with the line that mends it."""

import json
import os
import stat

import stream_format
from git_gittuf import budgets, copying, following, history, hook_calls, keys, leaves, names, otherwise, remotes, seen, signers, stores, verifying, withheld
from git_gittuf.remotes import BESIDE, beside, is_before
from git_gittuf.repository import ATTESTATIONS, LOG, POLICY, REMOTES, STAGED, ZEROS, Stopped
from git_gittuf.shown import plain, quoted
from git_gittuf.telling import say


def of_key(repository):
    path = keys.path_of(repository)
    if not keys.is_there(path):
        # Nobody signs on a server.
        if repository.top is not None:
            yield f"there is no key at {path}, which only who signs needs", "git gittuf key"
        return
    if not keys.can_be_read(path):
        yield f"{path} is no key file, or cannot be read, and signs nothing", "git gittuf key --file <another path>"
        return
    if stat.S_IMODE(os.stat(path).st_mode) & 0o077:
        yield f"others may read or write the key {path}", f"chmod 600 {quoted(path)}"
    left, all_of_them = keys.signatures_left(path)
    if left * 20 < all_of_them:
        yield f"the key {path} has {left} of {all_of_them} signatures left", "git gittuf key --file <another path>"
    try:
        keys.expect_outside(repository, path)
        said = leaves.spoilt(repository, path)
    except Stopped as why:
        said = str(why)
    if said:
        yield said, "git gittuf key --file <another path>"


def set_back(remote, name, value):
    """The line that puts at a remote what is here, where it still has there what was fetched from it."""
    return f"git push --force-with-lease={name}:{value.decode() if value else ''} {quoted(remote)} {name}"


def taken(remote, name, value):
    """The line that gives up what is here for what a remote has: of what is edited no more than that, and no entry with it."""
    if name == LOG:
        return f"git gittuf doctor --take {quoted(remote)}"
    return f"git update-ref {name.decode()} {value.decode() if value else ''}"


def entries_after(work, tip):
    """The entries of the own log after this commit of it, or all."""
    own = work.repository.references().get(LOG)
    listed = history.entries(work.log_at(own) or b"") if own else []
    return listed[following.count_of(work.repository, tip) if tip else 0 :]


def signed_by(work, entries):
    """In words, which entries these are and who signed them."""
    return f"{signers.numbers(entries)}, signed by {signers.in_force(work).who_signed(work.repository, entries)}"


def is_own(work, entries):
    """Whether the key here signed each of these entries, by the policy in force."""
    path = keys.path_of(work.repository)
    try:
        own = keys.id_and_public(path)[0] if keys.is_there(path) else None
    except Stopped:
        return False
    return own is not None and set(signers.in_force(work).keys_of(work.repository, entries).values()) == {own}


def is_rewritten(repository, remote, value):
    """Whether a remote's log lacks entries that it was seen to have, so that nobody was only faster."""
    last = seen.read(repository).get(remote)
    return last is not None and repository.there([last]) and not is_before(repository, last, value)


def way_of_apart(work, remote, value, here):
    """How that goes on where a remote's log went apart from the own one behind these entries of it."""
    desk, take = remotes.port_of(work.repository, remote), f"git gittuf doctor --take {quoted(remote)}"
    if desk:
        return take
    if is_rewritten(work.repository, remote, value):
        return f"ask who may write to {quoted(remote)}; {set_back(remote, LOG.decode(), value)} puts it back, and {take} gives it up"
    anew = f"git gittuf sync --remote {quoted(remote)} records it anew after that, as far as it is lawful, and {take} gives it up"
    return anew if is_own(work, here) else take


def of_lost(work, remote, value, how):
    """What a remote's log lost that had gone further, and how that goes on."""
    last = seen.read(work.repository).get(remote) or value
    lost = [it for it in entries_after(work, value if how == "back" else None) if it[0] <= following.count_of(work.repository, last)]
    which = f" no longer has {signed_by(work, lost)}" if lost else " went back"
    desk = remotes.port_of(work.repository, remote)
    # The branch that is checked out may stand where no entry has it, and stays out of this.
    alone = f"git push {quoted(remote)} 'refs/gittuf/*:refs/gittuf/*' && git fetch {quoted(remote)}"
    put_back = f"git gittuf push --desk {desk}" if desk else alone
    yield f"the log of {remote}{which}", f"ask who may write to {quoted(remote)}; it is put back by {put_back}"


def of_remotes(work, is_whole):
    repository = work.repository
    found = remotes.remotes(repository)
    # From a bare repository others fetch it.
    if not found and repository.top is not None:
        yield "there is no remote, so nobody gets the log from here", "git remote add origin <where> && git gittuf setup"
    for remote in remotes.of_git(repository):
        if remotes.lacking(repository, remote):
            yield f"git push and git fetch do not carry the log to and from {remote}", f"git gittuf setup {quoted(remote)}"
        elif remotes.strays(repository, remote):
            yield f"git fetch also puts the log of {remote} to where that of another remote stands", f"git gittuf setup {quoted(remote)}"
    unfit = {(remote, name): how for remote, name, how in work.unfit}
    for remote, name, own, value, how in remotes.standing(repository, repository.references()):
        shown, how = name.decode(), unfit.get((remote, name), how)
        take, back = taken(remote, name, value), set_back(remote, shown, value)
        desk = remotes.port_of(repository, remote)
        if how in ("same", "ahead") and name == LOG and value and not desk:
            how = "dropped" if remotes.asked_log(repository, remote) == (True, None) else how
        if how in ("back", "dropped"):
            yield from of_lost(work, remote, value, how)
        elif how == "ahead" and name == LOG and is_whole:
            way = f"git gittuf push --desk {desk}" if desk else f"git gittuf push --remote {quoted(remote)}"
            yield f"{shown} goes on here by {signed_by(work, entries_after(work, value))}", way
        elif how == "ahead" and name != LOG and not desk:
            yield f"{shown} goes on here from where {remote} has it", f"git gittuf push --remote {quoted(remote)}"
        elif how == "apart" and name == LOG and is_whole:
            here = entries_after(work, repository.git("merge-base", own.decode(), value.decode())[1].strip())
            said = f"here {'is' if len(here) == 1 else 'are'} {signed_by(work, here)}"
            yield f"{shown} here and that of {remote} went apart: {said}", way_of_apart(work, remote, value, here)
        elif how == "apart":
            again = "" if name == LOG else ", and once that of the remote is taken what is edited here is to be edited again"
            yield f"{shown} here and that of {remote} went apart{again}", take
        elif how == "broken":
            whole, _ = following.last_whole(work, value)
            has_all = whole is None or own is not None and (own == whole or is_before(repository, whole, own))
            yield f"{shown} of {remote} is no log after its last whole entry, and is not followed", back if has_all and own else take
        elif how == "odd":
            yield f"{shown} of {remote} stands at no commit, and is not followed", back if own else f"ask who may write to {quoted(remote)}"


def of_unrecorded(work, entries):
    """What remotes have at the places of the policy and the approvals, and no entry recorded."""
    references, unfit = work.repository.references(), {remote for remote, name, _ in work.unfit if name == LOG}
    for remote in remotes.remotes(work.repository):
        for name in (POLICY, ATTESTATIONS):
            value, shown = references.get(beside(remote, name)), name.decode()
            if value is None or remote in unfit or value in following.targets_of(entries, name):
                continue
            mends = set_back(remote, shown, value) if name in references else f"ask who may write to {quoted(remote)}"
            yield f"{shown} of {remote} stands at {value.decode()[:12]}, which no entry recorded, and is not followed", mends


def of_settings(repository):
    if repository.config(hook_calls.ANYWAY, "--type=bool")[-1:] == ["true"]:
        yield f"{hook_calls.ANYWAY} is set, so the hook of this clone refuses no push", f"git config --unset-all {hook_calls.ANYWAY}"
    if wrong := budgets.wrong_limit(repository):
        yield f"{wrong[0]}, so the hook of a server refuses each push", wrong[1]


def other_name_for(repository, name):
    """The line that gives a branch or tag another name, or whom to ask for that."""
    for remote in repository.remotes():
        if name.startswith(tuple(it + os.fsencode(remote) + b"/" for it in (REMOTES, BESIDE))):
            return f"ask who may write to {quoted(remote)}"
    word = quoted(os.fsdecode(name.removeprefix(names.HEADS).removeprefix(names.TAGS)))
    if name.startswith(names.HEADS):
        return f"git branch -m {word} <another name>"
    if name.startswith(names.TAGS):
        return f"git tag <another name> {word} && git tag -d {word}"
    return f"git update-ref <another name> {word} && git update-ref -d {word}"


def of_names(repository):
    for name in repository.all_references():
        if not stream_format.is_reference_name(name):
            yield f"no log can speak of {stream_format.readable(name)}, which is too long or has other signs", other_name_for(repository, name)


def of_log(work, status, printed):
    repository = work.repository
    references = repository.references()
    if LOG not in references and STAGED in references:
        way = "git gittuf policy sign and git gittuf policy apply"
        yield "there is no log here, and a policy that is edited begins one", way
        return
    if LOG not in references:
        yield "there is no log here", "git gittuf setup && git fetch, or git gittuf policy init <your name> begins one"
        return
    if status:
        said = printed.decode(errors="replace").strip() or f"status {status}"
        others = [quoted(it) for it in remotes.remotes(repository) if beside(it, LOG) in references]
        yield f"the log here is none ({said})", " ".join(["git gittuf doctor --take", *others[:1]])
        return
    if POLICY not in references:
        yield "there is no policy, so nothing is lawful", "git gittuf policy init <your name>"
    entries = history.entries(printed)
    yield from (withheld.sentence(number, target) for number, _, target in withheld.lacking(work))
    yield from of_unrecorded(work, entries)
    last = {rest[0]: rest[1] for _, _, kind, rest in entries if kind == b"ref" and copying.is_own(rest[0])}
    there = names.places_at_remotes(repository, references)
    for name, target in last.items():
        stand = [references[name]] if name in references else [it.value for it in there.get(name, [])]
        if target not in (stand or [ZEROS]):
            word = names.word_here(repository, name)
            yield f"{word} stands elsewhere than it was recorded last", f"git gittuf verify {quoted(word)}"
    found = names.all_of(repository, list(last), lambda them: verifying.protected_of(work, them))
    for name in dict.fromkeys(it.name for it in found if it.name not in last):
        word = names.word_here(repository, name)
        yield f"a rule protects {word}, and no entry records where it stands", f"git gittuf verify {quoted(word)}"
    for it in verifying.elsewhere(work, found):
        word = os.fsdecode(names.remote_branch(it.name, it.remote)[len(names.REMOTES) :])
        yield f"{word} stands where no entry has it", f"git gittuf verify {quoted(word)}"


def show_store(work, kind):
    """Says in what the store is kept, once it is moved there where that is asked for."""
    if kind and stores.move(work, kind):
        say("It has all that it had, and what it was kept in before is gone.")
    print(f"{work.kept.KIND} {plain(work.kept.place)}")
    return 0


def doctor(work, words):
    work.bring()
    if words.store is not None:
        return show_store(work, words.store)
    if words.take is not None:
        moves = following.to_take(work, words.take, words.anyway)
        work.move(moves)
        seen.forget(work.repository, words.take)
        for name, (own, value) in moves.items():
            print(f"{name.decode()} goes from {own.decode()} to {value.decode()}")
        work.copy()
        return 0
    status, printed = work.read("log")
    found = [*of_key(work.repository), *of_remotes(work, not status), *of_names(work.repository), *of_settings(work.repository)]
    found += of_log(work, status, printed)
    found += filter(None, [otherwise.replaced(work.repository)])
    for what, mends in found:
        print(json.dumps({"mends": mends, "what": what}) if words.json else plain(f"{what}: {mends}"))
    if not found and not words.json:
        print("all is well")
        say("That is of this clone: git gittuf verify says whether each change was lawful.")
    return 1 if found else 0
