"""What `git gittuf verify` judges, and what it says of a verdict."""

import functools
import json
import os

from git_gittuf import accounts, asking, consents, copying, damage, history, names, otherwise, remotes, sentences, signers, skipping, trust, withheld
from git_gittuf.global_verdicts import GlobalVerdicts
from git_gittuf.remotes import is_before
from git_gittuf.repository import LOG, OWN, ZEROS, Stopped
from git_gittuf.settings import SEEN, key_ids
from git_gittuf.shown import plain, plain_name
from git_gittuf.telling import is_heard, say, show, tell


def is_protected(work, name):
    """Whether a rule of the policy in force protects a reference."""
    return work.asked("explain", f"git:{os.fsdecode(name)}").startswith(b"rule ")


def is_told_protected(work, name):
    """The same, to be told beside a verdict."""
    return asking.rules_told(work, f"git:{os.fsdecode(name)}").startswith(b"rule ")


def ask_for_rules(work, them):
    """Asks ahead whether rules protect these references."""
    asking.ahead(work, [(("explain", f"git:{os.fsdecode(it)}"), None) for it in them if not it.startswith(OWN)])


def protected_of(work, them):
    """Those of these references that a rule protects."""
    ask_for_rules(work, them)
    return [it for it in them if is_protected(work, it)]


def elsewhere(work, found):
    """The branches of remotes that stand where the log never had them, beside those here of the same names."""
    repository, references = work.repository, work.repository.references()
    beside, targets = names.places_at_remotes(repository, references), history.targets(work)
    both = [it.name for it in found if not it.remote and it.name in references and it.name in beside]
    for name in both if targets is not None else ():
        had = targets.get(name, [])
        for it in beside[name]:
            # One that is only behind is what whoever has not pushed yet sees.
            if it.value not in (references[name], *had) and not (had and is_before(repository, it.value, had[-1])):
                yield it


def meant_by(work, words):
    """What is to be judged: what words name, or all that the log speaks of or a rule protects; or that of a remote."""
    repository, remote = work.repository, words.remote
    recorded = functools.cache(lambda: history.recorded_names(work))
    if remote is not None and remote not in remotes.remotes(repository):
        raise Stopped(f"there is no remote {plain(remote)}: git remote -v lists them", 3)
    if words.branches and remote is not None:
        return [names.of_word_at_remote(repository, remote, it, recorded) for it in words.branches]
    if words.branches:
        return [it for word in words.branches for it in names.of_word(repository, word, recorded)]
    if not recorded():
        # Nothing judged is not to look like all is well.
        raise Stopped(sentences.NO_LOG, 3)
    protected = functools.partial(protected_of, work)
    # Where each clone has something of its own no entry says where it stands.
    shared = [it for it in recorded() if copying.is_own(it)]
    if remote is not None:
        found = names.all_at_remote(repository, remote, shared, protected)
    else:
        found = names.all_of(repository, shared, protected)
        found += elsewhere(work, found)
    if not found:
        raise Stopped("no entry of the log speaks of a branch or tag, and no rule protects one: nothing is judged", 3)
    return found


def asked_for(work, meant, root):
    """The words for the verdict on a reference, and where it is to stand in the store for that, or nothing."""
    asked = ("verify-ref", os.fsdecode(meant.name), *(() if root is None else ("--root", root)))
    if meant.remote:
        return asked, (meant.name, meant.value)
    value = None if copying.is_own(meant.name) else work.repository.references().get(meant.name)
    return asked, (meant.name, value) if value else None


def verdict(work, meant, root):
    """The program's status and line on a reference."""
    asked, at = asked_for(work, meant, root)
    return work.read(*asked, at=at)


def is_text(name):
    """Whether a name is UTF-8, without which it is no word of the program."""
    try:
        return bool(name.decode())
    except UnicodeDecodeError:
        return False


def unspeakable(work):
    """The branches and tags, here or at remotes, whose names no log can have, and that no policy leaves unprotected."""
    found = []
    for name in names.odd_names(work.repository):
        status, printed = work.read("explain", f"git:{os.fsdecode(name)}") if is_text(name) else (2, b"")
        if status or printed.startswith(b"rule "):
            found.append(name)
    return found


def gone_by(work, name):
    """The number of the last entry of a reference that counts, where it says that this is gone, or nothing."""
    listed = history.entries(work.asked("log"))
    skipped = skipping.skips(work, listed)
    counts = ((number, rest[1]) for number, it, kind, rest in reversed(listed) if kind == b"ref" and rest[0] == name and it not in skipped)
    number, target = next(counts, (None, None))
    return number if target == ZEROS else None


def of_line(work, meant, line):
    """The sentence for a line on a reference, and what the log says of one that is to be gone."""
    number = gone_by(work, meant.name) if sentences.is_unrecorded(line) and LOG in work.repository.references() else None
    here = meant.remote, names.word_here(work.repository, meant.name), is_checked_out(work.repository, meant)
    return sentences.of_gone(line.split(" "), number, *here) if number else sentences.of_line(line, *here)


def is_checked_out(repository, meant):
    """Whether a branch is the one whose files are there to be worked on."""
    return repository.top is not None and not meant.remote and repository.head() == meant.name


def said_of(work, meant, line, source):
    """The sentence on a verdict."""
    repository, words = work.repository, line.split(" ")
    if words[0] == "tip-differs" and LOG not in repository.references():
        return sentences.of_no_log(bool(repository.remotes()))
    if words[0] == "tip-differs" and all(int(words[it], 16) for it in (3, 5)):
        there = repository.there([words[3].encode(), words[5].encode()])
        if len(there) == 2 and is_before(repository, words[3].encode(), words[5].encode()):
            return sentences.of_behind(repository, meant, words)
    found = damage.object_in(line.encode(errors="surrogateescape") + b"\n") if words[0] == "violation" else None
    if found and repository.there([found]):
        return sentences.of_limit(words)
    return of_line(work, meant, line) + (of_accepted(work, meant, source) if words[0] == "accepted" and words[2] != "0" else "")


def of_accepted(work, meant, source):
    """What is added where a verdict rests on less than it may seem to."""
    is_unpinned = source == SEEN and not trust.is_own(work, key_ids(work.repository, SEEN))
    return of_unprotected(work, meant.name) + (sentences.UNPINNED if is_unpinned else "")


def of_unprotected(work, name):
    """What is added where no rule says who may change a reference."""
    if name.startswith(OWN) or is_told_protected(work, name):
        return ""
    policy = signers.in_force(work).policy
    word = names.word_here(work.repository, name)
    return sentences.of_unprotected(word, [it["name"] for it in consents.asked_by_paths(policy)] if policy else [])


def json_of(work, line, meant, source, told):
    """A verdict as a JSON object, with what it rests on, and what is told of its entries where that is asked for."""
    words = line.split(" ")
    kind = words[0]
    found = {"verdict": kind, "line": line, "remote": meant.remote, "root": source, **({} if told is None else {"told": told})}
    if kind in ("accepted", "tip-differs", "violation") and not meant.name.startswith(OWN):
        found.update(protected=is_told_protected(work, meant.name))
    if kind in ("accepted", "global-kept"):
        found.update(ref=words[1], entries=int(words[2]))
    elif kind == "tip-differs":
        found.update(ref=words[1], kept=words[3], recorded=words[5])
    elif kind in ("violation", "global-violation"):
        found.update(ref=words[1], entry=int(words[2]), fault=words[3], why=" ".join(words[4:]))
    return f"{json.dumps(found, sort_keys=True)}\n".encode()


def show_verdict(work, words, meant, source, printed, account):
    """Prints a verdict as it is asked for, with what is told of its entries."""
    line = os.fsdecode(printed).rstrip("\n")
    told = account.of(meant.name, line) if account and printed else None
    if words.json and printed:
        show(json_of(work, line, meant, source, told))
        return
    show(printed)
    for it in accounts.in_lines(told or [], account):
        print(it, flush=True)


def show_global(work, words, meant, source, verdicts):
    """Prints the line on a reference by global rules, where there is one, and returns its status."""
    status, printed = verdicts.of(meant.name)
    line = os.fsdecode(printed).rstrip("\n")
    show(json_of(work, line, meant, source, None) if words.json and printed else printed)
    if is_heard():
        word = names.word_here(work.repository, meant.name)
        say(sentences.of_line(line, meant.remote, word) if printed else sentences.of_status("verify-global", status))
    return status


def account_of(work, words):
    """What tells of entries, where that is asked for and there are any."""
    return accounts.Accounts(work) if words.verbose and LOG in work.repository.references() else None


def verify(work, words):
    work.bring()
    trust.expect_entry(work, words)
    withheld.expect_none(work)
    odd = [] if words.branches else unspeakable(work)
    for it in odd:
        tell(f"no log can speak of {plain_name(it)}, which a rule may protect")
    meant, account = meant_by(work, words), account_of(work, words)
    root, source = trust.anchor(work, words)
    asking.ahead(work, [asked_for(work, it, root) for it in meant])
    if words.json or is_heard():
        ask_for_rules(work, [it.name for it in meant])
    worst, references = 1 if odd else 0, work.repository.references()
    by_global_rules = GlobalVerdicts(work, root)
    for it in meant:
        status, printed = verdict(work, it, root)
        show_verdict(work, words, it, source, printed, account)
        line = os.fsdecode(printed).rstrip("\n")
        is_odd = not words.branches and (sentences.is_unrecorded(line) or it.remote and not words.remote and it.name in references)
        if is_odd or is_heard():
            said = said_of(work, it, line, source) if printed else sentences.of_status("verify-ref", status)
            (tell if is_odd else say)(said)
        worst = max(worst, status)
        if status < 2:
            worst = max(worst, show_global(work, words, it, source, by_global_rules))
    beside = elsewhere(work, meant) if words.branches and words.remote is None else ()
    for it in [*map(sentences.of_elsewhere, beside), *otherwise.of_all(work, [] if words.branches else meant)]:
        tell(it)
    # A log that does not fit is of somebody who was shown another one.
    return max(worst, 3) if any(name == LOG for _, name, _ in work.unfit) else worst
