"""The words of git gittuf that begin and that sign, but those of its policy."""

import os

from git_gittuf import consents, copying, following, fronts, gate_sentences, history, keys, leaves, longer_logs, looking, names, remotes, sentences, settings
from git_gittuf import skipping, stores, withheld
from git_gittuf.global_verdicts import GlobalVerdicts
from git_gittuf.program import Ended
from git_gittuf.remotes import is_before
from git_gittuf.repository import ATTESTATIONS, LOG, ZEROS, Stopped
from git_gittuf.shown import plain, quoted
from git_gittuf.telling import say, show, tell


def setup(work, words):
    if words.root is not None:
        settings.keep(work.repository, settings.SAID, words.root)
    if words.entry is not None:
        settings.keep(work.repository, settings.ENTRY, words.entry)
    if words.anew or words.store:
        fronts.forget(work)
    if words.anew:
        work.kept.remove()
        work.kept.make()
    if words.store:
        stores.move(work, words.store)
    remote = remotes.remote_named(work.repository, words.remote)
    for name, value in remotes.take_away_strays(work.repository, remote) if remote else []:
        print(f"{name} no longer has {value}")
    for name, value in remotes.set_up(work.repository, remote) if remote else []:
        print(f"{name} has {value}")
    print(f"the store has {work.bring()} objects more, {work.kept.place}")
    if not remote and work.repository.top:
        say("There is no remote: after git remote add, git gittuf setup lets git push and git fetch carry the log.")
    if not keys.is_there(keys.path_of(work.repository)):
        say("Who signs has a key: git gittuf key makes one. Who only verifies needs none.")


def key(work, words):
    path = keys.path_of(work.repository)
    if words.file:
        path = os.path.abspath(words.file)
    is_new = not keys.is_there(path)
    if is_new:
        if words.id or words.public:
            raise Stopped(f"there is no key at {path}: git gittuf key makes one")
        keys.make(work.repository, path, words.height, words.width, words.bottom)
    if words.file and path not in work.repository.config("gittuf.key", "--type=path"):
        keys.expect_outside(work.repository, path)
        work.repository.set("gittuf.key", path)
    key_id, public = keys.id_and_public(path)
    print(key_id if words.id else public if words.public else f"key {key_id} {public}")
    if words.id or words.public:
        return
    if not is_new and (said := leaves.spoilt(work.repository, path)):
        say(f"{said}; it signs nothing more: git gittuf key --file <another path> makes another, for policy person")
        return
    left, all_of_them = keys.signatures_left(path)
    begins = "It is new, stands" if is_new else "It was there already, stands"
    say(f"{begins} at {path}, and has {left} of {all_of_them} signatures left. Never copy it: a copy would sign twice.")


def expect_one_log(work, anyway):
    """Refuses to begin a log where a remote has one, or may have one."""
    repository = work.repository
    if LOG in repository.references() or anyway:
        return
    for remote in remotes.of_git(repository):
        answers, there = remotes.asked_log(repository, remote)
        setup = f"git gittuf setup {quoted(remote)} && git fetch {quoted(remote)}"
        if there:
            raise Stopped(f"there is no log here, and {plain(remote)} has one, beside which none is begun: {setup}", 3)
        if not answers:
            said = f"there is no log here, and {plain(remote)} does not answer whether it has one"
            raise Stopped(f"{said}: {setup}; --anyway begins one here", 3)


def expect_no_step_back(work, name, value):
    """Refuses to record that a branch goes back to what the log has left behind, which a fetch without a merge looks like."""
    repository, listed = work.repository, looking.entries_of(work)
    entry, last = history.last_recorded(listed, name)
    if value is None or last in (None, ZEROS, value) or not repository.are_commits([last, value]) or not is_before(repository, value, last):
        return
    if entry in skipping.skips(work, listed):
        return
    meant = names.Meant(name)
    line = ["tip-differs", os.fsdecode(name), "kept", value.decode(), "recorded", last.decode()]
    said = sentences.of_behind(repository, meant, line)
    raise Stopped(f"{said}; --anyway records that it goes back", 3)


def expect_own(name):
    """Refuses to sign for where something of a remote was seen."""
    if not copying.is_own(name):
        raise Stopped(f"{plain(os.fsdecode(name))} is no branch or tag of one's own: what a remote has is recorded by its name there", 3)


def recorded_by(work, name, value, path, anyway=False):
    """Records where a reference stands, which is there still, where that is lawful, and returns the program's line."""
    work.bring(maybe=[value] if value else [])
    if work.kept.references().get(name) != value:
        raise Stopped(f"nothing is recorded, as {plain(names.short(name))} was moved meanwhile: run it again", 3)
    return recorded_as_brought(work, name, value, path, anyway)


def recorded_in_store(work, before, name, path):
    """Records where the store has a reference, behind a log of which the program printed this, and returns its line."""
    printed = work.asked("record", os.fsdecode(name), key=path)
    longer_logs.keep(work, before, printed, name)
    return printed


def recorded_as_brought(work, name, value, path, anyway):
    """The same of a reference as the store has it."""
    listed = looking.entries_of(work)
    kept = history.kept_targets(work.repository, history.last_recorded(listed, name), name, value, skipping.skips(work, listed))
    key = looking.key_id(path)
    if not anyway:
        looking.expect_lawful(work, name, value, key)

    def steps():
        printed = recorded_in_store(work, longer_logs.printed(work), name, path)
        if not anyway:
            looking.expect_accepted(work, name, value, int(printed.split()[1]), key)
        return printed

    return work.change(steps, kept)


def brought(work, name):
    """Where the store has a reference, with what it has there, also where another moves it meanwhile."""
    # What it stands at comes with all else, so that the log is read once.
    withheld.bring(work, maybe=[it for it in [work.repository.references().get(name)] if it])
    last = None
    while (value := work.kept.references().get(name)) not in (None, last) and not work.kept.has(value):
        work.bring(maybe=[value])
        last = value
    return value


def record(work, words):
    repository = work.repository
    name = names.own_name(repository, words.branch, lambda: history.brought_names(work))
    expect_own(name)
    value = brought(work, name)
    if value is None and history.last_recorded(looking.entries_of(work), name)[1] is None:
        raise names.no_such(repository, words.branch, history.recorded_names(work))
    path = leaves.signing_key(repository)
    expect_one_log(work, words.anyway)
    if not words.anyway:
        withheld.expect_here(work)
        expect_no_step_back(work, name, value)
    printed = recorded_as_brought(work, name, value, path, words.anyway)
    show(printed)
    if not words.anyway:
        tell_of_global(work, name, os.fsdecode(printed).split()[1])
    say_what_carries_it(repository)


def tell_of_global(work, name, number):
    """Tells that the entry of this number, which was recorded just now, breaks a global rule: that keeps nobody from recording it."""
    line = os.fsdecode(GlobalVerdicts(work, settings.held_to(work.repository)).of(name)[1]).strip()
    if line.startswith("global-violation ") and line.split(" ")[2] == number:
        tell(f"{sentences.of_line(line)} {gate_sentences.GIVE_UP}.")


def say_what_carries_it(repository):
    """Names the next step to a person, once something is recorded."""
    carried, desk = ", ".join(plain(it) for it in remotes.of_git(repository)), remotes.desk_alone(repository)
    if desk:
        say(f"git gittuf push --desk {desk} carries it to the desk.")
    else:
        say(f"git gittuf push carries it to {carried or 'others, once there is a remote'}.")


def approved_by(work, name, target, path):
    """Approves that a reference goes to the files of a commit, or with none that it goes, and records that."""

    def steps():
        before, printed = longer_logs.printed(work), work.asked("approve", name, target.decode(), key=path)
        return printed + recorded_in_store(work, before, ATTESTATIONS, path)

    try:
        return work.change(steps)
    except Ended as ended:
        if ended.status == 3:
            expect_place(work, name)
        raise


def branch_here(repository, word, name):
    """The name of a branch or tag that is here, or a refusal that names a remote's in its place."""
    references = repository.references()
    if os.fsencode(name) in references:
        return name
    beside = names.in_place_of(repository, references, os.fsencode(name))
    if beside:
        at = names.word_at_remote(repository, names.remote_branch(beside[0].name, beside[0].remote))
        way = f"git gittuf approve {quoted(word)} {quoted(at)} approves where {plain(beside[0].remote)} has it"
    else:
        way = f"git fetch --tags may bring it, and git gittuf approve {quoted(word)} COMMIT says where it may go"
    raise Stopped(f"there is no branch or tag {plain(word)} here: {way}", 3)


def commit_named(repository, word):
    """The commit that a word names, or a refusal that names the branch of a remote which has this name."""
    beside = names.in_place_of(repository, repository.references(), names.HEADS + os.fsencode(word))
    if beside and not word.startswith("-") and repository.git("rev-parse", "--verify", "--quiet", word)[0]:
        at = names.word_at_remote(repository, names.remote_branch(beside[0].name, beside[0].remote))
        raise Stopped(f"{plain(word)} names no commit here, and {plain(beside[0].remote)} has a branch of that name: {quoted(at)}", 3)
    return repository.commit_of(word)


def what_is_approved(work, name, target):
    """In a sentence what an approval is of, with the line that shows it."""
    shown, there = plain(names.short(name)), (looking.last_counted(work, name) or ZEROS).decode()
    to = target.decode()
    if target == ZEROS:
        return f"This approves that {shown} goes, which the log has at {there[:12]}."
    if not int(there, 16):
        return f"This approves that {shown} begins with the files of {to[:12]}: git ls-tree -r {to} lists them."
    return f"This approves that {shown} goes from {there[:12]} to the files of {to[:12]}: git diff {there} {to} shows what that changes."


def approve(work, words):
    repository = work.repository
    name = os.fsdecode(names.own_name(repository, words.branch, lambda: history.brought_names(work)))
    expect_own(os.fsencode(name))
    if words.delete and words.commit:
        raise Stopped("--delete approves that a branch goes, and takes no commit", 2)
    target = ZEROS if words.delete else commit_named(repository, words.commit or branch_here(repository, words.branch, name))
    withheld.bring(work, [] if words.delete else [target])
    path = leaves.signing_key(repository)
    expect_one_log(work, words.anyway)
    if not words.anyway:
        withheld.expect_here(work)
        consents.expect_wanted(work, os.fsencode(name), None if words.delete else target, looking.key_id(path))
    say(what_is_approved(work, os.fsencode(name), target))
    show(approved_by(work, name, target, path))
    # A word that names nothing here was taken for a branch.
    word = names.short(os.fsencode(name)) if os.fsencode(name) in repository.references() else name
    shown, what = plain(word), "is gone" if words.delete else "has these files"
    say(f"Once it is pushed, who records that {shown} {what} has your signature for it.")


def expect_place(work, name):
    """Names the way on where something that was recorded stands in the place of a reference's approvals."""
    repository, at = work.repository, ATTESTATIONS.decode()
    parts = f"reference-authorizations/{name}".split("/")
    there = [repository.git("cat-file", "-t", f"{at}:{'/'.join(parts[:it])}")[1] for it in range(1, len(parts) + 1)]
    if set(there) <= {b"tree\n", b""}:
        return
    own = repository.references().get(ATTESTATIONS)
    recorded = following.targets_of(history.entries(work.asked("log")), ATTESTATIONS)
    earlier = [it.decode() for it in recorded if it != own and repository.are_commits([it])]
    tree = f"'{earlier[-1]}^{{tree}}'" if earlier else "$(git mktree </dev/null)"
    back = f"git update-ref {at} $(git commit-tree -p {at} -m 'take back' {tree}) && git gittuf record {at}"
    raise Stopped(f"what was recorded of {at} is in the way of another approval, and goes back by {back}", 3)


def entry_ids(work, words):
    """The ids of the entries that words name, each by its number or the front of its id."""
    there = history.entries(work.asked("log"))
    found = []
    for word in words:
        fits = [it for number, it, *_ in there if str(number) == word or (len(word) >= 6 and it.startswith(word.encode()))]
        if len(fits) != 1:
            count = f"{len(fits)} entries" if fits else "no entry"
            raise Stopped(f"{plain(word)} is the number or the id of {count}: git gittuf log lists them", 3)
        found.append(fits[0].decode())
    return ",".join(found)


def annotate(work, words):
    withheld.bring(work)
    path = leaves.signing_key(work.repository)
    ids = entry_ids(work, words.entries)
    if words.word == "skip" and not words.anyway:
        consents.expect_skips(work, ids.split(","), looking.key_id(path))
    asked = ("annotate", words.word, ids)
    more = (f"--message={words.message}",) if words.message else ()
    show(work.change(lambda: work.asked(*asked, *more, key=path)))
    if words.word == "skip":
        enough = "where it was in no violation it is enough that it stands where it stood"
        say(f"It counts once the branch has the files that it had before, and git gittuf record says so; {enough}.")


def export(work, _):
    work.bring()
    return work.run("export", output=None)[0]


def failed(ended):
    """Says what a status of the program means, and returns it."""
    show(ended.printed)
    if ended.printed.startswith(b"log-broken "):
        say(sentences.of_line(os.fsdecode(ended.printed).strip()))
    else:
        say(sentences.of_status(ended.words[0], ended.status))
    return ended.status
