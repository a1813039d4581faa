"""What a line of the program means, in a sentence for a person, and what to do about it."""


import os

from git_gittuf import names
from git_gittuf.names import short
from git_gittuf.shown import plain, quoted


class Name:
    """A reference of a line: how a sentence names it, and the word for it in a line that is to be copied."""

    def __init__(self, whole, remote=None, word=None, is_checked_out=False):
        self.is_checked_out = is_checked_out
        word = word or short(os.fsencode(whole))
        self.word, self.shown = quoted(word), plain(word)
        self.whole, self.is_branch = quoted(whole), whole.startswith("refs/heads/")
        self.place = f"{self.shown} of {plain(remote)}" if remote else self.shown
        self.it = self.place if remote else "it"


def of_accepted(name, words):
    if words[2] == "0":
        return f"Nothing stands at {name.place} and the log says nothing of it: look at the name."
    if words[2] == "1":
        return f"The one recorded change of {name.shown} was lawful, and {name.it} stands where the log says."
    return (
        f"Each of the {words[2]} recorded changes of {name.shown} was lawful or was taken back, and {name.it} stands where the"
        " log says."
    )


def of_tip(name, words):
    kept, recorded = words[3], words[5]
    # In lines to copy an id stands whole: the front of one may be the name of somebody's tag.
    back = f"git update-ref {name.whole} {recorded}"
    # A word that is a whole name would be taken for the branch's own.
    if name.is_branch and not name.word.startswith(("refs/", "'refs/")):
        back = f"git branch --force {name.word} {recorded}"
    if not int(recorded, 16):
        return (
            f"No entry of the log says where {name.place} stands. If it is new here, git gittuf record {name.word}; else"
            " the log was cut: git fetch, or ask who recorded last."
        )
    if not int(kept, 16) and name.place != name.shown:
        return f"The log has {name.shown} at {recorded[:12]}, and there is no {name.place}: git fetch, or ask who may write there."
    if not int(kept, 16):
        return (
            f"The log has {name.shown} at {recorded[:12]}, and here is no {name.shown}: git fetch, and {back} makes it. If"
            f" it was removed lawfully, git gittuf record {name.whole}."
        )
    came = f"git log {recorded}..{kept} shows what came"
    if name.place != name.shown:
        return f"{name.place} was moved and that is not recorded here: {came}. Take nothing of it that no entry records."
    if name.is_checked_out:
        # Git moves such a branch by nothing else, and what is not committed stays.
        back = f"git reset --keep {recorded}"
    return (
        f"{name.shown} was moved and that was not recorded: {came}. If it is yours, git gittuf record {name.word}; if not,"
        f" {back} takes it back."
    )


def of_gone(words, number, remote=None, word=None, is_checked_out=False):
    """Of a reference that stands here, or at a remote, and of which the last entry that counts says that it is gone."""
    name, kept = Name(words[1], remote, word), words[3]
    said = f"Entry {number} says that {name.shown} is gone, and {name.place} stands at {kept[:12]}"
    if remote:
        return f"{said}: git fetch --prune {quoted(remote)}, or ask who may write there."
    # A fetch brings a tag that the remote still has.
    gone = f"git branch -D {name.word}" if name.is_branch and name.word != name.whole else f"git update-ref -d {name.whole} {kept}"
    # Git takes no branch away whose files are there to be worked on.
    gone = f"git switch --detach && {gone}" if is_checked_out else gone
    return f"{said}: {gone} lets it go here too. If it is to be there again, git gittuf record {name.whole}."


def of_violation(name, words):
    """What an entry did that is not lawful, and what leads out of that."""
    way = f" Who may change {name.shown} calls git gittuf recover {name.word}, which leads back to the files that it had before."
    back = "" if words[4:] == ["anchor"] else of_back(name, words)
    return of_unlawful(name, words) + {"ref-rule": way, "path-rule": way, "not-epoch": back}.get(words[3], "")


def of_back(name, words):
    return f" git gittuf skip {words[2]} and git gittuf record {name.whole} take it back."


def of_unlawful(name, words):
    number, fault = words[2], words[3]
    if fault == "no-policy":
        return (
            f"Entry {number} was recorded while no policy was in force, or none whose first keys are those of --root,"
            " of gittuf.root or of gittuf.firstRoot. The first policy comes before what it is to protect, by git gittuf policy"
            " apply, and ids that are given are those of its keys."
        )
    if fault == "broken":
        way = "git fetch may bring it, and else a git gittuf push by who recorded it"
        return f"What entry {number} recorded, or what stood before, lacks the object {words[4][:12]}: {way}."
    if fault == "ref-rule":
        return f"Entry {number} moved {name.shown}, and of the {of_persons(words[7])} rule {words[4]} wants {words[5]} signed that."
    if fault == "path-rule":
        return f"Entry {number} changed {words[4]}, and of the {of_persons(words[8])} rule {words[5]} wants {words[6]} signed that."
    if words[4:] == ["anchor"]:
        return (
            f"Entry {number} recorded a first policy whose root keys are others than --root, gittuf.root or gittuf.firstRoot says,"
            " and it is not believed. Either these ids are not those of its keys, which the persons tell, or this is not their repository."
        )
    return f"Entry {number} recorded a policy that does not follow the one in force, which goes on: {' '.join(words[4:])}."


def of_global_kept(name, words):
    return f"Each recorded change of {name.shown} keeps what holds whatever the rules delegate, or was taken back."


def of_global_violation(name, words):
    """Which global rule an entry breaks, and what leads out of that."""
    number, fault = words[2], words[3]
    way = f" Once it is taken back, git gittuf skip {number} says so."
    if fault == "bad-file":
        return f"Entry {number} was recorded under a policy whose file of global rules is none, or is signed by too few.{way}"
    rule = plain(words[4])
    if fault == "threshold":
        short = f"For {plain(words[5])} entry {number} was signed by {words[6]} at most of those whom one rule asks"
        return f"{short}; global rule {rule} wants {words[8]}.{way}"
    if fault == "rewound":
        return f"Entry {number} took {name.shown} back, or to another history, and global rule {rule} lets it only go on.{way}"
    return f"Entry {number} took {name.shown} too far to tell whether it went on, as global rule {rule} wants.{way}"


def of_persons(count):
    return "one person whom" if count == "1" else f"{count} persons whom"


def of_fault(line):
    """The sentence on what is not lawful in a line of a violation, without what leads out of it."""
    words = line.split(" ")
    return of_unlawful(Name(words[1]), words)


def of_elsewhere(meant):
    """Of a branch of a remote that stands where no entry has it, beside one here that is judged."""
    word = os.fsdecode(names.remote_branch(meant.name, meant.remote)[len(names.REMOTES) :])
    return f"{plain(word)} stands where no entry has it, and is not judged here: git gittuf verify {quoted(word)}"


def of_unprotected(word, rules):
    """What is added where no rule says who may change a reference, but these for paths."""
    but = f", but for the paths of {', '.join(map(plain, rules))}" if rules else ""
    return f" No rule protects {plain(word)}, so anybody may change it{but}."


# What is added where nobody said whose the first policy is.
UNPINNED = " Whose the first policy is was only seen here, and said by nobody: git gittuf setup --root KEYID,.. pins it."


# Why nothing is judged where there is no log.
NO_LOG = "there is no log here: git gittuf setup and git fetch bring one, and git gittuf policy init and git gittuf policy apply begin one"
# Why an entry would be a violation that nothing comes before.
NO_POLICY = (
    "no policy is in force, or none whose first keys are those of gittuf.root or gittuf.firstRoot: git gittuf policy init and"
    " git gittuf policy apply come first"
)


def of_no_log(has_remote):
    """Of a clone that has no log."""
    if has_remote:
        return "There is no log here, and nothing is judged by one: git gittuf setup && git fetch brings the remote's."
    return "There is no log here: git gittuf policy init and git gittuf policy apply begin one."


def of_behind(repository, meant, words):
    """Of a branch that has not gone as far as the log has it."""
    name = Name(words[1], meant.remote)
    where = f"{name.place} is behind the log, which has it at {words[5][:12]}"
    if meant.remote:
        return f"{where}: git fetch brings what was pushed since."
    ahead = [it for it in names.in_place_of(repository, repository.references(), meant.name) if it.value == words[5].encode()]
    place = names.word_at_remote(repository, names.remote_branch(meant.name, ahead[0].remote)) if ahead else words[5]
    if repository.head() == meant.name:
        return f"{where}: git merge --ff-only {quoted(place)}"
    return f"{where}: git fetch {quoted(ahead[0].remote) + ' ' + name.whole if ahead else '. ' + words[5]}:{name.whole}"


def of_limit(words):
    """Of a target that is there, and that no verdict takes."""
    return (
        f"Entry {words[2]} recorded what Git has at {words[4][:12]}, and the program takes none such: a tag of a file, a mode that"
        " is no longer used, more than 262,144 paths, or trees deeper than 32. docs/FORMATS.md has the limits."
    )


def is_unrecorded(line):
    """Whether a line says that no entry records where a reference stands."""
    words = line.split(" ")
    return words[0] == "tip-differs" and not int(words[5], 16)


def of_line(line, remote=None, word=None, is_checked_out=False):
    """The sentence for a line that verify-ref or verify-global printed, of a branch here or of a remote's in its place, named by a word."""
    words = line.split(" ")
    if words[0] == "log-broken":
        return f"The log is damaged or was tampered with at {words[1][:12]}: nothing is judged. git gittuf doctor says more."
    kinds = {"accepted": of_accepted, "tip-differs": of_tip, "violation": of_violation}
    kinds.update({"global-kept": of_global_kept, "global-violation": of_global_violation})
    return kinds[words[0]](Name(words[1], remote, word, is_checked_out), words)


# What a status of the program says beyond its own line, by the command's name.
OF_STATUS = {
    ("policy-apply", 3): "The policy is not taken, for this reason; what is in force goes on. git gittuf policy show says who signed.",
    ("approve", 3): "The commit cannot be read as a whole, or the approval has no room.",
    ("mirror", 3): "What is there is past the limits of a stream, or the database is of another schema: nothing was taken.",
    (None, 4): "Something outside failed: the disk, the key file's rights, or another program that has it. Nothing was judged.",
    (None, 5): "There was not enough memory.",
    (None, 6): "Each signature of this key is used up: git gittuf key makes another at a new gittuf.key, for policy person.",
}


def of_status(command, status):
    return OF_STATUS.get((command, status)) or OF_STATUS.get((None, status))
