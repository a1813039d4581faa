"""Which reference a word means: of those that are here, or a remote's in the place of one that is not."""

import os

from git_gittuf import remotes
from git_gittuf.repository import REMOTES, Stopped
from git_gittuf.shown import plain, quoted
from stream_format import is_reference_name

HEADS, TAGS = b"refs/heads/", b"refs/tags/"


class Meant:
    """A reference by its whole name, and where a remote's stands for it, the remote and where that stands."""

    def __init__(self, name, remote=None, value=None):
        self.name, self.remote, self.value = name, remote, value


def short(name):
    """The word for a reference, which is its whole name where a shorter one would mean something else."""
    for front in (HEADS, TAGS):
        rest = name.removeprefix(front)
        if rest != name and not rest.startswith((b"-", b"refs/")) and rest != b"HEAD":
            return os.fsdecode(rest)
    return os.fsdecode(name)


def word_here(repository, name):
    """The same in a repository: of a tag its whole name too, where a branch here or at a remote has the shorter one."""
    rest, references = name.removeprefix(TAGS), repository.references()
    fronts = (HEADS, *(REMOTES + os.fsencode(it) + b"/" for it in remotes.remotes(repository)))
    is_taken = rest != name and any(it + rest in references for it in fronts)
    return os.fsdecode(name) if is_taken else short(name)


def of_remotes(repository, references):
    """The branches of remotes, as the branch here, the remote and where it stands."""
    for remote in remotes.remotes(repository):
        front = REMOTES + os.fsencode(remote) + b"/"
        for name, value in references.items():
            if name.startswith(front) and name != front + b"HEAD":
                yield HEADS + name[len(front) :], remote, value


def remote_branch(name, remote, _=None):
    """Where a branch of a remote stands here."""
    return REMOTES + os.fsencode(remote) + b"/" + name[len(HEADS) :]


def word_at_remote(repository, name):
    """The word for a branch of a remote, which is its whole name where something else here has that word."""
    word = name[len(REMOTES) :]
    others = (b"refs/" + word, TAGS + word, HEADS + word)
    return os.fsdecode(name if any(it in repository.all_references() for it in others) else word)


def places_at_remotes(repository, references):
    """The branches of remotes by their names there, of those at one place the first."""
    found = {}
    for name, remote, value in of_remotes(repository, references):
        found.setdefault(name, {}).setdefault(value, Meant(name, remote, value))
    return {name: [*them.values()] for name, them in found.items()}


def in_place_of(repository, references, name):
    """The branches of remotes that stand for one that is not here."""
    return places_at_remotes(repository, references).get(name, [])


def own_name(repository, word, recorded=tuple):
    """The reference here that a word names: a branch before a tag, HEAD for its branch, or a name below refs/.

    Where no branch or tag here has the word, nor a branch of a remote, it names what the log speaks of, as `recorded` tells that.
    """
    if word == "HEAD":
        name = repository.head()
        if not name:
            raise Stopped("HEAD names no branch here, but a commit alone: git branch --all lists the branches", 3)
        return name
    text, there = os.fsencode(word), repository.references()
    if word.startswith("refs/"):
        return text
    found = next((it for it in (HEADS + text, TAGS + text, b"refs/" + text) if it in there), None)
    if found is None and not in_place_of(repository, there, HEADS + text):
        spoken_of = recorded()
        found = next((it for it in (HEADS + text, TAGS + text) if it in spoken_of), None)
    return found or HEADS + text


def no_such(repository, word, recorded):
    """The refusal of a word that names nothing, with the names that are near."""
    references = repository.references()
    known = {short(it) for it in (*references, *recorded) if it.startswith((HEADS, TAGS))}
    known |= {os.fsdecode(remote_branch(*it)[len(REMOTES) :]) for it in of_remotes(repository, references)}
    rest = next(word.removeprefix(it) for it in ("refs/heads/", "refs/tags/", "refs/", "heads/", "tags/", "") if word.startswith(it))
    # Few calls want it, and it takes long to load.
    import difflib

    near = difflib.get_close_matches(rest, sorted(known), n=3)
    like = f", and near is {' or '.join(map(quoted, near))}" if near else ""
    return Stopped(f"there is no branch or tag {plain(word)}, here or in the log{like}: git branch --all lists the branches", 3)


def named_at_remote(repository, references, name):
    """The branch of a remote that a name below refs/remotes/ is, also by the remote's HEAD."""
    if name.endswith(b"/HEAD"):
        status, found, _ = repository.git("symbolic-ref", "--quiet", os.fsdecode(name))
        name = name if status else found.strip()
    return [Meant(*it) for it in of_remotes(repository, references) if remote_branch(*it) == name]


def of_word(repository, word, recorded):
    """All that a word may mean, so that nobody is answered for something else of the same name.

    A branch here comes before a tag, but a tag not before a branch that a remote or the log has. `recorded` tells of which
    references the log speaks.
    """
    references, name = repository.references(), own_name(repository, word)
    text = os.fsencode(word)
    found = named_at_remote(repository, references, name if name.startswith(REMOTES) else REMOTES + text)
    is_tag = name == TAGS + text
    if name in references and not is_tag:
        return found if found and name.startswith(REMOTES) else [Meant(name), *found]
    branch = HEADS + text if is_tag else name
    found += in_place_of(repository, references, branch)
    found += [Meant(it) for it in ([branch] if not found else []) if it in recorded()]
    found += [Meant(it) for it in [TAGS + text] if it in references or not found and it in recorded()]
    if not found:
        raise no_such(repository, word, recorded())
    return found


def odd_names(repository):
    """The branches and tags, here or at a remote, whose names are outside those that a log takes."""
    remote_fronts = [REMOTES + os.fsencode(it) + b"/" for it in remotes.remotes(repository)]
    for name in repository.all_references():
        front = next((it for it in remote_fronts if name.startswith(it)), HEADS)
        whole = HEADS + name[len(front) :] if front != HEADS else name
        if name.startswith((HEADS, TAGS, *remote_fronts)) and not is_reference_name(whole):
            yield whole


def all_of(repository, recorded, protected):
    """Each reference that the log speaks of, and of each branch and tag here or at a remote those that are protected."""
    references = repository.references()
    beside, spoken = places_at_remotes(repository, references), set(recorded)
    others = sorted({it for it in (*references, *beside) if it.startswith((HEADS, TAGS)) and it not in spoken})
    found = []
    for name in [*recorded, *protected(others)]:
        stand = [] if name in references else beside.get(name)
        found += stand or [Meant(name)]
    return found


def at_remote(repository, remote, name):
    """A branch as a remote has it, which may be nowhere, and else what is here."""
    value = repository.references().get(remote_branch(name, remote)) if name.startswith(HEADS) else None
    return Meant(name, remote, value) if name.startswith(HEADS) else Meant(name)


def all_at_remote(repository, remote, recorded, protected):
    """The same of a remote's branches, and of the tags here."""
    references, spoken = repository.references(), set(recorded)
    there = {name for name, other, _ in of_remotes(repository, references) if other == remote}
    others = sorted({it for it in (*references, *there) if it.startswith(TAGS) or it in there} - spoken)
    return [at_remote(repository, remote, it) for it in [*recorded, *protected(others)]]


def of_word_at_remote(repository, remote, word, recorded):
    """What a word names of what a remote has: a branch of its, or else a tag here."""
    references, text = repository.references(), os.fsencode(word)
    for name in [text] if word.startswith("refs/") else [HEADS + text, TAGS + text]:
        there = remote_branch(name, remote) if name.startswith(HEADS) else name
        if there in references or name in recorded():
            return at_remote(repository, remote, name)
    raise no_such(repository, word, recorded())
