"""How the log, the policies and the approvals go to other clones and come from them.

What a remote has below refs/gittuf/ is fetched beside the own references, and never over them. `following` says which of
it is taken over.
"""

import os
import re
import subprocess

from git_gittuf.repository import LOG, OWN, REMOTES, STAGED, Stopped
from git_gittuf.shown import plain, quoted

BESIDE = b"refs/gittuf-remotes/"
# What may mean something else in an expression of Git's.
SIGNS = re.compile(r"[!-/:-@\[-`{-~]")


def refspecs(remote):
    return {
        f"remote.{remote}.fetch": [f"+refs/gittuf/*:refs/gittuf-remotes/{remote}/*"],
        f"remote.{remote}.push": ["HEAD", "refs/gittuf/*:refs/gittuf/*"],
    }


def lacking(repository, remote):
    """The settings that let git fetch and git push carry refs/gittuf/, and are not there yet."""
    found = []
    for name, wanted in refspecs(remote).items():
        have = repository.config(name)
        # Where something is said of what is pushed, that stays so.
        lack = [it for it in wanted if it not in have and not (it == "HEAD" and have)]
        found += [(name, it) for it in lack]
    return found


def strays(repository, remote):
    """The settings by which git fetch puts what a remote has to where that of another stands, as git remote rename leaves them."""
    (name, own), _ = refspecs(remote).items()
    front = f"+refs/gittuf/*:{BESIDE.decode()}"
    return [(name, it) for it in repository.config(name) if it.startswith(front) and it not in own]


def set_up(repository, remote):
    for name, value in (changes := lacking(repository, remote)):
        repository.set("--add", name, value)
    return changes


def take_away_strays(repository, remote):
    for name, value in (changes := strays(repository, remote)):
        # Git takes an expression there.
        just = SIGNS.sub(r"[\g<0>]", value)
        repository.set("--unset-all", name, f"^{just}$")
    return changes


def remotes(repository):
    return repository.remotes()


# By this setting a remote is known for a desk, to which Git cannot talk. Its value is the port.
DESK = "gittufdesk"


def port_of(repository, remote):
    """The port of the desk that a remote is, or nothing where it is one of Git's."""
    return next(iter(repository.config(f"remote.{remote}.{DESK}")), None)


def is_desk(repository, remote):
    return port_of(repository, remote) is not None


def of_git(repository):
    """The remotes to which Git talks."""
    return [it for it in repository.remotes() if not is_desk(repository, it)]


def desk_alone(repository):
    """The port of a desk that was fetched from, where there is no remote to which Git talks; or nothing."""
    return None if of_git(repository) else next((port_of(repository, it) for it in repository.remotes()), None)


def set_up_desk(repository, remote, port):
    """Makes a remote of a desk, as Git lists it and fetches nothing of it."""
    if repository.config(f"remote.{remote}.{DESK}") == [str(port)]:
        return
    repository.set(f"remote.{remote}.skipFetchAll", "true")
    repository.set(f"remote.{remote}.{DESK}", str(port))


def remote_named(repository, word):
    """The remote that is meant: the named one, origin, or the only one; nothing where there is none."""
    found = of_git(repository)
    if word and word not in found:
        if word in repository.remotes():
            raise Stopped(f"{plain(word)} is a desk: git gittuf push --desk PORT and git gittuf fetch --desk PORT talk with it", 3)
        raise Stopped(f"there is no remote {plain(word)}: git remote -v lists them", 3)
    if word or not found:
        return word
    if "origin" not in found and len(found) > 1:
        raise Stopped(f"which remote is meant? git gittuf setup {quoted(found[0])}, for one", 2)
    return "origin" if "origin" in found else found[0]


# A server that does not answer so soon is not waited for.
SECONDS = 20


def asked_log(repository, remote):
    """Whether a remote answers, and at which id it has a log now, or nothing."""
    words = ("git", *repository.where, "ls-remote", "--quiet", "--", remote, LOG.decode())
    environment = {**os.environ, "GIT_TERMINAL_PROMPT": "0", "LC_ALL": "C"}
    try:
        ran = subprocess.run(words, stdin=subprocess.DEVNULL, capture_output=True, timeout=SECONDS, env=environment)
    except subprocess.TimeoutExpired:
        return False, None
    found = [it.split(b"\t")[0] for it in ran.stdout.splitlines() if it.endswith(b"\t" + LOG)]
    return ran.returncode == 0, found[0] if found else None


def is_before(repository, first, second):
    """Whether the second commit has the first one in its history."""
    if first == second and repository.are_commits([first]):
        return True
    known = repository.known_before
    if (first, second) not in known:
        status = repository.git("merge-base", "--is-ancestor", first.decode(), second.decode())[0]
        if status > 1:
            # One of them is not here, and may come.
            return False
        known[first, second] = status == 0
    return known[first, second]


def fetched(repository, references, ids):
    """Those of these objects that are commits which a remote has, as what was fetched from it reaches them."""
    commits = [it[0] for it in repository.rows(ids) if it and it[1] == b"commit"]
    tips = {value for name, value in references.items() if name.startswith((REMOTES, BESIDE))}
    if not commits or not tips:
        return set()
    lines = b"".join([*(b"%s\n" % it for it in commits), *(b"^%s\n" % it for it in repository.there(tips))])
    return set(commits) - set(repository.asked("list what was fetched", "rev-list", "--stdin", input=lines).split())


def of_gittuf(references):
    """Those below refs/gittuf/, and those that remotes have there."""
    return {name: value for name, value in references.items() if name.startswith((OWN, BESIDE))}


def beside(remote, name):
    """Where that stands which a remote has at an own name."""
    return BESIDE + os.fsencode(remote) + name[len(OWN) - 1 :]


def stands(repository, own, value):
    """How an own value stands to a remote's, of which each is a commit that goes on from the one before."""
    if value is None or own == value:
        return "same"
    if not repository.are_commits([value]):
        return "odd"
    if own is None or is_before(repository, own, value):
        return "behind"
    return "ahead" if is_before(repository, value, own) else "apart"


def standing(repository, references):
    """For the log of each remote, and for what is edited there: the remote, the own name, both values, and how these stand."""
    found = []
    for remote in remotes(repository):
        for name in (LOG, STAGED):
            own, value = references.get(name), references.get(beside(remote, name))
            found.append((remote, name, own, value, stands(repository, own, value)))
    return found


def move(repository, moves):
    lines = b"".join(b"update %s\0%s\0%s\0" % (name, value, own) for name, (own, value) in moves.items())
    repository.listed = None
    repository.asked("move the references below refs/gittuf/", "update-ref", "--stdin", "-z", input=lines)
