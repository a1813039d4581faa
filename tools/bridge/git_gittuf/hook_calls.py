"""What the hooks do that Git calls: `pre-push` in a clone before a push leaves it, `pre-receive` on a server before it is taken."""

import errno
import os
import select
import subprocess
import sys

from git_gittuf import gating, hooks
from git_gittuf.budgets import budget
from git_gittuf.gating import Push
from git_gittuf.remotes import SECONDS, beside
from git_gittuf.repository import LOG, ZEROS, Stopped
from git_gittuf.shown import plain, plain_name
from stream_format import Git

# Where Git has the objects of a push that it has not taken.
QUARANTINE = ("GIT_OBJECT_DIRECTORY", "GIT_ALTERNATE_OBJECT_DIRECTORIES", "GIT_QUARANTINE_PATH")
# The setting by which a push leaves a clone unjudged.
ANYWAY = "gittuf.anyway"


def called_first(repository, name, words, given):
    """The status of the hook of others that stood in the place of the own one, which gets what that got."""
    path = os.path.join(hooks.folder_of(repository), name + hooks.OTHERS)
    if not os.access(path, os.X_OK):
        # Git calls no such hook either.
        return 0
    try:
        return subprocess.run((path, *words), input=given, check=False).returncode
    except OSError as error:
        if error.errno != errno.ENOEXEC:
            raise
        # A text that does not name what reads it is the shell's, as for Git.
        return subprocess.run(("/bin/sh", path, *words), input=given, check=False).returncode


def value_of(text):
    return None if text == ZEROS else text


def call(work, words):
    given = sys.stdin.buffer.read()
    status = called_first(work.repository, words.step, words.more, given)
    if status:
        return status
    lines = [it.split(b" ") for it in given.splitlines()]
    return (before_push if words.step == hooks.CLONE else before_receive)(work, words, lines)


def asked_where(repository, place, names):
    """Where references stand at a remote now."""
    words = ("git", *repository.where, "ls-remote", "--quiet", "--", place, *map(os.fsdecode, names))
    environment = {**os.environ, "GIT_TERMINAL_PROMPT": "0", "LC_ALL": "C"}
    try:
        ran = subprocess.run(words, stdin=subprocess.DEVNULL, capture_output=True, timeout=SECONDS, env=environment, check=False)
    except subprocess.TimeoutExpired:
        ran = None
    if ran is None or ran.returncode:
        raise Stopped(f"{plain(place)} does not say where {plain_name(names[0])} stands, of which the log that is pushed speaks")
    rows = dict(reversed(it.split(b"\t", 1)) for it in ran.stdout.splitlines())
    return {it: rows.get(it) for it in names}


def before_push(work, words, lines):
    """Refuses a push that would leave the remote with something unlawful, as far as is known here of what it has."""
    repository = work.repository
    if repository.config(ANYWAY, "--type=bool")[-1:] == ["true"]:
        return 0
    remote, place = (*words.more, "", "")[:2]
    moves = {name: (value_of(old), value_of(new)) for _, new, name, old in lines}
    # What is not pushed stays as it was seen there last.
    log = moves.get(LOG) or (repository.references().get(beside(remote, LOG)),) * 2
    spoken = [it for it in gating.spoken_of(work, log) if it not in moves]
    if spoken:
        moves.update({name: (value, value) for name, value in asked_where(repository, place, spoken).items()})
    # What stands here and lies in the way of what is pushed may not be there.
    own = [it for it in repository.references() if it not in moves]
    moves.update({it: (None, None) for name, (_, new) in list(moves.items()) if new for it in gating.in_the_way(own, name)})
    gating.expect_none(work, Push(moves, log))
    return 0


def before_receive(work, words, lines):
    """Refuses a push that would leave something unlawful here, and else keeps the lock until Git has moved the references."""
    repository = work.repository
    budget.begin(repository)
    there = repository.all_references()
    moves = {name: (value_of(old), value_of(new)) for old, new, name in lines}
    gone_on = [name for name, (old, _) in moves.items() if there.get(name) != old]
    if gone_on:
        raise Stopped(f"nothing of this push is taken, as {plain_name(gone_on[0])} was moved meanwhile: git gittuf push tries again", 1)
    log = moves.get(LOG) or (there.get(LOG),) * 2
    Git.told_too = {it: os.environ[it] for it in QUARANTINE if it in os.environ}
    try:
        gating.expect_none(work, Push(moves, log))
    finally:
        Git.told_too = {}
    hold(work, moves)
    return 0


def hold(work, moves):
    """Lets a process of its own keep the lock until Git has moved the references or has ended.

    So what was judged is what the next push goes on from, also where two come at once.
    """
    work.repository.readers.close()
    receiver = os.getppid()
    if os.fork():
        return
    try:
        os.setsid()
        null = os.open(os.devnull, os.O_RDWR)
        for it in range(3):
            os.dup2(null, it)
        ended = select.poll()
        ended.register(os.pidfd_open(receiver), select.POLLIN)
        while not ended.poll(1000):
            work.repository.listed = None
            there = work.repository.all_references()
            if all(there.get(name) == new for name, (_, new) in moves.items()):
                break
    finally:
        os._exit(0)
