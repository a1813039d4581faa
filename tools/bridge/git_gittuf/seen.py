"""Up to where the logs of remotes were seen to go, so that one that goes back, or is gone, is told."""

import json
import os
import re
import time

from git_gittuf.remotes import beside, is_before
from git_gittuf.repository import LOG

URL = re.compile(r"(/|\.git)+$")
# A line of what git fetch noted: the id, whether it is for a merge, and what it is of which remote.
FETCHED = re.compile(r"[0-9a-f]{64}\t(not-for-merge)?\t(branch |tag |)'([^']*)' of (\S+)\n")


def path_of(repository):
    return os.path.join(repository.folder, "seen")


def noted(repository):
    """The tip of each remote's log and when it was noted, in nanoseconds since 1970, by the remote."""
    try:
        with open(path_of(repository), encoding="utf-8") as file:
            found = {name: (it["tip"], int(it["at"])) for name, it in json.load(file).items()}
        return {name: (tip.encode(), at) for name, (tip, at) in found.items() if re.fullmatch("[0-9a-f]{64}", tip)}
    except (OSError, ValueError, KeyError, TypeError, AttributeError):
        return {}


def read(repository):
    """The tip of each remote's log, by the remote, as far as the own log has it."""
    return {name: tip for name, (tip, _) in noted(repository).items()}


def write(repository, tips, anew=None):
    """Notes these tips, with the time of now where one is another, or is that of a remote that is noted anew."""
    held = noted(repository)
    if anew is None and tips == {name: tip for name, (tip, _) in held.items()}:
        return
    now = time.time_ns()
    is_same = lambda name: name != anew and name in held and held[name][0] == tips[name]
    found = {name: {"tip": tip.decode(), "at": held[name][1] if is_same(name) else now} for name, tip in tips.items()}
    # Calls that only read write it side by side.
    path, beside_it = path_of(repository), f"{path_of(repository)}.{os.getpid()}"
    with open(beside_it, "w", encoding="utf-8") as file:
        json.dump(found, file)
    os.rename(beside_it, path)


def fetched_without_log(repository, remote):
    """Whether the last git fetch, since its log was noted, asked this remote for all that it has, and got no log."""
    try:
        with open(os.path.join(repository.git_dir, "FETCH_HEAD"), encoding="utf-8", errors="replace") as file:
            if os.stat(file.fileno()).st_mtime_ns < noted(repository).get(remote, (None, 0))[1]:
                return False
            lines = [FETCHED.fullmatch(it) for it in file]
    except OSError:
        return False
    url = repository.git("remote", "get-url", remote)[1].decode(errors="replace").strip()
    of_it = [it for it in lines if it and URL.sub("", it[4]) == URL.sub("", url)]
    # What is named beside what is merged came by the settings, as the log does.
    asked_all = any(it[1] and it[2] != "tag " for it in of_it)
    return asked_all and not any(it[3] == LOG.decode() for it in of_it)


def went_back(repository, references, remote, how, tips):
    """How a remote's log stands that fits the own one: as it does, or back from where it was seen, or dropped."""
    value, last = references.get(beside(remote, LOG)), tips.get(remote)
    if last is None or not repository.there([last]):
        return how
    if value is None or fetched_without_log(repository, remote):
        return "dropped"
    return "back" if how in ("ahead", "behind") and value != last and is_before(repository, value, last) else how


def note(repository, references, own, unfit):
    """Notes where the logs of remotes stand, as far as the own one goes there."""
    tips = read(repository)
    odd = {remote for remote, name, _ in unfit if name == LOG}
    for remote in repository.remotes():
        value = references.get(beside(remote, LOG))
        if value and own and remote not in odd and is_before(repository, value, own):
            tips[remote] = value
    write(repository, tips)


def pushed(repository, remote):
    """Notes that a remote has the own log now, where Git keeps what it has: else it would look as if it were gone."""
    references = repository.references()
    own = references.get(LOG)
    if own and references.get(beside(remote, LOG)) == own:
        write(repository, {**read(repository), remote: own}, anew=remote)


def forget(repository, remote):
    """Takes a remote's log for what it is from now on."""
    write(repository, {name: tip for name, tip in read(repository).items() if name != remote})
