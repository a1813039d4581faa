"""What stands in a policy's tree, of whoever made it: the files that the program reads, and those that are carried along."""

from git_gittuf.repository import STAGED, Stopped
from git_gittuf.shown import plain

# A policy has a file for its root, one for its rules and one for each rule that goes on elsewhere.
MANY, DEPTH = 4096, 32
TOPS, GLOBAL_PATH = (b"metadata/",), b"global/rules.json"
FOLDER, FILES = b"40000", (b"100644", b"100755")


def is_wanted(path):
    """Whether a path is of a policy, or on the way to one."""
    return any(it.startswith(path) or path.startswith(it) for it in (*TOPS, GLOBAL_PATH + b"/"))


def files_of(repository, commit, place):
    """The paths and the ids of a policy's files, in the order of their tree."""
    found, waiting = [], [(b"", b"%s^{tree}" % commit)]
    while waiting:
        front, word = waiting.pop()
        rows = [(mode, front + name, object_id) for mode, name, object_id in repository.tree(word)]
        rows = [it for it in rows if is_wanted(it[1] + b"/")]
        # The program reads no others.
        found += [(path, object_id) for mode, path, object_id in rows if mode in FILES and path + b"/" not in TOPS]
        waiting += [(path + b"/", object_id) for mode, path, object_id in reversed(rows) if mode == FOLDER]
        if len(found) + len(waiting) > MANY or front.count(b"/") > DEPTH:
            way = "git gittuf policy discard gives up what is edited" if place == STAGED.decode() else "ask who signed it"
            raise Stopped(f"{place} has more than {MANY} files, or folders below {DEPTH} others, and is not read: {way}", 3)
    return found


def texts_of(repository, commit, place):
    """The paths and the contents of these files, each of which is there."""
    if commit not in repository.policies:
        found = files_of(repository, commit, place)
        texts = {it: body for it, kind, body in repository.bodies({it for _, it in found}) if kind == b"blob"}
        lacking = [path for path, it in found if texts.get(it) is None]
        if lacking:
            raise Stopped(f"git does not read the policy: {plain(lacking[0].decode(errors='replace'))} of {commit.decode()[:12]} is not here, or too large")
        repository.policies[commit] = [(path, texts[it]) for path, it in found]
    return repository.policies[commit]
