"""The key file of a person, and the line with its public part beside it."""

import fcntl
import os
import re

from git_gittuf import program, public_parts
from git_gittuf.program import Ended
from git_gittuf.repository import Stopped
from git_gittuf.shown import plain, quoted

# The line of a key of one level, or of two.
LINE = re.compile(rb"key ([0-9a-f]{64}) ([0-9a-f]{112}|[0-9a-f]{120})\n")
# Where the leaves begin, by what the file begins with.
HEADS = {b"LMSKEY01": 64, b"LMSKEY02": 72}


def default_path():
    folder = os.environ.get("XDG_DATA_HOME") or os.path.expanduser("~/.local/share")
    return os.path.join(folder, "gittuf", "key")


def path_of(repository):
    """Where the key of this repository's user stands: gittuf.key, or else a place in the user's data folder."""
    found = repository.config("gittuf.key", "--type=path")
    if found and not found[-1]:
        raise Stopped("gittuf.key is set and names nothing: git config --unset gittuf.key, and the key in your own data folder is taken")
    if found and not os.path.isabs(found[-1]):
        whole = quoted(os.path.abspath(found[-1]))
        raise Stopped(f"gittuf.key is {plain(found[-1])}, and is to be a whole path: git config gittuf.key {whole}, if that is it")
    return found[-1] if found else default_path()


def is_inside(path, folder):
    return folder is not None and os.path.commonpath([os.path.realpath(path), folder]) == folder


def expect_outside(repository, path):
    if any(is_inside(path, it) for it in (repository.top, repository.common)):
        raise Stopped(f"{path} is inside the repository, where a key would be copied along: name another place", 3)


def make(repository, path, height, width, bottom=None):
    """Makes a key, first beside its place, so that its public part is known wherever it stands."""
    expect_outside(repository, path)
    if bottom and (height == "15" or "5" not in (height, bottom)):
        raise Stopped("of the heights of a key with --bottom none is 15 and one is 5: --height 10 --bottom 5, say", 2)
    os.makedirs(os.path.dirname(path), mode=0o700, exist_ok=True)
    with open(f"{path}.lock", "wb") as lock:
        # Calls in two repositories may want one key.
        if not is_held(lock):
            raise Stopped(f"another git gittuf makes a key at {path}: wait for it")
        try:
            make_held(path, ("key-gen", height, width, *(("--bottom", bottom) if bottom else ())))
        finally:
            os.remove(lock.name)


def is_held(lock):
    """Whether this call alone has the lock, which another may have taken away since it was opened."""
    try:
        fcntl.flock(lock, fcntl.LOCK_EX | fcntl.LOCK_NB)
        return os.path.samestat(os.fstat(lock.fileno()), os.stat(lock.name))
    except (BlockingIOError, FileNotFoundError):
        return False


def make_held(path, words):
    """Makes a key at a path of which the call has the lock."""
    beside = f"{path}.new"
    if os.path.lexists(path):
        raise Stopped(f"{path} is there already, and is no key: remove it, or name another place", 3)
    # One that was left has no name that signs.
    if os.path.lexists(beside):
        os.remove(beside)
    status, printed = program.run("-", beside, *words)
    if status or not LINE.fullmatch(printed):
        raise Ended(words, status or 4, printed)
    with open(f"{path}.pub", "wb") as file:
        file.write(printed)
        os.fsync(file.fileno())
    os.rename(beside, path)


def is_there(path):
    return os.path.lexists(path) and os.path.getsize(path) > 0


def can_be_read(path):
    """Whether a file can be read, and begins as a key file does."""
    try:
        with open(path, "rb") as file:
            return file.read(8) in HEADS
    except OSError:
        return False


def needed(repository):
    """The path of the key file, which is there."""
    path = path_of(repository)
    if not is_there(path):
        raise Stopped(f"there is no key at {path}: git gittuf key makes one")
    expect_outside(repository, path)
    return path


def public_line(path):
    """The line `key <id> <public part>` of a key file, which is made again from the file where it was lost."""
    try:
        with open(f"{path}.pub", "rb") as file:
            line = file.read(1024)
    except FileNotFoundError:
        line = public_parts.line_of(path)
        with open(f"{path}.pub.new", "wb") as file:
            file.write(line)
        os.rename(f"{path}.pub.new", f"{path}.pub")
    if not LINE.fullmatch(line):
        raise Stopped(f"{path}.pub does not hold the line that key-gen printed: put it there, key <id> <public part>")
    return line


def id_and_public(path):
    """The id and the public part of a key file, whose types and identifier are those of the file."""
    key_id, public = (it.decode() for it in LINE.fullmatch(public_line(path)).groups())
    with open(path, "rb") as file:
        if file.read(32)[8:] != bytes.fromhex(public)[-56:][:24]:
            raise Stopped(f"{path}.pub is the line of another key than {path}: put the right one there", 3)
    return key_id, public


def leaves_of(path):
    """A byte for each leaf of a key file, 0 where it is unused."""
    with open(path, "rb") as file:
        text = file.read()
    if text[:8] not in HEADS:
        raise Stopped(f"{path} is no key file: git gittuf key --file <another path> makes one", 3)
    return text[HEADS[text[:8]] :]


def signatures_left(path):
    """How many signatures a key file still has, and how many it had."""
    leaves = leaves_of(path)
    return leaves.count(0), len(leaves)
