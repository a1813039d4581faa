"""Where mirrors stand, and from where that comes which is offered to them."""

import hashlib
import os

from git_gittuf import remotes
from git_gittuf.repository import Stopped
from git_gittuf.shown import plain

# By such an end a path at which nothing is yet is that of a database.
DATABASES = (".db", ".sqlite", ".sqlite3")


def url_of(repository, word):
    """From where git fetches for a word, which is a remote, or a path or a url; and by what its place is known."""
    base, url, is_remote = os.getcwd(), word, word in repository.remotes()
    if is_remote and (desk := remotes.port_of(repository, word)):
        way = f"curl -s http://127.0.0.1:{desk}/v1/stream | gittuf mirror.db - mirror offers what it has to a mirror"
        raise Stopped(f"{plain(word)} is a desk, from which git does not fetch: {way}", 3)
    if is_remote:
        base = repository.top or repository.git_dir
        url = os.fsdecode(repository.asked("name a remote", "remote", "get-url", word)).rstrip("\n")
    path = os.path.normpath(os.path.join(base, os.path.expanduser(url)))
    if os.path.exists(path):
        url = path
    elif ":" not in url and is_remote:
        # As one that cannot be reached, and not as one whose log is none.
        raise Stopped(f"{plain(word)} does not answer: nothing stands at {plain(path)}")
    elif ":" not in url:
        raise Stopped(f"{plain(word)} is no remote, and nothing stands at {plain(path)}: git remote -v lists the remotes", 3)
    return url, f"remote {word}" if is_remote else f"at {url}"


def all_places(repository):
    return os.path.join(repository.folder, "mirrors")


def place_of(repository, known):
    """The folder with all that belongs to the mirror of what is known so."""
    return os.path.join(all_places(repository), hashlib.sha256(os.fsencode(known)).hexdigest()[:16])


def own_store(place):
    """The store of a mirror for which none was named."""
    return os.path.join(place, "store", "")


def own_stores(repository):
    """Those of them that are there."""
    top = all_places(repository)
    found = [own_store(os.path.join(top, it)) for it in sorted(os.listdir(top))] if os.path.isdir(top) else []
    return [it for it in found if os.path.isdir(it)]


def store_at(path):
    """A store as the program takes it: a folder, or a database where a file stands there or the path says so."""
    if not path:
        raise Stopped("a store has a path: that of a folder, or of a database, which ends in .db", 2)
    whole = os.path.abspath(path)
    is_database = os.path.isfile(whole) or whole.endswith(DATABASES) and not os.path.isdir(whole)
    return whole if is_database and not path.endswith("/") else os.path.join(whole, "")
