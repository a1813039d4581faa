"""What another repository has, fetched into a place of its own, and the stream of what judging reads of it.

Nothing of it comes near the own references or the own store.
"""

import contextlib
import os
import re
import shutil

from git_gittuf import copying
from git_gittuf.repository import Repository, Stopped
from git_gittuf.shown import plain
from git_gittuf.telling import tell
from stream_format import END, HEADER, git

# The own settings without which git may not get through to a server.
OF_SERVERS = re.compile(r"core\.sshcommand|(http|credential)\..*", re.DOTALL)


class Gathered:
    """The ids of what a store would take that has nothing yet, and its references."""

    def __init__(self):
        self.ids, self.wanted = set(), {}

    def has(self, object_id):
        return object_id in self.ids

    def put(self, object_id, *_):
        self.ids.add(object_id)

    def references(self):
        return {}

    def set_references(self, _, wanted):
        self.wanted = wanted

    def write_out(self):
        """Nothing is on a disk."""

    @contextlib.contextmanager
    def opened(self):
        yield


class Fetched(Repository):
    """The repository of such a place, which has what the other one had when it was fetched last."""

    def __init__(self, folder):
        self.git_dir = self.common = os.path.join(folder, "fetched.git")
        self.top, self.folder = None, folder
        self.listed, self.pushed, self.settings, self.epochs, self.speakable = None, {}, None, {}, (None, {})
        self.begin_reading()

    def make(self):
        status, _, said = git("init", "--quiet", "--bare", "--template=", "--object-format=sha256", self.git_dir)
        if status:
            raise Stopped(f"git makes no repository at {self.git_dir}: {said}")
        self.set("gc.autoDetach", "false")

    def take_settings(self, repository):
        """Lets git get through to a server as it does from this repository, whose settings may be another's by now."""
        for name in [it for it in self.all_settings() if OF_SERVERS.fullmatch(it)]:
            self.git("config", "--unset-all", name)
        for it in repository.git("config", "--local", "--list", "-z")[1].split(b"\0"):
            name, _, value = os.fsdecode(it).partition("\n")
            if OF_SERVERS.fullmatch(name):
                self.set("--add", name, value)

    def unlock(self):
        """Removes the locks that a git left which was stopped: nobody else is at work here."""
        for at, folders, files in os.walk(self.git_dir):
            folders[:] = [it for it in folders if it != "objects"]
            for it in files:
                if it.endswith(".lock"):
                    os.remove(os.path.join(at, it))

    def fetch(self, repository, url):
        """Makes the references those of the repository at this url, with all that they reach."""
        if not os.path.isdir(os.path.join(self.git_dir, "objects")):
            self.drop()
            self.make()
        self.readers.close()
        self.unlock()
        self.take_settings(repository)
        words = ("--quiet", "--prune", "--no-tags", "--no-write-fetch-head")
        status, _, said = self.git("fetch", *words, "--", url, "+refs/*:refs/*")
        if status:
            raise Stopped(f"git does not fetch from {plain(url)}: {plain(said)}")
        self.listed = None

    def drop(self):
        """Lets all go that was fetched."""
        self.readers.close()
        shutil.rmtree(self.git_dir, ignore_errors=True)

    def stream(self, progress):
        """The pieces of the stream of what judging reads here, and of where the references stand."""
        found = Gathered()
        _, too_large = copying.bring(self, found, progress)
        for it in too_large:
            tell(f"the object {it.decode()} has more than 16 MiB, and is left out")
        yield HEADER
        for count, (object_id, kind, body) in enumerate(self.bodies(sorted(found.ids))):
            progress.tell(f"{count} objects offered, of {len(found.ids)}")
            yield b"object %s %s %d\n%s\n" % (object_id, kind, len(body), body)
        for row in sorted(found.wanted.items()):
            yield b"ref %s %s\n" % row
        yield END
