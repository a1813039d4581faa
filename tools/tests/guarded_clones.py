"""Clones of one server that tools/test guards by git gittuf: two maintainers, and whoever else comes."""

import os
import shutil
import sys

import loaded
from checking import PROGRAM, Failure, alone, run, shared_folder, want

TOOL = loaded.TOOL
MAIN = "refs/heads/main"
# A key that is made at once and signs at once, and how often it signs: no check but one wants more.
SMALL, SIGNATURES = ("--height", "5", "--width", "1"), 32
LARGER = ("--height", "10", "--width", "1")
# Whose clones are alike, and what Git has begun so far: a word of git gittuf, and whether it was in one of these.
MAINTAINERS = ("alice", "bob")
begun = set()


class Clones:
    """A bare repository as the server and clones of it, in a folder of their own."""

    def __init__(self, repositories, folder):
        repositories.needed()
        self.repositories, self.folder = repositories, folder
        os.mkdir(self.folder)
        self.environment()
        self.git("init", "--quiet", "--bare", "-b", "main", "--object-format=sha256", "server.git", who="")

    def environment(self):
        """Lets Git find the tool, and the tool a place for what a user has."""
        os.environ["XDG_DATA_HOME"] = os.path.join(self.folder, "data")
        # Git finds the tool by a link in a folder of PATH.
        links = self.repositories.path("links")
        if not os.path.isdir(links):
            os.mkdir(links)
            os.symlink(TOOL, os.path.join(links, "git-gittuf"))
            # The Python that runs the checks, and no wrapper around it that costs more than it.
            os.symlink(os.path.realpath(sys.executable), os.path.join(links, "python3"))
            os.environ["PATH"] = f"{links}:{os.environ['PATH']}"
        # No templates: many files that nothing here uses would be copied.
        os.environ["GIT_TEMPLATE_DIR"] = ""

    def path(self, who):
        return os.path.join(self.folder, who)

    def git(self, *words, who, input=b""):
        status, output, errors = run("git", "-C", self.path(who), *words, input=input)
        if status:
            raise Failure(f"git {' '.join(words)} of {who}: {errors.decode().strip()}")
        return output

    def asked(self, who, *words):
        """The status, the output and the errors of git gittuf, which Git begins at the first call of each word in a topic."""
        kind = (words[:1], who in MAINTAINERS)
        if kind not in begun:
            begun.add(kind)
            return run("git", "-C", self.path(who), "gittuf", *words)
        return loaded.git_gittuf(self.path(who), *words)

    def gittuf(self, who, *words, status=0):
        """What git gittuf prints for these words, which are to end with this status."""
        found, output, errors = self.asked(who, *words)
        if found != status:
            raise Failure(f"git gittuf {' '.join(words)} of {who} ended with {found}: {output.decode()}{errors.decode()}")
        return output

    def refused(self, who, *words, status, part, environment=None):
        """Holds what git gittuf refuses to its status and a part of its one line."""
        if environment:
            more = (f"{name}={value}" for name, value in environment.items())
            found, output, errors = run("env", *more, "git", "-C", self.path(who), "gittuf", *words)
        else:
            found, output, errors = self.asked(who, *words)
        lines = errors.decode().splitlines()
        if (found, output, len(lines)) != (status, b"", 1) or part not in lines[0]:
            raise Failure(f"git gittuf {' '.join(words)} ended with {found}, {output!r} and {errors!r}, and wanted is {part!r}")

    def refused_after(self, who, *words, status, part):
        """The same where what is asked for is shown before it is refused. Returns what is said."""
        found, _, errors = self.asked(who, *words)
        if found != status or part not in errors.decode():
            raise Failure(f"git gittuf {' '.join(words)} ended with {found} and {errors!r}, and wanted is {part!r}")
        return errors.decode()

    def advised(self, who, part):
        """The line to copy that doctor has after a sentence with this part."""
        found = self.gittuf(who, "doctor", status=1).decode().splitlines()
        lines = [it.partition(": ")[2] for it in found if part in it]
        if len(lines) != 1:
            raise Failure(f"doctor of {who} has {len(lines)} lines with {part!r}: {found}")
        return lines[0]

    def copied(self, who, line):
        """Runs a line as somebody does who copies it into a shell."""
        status, _, errors = run("bash", "-c", line, folder=self.path(who))
        if status:
            raise Failure(f"{line} of {who} ended with {status}: {errors.decode()}")

    def clone(self, who, key=True):
        self.git("clone", "--quiet", "server.git", who, who="")
        # Git writes a whole path, and all are copied together.
        self.git("remote", "set-url", "origin", "../server.git", who=who)
        self.gittuf(who, "setup")
        self.git("fetch", "--quiet", who=who)
        if key:
            self.gittuf(who, "key", "--file", self.path(f"{who}.key"), *SMALL)

    def public(self, who):
        return self.gittuf(who, "key", "--public").decode().strip()

    def used(self, who):
        """How many leaves of a key are used."""
        with open(self.path(f"{who}.key"), "rb") as file:
            return file.read()[64:].count(b"\1")

    def shown_id(self, who):
        """The id of what is edited, as policy show prints it."""
        return self.gittuf(who, "policy", "show").decode().splitlines()[-1].removeprefix("id ")

    def sign(self, who):
        return self.gittuf(who, "policy", "sign", "--id", self.shown_id(who))

    def write(self, who, name, text):
        path = os.path.join(self.path(who), name)
        os.makedirs(os.path.dirname(path), exist_ok=True)
        with open(path, "w", encoding="utf-8") as file:
            file.write(text)
        self.git("add", "--all", who=who)

    def commit(self, who, name="README", text=None):
        """A commit that changes a file."""
        self.repositories.seconds += 60
        self.write(who, name, text or f"{self.repositories.seconds}\n")
        self.git("commit", "--quiet", "--message", f"change {name}", who=who)
        return self.tip(who)

    def tip(self, who, name=MAIN):
        return self.git("rev-parse", name, who=who).decode().strip()

    def verdict(self, who, line, *words, name=MAIN):
        """Holds the verdict of a clone to this line, and the program's on its whole stream to the same."""
        status = 0 if line.startswith("accepted") else 1
        want(self.gittuf(who, "verify", name, *words, status=status).decode(), f"{line}\n", f"the verdict of {who}")
        stream = loaded.stream_of(self.path(who))
        found = run(PROGRAM, "-", "-", "verify-ref", name, *words, "--stdin", input=stream)
        want(found[:2], (status, f"{line}\n".encode()), f"the verdict on the whole stream of {who}")

    def sound(self, *clones):
        """Holds Git's own check of these clones and of the server to nothing."""
        for who in (*clones, "server.git"):
            found = run("git", "-C", self.path(who), "fsck", "--strict", "--no-dangling")
            want((found[0], found[1]), (0, b""), f"what git fsck says of {who}")


def guarded(repositories, name, size=SMALL, place=None):
    """A server and the clones of alice, with a key of this size, and bob, of whom either may change main, with one recorded commit."""
    clones = Clones(repositories, place or repositories.path(name))
    clones.git("init", "--quiet", "-b", "main", "--object-format=sha256", "alice", who="")
    clones.git("remote", "add", "origin", "../server.git", who="alice")
    clones.gittuf("alice", "setup")
    clones.gittuf("alice", "key", "--file", clones.path("alice.key"), *size)
    clones.commit("alice")
    clones.git("push", "--quiet", "--set-upstream", "origin", "main", who="alice")
    clones.clone("bob")
    clones.gittuf("alice", "policy", "init", "alice")
    clones.gittuf("alice", "policy", "person", "bob", clones.public("bob"))
    clones.gittuf("alice", "policy", "rule", "main", MAIN, "--persons", "alice,bob")
    clones.sign("alice")
    clones.gittuf("alice", "policy", "apply")
    clones.gittuf("alice", "record", "main")
    clones.git("push", "--quiet", who="alice")
    clones.git("pull", "--quiet", who="bob")
    # Whose the first policy is that is seen is told once.
    clones.git("config", "gittuf.firstRoot", clones.gittuf("alice", "key", "--id").decode().strip(), who="alice")
    clones.git("config", "gittuf.firstRoot", clones.gittuf("alice", "key", "--id").decode().strip(), who="bob")
    return clones


def first(repositories):
    """The clones that all others are copies of, which are made at the first call: once for all topics."""
    if getattr(repositories, "first_guarded", None) is not None:
        return repositories.first_guarded
    repositories.needed()
    place, when = (os.path.join(shared_folder(), it) for it in ("guarded", "seconds"))
    with alone("lock"):
        if not os.path.exists(when):
            guarded(repositories, "guarded", place=place)
            with open(when, "w", encoding="utf-8") as file:
                file.write(str(repositories.seconds))
        with open(when, encoding="utf-8") as file:
            # What is written later is to be another text.
            repositories.seconds = max(repositories.seconds, int(file.read()))
    own = Clones.__new__(Clones)
    own.repositories, own.folder = repositories, place
    own.environment()
    repositories.first_guarded = own
    return own


def another(repositories, name):
    """Such clones once more, which are copies, keys and all: what one of them signs no other ever sees."""
    copy = Clones.__new__(Clones)
    copy.repositories, copy.folder = repositories, repositories.path(name)
    shutil.copytree(first(repositories).folder, copy.folder, symlinks=True)
    for who in ("alice", "bob"):
        copy.git("config", "gittuf.key", copy.path(f"{who}.key"), who=who)
    return copy
