"""The Git repository that a call works in: where it is, its references, and which objects it has."""

import os
import re
import subprocess

import stream_format
from git_gittuf.readers import LOOKS, Readers, row_of
from git_gittuf.shown import quoted
from git_repositories import expect_whole, way_over
from stream_format import Git, Refused, git

LOG = b"refs/gittuf/reference-state-log"
POLICY = b"refs/gittuf/policy"
ATTESTATIONS = b"refs/gittuf/attestations"
# Where the files of a policy stand that is not in force yet.
STAGED = b"refs/gittuf/policy-staging"
# What entries recorded and no branch reaches any more is kept below this name, so that every clone can judge it.
TARGETS = b"refs/gittuf/targets/"
TARGET_NAME = re.compile(TARGETS + rb"[0-9a-f]{64}")
TREE_ENTRY = re.compile(rb"([0-7]+) ([^\0]+)\0(.{32})", re.DOTALL)
OWN = b"refs/gittuf/"
REMOTES = b"refs/remotes/"
ZEROS = b"0" * 64
OLDEST_GIT = (2, 29)


class Stopped(Refused):
    """Why a call ended early, with its status: 2 for the words, 3 for what was asked for, 4 for what is outside."""

    def __init__(self, said, status=4):
        super().__init__(said)
        self.status = status


def asked_here(*words):
    """What git answers in the folder of the call, for the repository that the caller's environment names, and what it advises."""
    try:
        ran = subprocess.run(("git", "rev-parse", *words), capture_output=True, env={**os.environ, "LC_ALL": "C"})
    except FileNotFoundError:
        raise Stopped("git is not installed, or not on the PATH") from None
    said = ran.stderr.decode(errors="replace").strip().splitlines()
    ways = "".join(f": {it.strip()}, if you trust whoever owns it" for it in said if it.startswith("\tgit config "))
    return ran.returncode, os.fsdecode(ran.stdout[:-1]), re.sub("^fatal: ", "", said[0]) + ways if said else ""


def version_of_git():
    found = re.search(rb"(\d+)\.(\d+)", git("version")[1])
    return (int(found[1]), int(found[2])) if found else (0, 0)


class Repository:
    """The repository of the call, which is in object format SHA-256 and has all its objects."""

    def __init__(self):
        # A bare one ends at the last word, and one that is none at the first.
        status, told, said = asked_here("--git-dir", "--git-common-dir", "--show-object-format", "--is-shallow-repository", "--show-toplevel")
        lines = told.split("\n") + [""] * 4
        if not told:
            raise Stopped(f"here is no repository that git reads: {said}")
        self.git_dir, self.common = (os.path.realpath(it) for it in lines[:2])
        self.top = None if status else os.path.realpath(lines[4])
        self.folder = os.path.join(self.common, "gittuf")
        # How the references were when they were looked at last, until they are to be looked at again, and those for a store of them.
        self.listed, self.speakable = None, (None, {})
        # Where references are to stand by a push that is judged, or None where they are to go.
        self.pushed = {}
        # The settings, once they are read, and what was found of the log's policies.
        self.settings, self.epochs = None, {}
        self.begin_reading()
        self.expect_format(lines[2])
        expect_whole(self.top or self.git_dir, lines[3] == "true", self.all_settings())

    def begin_reading(self):
        """Notes that no git is open to look objects up, and nothing is known of histories nor of policies, which are named by ids."""
        self.readers, self.known_before, self.policies = Readers(self.where, Stopped), {}, {}

    @property
    def where(self):
        """The words by which git finds this repository and no other."""
        return (f"--git-dir={self.git_dir}",)

    def expect_format(self, found):
        if found not in ("sha1", "sha256"):
            have, want = (".".join(map(str, it)) for it in (version_of_git(), OLDEST_GIT))
            if version_of_git() < OLDEST_GIT:
                raise Stopped(f"git is too old: this is {have}, and {want} or newer is wanted, which knows object ids of SHA-256")
            raise Stopped("git does not say where the repository is: a path with a line break in it is not taken")
        if found == "sha1":
            self.expect_commits()
            head = self.head() or b""
            branch = quoted(os.fsdecode(head.removeprefix(b"refs/heads/"))) if head in self.all_references() else ""
            said = f"{self.top or self.git_dir} has object ids of SHA-1, which are not safe to sign"
            raise Stopped(f"{said}. It becomes a repository of SHA-256, with new ids, by: {way_over(branch)}")

    def expect_commits(self):
        """Refuses a repository of SHA-1 that has nothing yet, as git clone makes of an empty one in SHA-256."""
        if git(*self.where, "rev-list", "--all", "--max-count=1")[1]:
            return
        url = git(*self.where, "remote", "get-url", "origin")[1].decode(errors="replace").strip()
        adds = f" && git -C ../new remote add origin {quoted(url)}" if url else ""
        raise Stopped(
            f"{self.top or self.git_dir} has object ids of SHA-1, as a clone of what has no commit yet has by this git, and nothing in it:"
            f" git init -b main --object-format=sha256 ../new{adds} begins one of SHA-256"
        )

    def git(self, *words, input=b""):
        return git(*self.where, *words, input=input)

    def git_of(self, file, *words):
        """The same with an open file as standard input."""
        with Git(*self.where, *words, input=file) as ran:
            output = ran.output.read()
            status, said = ran.end()
        return status, output, said

    def asked(self, what, *words, input=b""):
        """What git prints, or the end of the call where it fails."""
        status, output, said = self.git(*words, input=input)
        if status:
            raise Stopped(f"git does not {what}: {said}")
        return output

    def all_references(self):
        """The names below refs/ with the ids at which they stand, or would after a push that is judged."""
        if self.listed is None:
            self.listed = self.list_references()
        if not self.pushed:
            return self.listed
        found = {**self.listed, **self.pushed}
        return {name: value for name, value in found.items() if value}

    def list_references(self):
        with Git(*self.where, "for-each-ref", "--format=%(refname) %(objectname)") as ran:
            lines = ran.output.read().splitlines()
            status, said = ran.end()
            # A warning is of a reference that git leaves out, and nothing is to be lost unseen. A symbolic one that
            # leads nowhere is none.
            lost = [it for it in ran.lines if not it.startswith("warning: ignoring dangling symref")]
        if status or lost:
            raise Stopped(f"git does not list the references: {said}")
        return dict(line.split(b" ") for line in lines)

    def lines(self, what, *words, input, tell=lambda count: None):
        """The lines that git prints, with a call for each so far, or the end of the call where it fails."""
        with stream_format.temporary() as given:
            given.write(input)
            given.seek(0)
            with Git(*self.where, *words, input=given) as ran:
                found = []
                for line in ran.output:
                    found.append(line[:-1])
                    tell(len(found))
                status, said = ran.end()
        if status:
            raise Stopped(f"git does not {what}: {said}")
        return found

    def references(self):
        """Those of them whose names a store can hold."""
        there = self.all_references()
        if self.speakable[0] is not there:
            # Of these there are as many as entries.
            is_named = lambda name: TARGET_NAME.fullmatch(name) or stream_format.is_reference_name(name)
            self.speakable = there, {name: value for name, value in there.items() if is_named(name)}
        return self.speakable[1]

    def own_references(self):
        return {name: value for name, value in self.references().items() if name.startswith(OWN)}

    def remove_locks(self):
        """Removes the locks that a killed git left below refs/gittuf/, where one call at a time moves references."""
        for at, _, files in os.walk(os.path.join(self.common, "refs", "gittuf")):
            for it in files:
                if it.endswith(".lock"):
                    os.remove(os.path.join(at, it))

    def rows(self, words):
        """The id, the kind and the size of the object that each word names, or None where it names none."""
        words = list(words)
        if any(b"\n" in it for it in words):
            # Git would take it for two words.
            return [None if b"\n" in it else self.rows([it])[0] for it in words]
        if self.readers.takes(words):
            return self.readers.rows(words)
        given = b"".join(b"%s\n" % it for it in words)
        lines = self.asked("look objects up", "cat-file", LOOKS, input=given).splitlines(keepends=True)
        return list(map(row_of, lines))

    def there(self, ids):
        """Those of the ids whose objects are there."""
        return {it[0] for it in self.rows(ids) if it}

    def bodies(self, ids):
        """Each object of these ids that is there, as id, kind and body; the body of one past the limit is none."""
        ids = [it for it in ids if b"\n" not in it]
        if self.readers.takes(ids):
            for object_id, kind, size, source in self.readers.objects(ids):
                yield object_id, kind, body_of(source, object_id, kind, int(size))
            return
        with stream_format.temporary() as given:
            given.write(b"".join(b"%s\n" % it for it in ids))
            given.seek(0)
            with Git(*self.where, "cat-file", "--batch", "--buffer", input=given) as ran:
                for row in map(row_of, ran.output):
                    if row:
                        object_id, kind, size = row
                        yield object_id, kind, body_of(ran.output, object_id, kind, int(size))
                status, said = ran.end()
                if status:
                    raise Stopped(f"git did not give all objects: {said}")

    def body(self, kind, word):
        """The body of the object of this kind that a word of Git's names, or nothing where it names none, or one past the limit."""
        return next((body for _, found, body in self.bodies([word]) if found == kind), None)

    def tree(self, word):
        """The entries of the tree that a word of Git's names, each as mode, name and id; none where it names none."""
        found = TREE_ENTRY.finditer(self.body(b"tree", word) or b"")
        return [(it[1], it[2], it[3].hex().encode()) for it in found]

    def all_settings(self):
        """The settings by their names, as git spells these, each with its values."""
        if self.settings is None:
            self.settings = {}
            for it in self.git("config", "--list", "-z")[1].split(b"\0")[:-1]:
                name, _, value = os.fsdecode(it).partition("\n")
                self.settings.setdefault(name, []).append(value)
        return self.settings

    def config(self, name, *how):
        """The values of a setting, none where it is not set."""
        front, _, last = name.rpartition(".")
        section, dot, middle = front.partition(".")
        found = self.all_settings().get(f"{section.lower()}{dot}{middle}.{last.lower()}", [])
        if not how or not found or how == ("--type=path",) and all(it.startswith("/") for it in found):
            # Git makes another text only of a path that begins otherwise.
            return found
        return [os.fsdecode(it) for it in self.git("config", *how, "--get-all", name)[1].splitlines()]

    def set(self, *words):
        """Writes a setting."""
        self.settings = None
        self.asked("write the settings", "config", *words)

    def remotes(self):
        """The remotes, by their names: those of which a setting says something."""
        named = (it.removeprefix("remote.").rpartition(".") for it in self.all_settings() if it.startswith("remote."))
        return sorted({name for name, dot, _ in named if dot})

    def head(self):
        """The reference that HEAD names, or nothing where it names a commit alone."""
        status, found, _ = self.git("symbolic-ref", "--quiet", "HEAD")
        return None if status else found.strip()

    def are_commits(self, ids):
        """Whether each of these ids is that of a commit that is here, and not of a tag of one."""
        return all(it and it[1] == b"commit" for it in self.rows(ids))

    def commit_of(self, word):
        """The id of the commit or tag that a word of Git's names."""
        # Older versions of git know no sign that what follows is no option.
        status, found, _ = (1, b"", "") if word.startswith("-") else self.git("rev-parse", "--verify", "--quiet", word)
        if status:
            raise Stopped(f"{word} names no commit here: git log shows which there are", 3)
        self.expect_one(word)
        return found.strip()

    def expect_one(self, word):
        """Refuses a word that Git takes for one of several things: a tag that somebody named as a commit's id begins, or a branch."""
        base = re.split(r"[~^:]|@\{", word)[0]
        fronts, there = (b"refs/", b"refs/tags/", b"refs/heads/", b"refs/remotes/"), self.all_references()
        # A whole name comes before all others.
        is_whole = base in ("", "@", "HEAD") or os.fsencode(base) in there
        places = [] if is_whole else [front + os.fsencode(base) for front in fronts]
        found = {os.fsdecode(it): there[it] for it in places if it in there}
        if re.fullmatch("[0-9a-f]{4,63}", base) and found:
            ids = self.git("rev-parse", f"--disambiguate={base}")[1].split()
            found.update({it.decode(): it for it in ids if it not in found.values()})
        if len(set(found.values())) > 1:
            raise Stopped(f"{base} names more than one thing here: {' and '.join(found)}: write the whole name or id of the one that is meant", 3)


def body_of(source, object_id, kind, size):
    """Reads a body and the LF after it, and refuses one that is cut or has another id."""
    found, pieces, left = stream_format.hash_of(kind, size), [], size
    while left:
        piece = source.read(min(left, stream_format.PIECE))
        if not piece:
            raise Stopped(f"git ended in the middle of the object {object_id.decode()}")
        found.update(piece)
        left -= len(piece)
        if size <= stream_format.MAX_BODY:
            pieces.append(piece)
    source.read(1)
    if found.hexdigest().encode() != object_id:
        raise Stopped(f"the object {object_id.decode()} is damaged: git fsck says more")
    return b"".join(pieces) if size <= stream_format.MAX_BODY else None
