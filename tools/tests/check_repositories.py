"""The Git repositories that tools/test works on."""

import os
import random
import shutil

from checking import GIT_TO_STREAM, SHARED, STREAM_TO_GIT, Failure, Skip, alone, run, shared_folder, want, want_run

COMMITS = 300
# The commits between these stand on a branch beside main, which the second one merges.
BRANCHES, MERGES = 100, 150
# A name of Git's may hold every byte but zero and the slash.
NAME_BYTES = [it for it in range(1, 256) if it != ord("/")]
# Any UTF-8 but the few signs that a name of a reference may not hold.
UNUSUAL_NAME = "refs/heads/!\"#$%&'()+,-.;<=>@]_`{|}/\u00e9\u6f22\u00ad\u200b\U0001f600".encode()
LONGEST_NAME = b"refs/" + b"n" * 250
DEEPEST_NAME = b"refs/" + b"/".join(b"%d" % it for it in range(15))


class Repositories:
    """The Git repositories of the checks, whose ids are the same in each run."""

    def __init__(self, folder):
        self.folder = folder
        self.seconds = 1_700_000_000
        # Nothing of the caller's settings, and of a repository that this may run in, changes what git does here.
        for name in [it for it in os.environ if it.startswith("GIT_")]:
            del os.environ[name]
        os.environ.update(GIT_CONFIG_NOSYSTEM="1", GIT_CONFIG_GLOBAL=os.devnull, LC_ALL="C")
        for who in ("AUTHOR", "COMMITTER"):
            os.environ.update({f"GIT_{who}_NAME": "Nobody", f"GIT_{who}_EMAIL": "nobody@localhost"})
        self.streams = {}
        self.why_not = self.shared() if SHARED in os.environ else self.make()

    def path(self, name):
        return os.path.join(self.folder, name)

    def git(self, *words, name="project", input=b""):
        status, output, errors = run("git", "-C", self.path(name), *words, input=input)
        if status:
            raise Failure(f"git {' '.join(words)}: {errors.decode().strip()}")
        return output

    def commit(self, message, *words):
        self.seconds += 60
        os.environ.update(GIT_AUTHOR_DATE=f"{self.seconds} +0000", GIT_COMMITTER_DATE=f"{self.seconds} +0000")
        self.git(*(words or ("commit", "--quiet", "--all")), "--message", message)

    def write(self, name, text, mode=0o644):
        path = os.path.join(self.path("project"), name)
        os.makedirs(os.path.dirname(path), exist_ok=True)
        with open(path, "w", encoding="utf-8") as file:
            file.write(text)
        os.chmod(path, mode)
        self.git("add", name)

    def shared(self):
        """The same as a copy of the one that a run of tools/test makes once for its topics."""
        place, when = (os.path.join(shared_folder(), it) for it in ("project", "project's seconds"))
        with alone("project's lock"):
            if os.path.exists(when):
                shutil.copytree(place, self.path("project"), symlinks=True)
                with open(when, encoding="utf-8") as file:
                    self.seconds = int(file.read())
                os.environ.update(GIT_AUTHOR_DATE=f"{self.seconds} +0000", GIT_COMMITTER_DATE=f"{self.seconds} +0000")
                return None
            why_not = self.make()
            if not why_not:
                shutil.copytree(self.path("project"), place, symlinks=True)
                with open(when, "w", encoding="utf-8") as file:
                    file.write(str(self.seconds))
            return why_not

    def make(self):
        """Makes the small repository, and returns why it cannot, or None."""
        try:
            status, _, errors = run("git", "init", "--quiet", "--object-format=sha256", self.path("project"))
        except FileNotFoundError:
            return "git is not installed"
        if status:
            return f"git cannot make a SHA-256 repository: {errors.decode().strip().splitlines()[-1]}"
        self.git("symbolic-ref", "HEAD", "refs/heads/main")
        self.write("README", "A project.\n")
        self.commit("first")
        self.write("tools/build", "#!/bin/sh\n", 0o755)
        os.symlink("README", os.path.join(self.path("project"), "also-readme"))
        self.git("add", "also-readme")
        self.commit("an executable and a symbolic link")
        self.git("checkout", "--quiet", "-b", "side")
        self.write("src/side", "side\n")
        self.commit("beside")
        self.git("checkout", "--quiet", "main")
        self.write("src/main", "main\n")
        self.commit("ahead")
        self.commit("together", "merge", "--quiet", "--no-ff", "side")
        self.commit("the first release", "tag", "--annotate", "v1")
        return None

    def needed(self):
        if self.why_not:
            raise Skip(self.why_not)
        return self.path("project")

    def large(self):
        """The name of the large repository, which is made at the first call."""
        self.needed()
        if not os.path.isdir(self.path("large.git")):
            self.git("init", "--quiet", "--bare", "--object-format=sha256", "large.git", name="")
            self.git("fast-import", "--quiet", name="large.git", input=large_history())
            marks = b"refs/tags/of-a-file", b"refs/tags/of-a-tag"
            blob = self.git("rev-parse", "refs/heads/main:README", name="large.git").strip()
            tag = self.git("rev-parse", "refs/tags/v2", name="large.git").strip()
            tree = self.git("rev-parse", "refs/heads/main^{tree}", name="large.git").strip()
            more = [*zip(marks, (blob, tag)), (b"refs/other/a-tree", tree), (LONGEST_NAME, tag), (DEEPEST_NAME, blob)]
            lines = b"".join(b"create %s %s\n" % it for it in more)
            self.git("update-ref", "--stdin", name="large.git", input=lines)
        return "large.git"

    def stream_of(self, name="project"):
        status, output, errors = run(GIT_TO_STREAM, self.path(name))
        want((status, errors), (0, b""), f"the status and errors of git-to-stream {name}")
        return output

    def large_stream(self):
        """The stream of the large repository, which no check changes."""
        name = self.large()
        if name not in self.streams:
            self.streams[name] = self.stream_of(name)
        return self.streams[name]

    def from_stream(self, stream, name):
        want_run((STREAM_TO_GIT, self.path(name)), 0, input=stream)


def quoted(path):
    """A path as git fast-import reads it, with each byte escaped that is no letter or digit."""
    plain = b"/-.ABCDEFGHIJKLMNOPQRSTUVWXYZabcdefghijklmnopqrstuvwxyz0123456789"
    return b'"%s"' % b"".join(b"%c" % it if it in plain else b"\\%03o" % it for it in path)


def given(text):
    return b"data %d\n%s\n" % (len(text), text)


def first_files():
    """Paths with modes and texts, whose names hold every byte that a name may hold."""
    # Each byte stands alone behind a letter, and at the end of a path's folder; all of them make one name too.
    for byte in NAME_BYTES:
        yield b"names/n%c" % byte, b"100644", b"%d\n" % byte
    for start in range(0, len(NAME_BYTES), 64):
        folder = bytes(NAME_BYTES[start : start + 64])
        yield b"folders/%s/%s" % (folder, folder[::-1]), b"100755", b"\0" * start
    yield b"names/%s" % bytes(NAME_BYTES), b"120000", b"../README"
    yield b"every byte", b"100644", bytes(range(256))
    yield b"noise", b"100644", random.Random(1).randbytes(200_000)
    yield b"nothing", b"100644", b""
    yield b"README", b"100644", b"A project with a history.\n"
    # Entries whose order differs from that of their names, since a folder is taken as if it ended in a slash.
    for name in (b"order.first", b"order/second", b"order0third"):
        yield name, b"100644", name


def commit_head(branch, number, message):
    who = b"Nobody <nobody@localhost> %d +0000" % (1_700_000_000 + 60 * number)
    return b"commit %s\nmark :%d\nauthor %s\ncommitter %s\n%s" % (branch, number, who, who, given(message))


def tag(name, of, mark):
    who = b"Nobody <nobody@localhost> 1700100000 +0000"
    return b"tag %s\nmark :%d\nfrom :%d\ntagger %s\n%s" % (name, mark, of, who, given(b"the tag " + name))


def large_history():
    """The text for git fast-import: commits on nested folders, a merge, a submodule, and tags of tags."""
    parts = []
    for number in range(1, COMMITS + 1):
        beside = BRANCHES < number < MERGES and number % 2
        branch = b"refs/heads/side" if beside else b"refs/heads/main"
        parts.append(commit_head(branch, number, b"commit %d\n" % number))
        if number == BRANCHES + 1:
            parts.append(b"from :%d\n" % BRANCHES)
        if number == MERGES:
            parts.append(b"merge refs/heads/side\n")
        if number == 1:
            parts += [b"M %s inline %s\n%s" % (mode, quoted(path), given(text)) for path, mode, text in first_files()]
            parts.append(b"M 160000 %s other/project\n" % (b"5a" * 32))
        path = b"source/part-%d/level-%d/deep/file-%d" % (number % 5, number % 3, number % 11)
        parts.append(b"M 100644 inline %s\n%s" % (path, given(b"line %d\n" % number)))
    parts.append(b"reset %s\nfrom :%d\n\n" % (UNUSUAL_NAME, MERGES))
    parts += [tag(b"v1", MERGES, 1001), tag(b"v2", COMMITS, 1002)]
    parts += [tag(b"of-v2", 1002, 1003), tag(b"of-of-v2", 1003, 1004)]
    return b"".join(parts) + b"done\n"
