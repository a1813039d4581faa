"""Git's objects, looked up one after the other by one git for each kind of question, which stays open for the call.

A short call asks some twenty times for a few objects, and a git for each question took most of its time. What is asked for
by many ids at once is asked of a git of its own. While a push is judged others are open, which see its objects too.
"""

import subprocess

import stream_format
from stream_format import Git

# So many words at once fit into the smallest pipe that a system gives, so that nobody waits for the other.
FEW = 32
LOOKS = "--batch-check=%(objectname) %(objecttype) %(objectsize)"
# What git says in place of these where it finds none, or more than one.
NOT_ONE = (b" missing\n", b" ambiguous\n")


def row_of(line):
    """The id, the kind and the size that git says of a word, or nothing where it names no object."""
    row = tuple(line.split())
    # A commit of another repository is named by its id alone.
    return None if line.endswith(NOT_ONE) or len(row) != 3 else row


class Reader:
    """One git at work, which answers a line with a word by a line, and where it is asked for the object by that too."""

    def __init__(self, where, how, refused):
        self.said, self.refused = stream_format.temporary(), refused
        words, pipe = ("git", *where, "cat-file", how), subprocess.PIPE
        environment = {**stream_format.environment(), **Git.told_too}
        # It ends with what it is given, so it needs no lock to keep the next call waiting.
        self.process = subprocess.Popen(words, stdin=pipe, stdout=pipe, stderr=self.said, env=environment)
        self.output = self.process.stdout

    def ask(self, words):
        try:
            self.process.stdin.write(b"".join(b"%s\n" % it for it in words))
            self.process.stdin.flush()
        except BrokenPipeError:
            self.fail()

    def line(self):
        found = self.output.readline()
        if not found.endswith(b"\n"):
            self.fail()
        return found

    def fail(self):
        self.end()
        self.said.seek(0)
        said = self.said.read().decode(errors="replace").strip().splitlines()
        raise self.refused(f"git does not look objects up: {said[-1] if said else 'it ended early'}")

    def end(self):
        for it in (self.process.stdin, self.output):
            try:
                it.close()
            except BrokenPipeError:
                # It ended before.
                pass
        self.process.wait()


class Readers:
    """The gits that are open for a repository, and what is raised where one does not answer."""

    def __init__(self, where, refused):
        self.where, self.refused, self.open, self.told_too = where, refused, {}, None

    def takes(self, words):
        """Whether these are asked here: few of them, each in a line of its own."""
        return len(words) <= FEW and all(it and len(it) < 100 and b"\n" not in it for it in words)

    def reader(self, how):
        if self.told_too != Git.told_too:
            self.close()
            self.told_too = dict(Git.told_too)
        if how not in self.open:
            self.open[how] = Reader(self.where, how, self.refused)
        return self.open[how]

    def rows(self, words):
        """The id, the kind and the size of what each word names, or None where it names no object."""
        reader = self.reader(LOOKS)
        reader.ask(words)
        return [row_of(reader.line()) for _ in words]

    def objects(self, ids):
        """The id, the kind and the size of each object of these ids that is there, and where its body is read then, to its end."""
        for it in ids:
            # Another may be asked for until the next one.
            reader = self.reader("--batch")
            reader.ask([it])
            row = row_of(reader.line())
            if row:
                yield *row, reader.output

    def close(self):
        """Lets them end, before another git changes what there is."""
        for it in self.open.values():
            it.end()
        self.open = {}
