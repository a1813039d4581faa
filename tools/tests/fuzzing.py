"""Runs the program over mutants, and holds each run to what its pages say of any: a status of the table, its line, and an end."""

import os
import random
import re
import resource
import shutil
import subprocess
import time

import fuzzed_kinds
from checking import EMPTY_STREAM, PROGRAM, TOP, Failure, run
from made_mutants import bytes_of, json_of, stream_of
from rows_histories import History, MAIN, POLICY
from rows_policies import root_of_people, rule, rule_file
from rows_signing import OneLeaf

# So many seconds of the processor a run has, and so many bytes of memory, whatever it is given; and by the clock, which
# what else is at work changes, so many.
SECONDS, CLOCK_SECONDS, MEMORY = 60, 1800, 1 << 30
# The lines on standard error by status, as gittuf --help has them.
LINES = {
    0: rb"",
    1: rb"",
    2: rb"words refused\n",
    3: rb"|stream \d+\n|object [0-9a-f]{64}\n|too large\n|not empty\n|policy [^\n]+\n|key file\n|input\n",
    4: rb"fault\n",
    5: rb"memory\n",
    6: rb"exhausted\n",
    7: rb"desk refused\n",
}
LINES = {status: re.compile(it) for status, it in LINES.items()}
VERDICT = re.compile(
    rb"accepted [^\n]+ \d+ entries\n|violation [^\n]+ \d+ [a-z-]+[^\n]*\n|tip-differs [^\n]+ kept [0-9a-f]{64} recorded [0-9a-f]{64}\n"
    rb"|log-broken [0-9a-f]{64}\n"
)
VERIFY = ("verify-ref", MAIN)
READING = (VERIFY, ("verify-ref", POLICY), ("log",), ("explain", f"git:{MAIN}"), ("explain", "file:docs/page"), ("export",))
WORDS = ("key-gen 5 1", "seal", "seal --add", "snapshot refs/heads/main", "record refs/heads/main", "log", "export", "import", "policy-apply")
WORDS += ("approve refs/heads/main " + "0" * 64, "annotate skip " + "1" * 64 + " --message=x", "explain git:refs/heads/main", "demo 1")
WORDS += ("verify-ref refs/heads/main --root " + "a" * 64 + " --stdin",)


class Fuzz:
    """Mutants from a seed, in a folder, and the counts of what came of them."""

    def __init__(self, folder, seed):
        self.folder, self.drawn, self.counts = folder, random.Random(seed), {}
        with open(os.path.join(TOP, "examples", "guarded.stream"), "rb") as file:
            self.stream = file.read()
        self.keys = [OneLeaf(5, 4, it) for it in range(2)]
        self.store, self.key = os.path.join(folder, "kept"), os.path.join(folder, "key")
        self.made()
        self.reading, self.goods = READING, fuzzed_kinds.Goods(self.path, self.store, self.key)
        self.gate = fuzzed_kinds.Gate(self.goods)

    def __enter__(self):
        return self

    def __exit__(self, *_):
        self.gate.ends()

    def found(self, words, given, said):
        raise Found(words, given, said)

    def path(self, name):
        return os.path.join(self.folder, name)

    def made(self):
        """The good things that mutants are made of."""
        for words, given in (((f"{self.store}/", "-", "import"), self.stream), (("-", self.key, "key-gen", "5", "1"), b"")):
            status, _, errors = run(PROGRAM, *words, input=given)
            if status:
                raise Failure(f"{words} ended with {status}: {errors}")
        with open(self.key, "rb") as file:
            self.key_text = file.read()
        self.payload = rule_file("targets", self.keys, [rule("main", f"git:{MAIN}", ["a", "b"], threshold=2)], people=self.people())
        self.envelope = run(PROGRAM, "-", self.key, "seal", input=self.payload)[1]
        with open(self.key, "wb") as file:
            file.write(self.key_text)

    def people(self):
        return {"a": self.keys[:1], "b": self.keys[1:]}

    def ended(self, words, given):
        """Runs the program within its limits."""
        with subprocess.Popen(
            (PROGRAM, *words), cwd=self.folder, stdin=subprocess.PIPE, stdout=subprocess.PIPE, stderr=subprocess.PIPE
        ) as program:
            limit(program.pid)
            try:
                output, errors = program.communicate(given, CLOCK_SECONDS)
            except subprocess.TimeoutExpired:
                program.kill()
                raise Found(words, given, f"it did not end in {CLOCK_SECONDS} s") from None
        return subprocess.CompletedProcess(words, program.returncode, output, errors)

    def held(self, words, given=b"", statuses=(0, 1, 2, 3, 4, 5, 6), verdict=False):
        """Runs the program, and holds how it ended to the table."""
        start = time.monotonic()
        ran = self.ended(words, given)
        said = f"it ended with {ran.returncode} after {time.monotonic() - start:.1f} s, and said {ran.stderr[-300:]!r}"
        if ran.returncode not in statuses or not LINES[ran.returncode].fullmatch(ran.stderr):
            raise Found(words, given, said)
        if verdict and ran.returncode in (0, 1, 3) and not ran.stderr and not VERDICT.fullmatch(ran.stdout):
            raise Found(words, given, f"{said}, and printed {ran.stdout[:300]!r}")
        return ran

    def streams(self):
        """Streams by bytes and by structure, judged and imported."""
        way = bytes_of if self.drawn.random() < 0.3 else stream_of
        text = way(self.drawn, self.stream)
        if self.drawn.random() < 0.1:
            self.held(("-", "-", "import"), text, (0, 3))
        else:
            self.held(("-", "-", self.drawn.choice(READING[:2])[0], self.drawn.choice((MAIN, POLICY)), "--stdin"), text, (0, 1, 3), True)

    def policies(self):
        """A repository whose policy says something else, signed by those who are to sign it."""
        made, roles = History(), (["a", "b"], ["a", "b"])
        root = root_of_people(1, self.keys, self.people(), *roles, (2, 2))
        files, which = {"root": root, "targets": self.payload}, self.drawn.choice(("root", "targets"))
        how = json_of if self.drawn.random() < 0.8 else bytes_of
        files[which] = how(self.drawn, files[which])
        made.policy({name: (text, self.keys) for name, text in files.items()}, self.keys[0])
        made.record(MAIN, made.commit({b"README": b"x\n"}), self.keys[0])
        self.held(("-", "-", "verify-ref", self.drawn.choice((MAIN, POLICY)), "--stdin"), made.repository.stream(), (0, 1, 3), True)

    def entries(self):
        """A log whose last entry is another text, signed as it stands."""
        made = History()
        root = root_of_people(1, self.keys, self.people(), ["a"], ["a"])
        made.policy({"root": (root, self.keys), "targets": (self.payload, self.keys)}, self.keys[0])
        target = made.commit({b"README": b"x\n"})
        lines = [f"ref: {MAIN}", f"targetID: {target}"]
        sign = made.sign
        made.sign = lambda key, text: sign(key, bytes_of(self.drawn, text)) if self.drawn.random() < 0.3 else sign(key, text)
        add, drawn = made.repository.add, self.drawn
        made.repository.add = lambda kind, body: add(kind, bytes_of(drawn, body) if kind == b"commit" else body)
        made.add("RSL Reference Entry", lines, self.keys[0])
        made.repository.add = add
        made.repository.set(MAIN, target)
        self.held(("-", "-", "verify-ref", MAIN, "--stdin"), made.repository.stream(), (0, 1, 3), True)

    def envelopes(self):
        """What is sealed, and what is sealed once more."""
        self.put_key(self.key_text)
        if self.drawn.random() < 0.5:
            self.held(("-", self.key, "seal", "--add"), self.drawn.choice((json_of, bytes_of))(self.drawn, self.envelope), (0, 3))
        else:
            self.held(("-", self.key, "seal"), bytes_of(self.drawn, self.payload), (0, 3))

    def put_key(self, text):
        with open(self.key, "wb") as file:
            file.write(text)

    def keys_of(self):
        """Key files, of which no mutant takes a mark of a leaf back."""
        text = bytes_of(self.drawn, self.key_text)
        self.put_key(text)
        self.held(("-", self.key, *self.drawn.choice((("seal",), ("key-gen", "5", "1")))), self.payload, (0, 3, 6))
        with open(self.key, "rb") as file:
            after = file.read()
        # A mark is set, and each other byte is what it was, unless the file was empty and has a key now.
        if text and (len(after) != len(text) or sum(a != b for a, b in zip(text, after)) > 1):
            raise Found(("-", "key", "seal"), text, "the key file has more than one other byte")

    def words(self):
        """Words of each command, by bytes and one for another, over what is in memory alone."""
        given = ["-", "-", *self.drawn.choice(WORDS).split(" ")]
        for _ in range(self.drawn.choice((1, 1, 2))):
            at, way = self.drawn.randrange(2, len(given)) if len(given) > 2 else 0, self.drawn.randrange(4)
            if way == 0:
                del given[at]
            elif way == 1:
                given.insert(at, self.drawn.choice(self.drawn.choice(WORDS).split(" ")))
            else:
                other = bytes_of(self.drawn, given[at].encode(errors="surrogateescape")).replace(b"\0", b"")
                given[at] = other[:100000].decode(errors="surrogateescape")
        given[:2] = ["-", "-"]
        with open(EMPTY_STREAM, "rb") as file:
            self.held(given, self.drawn.choice((b"", file.read(), self.payload)))

    def listings(self):
        """What snapshot takes."""
        listing = b"".join(b"100644 %d %s\n%s\n" % (len(text), name, text) for name, text in ((b"README", b"x\n"), (b"docs/page", self.payload)))
        self.held(("-", "-", "snapshot", MAIN), bytes_of(self.drawn, listing), (0, 3))

    def folders(self):
        """A kept folder of which a file is another, is gone, has another name or is no file."""
        place = self.path("folder")
        shutil.rmtree(place, ignore_errors=True)
        shutil.copytree(self.store, place)
        files = sorted(os.path.join(at, it) for at, _, names in os.walk(place) for it in names)
        path, way = self.drawn.choice(files), self.drawn.randrange(7)
        with open(path, "rb") as file:
            text = file.read()
        if way == 0:
            os.remove(path)
        elif way == 1:
            os.rename(path, os.path.join(os.path.dirname(path), self.drawn.choice(("x", "0" * 64, "f" * 64, "main", ".x", "x.lock"))))
        elif way == 2:
            os.remove(path)
            self.drawn.choice((os.mkdir, lambda it: os.symlink("x", it), os.mkfifo))(path)
        elif way == 3:
            with open(os.path.join(place, self.drawn.choice(("open.lock", "commit.lock", "x", "objects/x", "refs/x", "refs/heads/main/x"[:15]))), "wb") as file:
                file.write(text)
        else:
            with open(path, "wb") as file:
                file.write(bytes_of(self.drawn, text))
        self.put_key(self.key_text)
        words = self.drawn.choice((*READING, ("record", MAIN), ("annotate", "note", "1" * 64), ("snapshot", MAIN), ("import",)))
        self.held((f"{place}/", self.key, *words), b"", (0, 1, 3, 4), words[0] == "verify-ref")

    KINDS = (streams, streams, streams, policies, entries, envelopes, keys_of, words, listings, folders, *fuzzed_kinds.KINDS)

    def one(self):
        kind = self.drawn.choice(self.KINDS)
        kind(self)
        self.counts[kind.__name__] = self.counts.get(kind.__name__, 0) + 1

    def told(self):
        each = ", ".join(f"{count} {name.replace('_of', '')}" for name, count in sorted(self.counts.items()))
        return f"{sum(self.counts.values())} mutants: {each}"


class Found(Failure):
    """A run that ended as none may, with all that makes it again."""

    def __init__(self, words, given, said):
        super().__init__(f"gittuf {' '.join(map(repr, words))}: {said}")
        self.given = given


def limit(process):
    """Limits a program that has just begun. A function before its first step would have the whole of Python copied for it."""
    limits = ((resource.RLIMIT_AS, MEMORY), (resource.RLIMIT_CPU, SECONDS), (resource.RLIMIT_CORE, 0))
    for which, most in limits:
        resource.prlimit(process, which, (most, most))
