"""Histories to be judged: a repository with a log, made entry by entry, and what must come of a run over it."""

import textwrap

from rows_objects import AUTHOR, EMPTY_TREE, FILE, ZEROS, Repository
from rows_policies import approval, base64_of, encoded, envelope, root, rule, rule_file
from rows_runs import Run
from rows_signing import Key

MAIN = "refs/heads/main"
POLICY = "refs/gittuf/policy"
ATTESTATIONS = "refs/gittuf/attestations"
LOG = "refs/gittuf/reference-state-log"
OWNER, MAINTAINER, REVIEWER, KEEPER, NEWCOMER = (
    Key(name) for name in ("owner", "maintainer", "reviewer", "keeper", "newcomer")
)
MESSAGE_BEGINS, MESSAGE_ENDS, MESSAGE_WIDTH = "-----BEGIN MESSAGE-----", "-----END MESSAGE-----", 64
# Two trees that differ in one path alone.
BEFORE, AFTER = {b"src/x": b"before\n"}, {b"src/x": b"after\n"}


def lines_of(lines):
    return b"".join(line.encode() + b"\n" for line in lines)


class History:
    """A repository with a log. Each key signs with its leaves in order, in each history anew."""

    def __init__(self, author=AUTHOR):
        self.repository, self.ids, self.used, self.commits = Repository(author), [], {}, 0

    def sign(self, key, message):
        leaf = self.used.get(key, 0)
        self.used[key] = leaf + 1
        return key.sign(leaf, message)

    def add(self, title, lines, signer, message=None):
        """Adds an entry to the log, signed or not, with a message or not."""
        number = len(self.ids) + 1
        head = [f"tree {EMPTY_TREE}", *(f"parent {id}" for id in self.ids[-1:])]
        head += [f"{who} {self.repository.author.decode()}" for who in ("author", "committer")]
        tail = ["", title, "", *lines, f"number: {number}"]
        if message is not None:
            tail += [MESSAGE_BEGINS, *textwrap.wrap(base64_of(message), MESSAGE_WIDTH), MESSAGE_ENDS]
        if signer:
            head.append(f"lmssig {signer.id} {base64_of(self.sign(signer, lines_of(head + tail)))}")
        self.ids.append(self.repository.add(b"commit", lines_of(head + tail)))
        self.repository.set(LOG, self.ids[-1])

    def record(self, reference, target, signer=None):
        """Puts a reference at a target, and records that."""
        self.add("RSL Reference Entry", [f"ref: {reference}", f"targetID: {target}"], signer)
        self.repository.set(reference, target)

    def annotate(self, skip, ids, signer, message=None):
        """Skips the entries of ids, or notes something of them."""
        lines = [*(f"entryID: {id}" for id in ids), f"skip: {str(skip).lower()}"]
        self.add("RSL Annotation Entry", lines, signer, message)

    def skip(self, number, signer):
        """Skips the entry of a number."""
        self.annotate(True, [self.ids[number - 1]], signer)

    def snapshot(self, reference, files):
        """Puts a reference at a commit of files, which are (mode, bytes) by path, after the commit where it stands."""
        rows = {path: (mode, self.repository.blob(body)) for path, (mode, body) in files.items()}
        parents = [self.repository.references[reference]] if reference in self.repository.references else []
        commit = self.repository.commit(self.repository.tree(rows), b"snapshot", parents)
        self.repository.set(reference, commit)
        return commit

    def commit(self, files):
        """A commit of files by path, which are bytes, or a mode and an id. No two commits are the same."""
        self.commits += 1
        rows = {}
        for path, value in files.items():
            rows[path] = (FILE, self.repository.blob(value)) if isinstance(value, bytes) else value
        return self.repository.commit(self.repository.tree(rows), b"change %d" % self.commits)

    def seal(self, payload, signers, named=True):
        """The envelope of a payload with a signature by each of the keys, in order, with their ids or without."""
        message = encoded(payload)
        return envelope(payload, [(key.id if named else None, self.sign(key, message)) for key in signers])

    def policy(self, files, signer=OWNER):
        """Records a policy of files, which are a payload and its signers by the file's stem."""
        rows = {b"metadata/%s.json" % stem.encode(): self.seal(*sealed) for stem, sealed in files.items()}
        self.record(POLICY, self.commit(rows), signer)

    def approve(self, target, *signers, reference=MAIN, before=ZEROS, tree=None, payload=None, named=True):
        """Records attestations that have one approval, of a target's tree, and answers their commit."""
        tree = tree or self.repository.tree_of(target)
        payload = payload or approval(reference, before, tree)
        path = f"reference-authorizations/{reference}/{before}-{tree}"
        commit = self.commit({path.encode(): self.seal(payload, signers, named)})
        self.record(ATTESTATIONS, commit)
        return commit


def base_root():
    return root(1, [OWNER], [OWNER], [OWNER])


def top_file(keys, rules, version=1, people=None):
    return rule_file("targets", keys, rules, version, people)


def keys_rule():
    return rule("keys", "file:keys/*", [KEEPER])


def main_rule(*who, threshold=1):
    return rule("main", f"git:{MAIN}", who, threshold)


def base_top(threshold=1):
    """What is in force unless a row says otherwise: keys/* is the keeper's, and main the maintainer's and the
    reviewer's, of whom so many must sign."""
    rules = [keys_rule(), main_rule(MAINTAINER, REVIEWER, threshold=threshold)]
    return top_file([KEEPER, MAINTAINER, REVIEWER], rules)


def base_files(top):
    """The files of a policy with this top file, each signed by the owner."""
    return {"root": (base_root(), [OWNER]), "targets": (top, [OWNER])}


def guarded(top=None, **files):
    """A history whose first entry is a policy of the owner's, with further files by name."""
    history = History()
    history.policy(base_files(top or base_top()) | files)
    return history


def asked(status, printed, reference=MAIN, words=""):
    """The verdict on a reference, over the stream."""
    return Run(f"verify-ref {reference}{words} --stdin", (status, printed + "\n", ""))


def asked_again(status, printed, reference=MAIN, words=""):
    """The verdict on a reference, over the store of the run before."""
    return Run(f"verify-ref {reference}{words}", (status, printed + "\n", ""))
