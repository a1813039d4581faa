"""The checks of tools/test on verdicts, in kept folders with policies that the commands make."""

import json
import os

from check_keys import ENTRY_LINE, KEY_LINE, line_of
from check_snapshots import listing_of, seal, take_snapshot
from checking import LAUNCHER, PROGRAM, TOP, ZEROS
from checking import Failure, run, want, want_run
from made_folders import command, object_file

MAIN = "refs/heads/main"
TWO = "refs/heads/two"
POLICY = "refs/gittuf/policy"
ATTESTATIONS = "refs/gittuf/attestations"
PEOPLE = ("owner", "maintainer", "keeper", "stranger")
# What the branch holds where all is well, what a change makes of it, and the same with a path that a rule protects.
TEXT, OTHER_TEXT = b"A project.\n", b"Another project.\n"
FIRST = listing_of(((b"100644", b"README", TEXT),))
CHANGED = listing_of(((b"100644", b"README", OTHER_TEXT),))
WITH_KEY = listing_of(((b"100644", b"README", TEXT), (b"100644", b"keys/a", b"1\n")))


def tree_of(text):
    """The id of the tree whose one file, README, has these bytes."""
    _, blob = object_file(b"blob", text)
    return object_file(b"tree", b"100644 README\0" + bytes.fromhex(blob))[1]


class Guarded:
    """A kept folder whose policy is the owner's: main is the maintainer's, the paths keys/* are the keeper's, and for
    two both must sign."""

    def __init__(self, repositories, name):
        self.place, self.keys, self.ids, self.publics, self.entries = repositories.path(name), {}, {}, {}, []
        for who in PEOPLE:
            self.keys[who] = repositories.path(f"{name}-{who}.key")
            found = line_of(KEY_LINE, (PROGRAM, "-", self.keys[who], "key-gen", "5", "8"))
            _, self.ids[who], self.publics[who] = found[0].decode().split()
        self.propose("owner")
        self.sign("owner", "policy-apply")

    def file_of(self, people, **fields):
        """The payload of a metadata file that lists these people with a key each."""
        listed = [{"keyid": self.ids[who], "keytype": "lms", "public": self.publics[who]} for who in people]
        persons = [{"name": who, "keyids": [self.ids[who]]} for who in people]
        return json.dumps({"version": 1, "schema": 2, "keys": listed, "persons": persons, **fields}).encode()

    def propose(self, signer):
        """Puts the policy on its reference, with each file sealed by this person."""
        owner = {"persons": ["owner"], "threshold": 1}
        root = self.file_of(["owner"], type="root", roles={"root": owner, "targets": owner})
        rules = [
            {"name": name, "paths": [pattern], "terminating": False, "persons": people, "threshold": len(people)}
            for name, pattern, people in (
                ("main", f"git:{MAIN}", ["maintainer"]),
                ("keys", "file:keys/*", ["keeper"]),
                ("two", f"git:{TWO}", ["maintainer", "keeper"]),
            )
        ]
        targets = self.file_of(["maintainer", "keeper"], type="rules", name="targets", rules=rules)
        files = ((b"root", root), (b"targets", targets))
        rows = [(b"100644", b"metadata/%s.json" % name, seal(self.keys[signer], input=text)) for name, text in files]
        take_snapshot(self.place, listing_of(rows), POLICY)

    def sign(self, who, *words):
        """Adds an entry to the log by a person's key, and holds its number to the next one."""
        found = line_of(ENTRY_LINE, (PROGRAM, f"{self.place}/", self.keys[who], *words))
        self.entries.append(found[2].decode())
        want(int(found[1]), len(self.entries), "the number of the entry")

    def change(self, who, listing, name=MAIN):
        """Puts a listing on a branch and records that, and returns the commit."""
        commit = take_snapshot(self.place, listing, name)
        self.sign(who, "record", name)
        return commit

    def skip(self, who, number):
        self.sign(who, "annotate", "skip", self.entries[number - 1])

    def approve(self, who, before, tree):
        """Puts a person's approval of a change of two on the attestations' reference, and records that."""
        approval = {"fromRevisionID": before, "targetRef": TWO, "targetTreeID": tree, "type": "approval"}
        envelope = seal(self.keys[who], input=json.dumps(approval).encode())
        path = f"reference-authorizations/{TWO}/{before}-{tree}".encode()
        self.change(who, listing_of(((b"100644", path, envelope),)), ATTESTATIONS)

    def wants(self, verdict, *words, name=MAIN):
        """Holds the verdict on a reference to this line, of the folder and of its stream."""
        status = 0 if verdict.startswith("accepted") else 1
        line = f"{verdict}\n".encode()
        want_run(command(self.place, "verify-ref", name, *words), status, line)
        exported, stream, _ = run(*command(self.place, "export"))
        want(exported, 0, "the status of export")
        want_run((PROGRAM, "-", "-", "verify-ref", name, *words, "--stdin"), status, line, input=stream)


def accepts_what_is_lawful(repositories):
    """a branch whose changes were all lawful is accepted, and differs where it was moved behind that"""
    guarded = Guarded(repositories, "lawful")
    for name, line in ((f"git:{MAIN}", b"rule main 1 open\n"), ("file:keys/a", b"rule keys 1 open\n")):
        want_run(command(guarded.place, "explain", name), 0, line)
    want_run(command(guarded.place, "explain", "file:README"), 0, b"unprotected\n")
    recorded = guarded.change("maintainer", FIRST)
    guarded.wants(f"accepted {MAIN} 1 entries")
    guarded.change("stranger", FIRST, "refs/heads/free")
    guarded.wants("accepted refs/heads/free 1 entries", name="refs/heads/free")
    guarded.wants("accepted refs/heads/none 0 entries", name="refs/heads/none")
    kept = take_snapshot(guarded.place, CHANGED, MAIN)
    guarded.wants(f"tip-differs {MAIN} kept {kept} recorded {recorded}")
    guarded.sign("maintainer", "record", MAIN)
    guarded.wants(f"accepted {MAIN} 2 entries")


def asks_for_the_first_root(repositories):
    """with --root the first policy has the given keys in its root role, or there is none"""
    guarded = Guarded(repositories, "anchored")
    guarded.change("maintainer", FIRST)
    owner, other = guarded.ids["owner"], guarded.ids["maintainer"]
    for given in (owner, f"{owner},{owner}"):
        guarded.wants(f"accepted {MAIN} 1 entries", "--root", given)
        guarded.wants(f"accepted {POLICY} 1 entries", "--root", given, name=POLICY)
    for given in (other, f"{owner},{other}"):
        guarded.wants(f"violation {MAIN} 2 no-policy", "--root", given)
        guarded.wants(f"violation {POLICY} 1 not-epoch anchor", "--root", given, name=POLICY)


def names_a_stranger(repositories):
    """a stranger's change of a branch is a violation until the maintainer skips it and restores the tree"""
    guarded = Guarded(repositories, "strange")
    guarded.change("maintainer", FIRST)
    guarded.change("stranger", CHANGED)
    violation = f"violation {MAIN} 3 ref-rule main 0 of 1"
    guarded.wants(violation)
    guarded.skip("stranger", 3)
    guarded.change("maintainer", FIRST)
    guarded.wants(violation)
    guarded.skip("maintainer", 3)
    guarded.skip("maintainer", 5)
    guarded.wants(violation)
    guarded.change("maintainer", CHANGED)
    guarded.wants(violation)
    guarded.skip("maintainer", 8)
    guarded.change("maintainer", FIRST)
    guarded.wants(f"accepted {MAIN} 5 entries")


def names_a_path(repositories):
    """a change of a path by another than its keeper is a violation, and a recovery takes it in"""
    guarded = Guarded(repositories, "paths")
    guarded.change("maintainer", FIRST)
    guarded.change("maintainer", WITH_KEY)
    guarded.wants(f"violation {MAIN} 3 path-rule keys/a keys 0 of 1")
    guarded.skip("maintainer", 3)
    guarded.change("maintainer", FIRST)
    guarded.wants(f"accepted {MAIN} 3 entries")
    guarded.change("keeper", WITH_KEY)
    guarded.wants(f"violation {MAIN} 6 ref-rule main 0 of 1")


def counts_distinct_signers(repositories):
    """where two must sign, one's change is accepted with the other's approval of it before, and not with the own one"""
    guarded = Guarded(repositories, "distinct")
    guarded.approve("keeper", ZEROS, tree_of(TEXT))
    commit = guarded.change("maintainer", FIRST, TWO)
    guarded.wants(f"accepted {TWO} 1 entries", name=TWO)
    guarded.approve("maintainer", commit, tree_of(OTHER_TEXT))
    guarded.change("maintainer", CHANGED, TWO)
    guarded.approve("keeper", commit, tree_of(OTHER_TEXT))
    guarded.wants(f"violation {TWO} 5 ref-rule two 1 of 2", name=TWO)
    guarded.skip("keeper", 5)
    guarded.approve("keeper", commit, tree_of(TEXT))
    guarded.change("maintainer", FIRST, TWO)
    guarded.wants(f"accepted {TWO} 3 entries", name=TWO)


def approves_by_command(repositories):
    """approve signs for the move to a commit's files beside other signatures, and refuses a commit that is not there"""
    guarded = Guarded(repositories, "approved")
    commit = take_snapshot(guarded.place, FIRST, TWO)
    line = f"approval {ZEROS} {tree_of(TEXT)}\n".encode()
    for who in ("keeper", "owner", "keeper"):
        want_run((PROGRAM, f"{guarded.place}/", guarded.keys[who], "approve", TWO, commit), 0, line)
    guarded.sign("owner", "record", ATTESTATIONS)
    guarded.sign("maintainer", "record", TWO)
    guarded.wants(f"accepted {TWO} 1 entries", name=TWO)
    missing = "1" * 64
    words = (PROGRAM, f"{guarded.place}/", guarded.keys["keeper"], "approve", TWO, missing)
    want_run(words, 3, errors=f"object {missing}\n".encode())


def names_a_missing_tree(repositories):
    """an entry whose tree went missing is a violation that names the tree"""
    guarded = Guarded(repositories, "treeless")
    guarded.change("maintainer", FIRST)
    guarded.change("maintainer", CHANGED)
    tree = tree_of(OTHER_TEXT)
    os.remove(os.path.join(guarded.place, "objects", tree))
    guarded.wants(f"violation {MAIN} 3 broken {tree}")


def keeps_the_policy_in_force(repositories):
    """a policy that too few signed is refused, and one that was recorded all the same changes nothing"""
    guarded = Guarded(repositories, "policies")
    guarded.propose("stranger")
    words = (PROGRAM, f"{guarded.place}/", guarded.keys["owner"], "policy-apply")
    want_run(words, 3, errors=b"policy root-threshold 0 of 1\n")
    guarded.sign("stranger", "record", POLICY)
    guarded.change("maintainer", FIRST)
    guarded.wants(f"violation {POLICY} 2 not-epoch root-threshold 0 of 1", name=POLICY)
    guarded.wants(f"accepted {MAIN} 1 entries")


def guards_as_the_page_says(repositories):
    """the lines of docs/PROGRAM.md that guard a repository can be copied, and print what it says"""
    with open(os.path.join(TOP, "docs", "PROGRAM.md"), encoding="utf-8") as file:
        _, found, section = file.read().partition("## Guard a repository by the program alone\n")
    if not found:
        raise Failure("docs/PROGRAM.md has no section on guarding a repository")
    lines = section.split("```\n")[1]
    folder = repositories.path("reader")
    os.mkdir(folder)
    os.symlink(os.path.join(TOP, "tools"), os.path.join(folder, "tools"))
    os.symlink(LAUNCHER, os.path.join(folder, "gittuf"))
    os.symlink(repositories.needed(), os.path.join(folder, "project"))
    status, output, errors = run("sh", "-e", "-c", lines, folder=folder)
    want((status, errors), (0, b""), "the status and errors of the lines")
    want(output.splitlines()[-1], f"accepted {MAIN} 1 entries".encode(), "the last line that they print")


CHECKS = (
    accepts_what_is_lawful,
    asks_for_the_first_root,
    names_a_stranger,
    names_a_path,
    counts_distinct_signers,
    approves_by_command,
    names_a_missing_tree,
    keeps_the_policy_in_force,
    guards_as_the_page_says,
)
