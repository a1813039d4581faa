"""The checks of tools/test that nothing is approved, skipped or applied in vain, and on who is named beside a verdict."""

import json
import os
import re

from checking import want
from guarded_clones import MAIN, another

LOG, POLICY, ATTESTATIONS = "refs/gittuf/reference-state-log", "refs/gittuf/policy", "refs/gittuf/attestations"
ANYWAY = "; --anyway signs it all the same"


def applied(clones, who):
    clones.sign(who)
    clones.gittuf(who, "policy", "apply")


def of_three(repositories, name):
    """Clones with carol too, of whom no rule speaks, where main wants two of alice and bob, and docs bob."""
    clones = another(repositories, name)
    clones.clone("carol")
    clones.gittuf("alice", "policy", "person", "carol", clones.public("carol"))
    clones.gittuf("alice", "policy", "rule", "main", "--threshold", "2")
    clones.gittuf("alice", "policy", "rule", "docs", "file:docs/*", "--persons", "bob")
    applied(clones, "alice")
    clones.gittuf("alice", "push")
    for who in ("bob", "carol"):
        clones.git("fetch", "--quiet", who=who)
        clones.gittuf(who, "verify", "main")
    return clones


def holds_leaves(clones, who, *words, part):
    """Holds a refusal to its status and a part of its line, and the key to the leaves that it had used."""
    before = clones.used(who)
    clones.refused(who, *words, status=3, part=part)
    want(clones.used(who), before, f"how many leaves of {who} are used by git gittuf {' '.join(words)}")


def approves_no_other_paths(repositories):
    """who is asked for paths alone approves no change of others: nothing is signed, and with one of these paths it is"""
    clones = of_three(repositories, "approved for paths")
    clones.gittuf("alice", "policy", "rule", "main", "--persons", "alice,carol")
    applied(clones, "alice")
    clones.gittuf("alice", "push")
    for who in ("bob", "carol"):
        clones.git("fetch", "--quiet", who=who)
    clones.commit("carol")
    clones.git("push", "--quiet", "origin", "main:idea", who="carol")
    clones.git("fetch", "--quiet", who="bob")
    part = "nothing is approved, as rule main wants 2 of alice, carol, and the rules for main and for paths ask alice, carol, and not you"
    holds_leaves(clones, "bob", "approve", "main", "origin/idea", part=part + ANYWAY)
    clones.commit("carol", "docs/page")
    clones.git("push", "--quiet", "origin", "main:idea", who="carol")
    clones.git("fetch", "--quiet", who="bob")
    used = clones.used("bob")
    clones.gittuf("bob", "approve", "main", "origin/idea")
    want(clones.used("bob"), used + 2, "how many leaves are used")


def approves_nothing_in_vain(repositories):
    """an approval that no rule wants, or not of this key, or that was given already, is refused with the rule and who is missing"""
    clones = of_three(repositories, "approved in vain")
    clones.commit("carol")
    part = "nothing is approved, as rule main wants 2 of alice, bob, and the rules for main and for paths ask alice, bob, and not you"
    holds_leaves(clones, "carol", "approve", "main", part=part + ANYWAY)
    clones.git("branch", "idea", who="bob")
    holds_leaves(clones, "bob", "approve", "idea", part="no rule wants a signature for that idea goes there: git gittuf record idea")
    clones.commit("alice")
    clones.git("push", "--quiet", "origin", "main:topic", who="alice")
    clones.git("fetch", "--quiet", who="bob")
    clones.gittuf("bob", "approve", "main", "origin/topic")
    part = "you approved it already: rule main wants 2 of alice, bob, and missing is alice"
    holds_leaves(clones, "bob", "approve", "main", "origin/topic", part=part)
    used = clones.used("bob")
    clones.gittuf("bob", "approve", "main", "origin/topic", "--anyway")
    want(clones.used("bob") > used, True, "whether --anyway signs")
    clones.gittuf("bob", "push", "--anyway")
    clones.git("fetch", "--quiet", who="alice")
    clones.gittuf("alice", "record", "main")
    clones.verdict("alice", f"accepted {MAIN} 2 entries")


def approves_for_more(repositories):
    """where three are wanted, who approves is told who is missing still, and the next line"""
    clones = of_three(repositories, "approved for three")
    clones.gittuf("alice", "policy", "rule", "main", "--persons", "alice,bob,carol", "--threshold", "3")
    applied(clones, "alice")
    tip = clones.commit("alice")
    _, _, errors = clones.asked("alice", "approve", "main")
    said = f"rule main wants 3 of alice, bob, carol: with you 1 signed, and missing is bob or carol: git gittuf approve main {tip}"
    want(said in errors.decode(), True, f"what is told: {errors}")


def approves_no_way_into_a_violation(repositories):
    """on a branch that stands in violation only what recovers it is approved"""
    clones = of_three(repositories, "approved in violation")
    clones.commit("carol")
    clones.gittuf("carol", "record", "main", "--anyway")
    clones.git("push", "--quiet", who="carol")
    clones.git("pull", "--quiet", who="bob")
    clones.commit("bob")
    number = len(clones.git("rev-list", "refs/gittuf-remotes/origin/reference-state-log", who="bob").split())
    part = f"main stands in violation since entry {number}, and what this approves would not end it: git gittuf recover main leads out"
    holds_leaves(clones, "bob", "approve", "main", part=part)
    clones.gittuf("bob", "skip", str(number))
    # A skip alone leads nowhere, and the stranger's files are not approved behind it.
    holds_leaves(clones, "bob", "approve", "main", part=part)
    clones.git("restore", "--source", "HEAD~2", "--staged", "--worktree", ":/", who="bob")
    clones.git("commit", "--quiet", "--message", "taken back", who="bob")
    clones.gittuf("bob", "approve", "main")
    clones.git("push", "--quiet", who="bob")
    clones.git("pull", "--quiet", who="alice")
    clones.gittuf("alice", "record", "main")
    clones.verdict("alice", f"accepted {MAIN} 3 entries")


def skips_nothing_in_vain(repositories):
    """a skip that counts for nothing is refused: by whom no rule for the branch asks, of what is skipped, and of an annotation"""
    clones = of_three(repositories, "skipped in vain")
    part = "nothing is skipped, as entry 2 is of main, which alice, bob may change, and not you: git gittuf recover main by one of them"
    holds_leaves(clones, "carol", "skip", "2", part=part + ANYWAY)
    clones.gittuf("carol", "note", "2", "-m", "is it?")
    number = len(clones.git("rev-list", LOG, who="carol").split())
    holds_leaves(clones, "carol", "skip", str(number), part=f"entry {number} is a note, and a skip counts for what entries recorded alone")
    clones.gittuf("carol", "skip", "2", "--anyway")
    clones.git("push", "--quiet", "origin", f"{LOG}:{LOG}", who="carol")
    clones.git("fetch", "--quiet", who="alice")
    # A skip of hers is none.
    clones.verdict("alice", f"accepted {MAIN} 1 entries")
    clones.gittuf("alice", "skip", "2")
    holds_leaves(clones, "alice", "skip", "2", part="entry 2 is skipped already")


def applies_nothing_in_vain(repositories):
    """policy apply names the file that lacks signatures, whom it asks and who is missing, for each of the roles, and uses no leaf"""
    clones = another(repositories, "applied in vain")
    clones.gittuf("alice", "policy", "rule", "targets", "--persons", "alice,bob", "--threshold", "2")
    clones.sign("alice")
    part = "policy file-threshold targets 1 of 2; the file targets wants 2 of alice, bob, and missing is bob, of whom each signs it by git gittuf policy sign"
    holds_leaves(clones, "alice", "policy", "apply", part=part)
    clones.git("push", "--quiet", who="alice")
    clones.git("fetch", "--quiet", who="bob")
    clones.sign("bob")
    clones.gittuf("bob", "policy", "apply")
    clones.gittuf("bob", "policy", "rule", "root", "--persons", "bob")
    clones.sign("bob")
    part = "policy root-succession 0 of 1; the root that is in force wants 1 of alice, and missing is alice"
    holds_leaves(clones, "bob", "policy", "apply", part=part)
    clones.gittuf("bob", "policy", "apply", "--anyway")
    number = len(clones.git("rev-list", LOG, who="bob").split())
    line = f"violation {POLICY} {number} not-epoch root-succession 0 of 1\n".encode()
    want(clones.gittuf("bob", "verify", POLICY, status=1), line, "the verdict on a policy that was recorded in vain")
    _, _, errors = clones.asked("bob", "policy", "discard")
    clones.copied("bob", re.search(r"git update-ref \S+ \w+", errors.decode())[0])
    clones.gittuf("bob", "policy", "discard")
    stray = clones.tip("bob", f"{POLICY}~1")
    clones.git("update-ref", "refs/gittuf/policy-staging", stray, who="bob")
    want(b"rule main" in clones.gittuf("bob", "policy", "show"), True, "whether an older policy is passed over")


def names_who_is_missing(repositories):
    """verify -v names of each entry who signed and approved it and when, what is skipped, and of a violation whom the rule asks and who is missing"""
    clones = of_three(repositories, "named by verify")
    clones.commit("alice")
    clones.git("push", "--quiet", "origin", "main:topic", who="alice")
    clones.git("fetch", "--quiet", who="bob")
    clones.gittuf("bob", "approve", "main", "origin/topic")
    clones.gittuf("bob", "push", "--anyway")
    clones.git("fetch", "--quiet", who="alice")
    clones.gittuf("alice", "record", "main")
    tip = clones.commit("alice")
    clones.gittuf("alice", "record", "main", "--anyway")
    lines = clones.gittuf("alice", "verify", "-v", "main", status=1).decode().splitlines()
    number = len(clones.git("rev-list", LOG, who="alice").split())
    want(lines[0], f"violation {MAIN} {number} ref-rule main 1 of 2", "the verdict")
    fronts = [it.rpartition(", 2")[0] for it in lines[1:-1]]
    first, second = (clones.tip("alice", f"{MAIN}~{it}")[:12] for it in (2, 1))
    wanted = [f"  entry 2 is {first}, by alice", f"  entry {number - 1} is {second}, by alice, approved by bob", f"  entry {number} is {tip[:12]}, by alice"]
    want(fronts, wanted, "the entries, but their times")
    want(lines[-1], "    rule main wants 2 of alice, bob: missing is bob", "who is missing")
    told = json.loads(clones.gittuf("alice", "verify", "-v", "--json", "main", status=1))["told"]
    want([(it["number"], it["person"], it["approved"]) for it in told][1:], [(number - 1, "alice", ["bob"]), (number, "alice", [])], "the objects")
    want((told[-1]["rule"], told[-1]["missing"], "rule" in told[0]), ("main", ["bob"], False), "the rule of the last one")
    clones.gittuf("alice", "skip", str(number))
    lines = clones.gittuf("alice", "verify", "-v", "main", status=1).decode().splitlines()
    want(f", and entry {number + 1} says skip" in lines[3], True, f"whether the skip is told: {lines}")
    clones.git("branch", "x\u202ey", who="carol")
    clones.gittuf("carol", "record", "x\u202ey")
    lines = clones.gittuf("carol", "verify", "-v", "x\u202ey").decode()
    want(("\u202e" in lines, "by carol" in lines), (False, True), f"how a name is shown that turns lines round: {lines}")


def names_nobody_by_another_approval(repositories):
    """who approved one change is not named beside another one, whatever stands at its place among the approvals"""
    clones = of_three(repositories, "approved elsewhere")
    first = clones.tip("alice")
    clones.commit("alice")
    clones.git("push", "--quiet", "origin", "main:topic", who="alice")
    clones.git("fetch", "--quiet", who="bob")
    clones.gittuf("bob", "approve", "main", "origin/topic")
    clones.gittuf("bob", "push", "--anyway")
    clones.git("fetch", "--quiet", who="alice")
    clones.gittuf("alice", "verify", "main", status=1)
    clones.git("reset", "--quiet", "--hard", first, who="alice")
    clones.commit("alice")
    path = f"reference-authorizations/{MAIN}/{first}-{clones.tip('alice', f'{MAIN}^{{tree}}')}"
    given = clones.git("ls-tree", "-r", ATTESTATIONS, who="alice").split()[2].decode()
    clones.git("read-tree", ATTESTATIONS, who="alice")
    clones.git("update-index", "--add", "--cacheinfo", f"100644,{given},{path}", who="alice")
    tree = clones.git("write-tree", who="alice").decode().strip()
    made = clones.git("commit-tree", "-m", "moved", "-p", ATTESTATIONS, tree, who="alice").decode().strip()
    clones.git("reset", "--quiet", who="alice")
    clones.git("update-ref", ATTESTATIONS, made, who="alice")
    clones.gittuf("alice", "record", ATTESTATIONS)
    part = "rule main wants 2 of alice, bob for it; missing is bob"
    clones.refused("alice", "record", "main", status=3, part=part)
    clones.gittuf("alice", "record", "main", "--anyway")
    told = json.loads(clones.gittuf("alice", "verify", "-v", "--json", "main", status=1))["told"]
    want((told[-1]["approved"], told[-1]["missing"]), ([], ["bob"]), "who approved it, and who is missing")


def names_nobody_unproved(repositories):
    """a name beside an entry is of a signature that was looked at: one that is kept as good counts only as it was written"""
    clones = another(repositories, "signed anew")
    lines = clones.gittuf("bob", "log", "-v")
    path = os.path.join(clones.path("bob"), ".git", "gittuf", "signed")
    with open(path, "rb") as file:
        whole = file.read()
    want(whole.count(b"+ "), 2, "how many signatures are kept as good")
    for text in (whole.replace(b"+", b"-"), b"", whole[:-1], whole + b"\n"):
        with open(path, "wb") as file:
            file.write(text)
        want(clones.gittuf("bob", "log", "-v"), lines, f"who is named beside {text[:80]!r}")


def names_a_branch_of_a_remote(repositories):
    """a word that names no commit here is told with the branch of a remote that has this name"""
    clones = another(repositories, "shown")
    clones.git("switch", "--quiet", "--create", "idea", who="bob")
    clones.commit("bob")
    clones.git("push", "--quiet", "origin", "HEAD", who="bob")
    clones.git("fetch", "--quiet", who="alice")
    clones.refused("alice", "approve", "main", "idea", status=3, part="idea names no commit here, and origin has a branch of that name: origin/idea")
    clones.refused("alice", "approve", "main", "nothing", status=3, part="nothing names no commit here: git log shows")


CHECKS = (
    approves_nothing_in_vain,
    approves_no_other_paths,
    approves_for_more,
    approves_no_way_into_a_violation,
    names_a_branch_of_a_remote,
    skips_nothing_in_vain,
    applies_nothing_in_vain,
    names_who_is_missing,
    names_nobody_by_another_approval,
    names_nobody_unproved,
)
