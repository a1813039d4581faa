"""The checks of tools/test on editing policies, on keys that are changed or lost, and on what is judged alike in each clone."""

import json
import os
import re

from checking import run, want
from guarded_clones import MAIN, another

LOG, POLICY = "refs/gittuf/reference-state-log", "refs/gittuf/policy"


def applied(clones, who):
    clones.sign(who)
    return clones.gittuf(who, "policy", "apply")


def edits_rules(repositories):
    """a rule is put before another, ends terminating or not, and goes on in a file of its own that its persons sign"""
    clones = another(repositories, "rules")
    rule = lambda *words: clones.gittuf("alice", "policy", "rule", *words).decode()
    rule("docs", "file:docs/*", "--persons", "alice, bob", "--terminating")
    clones.refused("alice", "policy", "rule", "docs", "--persons", "alice,", status=2, part="lacks a name before or behind a comma")
    found, _, said = clones.asked("alice", "policy", "person", "carol", clones.public("bob"))
    want((found, b"is that of bob too" in said), (0, True), f"what is said of a key of two persons: {said}")
    clones.gittuf("alice", "policy", "person", "carol", "--remove")
    want("+ rule docs: file:docs/* by 1 of alice bob\n" in rule("docs", "--no-terminating"), True, "whether a later rule counts again")
    part = "bob is wanted for main, docs: git gittuf policy rule main --persons .. names others first, and so for each"
    clones.refused("alice", "policy", "person", "bob", "--remove", status=3, part=part)
    rule("docs", "--before", "main")
    clones.refused("alice", "policy", "rule", "docs", "--before", "none", status=3, part="there is no other rule none")
    clones.refused("alice", "policy", "rule", "x", "file:x", "--persons", "bob", "--file", "none", status=3, part="there is no rule none")
    rule("pages", "file:docs/pages/*", "--persons", "bob", "--file", "docs")
    found = clones.gittuf("alice", "policy", "show").decode().splitlines()
    rules = [it.partition(" by ")[0] for it in found if "rule " in it and it.startswith(("+", " "))]
    want(rules, ["+ rule docs: file:docs/*", "+ file metadata/docs.json has rule pages: file:docs/pages/*"], "the new rules")
    want("docs is signed by 0 of 1" in found, True, f"whether the file waits for a signature: {found}")
    part = "nobody has signed targets and docs yet: git gittuf policy sign by alice or bob"
    clones.refused("alice", "policy", "apply", status=3, part=part)
    applied(clones, "alice")
    want(clones.gittuf("alice", "explain", "file:docs/pages/a"), b"rule docs 1 open\nrule pages 1 open\n", "the rules of a page")
    rule("pages", "--threshold", "1", "--persons", "alice")
    want(b"docs is signed by 1 of 1: alice" in clones.sign("alice"), True, "whether the file alone was to be signed")
    clones.gittuf("alice", "policy", "apply")
    rule("docs", "--remove")
    applied(clones, "alice")
    want(clones.gittuf("alice", "explain", "file:docs/pages/a"), b"unprotected\n", "the rules once it is gone")
    want(clones.gittuf("alice", "verify", POLICY), f"accepted {POLICY} 4 entries\n".encode(), "the verdict on the policy")


def rotates_a_key(repositories):
    """policy rotate gives a person another key, which both keys sign where the person signs policies"""
    clones = another(repositories, "rotated")
    old, new = clones.path("alice.key"), clones.path("new.key")
    clones.gittuf("bob", "key", "--file", clones.path("bobs-new.key"), "--height", "5")
    clones.gittuf("alice", "policy", "rotate", "bob", clones.public("bob"))
    clones.refused("alice", "policy", "rotate", "carol", clones.public("bob"), status=3, part="there is no person carol")
    applied(clones, "alice")
    clones.gittuf("alice", "key", "--file", new, "--height", "5")
    _, _, errors = clones.asked("alice", "policy", "rotate", "alice")
    lost = b"again with the new one; where the old one is lost, too few are left to sign it"
    want((b"signs this by both keys" in errors, lost in errors), (True, True), f"what is said of both keys: {errors}")
    clones.sign("alice")
    clones.refused("alice", "policy", "apply", status=3, part="policy root-succession 0 of 1")
    clones.git("config", "gittuf.key", old, who="alice")
    clones.sign("alice")
    clones.git("config", "gittuf.key", new, who="alice")
    clones.gittuf("alice", "policy", "apply")
    clones.commit("alice")
    clones.gittuf("alice", "record", "main")
    clones.verdict("alice", f"accepted {MAIN} 2 entries")
    clones.gittuf("alice", "policy", "rule", "root", "--persons", "alice,bob")
    applied(clones, "alice")
    # The key of one of two is lost, and one of them is enough.
    _, _, errors = clones.asked("alice", "policy", "rotate", "bob", clones.public("alice"))
    want(b"where the old one is lost, it is signed by 1 of alice" in errors, True, f"what is said of a key that is lost: {errors}")


def makes_a_lost_line_again(repositories):
    """the line with the public part that was lost beside a key file is made again from the file, and no leaf is used"""
    clones = another(repositories, "lost line")
    for words in (("--height", "5", "--width", "4"), ("--height", "10", "--width", "1")):
        path = clones.path(f"lost-{words[1]}.key")
        line = clones.gittuf("bob", "key", "--file", path, *words)
        os.remove(f"{path}.pub")
        want(clones.gittuf("bob", "key"), line, "the line that is made again")
        with open(path, "rb") as file:
            want(b"\1" in file.read()[64:], False, "whether a leaf is used")


def judges_alike_in_each_clone(repositories):
    """a recorded tag that was moved and collected has the same verdict in an old clone and a new one, and so does the whole stream"""
    clones = another(repositories, "collected")
    clones.commit("alice", "beside")
    clones.git("tag", "v1", who="alice")
    clones.gittuf("alice", "record", "v1")
    recorded = clones.tip("alice", "v1")
    clones.git("reset", "--quiet", "--hard", "HEAD~1", who="alice")
    clones.git("tag", "-f", "v1", "main", who="alice")
    clones.git("reflog", "expire", "--expire=now", "--all", who="alice")
    clones.git("gc", "--quiet", "--prune=now", who="alice")
    clones.git("push", "--quiet", "origin", "v1", "refs/gittuf/*:refs/gittuf/*", who="alice")
    clones.clone("auditor", key=False)
    line = f"tip-differs refs/tags/v1 kept {clones.tip('alice')} recorded {recorded}"
    for who in ("alice", "auditor"):
        clones.verdict(who, line, name="refs/tags/v1")


def mends_a_damaged_store(repositories):
    """a store that lacks an object, or has one that is cut, is made again from Git and judged then"""
    clones = another(repositories, "damaged store")
    accepted = f"accepted {MAIN} 1 entries\n".encode()
    clones.gittuf("bob", "verify", "main")
    place = os.path.join(clones.path("bob"), ".git", "gittuf", "kept", "objects", clones.tip("bob", "main^{tree}"))
    for damage in (os.remove, lambda path: open(path, "wb").close()):
        damage(place)
        status, output, errors = clones.asked("bob", "verify", "main")
        want((status, output, b"the store was damaged, and is made again from Git" in errors), (0, accepted, True), f"what is said: {errors}")


def other_length(path):
    """Says another length of what a file of a folder has."""
    with open(path, "rb") as file:
        head, _, body = file.read().partition(b"\0")
    kind, _, length = head.partition(b" ")
    with open(path, "wb") as file:
        file.write(b"%s %d\0%s" % (kind, int(length) + 1, body))


def other_byte(path):
    """Makes one byte of a file another."""
    with open(path, "r+b") as file:
        file.seek(-5, os.SEEK_END)
        last = file.read(1)
        file.seek(-5, os.SEEK_END)
        file.write(bytes([last[0] ^ 1]))


def signs_by_no_older_policy(repositories):
    """where a clone's store lacks a policy, or has it damaged, it is made again first: nothing is signed or pushed by the one before"""
    clones = another(repositories, "no older policy")
    clones.gittuf("alice", "policy", "rule", "main", "--persons", "alice")
    clones.gittuf("alice", "policy", "rule", "topic", "refs/heads/topic", "--persons", "alice")
    clones.gittuf("alice", "policy", "global", "threshold", "one", "1", "refs/heads/other")
    clones.sign("alice")
    clones.gittuf("alice", "policy", "apply")
    clones.git("push", "--quiet", who="alice")
    clones.git("fetch", "--quiet", who="bob")
    clones.commit("bob")
    clones.git("branch", "topic", who="bob")
    clones.gittuf("bob", "verify", "main", status=1)
    log, used, targets = clones.tip("bob", LOG), clones.used("bob"), ":metadata/targets.json"
    place = os.path.join(clones.path("bob"), ".git", "gittuf", "kept", "objects")
    for path, damage, words in (
        (targets, os.remove, ("record", "main")),
        (targets, os.remove, ("skip", "2")),
        (targets, os.remove, ("push", "topic")),
        (targets, other_byte, ("record", "main")),
        ("^{tree}", other_length, ("record", "main")),
        (":metadata/root.json", other_byte, ("skip", "2")),
        ("", os.remove, ("skip", "2")),
        (":metadata", os.remove, ("push", "topic")),
        (":global/rules.json", os.remove, ("record", "main")),
    ):
        damage(os.path.join(place, clones.tip("bob", POLICY + path)))
        status, output, errors = clones.asked("bob", *words)
        said = b"git-gittuf: the store lacks a policy, and is made again from Git\n" in errors
        want((status, output, said, clones.used("bob"), clones.tip("bob", LOG)), (3, b"", True, used, log), f"what {words} does then: {errors}")
        want(run("git", "-C", clones.path("server.git"), "rev-parse", "--verify", "--quiet", "refs/heads/topic")[1], b"", "topic at the server")


def is_small(repositories):
    """the store has no more than judging reads: of 100 commits of which one is recorded, that one's state, and no history"""
    clones = another(repositories, "small store")
    for it in range(100):
        clones.commit("alice", f"d{it % 10}/f{it}")
    clones.gittuf("alice", "record", "main")
    place = os.path.join(clones.path("alice"), ".git", "gittuf", "kept", "objects")
    count = len(os.listdir(place))
    want(count < 60, True, f"whether {count} objects are few")
    clones.verdict("alice", f"accepted {MAIN} 2 entries")
    return f"{count} objects"


def names_who_signed(repositories):
    """log says of each entry who signed it, when, and what it says, and names nobody by a signature that is not good"""
    clones = another(repositories, "named")
    clones.gittuf("bob", "note", "1", "2", "-m", "seen\u202e by bob")
    lines = clones.gittuf("bob", "log", "-v").decode().splitlines()
    want([it.partition(",")[0] for it in lines if it.startswith("  by ")], ["  by alice", "  by alice", "  by bob"], "who signed")
    want(lines[-1], "  of entry 1, entry 2: seen\\x202e by bob", "what is said of entry 3")
    told = [json.loads(it) for it in clones.gittuf("bob", "log", "--json").decode().splitlines()]
    want([(it["number"], it["kind"], it["person"]) for it in told], [(1, "ref", "alice"), (2, "ref", "alice"), (3, "note", "bob")], "the objects")
    want(json.loads(clones.gittuf("bob", "verify", "--json", "main"))["entries"], 1, "the entries of the verdict")
    clones.git("branch", "x<img>", who="bob")
    clones.gittuf("bob", "record", "x<img>")
    clones.gittuf("bob", "report", "-o", clones.path("report.html"))
    with open(clones.path("report.html"), encoding="utf-8") as file:
        page = file.read()
    parts = ("x&lt;img&gt;", "<td>bob</td>", "accepted refs/heads/main 1 entries", "rule main: git:refs/heads/main by 1 of alice bob")
    want([it for it in parts if it not in page], [], "what the report lacks")
    want("<img>" in page, False, "whether a name of a branch is a part of the page")
    # Whoever writes bob's name into an entry of another's is not bob.
    text = clones.git("cat-file", "commit", LOG, who="bob").replace(b"number: 4\n", b"number: 5\n")
    text = re.sub(rb"\nparent \w+", b"\nparent " + clones.tip("bob", LOG).encode(), text)
    forged = clones.git("hash-object", "-w", "-t", "commit", "--stdin", who="bob", input=text).decode().strip()
    clones.git("update-ref", LOG, forged, who="bob")
    last = json.loads(clones.gittuf("bob", "log", "--json").decode().splitlines()[-1])
    want((last["number"], last["key"], last["person"]), (5, None, None), "who signed what bob did not")


CHECKS = (
    names_who_signed,
    edits_rules,
    rotates_a_key,
    makes_a_lost_line_again,
    judges_alike_in_each_clone,
    mends_a_damaged_store,
    signs_by_no_older_policy,
    is_small,
)
