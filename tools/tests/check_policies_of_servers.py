"""The checks of tools/test on policies that a server leaves out or has otherwise, and what is judged by then."""

import os

from checking import want
from git_gittuf import epochs
from guarded_clones import MAIN, another

LOG, POLICY = "refs/gittuf/reference-state-log", "refs/gittuf/policy"


def without_policy(clones, policy):
    """Lets the server hold back what came of the policy after this one."""
    clones.git("update-ref", POLICY, policy, who="server.git")
    clones.git("update-ref", "-d", "refs/gittuf/policy-staging", who="server.git")
    clones.git("gc", "--quiet", "--prune=now", who="server.git")


def judges_by_no_older_policy(repositories):
    """a policy that the log names and a server holds back lets nothing be judged by the one before, whoever takes it back but those who sign policies"""
    clones = another(repositories, "withheld")
    root, older = clones.gittuf("alice", "key", "--id").decode().strip(), clones.tip("alice", POLICY)
    clones.gittuf("alice", "policy", "rule", "main", "--persons", "alice")
    clones.sign("alice")
    clones.gittuf("alice", "policy", "apply")
    clones.gittuf("alice", "push")
    # bob may change main no more, and does, and takes the policy back that says so.
    clones.git("fetch", "--quiet", who="bob")
    clones.commit("bob")
    for words in (("record", "main"), ("skip", "3")):
        clones.gittuf("bob", *words, "--anyway")
    clones.git("update-ref", POLICY, older, who="bob")
    clones.gittuf("bob", "record", POLICY, "--anyway")
    clones.git("push", "--quiet", "origin", "main", f"{LOG}:{LOG}", who="bob")
    without_policy(clones, older)
    clones.clone("auditor", key=False)
    part = "entry 3 recorded a policy that is not here"
    for words in (("verify",), ("verify", "main"), ("verify", "--remote", "origin", "main"), ("report",)):
        clones.refused("auditor", *words, "--root", root, status=3, part=part)
    for words in (("explain", "main"), ("policy", "show")):
        clones.refused("auditor", *words, status=3, part=part)
    want("may bring it" in clones.advised("auditor", part), True, "what doctor says")
    want(clones.git("config", "--get", "--default", "none", "gittuf.firstRoot", who="auditor"), b"none\n", "what is kept as seen first")
    # Who has it judges by it, and so does whoever gets it.
    clones.git("pull", "--quiet", who="alice")
    line = f"violation {MAIN} 4 ref-rule main 0 of 1\n".encode()
    want(clones.gittuf("alice", "verify", "main", status=1), line, "the verdict of alice")
    lost = os.path.join(clones.path("alice"), ".git", "gittuf", "kept", "objects", clones.tip("alice", f"{POLICY}:metadata/targets.json"))
    os.remove(lost)
    want((clones.gittuf("alice", "verify", "main", status=1), os.path.exists(lost)), (line, True), "the verdict where the store had lost it")
    clones.git("push", "--quiet", "origin", f"{clones.tip('alice', POLICY)}:{POLICY}", who="alice")
    clones.git("fetch", "--quiet", who="auditor")
    want(clones.gittuf("auditor", "verify", "--root", root, "main", status=1), line, "the verdict of the auditor then")


def judges_on_where_none_was(repositories):
    """an entry of a stranger for a policy that never was keeps verdicts and signatures away until who signs policies skips it"""
    clones = another(repositories, "never was")
    clones.gittuf("bob", "verify", "main")
    tip, target = clones.tip("bob", LOG).encode(), b"5" * 64
    entry, body = epochs.entry(3, tip, target)
    made = clones.git("hash-object", "-w", "-t", "commit", "--stdin", who="bob", input=body).strip()
    want(made, entry, "the id of an entry")
    clones.git("push", "--quiet", "origin", f"{entry.decode()}:{LOG}", who="bob")
    clones.git("fetch", "--quiet", who="alice")
    part = f"entry 3 recorded a policy that is not here, {target.decode()[:12]}"
    for word in ("verify", "record", "approve", "recover"):
        clones.refused("alice", word, "main", status=3, part=part)
    clones.git("update-ref", LOG, entry.decode(), who="bob")
    clones.gittuf("bob", "skip", "3")
    clones.refused("bob", "verify", "main", status=3, part=part)
    clones.gittuf("alice", "skip", "3")
    want(clones.gittuf("alice", "verify", "main").decode(), f"accepted {MAIN} 1 entries\n", "the verdict once alice has skipped it")
    clones.gittuf("alice", "record", "main")


def judges_nothing_that_each_clone_has(repositories):
    """entries of a stranger that name what each clone has for itself, as where a remote's branch stands, change nothing that verify and doctor say"""
    clones = another(repositories, "of each clone")
    clones.gittuf("bob", "verify", "main")
    before = clones.gittuf("bob", "verify")
    tip, number = clones.tip("bob", LOG).encode(), 3
    kept = clones.git("for-each-ref", "--format=%(refname)", "refs/gittuf/targets/", who="bob").decode().split()
    for name in ("refs/remotes/origin/main", "refs/gittuf-remotes/origin/reference-state-log", kept[0]):
        tip, body = epochs.entry(number, tip, b"0" * 64, name.encode())
        clones.git("hash-object", "-w", "-t", "commit", "--stdin", who="bob", input=body)
        number += 1
    clones.git("push", "--quiet", "origin", f"{tip.decode()}:{LOG}", who="bob")
    clones.git("fetch", "--quiet", who="alice")
    for words in (("verify",), ("verify", "--remote", "origin")):
        want(clones.asked("alice", *words), (0, before, b""), f"what {words} says")
    want(clones.gittuf("alice", "log").count(b"\n"), number - 1, "how many entries are followed")
    want(clones.gittuf("alice", "doctor"), b"all is well\n", "what doctor says")


def tells_that_nothing_is_judged(repositories):
    """a log that speaks of nothing but what each clone has for itself is judged nowhere, and verify says so"""
    clones = another(repositories, "nothing of all")
    entry, body = epochs.entry(1, None, b"0" * 64, b"refs/remotes/origin/main")
    clones.git("hash-object", "-w", "-t", "commit", "--stdin", who="alice", input=body)
    for name in (LOG, POLICY):
        clones.git("update-ref", "-d", name, who="server.git")
    clones.git("push", "--quiet", "origin", f"{entry.decode()}:{LOG}", who="alice")
    clones.clone("newcomer", key=False)
    for words in (("verify",), ("verify", "--remote", "origin"), ("report",)):
        clones.refused_after("newcomer", *words, status=3, part="no entry of the log speaks of a branch or tag")


CHECKS = (
    judges_by_no_older_policy,
    judges_on_where_none_was,
    judges_nothing_that_each_clone_has,
    tells_that_nothing_is_judged,
)
