"""The checks of tools/test that git gittuf leads nobody astray: what is edited and signed, and what is judged."""

import base64
import json
import os

from checking import at_terminal, run, want
from guarded_clones import MAIN, another

LOG, POLICY = "refs/gittuf/reference-state-log", "refs/gittuf/policy"
STAGED = "refs/gittuf/policy-staging"
# A step of each kind that reads the policy.
STEPS = (("show",), ("rule", "docs", "file:docs/*", "--persons", "alice"), ("sign", "--id", "0"), ("apply",))
COMMITTED = ("-c", "user.name=nobody", "-c", "user.email=nobody@localhost")


def commit_of_files(clones, who, files, parent):
    """A commit with these files below `metadata` and no others, which goes on from another one."""
    rows = b""
    for name, text in files.items():
        blob = clones.git("hash-object", "-w", "--stdin", who=who, input=text).decode().strip()
        rows += f"100644 blob {blob}\t{name}\n".encode()
    folder = clones.git("mktree", who=who, input=rows).decode().strip()
    tree = clones.git("mktree", who=who, input=f"040000 tree {folder}\tmetadata\n".encode()).decode().strip()
    words = (*COMMITTED, "commit-tree", "-m", "not of the owner", tree, *(("-p", parent) if parent else ()))
    return clones.git(*words, who=who).decode().strip()


def with_herself(clones, who, key_line):
    """The files of the policy in force, in which a person of this key may change main, without a signature."""
    key_id, public = key_line.split()[1:3]
    files = {}
    for name in ("root.json", "targets.json"):
        files[name] = clones.git("cat-file", "blob", f"{POLICY}:metadata/{name}", who=who)
    envelope = json.loads(files["targets.json"])
    says = json.loads(base64.b64decode(envelope["payload"]))
    says["keys"].append({"keyid": key_id, "keytype": "lms", "public": public})
    says["persons"].append({"name": "mallory", "keyids": [key_id]})
    says["rules"][0]["persons"].append("mallory")
    says["version"] += 1
    payload = json.dumps(says, sort_keys=True, separators=(",", ":")).encode()
    unsigned = {**envelope, "payload": base64.b64encode(payload).decode(), "signatures": []}
    files["targets.json"] = json.dumps(unsigned).encode() + b"\n"
    return files


def with_mallory(repositories, name):
    """Clones with one more, of whom no rule speaks, and a commit of hers after the policy that is in force."""
    clones = another(repositories, name)
    clones.clone("mallory")
    clones.gittuf("mallory", "verify", "main")
    key_line = clones.gittuf("mallory", "key").decode()
    return clones, commit_of_files(clones, "mallory", with_herself(clones, "mallory", key_line), clones.tip("mallory", POLICY))


def bears_on_the_log(repositories):
    """a policy that a stranger puts on the server is neither shown, nor edited, nor signed, and who verifies sees it nowhere"""
    clones, forged = with_mallory(repositories, "forged policy")
    before = clones.tip("alice", POLICY)
    clones.git("push", "--quiet", "origin", f"{forged}:{POLICY}", who="mallory")
    clones.git("fetch", "--quiet", who="alice")
    clones.gittuf("alice", "verify", "main")
    want(clones.tip("alice", POLICY), before, "where the own policy stands")
    want(b"mallory" in clones.gittuf("alice", "policy", "show"), False, "whether policy show has her")
    found = clones.gittuf("alice", "policy", "rule", "docs", "file:docs/*", "--persons", "alice")
    want(found, b"+ rule docs: file:docs/* by 1 of alice\n", "what an edit shows")
    found = clones.sign("alice").splitlines()
    want(found, [b"+ rule docs: file:docs/* by 1 of alice", b"targets is signed by 1 of 1: alice"], "what sign shows")
    way = clones.advised("alice", f"{POLICY} of origin stands at {forged[:12]}, which no entry recorded")
    clones.gittuf("alice", "policy", "apply")
    clones.copied("alice", way)
    clones.git("push", "--quiet", who="alice")
    clones.commit("mallory")
    clones.git("fetch", "--quiet", who="mallory")
    clones.gittuf("mallory", "record", "main", "--anyway")
    clones.git("push", "--quiet", who="mallory")
    clones.clone("auditor", key=False)
    root = clones.gittuf("alice", "key", "--id").decode().strip()
    clones.verdict("auditor", f"violation {MAIN} 4 ref-rule main 0 of 1", "--root", root)


def follows_no_vain_policy(repositories):
    """a policy that was recorded in vain is not the base of an edit, and one that no entry recorded is told with the way back"""
    clones, forged = with_mallory(repositories, "vain policy")
    before = clones.tip("alice", POLICY)
    clones.git("update-ref", POLICY, forged, who="mallory")
    clones.gittuf("mallory", "record", POLICY, "--anyway")
    clones.git("push", "--quiet", who="mallory")
    clones.git("fetch", "--quiet", who="alice")
    clones.gittuf("alice", "verify", POLICY, status=1)
    want(clones.tip("alice", POLICY), before, "where the own policy stands")
    want(b"mallory" in clones.gittuf("alice", "policy", "show"), False, "whether policy show has her")
    clones.gittuf("alice", "skip", "3")
    clones.gittuf("alice", "record", POLICY)
    want(clones.gittuf("alice", "verify", POLICY), f"accepted {POLICY} 3 entries\n".encode(), "the verdict once it is taken back")
    stray = commit_of_files(clones, "alice", {"root.json": b"{}"}, before)
    clones.git("update-ref", POLICY, stray, who="alice")
    for words in STEPS:
        clones.refused("alice", "policy", *words, status=3, part=f"git update-ref {POLICY} {before} sets it back")
    clones.git("update-ref", POLICY, before, who="alice")
    clones.gittuf("alice", "policy", "rule", "docs", "file:docs/*", "--persons", "alice")
    clones.sign("alice")
    clones.gittuf("alice", "policy", "apply")
    want(b"rule docs: file:docs/*" in clones.gittuf("alice", "policy", "show"), True, "whether the new rule is in force")


def signs_what_was_shown(repositories):
    """what somebody changed between showing and signing is not signed: by the id, and at a terminal by the question"""
    clones, _ = with_mallory(repositories, "edited meanwhile")
    clones.gittuf("alice", "policy", "rule", "docs", "file:docs/*", "--persons", "alice")
    shown = clones.shown_id("alice")
    clones.refused_after("alice", "policy", "sign", status=2, part="git gittuf policy sign --id ID")
    clones.git("push", "--quiet", who="alice")
    clones.git("fetch", "--quiet", who="mallory")
    clones.gittuf("mallory", "policy", "person", "mallory", clones.public("mallory"))
    clones.gittuf("mallory", "policy", "rule", "main", "--persons", "alice,bob,mallory")
    clones.git("push", "--quiet", who="mallory")
    clones.git("fetch", "--quiet", who="alice")
    clones.refused_after("alice", "policy", "sign", "--id", shown, status=3, part="is not what had this id")
    staged = clones.tip("alice", STAGED)
    status, told = at_terminal("git gittuf policy sign", clones.path("alice"), "n")
    want((status, "+ person mallory" in told, "nothing is signed" in told), (3, True, True), f"what is asked: {told}")
    want(clones.tip("alice", STAGED), staged, "what is edited afterwards")
    clones.gittuf("alice", "policy", "discard")
    clones.gittuf("alice", "policy", "rule", "docs", "file:docs/*", "--persons", "alice")
    status, told = at_terminal("git gittuf policy sign", clones.path("alice"))
    want((status, "mallory" in told), (0, False), f"what is asked then: {told}")
    want("targets is signed by 1 of 1: alice" in told, True, f"whether it is signed: {told}")


MALFORMED = {
    "no object": b"[]",
    "no envelope": b"{}",
    "another version": None,
    "a field twice": b'{"payload":"e30=","payload":"e30=","payloadType":"application/vnd.gittuf+json","signatures":[]}',
}


def names_malformed_files(repositories):
    """files of what is edited that are malformed are refused by name in one line, and policy discard leads on"""
    clones = another(repositories, "malformed")
    for what, text in MALFORMED.items():
        if text is None:
            payload = base64.b64encode(b'{"type":"root","version":"x"}').decode()
            text = json.dumps({"payload": payload, "payloadType": "application/vnd.gittuf+json", "signatures": []}).encode()
        parent = run("git", "-C", clones.path("alice"), "rev-parse", "--verify", "--quiet", STAGED)[1].decode().strip()
        clones.git("update-ref", STAGED, commit_of_files(clones, "alice", {"root.json": text}, parent), who="alice")
        for words in STEPS if what == "no object" else STEPS[:1]:
            clones.refused("alice", "policy", *words, status=3, part=f"the file root of {STAGED} is malformed")
        clones.gittuf("alice", "policy", "discard")
        want(b"rule main" in clones.gittuf("alice", "policy", "show"), True, f"whether policy discard leads on after {what}")


def reads_no_endless_tree(repositories):
    """a policy that somebody stages with millions of files out of a few trees, or in folders without end, is refused at once, and discard leads on"""
    clones = another(repositories, "endless")
    blob = clones.git("hash-object", "-w", "--stdin", who="alice", input=b"{}").decode().strip()
    made = lambda rows: clones.git("mktree", who="alice", input="".join(rows).encode()).decode().strip()
    wide = made(f"100644 blob {blob}\t{it}.json\n" for it in range(20))
    deep = wide
    for _ in range(6):
        wide = made(f"040000 tree {wide}\t{it}\n" for it in range(20))
    for _ in range(60):
        deep = made([f"040000 tree {deep}\td\n"])
    for tree in (wide, deep):
        top = made([f"040000 tree {tree}\tmetadata\n"])
        parent = run("git", "-C", clones.path("alice"), "rev-parse", "--verify", "--quiet", STAGED)[1].decode().strip()
        words = ("commit-tree", "-m", "endless", *(("-p", parent) if parent else ()), top)
        clones.git("update-ref", STAGED, clones.git(*words, who="alice").decode().strip(), who="alice")
        for step in (("show",), ("sign",), ("rule", "x", "refs/heads/x", "--persons", "alice")):
            part = f"{STAGED} has more than 4096 files, or folders below 32 others, and is not read: git gittuf policy discard"
            clones.refused("alice", "policy", *step, status=3, part=part)
        clones.gittuf("alice", "policy", "discard")
        want(b"rule main" in clones.gittuf("alice", "policy", "show"), True, "whether policy discard leads on")


# A branch with more parts than a log takes.
LONG = f"refs/heads/release-3/{'/'.join('abcdefghijklmnop')}"


def judges_what_is_here(repositories):
    """verify without names judges each protected branch, also where the log was cut, and others' branches at the remote"""
    clones = another(repositories, "cut")
    clones.gittuf("alice", "policy", "rule", "releases", "refs/heads/release-*", "--persons", "alice")
    clones.sign("alice")
    clones.gittuf("alice", "policy", "apply")
    for name in ("release-1", "release-2", "idea"):
        clones.git("branch", name, who="alice")
    clones.gittuf("alice", "record", "release-1")
    words = ("push", "--quiet", "origin", "release-1", "release-2", "idea", "refs/gittuf/*:refs/gittuf/*")
    clones.git(*words, who="alice")
    clones.clone("auditor", key=False)
    tip, zeros = clones.tip("alice"), "0" * 64
    judged = [f"accepted {POLICY} 2 entries", f"accepted {MAIN} 1 entries", "accepted refs/heads/release-1 1 entries"]
    lacks = f"tip-differs refs/heads/release-2 kept {tip} recorded {zeros}"
    want(clones.gittuf("auditor", "verify", status=1).decode().splitlines(), [*judged, lacks], "the verdicts of a new clone")
    clones.refused_after("auditor", "verify", status=1, part="No entry of the log says where release-2 of origin stands")
    clones.gittuf("alice", "record", "release-2")
    clones.git("push", "--quiet", who="alice")
    clones.git("fetch", "--quiet", who="auditor")
    judged.append("accepted refs/heads/release-2 1 entries")
    want(clones.gittuf("auditor", "verify").decode().splitlines(), judged, "the verdicts once all is recorded")
    clones.git("update-ref", LONG, tip, who="server.git")
    clones.git("fetch", "--quiet", who="auditor")
    clones.refused_after("auditor", "verify", status=1, part=f"no log can speak of {LONG}, which a rule may protect")
    want(clones.advised("auditor", "no log can speak of refs/remotes/origin/"), "ask who may write to origin", "what doctor says of a name at a remote")
    clones.git("update-ref", "-d", LONG, who="server.git")
    clones.git("fetch", "--quiet", "--prune", who="auditor")
    clones.git("tag", os.fsdecode(b"v\xff"), who="auditor")
    said = b"git-gittuf: no log can speak of refs/tags/v\\xff, which a rule may protect\n"
    want(clones.asked("auditor", "verify")[::2], (1, said), "what is said of a name that is no UTF-8")
    clones.copied("auditor", clones.advised("auditor", "no log can speak of refs/tags/v").replace("<another name>", "v2"))
    want(clones.git("tag", who="auditor"), b"v2\n", "the tags once the line of doctor was run")
    clones.git("tag", "-d", "v2", who="auditor")
    clones.git("update-ref", LOG, clones.tip("alice", f"{LOG}~4"), who="server.git")
    clones.git("update-ref", POLICY, clones.tip("alice", f"{POLICY}~1"), who="server.git")
    clones.clone("deceived", key=False)
    root = clones.gittuf("alice", "key", "--id").decode().strip()
    for words in ((), ("--root", root)):
        found = clones.gittuf("deceived", "verify", *words, status=1).decode().splitlines()
        want(found, [f"accepted {POLICY} 1 entries", f"tip-differs {MAIN} kept {tip} recorded {zeros}"], "the verdicts over a cut log")


def takes_no_empty_anchor(repositories):
    """--root wants ids of keys: none, and a text that is none, are status 2, and a blank after a comma is taken"""
    clones = another(repositories, "anchors")
    alice, bob = (clones.gittuf(who, "key", "--id").decode().strip() for who in ("alice", "bob"))
    for text in ("", " ", f"{alice},", "zz", alice.upper(), clones.public("alice")):
        clones.refused("alice", "verify", "--root", text, "main", status=2, part=f"{text.rpartition(',')[2].strip()!r} is no id of a key")
    line = f"accepted {MAIN} 1 entries\n".encode()
    want(clones.gittuf("alice", "verify", "--root", f" {alice}, {alice} ", "main"), line, "the verdict with blanks")
    found = clones.gittuf("alice", "verify", f"--root={alice}, {bob}", "main", status=1)
    want(found, f"violation {MAIN} 2 no-policy\n".encode(), "the verdict where another key is wanted too")


CHECKS = (
    bears_on_the_log,
    follows_no_vain_policy,
    signs_what_was_shown,
    names_malformed_files,
    reads_no_endless_tree,
    judges_what_is_here,
    takes_no_empty_anchor,
)
