"""The checks of tools/test on what others put beside the log: commits that are none, keys that were put back, odd names."""

import base64
import os
import re

from checking import LAUNCHER, at_terminal, run, want
from git_gittuf import signatures
from git_gittuf.shown import quoted
from guarded_clones import MAIN, another, guarded

LOG, ATTESTATIONS = "refs/gittuf/reference-state-log", "refs/gittuf/attestations"
BESIDE = "refs/gittuf-remotes/origin/reference-state-log"
EMPTY_TREE = "6ef19b41225c5369f1c104d45d8d85efa9b057b53b14b4b9b939dd74decc5321"
COMMITTED = ("-c", "user.name=nobody", "-c", "user.email=nobody@localhost")
ACCEPTED = f"accepted {MAIN} 1 entries\n".encode()


def no_entry(clones, who, parent, tree=EMPTY_TREE):
    """A commit that is no entry of a log, after another one."""
    clones.git("mktree", who=who)
    words = ("commit-tree", "-m", "no entry", *(("-p", parent) if parent else ()), tree)
    return clones.git(*COMMITTED, *words, who=who).decode().strip()


def told_and_judged(clones, who, part):
    """Holds a verdict on main to accepted, told with a log of the remote that does not fit, and the own log to where it stood."""
    before = clones.tip(who, LOG)
    status, output, errors = clones.asked(who, "verify", "main")
    want((status, output, part in errors), (3, ACCEPTED, True), f"the status, output and sentence of verify: {errors}")
    want(clones.tip(who, LOG), before, "where the own log stands")


def follows_no_broken_log(repositories):
    """a commit that is no entry on top of a remote's log is not followed nor pushed on, and doctor leads back from it"""
    clones = another(repositories, "poisoned")
    whole = clones.tip("alice", LOG)
    clones.gittuf("bob", "verify", "main")
    clones.clone("mallory")
    junk = no_entry(clones, "mallory", clones.tip("mallory", BESIDE))
    clones.git("push", "--quiet", "origin", f"{junk}:{LOG}", who="mallory")
    clones.git("fetch", "--quiet", who="bob")
    told_and_judged(clones, "bob", b"reference-state-log of origin is no log, and is not followed")
    clones.clone("newcomer", key=False)
    clones.refused_after("newcomer", "verify", status=3, part="there is no log here")
    clones.gittuf("newcomer", "doctor", "--take", "origin")
    want(clones.tip("newcomer", LOG), whole, "where the log of a new clone stands then")
    told_and_judged(clones, "newcomer", b"is no log, and is not followed")
    clones.copied("bob", clones.advised("bob", f"{LOG} of origin is no log after its last whole entry, and is not followed"))
    want(clones.tip("server.git", LOG), whole, "where the log of the server stands then")
    clones.git("push", "--quiet", who="newcomer")
    want(clones.tip("server.git", LOG), whole, "where it stands after a push from where the other was fetched")
    clones.git("fetch", "--quiet", who="alice")
    clones.commit("alice")
    clones.gittuf("alice", "record", "main")
    clones.verdict("alice", f"accepted {MAIN} 2 entries")


def leads_back_from_a_broken_log(repositories):
    """where the own log is none, doctor names the line that goes back to the last entry up to which it is whole"""
    clones = another(repositories, "broken here")
    clones.gittuf("bob", "verify", "main")
    whole = tip = clones.tip("bob", LOG)
    for _ in range(5):
        tip = no_entry(clones, "bob", tip)
    clones.git("update-ref", LOG, tip, who="bob")
    clones.gittuf("bob", "verify", "main", status=3)
    found = clones.gittuf("bob", "doctor", status=1).decode()
    want("push" in found, False, f"whether doctor would push that: {found}")
    clones.copied("bob", clones.advised("bob", "the log here is none"))
    want(clones.tip("bob", LOG), whole, "where the log stands then")
    clones.git("update-ref", LOG, tip, who="bob")
    clones.gittuf("bob", "doctor", "--take")
    want(clones.tip("bob", LOG), whole, "where it stands without a remote's")
    clones.verdict("bob", ACCEPTED.decode().strip())


def follows_no_tag(repositories):
    """a tag in the place of a remote's log is not followed, and what no entry recorded of the approvals is not either"""
    clones = another(repositories, "tagged")
    clones.gittuf("bob", "verify", "main")
    clones.clone("mallory")
    clones.git("branch", "hers", who="mallory")
    clones.gittuf("mallory", "record", "hers")
    clones.git(*COMMITTED, "tag", "-a", "-m", "a tag", "of-an-entry", LOG, who="mallory")
    clones.git("push", "--quiet", "origin", "refs/tags/of-an-entry", who="mallory")
    clones.git("update-ref", LOG, clones.tip("server.git", "refs/tags/of-an-entry"), who="server.git")
    blob = clones.git("hash-object", "-w", "--stdin", who="mallory").decode().strip()
    tree = clones.git("mktree", who="mallory", input=f"100644 blob {blob}\treference-authorizations\n".encode()).decode().strip()
    junk = no_entry(clones, "mallory", None, tree)
    clones.git("push", "--quiet", "origin", f"{junk}:{ATTESTATIONS}", who="mallory")
    clones.git("fetch", "--quiet", who="bob")
    told_and_judged(clones, "bob", b"stands at no commit, and is not followed")
    clones.commit("alice")
    clones.git("push", "--quiet", "origin", "main:topic", who="alice")
    clones.git("fetch", "--quiet", who="bob")
    printed = clones.gittuf("bob", "approve", "main", "origin/topic")
    want(len(printed.splitlines()), 2, "the lines of approve beside approvals that no entry recorded")
    clones.git("update-ref", LOG, clones.tip("alice", LOG), who="server.git")
    clones.git("fetch", "--quiet", who="bob")
    clones.copied("bob", clones.advised("bob", f"{ATTESTATIONS} of origin stands at {junk[:12]}, which no entry recorded"))
    want(clones.tip("server.git", ATTESTATIONS), clones.tip("bob", ATTESTATIONS), "where the approvals of the server stand then")


def leads_past_odd_approvals(repositories):
    """where a stranger recorded what is in the way of approvals, approve names the line that leads past it"""
    clones = another(repositories, "odd approvals")
    clones.clone("mallory")
    blob = clones.git("hash-object", "-w", "--stdin", who="mallory").decode().strip()
    tree = clones.git("mktree", who="mallory", input=f"100644 blob {blob}\treference-authorizations\n".encode()).decode().strip()
    clones.git("update-ref", ATTESTATIONS, no_entry(clones, "mallory", None, tree), who="mallory")
    clones.gittuf("mallory", "record", ATTESTATIONS)
    clones.git("push", "--quiet", who="mallory")
    clones.git("fetch", "--quiet", who="bob")
    clones.commit("bob")
    _, _, errors = clones.asked("bob", "approve", "main")
    way = errors.decode().strip().rpartition(" goes back by ")[2]
    status, _, errors = run("bash", "-c", way, folder=clones.path("bob"))
    want(status, 0, f"the status of {way}: {errors}")
    want(len(clones.gittuf("bob", "approve", "main").splitlines()), 2, "the lines of approve then")


def bytes_of(path, text=None):
    """What a file holds, which is first written where a text is given."""
    if text is not None:
        with open(path, "wb") as file:
            file.write(text)
    with open(path, "rb") as file:
        return file.read()


def is_told_spoilt(clones, who):
    clones.refused(who, "note", "1", status=3, part="is spoilt")
    found = clones.gittuf(who, "doctor", status=1)
    want(b"is spoilt: its leaf " in found, True, f"whether doctor calls the key spoilt: {found}")
    status, said = at_terminal("git gittuf key", clones.path(who))
    want((status, "is spoilt: its leaf " in said, "signatures left" in said), (0, True, False), f"what key says of it: {said}")


def signs_with_no_older_copy(repositories):
    """a key file put back from a copy signs nothing that is seen to be signed, be it an entry, an approval or a policy"""
    clones = guarded(repositories, "put back")
    key = clones.path("alice.key")
    clones.gittuf("alice", "policy", "rule", "docs", "file:docs/*", "--persons", "alice")
    shown = clones.shown_id("alice")
    steps = (("note", "1"), ("approve", "main"), ("policy", "sign", "--id", shown))
    for words in steps:
        older = bytes_of(key)
        clones.gittuf("alice", *words)
        newer = bytes_of(key)
        # An approval has a leaf of its own, and so has its entry.
        first = older.index(b"\0", 64)
        bytes_of(key, older[:first] + b"\1" + older[first + 1 :] if words[0] == "approve" else older)
        is_told_spoilt(clones, "alice")
        bytes_of(key, newer)
    clones.gittuf("alice", "policy", "apply")
    clones.git("push", "--quiet", who="alice")
    older = bytes_of(key)
    clones.commit("alice")
    clones.gittuf("alice", "record", "main")
    clones.git("push", "--quiet", who="alice")
    bytes_of(key, older)
    for words in (("record", "main"), ("approve", "main"), ("skip", "1"), ("policy", "sign", "--id", "0"), ("policy", "apply")):
        clones.refused("alice", *words, status=3, part="is spoilt")
    # Another clone has the same key, and what was signed in the first one is not in its own log yet.
    clones.gittuf("bob", "key", "--file", key)
    clones.git("fetch", "--quiet", who="bob")
    is_told_spoilt(clones, "bob")


def reads_both_leaves(repositories):
    """of a key of two levels the leaves of both count, over a change of the key below"""
    clones = another(repositories, "two levels put back")
    key = clones.path("levels.key")
    status, line, _ = run(LAUNCHER, "-", key, "key-gen", "5", "1", "--bottom", "5")
    want(status, 0, "the status of key-gen")
    bytes_of(f"{key}.pub", line)
    marked = lambda used: made[:72] + b"\1" * used + made[72 + used :]
    made = bytes_of(key)
    bytes_of(key, marked(31))
    clones.gittuf("bob", "key", "--file", key)
    for _ in range(2):
        clones.gittuf("bob", "note", "1")
    want(bytes_of(key), marked(33), "the leaves that are used")
    for used in (0, 31, 32):
        bytes_of(key, marked(used))
        clones.refused("bob", "note", "1", status=3, part="is spoilt: its leaf 32 ")
    bytes_of(key, marked(33))
    clones.gittuf("bob", "note", "1")


def heeds_no_forged_leaf(repositories):
    """a signature that is not good spoils nobody's key, whatever leaf it names"""
    clones = another(repositories, "forged leaf")
    key_id, public = clones.gittuf("alice", "key").decode().split()[1:]
    entry = clones.git("cat-file", "commit", LOG, who="alice")
    old = re.search(rb"\nlmssig [0-9a-f]{64} ([^\n]+)\n", entry)[1]
    last = (1 << signatures.numbers_of(bytes.fromhex(public))[0]) - 1
    signature = last.to_bytes(4, "big") + base64.b64decode(old)[4:]
    want(signatures.leaf_of(bytes.fromhex(public), signature), last, "the leaf that it names")
    text = entry.replace(old, base64.b64encode(signature))
    forged = clones.git("hash-object", "-w", "-t", "commit", "--stdin", who="alice", input=text).decode().strip()
    want(key_id.encode() in text, True, "whether it is under the id of the key")
    clones.git("update-ref", "refs/gittuf-remotes/mallory/reference-state-log", forged, who="alice")
    clones.gittuf("alice", "note", "1")
    want(b"spoilt" in clones.gittuf("alice", "doctor", status=1), False, "whether doctor calls the key spoilt")


RUNS = "fix;touch${IFS}pwned;#"
TURNS = "x\u202eniam"


def quotes_what_is_copied(repositories):
    """what is told of a stranger's names runs nothing when it is copied, and turns no line round"""
    clones = another(repositories, "odd names")
    clones.clone("mallory")
    for name in (RUNS, TURNS):
        clones.git("branch", name, who="mallory")
        clones.gittuf("mallory", "record", name)
    clones.git("push", "--quiet", who="mallory")
    clones.git("fetch", "--quiet", who="alice")
    found = clones.gittuf("alice", "doctor", status=1).decode()
    lines = [line for line in found.splitlines() if "verify" in line]
    want(len(lines), 2, f"the number of lines on names of hers: {found}")
    for name, line in zip((RUNS, TURNS), lines):
        advised = line.partition(": ")[2]
        status, output, _ = run("bash", "-c", advised, folder=clones.path("alice"))
        want((status, output.split()[0]), (1, b"tip-differs"), f"what {advised} answers")
    words = ("verify", "log", "doctor")
    status, told = at_terminal(" ; ".join(f"git gittuf {it}" for it in words), clones.path("alice"))
    want(("\u202e" in told, told.count("x\\x202eniam") >= 3), (False, True), f"how a sign that turns lines round is shown: {told}")
    lines = re.findall(r"(git (?:branch --force|gittuf \w+)) (.*?fix;touch\S+)", told)
    want(len(lines) >= 3, True, f"the number of lines that are advised: {told}")
    for line, name in lines:
        want(name.startswith(("'fix;", "'refs/heads/fix;")), True, f"how {line} has the name {name}")
    want(os.path.exists(os.path.join(clones.path("alice"), "pwned")), False, "whether a command of hers ran")
    for word in (RUNS, TURNS, "it's", "a\nb", "\x1b[31m'\\", "plain", ""):
        printed = run("bash", "-c", f"printf %s {quoted(word)}")[1]
        want((printed, quoted(word).isprintable()), (word.encode(), True), f"what {quoted(word)} is for a shell")


CHECKS = (
    follows_no_broken_log,
    leads_back_from_a_broken_log,
    follows_no_tag,
    leads_past_odd_approvals,
    signs_with_no_older_copy,
    reads_both_leaves,
    heeds_no_forged_leaf,
    quotes_what_is_copied,
)
