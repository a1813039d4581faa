"""The checks of tools/test that what is not judged is not taken for judged: branches of remotes, a short log, what is checked out."""

import json
import os
import re

from checking import at_terminal, want
from git_gittuf import sentences
from guarded_clones import MAIN, another

LOG, POLICY = "refs/gittuf/reference-state-log", "refs/gittuf/policy"
LAWFUL = f"accepted {POLICY} 1 entries"


def said(clones, who, *words, status=0):
    """What git gittuf says beside what it prints."""
    found, _, errors = clones.asked(who, *words)
    want(found, status, f"the status of git gittuf {' '.join(words)} of {who}: {errors}")
    return errors.decode()


def judges_what_remotes_have(repositories):
    """a branch of a remote that stands where no entry has it is judged beside the one here, and --remote judges what the remote has"""
    clones = another(repositories, "at the remote")
    recorded, zeros = clones.tip("bob"), "0" * 64
    tip = clones.commit("alice")
    clones.git("push", "--quiet", "origin", "main", who="alice")
    clones.git("fetch", "--quiet", who="bob")
    own, differs = f"accepted {MAIN} 1 entries", f"tip-differs {MAIN} kept {tip} recorded {recorded}"
    want(clones.gittuf("bob", "verify", status=1).decode().splitlines(), [LAWFUL, own, differs], "the verdicts of bob")
    want("main of origin was moved" in said(clones, "bob", "verify", status=1), True, "whether a script is told which one")
    want(clones.advised("bob", "origin/main stands where no entry has it"), "git gittuf verify origin/main", "what doctor says")
    want("main stands elsewhere" in clones.gittuf("alice", "doctor", status=1).decode(), True, "what doctor says of what alice moved")
    want("origin/main stands where no entry has it, and is not judged here" in said(clones, "bob", "verify", "main"), True, "what is said of main alone")
    want(clones.gittuf("bob", "verify", "--remote", "origin", status=1).decode().splitlines(), [LAWFUL, differs], "what origin has")
    clones.gittuf("alice", "record", "main")
    clones.gittuf("alice", "push")
    clones.git("fetch", "--quiet", who="bob")
    behind = f"tip-differs {MAIN} kept {recorded} recorded {tip}"
    want(clones.gittuf("bob", "verify", status=1).decode().splitlines(), [LAWFUL, behind], "the verdicts where bob is behind")
    both = [LAWFUL, f"accepted {MAIN} 2 entries"]
    want(clones.gittuf("bob", "verify", "--remote", "origin").decode().splitlines(), both, "what origin has then")
    want(clones.gittuf("bob", "verify", "--remote", "origin", "main").decode().splitlines(), both[1:], "the same by its name")
    # One that is only behind is told nowhere.
    clones.commit("alice")
    clones.gittuf("alice", "record", "main")
    want(clones.gittuf("alice", "verify").decode().splitlines(), [LAWFUL, f"accepted {MAIN} 3 entries"], "the verdicts before a push")
    clones.refused("bob", "verify", "--remote", "orign", status=3, part="there is no remote orign")
    clones.refused("bob", "verify", "--remote", "origin", "mian", status=3, part="there is no branch or tag mian")
    clones.git("update-ref", "-d", MAIN, who="server.git")
    clones.git("fetch", "--quiet", "--prune", who="bob")
    gone = f"tip-differs {MAIN} kept {zeros} recorded {tip}"
    want(clones.gittuf("bob", "verify", "--remote", "origin", "main", status=1).decode(), f"{gone}\n", "the verdict on what is gone there")
    found = json.loads(clones.gittuf("bob", "verify", "--remote", "origin", "--json", "main", status=1))
    want((found["remote"], found["kept"], found["protected"]), ("origin", zeros, True), "the same as JSON")
    want(clones.gittuf("bob", "verify", "main", status=1).decode(), f"{behind}\n", "the verdict on what is here")


def demands_an_entry(repositories):
    """a log and a branch that a server took back together pass in a new clone, and not where an entry is demanded that was there"""
    clones = another(repositories, "short log")
    root, old, older = (clones.gittuf("alice", "key", "--id").decode().strip(), clones.tip("server.git"), clones.tip("server.git", LOG))
    clones.commit("alice", "README", "mended\n")
    clones.gittuf("alice", "record", "main")
    clones.gittuf("alice", "push")
    entry = clones.tip("alice", LOG)
    new = clones.tip("alice")
    for name, value in ((MAIN, old), (LOG, older)):
        clones.git("update-ref", name, value, who="server.git")
    clones.clone("deceived", key=False)
    want(clones.gittuf("deceived", "verify", "--root", root).decode().splitlines(), [LAWFUL, f"accepted {MAIN} 1 entries"], "what it shows")
    part = f"the log here lacks the entry {entry}, which it is to have"
    for words in (("verify",), ("verify", "main"), ("report",)):
        clones.refused("deceived", *words, "--root", root, "--entry", entry, status=3, part=part)
    for text in ("", entry[:12], entry.upper(), "2"):
        clones.refused("deceived", "verify", "--entry", text, status=2, part="is no id of an entry")
    clones.gittuf("deceived", "setup", "--root", root, "--entry", entry)
    clones.refused("deceived", "verify", "main", status=3, part=part)
    clones.git("config", "gittuf.entry", "", who="deceived")
    clones.refused("deceived", "verify", "main", status=3, part="the log here lacks the entry")
    clones.git("config", "gittuf.entry", entry, who="deceived")
    for name, value in ((MAIN, new), (LOG, entry)):
        clones.git("update-ref", name, value, who="server.git")
    clones.git("pull", "--quiet", who="deceived")
    want(clones.gittuf("deceived", "verify", "--pinned", "main").decode(), f"accepted {MAIN} 2 entries\n", "the verdict once the log is whole")


def tells_what_is_checked_out(repositories):
    """what is checked out beside the judged branches is told, and so is where Git shows other objects than those that are judged"""
    clones = another(repositories, "checked out")
    want(said(clones, "bob", "verify"), "", "what is said of a branch")
    clones.git("switch", "--quiet", "--detach", who="bob")
    want(said(clones, "bob", "verify"), "", "what is said at a judged commit")
    clones.commit("bob")
    tip = clones.tip("bob", "HEAD")
    want(f"HEAD is at {tip[:12]}, where no judged branch or tag stands" in said(clones, "bob", "verify"), True, "what is said at another")
    want(said(clones, "bob", "verify", "main"), "", "what is said where a branch is named")
    clones.git("switch", "--quiet", "main", who="bob")
    clones.git("replace", clones.tip("bob"), tip, who="bob")
    for words in ((), ("main",)):
        want("Git shows other objects here in the place of 1" in said(clones, "bob", "verify", *words), True, "what is said then")
    want(clones.advised("bob", "Git shows other objects"), "git replace -l lists them", "what doctor says")
    want(clones.gittuf("bob", "verify", "main").decode(), f"accepted {MAIN} 1 entries\n", "the verdict, which is on the ids")
    clones.git("replace", "-d", clones.tip("bob"), who="bob")
    grafts = os.path.join(clones.path("bob"), ".git", "info", "grafts")
    os.makedirs(os.path.dirname(grafts), exist_ok=True)
    with open(grafts, "w", encoding="utf-8") as file:
        file.write(f"{tip}\n")
    want("Git shows another history here by grafts" in said(clones, "bob", "verify", "main"), True, "what is said of grafts")


def tells_what_is_to_be_gone(repositories):
    """of a tag and a branch that the log says are gone, and that stand here or at a remote, verify names the entry, and a line that lets them go"""
    clones = another(repositories, "to be gone")
    for kind in ("tag", "branch"):
        clones.git(kind, f"a-{kind}", who="alice")
        clones.gittuf("alice", "record", f"a-{kind}")
    clones.gittuf("alice", "push")
    clones.git("fetch", "--quiet", "--tags", who="bob")
    clones.git("branch", "--quiet", "--no-track", "a-branch", "origin/a-branch", who="bob")
    for kind in ("tag", "branch"):
        clones.git(kind, "-d", f"a-{kind}", who="alice")
        clones.gittuf("alice", "record", f"a-{kind}")
    clones.git("push", "--quiet", "origin", "refs/gittuf/*:refs/gittuf/*", who="alice")
    clones.git("fetch", "--quiet", who="bob")
    tip = clones.tip("bob")
    part = f"Entry 6 says that a-branch is gone, and a-branch of origin stands at {tip[:12]}: git fetch --prune origin, or ask who"
    want(part in clones.refused_after("bob", "verify", "--remote", "origin", status=1, part=part), True, "what is said of a remote's")
    told = clones.refused_after("bob", "verify", status=1, part="Entry 5 says that a-tag is gone, and a-tag stands at")
    for number, name in ((5, "refs/tags/a-tag"), (6, "refs/heads/a-branch")):
        way = re.search(rf"Entry {number} says .* stands at {tip[:12]}: (git .*) lets it go here too. .* git gittuf record {name}\.", told)
        want(way is not None, True, f"what bob is told of {name}: {told}")
        clones.copied("bob", f"{way[1]} > /dev/null")
    clones.git("push", "--quiet", "origin", "--delete", "a-branch", "a-tag", who="alice")
    clones.copied("bob", "git fetch --quiet --prune origin")
    want(clones.gittuf("bob", "verify").decode().count("accepted "), 4, "how many are lawful once that is done")


def tells_what_no_rule_protects(repositories):
    """a lawful branch that no rule protects is told as that, and explain takes a branch of a remote for a branch, and a slip for no path unsaid"""
    clones = another(repositories, "unprotected")
    clones.git("branch", "idea", who="alice")
    clones.gittuf("alice", "record", "idea")
    clones.gittuf("alice", "push", "idea", "main")
    _, told = at_terminal("git gittuf verify idea; git gittuf verify main", clones.path("alice"))
    want(told.count("No rule protects idea, so anybody may change it."), 1, f"what a person is told: {told}")
    want("protects main" in told, False, f"what is told of main: {told}")
    found = [json.loads(it) for it in clones.gittuf("alice", "verify", "--json", "idea", "main").splitlines()]
    want([it["protected"] for it in found], [False, True], "the same as JSON")
    clones.git("switch", "--quiet", "--detach", who="bob")
    clones.git("branch", "--quiet", "-D", "main", who="bob")
    for word in ("main", "origin/main", MAIN):
        want(clones.gittuf("bob", "explain", word), b"rule main 1 open\n", f"what explain says of {word}")
    want("there is no branch or tag mian, here or in the log, and no file" in said(clones, "bob", "explain", "mian"), True, "what a slip is taken for")
    want(said(clones, "bob", "explain", "README"), "", "what is said of a file")
    clones.refused("bob", "explain", "git:main", status=2, part="git:refs/heads/main is the name of one")


def tells_what_a_rule_reaches(repositories):
    """a pattern that reaches no branch, tag or file that is here is told, and of an approval it is told to a person what it is of"""
    clones = another(repositories, "unreached")
    patterns = {"refs/heads/mian": "no branch or tag", "git:refs/tags/v?": "no branch or tag", "file:doc/*": "no file"}
    reached = (MAIN, "git:refs/heads/m*", "file:READ??", "file:*")
    told = said(clones, "alice", "policy", "rule", "slips", *patterns, *reached, "--persons", "alice")
    for pattern, what in patterns.items():
        name = pattern if ":" in pattern else f"git:{pattern}"
        want(f"{what} that is here is reached by {name} yet" in told, True, f"what is said of {pattern}: {told}")
    want(len(told.splitlines()), len(patterns), f"how many patterns reach nothing: {told}")
    clones.gittuf("alice", "policy", "discard")
    clones.gittuf("alice", "policy", "rule", "main", "--persons", "alice,bob", "--threshold", "2")
    clones.sign("alice")
    clones.gittuf("alice", "policy", "apply")
    before, tip = clones.tip("alice"), clones.commit("alice")
    _, told = at_terminal("git gittuf approve main", clones.path("alice"))
    part = f"This approves that main goes from {before[:12]} to the files of {tip[:12]}: git diff {before} {tip} shows what that changes."
    want(told.startswith(part), True, f"what a person is told first: {told}")


def takes_no_tag_for_an_id(repositories):
    """a tag that somebody named as a commit's id begins, or as a remote's branch, is not approved in its place, nor in a line to copy"""
    clones = another(repositories, "tags like ids")
    clones.gittuf("bob", "verify", "main")
    tip, whole = clones.commit("alice"), "refs/remotes/origin/main"
    clones.gittuf("alice", "record", "main")
    clones.gittuf("alice", "push")
    clones.clone("mallory")
    clones.git("switch", "--quiet", "--create", "evil", who="mallory")
    clones.commit("mallory", "evil")
    evil = clones.tip("mallory", "evil")
    for it in (tip[:12], "origin/main"):
        clones.git("tag", it, who="mallory")
    clones.git("push", "--quiet", "--tags", "origin", "evil", who="mallory")
    clones.git("fetch", "--quiet", who="bob")
    want(clones.tip("bob", tip[:12]), evil, "what Git takes the front of the id for")
    for word in (tip[:12], f"{tip[:12]}^0", "origin/main", "origin/main~0"):
        part = f"{word.split('^')[0].split('~')[0]} names more than one thing here: refs/"
        clones.refused("bob", "approve", "main", word, status=3, part=part)
    status, told = at_terminal("git gittuf verify main", clones.path("bob"))
    want((status, f"git merge --ff-only {whole}" in told), (1, True), f"what is told: {told}")
    clones.copied("bob", f"git merge --quiet --ff-only {whole}")
    clones.verdict("bob", f"accepted {MAIN} 2 entries")
    ahead = clones.commit("alice")
    clones.git("push", "--quiet", "origin", "main:idea", who="alice")
    clones.git("fetch", "--quiet", who="bob")
    for word in (ahead, whole.replace("main", "idea"), "origin/idea"):
        clones.gittuf("bob", "approve", "main", word, "--anyway")


def leads_back_by_whole_names(repositories):
    """the line that takes a moved branch back does, checked out or not, and names it whole where it has to"""
    before, now = "ab" * 32, "cd" * 32
    for name, way in (("main", "git branch --force main"), ("-x", "git update-ref refs/heads/-x"), ("refs/heads/x", "git update-ref refs/heads/refs/heads/x")):
        line = f"tip-differs refs/heads/{name} kept {now} recorded {before}"
        told = sentences.of_line(line)
        want(f"{way} {before} takes it back." in told, True, f"the way back of {name}: {told}")
    clones = another(repositories, "moved back")
    recorded, lawful = clones.tip("alice"), f"accepted {MAIN} 1 entries"
    # Once it is checked out, and once another one is.
    for branch in ("main", "other"):
        clones.commit("alice")
        clones.write("alice", "draft", "not committed\n")
        clones.git("checkout", "--quiet", "-B", branch, who="alice")
        status, said = at_terminal("git gittuf verify main", clones.path("alice"))
        line = said.partition("; if not, ")[2].partition(" takes it back.")[0]
        want((status, recorded in line), (1, True), f"what is told: {said}")
        clones.copied("alice", line)
        clones.verdict("alice", lawful)
        # It is there, or this fails.
        os.remove(os.path.join(clones.path("alice"), "draft"))


def names_a_tag_that_has_a_branchs_name(repositories):
    """a tag that a server has under a branch's name is named as a whole, so that what is said of it, and the line to copy, is not of the branch"""
    clones = another(repositories, "tag like a branch")
    clones.gittuf("alice", "policy", "rule", "main", MAIN, "refs/tags/*", "--persons", "alice,bob")
    clones.sign("alice")
    clones.gittuf("alice", "policy", "apply")
    clones.gittuf("alice", "push")
    clones.git("update-ref", "refs/tags/main", clones.tip("server.git"), who="server.git")
    clones.git("fetch", "--quiet", "--tags", who="bob")
    status, said = at_terminal("git gittuf verify; git gittuf doctor", clones.path("bob"))
    parts = "where refs/tags/main stands. If it is new here, git gittuf record refs/tags/main;", "a rule protects refs/tags/main, and no entry"
    want((status, [it in said for it in parts]), (1, [True, True]), f"what bob is told: {said}")
    want(">refs/tags/main</td>" in clones.gittuf("bob", "report", status=1).decode(), True, "how the report names the tag")
    clones.gittuf("bob", "record", "refs/tags/main")
    clones.gittuf("bob", "verify")


def pins_before_it_is_edited(repositories):
    """who edits or shows a policy before the first verify is told whose the first policy is, and that is kept"""
    clones = another(repositories, "pinned first")
    clones.clone("newcomer", key=False)
    root = clones.gittuf("alice", "key", "--id").decode().strip()
    first, second = (said(clones, "newcomer", "policy", "show") for _ in range(2))
    want(("the first policy seen here is that of alice" in first, second), (True, ""), f"what is said: {first}")
    want(clones.git("config", "gittuf.firstRoot", who="newcomer").decode().strip(), root, "what is kept")


CHECKS = (
    judges_what_remotes_have,
    demands_an_entry,
    tells_what_is_checked_out,
    tells_what_is_to_be_gone,
    tells_what_no_rule_protects,
    tells_what_a_rule_reaches,
    takes_no_tag_for_an_id,
    leads_back_by_whole_names,
    names_a_tag_that_has_a_branchs_name,
    pins_before_it_is_edited,
)
