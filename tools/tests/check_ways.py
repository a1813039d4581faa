"""The checks of tools/test that each way of git gittuf leads out: recoveries, what is refused before, and what is behind."""

import json
import os
import re

from checking import at_terminal, run, want
from guarded_clones import MAIN, SMALL, Clones, another

LOG, ATTESTATIONS = "refs/gittuf/reference-state-log", "refs/gittuf/attestations"


def with_mallory(repositories, name):
    clones = another(repositories, name)
    clones.clone("mallory")
    clones.gittuf("mallory", "verify", "main")
    return clones


def told(clones, who, *words, status):
    found, _, errors = clones.asked(who, *words)
    want(found, status, f"the status of git gittuf {' '.join(words)}: {errors}")
    return errors.decode()


def leads_out_of_a_violation(repositories):
    """recover leads out of a stranger's entry with lawful ones after it, and of a branch's first entry, by the lines that it prints"""
    clones = with_mallory(repositories, "recovered")
    clones.commit("mallory", "evil")
    part = "--anyway records it all the same"
    clones.refused("mallory", "record", "main", status=3, part=part)
    clones.gittuf("mallory", "record", "main", "--anyway")
    clones.git("push", "--quiet", who="mallory")
    clones.git("pull", "--quiet", who="bob")
    clones.commit("bob", "lawful")
    part = "main stands in violation since entry 3, and this would not end it: git gittuf recover main leads out"
    clones.refused("bob", "record", "main", status=3, part=part)
    clones.gittuf("bob", "record", "main", "--anyway")
    clones.git("push", "--quiet", who="bob")
    clones.git("pull", "--quiet", who="alice")
    said = told(clones, "alice", "recover", "main", status=1)
    clones.copied("alice", said.partition(" are wanted: ")[2].strip())
    clones.verdict("alice", f"accepted {MAIN} 4 entries")
    want(os.path.exists(os.path.join(clones.path("alice"), "evil")), False, "whether the stranger's file is there")
    skipped = [json.loads(it).get("skipped") for it in clones.gittuf("alice", "log", "--json").splitlines()]
    want(skipped, [None, None, 5, 5, None, None], "by which entry each is skipped")
    want(clones.gittuf("alice", "log", "-v").count(b"Z, and entry 5 says skip\n"), 2, "how many entries are said to be skipped")
    clones.refused("alice", "recover", "main", status=3, part="nothing is to be recovered of main")
    clones.refused("alice", "recover", "mian", status=3, part="there is no branch or tag mian, here or in the log, and near is main")
    clones.gittuf("alice", "policy", "rule", "releases", "refs/heads/release-*", "--persons", "alice")
    clones.sign("alice")
    clones.gittuf("alice", "policy", "apply")
    clones.gittuf("alice", "push")
    clones.git("fetch", "--quiet", who="mallory")
    clones.git("branch", "release-1", who="mallory")
    clones.gittuf("mallory", "record", "release-1", "--anyway")
    clones.git("push", "--quiet", "origin", "release-1", f"{LOG}:{LOG}", who="mallory")
    clones.git("fetch", "--quiet", who="alice")
    clones.git("branch", "--quiet", "release-1", "origin/release-1", who="alice")
    said = told(clones, "alice", "recover", "release-1", status=1)
    clones.copied("alice", said.partition(" so it is to go: ")[2].strip())
    clones.gittuf("alice", "push", "release-1")
    want(clones.gittuf("alice", "verify", "refs/heads/release-1"), b"accepted refs/heads/release-1 2 entries\n", "the verdict on the other")


def says_who_recovers(repositories):
    """where two are to recover a branch, recover says who is missing and the lines that do it, before the files are back and after"""
    clones = with_mallory(repositories, "recovered by two")
    clones.gittuf("alice", "policy", "rule", "main", "--persons", "alice,bob", "--threshold", "2")
    clones.sign("alice")
    clones.gittuf("alice", "policy", "apply")
    clones.gittuf("alice", "push")
    clones.git("pull", "--quiet", who="mallory")
    clones.commit("mallory", "evil")
    clones.gittuf("mallory", "record", "main", "--anyway")
    clones.git("push", "--quiet", who="mallory")
    clones.git("pull", "--quiet", who="alice")
    said = told(clones, "alice", "recover", "main", status=1)
    lacks = r"rule main wants 2 of alice, bob for the recovery of main; missing is bob, who approves it by (git gittuf approve main [0-9a-f]+)"
    way = re.search(rf"{lacks}, once (git push origin 'refs/gittuf/\*:refs/gittuf/\*') has brought the skip there\n", said)
    want(way is not None, True, f"whether that is told: {said}")
    status, _, errors = run("bash", "-c", said.partition(" are wanted: ")[2].strip(), folder=clones.path("alice"))
    want((status, bool(re.search(f"nothing is recorded, as {lacks}", errors.decode()))), (3, True), f"what is told then: {errors}")
    clones.copied("alice", way[2])
    # Who approves is where the branch stood before, and the server further on.
    clones.git("fetch", "--quiet", who="bob")
    clones.copied("bob", way[1])
    clones.gittuf("bob", "push")
    clones.git("fetch", "--quiet", who="alice")
    clones.gittuf("alice", "recover", "main")
    clones.gittuf("alice", "push")
    clones.verdict("alice", f"accepted {MAIN} 3 entries")


def looks_before_it_signs(repositories):
    """what no signature of the key here makes lawful is refused with the rule and who is missing, and no leaf is used for that"""
    clones = with_mallory(repositories, "looked")
    clones.commit("mallory")
    before = clones.used("mallory")
    for words in (("record", "main"), ("approve", "main"), ("skip", "1")):
        clones.refused("mallory", *words, status=3, part="none of the policy's persons")
    want(clones.used("mallory"), before, "how many leaves of mallory are used")
    clones.clone("carol")
    clones.gittuf("alice", "policy", "person", "carol", clones.public("carol"))
    clones.gittuf("alice", "policy", "rule", "main", "--persons", "alice,bob,carol", "--threshold", "3")
    clones.sign("alice")
    clones.gittuf("alice", "policy", "apply")
    clones.commit("alice")
    before = clones.used("alice")
    missing = "rule main wants 3 of alice, bob, carol for it; missing is bob or carol, who approves it by git gittuf approve main"
    clones.refused("alice", "record", "main", status=3, part=missing)
    want(clones.used("alice"), before, "how many leaves of alice are used")
    clones.gittuf("alice", "policy", "rule", "docs", "file:docs/*", "--persons", "bob")
    clones.gittuf("alice", "policy", "rule", "main", "--persons", "alice,bob", "--threshold", "1")
    clones.sign("alice")
    clones.gittuf("alice", "policy", "apply")
    clones.commit("alice", "docs/page")
    part = "rule docs wants 1 of bob for a change of docs/page; missing is bob"
    clones.refused("alice", "record", "main", status=3, part=part)
    clones.git("push", "--quiet", "origin", "main:topic", "refs/gittuf/*:refs/gittuf/*", who="alice")
    clones.git("fetch", "--quiet", who="carol")
    clones.commit("carol")
    part = "rule main wants 1 of alice, bob for it; missing is alice or bob, who approves it by git gittuf approve main"
    before = clones.used("carol")
    clones.refused("carol", "record", "main", status=3, part=part)
    want(clones.used("carol"), before, "how many leaves of carol, whom that rule does not ask, are used")
    clones.git("fetch", "--quiet", who="bob")
    clones.gittuf("bob", "approve", "main", "origin/topic")
    clones.gittuf("bob", "push", "--anyway")
    clones.git("fetch", "--quiet", who="alice")
    clones.gittuf("alice", "record", "main")
    clones.verdict("alice", f"accepted {MAIN} 2 entries")
    # What goes is approved as well.
    clones.gittuf("bob", "approve", "--delete", "main")
    clones.refused("bob", "approve", "--delete", "main", "HEAD", status=2, part="takes no commit")


def wastes_one_leaf(repositories):
    """a branch in violation by an entry of the key here, which alone is asked by now, costs one leaf at most, however often it is recorded"""
    clones = another(repositories, "one leaf")
    clones.gittuf("alice", "policy", "rule", "main", "--persons", "bob")
    clones.sign("alice")
    clones.gittuf("alice", "policy", "apply")
    clones.commit("alice")
    clones.refused("alice", "record", "main", status=3, part="rule main wants 1 of bob for it; missing is bob")
    clones.gittuf("alice", "record", "main", "--anyway")
    clones.gittuf("alice", "policy", "rule", "main", "--persons", "alice")
    clones.sign("alice")
    clones.gittuf("alice", "policy", "apply")
    clones.commit("alice")
    before, log = clones.used("alice"), clones.tip("alice", LOG)
    for _ in range(3):
        clones.refused("alice", "record", "main", status=3, part="main stands in violation since entry 4, and this would not end it")
    want((clones.used("alice") - before, clones.tip("alice", LOG)), (1, log), "the leaves that are used, and the log")


def begins_no_second_log(repositories):
    """a clone without setup is told to set up, and begins no log beside the remote's, unless it is to"""
    clones = another(repositories, "no setup")
    clones.git("clone", "--quiet", "server.git", "plain", who="")
    clones.gittuf("plain", "key", "--file", clones.path("plain.key"), *SMALL)
    for words in (("record", "main"), ("approve", "main")):
        clones.refused("plain", *words, status=3, part="and origin has one, beside which none is begun: git gittuf setup origin && git fetch origin")
    status, said = at_terminal("git gittuf verify main", clones.path("plain"))
    want((status, "git gittuf setup && git fetch brings the remote's" in said), (1, True), f"what is told: {said}")
    for words, wanted in (("log", 0), ("explain main", 0), ("policy show", 3)):
        status, said = at_terminal(f"git gittuf {words}", clones.path("plain"))
        want((status, "here is no log here" in said, "git gittuf setup" in said), (wanted, True, True), f"what a person is told by {words}: {said}")
    clones.git("remote", "set-url", "origin", "../nowhere.git", who="plain")
    clones.refused("plain", "record", "main", status=3, part="origin does not answer whether it has one")
    clones.gittuf("plain", "record", "main", "--anyway")


def names_what_comes_first(repositories):
    """where there is neither log nor policy, what cannot be done names the line that begins one, and that line does"""
    clones = Clones(repositories, repositories.path("nothing yet"))
    clones.git("init", "--quiet", "-b", "main", "--object-format=sha256", "alice", who="")
    clones.gittuf("alice", "key", "--file", clones.path("alice.key"), *SMALL)
    clones.commit("alice")
    for words in (("verify",), ("report",)):
        clones.refused("alice", *words, status=3, part="git gittuf policy init and git gittuf policy apply begin one")
    want(clones.advised("alice", "there is no log here"), "git gittuf setup && git fetch, or git gittuf policy init <your name> begins one", "what doctor says")
    for words in (("record", "main"), ("approve", "main")):
        clones.refused("alice", *words, status=3, part="as it would be a violation: no policy is in force, or none whose first keys are")
    clones.gittuf("alice", "policy", "init", "alice")
    way = "git gittuf policy sign and git gittuf policy apply"
    want(clones.advised("alice", "there is no log here, and a policy that is edited begins one"), way, "what doctor says then")
    clones.refused("alice", "policy", "init", "alice", status=3, part=f"prints it, and {way} bring it into force")
    clones.sign("alice")
    clones.gittuf("alice", "policy", "apply")
    clones.gittuf("alice", "record", "main")
    clones.verdict("alice", f"accepted {MAIN} 1 entries")


def leads_from_doctor_to_a_push(repositories):
    """doctor's line for what is recorded and not pushed yet pushes branch and log, or neither"""
    clones = another(repositories, "not pushed")
    clones.commit("alice")
    clones.gittuf("alice", "record", "main")
    way = clones.advised("alice", "goes on here by entry 3, signed by alice")
    clones.commit("alice")
    status, _, errors = run("bash", "-c", way, folder=clones.path("alice"))
    want((status, b"git gittuf record main comes first" in errors), (3, True), f"what {way} says of a branch that was moved since: {errors}")
    clones.git("reset", "--quiet", "--hard", "HEAD~1", who="alice")
    clones.copied("alice", way)
    want([clones.tip("server.git", it) for it in (MAIN, LOG)], [clones.tip("alice", it) for it in (MAIN, LOG)], "what the server has")


def names_no_record_in_vain(repositories):
    """a push of a branch that the log left behind names no record, which would be refused"""
    clones = another(repositories, "left behind")
    clones.git("init", "--quiet", "--bare", "--object-format=sha256", "second.git", who="")
    clones.git("remote", "add", "second", "../second.git", who="alice")
    clones.gittuf("alice", "setup", "second")
    clones.commit("alice")
    clones.gittuf("alice", "record", "main")
    clones.git("reset", "--quiet", "--hard", "HEAD~1", who="alice")
    words = ("push", "--remote", "second")
    clones.refused("alice", *words, status=3, part="main stands elsewhere than the log has it now: git gittuf verify main says more, and git push second")
    clones.commit("alice")
    clones.refused("alice", *words, status=3, part="main stands where no entry of the log has it: git gittuf record main comes first")


def goes_on_once_a_remote_is_renamed(repositories):
    """where a remote was renamed doctor's line lets its log go on, and leaves nothing that writes over what another remote has"""
    clones = another(repositories, "renamed")
    clones.gittuf("bob", "verify")
    clones.git("remote", "rename", "origin", "up-1.2", who="bob")
    clones.copied("bob", clones.advised("bob", "do not carry the log to and from up-1.2"))
    want(clones.gittuf("bob", "doctor"), b"all is well\n", "what doctor says")
    clones.git("remote", "add", "origin", "../fork.git", who="bob")
    clones.git("clone", "--quiet", "--mirror", "server.git", "fork.git", who="")
    clones.gittuf("bob", "setup", "origin")
    clones.git("fetch", "--quiet", "--all", who="bob")
    clones.commit("alice")
    clones.gittuf("alice", "record", "main")
    clones.gittuf("alice", "push")
    clones.git("fetch", "--quiet", "up-1.2", who="bob")
    there = [clones.tip("bob", f"refs/gittuf-remotes/{it}/reference-state-log") for it in ("up-1.2", "origin")]
    want(there, [clones.tip(it, LOG) for it in ("server.git", "fork.git")], "what was fetched of each")
    for it in ("+refs/gittuf/*:refs/gittuf-remotes/origin/*", "+refs/gittuf/*:refs/gittuf-remotes/up-1_2/*"):
        clones.git("config", "--add", "remote.up-1.2.fetch", it, who="bob")
    clones.copied("bob", clones.advised("bob", "puts the log of up-1.2 to where that of another remote stands"))
    have = clones.git("config", "--get-all", "remote.up-1.2.fetch", who="bob").decode().splitlines()
    want(have, ["+refs/heads/*:refs/remotes/up-1.2/*", "+refs/gittuf/*:refs/gittuf-remotes/up-1.2/*"], "what is fetched of it")


def goes_on_beside_no_key(repositories):
    """doctor tells of a key file that is none or cannot be read as of anything else, and goes on"""
    clones = another(repositories, "no key file")
    clones.commit("alice")
    clones.gittuf("alice", "record", "main")
    os.mkdir(clones.path("folder"))
    with open(clones.path("text"), "wb") as file:
        file.write(b"no key\n")
    for it in ("folder", "text"):
        clones.git("config", "gittuf.key", clones.path(it), who="alice")
        want(clones.advised("alice", f"{clones.path(it)} is no key file"), "git gittuf key --file <another path>", f"what is said of a {it}")
        clones.advised("alice", "goes on here by entry 3, signed by alice")


def tells_what_is_behind(repositories):
    """a branch that was fetched and not merged is told to be behind, and not recorded as if it went back"""
    clones = another(repositories, "behind")
    clones.gittuf("bob", "verify", "main")
    clones.commit("alice")
    clones.gittuf("alice", "record", "main")
    clones.gittuf("alice", "push")
    clones.git("fetch", "--quiet", who="bob")
    status, said = at_terminal("git gittuf verify main", clones.path("bob"))
    way = "git merge --ff-only origin/main"
    want((status, f"main is behind the log, which has it at {clones.tip('alice')[:12]}: {way}" in said), (1, True), f"what is told: {said}")
    clones.refused("bob", "record", "main", status=3, part=way)
    clones.copied("bob", way)
    clones.verdict("bob", f"accepted {MAIN} 2 entries")


CHECKS = (
    looks_before_it_signs,
    wastes_one_leaf,
    leads_out_of_a_violation,
    says_who_recovers,
    begins_no_second_log,
    names_what_comes_first,
    leads_from_doctor_to_a_push,
    names_no_record_in_vain,
    goes_on_once_a_remote_is_renamed,
    goes_on_beside_no_key,
    tells_what_is_behind,
)
