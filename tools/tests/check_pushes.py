"""The checks of tools/test on pushes of git gittuf: what they take along, who is behind, and races."""

import re

from check_ways import ATTESTATIONS, LOG, told
from checking import at_terminal, want
from guarded_clones import MAIN, another


def pushes_all_or_nothing(repositories):
    """push takes branches and tags with the log that records them, and nothing that no entry records"""
    clones = another(repositories, "pushed")
    clones.commit("alice")
    clones.refused("alice", "push", status=3, part="main stands where no entry of the log has it: git gittuf record main comes first")
    clones.gittuf("alice", "record", "main")
    clones.git("tag", "v1", who="alice")
    clones.gittuf("alice", "record", "v1")
    tip = clones.tip("alice")
    want(clones.gittuf("alice", "push", "main", "v1").decode(), f"pushed {MAIN} {tip}\npushed refs/tags/v1 {tip}\n", "what push prints")
    for name in (MAIN, "refs/tags/v1", LOG):
        want(clones.tip("server.git", name), clones.tip("alice", name), f"where the server has {name}")
    # What was recorded meanwhile goes along.
    clones.git("tag", "v2", who="alice")
    clones.gittuf("alice", "record", "v2")
    want(clones.gittuf("alice", "push").decode(), f"pushed {MAIN} {tip}\npushed refs/tags/v2 {tip}\n", "what push takes along")
    clones.git("pull", "--quiet", who="bob")
    clones.gittuf("bob", "verify")
    clones.commit("bob")
    clones.git("push", "--quiet", "origin", "main", who="bob")
    clones.commit("alice")
    clones.gittuf("alice", "record", "main")
    before = clones.git("for-each-ref", who="server.git")
    clones.refused("alice", "push", status=3, part="git pull brings what is there")
    want(clones.git("for-each-ref", who="server.git"), before, "what the server has after a push that failed")
    # Where another recorded first, the log alone would not go either.
    clones.gittuf("bob", "note", "1", "-m", "first")
    clones.git("push", "--quiet", "origin", "refs/gittuf/*:refs/gittuf/*", who="bob")
    clones.commit("alice")
    clones.git("fetch", "--quiet", who="alice")
    part = "git gittuf record main comes first, and git gittuf sync --remote origin records anew what else is signed"
    clones.refused_after("alice", "push", status=3, part=part)


def pushes_nothing_past_a_log(repositories):
    """who has no log yet where the server has one pushes nothing, and is led to the log, by which the push is refused"""
    clones = another(repositories, "past a log")
    tip = clones.tip("server.git")
    clones.git("clone", "--quiet", "server.git", "late", who="")
    clones.commit("late")
    way = "git gittuf setup origin && git fetch origin"
    clones.refused("late", "push", status=3, part=f"there is no log here, and origin has one, beside which none is begun: {way}")
    clones.copied("late", way)
    clones.refused("late", "push", status=3, part="main stands where no entry of the log has it: git gittuf record main comes first")
    want(clones.tip("server.git"), tip, "where main of the server stands")


def pushes_the_log_alone(repositories):
    """a policy, a note and an approval reach others while a branch waits for its signatures, and where no branch is checked out"""
    clones = another(repositories, "log alone")
    clones.git("switch", "--quiet", "--create", "release-1", who="alice")
    clones.git("push", "--quiet", "origin", "release-1", who="alice")
    clones.gittuf("alice", "policy", "rule", "releases", "refs/heads/release-*", "--persons", "alice,bob", "--threshold", "2")
    clones.sign("alice")
    clones.gittuf("alice", "policy", "apply")
    clones.commit("alice")
    tip = clones.tip("alice", "release-1")
    part = f"missing is bob, who approves it by git gittuf approve release-1 {tip}, once git push origin {tip}:refs/heads/idea, say, has shown it"
    clones.refused("alice", "record", "release-1", status=3, part=part)
    clones.git("reset", "--quiet", "--hard", "HEAD~1", who="alice")
    clones.gittuf("alice", "push")
    want(clones.tip("server.git", LOG), clones.tip("alice", LOG), "where the log of the server stands")
    clones.git("switch", "--quiet", "--detach", who="alice")
    clones.gittuf("alice", "note", "1")
    want(clones.gittuf("alice", "push"), b"", "what push prints where no branch is checked out")
    want(clones.tip("server.git", LOG), clones.tip("alice", LOG), "where the log of the server stands then")
    clones.git("fetch", "--quiet", who="bob")
    part = "there is no branch or tag v9 here: git fetch --tags may bring it, and git gittuf approve v9 COMMIT says where it may go"
    clones.refused("bob", "approve", "v9", status=3, part=part)
    part = "there is no branch or tag release-1 here: git gittuf approve release-1 origin/release-1 approves where origin has it"
    clones.refused("bob", "approve", "release-1", status=3, part=part)
    clones.gittuf("bob", "approve", "release-1", "origin/release-1")
    clones.gittuf("bob", "push")
    clones.git("fetch", "--quiet", who="alice")
    clones.git("switch", "--quiet", "release-1", who="alice")
    clones.gittuf("alice", "record", "release-1")
    clones.gittuf("alice", "push")
    clones.verdict("alice", "accepted refs/heads/release-1 1 entries", name="refs/heads/release-1")


def takes_no_branch_back(repositories):
    """who is behind with a branch pushes an approval and leaves the branch where it is, and is told nothing that would take it back"""
    clones = another(repositories, "behind and approved")
    clones.gittuf("bob", "verify", "main")
    clones.commit("alice")
    clones.gittuf("alice", "policy", "rule", "main", "--persons", "alice,bob", "--threshold", "2")
    clones.gittuf("alice", "record", "main")
    clones.sign("alice")
    clones.gittuf("alice", "policy", "apply")
    clones.gittuf("alice", "push")
    tip = clones.tip("alice")
    clones.commit("alice", "further")
    clones.git("push", "--quiet", "origin", "main:idea", who="alice")
    clones.git("fetch", "--quiet", who="bob")
    clones.gittuf("bob", "approve", "main", "origin/idea")
    clones.refused("bob", "push", "main", status=3, part="nothing is pushed, as main is behind origin/main, which stays as it is: ")
    status, said = at_terminal("git gittuf push", clones.path("bob"))
    want((status, "--anyway" in said, "record main" in said), (0, False, False), f"what is told: {said}")
    want(clones.tip("server.git", LOG), clones.tip("bob", LOG), "where the log of the server stands")
    want(clones.tip("server.git"), tip, "where its branch stands")
    clones.git("fetch", "--quiet", who="alice")
    clones.gittuf("alice", "record", "main")
    clones.gittuf("alice", "push")
    clones.verdict("alice", f"accepted {MAIN} 3 entries")


def records_anew_after_a_race(repositories):
    """of two who record at once the second records anew after the first by push or sync, as far as that is lawful, and an approval too"""
    clones = another(repositories, "raced")
    clones.git("branch", "topic", who="bob")
    clones.gittuf("bob", "record", "topic")
    clones.commit("alice")
    clones.git("push", "--quiet", "origin", "main:idea", who="alice")
    clones.git("fetch", "--quiet", who="bob")
    clones.gittuf("bob", "approve", "main", "origin/idea")
    clones.gittuf("bob", "note", "1", "-m", "seen\nby bob")
    approved = clones.git("ls-tree", "-r", "--name-only", ATTESTATIONS, who="bob")
    clones.git("tag", "v1", who="alice")
    clones.gittuf("alice", "record", "v1")
    clones.gittuf("alice", "push", "v1")
    status, _, said = clones.asked("bob", "push", "topic")
    want((status, said), (0, b""), "the status, and whether a log that push goes over to is told to be apart")
    want(clones.tip("server.git", LOG), clones.tip("bob", LOG), "where the log of the server stands")
    want(clones.git("ls-tree", "-r", "--name-only", ATTESTATIONS, who="bob"), approved, "the approvals")
    kinds = [it.split()[3:5] for it in clones.gittuf("bob", "log").decode().splitlines()]
    wanted = [["ref", "refs/tags/v1"], ["ref", "refs/heads/topic"], ["ref", ATTESTATIONS], ["note", "1"]]
    want(kinds[2:], wanted, "what is recorded then")
    clones.gittuf("bob", "verify")
    # Both on one branch: the second one merges first.
    clones.git("pull", "--quiet", who="alice")
    clones.gittuf("alice", "record", "main")
    clones.gittuf("alice", "push")
    clones.commit("bob", "other")
    clones.gittuf("bob", "record", "main")
    said = told(clones, "bob", "push", status=3)
    way = re.search(r": (git merge [0-9a-f]{64} && git gittuf record main)", said)
    want(way is not None, True, f"what is told: {said}")
    clones.copied("bob", way[1].replace("merge", "merge --quiet --no-edit"))
    clones.gittuf("bob", "push")
    clones.git("pull", "--quiet", who="alice")
    for who in ("alice", "bob"):
        clones.verdict(who, f"accepted {MAIN} 3 entries")
    want(clones.gittuf("bob", "sync"), b"", "what sync prints where there is nothing to do")


def tells_once_what_is_given_up(repositories):
    """what sync gives up for one reason, as approvals of a branch that was moved meanwhile, is told once"""
    clones = another(repositories, "raced approvals")
    for name in ("first", "second"):
        clones.commit("alice", name)
        clones.git("push", "--quiet", "origin", f"main:{name}", who="alice")
    clones.git("fetch", "--quiet", who="bob")
    for name in ("first", "second"):
        clones.gittuf("bob", "approve", "main", f"origin/{name}")
    clones.gittuf("alice", "record", "main")
    clones.gittuf("alice", "push")
    said = told(clones, "bob", "sync", status=3)
    want(said.count("an approval of main is given up"), 1, f"how often it is told: {said}")


def asks_nobody_for_what_is_recorded(repositories):
    """who records once more what is recorded is told the entry that has it, and nobody is asked to approve that"""
    clones = another(repositories, "recorded already")
    clones.gittuf("alice", "policy", "rule", "main", "--persons", "alice,bob", "--threshold", "2")
    clones.sign("alice")
    clones.gittuf("alice", "policy", "apply")
    clones.refused("alice", "record", "main", status=3, part="nothing is recorded, as entry 2 has main where it stands already")
    tip = clones.commit("alice")
    clones.refused("alice", "record", "main", status=3, part=f"missing is bob, who approves it by git gittuf approve main {tip}")
    clones.gittuf("alice", "record", "main", "--anyway")
    clones.refused("alice", "record", "main", status=3, part="main stands in violation since entry 4, and this would not end it")


def takes_tags_along(repositories):
    """push moves and takes away the tags that entries put elsewhere or away, where a server has them as its log has, and else no tag"""
    clones = another(repositories, "moved tags")
    clones.gittuf("server.git", "setup")
    clones.gittuf("server.git", "hook", "install", "--server")
    for name in ("v1", "v2", "v3"):
        clones.git("tag", name, who="alice")
        clones.gittuf("alice", "record", name)
    clones.gittuf("alice", "push")
    old = clones.tip("alice")
    clones.commit("alice")
    clones.gittuf("alice", "record", "main")
    clones.git("tag", "--delete", "v1", who="alice")
    clones.git("tag", "--force", "v2", who="alice")
    for name in ("v1", "v2"):
        clones.gittuf("alice", "record", name)
    tip, zeros = clones.tip("alice"), "0" * 64
    pushed = f"pushed {MAIN} {tip}\npushed refs/tags/v1 {zeros}\npushed refs/tags/v2 {tip}\n"
    want(clones.gittuf("alice", "push").decode(), pushed, "what push takes along")
    there = clones.git("for-each-ref", "--format=%(refname) %(objectname)", "refs/tags/", who="server.git").decode()
    want(there, f"refs/tags/v2 {tip}\nrefs/tags/v3 {old}\n", "the tags of the server")
    # What somebody put elsewhere on the disk of the server is not taken away with what is recorded.
    clones.git("update-ref", "refs/tags/v3", tip, who="server.git")
    clones.git("tag", "--delete", "v3", who="alice")
    clones.gittuf("alice", "record", "v3")
    part = "says that v3 is gone, and by this push it would stand at"
    clones.refused_after("alice", "push", status=3, part=part)
    want(clones.tip("server.git", "refs/tags/v3"), tip, "where the server has the tag of somebody else")
    # Where the log went without its tag that goes by its name.
    clones.git("update-ref", "refs/tags/v3", old, who="server.git")
    clones.gittuf("server.git", "hook", "--remove")
    clones.git("tag", "--force", "v3", "v2", who="alice")
    clones.gittuf("alice", "record", "v3")
    clones.git("push", "--quiet", "origin", "refs/gittuf/*:refs/gittuf/*", who="alice")
    want(clones.gittuf("alice", "push", "v3").decode(), f"pushed refs/tags/v3 {tip}\n", "what push prints of a tag that is named")
    want(clones.tip("server.git", "refs/tags/v3"), tip, "where the server has it then")


def gives_up_no_entry_for_an_edit(repositories):
    """of two who edit the policy at once the second goes on from the first one's edit by doctor's line, and keeps what was recorded"""
    clones = another(repositories, "two edits")
    clones.gittuf("bob", "verify", "main")
    clones.gittuf("alice", "policy", "rule", "of-alice", "refs/heads/a", "--persons", "alice")
    clones.gittuf("alice", "push")
    clones.gittuf("bob", "policy", "rule", "of-bob", "refs/heads/b", "--persons", "bob")
    clones.gittuf("bob", "note", "1", "-m", "seen")
    noted = clones.tip("bob", LOG)
    clones.refused_after("bob", "push", status=3, part="refs/gittuf/policy-staging; git gittuf doctor says more")
    clones.copied("bob", clones.advised("bob", "refs/gittuf/policy-staging here and that of origin went apart"))
    want(clones.tip("bob", LOG), noted, "where the log stands once the other edit is taken")
    clones.gittuf("bob", "policy", "rule", "of-bob", "refs/heads/b", "--persons", "bob")
    clones.gittuf("bob", "push")
    want(clones.tip("server.git", LOG), noted, "where the log of the server stands")
    edited = clones.gittuf("bob", "policy", "show").decode()
    want([it in edited for it in ("+ rule of-alice:", "+ rule of-bob:")], [True, True], f"what is edited then: {edited}")


def says_why_git_does_not_push(repositories):
    """where git itself refuses to push, push says why, as where a stranger's branch lets the name of another mean two things there"""
    clones = another(repositories, "two meanings")
    clones.git("update-ref", f"refs/heads/{MAIN}", clones.tip("server.git"), who="server.git")
    clones.commit("alice")
    clones.gittuf("alice", "record", "main")
    part = f"git does not push to origin: dst refspec {MAIN} matches more than one"
    clones.refused("alice", "push", status=4, part=part)


def puts_back_what_was_recovered(repositories):
    """where a branch is recovered here and the server has it as the stranger recorded it, push names the line that puts it back there"""
    clones = another(repositories, "put back")
    before = clones.tip("alice")
    clones.clone("mallory")
    clones.commit("mallory")
    clones.gittuf("mallory", "record", "main", "--anyway")
    clones.gittuf("mallory", "push")
    clones.git("fetch", "--quiet", who="alice")
    clones.gittuf("alice", "recover", "main")
    line = "git gittuf push --remote origin --anyway main"
    part = f"main stands there where an earlier entry had it, and {line} puts it where the log has it"
    clones.refused("alice", "push", status=3, part=part)
    clones.copied("alice", line)
    want(clones.tip("server.git"), before, "where the server has main then")
    clones.git("fetch", "--quiet", who="bob")
    clones.verdict("bob", f"accepted {MAIN} 3 entries")


CHECKS = (
    pushes_all_or_nothing,
    pushes_nothing_past_a_log,
    pushes_the_log_alone,
    takes_no_branch_back,
    records_anew_after_a_race,
    tells_once_what_is_given_up,
    asks_nobody_for_what_is_recorded,
    takes_tags_along,
    gives_up_no_entry_for_an_edit,
    says_why_git_does_not_push,
    puts_back_what_was_recovered,
)
