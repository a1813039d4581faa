"""The checks of tools/test on the hook of a server: what it takes, and what it refuses as a whole before it is there."""

import os
import subprocess

from checking import run, want
from guarded_clones import MAIN, another

LOG, POLICY, ATTESTATIONS = (f"refs/gittuf/{it}" for it in ("reference-state-log", "policy", "attestations"))
EMPTY_TREE = "6ef19b41225c5369f1c104d45d8d85efa9b057b53b14b4b9b939dd74decc5321"
TAKEN_WHOLE = "nothing of this push is taken"
MANY = 64


def gated(repositories, name):
    """A server whose hook judges, clones of two maintainers, and that of a stranger who may write to the server."""
    clones = another(repositories, name)
    clones.gittuf("server.git", "hook", "install", "--server")
    clones.clone("mallory")
    return clones


def there(clones):
    return clones.git("for-each-ref", "--format=%(refname) %(objectname)", who="server.git").decode()


def denied(clones, who, *words, part):
    """Holds a push to one that the server refuses as a whole, with this part of what the person who pushes is told."""
    before = there(clones)
    status, _, errors = run("git", "-C", clones.path(who), "push", *words)
    told = " ".join(errors.decode().replace("remote: ", "").split())
    want((status != 0, there(clones) == before), (True, True), f"whether a push of {words} was refused, and nothing moved: {told}")
    for it in (part, TAKEN_WHOLE):
        want(it in told, True, f"whether who pushes is told {it!r}: {told}")
    left = clones.path("server.git/gittuf/trial")
    want(os.path.exists(left), False, "whether a mark of a trial is left")


def takes_what_is_lawful(repositories):
    """the hook of a server takes what two maintainers record, approve and bring into force, and is told by no clone"""
    clones = gated(repositories, "gated")
    clones.commit("alice")
    clones.gittuf("alice", "record", "main")
    clones.gittuf("alice", "push")
    clones.git("pull", "--quiet", who="bob")
    clones.commit("bob", "docs/page")
    clones.gittuf("bob", "record", "main")
    clones.gittuf("bob", "note", "1", "-m", "seen")
    clones.git("push", "--quiet", who="bob")
    clones.git("pull", "--quiet", who="alice")
    clones.gittuf("alice", "policy", "rule", "releases", "git:refs/tags/v*", "--persons", "alice")
    clones.sign("alice")
    clones.git("push", "--quiet", who="alice")
    clones.gittuf("alice", "policy", "apply")
    clones.git("tag", "v1", who="alice")
    clones.gittuf("alice", "record", "v1")
    clones.gittuf("alice", "push", "main", "v1")
    clones.git("branch", "idea", who="bob")
    clones.git("push", "--quiet", "origin", "idea", who="bob")
    clones.git("push", "--quiet", "origin", ":idea", who="bob")
    clones.git("fetch", "--quiet", "--tags", who="bob")
    for who in ("alice", "bob"):
        clones.gittuf(who, "verify")
    clones.verdict("alice", f"accepted {MAIN} 3 entries")
    clones.sound("alice", "bob")
    # The server is asked as any clone is.
    want(run("git", "-C", clones.path("server.git"), "gittuf", "verify", "main")[1], f"accepted {MAIN} 3 entries\n".encode(), "its verdict")
    want(clones.gittuf("server.git", "doctor"), b"all is well\n", "what doctor says there, where no key and no remote are wanted")


def refuses_logs(clones, evil, log):
    """An entry that is not lawful, one without its push, and a log that is none, is cut, goes another way, or goes."""
    clones.gittuf("mallory", "record", "main", "--anyway")
    denied(clones, "mallory", "origin", "main", f"{LOG}:{LOG}", part=f"violation {MAIN} 4 ref-rule main 0 of 1")
    # An entry without its push, and another log.
    denied(clones, "mallory", "origin", f"{LOG}:{LOG}", part=f"violation {MAIN} 4 broken {evil}")
    odd = clones.git("commit-tree", "-p", clones.tip("server.git", LOG), "-m", "none", EMPTY_TREE, who="mallory").decode().strip()
    denied(clones, "mallory", "origin", f"{odd}:{LOG}", part=f"log-broken {odd}")
    part = "the log would go back from entry 3 to entry 2: git push --force-with-lease origin HEAD, say, forces a branch alone"
    denied(clones, "mallory", "--force", "origin", f"{log}:{LOG}", part=part)
    apart = clones.git("commit-tree", "-p", log, "-m", "none", EMPTY_TREE, who="mallory").decode().strip()
    denied(clones, "mallory", "--force", "origin", f"{apart}:{LOG}", part="the log goes on from another entry")
    denied(clones, "mallory", "origin", "--delete", LOG, part="the log is not to go")
    kept = clones.git("for-each-ref", "--format=%(refname)", "refs/gittuf/targets/", who="server.git").decode().split()
    denied(clones, "mallory", "origin", "--delete", kept[0], part="keeps what an entry recorded, and is not to go")


def refuses_what_is_not(repositories):
    """a stranger's entry, forced push, deletion, policy, tag and log are refused, each as a whole, with the line and a sentence"""
    clones = gated(repositories, "gated strangers")
    first, log = clones.tip("mallory"), clones.tip("server.git", LOG)
    clones.gittuf("alice", "policy", "rule", "releases", "git:refs/tags/v*", "--persons", "alice")
    clones.sign("alice")
    clones.gittuf("alice", "policy", "apply")
    clones.gittuf("alice", "push")
    clones.git("fetch", "--quiet", who="mallory")
    clones.gittuf("mallory", "log")
    evil = clones.commit("mallory", "evil")
    part = "main would stand at"
    denied(clones, "mallory", "origin", "main", part=f"tip-differs {MAIN} kept {evil} recorded {first}")
    denied(clones, "mallory", "origin", "main", "main:topic", part=part)
    amended = ("commit", "--quiet", "--amend", "-m", "another first one", "--allow-empty")
    clones.git("branch", "kept", who="mallory")
    clones.git("reset", "--quiet", "--hard", first, who="mallory")
    clones.git(*amended, who="mallory")
    denied(clones, "mallory", "--force", "origin", "main", part=part)
    clones.git("reset", "--quiet", "--hard", "kept", who="mallory")
    denied(clones, "mallory", "origin", "--delete", "main", part="main would be gone, and the log has it at")
    denied(clones, "mallory", "origin", "main:refs/tags/v1", part="v1 would stand at")
    denied(clones, "mallory", "origin", f"main:{POLICY}", "--force", part=f"tip-differs {POLICY}")
    refuses_logs(clones, evil, log)
    clones.git("config", "gittuf.root", clones.gittuf("mallory", "key", "--id").decode().strip(), who="server.git")
    clones.commit("alice")
    clones.gittuf("alice", "record", "main")
    denied(clones, "alice", "origin", "main", f"{LOG}:{LOG}", part="before the first policy was in force")
    clones.git("config", "--unset", "gittuf.root", who="server.git")
    denied(clones, "mallory", "origin", "main:refs/heads/main/x", part="refs/heads/main/x and refs/heads/main cannot stand side by side")
    # A note of a stranger says nothing of lawfulness.
    clones.gittuf("mallory", "doctor", "--take", "origin", "--anyway")
    clones.git("fetch", "--quiet", "--force", "origin", "refs/gittuf/*:refs/gittuf/*", who="mallory")
    clones.gittuf("mallory", "note", "1")
    clones.git("push", "--quiet", "origin", f"{LOG}:{LOG}", who="mallory")


def leads_out_where_it_stood(repositories):
    """where a violation stood before the hook, it is led out of through it, and nothing else goes on from there"""
    clones = another(repositories, "gated later")
    clones.clone("mallory")
    clones.commit("mallory", "evil")
    clones.gittuf("mallory", "record", "main", "--anyway")
    clones.gittuf("mallory", "push")
    clones.git("pull", "--quiet", who="bob")
    clones.gittuf("bob", "log")
    # A log that was broken before is set back to what is whole.
    odd = clones.git("commit-tree", "-p", LOG, "-m", "none", EMPTY_TREE, who="server.git").decode().strip()
    clones.git("update-ref", LOG, odd, who="server.git")
    clones.gittuf("server.git", "hook", "install", "--server")
    clones.git("fetch", "--quiet", who="bob")
    clones.gittuf("bob", "hook", "install")
    clones.copied("bob", clones.advised("bob", f"{LOG} of origin is no log after its last whole entry"))
    clones.gittuf("bob", "hook", "--remove")
    clones.commit("bob")
    clones.gittuf("bob", "record", "main", "--anyway")
    denied(clones, "bob", "origin", "main", f"{LOG}:{LOG}", part="main stands in violation since entry 3, and this push would not end it")
    clones.git("pull", "--quiet", who="alice")
    said = clones.asked("alice", "recover", "main")[2].decode()
    clones.git("push", "--quiet", "origin", f"{LOG}:{LOG}", who="alice")
    clones.copied("alice", said.partition(" are wanted: ")[2].strip())
    clones.gittuf("alice", "push")
    clones.verdict("alice", f"accepted {MAIN} 3 entries")


def goes_on_after_a_vain_policy(repositories):
    """a policy that is none is refused, and one that was recorded in vain before the hook keeps no later one from being taken"""
    clones = another(repositories, "gated policies")
    clones.clone("mallory")
    clones.gittuf("mallory", "log")
    evil = clones.commit("mallory", "evil")
    clones.git("update-ref", POLICY, evil, who="mallory")
    clones.gittuf("mallory", "record", POLICY, "--anyway")
    pushed = ("--quiet", "origin", f"+{POLICY}:{POLICY}", f"{LOG}:{LOG}")
    clones.gittuf("server.git", "hook", "install", "--server")
    denied(clones, "mallory", *pushed, part=f"violation {POLICY} 3 not-epoch")
    clones.gittuf("server.git", "hook", "--remove")
    clones.git("push", *pushed, who="mallory")
    clones.gittuf("server.git", "hook", "install", "--server")
    clones.git("fetch", "--quiet", who="alice")
    clones.gittuf("alice", "log")
    clones.gittuf("alice", "policy", "rule", "docs", "file:docs/*", "--persons", "bob")
    clones.sign("alice")
    clones.gittuf("alice", "policy", "apply")
    clones.git("push", "--quiet", "origin", f"+{POLICY}:{POLICY}", f"{LOG}:{LOG}", who="alice")
    clones.git("fetch", "--quiet", who="bob")
    # Where the server has it no more nobody can tell it from one that is held back.
    clones.refused("bob", "policy", "show", status=3, part="entry 3 recorded a policy that is not here")
    clones.gittuf("alice", "skip", "3")
    clones.git("push", "--quiet", "origin", f"{LOG}:{LOG}", who="alice")
    clones.git("fetch", "--quiet", who="bob")
    want(b"rule docs" in clones.gittuf("bob", "policy", "show"), True, "whether the later policy is in force")


def keeps_approvals_recorded(repositories):
    """approvals that no entry recorded are refused, and so is a skip by which they or a branch would stand where no entry says"""
    clones = gated(repositories, "gated skips")
    clones.gittuf("bob", "approve", "main", "--anyway")
    at = clones.tip("bob", ATTESTATIONS)
    denied(clones, "bob", "--quiet", "origin", f"{ATTESTATIONS}:{ATTESTATIONS}", part=f"tip-differs {ATTESTATIONS} kept {at} recorded 000")
    clones.git("push", "--quiet", who="bob")
    want(clones.tip("server.git", ATTESTATIONS), at, "where the server has the approvals")
    clones.commit("bob")
    clones.gittuf("bob", "record", "main")
    clones.gittuf("bob", "push")
    clones.git("pull", "--quiet", who="alice")
    clones.gittuf("alice", "skip", "3")
    denied(clones, "alice", part=f"entry 5 skips entry 3, by which {ATTESTATIONS} stands where it is: git gittuf record {ATTESTATIONS}")
    clones.gittuf("alice", "record", ATTESTATIONS)
    clones.git("push", "--quiet", who="alice")
    clones.verdict("server.git", f"accepted {ATTESTATIONS} 2 entries", name=ATTESTATIONS)
    # Of a branch too, also where its own clone refuses it, and a stranger's skip counts for nothing.
    clones.git("fetch", "--quiet", who="mallory")
    clones.gittuf("mallory", "skip", "4", "--anyway")
    clones.git("push", "--quiet", "origin", f"{LOG}:{LOG}", who="mallory")
    clones.git("fetch", "--quiet", who="bob")
    clones.gittuf("bob", "skip", "4")
    skipped = "entry 8 skips entry 4, by which main stands where it is: git gittuf record main"
    denied(clones, "bob", "origin", f"{LOG}:{LOG}", part=skipped)
    clones.gittuf("bob", "hook", "install")
    denied(clones, "bob", "origin", f"{LOG}:{LOG}", part=skipped)
    clones.git("revert", "--no-edit", "HEAD", who="bob")
    clones.gittuf("bob", "record", "main")
    clones.gittuf("bob", "push")
    clones.verdict("server.git", f"accepted {MAIN} 3 entries")
    clones.sound("alice", "bob")


def takes_many_at_once(repositories):
    """64 references in one push are judged at once: branches that are recorded are taken, and with one that is not none of them is"""
    clones = gated(repositories, "gated many")
    clones.gittuf("alice", "policy", "rule", "all", "git:refs/heads/r*", "--persons", "alice")
    clones.sign("alice")
    clones.gittuf("alice", "policy", "apply")
    clones.gittuf("alice", "push")
    names = [f"free-{it}" for it in range(MANY - 2)]
    for it in (*names, "r1", "r2"):
        clones.git("branch", it, who="alice")
    clones.gittuf("alice", "record", "r1")
    denied(clones, "alice", "origin", *names, "r1", "r2", f"{LOG}:{LOG}", part="r2 would stand at")
    clones.gittuf("alice", "record", "r2")
    clones.git("push", "--quiet", "origin", *names, "r1", "r2", f"{LOG}:{LOG}", who="alice")
    want(there(clones).count("refs/heads/"), MANY + 1, "how many branches the server has")


def takes_one_of_two(repositories):
    """of two pushes at once the second is judged after the first is whole, and recorded anew by push"""
    clones = gated(repositories, "gated races")
    for round_ in range(2):
        for who, name in (("alice", f"a{round_}"), ("bob", f"b{round_}")):
            clones.git("branch", name, who=who)
            clones.gittuf(who, "record", name)
        at_once = [("alice", f"a{round_}"), ("bob", f"b{round_}")]
        ran = [subprocess.Popen(("git", "-C", clones.path(who), "push", "--quiet", "origin", name, f"{LOG}:{LOG}"), stderr=subprocess.PIPE)
               for who, name in at_once]  # fmt: skip
        told = [it.communicate()[1].decode() for it in ran]
        ended = sorted(bool(it.returncode) for it in ran)
        want(ended, [False, True], f"which of two pushes at once were refused: {told}")
        branches = [it.split("/")[-1].split()[0] for it in there(clones).splitlines() if it.startswith(f"refs/heads/{('a', 'b')[ran[0].returncode != 0]}")]
        want(at_once[ran[0].returncode != 0][1] in branches, True, "whether the branch of the one that was taken is there")
        loser = at_once[ran[0].returncode == 0]
        want(f"refs/heads/{loser[1]} " in there(clones), False, "whether that of the other is")
        for who, name in at_once:
            clones.gittuf(who, "push", name)
        for who, _ in at_once:
            clones.git("fetch", "--quiet", who=who)
            clones.gittuf(who, "verify")


def judges_by_no_older_policy(repositories):
    """where the server's store lacks a policy, or has it damaged, it is made again, and the policy before judges nothing"""
    clones = gated(repositories, "gated and damaged")
    clones.gittuf("alice", "policy", "rule", "release", "refs/heads/release", "--persons", "alice")
    clones.sign("alice")
    clones.gittuf("alice", "policy", "apply")
    clones.git("push", "--quiet", who="alice")
    clones.commit("mallory")
    clones.gittuf("server.git", "verify", "main")
    place = clones.path(f"server.git/gittuf/kept/objects/{clones.tip('server.git', f'{POLICY}:metadata/targets.json')}")
    told = "made again from Git git-gittuf: tip-differs refs/heads/release kept"
    for damage in (os.remove, lambda path: os.truncate(path, os.stat(path).st_size - 1)):
        damage(place)
        denied(clones, "mallory", "origin", "main:refs/heads/release", part=told)


CHECKS = (
    takes_what_is_lawful,
    refuses_what_is_not,
    judges_by_no_older_policy,
    leads_out_where_it_stood,
    goes_on_after_a_vain_policy,
    keeps_approvals_recorded,
    takes_many_at_once,
    takes_one_of_two,
)
