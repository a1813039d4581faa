"""The checks of tools/test on servers that go back, drop, fork or invent, and on what a clone then says."""

from checking import at_terminal, want
from guarded_clones import MAIN, another

LOG = "refs/gittuf/reference-state-log"
ACCEPTED = "accepted refs/heads/main 2 entries\n"


def further(repositories, name):
    """Clones in which bob has recorded once more, and alice has that too."""
    clones = another(repositories, name)
    clones.gittuf("bob", "verify", "main")
    clones.commit("bob")
    clones.gittuf("bob", "record", "main")
    clones.git("push", "--quiet", who="bob")
    clones.git("pull", "--quiet", who="alice")
    clones.gittuf("alice", "verify", "main")
    return clones


def told(clones, who, part):
    """Holds a verdict to one over the own log that ends with 3, and says this of the server's."""
    status, output, errors = clones.asked(who, "verify", "main")
    want((status, output.decode(), part in errors.decode()), (3, ACCEPTED, True), f"what verify of {who} says: {errors}")


def tells_a_rollback(repositories):
    """a server whose log went back is told with numbers and signers, ends verify with 3, and is followed only anyway"""
    clones = further(repositories, "rolled back")
    whole = clones.tip("alice", LOG)
    older = clones.tip("alice", f"{LOG}~1")
    clones.git("update-ref", LOG, older, who="server.git")
    clones.git("fetch", "--quiet", who="alice")
    told(clones, "alice", f"{LOG} of origin went back from entry 3 to entry 2")
    found = clones.gittuf("alice", "doctor", status=1).decode()
    want("origin no longer has entry 3, signed by bob: ask who may write to origin" in found, True, f"what doctor says: {found}")
    want("push --remote origin\n" in found, False, f"whether doctor says to push: {found}")
    part = "entry 3 would be given up, of which 1 are not of your key but of bob"
    clones.refused_after("alice", "doctor", "--take", "origin", status=3, part=part)
    want(clones.tip("alice", LOG), whole, "where the own log stands")
    clones.gittuf("alice", "doctor", "--take", "origin", "--anyway")
    want(clones.tip("alice", LOG), older, "where it stands once that is given up")
    want(clones.asked("alice", "verify")[0], 1, "the status of verify then")


def puts_a_log_back_alone(repositories):
    """doctor's line for a log that went back, or is gone, puts it back, and pushes no branch that nobody recorded"""
    clones = further(repositories, "put back")
    whole, branch = clones.tip("alice", LOG), clones.tip("server.git")
    clones.commit("alice")
    for how in (("update-ref", LOG, clones.tip("alice", f"{LOG}~1")), ("update-ref", "-d", LOG)):
        clones.git(*how, who="server.git")
        clones.git("fetch", "--quiet", who="alice")
        line = clones.advised("alice", "the log of origin no longer has").partition(" by ")[2]
        clones.copied("alice", line)
        want([clones.tip("server.git", it) for it in (LOG, MAIN)], [whole, branch], f"what the server has after {line}")
        found = clones.gittuf("alice", "doctor", status=1).decode()
        want(found, "main stands elsewhere than it was recorded last: git gittuf verify main\n", "what doctor says then")


def tells_a_dropped_log(repositories):
    """a server that dropped what is below refs/gittuf/ is told, by a fetch that prunes, by one of all, and by doctor, which asks it"""
    clones = further(repositories, "dropped")
    clones.git("push", "--quiet", "origin", "main:topic", who="alice")
    names = clones.git("for-each-ref", "--format=delete %(refname)", "refs/gittuf/", who="server.git")
    clones.git("update-ref", "--stdin", who="server.git", input=names)
    found = clones.gittuf("alice", "doctor", status=1).decode()
    want("the log of origin no longer has entries 1 to 3, signed by alice, bob: ask" in found, True, f"what doctor says: {found}")
    for words in (("fetch", "--quiet"), ("fetch", "--quiet", "--prune")):
        clones.git(*words, who="bob")
        told(clones, "bob", f"origin has no {LOG} any more")


def accuses_no_server_that_is_not_fetched(repositories):
    """of a remote that was pushed to before setup named it nothing is said to be gone, and what setup says next is enough"""
    clones = another(repositories, "no setup of a remote")
    clones.git("init", "--quiet", "--bare", "-b", "main", "--object-format=sha256", "second.git", who="")
    clones.git("remote", "add", "second", "../second.git", who="alice")
    clones.gittuf("alice", "push", "--remote", "second")
    found = clones.gittuf("alice", "doctor", status=1).decode()
    want(found, "git push and git fetch do not carry the log to and from second: git gittuf setup second\n", "what doctor says")
    clones.verdict("alice", "accepted refs/heads/main 1 entries")
    clones.gittuf("alice", "setup", "second")
    clones.commit("alice")
    clones.gittuf("alice", "record", "main")
    clones.gittuf("alice", "push", "--remote", "second")
    clones.gittuf("alice", "push")
    want(clones.gittuf("alice", "doctor"), b"all is well\n", "what doctor says then")
    line = f"pushed refs/heads/main {clones.tip('alice')}"
    for script, are_there in (("git gittuf push", True), ("git update-ref -d refs/remotes/origin/main && git -C ../server.git update-ref -d refs/heads/main && git gittuf push", False)):
        status, said = at_terminal(script, clones.path("alice"))
        told = "origin has all of it already, so nothing went there" in said
        want((status, line in said, told), (0, True, are_there), f"what a push says that {'moves nothing' if are_there else 'moves the branch'}: {said}")


def tells_a_fork(repositories):
    """a server that shows two persons two logs is told with what is here, and entries of others are not given up for it"""
    clones = further(repositories, "forked")
    clones.git("update-ref", LOG, clones.tip("alice", f"{LOG}~1"), who="server.git")
    clones.git("update-ref", MAIN, clones.tip("alice", f"{MAIN}~1"), who="server.git")
    clones.clone("mallory")
    clones.gittuf("mallory", "note", "1")
    clones.git("push", "--quiet", who="mallory")
    clones.git("fetch", "--quiet", who="alice")
    told(clones, "alice", "went apart, and neither is taken back")
    found = clones.gittuf("alice", "doctor", status=1).decode()
    line = f"git push --force-with-lease={LOG}:{clones.tip('server.git', LOG)} origin {LOG}"
    ways = f"ask who may write to origin; {line} puts it back, and git gittuf doctor --take origin gives it up\n"
    want(f"went apart: here is entry 3, signed by bob: {ways}" in found, True, f"what doctor says: {found}")
    clones.refused_after("alice", "doctor", "--take", "origin", status=3, part="not of your key but of bob")
    said = clones.refused_after("alice", "sync", status=3, part=f"{LOG} here and that of origin went apart, and neither is taken back")
    want(said.count("went apart"), 1, f"how often sync tells that it goes over to no log: {said}")
    clones.copied("alice", line)
    want(clones.tip("server.git", LOG), clones.tip("alice", LOG), "where the log of the server stands once it is put back")
    clones.gittuf("alice", "push", "--anyway")
    want(clones.gittuf("alice", "doctor"), b"all is well\n", "what doctor says then")


def leads_out_of_what_is_no_log(repositories):
    """where a server put what is no entry onto the log, and something was recorded here since, the line of doctor leads out all the same"""
    clones = another(repositories, "no entry on top")
    tree = clones.git("mktree", who="server.git").decode().strip()
    made = clones.git("commit-tree", "-p", LOG, "-m", "no entry", tree, who="server.git").decode().strip()
    clones.git("update-ref", LOG, made, who="server.git")
    clones.commit("alice")
    clones.gittuf("alice", "record", "main")
    clones.git("fetch", "--quiet", who="alice")
    status, _, errors = clones.asked("alice", "verify", "main")
    want((status, f"{LOG} of origin is no log".encode() in errors), (3, True), f"what verify says: {errors}")
    clones.copied("alice", clones.advised("alice", f"{LOG} of origin is no log after its last whole entry, and is not followed"))
    clones.gittuf("alice", "push")
    want(clones.gittuf("alice", "doctor"), b"all is well\n", "what doctor says then")


def signs_nothing_of_others(repositories):
    """sync goes over to no log that lacks what the server had, and signs nothing anew that only names the own key"""
    clones = another(repositories, "rewritten")
    clones.clone("mallory")
    clones.gittuf("mallory", "note", "1", "-m", "as if by alice")
    common = clones.tip("mallory", f"{LOG}~1")
    names = [clones.gittuf(who, "key", "--id").strip() for who in ("mallory", "alice")]
    text = clones.git("cat-file", "commit", LOG, who="mallory").replace(*names)
    forged = clones.git("hash-object", "-w", "-t", "commit", "--stdin", who="mallory", input=text).decode().strip()
    clones.git("push", "--quiet", "origin", f"{forged}:{LOG}", who="mallory")
    clones.git("fetch", "--quiet", who="alice")
    clones.gittuf("alice", "verify", "main")
    want(clones.tip("alice", LOG), forged, "where the log of alice stands")
    clones.git("update-ref", LOG, common, who="server.git")
    clones.git("push", "--quiet", "origin", f"{LOG}:{LOG}", who="mallory")
    before = clones.used("alice")
    part = "origin had entry 3 of the log here, and has another log now"
    clones.refused_after("alice", "sync", status=3, part=part)
    clones.gittuf("alice", "sync", "--anyway")
    want(clones.tip("alice", LOG), clones.tip("server.git", LOG), "where the log of alice stands once that is gone over to")
    want(clones.used("alice"), before, "how many leaves of alice are used")


def follows_nothing_invented(repositories):
    """what a server invents below refs/gittuf/ becomes no remote and no own reference, and goes on nowhere"""
    clones = another(repositories, "invented")
    junk = clones.tip("server.git")
    for name in ("x/reference-state-log", f"targets/{junk}", "targets/x", "anything"):
        clones.git("update-ref", f"refs/gittuf/{name}", junk, who="server.git")
    clones.git("fetch", "--quiet", who="bob")
    status, output, errors = clones.asked("bob", "verify", "main")
    want((status, output, errors), (0, f"accepted {MAIN} 1 entries\n".encode(), b""), "what verify says")
    want("origin/x" in clones.gittuf("bob", "doctor").decode(), False, "whether doctor names a remote that is none")
    own = set(clones.git("for-each-ref", "--format=%(refname)", "refs/gittuf/", who="bob").decode().split())
    want(own & {"refs/gittuf/anything", "refs/gittuf/targets/x", "refs/gittuf/x/reference-state-log"}, set(), "what became own")


def takes_no_branch_for_a_log(repositories):
    """a server that has a branch, a tag or a file in the place of its log changes no verdict, in an old clone and in a new one"""
    clones = another(repositories, "no log there")
    clones.gittuf("bob", "verify", "main")
    log, accepted = clones.tip("server.git", LOG), f"accepted {MAIN} 1 entries\n".encode()
    clones.git("tag", "-a", "-m", "of main", "of-main", "main", who="alice")
    clones.git("push", "--quiet", "origin", "of-main", who="alice")
    clones.clone("newcomer", key=False)
    clones.git("config", "gittuf.firstRoot", clones.gittuf("alice", "key", "--id").decode().strip(), who="newcomer")
    clones.gittuf("newcomer", "verify", "main")
    for name in (MAIN, "refs/tags/of-main", f"{MAIN}:README"):
        clones.git("update-ref", LOG, clones.tip("server.git", name), who="server.git")
        later = f"after {len(name)}"
        clones.clone(later, key=False)
        clones.refused_after(later, "verify", status=3, part="there is no log here")
        for who in ("bob", "newcomer"):
            clones.git("fetch", "--quiet", who=who)
            for anew in ((), ("setup", "--anew")):
                clones.asked(who, *(anew or ("log",)))
                status, output, errors = clones.asked(who, "verify", "main")
                want((status, output, b"damaged" in errors), (3, accepted, False), f"what {who} is told beside {name}: {errors}")
    clones.git("update-ref", LOG, log, who="server.git")
    clones.git("fetch", "--quiet", "--force", who="newcomer")
    want(clones.gittuf("newcomer", "verify", "main"), accepted, "the verdict once the log is back")


CHECKS = (
    tells_a_rollback,
    puts_a_log_back_alone,
    tells_a_dropped_log,
    accuses_no_server_that_is_not_fetched,
    tells_a_fork,
    leads_out_of_what_is_no_log,
    signs_nothing_of_others,
    follows_nothing_invented,
    takes_no_branch_for_a_log,
)
