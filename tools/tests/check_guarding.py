"""The checks of tools/test on git gittuf in the clones of two maintainers."""

import os
import re
import shlex

from checking import TOP, Failure, at_terminal, run, want
from guarded_clones import MAIN, SIGNATURES, SMALL, another

ENTRY_LINE = re.compile(r"entry (\d+) ([0-9a-f]{64})\n")


def goes_from_setup_to_verdict(repositories):
    """two clones of a server agree on a verdict, and so does a third with the first policy's key"""
    clones = another(repositories, "two clones")
    for who in ("alice", "bob"):
        clones.verdict(who, f"accepted {MAIN} 1 entries")
    clones.commit("bob")
    clones.gittuf("bob", "record", "main")
    clones.git("push", "--quiet", who="bob")
    clones.git("pull", "--quiet", who="alice")
    clones.verdict("alice", f"accepted {MAIN} 2 entries")
    clones.clone("auditor", key=False)
    root = clones.gittuf("alice", "key", "--id").decode().strip()
    clones.verdict("auditor", f"accepted {MAIN} 2 entries", "--root", root)
    other = clones.gittuf("bob", "key", "--id").decode().strip()
    clones.verdict("auditor", f"violation {MAIN} 2 no-policy", "--root", other)
    clones.sound("alice", "bob", "auditor")


def finds_a_forced_push(repositories):
    """a stranger's forced push is found by the other clone, also where the stranger recorded it, and taken back"""
    clones = another(repositories, "forced")
    recorded = clones.tip("alice")
    clones.clone("stranger")
    clones.write("stranger", "README", "mine\n")
    clones.git("commit", "--quiet", "--amend", "--message", "mine", who="stranger")
    forced = clones.tip("stranger")
    clones.git("push", "--quiet", "--force", "origin", "main", who="stranger")
    clones.git("fetch", "--quiet", who="bob")
    clones.git("reset", "--quiet", "--hard", "origin/main", who="bob")
    clones.verdict("bob", f"tip-differs {MAIN} kept {forced} recorded {recorded}")
    clones.refused("stranger", "record", "main", status=3, part="your key is that of none of the policy's persons")
    clones.gittuf("stranger", "record", "main", "--anyway")
    clones.git("push", "--quiet", who="stranger")
    clones.git("fetch", "--quiet", who="bob")
    clones.verdict("bob", f"violation {MAIN} 3 ref-rule main 0 of 1")
    clones.gittuf("bob", "skip", "3", "-m", "taken back")
    clones.git("reset", "--quiet", "--hard", recorded, who="bob")
    clones.gittuf("bob", "record", "main")
    clones.git("push", "--quiet", "--force", who="bob")
    clones.clone("auditor", key=False)
    for who in ("bob", "auditor"):
        clones.verdict(who, f"accepted {MAIN} 3 entries")
    clones.sound("bob", "stranger", "auditor")


def judges_what_no_branch_reaches(repositories):
    """a lawful change that does not go on from the one before is accepted in a clone that never had that one"""
    clones = another(repositories, "amended")
    clones.commit("alice")
    clones.gittuf("alice", "record", "main")
    clones.git("push", "--quiet", who="alice")
    clones.write("alice", "README", "amended\n")
    clones.git("commit", "--quiet", "--amend", "--message", "amended", who="alice")
    clones.gittuf("alice", "record", "main")
    clones.git("push", "--quiet", "--force", who="alice")
    clones.clone("auditor", key=False)
    clones.verdict("auditor", f"accepted {MAIN} 3 entries")
    clones.sound("alice", "auditor")


def records(clones, who, name, *words):
    """Records a reference, and returns the number of the entry."""
    printed = clones.gittuf(who, "record", name, *words).decode()
    found = ENTRY_LINE.fullmatch(printed)
    if not found:
        raise Failure(f"record printed {printed!r}")
    return int(found[1])


def judges_what_git_has(repositories):
    """a tag, a merge, a renamed directory, a submodule, names with a space and in UTF-8 have the verdicts of the whole stream"""
    clones = another(repositories, "kinds")
    alice, count = "alice", 1
    clones.write(alice, "a directory/a file", "text\n")
    clones.commit(alice, "d\u00e9p\u00f4t/\u6f22\u5b57", "\U0001f600\n")
    count += 1
    records(clones, alice, "main")
    clones.git("mv", "a directory", "another", who=alice)
    clones.git("switch", "--quiet", "--create", "c\u00f4t\u00e9", who=alice)
    clones.commit(alice, "beside")
    records(clones, alice, "c\u00f4t\u00e9")
    clones.git("switch", "--quiet", "main", who=alice)
    clones.commit(alice)
    clones.git("merge", "--quiet", "--no-edit", "c\u00f4t\u00e9", who=alice)
    allowed = ("-c", "protocol.file.allow=always", "submodule", "--quiet", "add")
    clones.git(*allowed, repositories.needed(), "module", who=alice)
    clones.git("commit", "--quiet", "--message", "a submodule", who=alice)
    count += 1
    records(clones, alice, "main")
    clones.git("tag", "--annotate", "--message", "one", "v1", who=alice)
    clones.git("tag", "of-a-file", "main:README", who=alice)
    clones.git("tag", "--annotate", "--message", "of a tree", "of-a-tree", "main^{tree}", who=alice)
    numbers = {name: records(clones, alice, f"refs/tags/{name}", "--anyway") for name in ("v1", "of-a-file", "of-a-tree")}
    clones.verdict(alice, f"accepted {MAIN} {count} entries")
    clones.verdict(alice, "accepted refs/heads/c\u00f4t\u00e9 1 entries", name="refs/heads/c\u00f4t\u00e9")
    clones.verdict(alice, "accepted refs/tags/v1 1 entries", name="refs/tags/v1")
    for name, of in (("of-a-file", "main:README"), ("of-a-tree", "main^{tree}")):
        line = f"violation refs/tags/{name} {numbers[name]} broken {clones.tip(alice, of)}"
        clones.verdict(alice, line, name=f"refs/tags/{name}")
    clones.git("branch", "--quiet", "-D", "c\u00f4t\u00e9", who=alice)
    records(clones, alice, "refs/heads/c\u00f4t\u00e9")
    clones.verdict(alice, "accepted refs/heads/c\u00f4t\u00e9 2 entries", name="refs/heads/c\u00f4t\u00e9")
    keeps_no_content(clones, alice)
    clones.sound(alice)


def keeps_no_content(clones, who):
    """Holds the blobs in the store to those below refs/gittuf/."""
    place = os.path.join(clones.path(who), ".git", "gittuf", "kept", "objects")
    blobs = set()
    for name in os.listdir(place):
        with open(os.path.join(place, name), "rb") as file:
            if file.read(5) == b"blob ":
                blobs.add(name)
    own = clones.git("for-each-ref", "--format=%(objectname)", "refs/gittuf/", who=who)
    words = ("rev-list", "--objects", "--no-object-names", "--filter=object:type=blob", "--stdin")
    want(blobs, set(clones.git(*words, who=who, input=own).decode().split()) & blobs, "the blobs in the store")


def goes_on_in_a_worktree(repositories):
    """a second worktree and a packed and garbage-collected repository have the same store and the same verdicts"""
    clones = another(repositories, "worktrees")
    clones.git("worktree", "add", "--quiet", "-b", "side", "../beside", who="alice")
    clones.commit("beside")
    records(clones, "beside", "side")
    clones.verdict("beside", "accepted refs/heads/side 1 entries", name="refs/heads/side")
    clones.verdict("beside", f"accepted {MAIN} 1 entries")
    want(os.path.exists(os.path.join(clones.path("beside"), ".git", "gittuf")), False, "whether there is a second store")
    clones.git("pack-refs", "--all", who="alice")
    clones.git("gc", "--quiet", "--aggressive", "--prune=now", who="alice")
    clones.verdict("alice", "accepted refs/heads/side 1 entries", name="refs/heads/side")
    clones.gittuf("alice", "setup", "--anew")
    clones.verdict("alice", f"accepted {MAIN} 1 entries")
    os.mkdir(os.path.join(clones.path("alice"), "folder"))
    want(clones.gittuf("alice/folder", "explain", "main"), b"rule main 1 open\n", "the rules from a folder below")
    clones.sound("alice")


def follows_and_gives_up(repositories):
    """of two who recorded at once the second is told, gives up its entry by doctor --take, and records again"""
    clones = another(repositories, "at once")
    for who in ("alice", "bob"):
        clones.commit(who, who)
        records(clones, who, "main")
    clones.git("push", "--quiet", who="alice")
    status, _, errors = run("git", "-C", clones.path("bob"), "push", "--quiet")
    want((status, b"rejected" in errors), (1, True), "the status of the second push, and whether it is rejected")
    clones.git("pull", "--quiet", "--no-rebase", "--no-edit", who="bob")
    status, _, errors = clones.asked("bob", "verify", "main")
    want((status, b"went apart" in errors), (3, True), "the status of verify, and whether it says that the logs went apart")
    found = clones.gittuf("bob", "doctor", status=1)
    want(b": git gittuf sync --remote origin records it anew" in found, True, "whether doctor tells the way that keeps what bob signed")
    want(b"git gittuf doctor --take origin" in found, True, "whether doctor tells the way out")
    clones.gittuf("bob", "doctor", "--take", "origin")
    records(clones, "bob", "main")
    clones.git("push", "--quiet", who="bob")
    clones.git("pull", "--quiet", who="alice")
    for who in ("alice", "bob"):
        clones.verdict(who, f"accepted {MAIN} 3 entries")
    want(clones.gittuf("alice", "doctor"), b"all is well\n", "what doctor says at the end")


def names_what_is_missing(repositories):
    """what git gittuf refuses is told in one line that names the way out"""
    clones = another(repositories, "refused")
    none = {"XDG_DATA_HOME": clones.path("nowhere")}
    clones.clone("keyless", key=False)
    clones.refused("keyless", "record", "main", status=4, part="git gittuf key makes one", environment=none)
    inside = os.path.join(clones.path("keyless"), "my.key")
    clones.refused("keyless", "key", "--file", inside, status=3, part="inside the repository")
    clones.refused("keyless", "record", "nothing", status=3, part="git branch --all")
    clones.refused("keyless", "frobnicate", status=2, part="git gittuf -h")
    clones.refused("keyless", "hook", "instal", status=2, part="'instal' is no word of hook: install is, and --remove; git gittuf -h")
    clones.refused("alice", "policy", "rule", "main", "--threshold", "3", status=3, part="can never sign")
    clones.refused("alice", "policy", "apply", status=3, part="in force already")
    clones.refused("alice", "skip", "99", status=3, part="git gittuf log")
    clones.git("init", "--quiet", "--object-format=sha256", "new", who="")
    # What is recorded before a policy is no lawful beginning.
    for word in ("verify", "report"):
        clones.refused("new", word, status=3, part="git fetch bring one, and git gittuf policy init and git gittuf policy apply begin one")
    want(clones.advised("new", "there is no log here"), "git gittuf setup && git fetch, or git gittuf policy init <your name> begins one", "of no log")
    clones.git("init", "--quiet", "--object-format=sha1", "old", who="")
    clones.refused("old", "verify", status=4, part="and nothing in it: git init -b main --object-format=sha256 ../new begins one")
    clones.git("commit", "--quiet", "--allow-empty", "--message", "something", who="old")
    clones.refused("old", "verify", status=4, part="git fast-export")
    source = f"file://{clones.path('alice')}"
    clones.git("clone", "--quiet", "--depth=1", source, "shallow", who="")
    clones.refused("shallow", "verify", status=4, part="git fetch --unshallow")
    clones.git("config", "uploadpack.allowFilter", "true", who="alice")
    clones.git("clone", "--quiet", "--filter=blob:none", "--no-checkout", source, "partial", who="")
    clones.refused("partial", "verify", status=4, part="clone it without --filter")
    too_old = clones.path("too-old")
    os.mkdir(too_old)
    with open(os.path.join(too_old, "git"), "w", encoding="utf-8") as file:
        file.write("#!/bin/sh\ncase $1 in version) echo git version 2.20.1 ;; *) echo .git ;; esac\n")
    os.chmod(file.name, 0o755)
    words = ("env", f"PATH={too_old}:{os.environ['PATH']}", "git-gittuf", "verify")
    status, _, errors = run(*words, folder=clones.path("alice"))
    want((status, b"git is too old" in errors), (4, True), "the status with an old git, and whether it is told")


def tells_a_used_key(repositories):
    """a key whose signatures are used up is told by the program's own status and line, and nothing changes"""
    clones = another(repositories, "used up")
    clones.gittuf("bob", "key", "--file", clones.path("used.key"), *SMALL)
    with open(clones.path("used.key"), "r+b") as file:
        file.seek(64)
        file.write(b"\1" * SIGNATURES)
    # Each call first goes on to where the server's log is.
    clones.gittuf("bob", "log")
    before = clones.git("for-each-ref", who="bob")
    found = clones.asked("bob", "record", "--anyway", "main")
    want(found, (6, b"", b"exhausted\n"), "the status, output and errors of record")
    want(clones.git("for-each-ref", who="bob"), before, "the references afterwards")
    clones.verdict("bob", f"accepted {MAIN} 1 entries")


def approves_for_two(repositories):
    """where both are wanted, a change is accepted with the other's approval, and the policy's change with both signatures"""
    clones = another(repositories, "both")
    clones.gittuf("alice", "policy", "rule", "main", "--threshold", "2")
    clones.sign("alice")
    clones.gittuf("alice", "policy", "apply")
    clones.commit("alice")
    clones.git("push", "--quiet", "origin", "main:topic", "refs/gittuf/*:refs/gittuf/*", who="alice")
    clones.git("fetch", "--quiet", who="bob")
    tree = clones.tip("bob", "origin/topic^{tree}")
    printed = clones.gittuf("bob", "approve", "main", "origin/topic").decode()
    want(printed.splitlines()[0], f"approval {clones.tip('bob')} {tree}", "the approval's line")
    clones.git("push", "--quiet", who="bob")
    clones.git("fetch", "--quiet", who="alice")
    number = records(clones, "alice", "main")
    clones.verdict("alice", f"accepted {MAIN} 2 entries")
    clones.commit("alice")
    clones.git("push", "--quiet", who="alice")
    part = f"rule main wants 2 of alice, bob for it; missing is bob, who approves it by git gittuf approve main {clones.tip('alice')}"
    clones.refused("alice", "record", "main", status=3, part=part)
    clones.verdict("alice", f"tip-differs {MAIN} kept {clones.tip('alice')} recorded {clones.tip('alice', 'main~1')}")
    records(clones, "alice", "main", "--anyway")
    clones.verdict("alice", f"violation {MAIN} {number + 1} ref-rule main 1 of 2")
    want(clones.gittuf("alice", "explain", "README"), b"unprotected\n", "the rules of a path")
    clones.sound("alice", "bob")


def begins_as_the_readme_says(repositories):
    """the first lines of README.md can be copied, and print the verdicts that it says"""
    with open(os.path.join(TOP, "README.md"), encoding="utf-8") as file:
        blocks = file.read().partition("## Quick start\n")[2].split("```\n")
    lines = blocks[1].splitlines()
    want([it.split()[0] for it in lines[:2]], ["ln", "cd"], "how the lines begin")
    clones = another(repositories, "reader's")
    clones.git("clone", "--quiet", repositories.needed(), "project", who="")
    # The name of the folder has a sign that a shell reads, and no key goes into the caller's own home.
    home = shlex.quote(clones.path("home"))
    folder = clones.path("project")
    shell = f"set -e; export XDG_DATA_HOME={home} HOME={home}\n"
    status, told = at_terminal(shell + "\n".join(lines[2:]), folder)
    want(status, 0, f"the status of the lines, which print {told}")
    want(verdicts_of(told)[-1:], [f"accepted {MAIN} 1 entries"], "the verdict that they print last")
    status, told = at_terminal(shell + blocks[3].replace("git gittuf verify", "! git gittuf verify", 1), folder)
    want(status, 0, f"the status of the lines on a stranger's change, which print {told}")
    verdicts = [it.partition("# ")[2].strip() for it in blocks[3].splitlines() if " verify " in it]
    want(len(verdicts), 2, "the number of verdicts in these lines")
    want(verdicts_of(told), verdicts, "the verdicts that they print")


def verdicts_of(told):
    # What is written over while a verdict takes long stands before it.
    told = re.sub(r"\r\x1b\[K[^\r\n]*(?=\r\x1b\[K)|\r\x1b\[K", "", told)
    return [it for it in told.splitlines() if it.startswith(("accepted ", "violation ", "tip-differs "))]


CHECKS = (
    begins_as_the_readme_says,
    goes_from_setup_to_verdict,
    finds_a_forced_push,
    judges_what_no_branch_reaches,
    judges_what_git_has,
    goes_on_in_a_worktree,
    follows_and_gives_up,
    approves_for_two,
    tells_a_used_key,
    names_what_is_missing,
)
