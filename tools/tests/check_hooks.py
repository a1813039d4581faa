"""The checks of tools/test on the hook of a clone, and on hooks of others that stand where one is installed."""

import os

from check_gate import EMPTY_TREE, LOG, there
from checking import run, want
from guarded_clones import MAIN, another


def keeps_hooks_of_others(repositories):
    """a hook that stood there is called first with what Git gives, may refuse, and is there again once the own one is taken away"""
    clones = another(repositories, "hooks of others")
    # Git gives a hook that does not name what reads it to the shell.
    for who, name, words, first in (("server.git", "pre-receive", ("--server",), "#!/bin/sh\n"), ("alice", "pre-push", (), "")):
        place = clones.path(os.path.join(who, "hooks" if who == "server.git" else ".git/hooks"))
        os.makedirs(place, exist_ok=True)
        path = os.path.join(place, name)
        with open(path, "w", encoding="utf-8") as file:
            file.write(f"{first}cat > '{clones.path(name)}'\ntest ! -e '{clones.path('closed')}'\n")
        os.chmod(path, 0o755)
        for _ in range(2):
            found = clones.gittuf(who, "hook", "install", *words).decode()
            want(f"calls {name}.before-gittuf first" in found, True, f"what install prints: {found}")
    clones.commit("alice")
    clones.gittuf("alice", "record", "main")
    open(clones.path("closed"), "wb").close()
    want(run("git", "-C", clones.path("alice"), "push", "--quiet")[0] != 0, True, "whether the hook of others refuses")
    os.remove(clones.path("closed"))
    clones.git("push", "--quiet", who="alice")
    for name in ("pre-receive", "pre-push"):
        with open(clones.path(name), encoding="utf-8") as file:
            want(MAIN in file.read(), True, f"whether {name} of others was given the references")
    for who, name in (("server.git", "pre-receive"), ("alice", "pre-push")):
        place = clones.path(os.path.join(who, "hooks" if who == "server.git" else ".git/hooks"))
        path = os.path.realpath(os.path.join(place, name))
        said = f"{path} of git gittuf is taken away\n{path} is that of others again\n"
        want(clones.gittuf(who, "hook", "--remove").decode(), said, "what is said once they are taken away")
        want(os.listdir(place), [name], "what stands there once it is taken away")
        clones.refused(who, "hook", "--remove", status=3, part="no hook of git gittuf is in")
    want(clones.gittuf("server.git", "doctor"), b"all is well\n", "whether a server is told to have a remote or a key")
    clones.refused("server.git", "hook", "install", status=2, part="git gittuf hook install --server guards what it takes")
    clones.git("config", "core.hooksPath", clones.folder, who="alice")
    clones.refused("alice", "hook", "install", status=3, part="which other repositories may share: git config core.hooksPath")


def refused_here(clones, who, *words, part):
    """Holds a push to one that does not leave a clone."""
    before = there(clones)
    status, _, errors = run("git", "-C", clones.path(who), "push", *words)
    want((status != 0, there(clones) == before, part in errors.decode()), (True, True, True), f"what a push of {words} is told: {errors.decode()}")
    want(b"remote:" in errors, False, "whether the server was asked")


def stops_before_it_leaves(repositories):
    """the hook of a clone refuses a branch without its entry, an entry without its branch, and a violation, before they leave"""
    clones = another(repositories, "before it leaves")
    for who in ("alice", "bob"):
        clones.gittuf(who, "hook", "install")
    clones.commit("alice")
    way = "git gittuf record main records that, and git gittuf push main takes it with the log that records it"
    refused_here(clones, "alice", "--quiet", part=f"{way}; who may not change main shows it by git push origin HEAD:refs/heads/idea, say")
    clones.gittuf("alice", "record", "main")
    refused_here(clones, "alice", "origin", "main", part="main would stand at")
    clones.git("branch", "topic", who="alice")
    clones.gittuf("alice", "record", "topic")
    refused_here(clones, "alice", "--quiet", part="entry 4 says that topic stands at")
    clones.git("push", "--quiet", "origin", "main", "topic", "refs/gittuf/*:refs/gittuf/*", who="alice")
    clones.clone("mallory")
    clones.gittuf("mallory", "hook", "install")
    clones.commit("mallory")
    clones.gittuf("mallory", "record", "main", "--anyway")
    refused_here(clones, "mallory", "--quiet", part=f"violation {MAIN} 5 ref-rule main 0 of 1")
    clones.refused_after("mallory", "push", status=3, part="origin gets nothing of it, for what is said above")
    clones.git("-c", "gittuf.anyway=true", "push", "--quiet", who="mallory")
    clones.gittuf("mallory", "push", "--anyway")
    # Free branches go as before, and what is at no remote of a log too.
    clones.git("push", "--quiet", "origin", "main:idea", who="bob")
    clones.git("init", "--quiet", "--bare", "--object-format=sha256", "plain.git", who="")
    clones.git("push", "--quiet", clones.path("plain.git"), "main", who="bob")
    # A log that is broken here goes nowhere.
    clones.git("fetch", "--quiet", who="bob")
    clones.gittuf("bob", "log")
    whole = clones.tip("bob", LOG)
    odd = clones.git("commit-tree", "-p", whole, "-m", "none", EMPTY_TREE, who="bob").decode().strip()
    clones.git("update-ref", LOG, odd, who="bob")
    refused_here(clones, "bob", "--quiet", part=f"log-broken {odd}")
    clones.git("update-ref", LOG, whole, who="bob")
    # Where the other was faster it is not told as unlawful.
    clones.git("branch", "late", who="bob")
    clones.gittuf("bob", "record", "late")
    clones.git("branch", "sooner", who="alice")
    clones.git("fetch", "--quiet", who="alice")
    clones.gittuf("alice", "record", "sooner")
    clones.gittuf("alice", "push", "sooner")
    clones.gittuf("bob", "push", "late")


def tells_why_others_refuse(repositories):
    """push shows what a hook of others says, on the server and here, where that refuses it"""
    clones = another(repositories, "refused by others")
    clones.gittuf("alice", "note", "1")
    log, why = clones.tip("server.git", LOG), "no pushes on Fridays: ask ops"
    for who, name, part in (("server.git", "hooks/pre-receive", "origin gets nothing of it"), ("alice", ".git/hooks/pre-push", "git does not push to")):
        path = clones.path(os.path.join(who, name))
        os.makedirs(os.path.dirname(path), exist_ok=True)
        with open(path, "w", encoding="utf-8") as file:
            file.write(f"#!/bin/sh\necho '{why}' >&2\nexit 1\n")
        os.chmod(path, 0o755)
        said = clones.refused_after("alice", "push", status=3 if who == "server.git" else 4, part=part)
        want((said.count(why), "doctor" in said), (1, False), f"what push says where {name} refuses: {said}")
        want(clones.tip("server.git", LOG), log, "where the log of the server stands")
        os.remove(path)


def tells_who_lets_it_write(repositories):
    """a hook that may not write on the server says who mends that, and not to whoever pushes that the repository is to be cloned"""
    clones = another(repositories, "not to be written")
    clones.gittuf("server.git", "setup")
    clones.gittuf("server.git", "hook", "install", "--server")
    place = os.path.join(clones.path("server.git"), "gittuf")
    os.rename(place, clones.path("kept elsewhere"))
    # Nobody makes a file there, and nor does root.
    os.symlink("/sys", place)
    status, _, errors = run("git", "-C", clones.path("alice"), "push", "--quiet", "origin", "main:idea")
    part = b"cannot be written: who keeps the server lets the user as whom Git runs there write it"
    want((status != 0, part in errors), (True, True), f"what a push is told: {errors}")
    clones.refused("server.git", "verify", status=4, part="cannot be written: git clone it, and verify it there")
    os.remove(place)
    os.rename(clones.path("kept elsewhere"), place)
    clones.git("push", "--quiet", "origin", "main:idea", who="alice")


CHECKS = (
    keeps_hooks_of_others,
    stops_before_it_leaves,
    tells_why_others_refuse,
    tells_who_lets_it_write,
)
