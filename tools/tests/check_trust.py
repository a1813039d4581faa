"""The checks of tools/test on whose the first policy is: as somebody said, or as it was seen first."""

import os

from checking import TOP, at_terminal, run, want
from guarded_clones import MAIN, SMALL, another

LOG, POLICY = "refs/gittuf/reference-state-log", "refs/gittuf/policy"
ACCEPTED = f"accepted {MAIN} 1 entries\n".encode()
REFUSED = f"violation {MAIN} 2 no-policy\n".encode()


def key_of(clones, who):
    return clones.gittuf(who, "key", "--id").decode().strip()


def keeps_what_was_said(repositories):
    """setup --root keeps whose the first policy must be, each verify holds it to that, and --pinned demands that somebody said it"""
    clones = another(repositories, "said")
    alice, bob = key_of(clones, "alice"), key_of(clones, "bob")
    clones.refused("alice", "verify", "--pinned", "main", status=3, part="git gittuf setup --root KEYID,..")
    clones.refused("alice", "setup", "--root", "", status=2, part="'' is no id of a key")
    want(clones.gittuf("alice", "verify", "--pinned", "--root", alice, "main"), ACCEPTED, "the verdict with a root")
    clones.gittuf("alice", "setup", "--root", alice)
    want(clones.gittuf("alice", "verify", "--pinned", "main"), ACCEPTED, "the verdict with what was said")
    clones.gittuf("bob", "setup", "--root", bob)
    want(clones.gittuf("bob", "verify", "main", status=1), REFUSED, "the verdict where another was said")
    clones.refused("bob", "policy", "show", status=3, part="has other root keys than gittuf.root says")
    for text in ("", "zz", f"{bob},"):
        clones.git("config", "gittuf.root", text, who="bob")
        clones.refused("bob", "verify", "main", status=2, part="no list of ids of keys")


def keeps_what_was_seen(repositories):
    """the first policy that a clone sees is told once and kept: another in its place is a violation, and a person is told what it is"""
    clones = another(repositories, "seen")
    clones.clone("newcomer", key=False)
    alice = key_of(clones, "alice")
    first, second = (clones.asked("newcomer", "verify", "main") for _ in range(2))
    told = (
        "the first policy seen here is that of alice, and each later one is to come from it: ask them for the ids of their keys,"
        f" and git gittuf setup --root {alice} pins it"
    )
    want((first[:2], told in first[2].decode()), ((0, ACCEPTED), True), f"the first verify: {first[2]}")
    want(second, (0, ACCEPTED, b""), "the second one")
    _, said = at_terminal("git gittuf verify main", clones.path("newcomer"))
    want("was only seen here, and said by nobody" in said, True, f"what a person is told: {said}")
    clones.gittuf("newcomer", "setup", "--root", alice)
    _, said = at_terminal("git gittuf verify main", clones.path("newcomer"))
    want("seen here" in said, False, f"what is told once it is said: {said}")
    clones.git("config", "--unset", "gittuf.root", who="newcomer")
    # A server with another log from its first entry on.
    clones.git("init", "--quiet", "-b", "main", "--object-format=sha256", "mallory", who="")
    clones.gittuf("mallory", "key", "--file", clones.path("mallory.key"), *SMALL)
    clones.git("fetch", "--quiet", "../server.git", f"{MAIN}:refs/heads/theirs", who="mallory")
    clones.git("reset", "--quiet", "--hard", "theirs", who="mallory")
    clones.gittuf("mallory", "policy", "init", "alice")
    clones.gittuf("mallory", "policy", "rule", "main", MAIN, "--persons", "alice")
    clones.sign("mallory")
    clones.gittuf("mallory", "policy", "apply")
    clones.gittuf("mallory", "record", "main")
    clones.git("push", "--quiet", "--force", "../server.git", f"{LOG}:{LOG}", f"{POLICY}:{POLICY}", who="mallory")
    clones.git("fetch", "--quiet", who="newcomer")
    clones.gittuf("newcomer", "doctor", "--take", "origin", "--anyway")
    want(clones.gittuf("newcomer", "verify", "main", status=1), REFUSED, "the verdict by another first policy")


def asks_nobody_for_ones_own(repositories):
    """who made the first policy alone is told that it is their own, and asked for no id; everybody else is"""
    clones = another(repositories, "one's own")
    told = {"alice": (True, False), "bob": (False, True)}
    for who, wanted in told.items():
        clones.git("config", "--unset", "gittuf.firstRoot", who=who)
        clones.gittuf(who, "policy", "show")
        clones.git("config", "--unset", "gittuf.firstRoot", who=who)
        _, said = at_terminal("git gittuf verify main && git gittuf verify main", clones.path(who))
        want(("is your own" in said, "said by nobody" in said), wanted, f"what {who} is told: {said}")


def judges_in_ci(repositories):
    """the lines of docs/IN-CI.md judge a plain clone that stands at a commit alone, and stop where nobody said whose the root is"""
    clones = another(repositories, "ci")
    with open(os.path.join(TOP, "docs", "IN-CI.md"), encoding="utf-8") as file:
        lines = file.read().partition("## The lines\n")[2].split("```\n")[1]
    clones.git("clone", "--quiet", "server.git", "job", who="")
    clones.git("switch", "--quiet", "--detach", who="job")
    clones.git("branch", "--quiet", "-D", "main", who="job")
    script = f"set -e\n{lines}"
    status, output, errors = run("bash", "-c", f"GITTUF_ROOT={key_of(clones, 'alice')}\n{script}", folder=clones.path("job"))
    want((status, ACCEPTED in output), (0, True), f"what the lines do: {output}{errors}")
    clones.git("config", "--unset", "gittuf.root", who="job")
    want(run("bash", "-c", script, folder=clones.path("job"))[0], 2, "the status without a root")
    clones.commit("alice")
    clones.git("push", "--quiet", "origin", "main", who="alice")
    status, output, errors = run("bash", "-c", f"GITTUF_ROOT={key_of(clones, 'alice')}\n{script}", folder=clones.path("job"))
    want((status, b"tip-differs refs/heads/main" in output), (1, True), f"what the lines do then: {output}{errors}")


CHECKS = (keeps_what_was_said, keeps_what_was_seen, asks_nobody_for_ones_own, judges_in_ci)
