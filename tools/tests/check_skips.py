"""The checks of tools/test on skips that count for nothing, and on those that count by an older policy."""

from checking import want
from guarded_clones import MAIN, another


def strangers_skip(clones, *numbers):
    """Lets mallory, whom no rule asks, sign and push that entries are to be skipped."""
    clones.git("fetch", "--quiet", who="mallory")
    clones.gittuf("mallory", "skip", *numbers, "--anyway")
    clones.gittuf("mallory", "push", "--anyway")


def line_of(said):
    """The line to copy that recover prints."""
    return said.partition(" are wanted: ")[2].strip()


def recovers(clones, who):
    """Leads out of a violation by the lines that recover prints, and returns how many leaves that took."""
    used = clones.used(who)
    found = clones.refused_after(who, "recover", "main", status=1, part=f"the files of {clones.tip('server.git', f'{MAIN}~1')[:12]} are wanted: ")
    clones.copied(who, line_of(found))
    return clones.used(who) - used


def counts_no_skip_by_a_stranger(repositories):
    """a skip by somebody whom no rule asks counts for nothing: not where recover looks for the way, nor for who is behind the log"""
    clones = another(repositories, "skips of a stranger")
    clones.clone("mallory")
    clones.commit("mallory", "evil")
    clones.gittuf("mallory", "record", "main", "--anyway")
    strangers_skip(clones, "2", "3")
    clones.git("pull", "--quiet", who="alice")
    clones.verdict("alice", f"violation {MAIN} 3 ref-rule main 0 of 1")
    want(recovers(clones, "alice"), 2, "how many leaves the skip and the recovery take")
    clones.verdict("alice", f"accepted {MAIN} 3 entries")
    clones.gittuf("alice", "push")
    clones.git("pull", "--quiet", who="bob")
    clones.commit("alice", "mended")
    clones.gittuf("alice", "record", "main")
    clones.gittuf("alice", "push")
    strangers_skip(clones, "7")
    clones.git("fetch", "--quiet", who="bob")
    clones.refused("bob", "record", "main", status=3, part="main is behind the log")
    clones.verdict("alice", f"accepted {MAIN} 4 entries")
    # Of skips that count for nothing none stands in the account either.
    want(b"says skip" in clones.gittuf("bob", "verify", "--verbose", "refs/gittuf/policy"), False, "whether a skip is told of the policy")
    found = clones.gittuf("alice", "verify", "--verbose", "main").decode().splitlines()
    want([it.partition(", and entry ")[2] for it in found if " says skip" in it], ["5 says skip"], "which skips count")


def counts_skips_by_an_older_policy(repositories):
    """a skip counts by the policy that was in force when it was signed, whatever the rule asks later"""
    clones = another(repositories, "skips of before")
    clones.clone("mallory")
    clones.commit("mallory", "evil")
    clones.gittuf("mallory", "record", "main", "--anyway")
    clones.gittuf("mallory", "push", "--anyway")
    for who in ("alice", "bob"):
        clones.git("pull", "--quiet", who=who)
        clones.gittuf(who, "log")
    clones.gittuf("bob", "skip", "3")
    clones.gittuf("bob", "push")
    clones.git("fetch", "--quiet", who="alice")
    clones.gittuf("alice", "policy", "rule", "main", "--persons", "alice")
    clones.sign("alice")
    clones.gittuf("alice", "policy", "apply")
    clones.refused("bob", "skip", "3", status=3, part="entry 3 is skipped already")
    clones.git("push", "--quiet", "origin", "refs/gittuf/*:refs/gittuf/*", who="alice")
    clones.git("fetch", "--quiet", who="bob")
    want(recovers(clones, "alice"), 1, "how many leaves the recovery takes")
    clones.verdict("alice", f"accepted {MAIN} 3 entries")
    clones.gittuf("alice", "push")
    clones.git("fetch", "--quiet", who="mallory")
    clones.git("reset", "--quiet", "--hard", "origin/main", who="mallory")
    clones.commit("mallory", "again")
    clones.gittuf("mallory", "record", "main", "--anyway")
    clones.gittuf("mallory", "push", "--anyway")
    clones.git("fetch", "--quiet", who="bob")
    # Bob is one of the policy, and none of those whom the rule of main asks now.
    used = clones.used("bob")
    clones.refused("bob", "recover", "main", status=3, part="entry 7 is of main, which alice may change, and not you")
    want(clones.used("bob"), used, "how many leaves of bob's are used then")


CHECKS = (counts_no_skip_by_a_stranger, counts_skips_by_an_older_policy)
