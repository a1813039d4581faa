"""The checks of tools/test on which branch or tag a word of git gittuf names, also where Git would name another."""

from checking import want
from guarded_clones import MAIN, another


def knows_what_a_word_names(repositories):
    """a word that names nothing is status 3 with names that are near, and a remote's branch and HEAD are what they are in Git"""
    clones = another(repositories, "words")
    for words in (("mian",), ("main", "mian"), ("refs/heads/mian",), ("origin/mian",), ("heads/mian",)):
        clones.refused("bob", "verify", *words, status=3, part="and near is ")
    clones.refused("bob", "verify", "xyzzy", status=3, part="there is no branch or tag xyzzy, here or in the log: git branch")
    accepted = f"accepted {MAIN} 1 entries\n".encode()
    for word in ("origin/main", "refs/remotes/origin/main", "remotes/origin/main", "HEAD", "origin/HEAD", "heads/main"):
        want(clones.gittuf("bob", "verify", word), accepted, f"the verdict on {word}")
    recorded = clones.tip("bob")
    clones.commit("alice")
    clones.git("push", "--quiet", "origin", "main", who="alice")
    clones.git("fetch", "--quiet", who="bob")
    differs = f"tip-differs {MAIN} kept {clones.tip('alice')} recorded {recorded}\n".encode()
    want(clones.gittuf("bob", "verify", "origin/main", status=1), differs, "the verdict before a merge")
    want(clones.gittuf("bob", "verify", "main"), accepted, "the verdict on what is here")
    # The store has a file where the other name wants a folder.
    clones.git("branch", "topic", who="bob")
    clones.git("push", "--quiet", "origin", "main:topic/part", who="alice")
    clones.git("fetch", "--quiet", who="bob")
    beside = f"tip-differs refs/heads/topic/part kept {clones.tip('alice')} recorded {'0' * 64}\n".encode()
    want(clones.gittuf("bob", "verify", "origin/topic/part", status=1), beside, "the verdict on a name below another")
    own = f"tip-differs refs/heads/topic kept {recorded} recorded {'0' * 64}\n".encode()
    want(clones.gittuf("bob", "verify", "topic", status=1), own, "the verdict on the other one")
    clones.git("switch", "--quiet", "--detach", who="bob")
    clones.refused("bob", "verify", "HEAD", status=3, part="HEAD names no branch")
    clones.git("branch", "--quiet", "-D", "main", who="bob")
    want(clones.gittuf("bob", "verify", "main", status=1), differs, "the verdict where only the remote has it")
    clones.git("tag", "main", who="bob")
    clones.gittuf("bob", "record", "refs/tags/main")
    both = differs + b"accepted refs/tags/main 1 entries\n"
    want(clones.gittuf("bob", "verify", "main", status=1), both, "the verdicts where a tag here has the name of that branch")
    clones.git("tag", "-d", "main", who="bob")
    clones.gittuf("bob", "record", "refs/tags/main")
    want(differs in clones.gittuf("bob", "verify", status=1), True, "whether all verdicts have that one")


def names_a_tag_that_is_gone(repositories):
    """the short word for a tag that is gone here names it to record, approve, recover and push, as to verify, and no branch"""
    clones = another(repositories, "gone tag")
    clones.git("tag", "v1", who="alice")
    clones.gittuf("alice", "record", "v1")
    clones.git("tag", "-d", "v1", who="alice")
    clones.refused("alice", "recover", "v1", status=3, part="nothing is to be recovered of v1: tip-differs refs/tags/v1 ")
    clones.refused("alice", "recover", "v1", status=3, part=": git gittuf verify v1 says what leads on")
    clones.refused("alice", "push", "v1", status=3, part="v1 stands where no entry of the log has it: git gittuf record v1 comes first")
    clones.refused("alice", "approve", "v1", status=3, part="there is no branch or tag v1 here: git fetch --tags may bring it")
    clones.gittuf("alice", "approve", "--delete", "v1", "--anyway")
    clones.gittuf("alice", "record", "v1")
    lines = clones.gittuf("alice", "log").decode().splitlines()
    want(lines[-1].split()[3:], ["ref", "refs/tags/v1", "0" * 64], "what is recorded of it")
    approved = clones.git("ls-tree", "-r", "--name-only", "refs/gittuf/attestations", who="alice").decode()
    want(("/refs/tags/v1/" in approved, "refs/heads/v1" in approved), (True, False), f"what is approved: {approved}")
    clones.refused("alice", "record", "v2", status=3, part="there is no branch or tag v2, here or in the log")


CHECKS = (knows_what_a_word_names, names_a_tag_that_is_gone)
