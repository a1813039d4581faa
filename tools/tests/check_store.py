"""The checks of tools/test on what the store holds, and on what stays of what was recorded."""

import os

from checking import Failure, processor_seconds, run, want
from git_gittuf import epochs
from guarded_clones import MAIN, another
from packs import Pack

LOG, TARGETS = "refs/gittuf/reference-state-log", "refs/gittuf/targets/"
MANY = "refs/heads/many"
FILES, FOLDERS, CHANGES = 20_000, 200, 100
# What the store of these files may have, and what its making may take, in files, bytes and seconds of the processor.
MOST_FILES, MOST_BYTES, MOST_SECONDS = 1_000, 100_000_000, 5


def history_of(files, folders, changes):
    """The text for git fast-import of a branch that begins with so many files, of which each commit changes one."""
    lines = []
    for it in range(changes):
        rows = range(files) if it == 0 else [it * 7919 % files]
        lines.append(f"commit {MANY}\ncommitter Nobody <nobody@localhost> {1_600_000_000 + it} +0000\ndata 1\nx\n")
        lines += [f"M 100644 inline d{row % folders}/e{row % 7}-f{row}\ndata <<E\n{row} {it}\nE\n\n" for row in rows]
    return "".join(lines).encode()


def recorded_by_nobody(clones, who, targets):
    """Adds an entry for each of these commits of a branch to the log, without a signature, which no rule wants for it."""
    tip = clones.tip(who, LOG).encode()
    number = len(clones.git("rev-list", LOG, who=who).split())
    path = clones.path("entries.pack")
    with open(path, "w+b") as file:
        pack = Pack(file)
        for it in targets:
            number += 1
            tip, body = epochs.entry(number, tip, it.encode(), MANY.encode())
            pack.add(tip, b"commit", len(body), [body])
        pack.end()
        file.seek(0)
        clones.git("index-pack", "--stdin", who=who, input=file.read())
    clones.git("update-ref", LOG, tip.decode(), who=who)


def store_of(clones, who):
    """The number of files in a store, and their bytes."""
    top = clones.git("rev-parse", "--git-common-dir", who=who).decode().strip()
    place = os.path.join(clones.path(who), top, "gittuf", "kept")
    sizes = [os.path.getsize(os.path.join(at, it)) for at, _, files in os.walk(place) for it in files]
    return len(sizes), sum(sizes)


def with_many(repositories, name, files, folders, changes):
    """Clones of which alice's has a branch with so many recorded changes, which the server has too."""
    clones = another(repositories, name)
    clones.git("fast-import", "--quiet", who="alice", input=history_of(files, folders, changes))
    recorded_by_nobody(clones, "alice", clones.git("rev-list", "--reverse", MANY, who="alice").decode().split())
    clones.gittuf("alice", "verify", MANY)
    clones.git("push", "--quiet", "origin", MANY, "refs/gittuf/*:refs/gittuf/*", who="alice")
    return clones


def holds_what_judging_reads(repositories):
    """of 20,000 files with 100 recorded changes the store has few files of few bytes, and is made in seconds"""
    clones = with_many(repositories, "few files", FILES, FOLDERS, CHANGES)
    clones.git("clone", "--quiet", "--no-checkout", "server.git", "newcomer", who="")
    clones.git("fetch", "--quiet", "origin", "+refs/gittuf/*:refs/gittuf-remotes/origin/*", who="newcomer")
    start = processor_seconds()
    clones.gittuf("newcomer", "setup")
    seconds = processor_seconds() - start
    want(clones.gittuf("newcomer", "verify", MANY), f"accepted {MANY} {CHANGES} entries\n".encode(), "the verdict of a new clone")
    files, size = store_of(clones, "newcomer")
    want(files <= MOST_FILES and size <= MOST_BYTES, True, f"whether {files} files of {size} bytes are few")
    if seconds > MOST_SECONDS:
        raise Failure(f"setup took {seconds:.1f} s, and {MOST_SECONDS} are allowed")
    return f"{files} files, {size / 1_000_000:.1f} MB, setup in {seconds:.1f} s of the processor"


def makes_an_older_store_small(repositories):
    """a store that an earlier version filled with all history is made again with what judging reads, at the next call"""
    clones = another(repositories, "older store")
    clones.gittuf("bob", "verify")
    place = os.path.join(clones.path("bob"), ".git", "gittuf")
    files = store_of(clones, "bob")
    for it in range(100):
        with open(os.path.join(place, "kept", "objects", f"{it:064x}"), "wb") as file:
            file.write(b"tree 0\0")
    os.remove(os.path.join(place, "small"))
    clones.gittuf("bob", "verify")
    want(store_of(clones, "bob"), files, "the files of the store then, and their bytes")


def forget(clones, *clone_names):
    """Lets Git lose all that no reference reaches."""
    for who in clone_names:
        clones.git("reflog", "expire", "--expire=now", "--all", who=who)
        clones.git("gc", "--quiet", "--prune=now", who=who)


def is_there(clones, who, object_id):
    return run("git", "-C", clones.path(who), "cat-file", "-e", object_id)[0] == 0


def keeps_what_a_branch_left(repositories):
    """a recorded branch that was moved without a record and collected is told alike in an old clone, a new one and the whole stream"""
    clones = another(repositories, "left behind")
    before = clones.tip("alice")
    clones.commit("alice")
    clones.gittuf("alice", "record", "main")
    recorded = clones.tip("alice")
    clones.gittuf("alice", "push")
    want(clones.tip("server.git", TARGETS + recorded), recorded, "where the server keeps what was recorded")
    clones.git("reset", "--quiet", "--hard", before, who="alice")
    moved = clones.commit("alice", "unrecorded")
    clones.git("push", "--quiet", "--force", "origin", "main", who="alice")
    forget(clones, "alice", "server.git")
    clones.git("fetch", "--quiet", who="bob")
    clones.git("reset", "--quiet", "--hard", "origin/main", who="bob")
    clones.clone("auditor", key=False)
    for who in ("alice", "bob", "auditor"):
        clones.verdict(who, f"tip-differs {MAIN} kept {moved} recorded {recorded}")
    clones.sound("alice", "bob", "auditor")
    # Each of them keeps it, whatever the server does.
    clones.git("update-ref", "-d", TARGETS + recorded, who="server.git")
    clones.git("fetch", "--quiet", "--prune", who="auditor")
    forget(clones, "auditor")
    clones.verdict("auditor", f"tip-differs {MAIN} kept {moved} recorded {recorded}")


def without_targets(clones, who):
    """Takes away what keeps recorded targets, as where an earlier version recorded them."""
    names = clones.git("for-each-ref", "--format=%(refname)", TARGETS, "refs/gittuf-remotes/*/targets/", who=who).decode().split()
    for it in names:
        clones.git("update-ref", "-d", it, who=who)


def gives_back_what_git_lost(repositories):
    """what Git lost of what was recorded comes back from the store where that leaves Git whole, and else every clone calls it broken"""
    clones = another(repositories, "given back")
    before = clones.tip("alice")
    # All files of the one are in Git anyway, and the other has one of its own.
    clones.git("commit", "--quiet", "--allow-empty", "--message", "no file of its own", who="alice")
    whole = clones.tip("alice")
    clones.gittuf("alice", "record", "main")
    clones.git("switch", "--quiet", "-c", "other", before, who="alice")
    clones.commit("alice", "of its own")
    partly = clones.tip("alice", "other")
    clones.gittuf("alice", "record", "other")
    clones.git("push", "--quiet", "origin", f"{LOG}:{LOG}", who="alice")
    clones.git("switch", "--quiet", "--detach", before, who="alice")
    for name in ("main", "other"):
        clones.git("branch", "--quiet", "--force", name, before, who="alice")
    without_targets(clones, "alice")
    forget(clones, "alice")
    want([is_there(clones, "alice", it) for it in (whole, partly)], [False, False], "what Git has of both")
    status, _, errors = clones.asked("alice", "verify", "main")
    want((status, f"{whole[:12]}, and has it again from the store" in errors.decode()), (1, True), f"what is told: {errors}")
    want((f"recorded, {partly[:12]}, and it is judged as missing" in errors.decode(), is_there(clones, "alice", partly)), (True, False), "of the other")
    clones.verdict("alice", f"tip-differs {MAIN} kept {before} recorded {whole}")
    number = len(clones.git("rev-list", LOG, who="alice").split())
    clones.git("push", "--quiet", "origin", "refs/gittuf/*:refs/gittuf/*", who="alice")
    clones.clone("auditor", key=False)
    for who in ("alice", "auditor"):
        clones.verdict(who, f"violation refs/heads/other {number} broken {partly}", name="refs/heads/other")
    clones.verdict("auditor", f"tip-differs {MAIN} kept {before} recorded {whole}")
    clones.sound("alice", "auditor")


def publishes_nothing_for_a_stranger(repositories):
    """a commit that was never pushed goes to no server because somebody wrote its id into an entry, nor comes back once Git lost it"""
    clones = another(repositories, "unpushed")
    clones.clone("mallory")
    clones.gittuf("mallory", "verify", "main")
    before = clones.tip("alice")
    clones.commit("alice", "secret")
    secret = clones.tip("alice")
    clones.git("branch", "own", who="alice")
    clones.git("reset", "--quiet", "--hard", before, who="alice")
    recorded_by_nobody(clones, "mallory", [secret])
    clones.git("push", "--quiet", "origin", f"{LOG}:{LOG}", who="mallory")
    clones.git("fetch", "--quiet", who="alice")
    for words in (("gittuf", "verify", "main"), ("push", "--quiet"), ("gittuf", "push")):
        clones.git(*words, who="alice")
    want(clones.tip("server.git", LOG), clones.tip("alice", LOG), "where the log of the server stands")
    clones.git("branch", "--quiet", "-D", "own", who="alice")
    forget(clones, "alice")
    clones.gittuf("alice", "verify", "main")
    clones.git("push", "--quiet", who="alice")
    want([is_there(clones, who, secret) for who in ("server.git", "alice")], [False, False], "who has that commit")


def tells_missing_from_damaged(repositories):
    """of an object that the store lost the store is made again, and one that Git lost too is told as missing; so with a log's entry"""
    clones = another(repositories, "missing")
    objects = os.path.join(clones.path("bob"), ".git", "gittuf", "kept", "objects")
    clones.gittuf("bob", "verify")
    accepted = f"accepted {MAIN} 1 entries\n".encode()
    for lost in (clones.tip("bob", LOG), clones.tip("bob", f"{LOG}~1"), clones.tip("bob", f"{MAIN}^{{tree}}")):
        for damage in (os.remove, lambda path: open(path, "wb").close()):
            damage(os.path.join(objects, lost))
            status, output, errors = clones.asked("bob", "verify", "main")
            want((status, output, b"the store was damaged, and is made again" in errors), (0, accepted, True), f"what is said of {lost}: {errors}")
    nowhere = f"{'ab' * 32}"
    recorded_by_nobody(clones, "bob", [nowhere])
    clones.git("branch", "many", who="bob")
    number = len(clones.git("rev-list", LOG, who="bob").split())
    status, output, errors = clones.asked("bob", "verify", "many")
    line = f"violation {MANY} {number} broken {nowhere}\n".encode()
    want((status, output, b"damaged" in errors), (1, line, False), f"what is said of what is nowhere: {errors}")


CHECKS = (
    holds_what_judging_reads,
    keeps_what_a_branch_left,
    gives_back_what_git_lost,
    publishes_nothing_for_a_stranger,
    tells_missing_from_damaged,
    makes_an_older_store_small,
)
