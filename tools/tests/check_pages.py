"""The checks of tools/test that pages beside the tutorial say what happens: keys that change, jobs, large files, first records."""

import os
import re
import shlex

from checking import GIT_TO_STREAM, LAUNCHER, TOP, at_terminal, run, want
from guarded_clones import MAIN, SMALL, another

LOG = "refs/gittuf/reference-state-log"
ACCEPTED = f"accepted {MAIN} 1 entries\n".encode()
LARGE = 17 << 20


def page(name):
    with open(os.path.join(TOP, "docs", name), encoding="utf-8") as file:
        return file.read()


def blocks_below(text, heading, kind=""):
    """The blocks of a kind below a heading of a page, up to the next heading."""
    part = re.split(r"^## ", text.partition(f"\n## {heading}\n")[2], flags=re.MULTILINE)[0]
    return re.findall(rf"^```{kind}\n(.*?)^```$", part, re.DOTALL | re.MULTILINE)


def copied(clones, who, lines, status=0, **environment):
    """Runs lines of a page in a clone as a script that ends at the first that fails, and returns what it printed and said."""
    given = [f"{name}={value}" for name, value in environment.items()]
    found, output, errors = run("env", *given, "bash", "-c", f"set -e\n{lines}", folder=clones.path(who))
    want(found, status, f"the status of {lines!r}: {output}{errors}")
    return output, errors


def changes_keys_as_the_page_says(repositories):
    """the lines of docs/KEYS.md give another key to a person, and to one who signs the policy, and what both recorded stays lawful"""
    clones = another(repositories, "keys of the page")
    others, own = blocks_below(page("KEYS.md"), "Another key in place of an older one")
    clones.commit("bob")
    clones.gittuf("bob", "record", "main")
    clones.gittuf("bob", "push")
    clones.git("pull", "--quiet", who="alice")
    clones.gittuf("bob", "key", "--file", clones.path("bob-new.key"), *SMALL)
    copied(clones, "alice", others)
    clones.git("fetch", "--quiet", who="bob")
    clones.commit("bob")
    clones.gittuf("bob", "record", "main")
    clones.git("config", "gittuf.key", clones.path("bob.key"), who="bob")
    clones.commit("bob")
    clones.refused("bob", "record", "main", status=3, part="your key is that of none of the policy's persons")
    clones.git("config", "gittuf.key", clones.path("bob-new.key"), who="bob")
    clones.gittuf("bob", "record", "main")
    clones.gittuf("bob", "push")
    clones.git("pull", "--quiet", who="alice")
    copied(clones, "alice", own.replace("git gittuf key --file ~/keys/new", "git gittuf key --file ~/keys/new --height 5 --width 1"), HOME=clones.folder)
    clones.commit("alice")
    clones.gittuf("alice", "record", "main")
    clones.verdict("alice", f"accepted {MAIN} 5 entries")
    clones.clone("auditor", key=False)
    root = run("git", "-C", clones.path("alice"), "-c", f"gittuf.key={clones.path('alice.key')}", "gittuf", "key", "--id")[1].decode().strip()
    clones.gittuf("alice", "push")
    clones.git("pull", "--quiet", who="auditor")
    clones.verdict("auditor", f"accepted {MAIN} 5 entries", "--root", root)


def lines_of_job(block):
    """The lines of a job from the clone on, without what is YAML."""
    lines = [it.strip().removeprefix("- ") for it in block.splitlines()]
    start = next(at for at, it in enumerate(lines) if it.startswith("git clone"))
    end = next((at for at in range(start, len(lines)) if not lines[at].startswith(("git ", "cd "))), len(lines))
    return "\n".join(lines[start:end])


def runs_the_jobs(repositories):
    """the jobs of docs/IN-CI.md, from the clone on, judge what a server has, and stop at what is unlawful and without a root"""
    clones = another(repositories, "jobs")
    text, alice = page("IN-CI.md"), clones.gittuf("alice", "key", "--id").decode().strip()
    jobs = [it for heading in ("Forgejo, Gitea", "GitLab") for it in blocks_below(text, heading, "yaml")]
    want(len(jobs), 2, "the number of jobs")
    lines = [lines_of_job(it) for it in jobs]
    want(lines[0], lines[1], "the lines of both jobs")
    given = {"GITTUF_URL": clones.path("server.git"), "GITTUF_ROOT": alice}
    made = lambda name: os.mkdir(clones.path(name)) or name
    output, _ = copied(clones, made("good"), lines[0], **given)
    want(ACCEPTED in output, True, f"what the job prints: {output}")
    (clone,) = blocks_below(text, "The clone")
    want(copied(clones, made("format"), clone, **given)[0], b"sha256\n", "the format that is told")
    copied(clones, made("no root"), lines[0], status=2, **{**given, "GITTUF_ROOT": ""})
    copied(clones, made("another root"), lines[0], status=1, **{**given, "GITTUF_ROOT": clones.gittuf("bob", "key", "--id").decode().strip()})
    clones.commit("alice")
    clones.git("push", "--quiet", "origin", "main", who="alice")
    output, _ = copied(clones, made("unrecorded"), lines[0], status=1, **given)
    want(b"tip-differs refs/heads/main" in output, True, f"what the job prints then: {output}")
    clones.git("update-ref", "-d", LOG, who="server.git")
    copied(clones, made("dropped"), lines[0], status=3, **given)
    copied(clones, "good/project", "git fetch --quiet origin\ngit gittuf verify --pinned", status=3)


def judges_large_files(repositories):
    """a file above 16 MiB is judged as any other, in a protected path too, and it has no stream, as docs/CONCEPTS.md says"""
    clones = another(repositories, "large file")
    clones.gittuf("alice", "policy", "rule", "large", "file:large/*", "--persons", "bob")
    clones.sign("alice")
    clones.gittuf("alice", "policy", "apply")
    clones.commit("alice", "large/file", "x" * LARGE)
    clones.refused("alice", "record", "main", status=3, part="rule large wants 1 of bob for a change of large/file")
    clones.gittuf("alice", "record", "main", "--anyway")
    line = f"violation {MAIN} 4 path-rule large/file large 0 of 1\n".encode()
    want(clones.gittuf("alice", "verify", "main", status=1), line, "the verdict")
    status, _, errors = run(GIT_TO_STREAM, clones.path("alice"))
    want((status, b"16777216" in errors), (1, True), f"what git-to-stream says: {errors}")
    way = re.search(r"`(\./gittuf clone/\.git/gittuf/kept/ - verify-ref refs/heads/main)", page("CONCEPTS.md"))
    # The path of the launcher may hold the name that stands for the clone.
    words = way[1].replace("clone/", "alice/").replace("./gittuf", shlex.quote(LAUNCHER))
    want(run("bash", "-c", words, folder=clones.folder), (1, line, b""), f"what {way[1]} answers")


def tells_of_first_records(repositories):
    """the first record of a branch or tag wants the signatures of each path rule, and explain and record say so, as docs/CONCEPTS.md has it"""
    clones = another(repositories, "first records")
    for name in ("page", "second", "third"):
        clones.commit("alice", f"docs/{name}")
    clones.gittuf("alice", "record", "main")
    clones.gittuf("alice", "policy", "rule", "docs", "file:docs/*", "--persons", "bob")
    clones.sign("alice")
    clones.gittuf("alice", "policy", "apply")
    clones.git("-c", "user.name=alice", "-c", "user.email=alice@localhost", "tag", "-a", "-m", "one", "v1", who="alice")
    clones.git("branch", "idea", who="alice")
    _, said = at_terminal("git gittuf explain refs/heads/idea", clones.path("alice"))
    want("but for the paths of docs, of which its first record counts each" in said, True, f"what explain says: {said}")
    # Where gittuf-inspect tells each path, the rule is told once.
    found, _, said = clones.asked("alice", "record", "v1")
    # A tag that a rule protects is nowhere else before it is recorded, and its commit is.
    more = f"(?: and of 2 other paths)?; missing is bob, who approves it by (git gittuf approve refs/tags/v1 {clones.tip('alice')})"
    told = re.findall(f"rule docs wants 1 of bob for a change of docs/page{more}", said.decode())
    want((found, len(told), said.count(b"rule docs")), (3, 1, 1), f"what record says: {said}")
    clones.git("push", "--quiet", "origin", "idea", "main", who="alice")
    clones.gittuf("alice", "push")
    clones.git("pull", "--quiet", who="bob")
    clones.copied("bob", told[0])
    clones.git("push", "--quiet", who="bob")
    clones.git("fetch", "--quiet", who="alice")
    clones.gittuf("alice", "record", "v1")
    # A branch that no rule protects and no entry speaks of is judged nowhere.
    found = [it.split()[1] for it in clones.gittuf("alice", "verify").decode().splitlines()]
    want((MAIN in found, "refs/tags/v1" in found, "refs/heads/idea" in found), (True, True, False), f"what is judged: {found}")


CHECKS = (
    changes_keys_as_the_page_says,
    runs_the_jobs,
    judges_large_files,
    tells_of_first_records,
)
