"""The checks of tools/test on the bridge to Git, and on what all tools have in common."""

import ast
import importlib
import os
import shutil
import signal
import sys

from checking import BRIDGE, EMPTY_TREE, GIT_TO_STREAM, LAUNCHER, STREAM_TO_GIT, TOP, VERIFY, Failure, Skip, run, want, want_refusal, want_run


def tells_the_tip(repositories):
    """the program tells the true tip of a Git repository"""
    repositories.needed()
    tip = repositories.git("rev-parse", "refs/heads/main").decode().strip()
    line = f"tip-differs refs/heads/main kept {tip} recorded {'0' * 64}\n"
    want_run((LAUNCHER, *VERIFY), 1, line.encode(), input=repositories.stream_of())


def goes_both_ways(repositories):
    """a stream that became a Git repository comes back byte for byte"""
    repositories.needed()
    first = repositories.stream_of()
    for kind in (b"blob", b"tree", b"commit", b"tag"):
        if b" %s " % kind not in first:
            raise Failure(f"the stream has no {kind.decode()}")
    repositories.from_stream(first, "copy.git")
    second = repositories.stream_of("copy.git")
    want(second.count(EMPTY_TREE), 1, "the number of empty trees in the second stream")
    want(second.replace(EMPTY_TREE, b""), first, "the second stream without the empty tree")
    repositories.from_stream(second, "again.git")
    want(repositories.stream_of("again.git"), second, "the third stream")


def is_sound(repositories):
    """git fsck --strict passes on a repository made from a stream, and git log reads it"""
    repositories.needed()
    repositories.from_stream(repositories.stream_of(), "sound.git")
    repositories.git("fsck", "--strict", name="sound.git")
    log = ("log", "--format=%H %T %P %s")
    want(repositories.git(*log, name="sound.git"), repositories.git(*log), "the log of the copy")


def refuses_other_repositories(repositories):
    """git-to-stream refuses what is no SHA-256 repository"""
    repositories.needed()
    run("git", "init", "--quiet", repositories.path("sha1"))
    want_refusal((GIT_TO_STREAM, repositories.path("sha1")), b"git fast-export --all | git fast-import")
    os.mkdir(repositories.path("plain"))
    os.environ["GIT_CEILING_DIRECTORIES"] = repositories.folder
    try:
        want_refusal((GIT_TO_STREAM, repositories.path("plain")), b"not a repository")
    finally:
        del os.environ["GIT_CEILING_DIRECTORIES"]
    want_refusal((GIT_TO_STREAM, repositories.path("nowhere")), b"no such folder")


def refuses_clones(repositories):
    """git-to-stream refuses a shallow clone, a partial one, and a repository that lacks an object"""
    source = f"file://{repositories.needed()}"
    repositories.git("config", "uploadpack.allowFilter", "true")
    for name, words, part in (
        ("shallow.git", ("--depth=1",), b"a shallow clone"),
        ("partial.git", ("--filter=blob:none",), b"a partial clone"),
    ):
        repositories.git("clone", "--quiet", "--bare", *words, source, name, name="")
        want_refusal((GIT_TO_STREAM, repositories.path(name)), part)
    blob = repositories.git("rev-parse", "refs/heads/main:README").decode().strip()
    shutil.copytree(repositories.needed(), repositories.path("lacking"), symlinks=True)
    os.remove(os.path.join(repositories.path("lacking"), ".git", "objects", blob[:2], blob[2:]))
    status, output, errors = run(GIT_TO_STREAM, repositories.path("lacking"))
    want((status, output, b"lacks an object" in errors), (1, b"", True), "the status, the output and what is said")


def comes_from_sha1(repositories):
    """a repository in SHA-1 comes over by git fast-export, as git-to-stream --help and git gittuf say"""
    repositories.needed()
    repositories.git("init", "--quiet", "-b", "main", "--object-format=sha256", "from-sha1", name="")
    repositories.git("init", "--quiet", "-b", "main", "old", name="")
    repositories.git("commit", "--quiet", "--allow-empty", "--message", "of old", name="old")
    text = repositories.git("fast-export", "--all", "--signed-tags=strip", name="old")
    repositories.git("fast-import", "--quiet", name="from-sha1", input=text)
    want(repositories.stream_of("from-sha1").count(b" commit "), 1, "the number of commits that came over")
    # By the line of git gittuf the files of what is checked out come too.
    old = repositories.path("old")
    repositories.git("checkout", "--quiet", "-b", "it's-old", name="old")
    with open(os.path.join(old, "README"), "w", encoding="utf-8") as file:
        file.write("of old\n")
    repositories.git("add", "README", name="old")
    repositories.git("commit", "--quiet", "--message", "more of old", name="old")
    line = run(os.path.join(TOP, "tools", "git-gittuf"), "verify", folder=old)[2].decode().partition(" by: ")[2].strip()
    status, _, errors = run("bash", "-c", line, folder=old)
    want(status, 0, f"the status of {line}: {errors}")
    want(repositories.git("status", "--porcelain", "--branch", name="new"), b"## it's-old\n", "what is checked out then")


def tools_tell_their_use(repositories):
    """every tool answers --help on standard output with its usage"""
    for folder, _, names in sorted(os.walk(os.path.join(TOP, "tools"))):
        for name in sorted(names):
            tool = os.path.join(folder, name)
            if os.access(tool, os.X_OK):
                status, output, errors = run(tool, "--help")
                want((status, output[:7], errors), (0, b"usage: ", b""), f"what {name} --help answers")


def refuses_damage(repositories):
    """git-to-stream ends without its last line where an object is damaged"""
    repositories.needed()
    shutil.copytree(repositories.needed(), repositories.path("damaged"), symlinks=True)
    tip = repositories.git("rev-parse", "refs/heads/main").decode().strip()
    file = os.path.join(repositories.path("damaged"), ".git", "objects", tip[:2], tip[2:])
    os.remove(file)
    open(file, "wb").close()
    status, output, errors = run(GIT_TO_STREAM, repositories.path("damaged"))
    want((status, output.endswith(b"end\n")), (1, False), "the status, and whether the last line is there")
    want(errors.count(b"\n"), 1, "the number of lines on standard error")


def leaves_nothing(repositories):
    """stream-to-git leaves nothing where the stream is refused"""
    repositories.needed()
    stream, place = repositories.stream_of(), repositories.path("refused.git")
    before = sorted(os.listdir(repositories.folder))
    refusals = {
        b"cut after": [b"", stream[:-1], stream[: len(stream) // 2]],
        b"follows the line end": [stream + b"\n"],
        b"whose id is": [stream.replace(b"A project.", b"a project.")],
        b"refs/heads/main": [b"gittuf-stream 1\nref refs/heads/main %s\nend\n" % (b"1" * 64)],
    }
    for part, streams in refusals.items():
        for it in streams:
            want_refusal((STREAM_TO_GIT, place), part, input=it)
    want(sorted(os.listdir(repositories.folder)), before, "the folder afterwards")
    want_refusal((STREAM_TO_GIT, repositories.needed()), b"not empty", input=stream)


# What each word of git gittuf wants beside it at least.
NEEDED = {it: ["x"] for it in ("record", "approve", "recover", "explain", "mirror", "init", "person", "rotate", "rule")}
NEEDED |= {"skip": ["1"], "note": ["1"], "hook": ["install"], "fetch": ["--desk", "1"]}


def taken_of_modules(tree):
    """What a module takes of others of git gittuf, as a module and a name."""
    named = [it for it in ast.walk(tree) if isinstance(it, ast.ImportFrom) and (it.module or "").startswith("git_gittuf")]
    modules = {name.name for it in named if it.module == "git_gittuf" for name in it.names}
    for it in named:
        for name in it.names if it.module != "git_gittuf" else ():
            yield it.module.partition(".")[2], name.name
    for it in ast.walk(tree):
        if isinstance(it, ast.Attribute) and isinstance(it.value, ast.Name) and it.value.id in modules:
            yield it.value.id, it.attr


def loads_what_is_there(_):
    """each word of git gittuf is carried out by something that is there, and so is what its modules take of each other"""
    words = importlib.import_module("git_gittuf.words")
    asked = [[it, *NEEDED.get(it, [])] for it in words.WORDS if it != "policy"]
    asked += [["policy", it, *NEEDED.get(it, [])] for it in words.STEPS]
    want([it for it in asked if not callable(words.read(it).work)], [], "which words nothing carries out")
    place, count, lacking = os.path.join(BRIDGE, "git_gittuf"), 0, []
    for name in sorted(it for it in os.listdir(place) if it.endswith(".py")):
        with open(os.path.join(place, name), encoding="utf-8") as file:
            taken = {*taken_of_modules(ast.parse(file.read()))}
        count += len(taken)
        lacking += [f"{name}: {module}.{it}" for module, it in sorted(taken) if not hasattr(importlib.import_module(f"git_gittuf.{module}"), it)]
    want(lacking, [], "what modules take that is not there")
    return f"{len(asked)} words, {count} names"


def copied_tool(place):
    """A copy of git gittuf, of which modules may be changed."""
    shutil.copytree(BRIDGE, os.path.join(place, "bridge"), ignore=shutil.ignore_patterns("__pycache__"))
    return shutil.copy(os.path.join(TOP, "tools", "git-gittuf"), place)


def ends_where_nothing_is_begun(repositories):
    """who stops git gittuf while it is loaded is told of no fault of its own"""
    place = repositories.path("stopped tools")
    tool = copied_tool(place)
    with open(os.path.join(place, "bridge", "git_gittuf", "words.py"), "w", encoding="utf-8") as file:
        file.write("import os, signal\nos.kill(os.getpid(), signal.SIGINT)\n")
    want(run(tool, "log", folder=repositories.needed()), (-signal.SIGINT, b"", b""), "the status, the output and the errors")


def names_the_way_to_what_others_own(repositories):
    """where Git reads nothing of a folder that somebody else owns its line for that is told"""
    repositories.needed()
    if os.geteuid():
        raise Skip("only root gives a folder to somebody else")
    place = repositories.path("owned")
    run("git", "init", "--quiet", "--object-format=sha256", place)
    for it in (place, os.path.join(place, ".git")):
        os.chown(it, 65534, -1)
    status, output, errors = run(os.path.join(TOP, "tools", "git-gittuf"), "verify", folder=place)
    line = f"git config --global --add safe.directory {place}, if you trust whoever owns it"
    want((status, output, line in errors.decode()), (4, b"", True), f"what is said: {errors}")


def tells_its_own_faults(repositories):
    """where git gittuf itself is wrong it says so, and ends with 4, which is the status of no verdict"""
    place = repositories.path("wrong tools")
    tool = copied_tool(place)
    for module in ("listing", "words"):
        with open(os.path.join(place, "bridge", "git_gittuf", f"{module}.py"), "w", encoding="utf-8") as file:
            file.write("raise KeyError('none')\n")
        status, output, errors = run(tool, "log", folder=repositories.needed())
        want((status, output, errors.splitlines()[-1:]), (4, b"", [b"git-gittuf: this is a fault of git gittuf itself, and nothing was judged"]), module)


def runs_nothing_of_others(repositories):
    """what is kept compiled is read from a folder of one's own alone, in which nobody else can write"""
    tool, kept = os.path.join(TOP, "tools", "git-gittuf"), []
    changes = {"own": lambda _: None, "everybody's": lambda it: os.chmod(it, 0o777)}
    if not os.geteuid():
        changes["another's"] = lambda it: os.chown(it, 65534, -1)
    for name, change in changes.items():
        cache = repositories.path(f"cache of {name}")
        place = os.path.join(cache, "gittuf", "python")
        os.makedirs(place)
        change(place)
        words = ("env", "-u", "PYTHONPYCACHEPREFIX", "-u", "PYTHONDONTWRITEBYTECODE", f"XDG_CACHE_HOME={cache}", tool, "-h")
        want(run(*words)[::2], (0, b""), f"the status and errors beside {name} folder")
        kept += [name] if os.listdir(place) else []
    want(kept, ["own"], "in whose folders something is kept")


# What a repository says of words, few and many, one within another, and with a line's end in them.
LOOKS = """
import sys
sys.dont_write_bytecode = True
sys.path.insert(1, sys.argv[1])
from git_gittuf.repository import Repository
found = Repository()
tip = found.references()[b"refs/heads/main"]
words = [tip, b"0" * 64, b"main", b"none", tip + b":no such", b"x\\ny", tip + b"\\n" + tip, b"", tip + b"^{tree}", tip + b" main"]
one = found.rows(words)
print([it and it[1].decode() for it in one], found.rows(words * 9) == one * 9, found.rows([]), found.rows([tip[:12]])[0] == one[0])
within = [(kind, found.rows([tip]) == one[:1], next(found.bodies([tip]))[0] == tip) for _, kind, _ in found.bodies(words)]
print(within == [(it[1], True, True) for it in one if it], len(list(found.bodies(words * 9))) == 9 * len(within))
found.readers.close()
print(found.are_commits([tip]), found.are_commits([tip, tip + b"^{tree}"]), found.body(b"blob", tip))
"""


def looks_objects_up(repositories):
    """what git gittuf finds of objects is the same for few and for many, one look within another, and no word is taken for two"""
    status, output, errors = run(sys.executable, "-c", LOOKS, BRIDGE, folder=repositories.needed())
    kinds = ["commit", None, "commit", None, None, None, None, None, "tree", None]
    want((status, errors), (0, b""), "the status and errors")
    want(output.decode().splitlines(), [f"{kinds} True [] True", "True True", "True False None"], "what is found")


CHECKS = (
    loads_what_is_there,
    looks_objects_up,
    runs_nothing_of_others,
    ends_where_nothing_is_begun,
    names_the_way_to_what_others_own,
    tells_its_own_faults,
    tells_the_tip,
    goes_both_ways,
    is_sound,
    refuses_other_repositories,
    refuses_clones,
    comes_from_sha1,
    refuses_damage,
    leaves_nothing,
    tools_tell_their_use,
)
