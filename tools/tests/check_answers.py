"""The checks of tools/test that the program is asked for nothing twice, and that nothing but its own answers is given."""

import os
import shutil
import sys
import types

from checking import PROGRAM, TOP, run, want
from git_gittuf import epochs, longer_logs
from git_gittuf.repository import LOG
from guarded_clones import MAIN, another


def counting(clones, name):
    """A folder with git-gittuf whose launcher notes what it is asked, and the path of these notes."""
    place = clones.path(name)
    os.mkdir(place)
    shutil.copytree(os.path.join(TOP, "tools", "bridge"), os.path.join(place, "tools", "bridge"))
    shutil.copy(os.path.join(TOP, "tools", "git-gittuf"), os.path.join(place, "tools"))
    asked = os.path.join(place, "asked")
    with open(os.path.join(place, "gittuf"), "w", encoding="utf-8") as file:
        file.write(f"#!/bin/sh\necho \"$3\" >> '{asked}'\nexec '{TOP}/gittuf' \"$@\"\n")
    os.chmod(file.name, 0o755)
    return os.path.join(place, "tools", "git-gittuf"), asked


def times_asked(path):
    if not os.path.exists(path):
        return 0
    with open(path, encoding="utf-8") as file:
        count = len(file.readlines())
    os.remove(path)
    return count


def asks_nothing_twice(repositories):
    """a second verify with nothing new asks the program nothing, also of remotes' branches; what changed below lets it be asked again"""
    clones = another(repositories, "asked twice")
    clones.git("push", "--quiet", "origin", "main:topic", who="alice")
    clones.git("fetch", "--quiet", who="bob")
    tool, asked = counting(clones, "counting")
    words = (sys.executable, tool, "verify")
    every = [(*words, *them) for them in ((), ("origin/main",), ("topic",), ("-v",), ("--root", clones.gittuf("alice", "key", "--id").decode().strip()))]
    first = [run(*it, folder=clones.path("bob")) for it in every]
    want(times_asked(asked) > 0, True, "whether the program is asked at first")
    second = [run(*it, folder=clones.path("bob")) for it in every]
    want(second, first, "what is answered then")
    want(times_asked(asked), 1, "how often the program is asked then, once for who is in force in -v")
    objects = os.path.join(clones.path("bob"), ".git", "gittuf", "kept", "objects")
    changes = {
        "a branch": lambda: clones.git("branch", "new", who="bob"),
        "an object of the store": lambda: os.utime(os.path.join(objects, clones.tip("bob", f"{MAIN}^{{tree}}"))),
        "the program": lambda: os.utime(os.path.join(os.path.dirname(os.path.dirname(tool)), "gittuf")),
        "a fetch": lambda: (clones.gittuf("alice", "note", "1"), clones.git("push", "--quiet", who="alice"), clones.git("fetch", "--quiet", who="bob")),
    }
    for what, change in changes.items():
        change()
        run(*words, folder=clones.path("bob"))
        want(times_asked(asked) > 0, True, f"whether the program is asked after {what} changed")
        run(*words, folder=clones.path("bob"))
        want(times_asked(asked), 0, f"how often it is asked once more after {what}")


def believes_no_damage(repositories):
    """what is kept of answers is none where a byte of it is another, it is cut, or it is of another clone: the verdict is the program's"""
    clones = another(repositories, "damaged answers")
    path = os.path.join(clones.path("bob"), ".git", "gittuf", "answers")
    moved = clones.commit("bob")
    line = f"tip-differs {MAIN} kept {moved} recorded {clones.tip('bob', 'main~1')}\n".encode()
    judged = lambda: clones.asked("bob", "verify", "main")
    want(judged()[:2], (1, line), "the verdict at first")
    with open(path, "rb") as file:
        whole = file.read()
    at = whole.index(b"tip-differs")
    told = whole[:at] + b"accepted refs/heads/main 9 entries\\n" + whole[whole.index(b'"', at) :]
    texts = [told, b"", b"\n", whole[1:], whole + b" ", b"[]", told.replace(told[:64], b"0" * 64)]
    texts += [whole[:it] + bytes([whole[it] ^ 1]) + whole[it + 1 :] for it in range(0, len(whole), max(1, len(whole) // 12))]
    texts += [whole[:it] for it in range(0, len(whole), max(1, len(whole) // 6))]
    for it in texts:
        with open(path, "wb") as file:
            file.write(it)
        want(judged()[:2], (1, line), f"the verdict beside {it[:100]!r}")
    # Another clone's answers are of other files on the disk.
    clones.git("reset", "--quiet", "--hard", "main~1", who="bob")
    clones.gittuf("bob", "verify", "main")
    shutil.copytree(clones.path("bob"), clones.path("copy"))
    objects = os.path.join(clones.path("copy"), ".git", "gittuf", "kept", "objects")
    os.remove(os.path.join(objects, clones.tip("copy", f"{MAIN}^{{tree}}")))
    _, output, errors = clones.asked("copy", "verify", "main")
    want((output, b"the store was damaged" in errors), (f"accepted {MAIN} 1 entries\n".encode(), True), "what a copy answers")


def keeps_what_it_rests_on(repositories):
    """an answer is kept for just the log, the reference and the store that it was given over: not while these change, nor for others"""
    clones = another(repositories, "answers by ids")
    tool, asked = counting(clones, "counted")
    judged = lambda *words: run(sys.executable, tool, "verify", *words, folder=clones.path("bob"))[:2]
    root, accepted = clones.gittuf("alice", "key", "--id").decode().strip(), (0, f"accepted {MAIN} 1 entries\n".encode())
    want((judged("main"), judged("main", "--root", root)), (accepted, accepted), "the verdicts at first")
    times_asked(asked)
    # What neither the log nor that branch has to do with asks nothing again.
    clones.git("branch", "topic", who="bob")
    want((judged("main"), judged("main", "--root", root), times_asked(asked)), (accepted, accepted, 0), "the verdicts beside a new branch")
    other = clones.gittuf("bob", "key", "--id").decode().strip()
    want((judged("main", "--root", other), times_asked(asked)), ((1, f"violation {MAIN} 2 no-policy\n".encode()), 1), "the verdict with another root")
    recorded, tip = clones.tip("bob"), clones.commit("bob")
    line = f"tip-differs {MAIN} kept {tip} recorded {recorded}\n".encode()
    want((judged("main"), times_asked(asked)), ((1, line), 1), "the verdict once the branch has moved")
    clones.git("update-ref", MAIN, recorded, who="bob")
    want((judged("main"), times_asked(asked)), (accepted, 0), "the verdict once it is back")
    clones.git("update-ref", MAIN, tip, who="bob")
    changes_meanwhile(clones, "bob", clones.tip("bob", f"{recorded}^{{tree}}"), recorded)
    want((judged("main"), times_asked(asked) > 0), ((1, line), True), "the verdict after one that was given while the store changed")


# A call that judges a branch at a commit while a file of the store is touched, by whoever keeps to no lock.
MEANWHILE = """
import os, sys
sys.dont_write_bytecode = True
sys.path.insert(1, sys.argv[1])
from git_gittuf import program
from git_gittuf.work import Work
work, ran = Work(True), program.run
work.bring()
def run(*words, **how):
    found = ran(*words, **how)
    os.utime(os.path.join(work.kept.objects, sys.argv[2]))
    return found
program.run = run
name = b"refs/heads/main"
print(work.read("verify-ref", name.decode(), at=(name, sys.argv[3].encode())), work.read("verify-ref", name.decode()))
work.end()
"""


def changes_meanwhile(clones, who, tree, commit):
    words = ("-c", MEANWHILE, os.path.join(TOP, "tools", "bridge"), tree, commit)
    status, output, errors = run(sys.executable, *words, folder=clones.path(who))
    want((status, output.count(b"accepted"), output.count(b"tip-differs")), (0, 1, 1), f"what is judged meanwhile: {output}{errors}")


def beside_git(clones, line):
    """The words before a call for which each git runs this line of a shell first."""
    place = clones.path("path")
    os.makedirs(place, exist_ok=True)
    with open(os.path.join(place, "git"), "w", encoding="utf-8") as file:
        file.write(f"#!/bin/sh\n{line}\nexec '{shutil.which('git')}' \"$@\"\n")
    os.chmod(file.name, 0o755)
    return "env", f"PATH={place}:{os.environ['PATH']}"


def judges_nothing_without_git(repositories):
    """where a git that stays open ends early, or says something else, nothing is judged or recorded, and one line says so"""
    clones = another(repositories, "git ends")
    clones.gittuf("alice", "verify", "main")
    log = clones.tip("alice", "refs/gittuf/reference-state-log")
    clones.commit("alice")
    tool, clone = os.path.join(TOP, "tools", "git-gittuf"), clones.path("alice")
    says = {"exit 3": (4,), "kill -9 $$": (4,), "echo; exit": (3, 4), "printf %064d 0; exit": (4,), "echo fatal: no >&2; exit 128": (4,)}
    for line, status in says.items():
        words = (*beside_git(clones, f'case "$*" in *--batch*) {line};; esac'), sys.executable, tool)
        for word in (("record", "main"), ("verify", "main", "--entry", log)):
            found, output, errors = run(*words, *word, folder=clone)
            # That main was moved is told by the ids alone.
            is_so = found in (status if word[0] == "record" else (*status, 1))
            seen = (is_so, b"accepted" in output, b"Traceback" in errors)
            want(seen, (True, False, False), f"what {word} does where git does {line}, with {found} and {errors}")
        want(clones.tip("alice", "refs/gittuf/reference-state-log"), log, "the log then")
    clones.gittuf("alice", "record", "main")
    clones.verdict("alice", f"accepted {MAIN} 2 entries")


def records_what_moves_meanwhile(repositories):
    """a branch that another moves while it is looked at is recorded where it is by then, with what it has there"""
    clones = another(repositories, "moves meanwhile")
    clones.gittuf("alice", "verify", "main")
    first, second = clones.commit("alice"), clones.commit("alice")
    clones.git("update-ref", MAIN, first, who="alice")
    listed, used = clones.path("listed"), clones.used("alice")
    line = f"""case "$*" in *for-each-ref*) if [ -e '{listed}' ]; then '{shutil.which("git")}' -C . update-ref {MAIN} {second} 2>&-; fi; : > '{listed}';; esac"""
    words = (*beside_git(clones, line), sys.executable, os.path.join(TOP, "tools", "git-gittuf"), "record", "main")
    want(run(*words, folder=clones.path("alice"))[::2], (0, b""), "the status and the errors of record")
    want((clones.tip("alice"), clones.used("alice")), (second, used + 1), "where main is, and how many leaves are used")
    clones.verdict("alice", f"accepted {MAIN} 2 entries")


def begins_few(repositories):
    """a record beside its key begins few programs: so many gits, and the program once for each that it asks"""
    clones = another(repositories, "few programs")
    tool, asked = counting(clones, "counted few")
    clones.gittuf("alice", "verify", "main")
    clones.commit("alice")
    begun = clones.path("begun")
    words = (*beside_git(clones, f"echo \"$*\" >> '{begun}'"), sys.executable, tool, "record", "main")
    want(run(*words, folder=clones.path("alice"))[::2], (0, b""), "the status and errors of record")
    gits, programs = times_asked(begun), times_asked(asked)
    want((gits <= 22, programs <= 6), (True, True), f"whether {gits} gits and {programs} programs are few")
    return f"{gits} gits, {programs} programs"


def lists_what_was_recorded(repositories):
    """after a record or an approval the log is listed as the program lists it, which is not asked for that again"""
    clones = another(repositories, "recorded and listed")
    tool, asked = counting(clones, "counted listings")
    called = lambda *words: run(sys.executable, tool, *words, folder=clones.path("alice"))
    store = os.path.join(clones.path("alice"), ".git", "gittuf", "kept", "")
    called("verify", "main")
    for words in (("record", "main"), ("record", "main"), ("approve", "main", "main", "--anyway"), ("record", "main")):
        clones.commit("alice")
        want(called(*words)[0], 0, f"the status of {words}")
        times_asked(asked)
        found = called("log")[:2], times_asked(asked)
        want(found, (run(PROGRAM, store, "-", "log")[:2], 0), f"what is listed after {words}, and how often the program is asked")


def kept_of(before, told, entry, name):
    """What is kept of a log of which this was printed, where the store has this entry last and the program told this of it."""
    kept = []
    store = types.SimpleNamespace(references=lambda: {LOG: entry[0]}, read=lambda _: (b"commit", entry[1]))
    answers = types.SimpleNamespace(put=lambda place, answer: kept.append((place, answer)))
    work = types.SimpleNamespace(kept=store, answers=answers, place=lambda words, at, objects: words)
    longer_logs.keep(work, before, told, name)
    return kept


def lists_nothing_odd(repositories):
    """what is kept of a longer log is the entry that was told, behind the one before, and nothing where anything of it is otherwise"""
    name, target, first = MAIN.encode(), b"1" * 64, epochs.entry(1, None, b"2" * 64, b"refs/heads/other")[0]
    before = b"entry 1 %s ref refs/heads/other %s\n" % (first, b"2" * 64)
    entry = epochs.entry(2, first, target, name)
    told, line = b"entry 2 %s\n" % entry[0], b"entry 2 %s ref %s %s\n" % (entry[0], name, target)
    want(kept_of(before, told, entry, name), [(("log",), (0, before + line))], "what is kept")
    want(kept_of(b"", told, entry, name), [], "what is kept where no log was printed")
    for it in (b"", told[:-1], told + told, told.replace(b" 2 ", b" 3 "), b"entry 2 %s\n" % first):
        want(kept_of(before, it, entry, name), [], f"what is kept where {it} is told")
    others = [epochs.entry(3, first, target, name), epochs.entry(2, b"3" * 64, target, name), epochs.entry(2, None, target, name)]
    others += [epochs.entry(2, first, target, b"refs/heads/other"), epochs.entry(2, first, target)]
    for it in others:
        want(kept_of(before, b"entry 2 %s\n" % it[0], it, name), [], f"what is kept where the last entry is {it[1]}")
    want(kept_of(before, b"entry 2 %s\n" % others[-1][0], others[-1], b"refs/gittuf/policy"), [], "what is kept of a policy's entry")


CHECKS = (
    asks_nothing_twice,
    lists_what_was_recorded,
    lists_nothing_odd,
    begins_few,
    judges_nothing_without_git,
    records_what_moves_meanwhile,
    believes_no_damage,
    keeps_what_it_rests_on,
)
