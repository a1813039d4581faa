"""The checks of tools/test on git gittuf where it is stopped, kept waiting, or has much to do."""

import os
import signal
import subprocess
import sys
import time

from checking import BRIDGE, LAUNCHER, Failure, in_this_run, on_terminal, processor_seconds, run, want
from guarded_clones import LARGER, MAIN, SMALL, TOOL, another, guarded

# So many records are killed in the shorter run, and in the longer one.
STOPS, MORE = 10, 20
COMMITS, FILES, FOLDERS = 2_000, 20_000, 200
# What a second verify may take beyond the program's own time, in seconds.
MOST = 2


def stopped(clones, seconds, with_what_it_started):
    """Starts a record of main and kills it after so many seconds; returns whether it had ended before."""
    where = clones.path("alice")
    ran = subprocess.Popen((TOOL, "record", "main"), cwd=where, stdout=subprocess.PIPE, stderr=subprocess.PIPE, start_new_session=True)
    try:
        ran.wait(timeout=seconds)
    except subprocess.TimeoutExpired:
        if with_what_it_started:
            os.killpg(ran.pid, signal.SIGKILL)
        else:
            ran.kill()
    ended = ran.wait() == 0
    # What it started holds the lock until it has ended too.
    ran.communicate()
    return ended


def is_mended_after_stops(repositories):
    """a record that is killed at any of several moments is as if not begun or done once the next call ran"""
    stops = in_this_run(STOPS, MORE)
    # The longer run signs more often than the smallest key does.
    clones = another(repositories, "stopped") if stops == STOPS else guarded(repositories, "stopped", LARGER)
    count, start = 1, time.monotonic()
    clones.gittuf("alice", "record", "main")
    whole, count = time.monotonic() - start, count + 1
    ends = {"as before": 0, "done": 0}
    for it in range(stops):
        recorded, kept = clones.tip("alice"), clones.commit("alice")
        ended = stopped(clones, whole * (it + 0.5) / stops, it % 2)
        as_before = f"tip-differs {MAIN} kept {kept} recorded {recorded}\n".encode()
        done = b"accepted %s %d entries\n" % (MAIN.encode(), count + 1)
        status, output, errors = clones.asked("alice", "verify", "main")
        if (status, output, errors) not in ((1, as_before, b""), (0, done, b"")) or ended and status:
            raise Failure(f"after stop {it} verify ends with {status}, {output!r} and {errors!r}")
        ends["as before" if status else "done"] += 1
        if status:
            clones.gittuf("alice", "record", "main")
        count += 1
        clones.sound("alice")
    clones.verdict("alice", f"accepted {MAIN} {count} entries")
    want(ends["as before"] > 0, True, "whether a stop came before the end")
    return ", ".join(f"{number} {end}" for end, number in ends.items())


def makes_large(clones, who):
    """Gives a clone a branch of 2,000 commits with 20,000 files."""
    name = lambda it: f"d{it % FOLDERS}/f{it}"
    lines = []
    for commit in range(COMMITS):
        files = range(FILES) if commit == 0 else [commit * 7 % FILES]
        lines.append(f"commit {MAIN}\ncommitter Nobody <nobody@localhost> {1_600_000_000 + commit} +0000\ndata 1\nx\n")
        lines += [f"M 100644 inline {name(it)}\ndata <<E\n{it} {commit}\nE\n\n" for it in files]
    # Nothing is checked out: only the files' making and removing would take long.
    clones.git("init", "--quiet", "--bare", "-b", "main", "--object-format=sha256", who, who="")
    clones.git("fast-import", "--quiet", who=who, input="".join(lines).encode())


ONE_MORE = f"""commit {MAIN}
committer Nobody <nobody@localhost> 1700000000 +0000
data 1
y
from {MAIN}^0
M 100644 inline d7/f7
data 6
other

"""


def timed(*words, folder):
    """What a call takes of the processor, and what it answers."""
    start = processor_seconds()
    found = run(*words, folder=folder)
    return processor_seconds() - start, found


def is_quick_after_one_commit(repositories):
    """in 2,000 commits with 20,000 files a second verify takes little more than the program's own time"""
    clones = another(repositories, "large clones")
    makes_large(clones, "many")
    clones.gittuf("many", "key", "--file", clones.path("many.key"), *SMALL)
    clones.gittuf("many", "policy", "init", "alice")
    clones.gittuf("many", "policy", "rule", "main", MAIN, "--persons", "alice")
    clones.sign("many")
    clones.gittuf("many", "policy", "apply")
    clones.gittuf("many", "record", "main")
    want(clones.gittuf("many", "verify", "main"), f"accepted {MAIN} 1 entries\n".encode(), "the first verdict")
    clones.git("fast-import", "--quiet", who="many", input=ONE_MORE.encode())
    where = clones.path("many")
    all_of_it, found = timed(TOOL, "verify", "main", folder=where)
    store = os.path.join(where, "gittuf", "kept")
    alone, same = timed(LAUNCHER, f"{store}/", "-", "verify-ref", MAIN, folder=where)
    want(found, same, "what git gittuf and the program alone answer")
    want(found[0], 1, "the status")
    if all_of_it - alone > MOST:
        raise Failure(f"it takes {all_of_it - alone:.1f} s more than the program, and {MOST} are allowed")
    size = sum(os.path.getsize(os.path.join(at, it)) for at, _, files in os.walk(store) for it in files)
    return f"{all_of_it - alone:.2f} s more, and a store of {size >> 20} MiB"


def one_at_a_time(repositories):
    """while one git gittuf is at work another waits as long as gittuf.wait says, and names the process; readers work side by side"""
    clones = another(repositories, "waiting")
    clones.gittuf("bob", "verify", "main")
    clones.git("config", "gittuf.wait", "0", who="bob")
    line = f"accepted {MAIN} 1 entries\n".encode()
    script = (
        "import sys, time; sys.path.insert(0, sys.argv[1]); from git_gittuf.work import Work;"
        " Work(sys.argv[2] == 'r'); print(1, flush=True); time.sleep(60)"
    )
    for how in "wr":
        words = (sys.executable, "-B", "-c", script, BRIDGE, how)
        with subprocess.Popen(words, cwd=clones.path("bob"), stdout=subprocess.PIPE) as first:
            try:
                first.stdout.read(1)
                if how == "w":
                    clones.refused("bob", "verify", "main", status=4, part=f"process {first.pid} ")
                else:
                    want(clones.gittuf("bob", "verify", "main"), line, "the verdict beside another reader")
                    clones.refused("bob", "note", "1", status=4, part="another git gittuf works in this repository")
            finally:
                first.kill()
    clones.git("config", "--unset", "gittuf.wait", who="bob")
    words = (sys.executable, "-B", "-c", script.replace("60", "10"), BRIDGE, "w")
    with subprocess.Popen(words, cwd=clones.path("bob"), stdout=subprocess.PIPE) as first:
        first.stdout.read(1)
        status, output, errors = clones.asked("bob", "verify", "main")
    want((status, output, b"waiting for it, up to 30 s" in errors), (0, line, True), f"what a call says that waits: {errors}")
    clones.verdict("bob", f"accepted {MAIN} 1 entries")


MOVED = """
import sys
sys.path.insert(0, sys.argv[1])
from git_gittuf.repository import Stopped
from git_gittuf.work import Work
work = Work()
work.bring()
def steps():
    work.asked("record", "refs/heads/main", key=sys.argv[2])
    work.repository.asked("move the log", "update-ref", "refs/gittuf/reference-state-log", sys.argv[3])
try:
    work.change(steps)
except Stopped as why:
    print(why)
"""


def leaves_what_git_has(repositories):
    """where the log in Git moved while a command was at work, nothing is changed, and the next call goes on from there"""
    clones = another(repositories, "moved meanwhile")
    log = "refs/gittuf/reference-state-log"
    clones.gittuf("alice", "record", "main")
    before = clones.tip("alice", f"{log}~1")
    words = (sys.executable, "-B", "-c", MOVED, BRIDGE, clones.path("alice.key"), before)
    status, output, errors = run(*words, folder=clones.path("alice"))
    want((status, errors, b"was moved meanwhile" in output), (0, b"", True), "the status, the errors, and whether it is told")
    want(clones.tip("alice", log), before, "where the log stands")
    clones.verdict("alice", f"accepted {MAIN} 1 entries")
    clones.gittuf("alice", "record", "main")
    clones.verdict("alice", f"accepted {MAIN} 2 entries")


def mends_marks(repositories):
    """a store that was left half changed is mended by the next call, and so is one that was removed"""
    clones = another(repositories, "marked clones")
    place = os.path.join(clones.path("bob"), ".git", "gittuf")
    for journal in (None, '{"before": {}, "after": null}', '{"bef'):
        for mark in ("open.lock", "commit.lock"):
            open(os.path.join(place, "kept", mark), "wb").close()
            if journal:
                with open(os.path.join(place, "journal"), "w", encoding="utf-8") as file:
                    file.write(journal)
            clones.verdict("bob", f"accepted {MAIN} 1 entries")
            want(sorted(os.listdir(os.path.join(place, "kept"))), ["objects", "refs"], "what is in the store")
    os.rename(os.path.join(place, "kept"), os.path.join(place, "aside"))
    clones.verdict("bob", f"accepted {MAIN} 1 entries")


def speaks_to_a_person(repositories):
    """on a terminal a sentence follows a verdict on standard error, and a line says how far long work is"""
    clones = another(repositories, "a person's")
    _, output, told = on_terminal("git", "gittuf", "verify", "main", folder=clones.path("bob"))
    want(output, f"accepted {MAIN} 1 entries\n".encode(), "the output on a terminal")
    want(b"was lawful" in told, True, "whether the sentence is there")
    script = (
        "import sys; sys.path.insert(0, sys.argv[1])\n"
        "from git_gittuf import program\n"
        "it = program.Progress(patience=0)\n"
        "it.tell('5 objects copied, of 9')\n"
        "it.end()\n"
    )
    _, _, told = on_terminal(sys.executable, "-B", "-c", script, BRIDGE)
    want(told, b"\r\x1b[K5 objects copied, of 9\r\x1b[K", "what is told of long work")


CHECKS = (
    is_mended_after_stops,
    is_quick_after_one_commit,
    one_at_a_time,
    leaves_what_git_has,
    mends_marks,
    speaks_to_a_person,
)
