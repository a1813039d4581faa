"""The checks of tools/test on a push to a server whose hook judges that is killed or takes long to judge, and on a server that is."""

import contextlib
import os
import shlex
import signal
import subprocess
import sys
import time

from checking import at_terminal, in_this_run, run, want
from check_gate import LOG, denied, gated, there
from check_store import MANY, recorded_by_nobody
from guarded_clones import MAIN

# So many pushes are killed in the shorter run, and in the longer one.
STOPS, MORE = 4, 12
# So many entries take seconds to judge, also where a machine is quick.
ENTRIES = 24_000
# The server's side goes on where who pushes is killed, as on another machine: it is of no group of his, and each process of
# it has the pipe open.
OTHER_MACHINE = """#!/bin/sh
exec 8> "$0.pipe"
exec setsid git-receive-pack "$@"
"""


class OtherMachine:
    """The server's side of pushes, which goes on where who pushes is killed."""

    def __init__(self, clones, who):
        path = clones.path("receive-pack")
        with open(path, "w", encoding="utf-8") as file:
            file.write(OTHER_MACHINE)
        os.chmod(path, 0o755)
        os.mkfifo(f"{path}.pipe")
        self.pipe = os.open(f"{path}.pipe", os.O_RDONLY | os.O_NONBLOCK)
        clones.git("config", "remote.origin.receivepack", shlex.quote(path), who=who)

    def wait(self):
        """Waits until all of it has ended."""
        while True:
            # A pipe that somebody may still write to is not at its end.
            with contextlib.suppress(BlockingIOError):
                os.read(self.pipe, 1)
                return
            time.sleep(0.01)


def killed(words, seconds):
    """Kills a call, with all that it started here, after so many seconds."""
    ran = subprocess.Popen(words, stdout=subprocess.DEVNULL, stderr=subprocess.DEVNULL, start_new_session=True)
    with contextlib.suppress(subprocess.TimeoutExpired):
        ran.wait(timeout=seconds)
    with contextlib.suppress(ProcessLookupError):
        os.killpg(ran.pid, signal.SIGKILL)
    ran.wait()


def takes_all_or_nothing_when_stopped(repositories):
    """a push that is killed at any of several moments has moved all or nothing, and the next one goes through"""
    clones = gated(repositories, "gated stops")
    words, ends = ("git", "-C", clones.path("alice"), "gittuf", "push"), {"as before": 0, "done": 0}
    machine, stops = OtherMachine(clones, "alice"), in_this_run(STOPS, MORE)
    clones.commit("alice")
    clones.gittuf("alice", "record", "main")
    start = time.monotonic()
    clones.gittuf("alice", "push")
    whole = time.monotonic() - start
    for it in range(stops):
        clones.commit("alice")
        clones.gittuf("alice", "record", "main")
        before = there(clones)
        killed(words, whole * (it + 0.5) / stops)
        machine.wait()
        tips = {name: clones.tip("alice", name) for name in (MAIN, LOG)}
        after = there(clones)
        done = after != before
        moved = [f"{name} {tip}" in after.splitlines() for name, tip in tips.items()]
        want(moved, [done, done], f"whether main and the log moved in stop {it}")
        ends["done" if done else "as before"] += 1
        clones.gittuf("alice", "push")
        want([clones.tip("server.git", name) for name in tips], [*tips.values()], f"where main and the log stand after stop {it}")
    clones.sound("alice")
    line = f"accepted {MAIN} {stops + 2} entries\n".encode()
    want(run("git", "-C", clones.path("server.git"), "gittuf", "verify", "main")[1], line, "the server's verdict")
    want(os.path.exists(clones.path("server.git/gittuf/trial")), False, "whether a mark of a trial is left")
    return ", ".join(f"{number} {end}" for end, number in ends.items())


def leads_on_after_a_stop_of_the_server(repositories):
    """a server that was stopped while Git moved what a push brings is told with the file that is in the way, and the next push leads out"""
    clones = gated(repositories, "gated stop")
    clones.commit("alice")
    clones.gittuf("alice", "record", "main")
    # So Git leaves it that is killed after the first of the references: it moves one after the other, once it holds each.
    clones.git("fetch", "--quiet", clones.path("alice"), f"{LOG}:{LOG}", who="server.git")
    held = [os.path.join(clones.path("server.git"), it) for it in ("HEAD.lock", f"{MAIN}.lock")]
    for it in held:
        open(it, "xb").close()
    clones.git("fetch", "--quiet", who="bob")
    _, told = at_terminal("git gittuf verify main", clones.path("bob"))
    line = f"violation {MAIN} 3 broken {clones.tip('alice')}"
    want((line in told, "a git gittuf push by who recorded it" in told), (True, True), f"whether bob is told what is missing, and whose push brings it: {told}")
    clones.commit("bob")
    clones.refused("bob", "record", "main", status=3, part="main stands in violation since entry 3")
    part = f"{MAIN}.lock stands there; another git is at work there, and then git gittuf push tries again; or one was killed"
    clones.refused("alice", "push", status=3, part=part)
    for it in held:
        os.remove(it)
    clones.gittuf("alice", "push")
    clones.git("fetch", "--quiet", who="bob")
    clones.git("reset", "--quiet", "--hard", "origin/main", who="bob")
    for who in ("alice", "bob"):
        clones.gittuf(who, "doctor", status=0)
        clones.verdict(who, f"accepted {MAIN} 2 entries")


def refuses_what_takes_long(repositories):
    """a push that takes more of the processor to judge than a server gives it is refused as a whole, lawful or not, and else taken"""
    clones = gated(repositories, "gated in seconds")
    for number in ("0", "x"):
        clones.refused("server.git", "hook", "install", "--server", "--most-seconds", number, status=2, part="is no number of seconds")
    clones.refused("alice", "hook", "install", "--most-seconds", "5", status=2, part="hook install --server --most-seconds N")
    # What a hook of others spends, which is called first, is no judging.
    path = os.path.join(clones.path("server.git"), "hooks", "pre-receive")
    with open(path, "w", encoding="utf-8") as file:
        file.write(f"#!/bin/sh\nexec {shlex.quote(sys.executable)} -c 'import time\nwhile time.process_time() < 4: pass'\n")
    os.chmod(path, 0o755)
    clones.gittuf("server.git", "hook", "install", "--server", "--most-seconds", "3")
    clones.git("push", "--quiet", "origin", "HEAD:refs/heads/idea", who="alice")
    clones.gittuf("server.git", "hook", "--remove")
    want(run("git", "-C", clones.path("server.git"), "config", "gittuf.mostSeconds")[0], 1, "whether the limit is gone with the hook")
    os.remove(path)
    clones.gittuf("server.git", "hook", "install", "--server", "--most-seconds", "1")
    other = clones.git("commit-tree", "-p", MAIN, "-m", "other", f"{MAIN}^{{tree}}", who="alice").decode().strip()
    clones.git("branch", "many", other, who="alice")
    recorded_by_nobody(clones, "alice", [other] * ENTRIES)
    words = ("--quiet", "origin", MANY, f"{LOG}:{LOG}")
    denied(clones, "alice", *words, part="judging takes more than 1 seconds of the processor")
    clones.git("config", "gittuf.mostSeconds", "soon", who="server.git")
    _, _, errors = run("git", "-C", clones.path("alice"), "push", *words)
    want(b"gittuf.mostSeconds is 'soon', and no number" in errors, True, f"whether an odd limit is told: {errors}")
    want(clones.advised("server.git", "the hook of a server refuses each push"), "git gittuf hook install --server --most-seconds N", "what doctor says")
    clones.gittuf("server.git", "hook", "install", "--server", "--most-seconds", "900")
    clones.git("push", *words, who="alice")


CHECKS = (
    takes_all_or_nothing_when_stopped,
    leads_on_after_a_stop_of_the_server,
    refuses_what_takes_long,
)
