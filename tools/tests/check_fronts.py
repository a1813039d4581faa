"""The checks of tools/test on what is kept of judged entries: only what is new is judged, and nothing is concluded from what is odd."""

import os
import sys

from check_asked import StandIn
from check_gate import LOG, POLICY, denied, gated
from checking import INSPECT, want
from git_gittuf import fronts
from guarded_clones import MAIN

# What is known of a log, an entry behind it, what is to be told of that, and what is told otherwise.
FRONT = fronts.Front(None, None, (b"a" * 64, 6, 4, None), {MAIN.encode(): b"1" * 64, b"refs/heads/seen": None})
ENTRY = (b"b" * 64, MAIN.encode(), b"2" * 64)
TOLD = {"number": 7, "id": "b" * 64, "kind": "reference", "reference": MAIN, "target": "2" * 64, "from": "1" * 64, "prior": 5}
TOLD |= {"verdict": "authorised", "fault": None, "skipped": None, "epoch": 4, "signed": True}
OTHERWISE = (
    {"verdict": "refused"},
    {"verdict": "noted"},
    {"fault": {"kind": "no-policy"}},
    {"id": "c" * 64},
    {"number": 8},
    {"number": 7.0},
    {"number": "7"},
    {"epoch": None},
    {"epoch": 3},
    {"epoch": 4.0},
    {"skipped": 7},
    {"from": None},
    {"from": "2" * 64},
    {"target": "1" * 64},
    {"reference": "refs/heads/other"},
    {"reference": {"escaped": MAIN}},
    {"kind": "note"},
)
SCRIPT = """#!{python}
import json, subprocess, sys
ran = subprocess.run(({inspect!r}, *sys.argv[1:]), stdout=subprocess.PIPE)
open({told!r}, "a").write(sys.argv[2] + "\\n")
lines, change = [json.loads(it) for it in ran.stdout.splitlines()], open({change!r}).read()
for it in lines[:-1] + (eval(change, {{"it": lines[-1]}}) if change else lines[-1:]):
    print(json.dumps(it))
sys.exit(ran.returncode)
"""


class Told(StandIn):
    """A folder with git-gittuf whose gittuf-inspect tells what the true one does, and of the last entry what it is to."""

    def __init__(self, clones, name):
        super().__init__(clones, name)
        places = {it: self.at(it) for it in ("told", "change")}
        self.write(self.inspect, SCRIPT.format(python=os.path.realpath(sys.executable), inspect=INSPECT, **places))
        self.changes("")

    def changes(self, text):
        """Lets it tell this, and nothing be known of before."""
        self.write("change", text)
        for it in ("asked", "told"):
            self.write(it, "")

    def found(self):
        """How often the program was asked for the verdict on a branch, and what gittuf-inspect was asked."""
        return len([it for it in self.lines_in("asked") if it.startswith("verify-ref refs/heads/")]), self.lines_in("told")


def installed(repositories, name):
    """A server whose hook is that of such a folder, and this folder."""
    clones = gated(repositories, name)
    stands = Told(clones, "stand-in")
    clones.gittuf("server.git", "hook", "--remove")
    want(stands.ran("server.git", "hook", "install", "--server")[0], 0, "the status of hook install")
    return clones, stands


def pushed(clones, who):
    """Lets a commit of theirs be recorded and taken by the server."""
    clones.git("pull", "--quiet", who=who)
    clones.commit(who)
    clones.gittuf(who, "record", "main")
    clones.git("push", "--quiet", who=who)


def asks_for_what_takes_less(repositories):
    """where judging what is new was seen to take more than judging the whole log, the program judges it whole, until the log is much longer"""
    rows = (((9, 100), (1, 101), True), ((1, 100), (9, 101), False), ((1, 100), (9, 49), True), ((0.1, 9), (0.4, 9), True), ((1, 9), (0, 0), True))
    for whole, new, is_worth_it in rows:
        want(fronts.Costs(whole, new).is_worth_it(), is_worth_it, f"whether that is worth it where it takes {whole} and {new}")
    clones, stands = installed(repositories, "judged for less")
    pushed(clones, "alice")
    # It tells that, and takes its time.
    for it in ("[sum(range(1 << 26)) and it]", ""):
        stands.changes(it)
        pushed(clones, "alice")
        want(stands.found(), (0, ["log"]) if it else (1, []), "what is asked")
        want(os.path.exists(clones.path("server.git/gittuf/chain")), False, "whether there is a chain")
    clones.verdict("alice", f"accepted {MAIN} 4 entries")


def judges_what_is_new(repositories):
    """the hook of a server asks the program for no verdict on a branch that it judged before, and refuses what is unlawful as ever"""
    clones, stands = installed(repositories, "judged before")
    pushed(clones, "alice")
    want(stands.found()[0], 1, "how often a verdict is asked for at first")
    for who in ("bob", "alice", "alice"):
        stands.changes("")
        pushed(clones, who)
        want((stands.lines_in("asked"), stands.lines_in("told")), ([], ["log"]), "what the program and gittuf-inspect are asked then")
    clones.git("fetch", "--quiet", who="mallory")
    clones.git("reset", "--quiet", "--hard", "origin/main", who="mallory")
    clones.commit("mallory", "evil")
    clones.gittuf("mallory", "record", "main", "--anyway")
    denied(clones, "mallory", "origin", "main", f"{LOG}:{LOG}", part=f"violation {MAIN} 7 ref-rule main 0 of 1")
    denied(clones, "mallory", "origin", "main", part=f"tip-differs {MAIN}")
    denied(clones, "alice", "--force", "origin", "main~1:main", part=f"tip-differs {MAIN}")
    denied(clones, "alice", "origin", "--delete", "main", part="main would be gone")
    stands.changes("")
    pushed(clones, "alice")
    want(stands.found(), (0, ["log"]), "what is asked once that was refused")
    # Nor does what was judged hold for another first policy.
    clones.git("config", "gittuf.root", clones.gittuf("mallory", "key", "--id").decode().strip(), who="server.git")
    clones.commit("alice")
    clones.gittuf("alice", "record", "main")
    denied(clones, "alice", "origin", "main", f"{LOG}:{LOG}", part="before the first policy was in force")
    clones.git("config", "--unset", "gittuf.root", who="server.git")
    clones.git("push", "--quiet", who="alice")
    clones.verdict("alice", f"accepted {MAIN} 7 entries")
    clones.sound("alice", "bob")


def judges_several_at_once(repositories):
    """where nothing is known of before, gittuf-inspect tells the verdicts on several references of a push, and the program what it tells otherwise"""
    clones, stands = installed(repositories, "judged at once")
    for change, asked in (("", 0), ("[{**it, 'verdict': 'noted'}]", 1), ("[]", 2), ("[it, it]", 2)):
        clones.commit("alice")
        clones.git("branch", "--force", "other", who="alice")
        for it in ("main", "other"):
            clones.gittuf("alice", "record", it)
        stands.changes(change)
        clones.git("push", "--quiet", "origin", "main", "other", f"{LOG}:{LOG}", who="alice")
        want(stands.found(), (asked, ["verdicts"]), f"what is asked where it tells {change or 'them'}")
        os.remove(clones.path("server.git/gittuf/judged"))
    clones.git("fetch", "--quiet", who="mallory")
    clones.git("reset", "--quiet", "--hard", "origin/main", who="mallory")
    evil = clones.commit("mallory", "evil")
    clones.git("branch", "other", who="mallory")
    for it in ("main", "other"):
        clones.gittuf("mallory", "record", it, "--anyway")
    stands.changes("")
    denied(clones, "mallory", "origin", f"{evil}:{MAIN}", "other", f"{LOG}:{LOG}", part=f"violation {MAIN} 11 ref-rule main 0 of 1")
    want(stands.found(), (0, ["verdicts"]), "what is asked of what is refused")


def goes_by_the_policy_in_force(repositories):
    """what was judged holds under the policy that came into force since: who may change a branch no more is refused, who approves is counted"""
    clones, stands = installed(repositories, "judged by policies")
    pushed(clones, "bob")
    clones.git("pull", "--quiet", who="alice")
    clones.gittuf("alice", "policy", "rule", "main", "--threshold", "2")
    clones.sign("alice")
    clones.gittuf("alice", "policy", "apply")
    clones.gittuf("alice", "push")
    clones.git("fetch", "--quiet", who="bob")
    clones.commit("bob")
    clones.gittuf("bob", "record", "main", "--anyway")
    denied(clones, "bob", "origin", "main", f"{LOG}:{LOG}", part=f"violation {MAIN} 5 ref-rule main 1 of 2")
    clones.gittuf("bob", "doctor", "--take", "origin")
    for number in range(3):
        clones.git("push", "--quiet", "origin", "main:idea", who="bob")
        clones.git("fetch", "--quiet", who="alice")
        clones.gittuf("alice", "approve", "main", "origin/idea")
        clones.git("push", "--quiet", "origin", "refs/gittuf/*:refs/gittuf/*", who="alice")
        clones.git("fetch", "--quiet", who="bob")
        clones.gittuf("bob", "record", "main")
        stands.changes("")
        clones.git("push", "--quiet", who="bob")
        want(stands.found(), (0, ["log"]), f"what is asked of an approved change, {number}")
        clones.commit("bob")
    clones.gittuf("bob", "record", "main", "--anyway")
    denied(clones, "bob", "origin", "main", f"{LOG}:{LOG}", part=f"violation {MAIN} 11 ref-rule main 1 of 2")


def spoiled(path):
    """Lets a file be another one than was written, and what has another name for it stay."""
    with open(path, "rb") as file:
        text = file.read()
    os.remove(path)
    with open(path, "wb") as file:
        file.write(text[:-2] + bytes([text[-2] ^ 1]) + text[-1:])


def is_told_of_it(repositories):
    """an entry counts as authorised where just that is told of it, and that it goes on from where its reference is known to stand"""
    told = lambda *rows, entry=ENTRY: fronts.are_authorised(list(rows), FRONT, [entry])
    want(told(TOLD), True, "what is concluded from what is to be told")
    for it in OTHERWISE:
        want(told({**TOLD, **it}), False, f"what is concluded from {it}")
    for it in (key for key in TOLD if key not in ("prior", "signed")):
        want(told({key: value for key, value in TOLD.items() if key != it}), False, f"what is concluded where {it} is not told")
    want((told(), told(TOLD, TOLD), fronts.are_authorised(None, FRONT, [ENTRY])), (False,) * 3, "what is concluded from none, two or nothing")
    new, seen = (b"b" * 64, b"refs/heads/new", b"2" * 64), (b"b" * 64, b"refs/heads/seen", b"2" * 64)
    refused = {**TOLD, "verdict": "refused", "fault": {"kind": "no-policy"}, "from": "9" * 64}
    want(told({**TOLD, "reference": "refs/heads/new", "from": None}, entry=new), True, "what is concluded of a new branch")
    want(told({**TOLD, "reference": "refs/heads/new"}, entry=new), False, "what is concluded of a new branch that stood somewhere")
    want(told({**refused, "reference": "refs/heads/seen"}, entry=seen), True, "what is concluded of a branch of which nothing is known")
    want(FRONT.behind([seen[1:], new[1:]], b"b" * 64).names, {**FRONT.names, new[1]: new[2]}, "what is known then")


def replaced_by_folder(path):
    """Lets a folder stand where a file does, or is to."""
    if os.path.exists(path):
        os.remove(path)
    os.makedirs(path)


def concludes_nothing_odd(repositories):
    """where gittuf-inspect tells anything else of a new entry, or what was kept is not as it was written, the program judges"""
    clones, stands = installed(repositories, "told oddly")
    for _ in range(2):
        pushed(clones, "alice")
    odd = ("[]", "[it, it]", "[{**it, 'verdict': 'refused'}]", "[{**it, 'epoch': 2}]")
    for it in odd:
        stands.changes(it)
        pushed(clones, "alice")
        want(stands.found(), (1, ["log"]), f"what is asked where it tells {it}")
    kept = lambda name: clones.path(os.path.join("server.git/gittuf", name))
    entry = lambda number: kept(f"chain/objects/{clones.tip('server.git', f'{LOG}~{number}')}")
    changes = {
        "the note": lambda: spoiled(kept("judged")),
        "an entry of the chain that is gone": lambda: os.remove(entry(0)),
        "an object more": lambda: open(kept(f"chain/objects/{'0' * 64}"), "wb").close(),
        "an entry of the chain": lambda: spoiled(entry(2)),
        "a folder in the place of its log": lambda: replaced_by_folder(kept(f"chain/{LOG}")),
        "a policy of the chain": lambda: spoiled(kept(f"chain/objects/{clones.tip('server.git', f'{POLICY}:metadata/targets.json')}")),
    }
    for name, change in changes.items():
        stands.changes("")
        change()
        pushed(clones, "alice")
        want(stands.found()[0], 1, f"how often a verdict is asked for beside {name}")
        stands.changes("")
    clones.verdict("alice", f"accepted {MAIN} {len(odd) + len(changes) + 3} entries")


CHECKS = (
    is_told_of_it,
    asks_for_what_takes_less,
    judges_what_is_new,
    judges_several_at_once,
    goes_by_the_policy_in_force,
    concludes_nothing_odd,
)
