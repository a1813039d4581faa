"""The checks of tools/test on what git gittuf takes from gittuf-inspect: what it tells as its page has it, and nothing else."""

import contextlib
import json
import os
import shutil
import sys

from check_store import recorded_by_nobody
from checking import TOP, ZEROS, run, want
from git_gittuf import inspecting
from guarded_clones import MAIN, another

POLICY, LOG = "refs/gittuf/policy", "refs/gittuf/reference-state-log"
ID = "ab" * 32
# What is told of a reference, and the line of verify-ref that is the same verdict.
LINES = (
    ({"verdict": "accepted", "entries": 3}, "accepted refs/heads/a 3 entries"),
    ({"verdict": "accepted", "entries": 0, "unrecorded": True}, "accepted refs/heads/a 0 entries"),
    ({"verdict": "tip-differs", "kept": ID, "recorded": ZEROS}, f"tip-differs refs/heads/a kept {ID} recorded {ZEROS}"),
    ({"fault": {"kind": "no-policy"}}, "violation refs/heads/a 7 no-policy"),
    ({"fault": {"kind": "broken", "id": ID}}, f"violation refs/heads/a 7 broken {ID}"),
    ({"fault": {"kind": "not-epoch", "why": "root-version 1"}}, "violation refs/heads/a 7 not-epoch root-version 1"),
    ({"fault": {"kind": "ref-rule", "rule": "main", "got": 1, "need": 2}}, "violation refs/heads/a 7 ref-rule main 1 of 2"),
    (
        {"fault": {"kind": "path-rule", "path": "d/\xe4 %~", "rule": "docs", "got": 0, "need": 1}},
        "violation refs/heads/a 7 path-rule d/%C3%A4%20%25~ docs 0 of 1",
    ),
    (
        {"fault": {"kind": "path-rule", "path": "d/\u2028x", "rule": "docs", "got": 0, "need": 1}},
        "violation refs/heads/a 7 path-rule d/%E2%80%A8x docs 0 of 1",
    ),
    (
        {"fault": {"kind": "path-rule", "path": {"escaped": "d/%FF"}, "rule": "docs", "got": 0, "need": 1}},
        "violation refs/heads/a 7 path-rule d/%FF docs 0 of 1",
    ),
)
# What is no such object.
OTHERWISE = (
    {},
    {"verdict": "Accepted", "entries": 1},
    {"verdict": "accepted"},
    {"verdict": "accepted", "entries": -1},
    {"verdict": "accepted", "entries": True},
    {"verdict": "accepted", "entries": "1"},
    {"verdict": "accepted", "entries": 1, "reference": "refs/heads/b"},
    {"verdict": "accepted", "entries": 1, "reference": {"escaped": "refs/heads/a"}},
    {"verdict": "tip-differs", "kept": ID, "recorded": ID[1:]},
    {"verdict": "tip-differs", "kept": f"{ID}\n", "recorded": ID},
    {"fault": None},
    {"fault": {"kind": "broken"}},
    {"fault": {"kind": "other"}},
    {"fault": {"kind": "ref-rule", "rule": "main", "got": 1}},
    {"fault": {"kind": "path-rule", "path": None, "rule": "docs", "got": 0, "need": 1}},
    {"number": 1.0, "fault": {"kind": "no-policy"}},
)


def object_of(it):
    return {"reference": "refs/heads/a", "verdict": "violation", "number": 7, **it}


def are_lines(repositories):
    """what gittuf-inspect tells of a reference is the line of verify-ref, for each kind of verdict and fault, or nothing where it is otherwise"""
    name = b"refs/heads/a"
    for it, line in LINES:
        status = 0 if line.startswith("accepted") else 1
        told = inspecting.objects_in(f"{json.dumps(object_of(it), ensure_ascii=False)}\n".encode())
        want([inspecting.line_of(name, it) for it in told], [(status, f"{line}\n".encode())], f"the line of {it}")
    for it in OTHERWISE:
        want(inspecting.line_of(name, object_of(it)), None, f"the line of {it}")
    for odd in (b"refs/heads/\xc3\xa4", b"refs/heads/\xff"):
        want(inspecting.line_of(odd, object_of({**LINES[0][0], "reference": odd.decode(errors="replace")})), None, "that of a name that lines may escape")


class StandIn:
    """A folder with git-gittuf beside a program in the place of gittuf-inspect, which tells what it is to, and a launcher that notes its words."""

    def __init__(self, clones, name):
        self.clones, self.place = clones, clones.path(name)
        os.makedirs(os.path.join(self.place, "crates", "gittuf_inspect", "out"))
        shutil.copytree(os.path.join(TOP, "tools", "bridge"), os.path.join(self.place, "tools", "bridge"))
        self.tool = shutil.copy(os.path.join(TOP, "tools", "git-gittuf"), os.path.join(self.place, "tools"))
        self.write("gittuf", f"#!/bin/sh\necho \"$3 $4 $(cat \"$1/{LOG}\" 2> /dev/null)\" >> '{self.at('asked')}'\nexec '{TOP}/gittuf' \"$@\"\n")
        self.inspect = os.path.join("crates", "gittuf_inspect", "out", "gittuf_inspect")
        self.write(self.inspect, f"#!/bin/sh\necho \"$2\" >> '{self.at('told')}'\ncat '{self.at('answer')}'\nexit $(cat '{self.at('status')}')\n")

    def at(self, name):
        return os.path.join(self.place, name)

    def write(self, name, text, mode=0o755):
        with open(self.at(name), "w", encoding="utf-8") as file:
            file.write(text)
        os.chmod(file.name, mode)

    def tells(self, answer, status=0):
        """Lets it tell this, and nothing be known of before."""
        self.write("answer", answer if isinstance(answer, str) else "".join(f"{json.dumps(it)}\n" for it in answer))
        self.write("status", f"{status}\n")
        for it in ("asked", "told"):
            self.write(it, "")

    def ran(self, who, *words):
        kept = os.path.join(self.clones.path(who), ".git", "gittuf", "answers")
        if os.path.exists(kept):
            os.remove(kept)
        return run(sys.executable, self.tool, *words, folder=self.clones.path(who))

    def lines_in(self, name):
        with open(self.at(name), encoding="utf-8") as file:
            return file.read().splitlines()


def takes_nothing_else(repositories):
    """verify of several names takes the verdicts of gittuf-inspect in one pass, and where it tells anything else, or cannot run, those of the program"""
    clones = another(repositories, "told otherwise")
    stands = StandIn(clones, "stand-in")
    both = [{"reference": POLICY, "verdict": "accepted", "entries": 1}, {"reference": MAIN, "verdict": "accepted", "entries": 5}]
    stands.tells(both)
    told = b"accepted refs/gittuf/policy 1 entries\naccepted refs/heads/main 5 entries\n"
    want(stands.ran("bob", "verify")[:2], (0, told), "the verdicts that are told")
    judged = lambda: [it for it in stands.lines_in("asked") if it.startswith(f"verify-ref {MAIN} ")]
    want((stands.lines_in("told"), judged()), (["verdicts"], []), "what is asked then")
    true = (0, told.replace(b" 5 ", b" 1 "))
    lines = "".join(f"{json.dumps(it)}\n" for it in both)
    answers = ["", lines[:-1], lines[:-20], lines + lines, f"{lines}x\n", "[]\n[]\n", "1\n2\n", "[" * 100_000 + "\n", "\xff\n"]
    answers += [both[::-1], both[1:], [both[0], {**both[1], "reference": "refs/heads/mai"}], [both[0], {**both[1], "verdict": "good"}]]
    for it in answers:
        stands.tells(it)
        want((stands.ran("bob", "verify")[:2], len(judged())), (true, 1), f"the verdicts where it tells {str(it)[:80]!r}")
    for status in (2, 3, 4, 5, 139):
        stands.tells(both, status)
        want(stands.ran("bob", "verify")[:2], true, f"the verdicts where it ends with {status}")
    stands.tells(both)
    stands.write(stands.inspect, "\x7fELF")
    want(stands.ran("bob", "verify")[:2], true, "the verdicts where it is no program")
    os.chmod(stands.at(stands.inspect), 0o644)
    want(stands.ran("bob", "verify")[:2], true, "the verdicts where it may not run")


def is_of_the_sources(repositories):
    """a gittuf-inspect that was built before a source here changed is not asked"""
    clones = another(repositories, "built before")
    stands = StandIn(clones, "stand-in")
    stands.tells([])
    os.makedirs(stands.at("crates/accounts/src/front"))
    stands.write("crates/accounts/src/front/lib.rt", "")
    stands.ran("bob", "verify")
    want(stands.lines_in("told"), [], "what it is asked")
    os.utime(stands.at("crates/accounts/src/front/lib.rt"), (1, 1))
    stands.ran("bob", "verify")
    want(stands.lines_in("told"), ["verdicts"], "what it is asked once it is younger")


def is_the_released_one(repositories):
    """the released gittuf-inspect is asked where none is built here, and only while the sources are those that it was released of"""
    stands = StandIn(another(repositories, "released beside"), "stand-in")
    stands.tells([])
    folder = "crates/gittuf/out/released"
    os.makedirs(stands.at(folder))
    os.rename(stands.at(stands.inspect), stands.at(f"{folder}/gittuf-inspect"))
    for status, asked in ((1, []), (0, ["verdicts"])):
        stands.write(f"{folder}/source_check", f"#!/bin/sh\nexit {status}\n")
        stands.ran("bob", "verify")
        want(stands.lines_in("told"), asked, f"what it is asked where the small program ends with {status}")


def is_for_the_processor(repositories):
    """the gittuf-inspect for x86-64-v3 is asked where the processor is one, or GITTUF_CPU says so, and the other one elsewhere"""
    stands = StandIn(another(repositories, "released for"), "stand-in")
    stands.tells([])
    os.remove(stands.at(stands.inspect))
    stands.write("version", "gittuf 0\n")
    for name in ("gittuf-inspect", "gittuf-inspect-x86-64-v3"):
        stands.write(name, f"#!/bin/sh\necho {name} >> '{stands.at('told')}'\n")
    own = "gittuf-inspect-x86-64-v3" if inspecting.is_newer() else "gittuf-inspect"
    for cpu, asked in ((None, own), ("x86-64-v2", "gittuf-inspect"), ("x86-64-v3", "gittuf-inspect-x86-64-v3")):
        stands.write("told", "")
        with environment(GITTUF_CPU=cpu):
            stands.ran("bob", "verify")
        want(stands.lines_in("told")[:1], [asked], f"what is asked where GITTUF_CPU is {cpu}")
    os.remove(stands.at("gittuf-inspect-x86-64-v3"))
    stands.write("told", "")
    stands.ran("bob", "verify")
    want(stands.lines_in("told")[:1], ["gittuf-inspect"], "what is asked where it stands alone")


@contextlib.contextmanager
def environment(**words):
    """Words of the environment for what runs meanwhile, none of those that are None."""
    before = dict(os.environ)
    for name, value in words.items():
        os.environ.pop(name, None)
        if value is not None:
            os.environ[name] = value
    try:
        yield
    finally:
        os.environ.clear()
        os.environ.update(before)


def of_entry(clones, target, **more):
    entry = {"id": ZEROS, "kind": "reference", "number": 3, "prior": 2, "reference": MAIN, "signers": [], "target": target, "verdict": "authorised"}
    return {**entry, **more}


def signs_nothing_unlawful(repositories):
    """record asks gittuf-inspect what this key's entry would be: a refusal uses no leaf, and where it tells something untrue nothing unlawful is kept"""
    clones = another(repositories, "would")
    stands = StandIn(clones, "stand-in")
    clones.gittuf("bob", "verify", "main")
    target = clones.commit("bob")
    fault = {"kind": "path-rule", "path": "d/x", "rule": "docs", "got": 0, "need": 1}
    refused = [of_entry(clones, target, verdict="refused"), {"fault": fault, "number": 3, "reference": MAIN, "verdict": "violation"}]
    stands.tells(refused, 1)
    before, log = clones.used("bob"), clones.tip("bob", LOG)
    status, _, errors = stands.ran("bob", "record", "main")
    want((status, b"rule docs wants 1 of" in errors and b"a change of d/x" in errors), (3, True), f"what is refused: {errors}")
    want((stands.lines_in("told"), clones.used("bob") - before), (["would"], 0), "what is asked, and the leaves that are used")
    clones.clone("mallory")
    evil = clones.commit("mallory")
    stands.tells([of_entry(clones, evil)])
    status, _, errors = stands.ran("mallory", "record", "main")
    want((status, b"none of the policy's persons" in errors), (3, True), f"what is refused to a stranger: {errors}")
    want(clones.tip("mallory", LOG), log, "the log of the stranger")
    for it in ([], refused[:1], [of_entry(clones, evil)], [of_entry(clones, target, verdict="noted")], [of_entry(clones, target, id=ID)]):
        stands.tells(it)
        before = clones.used("bob")
        clones.git("update-ref", LOG, log, who="bob")
        want((stands.ran("bob", "record", "main")[0], clones.used("bob") - before), (0, 1), f"the status where it tells {str(it)[:80]}")


def approves_what_is_wanted(repositories):
    """approve asks gittuf-inspect what an entry would be that nobody signs, and where it tells anything else the program"""
    clones = another(repositories, "wanted")
    clones.gittuf("alice", "policy", "rule", "main", "--threshold", "2")
    clones.sign("alice")
    clones.gittuf("alice", "policy", "apply")
    clones.gittuf("alice", "push")
    clones.git("fetch", "--quiet", who="bob")
    clones.gittuf("bob", "verify", "main")
    stands, target = StandIn(clones, "stand-in"), clones.commit("bob")
    rule = {"kind": "ref-rule", "rule": "main", "got": 0, "need": 2}
    wanted = [of_entry(clones, target, number=4, verdict="refused"), {"fault": rule, "number": 4, "reference": MAIN, "verdict": "violation"}]
    stands.tells([of_entry(clones, target, number=4)])
    before, log = clones.used("bob"), clones.tip("bob", LOG)
    status, _, errors = stands.ran("bob", "approve", "main", "main")
    want((status, b"no rule wants a signature" in errors, stands.lines_in("told")), (3, True, ["would"]), f"what is refused: {errors}")
    want((clones.used("bob"), clones.tip("bob", LOG)), (before, log), "the leaves that are used then, and the log")
    given = [{**wanted[0], "signers": [clones.gittuf("bob", "key", "--id").decode().strip()]}, wanted[1]]
    stands.tells(given, 1)
    want(b"you approved it already" in stands.ran("bob", "approve", "main", "main")[2], True, "whether what is there already is told")
    unsigned = lambda: [it for it in stands.lines_in("asked") if it.startswith(f"verify-ref {MAIN} ") and log not in it]
    for it in (wanted, [], wanted[:1], [of_entry(clones, target)], [{**wanted[0], "reference": "refs/heads/other"}, wanted[1]]):
        clones.git("update-ref", LOG, log, who="bob")
        clones.git("update-ref", "-d", "refs/gittuf/attestations", who="bob")
        stands.tells(it, 1)
        want((stands.ran("bob", "approve", "main", "main")[0], len(unsigned())), (0, 0 if it is wanted else 1), f"what is asked where it tells {str(it)[:80]}")


def asks_for_rules_at_once(repositories):
    """which rules protect many names of a long log is asked over its policies alone, and answered as over all of it; once each where that differs"""
    clones = another(repositories, "many rules")
    clones.gittuf("alice", "policy", "rule", "release", "refs/heads/release-*", "--persons", "alice")
    clones.sign("alice")
    clones.gittuf("alice", "policy", "apply")
    protected = ["main", "release-1", "release-2"]
    for it in (*protected[1:], "idea", "other", "topic"):
        clones.git("branch", it, who="alice")
    commits = [clones.tip("alice"), clones.git("commit-tree", "-p", MAIN, "-m", "other", f"{MAIN}^{{tree}}", who="alice").decode().strip()]
    clones.git("branch", "many", commits[1], who="alice")
    recorded_by_nobody(clones, "alice", [commits[it % 2] for it in range(600)])
    stands = StandIn(clones, "stand-in")
    os.remove(stands.at(stands.inspect))
    stands.tells([])
    names = [*protected, "idea", "other", "topic"]
    found = [json.loads(it) for it in stands.ran("alice", "verify", "--json", *names)[1].splitlines()]
    want([it["ref"].removeprefix("refs/heads/") for it in found if it["protected"]], protected, "what is protected")
    log = clones.tip("alice", LOG)
    asked = [it.split(" ") for it in stands.lines_in("asked") if it.startswith("explain ")]
    want((len(asked), sum(it[2] == log for it in asked)), (len(names) + 1, 1), "how often rules are asked for, and over the whole log")
    # One that answers otherwise over a log of which not all is there.
    stands.write("gittuf", f"#!/bin/sh\n[ \"$3\" != explain ] || [ \"$(cat \"$1/{LOG}\")\" = {log} ] || exit 0\nexec '{TOP}/gittuf' \"$@\"\n")
    again = [json.loads(it) for it in stands.ran("alice", "verify", "--json", *names)[1].splitlines()]
    want(again, found, "what is told where it answers otherwise over the policies alone")


CHECKS = (
    approves_what_is_wanted,
    asks_for_rules_at_once,
    are_lines,
    takes_nothing_else,
    is_of_the_sources,
    is_the_released_one,
    is_for_the_processor,
    signs_nothing_unlawful,
)
