"""The checks of tools/test on gittuf-inspect, over the kept folder beside it and over that folder changed."""

import base64
import json
import os
import re
import shutil

from checking import INSPECT, LAUNCHER, TOP, ZEROS, Skip, run, want
from git_gittuf import inspecting

KEPT = os.path.join(TOP, "crates", "gittuf_inspect", "data", "guarded")
MAIN, POLICY, ATTESTATIONS, NONE = "refs/heads/main", "refs/gittuf/policy", "refs/gittuf/attestations", "refs/heads/none"
NAMES = (MAIN, POLICY, ATTESTATIONS, NONE)
# What the log of that folder is: 1 is of the policy, 3, 5, 6 and 9 are of main, 2, 4 and 8 of the attestations, and 7 skips
# 6, which a stranger recorded. Alice signed all but 6, and Bob approved 3, 5 and 9; the rule of main wants both.
LOG = "refs/gittuf/reference-state-log"
AT = {
    2: "07ebf8581cb067e25d5301128dc47feb07369a59881256092d7f74455f9094dc",
    4: "5c6f979188ed66b1dfdf693a7e431f34b5a9a0fb2ea83d1066fc955aa1e1b679",
    6: "da2dfc0ffcd77d14983d059960152d0014e60d53fcab64fdb36637349d74bdfa",
    7: "dd0728eb73a648777e7881661a61678616fc95c183e79402b180cbd14566f5e3",
}
ALICE = "d9e0439828b3396be23817275008675ebfe1626113a89f75197e7e79628c38e0"
BOB = "49f09f1690f5e84d85882704776516641ca03c08101750a2770c77eb916b1062"
PERSONS = ("alice", ALICE), ("bob", BOB)
STRANGER = "1a39b7dd3a7b8e9b3c934151221ae029f1e48776b52463eab0d76fdf798d1aa2"
NOBODY = 64 * "5"
FIRST, SECOND = (
    "6f195ad07186b8d30af89af424a426922e9cd93ed30ca8c636af6db2542b3e7f",
    "aa12024838dd65160c7ddb29e5294b57599333694f1992846de6db25208028b5",
)
# The tree of the second.
TREE = "17653574b22bf755390afd9a499d6360119a31cb3d7c34955a395f38705d2d3f"
POLICY_AT = "40b38bae9033631e7ff88984a1956045cae76434fdfc200c4e9b2830970f11f2"
FILES = (
    "37f88b5446f9940b259c56dfd33bc89754d374d0c1403d9d9182adc84e44cd62",
    "9536c63a122f2fdf94e0f2df75dc264d4db3d4d01858e73030fdd53f79b36b98",
)
TIP = "f7779ec4fdcf2d19cc4442ed5754a0027aa5ca903fb828a86ab7d7c718ee44c2"
STRANGERS = "fb3b85cf96402aba8408bb6ba3b6c32e575fae99ce206bed80f3e93193ac603f"


def kept(repositories, name, **changed):
    """A copy of the kept folder, in which the references of these names stand elsewhere."""
    if not os.path.exists(INSPECT):
        raise Skip("gittuf-inspect is not built here")
    place = repositories.path(name)
    shutil.copytree(KEPT, place)
    for ref, id in changed.items():
        path = os.path.join(place, *ref.split("/"))
        os.makedirs(os.path.dirname(path), exist_ok=True)
        with open(path, "w", encoding="ascii") as file:
            file.write(f"{id}\n")
    return f"{place}/"


def told(folder, *names, word="verdicts"):
    """The status with which the verdicts on some names, or what else a word asks for, are told, and the objects of the lines."""
    status, output, errors = run(INSPECT, folder, word, *names)
    want(errors, b"", "what is said beside the lines")
    lines = output.decode().splitlines()
    found = [json.loads(it) for it in lines]
    want([json.dumps(it, sort_keys=True, separators=(",", ":"), ensure_ascii=False) for it in found], lines, "the lines")
    return status, found


def as_verify_ref(folder, status, found, *root):
    """Holds verdicts, as git gittuf makes lines of them, to what gittuf verify-ref says of the same names."""
    each = [run(LAUNCHER, folder, "-", "verify-ref", it["reference"], *root)[:2] for it in found]
    want([inspecting.line_of(it["reference"].encode(), it) for it in found], each, "the verdicts as verify-ref says them")
    want(status, max(it[0] for it in each), "the status")


def tells_accepted(repositories):
    """gittuf-inspect verdicts tells a line for each name, in their order, and each is the verdict of verify-ref"""
    folder = kept(repositories, "inspected")
    status, found = told(folder, *NAMES)
    want([(it["reference"], it["verdict"], it["entries"]) for it in found], list(zip(NAMES, ["accepted"] * 4, (4, 1, 3, 0))), "the verdicts")
    want(status, 0, "the status where each is accepted")
    as_verify_ref(folder, status, found)
    want(told(folder, NONE, MAIN)[1], [found[3], found[0]], "the verdicts in another order")


def tells_by_roots(repositories):
    """gittuf-inspect verdicts --root tells the verdicts of verify-ref with the same root"""
    folder = kept(repositories, "inspected by roots")
    for keys in (NOBODY, ALICE, f"{ALICE},{BOB}", f"{BOB},{ALICE}"):
        status, found = told(folder, *NAMES, "--root", keys)
        as_verify_ref(folder, status, found, "--root", keys)


def tells_others(repositories):
    """gittuf-inspect verdicts tells a branch that was moved and an entry that a stranger recorded, with status 1"""
    moved = kept(repositories, "inspected moved", **{MAIN: STRANGERS})
    status, found = told(moved, MAIN, POLICY)
    want(found[0], {"kept": STRANGERS, "recorded": TIP, "reference": MAIN, "verdict": "tip-differs"}, "a branch that was moved")
    as_verify_ref(moved, status, found)
    cut = kept(repositories, "inspected cut", **{LOG: AT[6], MAIN: STRANGERS})
    status, found = told(cut, POLICY, MAIN)
    fault = {"got": 0, "kind": "ref-rule", "need": 2, "rule": "main"}
    mends = {"from": SECOND, "prior": 5, "skip": [6], "tree": TREE}
    want(found[1], {"fault": fault, "mends": mends, "number": 6, "reference": MAIN, "verdict": "violation"}, "a stranger's entry")
    as_verify_ref(cut, status, found[1:])


def tells_all(repositories):
    """gittuf-inspect verdicts without names tells each that the log speaks of, and then the other branches and tags"""
    folder = kept(repositories, "inspected whole")
    status, found = told(folder)
    want(([it["reference"] for it in found], status), ([POLICY, ATTESTATIONS, MAIN], 0), "the names that the log speaks of")
    want(found, told(folder, POLICY, ATTESTATIONS, MAIN)[1], "their verdicts")
    others = ("refs/heads/other", "refs/heads/a", "refs/tags/one", "refs/notes/none")
    more = kept(repositories, "inspected more", **{it: TIP for it in others})
    status, found = told(more)
    want([it["reference"] for it in found[3:]], ["refs/heads/a", "refs/heads/other", "refs/tags/one"], "those that it does not")
    want((found[3], status), ({"kept": TIP, "recorded": ZEROS, "reference": "refs/heads/a", "verdict": "tip-differs"}, 1), "one of them")


def tells_unrecorded(repositories):
    """gittuf-inspect verdicts tells of a branch that a rule protects and no entry records that it is unrecorded, and of no other"""
    before = kept(repositories, "inspected unrecorded", **{LOG: AT[2], MAIN: FIRST})
    verdict = {"kept": FIRST, "recorded": ZEROS, "reference": MAIN, "unrecorded": True, "verdict": "tip-differs"}
    status, found = told(before, MAIN, NONE, POLICY)
    want((found[0], status), (verdict, 1), "a branch that is kept")
    as_verify_ref(before, status, found)
    want(["unrecorded" in it for it in found], [True, False, False], "which are unrecorded")
    want(told(before)[1][-1], verdict, "the branch where none is named")
    os.remove(os.path.join(before, *MAIN.split("/")))
    wanted = {"entries": 0, "reference": MAIN, "unrecorded": True, "verdict": "accepted"}
    want(told(before, MAIN), (0, [wanted]), "a branch that is not there")
    empty = kept(repositories, "inspected unprotected")
    os.remove(os.path.join(empty, *LOG.split("/")))
    want("unrecorded" in told(empty, MAIN)[1][0], False, "whether one is where no policy is in force")


def would(folder, target, keys, name=MAIN, faults=(), **line):
    """Holds what an entry of a name would be found to be to a line, in which what is not given is as of an entry that is lawful."""
    own = {"id": ZEROS, "key": None, "kind": "reference", "reference": name, "rescued": None, "signed": False, "skipped": None}
    own |= {"author": None, "time": None}
    stood = {"epoch": 1, "from": FIRST, "number": 5, "prior": 3, "signers": [BOB, ALICE], "target": target}
    found = {"fault": faults[0] if faults else None, "verdict": "refused" if faults else "authorised"}
    wanted = {**own, **stood, **found, **line}
    wanted["persons"] = [name for name, key in PERSONS if key in wanted["signers"]]
    others = [{"fault": it, "number": wanted["number"], "reference": name, "verdict": "violation"} for it in faults]
    found = told(folder, name, target, "--key", keys, word="would")
    want(found, (int(bool(faults)), [wanted, *others]), f"what would be found with {keys}")


def tells_would(repositories):
    """gittuf-inspect would tells of an entry what is found of it once it is recorded, and which rule is not met"""
    before = kept(repositories, "inspected before", **{LOG: AT[4]})
    short = [{"got": 1, "kind": "ref-rule", "need": 2, "rule": "main"}]
    would(before, SECOND, ALICE)
    would(before, SECOND, f"{NOBODY},{ALICE}")
    would(before, SECOND, NOBODY, faults=short, signers=[BOB])
    would(before, FIRST, ALICE, faults=short, signers=[ALICE])
    would(before, FIRST, f"{ALICE},{BOB}")
    would(before, ZEROS, ALICE, faults=short, signers=[ALICE])
    nothing = {"from": None, "prior": None}
    would(before, SECOND, ALICE, name=NONE, signers=[ALICE], **nothing)
    would(before, NOBODY, ALICE, faults=[{"id": NOBODY, "kind": "broken"}], signers=[])
    policy = {"name": POLICY, "signers": [], "from": POLICY_AT, "prior": 1}
    same = {it: {"added": [], "removed": []} for it in ("keys", "persons", "rules", "thresholds")}
    would(before, POLICY_AT, NOBODY, changed=same, **policy)
    would(before, ZEROS, ALICE, faults=[{"kind": "not-epoch", "why": "unreadable"}], **policy)
    empty = kept(repositories, "inspected empty")
    os.remove(os.path.join(empty, *LOG.split("/")))
    would(empty, FIRST, ALICE, faults=[{"kind": "no-policy"}], number=1, epoch=None, signers=[], **nothing)


def tells_skips(repositories):
    """gittuf-inspect would --annotate skip tells which entries an annotation would skip, and which are none of a reference"""
    folder = kept(repositories, "inspected skips")
    skip, other = AT[6], AT[7]
    found = {"id": skip, "number": 6, "reference": MAIN, "skips": True}
    none = {"id": NOBODY, "number": None, "reference": None, "skips": False}
    note = {"id": other, "number": 7, "reference": None, "skips": False}
    words = ("--annotate", "skip")
    want(told(folder, *words, skip, "--key", ALICE, word="would"), (0, [found]), "an entry of a branch")
    want(told(folder, *words, f"{other},{NOBODY},{skip}", "--key", BOB, word="would"), (1, [note, none, found]), "several")
    want(told(folder, *words, skip, "--key", STRANGER, word="would"), (1, [{**found, "skips": False}]), "by a stranger")
    want(told(folder, *words, skip, "--key", ALICE, "--root", NOBODY, word="would"), (1, [{**found, "skips": False}]), "by no policy")


def body_of(id):
    with open(os.path.join(KEPT, "objects", id), "rb") as file:
        return file.read()


def payload_of(id):
    """What an envelope of the kept folder holds, as a line."""
    body = body_of(id)
    return base64.b64decode(json.loads(body[body.index(b"{") :])["payload"]) + b"\n"


def tells_policies(repositories):
    """gittuf-inspect policy tells the files of the policy in force, and nothing where there is none"""
    folder = kept(repositories, "inspected policy")
    want(run(INSPECT, folder, "policy"), (0, b"".join(map(payload_of, FILES)), b""), "the policy")
    want(run(INSPECT, folder, "policy", "--root", NOBODY), (0, b"", b""), "the policy of others")
    want(run(INSPECT, folder, "policy", "--at", "1"), (0, b"", b""), "the policy of the first entry")
    for number in ("2", "10", "1000000"):
        want(run(INSPECT, folder, "policy", "--at", number), run(INSPECT, folder, "policy"), f"the policy of entry {number}")
    for target in (POLICY_AT, ZEROS, FIRST):
        words = ("policy", "--against", target), ("would", POLICY, target, "--key", NOBODY)
        want(*(run(INSPECT, folder, *it) for it in words), f"what is told of a policy at {target}")
    want(run(INSPECT, folder, "policy", "--against", POLICY_AT)[0], 0, "the status of one that may come into force")
    want(run(INSPECT, folder, "policy", "--against", FIRST)[0], 1, "the status of one that is none")


def leaves_of(key):
    """The leaves that entries of the kept folder name of a key of one level."""
    bodies = map(body_of, os.listdir(os.path.join(KEPT, "objects")))
    found = [re.search(rb"\nlmssig %s (\S+)\n" % key.encode(), body) for body in bodies]
    return [int.from_bytes(base64.b64decode(it[1])[:4], "big") for it in found if it]


def tells_leaves(repositories):
    """gittuf-inspect used tells the greatest leaf of a key that signed an entry, and null of a key that signed none"""
    folder = kept(repositories, "inspected leaves")
    leaf = {"key": ALICE, "leaf": max(leaves_of(ALICE))}
    keys = {it["keyid"]: it["public"] for it in json.loads(payload_of(FILES[0]))["keys"]}
    for key in (ALICE, keys[ALICE]):
        want(told(folder, "--key", key, word="used"), (0, [leaf]), "the leaf of a key that signed entries")
    for key, id in ((BOB, BOB), (keys[BOB], BOB), (STRANGER, STRANGER), (NOBODY, NOBODY)):
        want(told(folder, "--key", key, word="used"), (0, [{"key": id, "leaf": None}]), "that of a key that signed none")
    want(len(leaves_of(STRANGER)), 1, "the entries of a key that no policy has")


def tells_breaks(repositories):
    """gittuf-inspect tells a log that is no chain with status 3, and refuses other words with status 2"""
    broken = kept(repositories, "inspected broken", **{LOG: TIP})
    want(run(INSPECT, broken, "verdicts", MAIN), (3, f"log-broken {TIP}\n".encode(), b""), "what is told of a log that breaks")
    others = (("policy", "--at", "1"), ("would", "--annotate", "skip", TIP, "--key", ALICE))
    for words in (*others, ("would", MAIN, TIP, "--key", ALICE), ("verdicts",), ("policy",), ("used", "--key", ALICE)):
        want(run(INSPECT, broken, *words), (3, f"log-broken {TIP}\n".encode(), b""), f"what is told of {words}")
    outside = (
        *((), ("verdicts", LOG), ("verdicts", "main"), ("log", "--from", "0"), ("log", "--root", ZEROS[1:]), ("policy", MAIN)),
        *(("would", MAIN, TIP), ("would", MAIN, "--key", ALICE), ("would", LOG, TIP, "--key", ALICE)),
        *(("used",), ("used", "--key", ALICE[1:]), ("used", "--key", 60 * "zz")),
        *(("policy", "--against"), ("policy", "--against", TIP[1:])),
        *(("policy", "--at", "0"), ("policy", "--at", "1", "--against", TIP)),
        *(("would", "--annotate", "note", TIP, "--key", ALICE), ("would", "--annotate", "skip", TIP, TIP, "--key", ALICE)),
        *(("would", "--annotate", "skip", TIP[1:], "--key", ALICE), ("would", "--annotate", "skip", TIP, "--key", f"{ALICE},{BOB}")),
        *(("would", MAIN, TIP[1:], "--key", ALICE), ("would", MAIN, TIP, "--key", f"{ALICE},")),
    )
    for words in outside:
        want(run(INSPECT, broken, *words), (2, b"", b"words refused\n"), f"what is told of {words}")


CHECKS = (tells_accepted, tells_by_roots, tells_others, tells_all, tells_unrecorded, tells_would, tells_skips, tells_leaves, tells_policies, tells_breaks)
