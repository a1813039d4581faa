"""The checks of tools/test on what git gittuf prints as JSON: that it says what the lines say, and whom a rule asks."""

import json

from checking import Skip, want
from git_gittuf import inspecting
from guarded_clones import MAIN, another

FILE, RULE = "docs/a page", "papers"


def objects(clones, who, *words, status=0):
    return [json.loads(it) for it in clones.gittuf(who, *words, "--json", status=status).splitlines()]


def parts(found, *names):
    return [found.get(it, "nothing") for it in names]


def with_edit(repositories, name):
    """Clones in which a rule asks bob for a path, and alice's edit of another one waits."""
    clones = another(repositories, name)
    clones.gittuf("alice", "policy", "rule", RULE, "file:docs/*", "--persons", "bob")
    clones.sign("alice")
    clones.gittuf("alice", "policy", "apply")
    clones.gittuf("alice", "policy", "rule", "tags", "git:refs/tags/*", "--persons", "alice,bob", "--threshold", "2", "--terminating")
    return clones


def says_whom_rules_ask(repositories):
    """explain says whom each rule asks, by -v and as JSON, and record and verify name a path as it is, which the program escapes"""
    clones = with_edit(repositories, "asked whom")
    found = objects(clones, "alice", "explain", "main")
    names = ("kind", "line", "name", "rule", "threshold", "terminating", "persons")
    want([parts(it, *names) for it in found], [["rule", "rule main 1 open", f"git:{MAIN}", "main", 1, False, ["alice", "bob"]]], "the rules of main")
    keys = sorted(clones.gittuf(who, "key", "--id").decode().strip() for who in ("alice", "bob"))
    want(found[0]["keys"], keys, "the keys of those whom it asks")
    line = f"rule {RULE} 1 open\n".encode()
    want(clones.gittuf("alice", "explain", FILE), line, "the rule of a path")
    want(clones.gittuf("alice", "explain", "-v", FILE), line + b"  asks 1 of bob\n", "the same with whom it asks")
    want(parts(objects(clones, "alice", "explain", FILE)[0], "rule", "persons"), [RULE, ["bob"]], "the same as JSON")
    want(objects(clones, "alice", "explain", "other"), [{"kind": "unprotected", "line": "unprotected", "name": "file:other"}], "a path of no rule")
    clones.commit("alice", FILE)
    part = f"rule {RULE} wants 1 of bob for a change of {FILE}; missing is bob"
    clones.refused("alice", "record", "main", status=3, part=part)
    clones.gittuf("alice", "record", "main", "--anyway")
    line, *told = clones.gittuf("alice", "verify", "-v", "main", status=1).decode().splitlines()
    wanted = f"    rule {RULE} wants 1 of bob for a change of {FILE}: missing is bob"
    want((line, told[-1]), (f"violation {MAIN} 4 path-rule docs/a%20page {RULE} 0 of 1", wanted), "what verify -v says")
    verdict = objects(clones, "alice", "verify", "-v", "main", status=1)[0]
    want(parts(verdict, "verdict", "ref", "entry", "fault", "line"), ["violation", MAIN, 4, "path-rule", line], "the verdict")
    want(parts(verdict["told"][-1], "rule", "path", "missing", "person", "approved"), [RULE, FILE, ["bob"], "alice", []], "what is told of the entry")
    clones.gittuf("alice", "policy", "discard")


def says_what_a_policy_changes(repositories):
    """log says by -v and as JSON what a policy that came into force changes of the one before it, where gittuf-inspect is here"""
    clones = with_edit(repositories, "changed")
    clones.sign("alice")
    clones.gittuf("alice", "policy", "apply")
    clones.gittuf("alice", "policy", "rule", RULE, "file:docs/*", "--persons", "alice,bob", "--threshold", "2")
    clones.sign("alice")
    clones.gittuf("alice", "policy", "apply")
    found = [it.get("changed") for it in objects(clones, "alice", "log") if it.get("ref") == "refs/gittuf/policy"]
    lines = [it for it in clones.gittuf("alice", "log", "-v").decode().splitlines() if it.startswith(("  + ", "  - "))]
    if not inspecting.place():
        want((found, lines), ([None] * 4, []), "what is told without gittuf-inspect")
        raise Skip("gittuf-inspect is not here")
    nothing = {"added": [], "removed": []}
    first, second, third = found[1:]
    want(found[0], None, "what the first policy changes")
    papers = "rule papers file:docs/* by bob open", "rule papers file:docs/* by alice bob open"
    want((first["rules"], first["thresholds"]["added"]), ({"added": [papers[0]], "removed": []}, ["rule papers 1"]), "what the second adds")
    want((second["keys"], second["persons"], second["thresholds"]["added"]), (nothing, nothing, ["rule tags 2"]), "what the third adds")
    wanted = {"added": [papers[1]], "removed": [papers[0]]}, {"added": ["rule papers 2"], "removed": ["rule papers 1"]}
    want((third["rules"], third["thresholds"]), wanted, "what the fourth changes")
    told = [f"  - {papers[0]}", f"  + {papers[1]}", "  - threshold of rule papers 1", "  + threshold of rule papers 2"]
    want(lines[-4:], told, "what log -v says of that")


def says_what_is_edited(repositories):
    """policy show and doctor say as JSON what their lines say: the policy in force and the edited one, who signed that, and what is odd"""
    clones = with_edit(repositories, "shown as JSON")
    lines = clones.gittuf("bob", "doctor", status=0).decode()
    want((lines, objects(clones, "bob", "doctor")), ("all is well\n", []), "what is odd of bob")
    (found,) = objects(clones, "alice", "policy", "show")
    want(found["id"], clones.shown_id("alice"), "the id")
    want(found["changes"], ["+ rule tags: git:refs/tags/* by 2 of alice bob, and no later rule"], "what would change")
    want(found["waiting"], [{"file": "targets", "signed": [], "missing": ["alice"], "threshold": 1}], "who is to sign that")
    rules = [parts(it, "file", "name", "paths", "persons", "threshold", "terminating") for it in found["edited"]["rules"]]
    want(rules[-1], ["targets", "tags", ["git:refs/tags/*"], ["alice", "bob"], 2, True], "the rule that is edited")
    want([it["name"] for it in found["in_force"]["rules"]], ["main", RULE], "the rules in force")
    want(found["in_force"]["versions"], {"root": 1, "targets": 2}, "the versions in force")
    want(found["in_force"]["persons"]["bob"], [clones.gittuf("bob", "key", "--id").decode().strip()], "the keys of bob")
    lines = clones.gittuf("alice", "doctor", status=1).decode().splitlines()
    odd = objects(clones, "alice", "doctor", status=1)
    want([f"{it['what']}: {it['mends']}" for it in odd], lines, "what is odd of alice")


CHECKS = (says_whom_rules_ask, says_what_a_policy_changes, says_what_is_edited)
