"""The checks of tools/test on global rules in git gittuf: how they are edited and signed, and what verify says by them; and how
far verify-global looks back."""

import contextlib
import json
import sqlite3

from checking import PROGRAM, in_this_run, run, want
from guarded_clones import MAIN, another
from made_databases import KINDS, SCHEMA, TABLES
from rows_objects import AUTHOR, object_id

PATH = "global/rules.json"
# So many ancestors of a target are looked at, which begin with it, and that may take so long.
MOST_ANCESTORS, FAR_SECONDS = 1_000_000, 900
NEAR, FAR = "refs/heads/near", "refs/heads/far"
TWO, KEEP = ("threshold", "two", "2", MAIN), ("no-rewind", "keep", "refs/heads/*")


def lines_of(clones, *words):
    return clones.gittuf("alice", "policy", "global", *words).decode().splitlines()


def put_in_force(clones, *rules):
    """Brings a policy with these global rules into force, which alice signs."""
    for it in rules:
        lines_of(clones, *it)
    clones.sign("alice")
    clones.gittuf("alice", "policy", "apply")


def edits_global_rules(repositories):
    """policy global adds, changes and takes out rules, in a file of its own that the root's persons sign"""
    clones = another(repositories, "global rules")
    want(lines_of(clones, *TWO), [f"+ global two: git:{MAIN} signed by at least 2"], "what a new rule changes")
    want(lines_of(clones, *TWO)[1:], ["nothing is other than it was"], "what the same rule changes")
    lines_of(clones, *KEEP)
    shown = clones.gittuf("alice", "policy", "show").decode().splitlines()
    want("+ global keep: git:refs/heads/* never goes back" in shown, True, f"whether the second rule is shown: {shown}")
    want("global/rules is signed by 0 of 1" in shown, True, f"whether the file waits for the root's person: {shown}")
    clones.refused("alice", "policy", "apply", status=3, part="nobody has signed global/rules yet")
    clones.sign("alice")
    clones.gittuf("alice", "policy", "apply")
    found = clones.git("cat-file", "blob", f"refs/gittuf/policy:{PATH}", who="alice")
    want(len(json.loads(found)["signatures"]), 1, "the signatures of the file")
    told = json.loads(clones.gittuf("alice", "policy", "show", "--json"))["in_force"]["global"]
    want([(it["name"], it["kind"], it["paths"]) for it in told], [("two", "threshold", [f"git:{MAIN}"]), ("keep", "no-rewind", ["git:refs/heads/*"])], "the rules")
    want(lines_of(clones, "threshold", "two", "3", MAIN)[-1], f"+ global two: git:{MAIN} signed by at least 3", "what another number changes")
    lines_of(clones, "--remove", "two")
    want(lines_of(clones, "--remove", "keep")[-1][:2], "- ", "what the last rule leaves")
    clones.gittuf("alice", "policy", "apply")
    want(run("git", "-C", clones.path("alice"), "cat-file", "-e", f"refs/gittuf/policy:{PATH}")[0] != 0, True, "whether the file is gone")


def refuses_global_rules(repositories):
    """what is no global rule is refused, and a file that is none is put away by the next rule"""
    clones = another(repositories, "no global rules")
    refused = lambda *words, status=2, part="a global rule is": clones.refused("alice", "policy", "global", *words, status=status, part=part)
    refused()
    refused("threshold", "two", MAIN)
    refused("threshold", "two", "0", MAIN)
    refused("threshold", "two", "2")
    refused("rewind", "two", MAIN)
    refused("no-rewind", "keep", "file:docs/*")
    refused("no-rewind", "a name", MAIN, part="is no name")
    refused("no-rewind", "keep", "main", part="says not what it is")
    refused("--remove", "two", status=3, part="there is no global rule two")


def tells_global_verdicts(repositories):
    """verify says behind a verdict which global rule an entry breaks, as for a rewind past commits that nobody recorded"""
    clones = another(repositories, "global verdicts")
    put_in_force(clones, KEEP)
    for _ in range(3):
        clones.commit("alice")
    clones.gittuf("alice", "record", "main")
    want(clones.gittuf("alice", "verify", "main").decode().splitlines()[-1], f"global-kept {MAIN} 2 entries", "the line of a branch that goes on")
    clones.git("reset", "--quiet", "--hard", "HEAD~2", who="alice")
    clones.gittuf("alice", "record", "main", "--anyway")
    line = f"global-violation {MAIN} 5 rewound keep"
    found = clones.gittuf("alice", "verify", "main", status=1).decode().splitlines()
    want(found, [f"accepted {MAIN} 3 entries", line], "the lines of one that goes back")
    told = [json.loads(it) for it in clones.gittuf("alice", "verify", "main", "--json", status=1).decode().splitlines()]
    want([(it["verdict"], it.get("entry"), it.get("fault"), it.get("why")) for it in told], [("accepted", None, None, None), ("global-violation", 5, "rewound", "keep")], "the same as JSON")
    clones.gittuf("alice", "skip", "5")
    clones.git("reset", "--quiet", "--hard", "ORIG_HEAD", who="alice")
    want(clones.gittuf("alice", "verify", "main").decode().splitlines()[-1], f"global-kept {MAIN} 3 entries", "the line once the entry is skipped")


def line_of_commits(count, tree, ids):
    """The rows of a line of so many commits; the ids of the first two and of the last are added to a list."""
    parent = b""
    for number in range(count):
        body = b"tree %s\n%sauthor %s\ncommitter %s\n\n%d\n" % (tree.encode(), parent, AUTHOR, AUTHOR, number)
        id = object_id(b"commit", body)
        parent = b"parent %s\n" % id.encode()
        if number in (0, 1, count - 1):
            ids.append(id)
        yield bytes.fromhex(id), KINDS[b"commit"], body


def line_database(place, count):
    """A database with a line of commits, of which one branch went from the second to the last, and one from the first, under
    the rule that none goes back."""
    import rows_of_global

    history, ids = rows_of_global.ruled(rows_of_global.KEEP), []
    tree = history.repository.add(b"tree", b"")
    with contextlib.closing(sqlite3.connect(place)) as database:
        database.executescript(TABLES + SCHEMA)
        database.executemany("INSERT INTO objects VALUES (?, ?, ?)", line_of_commits(count, tree, ids))
        for name, target in ((NEAR, ids[1]), (FAR, ids[0]), (NEAR, ids[2]), (FAR, ids[2])):
            history.record(name, target)
        objects = ((bytes.fromhex(id), KINDS[kind], body) for id, (kind, body) in history.repository.objects.items())
        database.executemany("INSERT INTO objects VALUES (?, ?, ?)", objects)
        references = ((name.encode(), bytes.fromhex(id)) for name, id in history.repository.references.items())
        database.executemany("INSERT INTO refs VALUES (?, ?)", references)
        database.commit()


def looks_at_a_million_ancestors(repositories):
    """verify-global looks at the first 1,000,000 ancestors, and says of a commit behind them that it is too far (with --long; else none is)"""
    place, count = repositories.path("far.db"), in_this_run(1_000, MOST_ANCESTORS + 1)
    line_database(place, count)
    asked = lambda name: run(PROGRAM, place, "-", "verify-global", name, seconds=FAR_SECONDS)
    want(asked(NEAR), (0, f"global-kept {NEAR} 2 entries\n".encode(), b""), f"of commit {count - 1}, counted from the target on")
    too_far = (1, f"global-violation {FAR} 5 too-far keep\n".encode(), b"")
    kept = (0, f"global-kept {FAR} 2 entries\n".encode(), b"")
    want(asked(FAR), too_far if count > MOST_ANCESTORS else kept, f"of commit {count}")


def tells_who_records(repositories):
    """record tells that its entry breaks a global rule, which keeps nobody from recording it, and nothing where none is broken"""
    clones = another(repositories, "global records")
    put_in_force(clones, KEEP)
    clones.commit("alice")
    found, _, said = clones.asked("alice", "record", "main")
    want((found, said), (0, b""), "what is said where no rule is broken")
    put_in_force(clones, TWO)
    clones.commit("alice")
    found, _, said = clones.asked("alice", "record", "main")
    parts = ("entry 6 was signed by 1 at most", "global rule two wants 2", "gives up what was recorded here and is not there yet")
    want((found, [it in said.decode() for it in parts]), (0, [True] * 3), f"what is said of an entry that one signed: {said}")


CHECKS = (edits_global_rules, refuses_global_rules, tells_global_verdicts, tells_who_records, looks_at_a_million_ancestors)
