"""The checks of tools/test on the store of a clone in a database, and on its way from a folder into one and back."""

import contextlib
import os
import random
import shutil
import signal
import sqlite3
import subprocess
import time

from checking import LAUNCHER, in_this_run, run, want
from guarded_clones import MAIN, TOOL, another
from made_databases import change, is_sound, locked, rows_of

LOG, ATTESTATIONS = "refs/gittuf/reference-state-log", "refs/gittuf/attestations"
# So many moves are killed in the shorter run, and in the longer one.
STOPS, MORE = 8, 60
ACCEPTED = f"accepted {MAIN} 1 entries\n".encode()
DAMAGED = b"git-gittuf: the store was damaged, and is made again from Git\n"


def place_of(clones, who):
    """The folder of a clone in which the store is."""
    top = clones.git("rev-parse", "--git-common-dir", who=who).decode().strip()
    return os.path.join(clones.path(who), top, "gittuf")


def database_of(clones, who):
    return os.path.join(place_of(clones, who), "kept.db")


def stores(clones, who):
    """What is there of stores, whole or not, but the log of a database that is there."""
    there = os.listdir(place_of(clones, who))
    logs = ("kept.db-wal",) if "kept.db" in there else ()
    return sorted(it for it in there if it.startswith(("beside", "kept", "removed")) and it not in logs)


def in_database(clones, who):
    clones.gittuf(who, "setup", "--store", "database")
    want(stores(clones, who), ["kept.db"], f"the stores of {who}")


def goes_between_kinds(repositories):
    """the store goes from a folder into a database and back with the same bytes, and doctor says which of them it is"""
    clones = another(repositories, "kinds")
    place, whole = place_of(clones, "bob"), clones.gittuf("bob", "export")
    want(clones.gittuf("bob", "doctor", "--store"), f"folder {place}/kept\n".encode(), "which store it is")
    in_database(clones, "bob")
    for _ in range(2):
        want(clones.gittuf("bob", "doctor", "--store", "database"), f"database {place}/kept.db\n".encode(), "which store it is")
    want(clones.gittuf("bob", "export"), whole, "the stream of the database")
    want(run(LAUNCHER, f"{place}/kept.db", "-", "export")[1], whole, "the program's stream of it")
    is_sound(f"{place}/kept.db")
    objects = [it.split(b" ")[1] for it in whole.splitlines() if it.startswith(b"object ")]
    want([it.hex().encode() for it, in rows_of(f"{place}/kept.db", "SELECT id FROM objects ORDER BY id")], objects, "the ids of its rows")
    clones.verdict("bob", ACCEPTED.decode().strip())
    want(clones.gittuf("bob", "doctor", "--store", "folder"), f"folder {place}/kept\n".encode(), "which store it is again")
    want((stores(clones, "bob"), clones.gittuf("bob", "export")), (["kept"], whole), "the store, and its stream")
    clones.refused("bob", "setup", "--store", "box", status=2, part="argument --store: invalid choice: 'box'")
    clones.gittuf("bob", "setup", "--anew", "--store", "database")
    want((stores(clones, "bob"), clones.gittuf("bob", "export")), (["kept.db"], whole), "one that was made anew")
    clones.gittuf("bob", "setup", "--anew")
    want((stores(clones, "bob"), clones.gittuf("bob", "export")), (["kept.db"], whole), "one that stays what it is")


def works_in_a_database(repositories):
    """two maintainers and a server with the hook, each with a database, do what they do in folders, and two calls at once wait"""
    clones = another(repositories, "databases")
    for who in ("alice", "bob", "server.git"):
        in_database(clones, who)
    clones.gittuf("server.git", "hook", "install", "--server")
    clones.gittuf("alice", "policy", "rule", "main", MAIN, "--persons", "alice,bob", "--threshold", "2")
    clones.sign("alice")
    clones.gittuf("alice", "policy", "apply")
    clones.gittuf("alice", "push")
    clones.git("pull", "--quiet", who="bob")
    clones.commit("bob")
    clones.gittuf("bob", "approve", "main")
    clones.git("push", "--quiet", "origin", "HEAD:refs/heads/topic", "refs/gittuf/*:refs/gittuf/*", who="bob")
    clones.git("fetch", "--quiet", who="alice")
    clones.git("merge", "--quiet", "--ff-only", "origin/topic", who="alice")
    clones.gittuf("alice", "record", "main")
    clones.gittuf("alice", "push")
    clones.clone("mallory")
    clones.gittuf("mallory", "log")
    clones.commit("mallory", "evil")
    clones.gittuf("mallory", "record", "main", "--anyway")
    status, _, errors = clones.asked("mallory", "push", "--anyway")
    want((status != 0, b"nothing of this push is taken" in errors), (True, True), f"whether the server refuses a stranger: {errors}")
    clones.git("pull", "--quiet", who="bob")
    words = ("verify", "-v")
    at_once = [subprocess.Popen((TOOL, *words), cwd=clones.path("bob"), stdout=subprocess.PIPE, stderr=subprocess.PIPE) for _ in range(3)]
    # Who waits long says so on standard error.
    told = {it.communicate()[0] for it in at_once}
    want((len(told), [it.returncode for it in at_once]), (1, [0] * 3), f"what three calls at once say: {told}")
    for who in ("alice", "bob", "server.git"):
        clones.verdict(who, f"accepted {MAIN} 2 entries")
        clones.verdict(who, f"accepted {ATTESTATIONS} 1 entries", name=ATTESTATIONS)
        is_sound(database_of(clones, who))
        want(stores(clones, who), ["kept.db"], f"the stores of {who}")
    clones.sound("alice", "bob")


def left_over(clones, who):
    """Each state that a stop may leave between a folder and a database, made by hand, with the kind that is the store there."""
    place = place_of(clones, who)
    aside = clones.path("aside")
    in_database(clones, who)
    shutil.copytree(place, f"{aside}-database")
    clones.gittuf(who, "doctor", "--store", "folder")
    shutil.copytree(place, f"{aside}-folder")

    def half(path):
        os.makedirs(os.path.join(place, path, "objects"))
        with open(os.path.join(place, path, "objects", "0" * 64), "wb") as file:
            file.write(b"blob 1\0")

    def cut(path):
        with open(f"{aside}-database/kept.db", "rb") as file, open(os.path.join(place, path), "wb") as to:
            to.write(file.read(5000))

    states = [(False, lambda: cut("beside.db")), (False, lambda: cut("beside.db-wal")), (True, lambda: half("beside")), (True, lambda: half("kept"))]
    states.append((False, lambda: cut("kept.db-wal")))
    states.append((True, lambda: shutil.copytree(f"{aside}-folder/kept", f"{place}/kept")))
    for is_database, state in states:
        shutil.rmtree(place)
        shutil.copytree(f"{aside}-{'database' if is_database else 'folder'}", place)
        state()
        yield "database" if is_database else "folder"


def is_whole_at_any_stop(repositories):
    """a move that is stopped at any moment leaves the one store or the other with all that it has, and the next call tidies"""
    clones = another(repositories, "stopped moves")
    whole = clones.gittuf("bob", "export")
    for kind in left_over(clones, "bob"):
        want(clones.gittuf("bob", "verify", "main"), ACCEPTED, "the verdict after a stop")
        want(clones.gittuf("bob", "doctor", "--store", kind).split()[0].decode(), kind, "which store it is")
        clones.gittuf("bob", "setup")
        want(stores(clones, "bob"), ["kept.db" if kind == "database" else "kept"], "what is there then")
        want(clones.gittuf("bob", "export"), whole, f"the stream of the {kind}")
    drawn, ends, start = random.Random(38), {"folder": 0, "database": 0}, time.monotonic()
    clones.gittuf("bob", "doctor", "--store", "folder")
    seconds, kind = time.monotonic() - start, "folder"
    for _ in range(in_this_run(STOPS, MORE)):
        other = "folder" if kind == "database" else "database"
        words = (TOOL, "doctor", "--store", other)
        ran = subprocess.Popen(words, cwd=clones.path("bob"), stdout=subprocess.PIPE, stderr=subprocess.PIPE, start_new_session=True)
        with contextlib.suppress(subprocess.TimeoutExpired):
            ran.wait(timeout=drawn.uniform(0.2, 1.2) * seconds)
        if ran.poll() is None:
            os.killpg(ran.pid, signal.SIGKILL)
        ran.communicate()
        want(clones.gittuf("bob", "verify", "main"), ACCEPTED, "the verdict after a kill")
        kind = clones.gittuf("bob", "doctor", "--store").split()[0].decode()
        ends[kind] += 1
        clones.gittuf("bob", "setup")
        want((stores(clones, "bob"), clones.gittuf("bob", "export")), (["kept.db" if kind == "database" else "kept"], whole), f"the {kind}")
    return ", ".join(f"{count} in a {end}" for end, count in ends.items())


def mends_a_database(repositories):
    """a database that is cut, foreign or lacks an object is made again from Git, and one that another program holds is waited for"""
    clones = another(repositories, "damaged databases")
    in_database(clones, "bob")
    place = database_of(clones, "bob")
    with open(place, "rb") as file:
        text = file.read()
    tree = bytes.fromhex(clones.tip("bob", f"{MAIN}^{{tree}}"))
    zeros = ("UPDATE refs SET id = ? WHERE name = ?", (b"x", MAIN.encode()))
    of_rows = [("DELETE FROM objects WHERE id = ?", (tree,)), ("UPDATE objects SET body = ? WHERE id = ?", (b"x", tree))]
    of_rows += [("UPDATE objects SET kind = 9 WHERE id = ?", (tree,)), "UPDATE facts SET value = 9"]
    of_rows += ["CREATE TABLE mine (a)", "DROP TABLE refs"]
    for it in (b"", b"no database\n" * 1000, text[:5000], text[:-1], *of_rows):
        if isinstance(it, bytes):
            with open(place, "wb") as file:
                file.write(it)
        else:
            change(place, it)
        status, output, errors = clones.asked("bob", "verify", "main")
        want((status, output, errors.endswith(DAMAGED)), (0, ACCEPTED, True), f"what is said after {it[:60]}: {errors}")
        is_sound(place)
    # A row that stands for nothing goes into no stream, and so not into another store.
    change(place, ("INSERT INTO refs VALUES (?, ?)", (b"mine", tree)))
    not_moved = "the store is not moved, as export says fault, import says stream"
    clones.refused("bob", "doctor", "--store", "folder", status=4, part=not_moved)
    want(stores(clones, "bob"), ["kept.db"], "the stores then")
    clones.gittuf("bob", "setup", "--anew")
    # Git says where it stands, and nothing was lost.
    change(place, zeros)
    want(clones.gittuf("bob", "verify", "main"), ACCEPTED, "the verdict where a reference's row is none")
    with locked(place, "EXCLUSIVE"):
        clones.refused("bob", "verify", "main", status=4, part="another program has it open: wait for it")
    want(clones.gittuf("bob", "verify", "main"), ACCEPTED, "the verdict then")
    with contextlib.closing(sqlite3.connect(place)) as database:
        want(database.execute("PRAGMA integrity_check").fetchall(), [("ok",)], "what the library finds in the end")


CHECKS = (
    goes_between_kinds,
    works_in_a_database,
    is_whole_at_any_stop,
    mends_a_database,
)
