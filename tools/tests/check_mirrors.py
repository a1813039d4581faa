"""The checks of tools/test on mirrors of a server, and on dossiers of what it showed."""

import hashlib
import os
import shutil

from checking import GIT_TO_STREAM, LAUNCHER, PROGRAM, at_terminal, run, want, want_run
from guarded_clones import MAIN, another

LOG = "refs/gittuf/reference-state-log"
# Where a clone has the log of its remote.
THEIRS = "refs/gittuf-remotes/origin/reference-state-log"
ORIGIN = ("mirror", "origin")


def mirrored(repositories, name):
    """Clones, and carol's, who signs nothing and keeps a mirror of the server, which has two entries."""
    clones = another(repositories, name)
    clones.clone("carol", key=False)
    clones.gittuf("carol", "verify", "main")
    before = clones.git("for-each-ref", who="carol")
    want(clones.gittuf("carol", *ORIGIN), b"taken 0 2\n", "what the first offer prints")
    want(clones.git("for-each-ref", who="carol"), before, "the own references after it")
    return clones


def note(clones, who, text):
    """Signs a note as the next entry of the log, and returns its id."""
    clones.gittuf(who, "note", "1", "-m", text)
    return clones.tip(who, LOG)


def store_of(clones, who="carol"):
    """The folder of the one mirror that a clone has."""
    top = os.path.join(clones.path(who), ".git", "gittuf", "mirrors")
    (place,) = os.listdir(top)
    return os.path.join(top, place, "store", "")


def files_of(folder):
    """The files below a folder with their texts."""
    found = {}
    for at, _, names in os.walk(folder):
        for it in names:
            with open(os.path.join(at, it), "rb") as file:
                found[os.path.relpath(os.path.join(at, it), folder)] = file.read()
    return found


def shows_two_histories(clones):
    """Lets alice sign entry 3 twice, as the server showed an old state in between; returns both ids, of which the mirror has the first."""
    shutil.copytree(clones.path("server.git"), clones.path("older.git"))
    first = note(clones, "alice", "first")
    clones.git("push", "--quiet", "origin", LOG, who="alice")
    want(clones.gittuf("carol", *ORIGIN), b"taken 2 3\n", "what an offer of one entry more prints")
    os.rename(clones.path("server.git"), clones.path("newer.git"))
    os.rename(clones.path("older.git"), clones.path("server.git"))
    clones.clone("another", key=False)
    clones.git("config", "gittuf.key", clones.path("alice.key"), who="another")
    second = note(clones, "another", "second")
    clones.git("push", "--quiet", "origin", LOG, who="another")
    return first, second


def only_grows(repositories):
    """a mirror takes what goes on from it, and stays as it was where the server shows less, the same, or no log, by a remote or a path"""
    clones = mirrored(repositories, "mirror grows")
    clones.gittuf("carol", *ORIGIN)
    whole = files_of(store_of(clones))
    want(f"{LOG}\n" in [f"{it}\n" for it in whole], True, "whether the mirror has the log")
    want(clones.gittuf("carol", *ORIGIN), b"same 2\n", "what the same offer prints")
    log = clones.tip("server.git", LOG)
    clones.git("update-ref", LOG, clones.tip("server.git", f"{LOG}~1"), who="server.git")
    want(clones.gittuf("carol", *ORIGIN, status=1), b"behind 2 1\n", "what a shorter log prints")
    clones.git("update-ref", "-d", LOG, who="server.git")
    want(clones.gittuf("carol", *ORIGIN, status=1), b"behind 2 0\n", "what no log prints")
    clones.git("update-ref", LOG, clones.tip("server.git", MAIN), who="server.git")
    broken = f"log-broken {clones.tip('server.git', MAIN)}\n".encode()
    want(clones.gittuf("carol", *ORIGIN, status=3), broken, "what a branch in the place of the log prints")
    want(files_of(store_of(clones)), whole, "the mirror after all of that")
    clones.git("update-ref", LOG, log, who="server.git")
    want(clones.gittuf("carol", *ORIGIN), b"same 2\n", "what the log prints once it is back")
    for into, store in (("kept", "kept/"), ("kept.db", "kept.db")):
        words = ("mirror", clones.path("server.git"), "--into", clones.path(into))
        want(clones.gittuf("carol", *words), b"taken 0 2\n", f"what the first offer into {into} prints")
        want(clones.gittuf("carol", *words), b"same 2\n", f"what the second offer into {into} prints")
        judged = run(LAUNCHER, clones.path("") + store, "-", "verify-ref", MAIN)
        want(judged[:2], (0, f"accepted {MAIN} 1 entries\n".encode()), f"the verdict over {into}")
    clones.git("update-ref", LOG, clones.tip("server.git", MAIN), who="server.git")
    begun = clones.asked("carol", "mirror", clones.path("server.git"), "--into", clones.path("none"))
    want(begun, (3, broken, b""), "what it prints where no mirror was begun")
    clones.refused("carol", "mirror", "nowhere", status=3, part="nowhere is no remote, and nothing stands at")
    os.rename(clones.path("server.git"), clones.path("away.git"))
    clones.refused("carol", *ORIGIN, status=4, part="origin does not answer: nothing stands at")


def keeps_another_past(repositories):
    """a server that shows two histories is told, the mirror keeps both entries, and their dossier shows the fork to whoever has it"""
    clones = mirrored(repositories, "mirror forked")
    first, second = shows_two_histories(clones)
    whole = files_of(store_of(clones))
    line = f"forked 3 {first} {second}\n"
    status, said = at_terminal("git gittuf mirror origin", clones.path("carol"))
    way = f"git gittuf evidence {first} {second} -o FILE"
    want((status, said.startswith(line), f"{first[:12]}, signed by alice" in said, way in said), (1, True, True, True), f"what is said: {said}")
    more = {name: text for name, text in files_of(store_of(clones)).items() if whole.get(name) != text}
    want({*more}, {f"objects/{second}", f"refs/mirror/fork/3/{second}"}, "what the mirror has more")
    want(clones.gittuf("carol", *ORIGIN, status=1).decode(), line, "what the same offer prints once more")
    path = clones.path("fork.dossier")
    want(clones.gittuf("carol", "evidence", first, second, "-o", path), b"fork 3\n", "what evidence prints")
    for who in ("alice", "bob", "carol"):
        want(clones.gittuf(who, "evidence", "--check", path), b"fork 3\n", f"what the dossier shows {who}")
    status, said = at_terminal("git gittuf evidence --check ../fork.dossier", clones.path("bob"))
    want((status, "alice signed two entries of number 3" in said), (0, True), f"what is said: {said}")
    parts = ("fork 3", "signed two entries of number 3", "Whose key that is a clone says")
    for where, begin in (("no repository is", "cp fork.dossier fork.file"), ("one of SHA-1 is", "git init --quiet --object-format=sha1 older && cp fork.dossier older/fork.file && cd older")):
        status, said = at_terminal(f"{begin} && git gittuf evidence --check fork.file", os.path.dirname(path))
        want((status, [it for it in parts if it not in said]), (0, []), f"what is said where {where}: {said}")
    clones.gittuf("carol", "mirror", "../newer.git", "--into", "../both.db")
    want(clones.gittuf("carol", "mirror", "origin", "--into", "../both.db", status=1).decode(), line, "what the fork prints for a database")
    words = ("evidence", first, second, "--from", "../both.db", "-o", "../again.dossier")
    want(clones.gittuf("carol", *words), b"fork 3\n", "what evidence prints from a database")
    with open(path, "rb") as file, open(clones.path("again.dossier"), "rb") as again:
        want(again.read(), file.read(), "the dossier from a database")


def shows_a_leaf_used_twice(repositories):
    """two entries that a copied key file signed with one leaf are shown as that, and a changed dossier shows nothing"""
    clones = mirrored(repositories, "leaf twice")
    shutil.copyfile(clones.path("alice.key"), clones.path("copy.key"))
    shutil.copyfile(clones.path("alice.key.pub"), clones.path("copy.key.pub"))
    first = note(clones, "alice", "first")
    clones.git("push", "--quiet", "origin", LOG, who="alice")
    clones.git("update-ref", LOG, f"{LOG}~1", who="server.git")
    clones.clone("other", key=False)
    clones.git("config", "gittuf.key", clones.path("copy.key"), who="other")
    leaf = clones.used("alice") - 1
    second = note(clones, "other", "second")
    clones.git("fetch", "--quiet", clones.path("other"), f"+{LOG}:{THEIRS}", who="alice")
    path = clones.path("leaf.dossier")
    shown = f"fork 3\nreuse {leaf}\n".encode()
    want(clones.gittuf("alice", "evidence", first, second, "-o", path), shown, "what evidence prints")
    with open(path, "rb") as file:
        text = file.read()
    at = text.index(b"lmssig ") + 200
    for name, changed, status, output in (
        ("whole", text, 0, shown),
        ("changed", text[:at] + (b"A" if text[at : at + 1] != b"A" else b"B") + text[at + 1 :], 1, b"nothing\n"),
        ("cut", text[:-1], 3, b""),
        ("empty", b"", 3, b""),
    ):
        with open(path, "wb") as file:
            file.write(changed)
        want(clones.gittuf("bob", "evidence", "--check", path, status=status), output, f"what the dossier shows that is {name}")


def names_who_had_the_key(repositories):
    """a dossier of a key that the policy names no more tells whose it was, and is made without its public part"""
    clones = mirrored(repositories, "rotated key")
    shutil.copyfile(clones.path("bob.key"), clones.path("copy.key"))
    shutil.copyfile(clones.path("bob.key.pub"), clones.path("copy.key.pub"))
    clones.gittuf("bob", "verify", "main")
    first = note(clones, "bob", "first")
    clones.clone("other", key=False)
    clones.git("config", "gittuf.key", clones.path("copy.key"), who="other")
    second = note(clones, "other", "second")
    for who in ("bob", "other"):
        clones.git("fetch", "--quiet", clones.path(who), f"+{LOG}:refs/theirs/{who}", who="carol")
    clones.gittuf("bob", "key", "--file", clones.path("new.key"), "--height", "5")
    clones.gittuf("alice", "policy", "rotate", "bob", clones.public("bob"))
    clones.sign("alice")
    clones.gittuf("alice", "policy", "apply")
    clones.gittuf("alice", "push")
    clones.git("fetch", "--quiet", who="carol")
    clones.gittuf("carol", "verify", "main")
    path = clones.path("rotated.dossier")
    want(clones.gittuf("carol", "evidence", first, second, "-o", path, "--from", made_store(clones, "carol")).startswith(b"fork 3\n"), True, "what is shown")
    _, said = at_terminal("git gittuf evidence --check ../rotated.dossier", clones.path("carol"))
    want("bob (by a key that the policy names no more) signed two entries of number 3" in said, True, f"what is said: {said}")


def made_store(clones, who):
    """A store of all that a clone has, for who is to find there what no log of theirs has."""
    place = clones.path("all/")
    want_run((LAUNCHER, place, "-", "import"), 0, b"imported\n", input=run(GIT_TO_STREAM, clones.path(who))[1])
    return place


def refuses_what_shows_nothing(repositories):
    """no dossier is written of entries of two keys, of one entry, or of two that were signed in turn, and each is told"""
    clones = mirrored(repositories, "no dossier")
    first, second = note(clones, "alice", "first"), note(clones, "alice", "second")
    clones.gittuf("alice", "push")
    clones.git("pull", "--quiet", who="bob")
    third = note(clones, "bob", "third")
    path = clones.path("none.dossier")
    part = "one is signed by alice and the other by bob: a dossier shows what one key signed"
    clones.git("fetch", "--quiet", clones.path("bob"), f"+{LOG}:{THEIRS}", who="alice")
    clones.refused("alice", "evidence", second, third, "-o", path, status=3, part=part)
    for pair in ((first, second), (first, first)):
        want(clones.gittuf("alice", "evidence", *pair, "-o", path, status=1), b"nothing\n", "what evidence prints")
    unknown = hashlib.sha256(b"").hexdigest()
    clones.refused("alice", "evidence", first, unknown, "-o", path, status=3, part=f"has the object {unknown}")
    clones.refused("alice", "evidence", first, status=2, part="evidence takes two entries and -o FILE")
    clones.refused("alice", "evidence", first, second, "--key", "00", "-o", path, status=3, part="--key is not the public part")
    want(os.path.exists(path), False, "whether a file was written")


def places_of(text):
    """Places in a dossier: each of its first line and key, of what is around a size and at the end, and some of the bodies."""
    at = text.index(b"\nright ")
    return sorted({*range(300), *range(at - 4, at + 20), *range(len(text) - 8, len(text)), *range(300, len(text), 211)})


def shows_nothing_of_changed_dossiers(repositories):
    """a dossier that is cut, and one in which a byte is another, is none or shows nothing, at each place that is looked at"""
    clones = mirrored(repositories, "dossiers")
    first, second = shows_two_histories(clones)
    clones.gittuf("carol", *ORIGIN, status=1)
    path = clones.path("fork.dossier")
    clones.gittuf("carol", "evidence", first, second, "-o", path)
    with open(path, "rb") as file:
        text = file.read()
    check = lambda given: run(PROGRAM, "-", "-", "evidence-check", input=given)
    want(check(text), (0, b"fork 3\n", b""), "what the whole dossier shows")
    want(check(text + b"\n"), (3, b"", b"input\n"), "what it shows with a line feed more")
    for at in places_of(text):
        want(check(text[:at]), (3, b"", b"input\n"), f"what is told of the first {at} bytes")
        told = check(text[:at] + bytes((text[at] ^ 1,)) + text[at + 1 :])
        want(told in ((3, b"", b"input\n"), (1, b"nothing\n", b"")), True, f"what is told where byte {at} is another: {told}")
    return f"{len(places_of(text))} places of {len(text)} bytes"


def is_mended_by_an_offer(repositories):
    """an object of a mirror that is damaged breaks its log, and is whole again once an offer goes on from there that has it"""
    clones = mirrored(repositories, "mirror damaged")
    recorded = clones.tip("alice")
    path = os.path.join(store_of(clones), "objects", recorded)
    whole = files_of(store_of(clones))
    with open(path, "wb") as file:
        file.write(b"commit 1\0x")
    judged = lambda: run(LAUNCHER, store_of(clones), "-", "verify-ref", MAIN)[:2]
    want(judged(), (1, f"violation {MAIN} 2 broken {recorded}\n".encode()), "the verdict over the damaged mirror")
    want(clones.gittuf("carol", *ORIGIN), b"same 2\n", "what an offer that adds nothing prints")
    note(clones, "alice", "first")
    clones.git("push", "--quiet", "origin", LOG, who="alice")
    want(clones.gittuf("carol", *ORIGIN), b"taken 2 3\n", "what an offer that goes on prints")
    want({*whole.items()} - {*files_of(store_of(clones)).items()} - {(LOG, whole[LOG])}, set(), "what the mirror had and lacks then")
    want(judged(), (0, f"accepted {MAIN} 1 entries\n".encode()), "the verdict then")
    tip = clones.tip("alice", LOG)
    with open(os.path.join(store_of(clones), "objects", tip), "wb") as file:
        file.write(b"commit 1\0x")
    broken = f"log-broken {tip}\n".encode()
    want(clones.gittuf("carol", *ORIGIN, status=3), broken, "what an offer prints where the mirror's own log breaks")


def mends_after_a_stop(repositories):
    """what a stopped call left is taken away by the next one, and a mirror in the middle of a change of which nothing is known is told and not taken for one"""
    clones = mirrored(repositories, "mirror stopped")
    store = store_of(clones)
    place = os.path.dirname(store.rstrip("/"))
    for it in ("fetched.git/packed-refs.lock", "fetched.git/config.lock", "fetched.git/refs/heads/main.lock", "store/open.lock"):
        os.makedirs(os.path.dirname(os.path.join(place, it)), exist_ok=True)
        with open(os.path.join(place, it), "wb"):
            pass
    note(clones, "alice", "first")
    clones.git("push", "--quiet", "origin", LOG, who="alice")
    want(clones.gittuf("carol", *ORIGIN), b"taken 2 3\n", "what an offer after a stop prints")
    shutil.rmtree(os.path.join(place, "fetched.git", "objects"))
    want(clones.gittuf("carol", *ORIGIN), b"same 3\n", "what an offer prints where a fetch was stopped at its start")
    for text in (b"gittuf-change 1\nwhole\n", b""):
        for it, said in (("open.lock", b""), ("commit.lock", text)):
            with open(os.path.join(store, it), "wb") as file:
                file.write(said)
        if text:
            want(clones.gittuf("carol", *ORIGIN), b"same 3\n", "what an offer prints where one was stopped in a change")
    clones.refused("carol", *ORIGIN, status=4, part="was left in the middle of a change, and counts for nothing")


CHECKS = (
    only_grows,
    keeps_another_past,
    shows_a_leaf_used_twice,
    names_who_had_the_key,
    refuses_what_shows_nothing,
    shows_nothing_of_changed_dossiers,
    is_mended_by_an_offer,
    mends_after_a_stop,
)
