"""A mirror: a kept store whose log only grows, to which is offered what a remote has. What becomes of it the program says."""

import os

from git_gittuf import dossiers, mirror_places, program, signers
from git_gittuf.fetched import Fetched
from git_gittuf.locking import Lock, seconds_to_wait
from git_gittuf.program import Ended
from git_gittuf.repository import Stopped
from git_gittuf.shown import plain, quoted
from git_gittuf.telling import say, show, tell


def expect_whole(store):
    """Refuses the own mirror where a change of it was stopped half way by a program that did not write down which: others the next offer mends."""
    begun = os.path.join(store, "commit.lock")
    if os.path.lexists(begun) and not os.path.getsize(begun):
        said = f"{plain(store)} was left in the middle of a change, and counts for nothing"
        raise Stopped(f"{said}: remove it and begin anew; a database, as --into mirror.db makes one, is never left so")


def offered(work, place, store):
    """What the program says of an offer, and lets what was fetched go where the mirror did not take it."""
    progress = program.Progress()
    try:
        status, printed, said = program.offered(store, place.stream(progress), "mirror")
    finally:
        progress.end()
    if status == 3 or printed.startswith(b"forked "):
        # A server is not to fill the disk with pasts.
        place.drop()
    if said:
        tell(said)
    return status, printed


def of_forked(work, store, number, ids):
    """What is said of a log that parts from the kept one, and whether both entries make a dossier."""
    bodies = dossiers.bodies_of(dossiers.made(store, dossiers.NO_KEY, *ids)[1])
    people = dossiers.people(work)
    named = [dossiers.Side(it).key for it in bodies]
    signed = signers.of_bodies(work.repository, dict(zip(ids, bodies)), people.publics)
    who = [people.shown(signed[it]) for it in ids]
    said = (
        f"At entry {number} that is another past: the mirror has {ids[0][:12]}, signed by {who[0]}, and there stands {ids[1][:12]},"
        f" signed by {who[1]}. The log of the mirror stays as it was, and the other entry is kept beside it: ask who may write there"
    )
    if None in named or named[0] != named[1]:
        return f"{said}."
    at = "" if store in mirror_places.own_stores(work.repository) else f" --from {quoted(store)}"
    return f"{said}. Both name one key, and git gittuf evidence {ids[0]} {ids[1]}{at} -o FILE shows them to others."


def sentence(work, store, line):
    """What a line of the program means."""
    kind, *words = line.split(" ")
    if kind == "taken":
        begins = "It begins with" if words[0] == "0" else f"It went on from {count(words[0])} to"
        return f"{begins} {count(words[1])}, and the mirror has them: {plain(store)}"
    if kind == "same":
        return f"The mirror has {count(words[0])}, and just these are there: {plain(store)}"
    if kind == "behind":
        back = f"The mirror has {count(words[0])}, and there are only the first {words[1]} of them"
        return f"{back}: the server went back, or shows an old state. The mirror stays as it was; ask who may write there."
    if kind == "forked":
        return of_forked(work, store, words[0], words[1:])
    is_own = program.told(store, "-", "log")[0] == 3
    where = "The mirror's own log" if is_own else "The log that is there"
    return f"{where} is damaged or was tampered with at {words[0][:12]}: nothing was taken."


def count(number):
    return "one entry" if number == "1" else f"{number} entries"


def mirror(work, words):
    repository = work.repository
    url, known = mirror_places.url_of(repository, words.remote)
    folder = mirror_places.place_of(repository, known)
    store = mirror_places.own_store(folder) if words.into is None else mirror_places.store_at(words.into)
    with work.unlocked():
        os.makedirs(folder, exist_ok=True)
        os.makedirs(os.path.dirname(store.rstrip("/")), exist_ok=True)
        lock = Lock(folder, seconds_to_wait(repository))
        lock.take()
        try:
            if words.into is None:
                expect_whole(store)
            place = Fetched(folder)
            place.fetch(repository, url)
            status, printed = offered(work, place, store)
        finally:
            lock.give_back()
    if status not in (0, 1) and not printed.startswith(b"log-broken "):
        raise Ended(("mirror",), status, printed)
    show(printed)
    say(sentence(work, store, os.fsdecode(printed).strip()))
    return status
