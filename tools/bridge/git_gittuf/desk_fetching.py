"""`git gittuf fetch --desk`: what a desk has comes into Git as a remote's, beside what is here."""

import os

from git_gittuf import names, remotes
from git_gittuf.desks import NAME, Desk
from git_gittuf.repository import LOG, OWN, TARGETS, ZEROS, Stopped
from git_gittuf.shown import plain, quoted
from git_gittuf.telling import say, tell
from packs import EMPTY_TREE, Pack
from streams import Input, read_stream


def expect_desk(repository, name):
    """Refuses a name that is another remote's, or none that a remote may have."""
    if name in repository.remotes() and not remotes.is_desk(repository, name):
        raise Stopped(f"{plain(name)} is a remote of Git already: git gittuf fetch --desk PORT --remote NAME takes another name", 3)
    if repository.git("check-ref-format", f"refs/remotes/{name}/main")[0] or "/" in name or name.startswith("-"):
        raise Stopped(f"{plain(name)} is no name of a remote", 2)


def place_of(remote, name):
    """Where a reference of the desk stands here, or nothing where it comes here as it is in Git by no fetch."""
    if name.startswith(OWN) and not name.startswith(TARGETS):
        return remotes.beside(remote, name)
    return names.remote_branch(name, remote) if name.startswith(names.HEADS) else None


def take_objects(repository, desk):
    """Puts the objects of a desk into Git, and returns its references. Nothing is there of a stream that is refused."""
    # Few calls want it, and it takes long to load.
    import tempfile

    with tempfile.TemporaryFile() as file:
        pack = Pack(file)
        with desk.stream() as pipe:
            found = read_stream(Input(pipe, f"what {desk.name} sends"), pack)
        if not pack.has_empty_tree:
            pack.add(EMPTY_TREE, b"tree", 0, [])
        pack.end()
        file.seek(0)
        status, _, said = repository.git_of(file, "index-pack", "--stdin", "--strict")
    if status:
        raise Stopped(f"git does not take what {desk.name} has: {plain(said)}", 3)
    return dict(found)


def expect_whole(repository, desk, values):
    """Refuses references of which an object lacks: a clone that has these is not whole."""
    lines = b"".join(b"%s\n" % it for it in values)
    status, _, said = repository.git("rev-list", "--objects", "--quiet", "--stdin", "--not", "--all", input=lines)
    if status:
        raise Stopped(f"{desk.name} lacks something that it names, and no reference of it is taken: {plain(said)}", 3)


def moved(repository, remote, found):
    """The moves of what stands here of the desk to where it has it, and what it has no more."""
    here, wanted = repository.all_references(), {}
    for name, value in found.items():
        place = place_of(remote, name)
        if place is not None:
            wanted[place] = value
        # What stands at a desk of remotes is what the clone knew of them whose stream was brought into it.
        elif not name.startswith((TARGETS, remotes.REMOTES, remotes.BESIDE)) and here.get(name) != value:
            stands = "stays where it is" if name in here else "is not made here"
            way = f"git update-ref {quoted(os.fsdecode(name))} {value.decode()}"
            tell(f"{plain(os.fsdecode(name))} {stands}, as tags and others are not taken: {way} puts it where the desk has it")
    fronts = tuple(it + os.fsencode(remote) + b"/" for it in (remotes.REMOTES, remotes.BESIDE))
    for place in here:
        if place.startswith(fronts):
            wanted.setdefault(place, None)
    return {place: (here.get(place, ZEROS), value or ZEROS) for place, value in wanted.items() if here.get(place) != value}


def fetch(work, words):
    repository, desk = work.repository, Desk(words.desk)
    remote = words.remote or NAME
    expect_desk(repository, remote)
    found = take_objects(repository, desk)
    expect_whole(repository, desk, found.values())
    remotes.set_up_desk(repository, remote, desk.port)
    repository.listed = None
    moves = moved(repository, remote, found)
    remotes.move(repository, moves)
    work.unfit = None
    work.bring()
    for place, (_, value) in sorted(moves.items()):
        print(f"fetched {plain(os.fsdecode(place))} {value.decode()}")
    if not moves:
        say(f"All that the desk has stands here as {plain(remote)} has it.")
    elif LOG in found:
        say(f"git gittuf verify says whether it is lawful, and git merge refs/remotes/{plain(remote)}/main, say, goes on to it.")
    return 0
