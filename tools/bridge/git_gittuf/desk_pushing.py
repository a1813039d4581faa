"""`git gittuf push --desk`: the entries that a desk does not have yet go to it, one after the other.

What goes with an entry comes from Git, since the store of git gittuf has no files.
"""

from git_gittuf import history, program, sentences
from git_gittuf.desks import NAME, Desk
from git_gittuf.repository import LOG, ZEROS, Stopped
from git_gittuf.telling import say
from stream_format import MAX_BODY

# The status where a desk does not take a push.
REFUSED = 7
MAX_PUSH = 64 << 20
HEADER, END = b"gittuf-push 1\n", b"end\n"


def listed_log(work):
    """The entries of the own log."""
    if LOG not in work.repository.references():
        return ()
    return history.entries(work.asked("log"))


def targets_of(listed, number):
    """What an entry recorded of a reference, and what the one before it of the same reference did; zeros where nothing."""
    _, _, kind, rest = listed[number - 1]
    if kind != b"ref":
        return ZEROS, ZEROS
    before = [it[3][1] for it in listed[: number - 1] if it[2] == b"ref" and it[3][0] == rest[0]]
    return rest[1], before[-1] if before else ZEROS


def objects_of(repository, listed, number):
    """The ids of what goes with an entry: itself, and what its target reaches and the target before does not."""
    entry, (target, before) = listed[number - 1][1], targets_of(listed, number)
    if target == ZEROS:
        return {entry}
    if not repository.there([target]):
        raise Stopped(f"what entry {number} recorded is not here: git fetch may bring {target.decode()[:12]}", 3)
    known = [b"^" + it for it in repository.there({before} - {ZEROS})]
    lines = b"".join(b"%s\n" % it for it in (target, *known))
    words = ("rev-list", "--objects", "--no-object-names", "--stdin")
    return {entry, *repository.asked(f"list what entry {number} recorded", *words, input=lines).split()}


def text_of(repository, listed, number):
    """The text of the push of an entry: the objects by rising ids, and the entry that one of them is."""
    records, size, ids = [], 0, sorted(objects_of(repository, listed, number))
    for object_id, kind, body in repository.bodies(ids):
        if body is None:
            raise Stopped(f"the object {object_id.decode()[:12]} of entry {number} has more than {MAX_BODY >> 20} MiB, and no desk takes it", 3)
        records.append(b"object %s %s %d\n%s\n" % (object_id, kind, len(body), body))
        size += len(records[-1])
        if size > MAX_PUSH:
            break
    text = b"".join([HEADER, *records, b"entry %s\n" % listed[number - 1][1], END])
    if len(text) > MAX_PUSH:
        way = "git-to-stream PROJECT | gittuf STORE - import brings a whole repository into an empty store before a desk opens it"
        raise Stopped(f"what entry {number} recorded has more than {MAX_PUSH >> 20} MiB, and no desk takes it as one push: {way}", 3)
    return text


def expect_front(desk, listed, count, tip):
    """Refuses to send where the desk has other entries than the first ones here."""
    way = f"git gittuf fetch --desk {desk.port} brings them"
    if count > len(listed):
        raise Stopped(f"{desk.name} has {count} entries, and here are {len(listed)}: {way}", 3)
    if count and listed[count - 1][1] != tip:
        raise Stopped(f"{desk.name} has another entry {count} than is here: {way}, and git gittuf doctor says more", 3)


def of_denied(desk, line):
    """Why a gate takes an entry not, with the way on: what is signed stays as it is, so it is given up and recorded anew."""
    taken = f"git gittuf fetch --desk {desk.port} and git gittuf doctor --take {NAME} give it up, with what is recorded here behind it"
    return f"The gate takes nothing of it. {sentences.of_fault(line)} {taken}; it is recorded anew once it would be lawful."


def sentence(desk, number, line):
    """What an answer to the push of an entry means."""
    words = line.split(" ")
    if words[0] == "violation":
        return of_denied(desk, line)
    told = words[1] if words[1:] else ""
    back = f"git gittuf fetch --desk {desk.port}"
    return {
        "done": f"The desk has entry {number} now, and whatever it recorded.",
        "already": f"The desk had entry {number} already.",
        "stale": f"Another was faster: the desk has {told} entries by now. {back} brings them, and then git gittuf doctor says more.",
        "malformed": f"The desk does not read the push of entry {number}: is it older or newer than this git gittuf?",
        "incomplete": f"What entry {number} recorded names {told[:12]}, which neither is here nor has the desk: git fetch may bring it.",
        "too": f"What entry {number} recorded is larger than a push may be.",
        "misnumbered": f"The desk wants entry {words[-1]} next: its log does not have the number that it should.",
        "moved": "Something beside the desk moved the log in its store: who keeps the desk has to look at that.",
        "fault": "The store of the desk failed. It may have the entry all the same; the same call again says so.",
        "memory": "The desk wanted memory. The same call again may do.",
    }.get(words[0], f"What is at port {desk.port} is no desk, or one of another version.")


def push(work, words):
    if words.branches or words.remote or words.anyway:
        raise Stopped("push --desk sends entries in their order, and takes no branch, --remote or --anyway", 2)
    work.bring()
    desk, listed = Desk(words.desk), listed_log(work)
    count, tip = desk.tip()
    expect_front(desk, listed, count, tip)
    if count == len(listed):
        say(f"The desk has all {count} entries that are here.")
    progress = program.Progress()
    try:
        for number in range(count + 1, len(listed) + 1):
            progress.tell(f"entry {number} of {len(listed)} goes to the desk")
            is_taken, line = desk.push(text_of(work.repository, listed, number))
            progress.end()
            print(line, flush=True)
            say(sentence(desk, number, line))
            if not is_taken:
                return REFUSED
    finally:
        progress.end()
    return 0
