"""What the log in Git says, as far as a message or a choice needs it. Judging is the program's alone."""

import base64
import functools
import re

from git_gittuf.repository import LOG, OWN, TARGETS, ZEROS
from git_gittuf.remotes import fetched, is_before


def last_recorded(entries, name):
    """The id of the last of these entries that is of a reference and the target that it recorded, or nothing."""
    return next(((it, rest[1]) for _, it, kind, rest in reversed(entries) if kind == b"ref" and rest[0] == name), (None, None))


def kept_targets(repository, last, name, value, skipped):
    """The references that keep what is recorded, and what was recorded last, by that entry, where no reference reaches it any more.

    Whoever judges the next entry compares with what was recorded last, also in a clone that never had it.
    """
    kept = last_target(repository, last, value, skipped)
    if value is not None and not name.startswith(OWN):
        kept[TARGETS + value] = value
    return kept


def last_target(repository, last, value, skipped):
    """The reference that keeps what was recorded last, where no branch will reach it once this value is recorded.

    What no remote has was kept by who recorded it, or is nobody else's.
    """
    entry, last = last
    if last in (None, ZEROS) or not repository.there([last]):
        return {}
    if value is not None and is_before(repository, last, value) or entry in skipped:
        return {}
    return {TARGETS + last: last} if last in fetched(repository, repository.references(), [last]) else {}


@functools.lru_cache(maxsize=4)
def entries(lines):
    """The entries that the program's log lists, as number, id, kind and the rest of the words."""
    found = [it.split(b" ") for it in lines.splitlines()]
    return tuple((int(it[1]), it[2], it[3], it[4:]) for it in found if it[0] == b"entry")


ANNOTATED = re.compile(rb"^entryID: ([0-9a-f]{64})$", re.MULTILINE)
MESSAGE = re.compile(rb"\n-----BEGIN MESSAGE-----\n([A-Za-z0-9+/=\n]*)\n-----END MESSAGE-----\n")


def skips_of(repository, listed, entry_id):
    """The ids of the annotations among these that skip an entry."""
    bodies = repository.bodies([it[1] for it in listed if it[2] == b"skip"])
    return [found for found, _, body in bodies if entry_id in ANNOTATED.findall(body.partition(b"\n\n")[2])]


def skipped_by(repository, listed):
    """The ids of the entries that annotations among these say are skipped, whoever says so."""
    bodies = repository.bodies([it[1] for it in listed if it[2] == b"skip"])
    return {entry for _, _, body in bodies for entry in ANNOTATED.findall((body or b"").partition(b"\n\n")[2])}


def message_of(body):
    """What an annotation says, or nothing."""
    found = MESSAGE.search(body)
    try:
        return base64.b64decode(found[1]).decode(errors="surrogateescape") if found else None
    except ValueError:
        # It is no text of the form.
        return None


def targets(work):
    """What entries recorded, oldest first, by the references, or nothing where the log is none."""
    status, printed = work.read("log") if LOG in work.repository.references() else (0, b"")
    if status:
        return None
    found = {}
    for _, _, kind, rest in entries(printed):
        if kind == b"ref":
            found.setdefault(rest[0], []).append(rest[1])
    return found


def recorded_names(work):
    """The references that the log speaks of, in the order of their first entries."""
    listed = entries(work.asked("log")) if LOG in work.repository.references() else []
    return list(dict.fromkeys(rest[0] for _, _, kind, rest in listed if kind == b"ref"))


def brought_names(work):
    """The same names once the store is what Git is."""
    work.bring()
    return recorded_names(work)
