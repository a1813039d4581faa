"""What is shown or checked out here otherwise than it is judged, so that nobody takes the one for the other."""

import os

from git_gittuf.shown import quoted

REPLACED = b"refs/replace/"


def replaced(repository):
    """That Git shows other objects or another history than the ids say, which are judged, and what tells more; or nothing."""
    count = sum(name.startswith(REPLACED) for name in repository.all_references())
    if count:
        return f"Git shows other objects here in the place of {count}, and what the ids say is judged", "git replace -l lists them"
    grafts = os.path.join(repository.common, "info", "grafts")
    if os.path.isfile(grafts) and os.path.getsize(grafts):
        return "Git shows another history here by grafts, and what the ids say is judged", f"cat {quoted(grafts)}"
    return None


def head_of(repository, meant):
    """In a sentence that what is checked out stands at none of the judged places, or nothing."""
    if not meant or repository.top is None or repository.head() is not None:
        return None
    status, found, _ = repository.git("rev-parse", "--verify", "--quiet", "HEAD^{commit}")
    references = repository.references()
    ids = sorted({it.value or references.get(it.name, b"") for it in meant} - {b""})
    places = [it[0] for it in repository.rows(b"%s^{commit}" % it for it in ids) if it]
    if status or found.strip() in places:
        return None
    return f"HEAD is at {found.strip().decode()[:12]}, where no judged branch or tag stands: what is checked out here is not judged"


def of_all(work, meant):
    """Each of these sentences."""
    found = [": ".join(replaced(work.repository) or ()), head_of(work.repository, meant)]
    return [it for it in found if it]
