"""Which patterns of a rule reach nothing that is here: a slip in one protects nothing, and looks as if it did."""

import os
import re

from git_gittuf import names
from git_gittuf.names import HEADS, TAGS


def pattern(text):
    """A pattern of a policy for a name: a star stands for any text, and a question mark for one byte."""
    escaped = re.escape(os.fsencode(text)).replace(rb"\*", b".*").replace(rb"\?", b".")
    return re.compile(escaped, re.DOTALL)


def files(repository):
    """The paths of the commit that is checked out, or of a bare repository's HEAD."""
    status, listed, _ = repository.git("ls-tree", "-r", "-z", "--name-only", "--full-tree", "HEAD")
    return [] if status else listed.split(b"\0")[:-1]


def unreached(repository, patterns, recorded):
    """Those of these patterns that reach no branch or tag, here, at a remote or in the log, and no file of what is checked out."""
    references = repository.references()
    there = {it for it in (*references, *recorded) if it.startswith((HEADS, TAGS))} | set(names.places_at_remotes(repository, references))
    paths = files(repository) if any(it.startswith("file:") for it in patterns) else []
    found = []
    for it in patterns:
        kind, _, text = it.partition(":")
        if not any(map(pattern(text).fullmatch, there if kind == "git" else paths)):
            found.append(it)
    return found
