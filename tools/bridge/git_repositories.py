"""Which Git repositories git-to-stream and git-gittuf take: in object format SHA-256, and with all their objects.

Each call takes how a message names the repository, and the words by which git finds it.
"""

import re

from stream_format import Refused, git


def expect_sha256(name, *where):
    status, found, said = git(*where, "rev-parse", "--show-object-format")
    if status:
        raise Refused(f"{name} is not a repository that git reads: {said}")
    if found != b"sha256\n":
        form, way = found.decode().strip(), "git fast-export --all | git fast-import into a new one"
        raise Refused(f"{name} has the object format {form}, and ids here are of sha256: {way}, as git-to-stream --help says")


def way_over(branch):
    """The line that makes one of SHA-256 beside a repository, with the files of the branch that is checked out."""
    # Git leaves the files out, and this writes over none that is there.
    files = " && git -C ../new read-tree -m -u HEAD" if branch else ""
    makes = f"git init -b {branch or 'main'} --object-format=sha256 ../new"
    return f"{makes} && git fast-export --all --signed-tags=strip | git -C ../new fast-import{files}"


def expect_no_part(name, *where):
    """Refuses a shallow and a partial clone."""
    status, found, said = git(*where, "rev-parse", "--is-shallow-repository")
    if status:
        raise Refused(f"git does not say whether {name} is shallow: {said}")
    listed = git(*where, "config", "--list", "--name-only")[1].decode(errors="replace").splitlines()
    expect_whole(name, found == b"true\n", listed)


PROMISES = re.compile(r"extensions\.partialclone|remote\..*\.(promisor|partialclonefilter)", re.DOTALL)


def expect_whole(name, is_shallow, settings):
    """The same of what is known: whether it is shallow, and the names of its settings."""
    if is_shallow:
        raise Refused(f"{name} is a shallow clone: git fetch --unshallow makes it whole")
    if any(map(PROMISES.fullmatch, settings)):
        raise Refused(f"{name} is a partial clone: clone it without --filter")
