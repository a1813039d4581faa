"""From Git into the store: by what is new alone, and no more than judging reads.

Judging reads the entries of the log; of what they recorded the tags, commits and trees; and of policies and approvals the
files too. It reads no other file, and history only for a rule against going back, for which a command asks. So the store
gets that, as far as Git has it, the logs of remotes, so that the program can read them, and what a command asks for. Where
a reference stands is told by its id alone.
"""

import re

from git_gittuf.remotes import BESIDE, beside
from git_gittuf.repository import ATTESTATIONS, LOG, POLICY, REMOTES, STAGED, TARGETS, ZEROS, Stopped
from packs import EMPTY_TREE
from stream_format import MAX_BODY

TARGET = re.compile(rb"\n\nRSL Reference Entry\n\nref: ([^\n]+)\ntargetID: ([0-9a-f]{64})\n")
NO_FILES = b"tree %s\n" % EMPTY_TREE
# The folders of whose files judging reads, by the references that have them, and how large such a file is at most.
FOLDERS = {POLICY: (b"metadata", b"global"), ATTESTATIONS: (b"reference-authorizations",)}
MAX_FILE = 1 << 20


def is_own(name):
    """Whether a reference is none that only keeps objects, or says what a remote has."""
    return not name.startswith((BESIDE, REMOTES, TARGETS))


def of_store(repository):
    """The references that stand in the store too: the own ones, and the logs of remotes, which are read before they are followed."""
    logs = {beside(it, LOG) for it in repository.remotes()}
    return {name: value for name, value in repository.references().items() if is_own(name) or name in logs}


def is_entry(kind, body):
    """Whether an object may be an entry of a log, of which no other commit is taken: it has no files, and says that it is one."""
    return kind == b"commit" and body.startswith(NO_FILES) and b"\n\nRSL " in body


def new_entries(repository, progress, wanted, held):
    """The ids of the commits that the store may lack of the own log and of those of remotes."""
    logs = lambda them: {value for name, value in them.items() if value and (name == LOG or name.startswith(BESIDE))}
    tips, known = logs(wanted) - logs(held), logs(held)
    if not tips:
        return []
    lines = b"".join(b"%s\n" % it for it in (*tips, *(b"^" + it for it in repository.there(known))))
    tell = lambda count: progress.tell(f"{count} entries found")
    return repository.lines("list what references reach, as git fsck may say", "rev-list", "--stdin", input=lines, tell=tell)


def listed(repository, ids, *how):
    """The ids of what these reach but history, each after what names it, and of those that lack a part of it themselves alone."""
    ids = sorted(repository.there(ids))
    if not ids:
        return []
    words = ("rev-list", "--objects", "--no-object-names", "--no-walk", *how, "--stdin")
    status, output, _ = repository.git(*words, input=b"\n".join(ids))
    if not status:
        return output.split()
    if len(ids) == 1:
        # It is judged to be broken.
        return ids
    half = len(ids) // 2
    return [*listed(repository, ids[:half], *how), *listed(repository, ids[half:], *how)]


def states_of(repository, ids):
    """The ids of what is to be read of these targets: the tags, the commit, its trees, and no history."""
    return listed(repository, ids, "--filter=blob:none")


def files_of(repository, targets):
    """The ids of the files that are read of policies and approvals, of which these are targets with their references."""
    found = repository.rows(b"%s:%s" % (target, folder) for name, target in targets for folder in FOLDERS[name])
    trees = [it[0] for it in found if it and it[1] == b"tree"]
    return listed(repository, trees, f"--filter=blob:limit={MAX_FILE + 1}")


class Copier:
    """Puts objects into the store that it lacks, and notes what the log's entries recorded, by their references."""

    def __init__(self, repository, kept, progress):
        self.repository, self.kept, self.progress = repository, kept, progress
        self.targets, self.too_large, self.count = set(), [], 0

    def copy(self, ids, is_wanted):
        """Copies those of these objects that are wanted by their id, kind and body."""
        ids = list(dict.fromkeys(ids))
        for object_id, kind, body in self.repository.bodies(ids):
            self.progress.tell(f"{self.count} objects copied, of {len(ids)}")
            if body is None:
                self.too_large.append(object_id)
            elif not self.kept.has(object_id) and is_wanted(object_id, kind, body):
                self.kept.put(object_id, kind, body)
                self.count += 1
            found = TARGET.search(body) if kind == b"commit" and body is not None else None
            self.targets.update([found.groups()] if found else [])

    def copy_entries(self, ids):
        """Copies entries, and the empty tree that they have. Whatever else stands on a log it breaks there, as where it is missing."""
        self.copy([*ids, *([EMPTY_TREE] if ids else [])], lambda it, kind, body: it == EMPTY_TREE or is_entry(kind, body))

    def copy_states(self, ids, of_files=()):
        """Copies what is read of targets, and of some of them, each with its reference, the files too."""
        lacks = lambda it: it != ZEROS and not self.kept.has(it)
        files = files_of(self.repository, [it for it in of_files if lacks(it[1])])
        states = states_of(self.repository, filter(lacks, [*ids, *(it[1] for it in of_files)]))
        # A commit comes after its trees, so that one that is there has them, wherever a call was stopped.
        wanted = set(files)
        self.copy([it for it in (*files, *reversed(states)) if not self.kept.has(it)], lambda it, kind, _: kind != b"blob" or it in wanted)


def bring(repository, kept, progress, extra=(), maybe=()):
    """Makes the store what Git is, with these states, of which the last may be none that it takes.

    Returns how many objects were put into it, and which were too large.
    """
    wanted, held = of_store(repository), kept.references()
    lacks = [it for it in extra if not kept.has(it)]
    states = lacks + [it for it in maybe if not kept.has(it)]
    if wanted == held and not states:
        return 0, []
    copier = Copier(repository, kept, progress)
    with kept.opened():
        copier.copy_entries(new_entries(repository, progress, wanted, held))
        own = {(name, value) for name, value in wanted.items() if name in FOLDERS}
        of_files = own | {it for it in copier.targets if it[0] in FOLDERS}
        states += [target for name, target in copier.targets if name not in FOLDERS]
        copier.copy_states([*states, *(value for name, value in wanted.items() if name == STAGED)], sorted(of_files))
        if wanted != held:
            kept.set_references(held, wanted)
        kept.write_out()
    missing = [it for it in lacks if not kept.has(it)]
    if missing:
        raise Stopped(f"{missing[0].decode()} is no commit that the store can take", 3)
    return copier.count, copier.too_large


def is_takeable(repository, object_id, of_log):
    """Whether Git has this object, and the store would: an entry where it is of a log, and else what states are of, and not too large."""
    (found,) = repository.rows([object_id])
    if not found or found[1] not in (b"commit", b"tree", b"tag") or int(found[2]) > MAX_BODY:
        return False
    return not of_log or any(is_entry(kind, body) for _, kind, body in repository.bodies([object_id]))
