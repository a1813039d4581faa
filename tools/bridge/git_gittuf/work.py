"""One call at work: alone in the repository, with a store that is what Git is, and a change whole or not at all."""

import contextlib
import errno
import os

from git_gittuf import copying, damage, following, gate_sentences, giving, history, program, remotes, stores, targets
from git_gittuf.answers import LASTING, Answers
from git_gittuf.locking import ALONE, BESIDE, Lock, seconds_to_wait
from git_gittuf.program import Ended
from git_gittuf.repository import LOG, OWN, Repository, Stopped
from git_gittuf.telling import tell

# The status of the program where the log is none.
BROKEN = 3
DAMAGED = "the store was damaged, and is made again from Git"
READ_ONLY = (errno.EACCES, errno.EPERM, errno.EROFS)


class Work:
    """A call at work, beside others where it only reads: it is alone for as long as it changes the store."""

    def __init__(self, reads=False):
        self.repository = Repository()
        self.kept, self.answers = None, Answers(self.repository.folder)
        try:
            os.makedirs(self.repository.folder, exist_ok=True)
            self.lock = Lock(self.repository.folder, seconds_to_wait(self.repository))
            self.take_lock(BESIDE if reads else ALONE)
        except OSError as error:
            if error.errno not in READ_ONLY:
                raise
            raise Stopped(f"{error.filename} cannot be written: {gate_sentences.way_to_write()}") from None
        self.journal = giving.Journal(self.repository.folder)
        # Whether the store has something that Git has not, and is not made again.
        self.is_ahead = False
        # Which entries of a log were found to be skipped.
        self.skips = None, {}
        # What remotes have that does not fit what is here, once that was looked at: remote, name, how it stands; and what of it this call mends.
        self.unfit, self.mended = None, None
        if not reads or not self.kept.is_whole() or self.journal.is_there():
            with self.alone():
                self.mend()

    def take_lock(self, how):
        """Takes the lock, alone where programs cannot read the store side by side, and looks which store is there by then."""
        self.lock.take(how)
        self.look_at_store()
        if how != ALONE and not self.kept.IS_SHARED:
            self.lock.take()
            self.look_at_store()

    def look_at_store(self):
        """Looks whether the store is a folder or a database, which another call may have changed."""
        found = stores.found(self.repository.folder)
        if self.kept is None or found.KIND != self.kept.KIND:
            found.changes = self.kept.changes + 1 if self.kept else 0
            self.kept = self.answers.kept = found

    @contextlib.contextmanager
    def alone(self):
        """Lets a call that reads beside others change something, once these have ended."""
        held = self.lock.how
        if held != ALONE:
            self.take_lock(ALONE)
            # Others may have changed something until then.
            self.kept.may_differ()
            self.repository.listed = None
        try:
            yield
        finally:
            if held != ALONE:
                # It stays alone where programs cannot read the store side by side.
                self.take_lock(held if self.kept.IS_SHARED else ALONE)
                self.kept.may_differ()
                self.repository.listed = None

    def follow(self, changed):
        """Lets the log, the policy and the approvals go on to where a remote has them. Returns whether they moved."""
        moves, self.unfit = following.to_follow(self, changed)
        self.move(moves)
        for it in (it for it in self.unfit if it != self.mended):
            tell(following.sentence(self, *it))
        return bool(moves)

    def move(self, moves):
        """Moves own references, each from its value to the next."""
        if moves:
            with self.alone():
                self.journal.write(self.repository.own_references())
                remotes.move(self.repository, moves)
                self.journal.clear()

    def mend(self):
        """Finishes or takes back what a call that was stopped left."""
        noted, marks = self.journal.read(), self.kept.marks()
        if noted:
            self.repository.remove_locks()
        if "commit.lock" in marks and noted or self.kept.is_tried():
            # The program was stopped in a change, and may have left files half written; or a trial left what Git has not.
            self.kept.remove()
        elif self.kept.is_there() and not self.kept.can_be_read():
            tell(DAMAGED)
            self.kept.remove()
        self.kept.end_trial()
        self.kept.unmark()
        self.kept.make()
        if noted and noted[1] is not None and "commit.lock" not in marks:
            try:
                giving.give(self.repository, self.kept, *noted)
            except Stopped:
                # Git went on in between, and what it has counts.
                pass
        self.journal.clear()

    def bring(self, extra=(), maybe=()):
        """Makes the store what Git is, after the own references went on where they may. Returns how many objects came."""
        self.repository.listed = None
        wanted = copying.of_store(self.repository)
        changed = remotes.of_gittuf(wanted) != remotes.of_gittuf(self.kept.references())
        count = self.copy(extra, maybe)
        if self.unfit is None and self.follow(changed):
            count += self.copy()
        if LOG in self.kept.references():
            status, printed = self.read("log")
            if not status:
                targets.keep(self, history.entries(printed))
                # It may have given back what Git had lost.
                self.repository.epochs = {}
        if not self.kept.is_small():
            self.renew()
        return count

    @contextlib.contextmanager
    def unlocked(self):
        """Lets others work here while git talks with a remote, whose hooks may call git gittuf too."""
        self.kept.let_go()
        self.repository.readers.close()
        self.lock.give_back()
        try:
            yield
        finally:
            # It only changes what others changed as well, and never while they do.
            self.take_lock(ALONE)
            self.kept.may_differ()
            # What lacked may have come.
            self.repository.epochs, self.repository.listed = {}, None
            self.mend()

    def renew(self):
        """Makes the store again from nothing."""
        with self.alone():
            self.kept.remove()
            self.kept.make()
            return self.copy()

    def copy(self, extra=(), maybe=()):
        if not extra and not maybe and copying.of_store(self.repository) == self.kept.references():
            return 0
        progress = program.Progress()
        try:
            with self.alone():
                count, too_large = copying.bring(self.repository, self.kept, progress, extra, maybe)
        finally:
            progress.end()
        for it in too_large:
            tell(f"the object {it.decode()} has more than 16 MiB and is judged to be broken")
        return count

    def in_the_way(self, name):
        """What the store has at a name, and at names that a folder cannot have beside it."""
        held = self.kept.references().items()
        return {it: at for it, at in held if it == name or it.startswith(name + b"/") or name.startswith(it + b"/")}

    @contextlib.contextmanager
    def standing_at(self, moves, objects=()):
        """Lets references stand elsewhere in the store, or nowhere, while the program looks at them, beside these objects."""
        with self.alone():
            # Another call may have changed the store until this one was alone.
            way = {it: at for name in moves for it, at in self.in_the_way(name).items()}
            wanted = {name: value for name, value in moves.items() if value}
            added = [it for it in objects if not self.kept.has(it[0])]
            with self.kept.opened():
                for it in added:
                    self.kept.put(*it)
                self.kept.set_references(way, wanted)
            try:
                yield
            finally:
                with self.kept.opened():
                    self.kept.set_references(wanted, way)
                    for it in added:
                        self.kept.take_out(it[0])

    @contextlib.contextmanager
    def pushed(self, moves):
        """Lets the store be for a while as it would be after a push: with these references moved, and all that they need."""
        states, self.repository.pushed, self.is_ahead = {it for it in moves.values() if it}, moves, True
        try:
            with self.kept.tried_out():
                copying.bring(self.repository, self.kept, program.Progress(), maybe=sorted(states))
                yield
        finally:
            self.repository.pushed, self.is_ahead = {}, False

    def log_at(self, value):
        """What the program prints of the log where it stands at this commit, or nothing where that is none."""
        status, printed = self.read("log", at=(LOG, value))
        if status not in (0, BROKEN):
            raise Ended(("log",), status, printed)
        return None if status else printed

    def place(self, words, at, objects):
        """Where the answer to these words is kept as the store is, which is nowhere where it has further objects for a while."""
        references = self.kept.references()
        if at:
            for it in self.in_the_way(at[0]):
                del references[it]
            references.update({at[0]: at[1]} if at[1] else {})
        return None if objects else self.answers.place(words, references)

    def read(self, *words, at=None, objects=()):
        """The status and the output of a command that only reads the store, which is made again where it is damaged.

        With `at` a reference stands at a value then, and nowhere else, or with none nowhere, beside these objects.
        """
        if at and self.is_standing(*at):
            at = None
        found = self.answers.get(self.place(words, at, objects))
        if found is None:
            place, found = self.read_anew(words, at, objects)
            if not self.is_ahead and damage.is_in_store(self, *found):
                tell(DAMAGED)
                self.renew()
                place, found = self.read_anew(words, at, objects)
            self.answers.put(place, found)
        return found

    def read_anew(self, words, at, objects):
        """What the program answers, and where that is kept, as the store is while the program looks at it."""
        if not at:
            return self.place(words, at, objects), program.run(self.kept.for_program(), "-", *words)
        with self.standing_at({at[0]: at[1]}, objects):
            return self.place(words, None, objects), program.run(self.kept.for_program(), "-", *words)

    def is_standing(self, name, value):
        """Whether a reference stands there in the store, or nowhere where that is none."""
        return self.in_the_way(name) == {name: value} if value else name not in self.kept.references()

    def run(self, *words, key="-", input=b"", **how):
        if words[0] in LASTING:
            return self.read(*words)
        self.kept.changes += 1
        return program.run(self.kept.for_program(), key, *words, input=input, **how)

    def asked(self, *words, key="-", input=b""):
        """What the program prints, or the end of the call with the program's status."""
        status, printed = self.run(*words, key=key, input=input)
        if status:
            raise Ended(words, status, printed)
        return printed

    def told(self, *words, key, input=b""):
        """The same with what the program says of an error, as its status, what it printed, and that."""
        self.kept.changes += 1
        return program.told(self.kept.for_program(), key, *words, input=input)

    def own_in_store(self):
        return {name: value for name, value in self.kept.references().items() if name.startswith(OWN)}

    def change(self, steps, also=None):
        """Takes steps over the store and then puts into Git what they added, with further references, or nothing."""
        # What the steps go on from is what the store has, whatever Git went on to meanwhile.
        before = self.own_in_store()
        self.journal.write(before)
        self.is_ahead = True
        try:
            answer = steps()
            after = {**self.own_in_store(), **(also or {})}
            self.journal.write(before, after)
            giving.give(self.repository, self.kept, before, after)
        except (Ended, Stopped):
            # In the store it may be done all the same, but Git decides.
            self.journal.write(before)
            self.mend()
            raise
        finally:
            self.is_ahead = False
        self.journal.clear()
        # The log is read again by the next call, which keeps what others recorded.
        self.copy()
        return answer

    def end(self):
        """Keeps what the program answered for the next call, of which nothing that was said depends."""
        with contextlib.suppress(OSError):
            self.answers.write()
        self.kept.let_go()
