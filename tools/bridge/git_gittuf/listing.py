"""The log for a person and for a machine: beside the program's line who signed an entry and approved it, when, and what it says."""

import json
import re
import time

from git_gittuf import checked, epochs, history, inspecting, policies, sentences, signers
from git_gittuf.repository import LOG
from git_gittuf.shown import plain
from git_gittuf.telling import say, show

TIME = re.compile(rb"\ncommitter [^\n]* (\d+) \+0000\n")


def time_of(body):
    """When who signed says that it was, or nothing where that is no time."""
    found = TIME.search(body)
    try:
        when = time.gmtime(int(found[1])) if found else None
        # Each year has four digits.
        return time.strftime("%Y-%m-%dT%H:%M:%SZ", when) if when and 1000 <= when.tm_year <= 9999 else None
    except (OverflowError, ValueError, OSError):
        return None


class Listing:
    """The entries of a log with what their commits say of them."""

    def __init__(self, work, printed):
        self.work, self.entries = work, history.entries(printed)
        self.bodies = {it: body or b"" for it, _, body in work.repository.bodies([it[1] for it in self.entries])}
        self.numbers = {it[1]: it[0] for it in self.entries}
        found = epochs.of_entries(work.repository, self.entries)
        self.epochs = [(number, signers.People(policies.Policy(work.repository, it))) for number, it in found]
        self.people, self.keys = {}, {}
        known, named = checked.Checked(work.repository), signers.named_in(self.bodies)
        if inspecting.place() and len(self.entries) >= checked.MANY:
            self.learn(known, named)
        for people, entries in self.by_epoch():
            bodies = {it[1]: self.bodies[it[1]] for it in entries}
            self.keys.update(signers.of_bodies(work.repository, bodies, people.publics, known.are_good, named))
            self.people.update({it[0]: people for it in entries})

    def learn(self, known, named):
        """Lets gittuf-inspect tell which signatures are good, where many were looked at by nobody yet."""
        asked = {}
        for (start, _), (people, entries) in zip([(None, None), *self.epochs], self.by_epoch()):
            for _, it, *_ in entries:
                public = people.publics.get(named[it])
                if public and known.is_new(public, self.bodies[it]):
                    asked[it] = start, public
        told = inspecting.log(self.work, self.entries) if len(asked) >= checked.MANY else None
        rows = {it: told[it] for it in asked if told[it]["epoch"] == asked[it][0]} if told else {}
        if rows:
            known.learn((asked[it][1], self.bodies[it], row["signed"]) for it, row in rows.items())

    def by_epoch(self):
        """The entries that are judged by each policy, with its persons; the first one's own is among its, and before it are none."""
        starts = [number for number, _ in self.epochs] + [len(self.entries)]
        yield signers.People(), [it for it in self.entries if it[0] < starts[0] or not self.epochs]
        for at, (start, people) in enumerate(self.epochs):
            yield people, [it for it in self.entries if start + bool(at) <= it[0] <= starts[at + 1]]

    def people_at(self, number):
        """The persons of the policy by which an entry is judged, and for the first policy its own."""
        return self.people[number]

    def of(self, entry):
        """All that is told of an entry, by name."""
        number, entry_id, kind, rest = entry
        body, people, key = self.bodies[entry_id], self.people[number], self.keys[entry_id]
        found = {"number": number, "id": entry_id.decode(), "kind": kind.decode()}
        if kind == b"ref":
            found.update(ref=rest[0].decode(errors="surrogateescape"), target=rest[1].decode())
        else:
            ids = history.ANNOTATED.findall(body.partition(b"\n\n")[2])
            found.update(entries=[self.numbers.get(it, it.decode()) for it in ids], message=history.message_of(body))
        found.update(key=key, person=people.persons.get(key), time=time_of(body))
        return found


def changes(work, found):
    """What each policy that came into force changes of the one before it, by its entry, as far as gittuf-inspect tells it."""
    told = inspecting.log(work, found.entries) if len(found.epochs) > 1 and inspecting.place() else None
    rows = {it["number"]: it.get("changed") for it in (told or {}).values()}
    return {number: inspecting.change_in(it) for number, it in rows.items() if it is not None and inspecting.change_in(it)}


def change_in_words(told):
    """The lines on what a policy changes of the one before it."""
    for part, what in (("keys", "key "), ("persons", "person "), ("rules", ""), ("thresholds", "threshold of ")):
        for way, sign in (("removed", "-"), ("added", "+")):
            yield from (f"  {sign} {what}{plain(it)}" for it in told[part][way])


def in_words(told, line, people):
    """The program's line, and below it who signed and approved it, when, what skips it, what is said, and what a policy changes."""
    approved = f", approved by {', '.join(map(plain, told['approved']))}" if told.get("approved") else ""
    skipped = f", and entry {told['skipped']} says skip" if told.get("skipped") else ""
    lines = [line, f"  by {people.shown(told['key'])}{approved}, {told['time'] or 'at no time'}{skipped}"]
    if "entries" in told:
        what = ", ".join(f"entry {it}" if isinstance(it, int) else str(it)[:12] for it in told["entries"])
        lines.append(f"  of {what}{': ' + plain(told['message']) if told['message'] else ''}")
    return lines + list(change_in_words(told["changed"])) if "changed" in told else lines


def log(work, words):
    work.bring()
    status, printed = work.read("log")
    if LOG not in work.repository.references():
        say(sentences.of_no_log(bool(work.repository.remotes())))
    if status or not (words.verbose or words.json):
        show(printed)
        return status
    # It stands on this.
    from git_gittuf import accounts

    found, lines = Listing(work, printed), printed.decode(errors="surrogateescape").splitlines()
    account, changed = accounts.Accounts(work, found), changes(work, found)
    for entry, line in zip(found.entries, lines):
        told = found.of(entry)
        if told["kind"] == "ref":
            told.update(approved=account.approvals.get(entry[0], []), skipped=account.skipped_by(entry))
        if entry[0] in changed:
            told["changed"] = changed[entry[0]]
        if words.json:
            print(json.dumps(told, sort_keys=True))
        else:
            print("\n".join(map(plain, in_words(told, line, found.people_at(entry[0])))))
    return 0
