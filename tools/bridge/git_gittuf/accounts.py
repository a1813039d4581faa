"""The account of a verdict: each entry of a reference, who signed and who approved it and when, and who is missing.

It is for persons, and beside the verdict, which is the program's. A name stands where a signature is good by that
person's key under the policy in force at the entry.
"""

import functools

from git_gittuf import listing, looking, policies, signers, skipping
from git_gittuf.repository import ATTESTATIONS, ZEROS
from git_gittuf.shown import plain


class Accounts:
    """What is told of the references of a log."""

    def __init__(self, work, found=None):
        self.work, self.found = work, found or listing.Listing(work, work.asked("log"))
        self.skips = skipping.skips(work, self.found.entries)

    def skipped_by(self, entry):
        """The number of the first annotation that skips an entry, or nothing."""
        return self.skips.get(entry[1])

    def is_skipped(self, entry, before):
        return entry[1] in self.skips and self.skips[entry[1]] < before

    @functools.cached_property
    def changes(self):
        """The entries of each reference, each with the target from which it goes and the approvals' target then."""
        attested, found = None, {}
        for entry in self.found.entries:
            number, _, kind, rest = entry
            if kind != b"ref":
                continue
            own = found.setdefault(rest[0], [])
            prior = next((it for it, *_ in reversed(own) if not self.is_skipped(it, number)), None)
            own.append((entry, prior[3][1] if prior else ZEROS, attested))
            if rest[0] == ATTESTATIONS:
                attested = rest[1]
        return found

    def approvals_of(self, changes):
        """The persons who approved each of these changes, by the numbers of their entries."""
        rows = [it for it in changes if it[2]]
        trees = self.looked_up([(it[0], b"%s^{tree}" % it[3][1]) for it, *_ in rows if it[3][1] != ZEROS])
        trees.update({it[0]: ZEROS for it, *_ in rows if it[3][1] == ZEROS})
        rows = [(it, source, trees[it[0]], attested) for it, source, attested in rows if it[0] in trees]
        where = b"%s:reference-authorizations/%s/%s-%s"
        blobs = self.looked_up([(it[0], where % (attested, it[3][0], source, tree)) for it, source, tree, attested in rows])
        texts = {it: body for it, kind, body in self.work.repository.bodies(set(blobs.values())) if kind == b"blob" and body}
        return {it[0][0]: self.persons_in(it, texts[blobs[it[0][0]]]) for it in rows if blobs.get(it[0][0]) in texts}

    @functools.cached_property
    def approvals(self):
        """The same of all changes."""
        return self.approvals_of([it for them in self.changes.values() for it in them])

    def looked_up(self, rows):
        """The ids of what Git has by these words, each with the number of an entry."""
        found = self.work.repository.rows([it for _, it in rows]) if rows else []
        return {number: it[0] for (number, _), it in zip(rows, found) if it}

    def persons_in(self, row, text):
        """The persons who signed an approval of the change of an entry."""
        entry, source, tree, _ = row
        people = self.found.people_at(entry[0])
        signed = signers.of_approval(text, entry[3][0], source, tree, people.publics)
        return [people.persons[it] for it in signed if it in people.persons]

    def of(self, name, line):
        """The objects of all entries of a reference, and at the one of a violation the rule and who is missing."""
        changes, fault = self.changes.get(name, []), looking.FAULT.fullmatch(line)
        approved = self.approvals_of(changes)
        told = []
        for entry, _, _ in changes:
            it = {**self.found.of(entry), "approved": approved.get(entry[0], [])}
            it["skipped"] = self.skipped_by(entry)
            if fault and int(fault[2]) == entry[0]:
                it.update(self.missing_at(entry[0], fault, it))
            told.append(it)
        return told

    def missing_at(self, number, fault, told):
        """The rule that an entry does not meet, whom it asks, and who of them signed nothing."""
        counts, policy = looking.COUNTS.fullmatch(fault[4] or ""), self.found.people_at(number).policy
        if fault[3] not in ("ref-rule", "path-rule") or not counts or not policy:
            return {"fault": " ".join(filter(None, fault.group(3, 4)))}
        persons, _ = looking.who_is_missing(policy, counts[2], [])
        missing = [it for it in persons if it not in [told["person"], *told["approved"]]]
        rule, path = (it and policies.unescaped(it) for it in counts.group(2, 1))
        return {"rule": rule, "path": path, "wanted": int(counts[4]), "persons": persons, "missing": missing}


def names(them):
    return ", ".join(map(plain, them))


def in_words(told, people):
    """The lines on an entry, below a verdict."""
    where = "is gone" if told["target"] == ZEROS.decode() else f"is {told['target'][:12]}"
    approved = f", approved by {names(told['approved'])}" if told["approved"] else ""
    skipped = f", and entry {told['skipped']} says skip" if told["skipped"] else ""
    lines = [f"  entry {told['number']} {where}, by {people.shown(told['key'])}{approved}, {told['time'] or 'at no time'}{skipped}"]
    if "rule" in told:
        what = f" for a change of {plain(told['path'])}" if told["path"] else ""
        missing = f"missing {'is' if len(told['missing']) == 1 else 'are'} {names(told['missing'])}" if told["missing"] else "nobody of them is missing"
        lines.append(f"    rule {plain(told['rule'])} wants {told['wanted']} of {names(told['persons']) or 'its keys'}{what}: {missing}")
    elif "fault" in told:
        lines.append(f"    {plain(told['fault'])}")
    return lines


def of_violation(account, name, line):
    """Who signed the entry at which a verdict is a violation of a rule, and who is missing, as lines."""
    return [it.strip() for it in in_lines([it for it in account.of(name, line) if "rule" in it], account)]


def in_lines(told, account):
    """The lines on what is told of entries."""
    return [line for it in told for line in in_words(it, account.found.people_at(it["number"]))]
