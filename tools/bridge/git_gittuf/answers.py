"""What the program answered, kept so that it is not asked again where nothing that an answer rests on is another.

An answer rests on the words, on where the log stands and the reference that they name, on the objects of the store, and
on the program. The ids are kept beside the words, and of all else a sum: each object's file with its size, its times and
its number on the disk, and the same of the files that decide which program runs. Whatever of that is another, and
whatever of this file is not as it was written, lets the program be asked. Nothing is ever concluded from an answer.
"""

import hashlib
import json
import os
import re
import sys

from git_gittuf import notes, program
from git_gittuf.files import row_of
from git_gittuf.repository import LOG

# The commands that only read, with the statuses of answers that hold as long as nothing below changes.
LASTING = {"verify-ref": (0, 1), "verify-global": (0, 1), "log": (0,), "explain": (0,)}
# So many bytes of answers are kept, and so many answers.
MOST, MANY = 32 << 20, 4096
BROKEN = re.compile(rb"violation \S+ \d+ broken ")
# What the lines of a verdict are, by the command, with the name of which they speak.
VERDICTS = {
    "verify-ref": re.compile(rb"(?:accepted|violation|tip-differs) (\S+) [^\n]+\n"),
    "verify-global": re.compile(rb"global-(?:kept|violation) (\S+) [^\n]+\n"),
}
# What of the environment decides which program runs.
SETTINGS = ("GITTUF_CPU", "GITTUF_BUILD", "GITTUF_PROVED_SINCE")


def is_lasting(words, status, printed):
    """Whether an answer holds for as long as nothing below changes: it is a verdict, a log or rules, and nothing was lacking."""
    return status in LASTING[words[0]] and not BROKEN.match(printed)


def is_of(words, status, printed):
    """Whether an answer that was kept is one to these words."""
    if words[0] not in LASTING or status not in LASTING[words[0]]:
        return False
    if words[0] not in VERDICTS:
        return True
    found = VERDICTS[words[0]].fullmatch(printed)
    return bool(found) and found[1] == os.fsencode(words[1])


def ids_for(words, references):
    """Where the references stand that the program looks up for these words, or nothing where one of the store's is none."""
    if None in references.values():
        return None
    names = (LOG, os.fsencode(words[1])) if words[0] == "verify-ref" else (LOG,)
    return tuple(references.get(it, b"").decode() for it in names)


class Answers:
    def __init__(self, folder):
        # Of the store, once it is known which it is.
        self.path, self.kept = os.path.join(folder, "answers"), None
        # The sum that was made last, after so many changes, and the answers by such sums.
        self.seen, self.after, self.by_state, self.is_new = None, None, None, False
        # What tells which programs run, as it was looked at.
        self.running = None

    def programs(self):
        """What tells which programs run, and whether they are others."""
        if self.running is None:
            self.running = [*(f"{it} {os.environ.get(it)!r}" for it in SETTINGS), *map(row_of, program.files())]
        return self.running

    def state(self):
        """The sum of all that an answer rests on but ids of references."""
        if self.after != self.kept.changes:
            # Words are texts here, and names are bytes.
            rows = [sys.getfilesystemencoding(), *self.kept.rows(), *self.programs()]
            text = "\n".join(rows).encode(errors="surrogateescape")
            self.seen, self.after = hashlib.sha256(text).hexdigest(), self.kept.changes
        return self.seen

    def place(self, words, references):
        """Where an answer to these words is kept while these are the store's references, or nothing where none is."""
        ids = ids_for(words, references)
        return None if ids is None else (self.state(), (words, ids))

    def read(self):
        """The answers that were kept, by the state that they hold for, and none where the file is not as it was written."""
        text = notes.read(self.path, 2 * MOST)
        try:
            kept = json.loads(text or b"")
            rows = [((tuple(words), tuple(ids)), (status, printed.encode("latin-1"))) for words, ids, status, printed in kept["answers"]]
            return {kept["state"]: {key: answer for key, answer in rows if is_of(key[0], *answer)}}
        except (ValueError, LookupError, TypeError, AttributeError, RecursionError):
            return {}

    def get(self, place):
        """The status and the output that are kept there, or nothing where the program is to be asked."""
        if self.by_state is None:
            self.by_state = self.read()
        if place is None:
            return None
        state, key = place
        answers = self.by_state.get(state, {})
        if key in answers:
            # What is asked for again is let go last.
            answers[key] = answers.pop(key)
        return answers.get(key)

    def put(self, place, answer):
        """Keeps an answer that was given while all that it rests on was what its place says."""
        if place is not None and is_lasting(place[1][0], *answer):
            self.by_state.setdefault(place[0], {})[place[1]] = answer
            self.is_new = True

    def write(self):
        """Keeps the answers that hold for the state as it is now, once that was looked at anew, those asked for last before all."""
        if not self.is_new:
            return
        self.running = None
        self.kept.may_differ()
        rows, size = [], 0
        for (words, ids), (status, printed) in reversed(self.by_state.get(self.state(), {}).items()):
            size += len(printed)
            if size <= MOST and len(rows) < MANY:
                rows.append([words, ids, status, printed.decode("latin-1")])
        if rows:
            notes.write(self.path, json.dumps({"state": self.state(), "answers": rows[::-1]}).encode())
