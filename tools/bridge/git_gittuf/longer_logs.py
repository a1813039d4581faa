"""What the program prints of a log behind which it just recorded an entry, kept so that the next call need not let it read all of that again.

`log` prints a line for each entry, as its number, its id, its reference and its target, and `record` leaves the log as it was and puts one
entry behind it. So the text of the longer log is that of the log before, and the line of this entry, which the store has.
"""

from git_gittuf import fronts, history
from git_gittuf.repository import LOG


def printed(work):
    """What the program prints of the log in the store, or nothing where there is none."""
    return work.asked("log") if LOG in work.kept.references() else b""


def keep(work, before, told, name):
    """Keeps it by what was printed of the log before and what `record` told of a reference, where the log's last entry is just that."""
    entries, tip = history.entries(before), work.kept.references().get(LOG)
    if not entries or tip is None:
        return
    number, (_, body) = entries[-1][0] + 1, work.kept.read(tip)
    recorded = fronts.recorded_by([(tip, body)], entries[-1][1])
    is_told = told == b"entry %d %s\n" % (number, tip) and body.endswith(b"\nnumber: %d\n" % number)
    if is_told and recorded and recorded[0][0] == name:
        line = b"entry %d %s ref %s %s\n" % (number, tip, *recorded[0])
        work.answers.put(work.place(("log",), None, ()), (0, before + line))
