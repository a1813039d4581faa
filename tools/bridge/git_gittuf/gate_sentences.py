"""Why a push is refused, in a sentence for the person who pushes, from the program's line, with the way on."""

import os

from git_gittuf import sentences
from git_gittuf.names import short
from git_gittuf.shown import plain, quoted

GIVE_UP = "git gittuf doctor --take and the name of the remote gives up what was recorded here and is not there yet"


def way_to_write():
    """What leads on where nothing can be written: for whoever asks there, and where Git calls the hook of a server for a push."""
    is_push = "GIT_QUARANTINE_PATH" in os.environ
    return "who keeps the server lets the user as whom Git runs there write it" if is_push else "git clone it, and verify it there"


def of_broken(printed):
    """The line and the sentence of a log that is none."""
    line = os.fsdecode(printed).strip()
    return line, f"the log would be none from {line.split(' ')[-1][:12]} on: git gittuf doctor says more"


def of_tip(line, numbers):
    """Of a reference that would stand elsewhere than the log says, where the push has these entries of it."""
    words = line.split(" ")
    name, kept, recorded = sentences.Name(words[1]), words[3], words[5]
    stands = f"stand at {kept[:12]}" if int(kept, 16) else "be gone"
    way = f"git gittuf push {name.word} takes it with the log that records it"
    if numbers:
        says = f"stands at {recorded[:12]}" if int(recorded, 16) else "is gone"
        goes = f"git gittuf push takes that along where it {says} in the clone too, as git gittuf verify {name.word} tells"
        return f"entry {numbers[-1]} says that {name.shown} {says}, and by this push it would {stands}: {goes}"
    records = f"git gittuf record {name.word} records that, and {way}; who may not change {name.shown} shows it by git push origin HEAD:refs/heads/idea, say"
    if not int(recorded, 16):
        return f"{name.shown} would {stands}, a rule protects it, and no entry says that it does: {records}"
    return f"{name.shown} would {stands}, and the log has it at {recorded[:12]}: {records}"


def of_skipped(whole, entry, annotation):
    """Of a reference that stands where an entry put it which the push skips."""
    name = sentences.Name(whole)
    says = f"git gittuf record {name.word} says where it is to stand, there or elsewhere, and git gittuf push takes both along"
    return f"entry {annotation} skips entry {entry}, by which {name.shown} stands where it is: {says}. {GIVE_UP}."


def of_violation(line):
    """Of an entry of the push that is not lawful."""
    return f"{sentences.of_fault(line)} {GIVE_UP}."


def of_older(name, line):
    """Of a reference that stands in violation already, and would after the push."""
    shown, word, number = plain(short(name)), quoted(short(name)), line.split(" ")[2]
    if line.split(" ")[3] == "no-policy":
        return f"{shown} was recorded in entry {number} before the first policy was in force, which nothing leads out of: another branch may go on from it"
    return f"{shown} stands in violation since entry {number}, and this push would not end it: git gittuf recover {word} leads out"
