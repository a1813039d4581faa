"""The checks of tools/test on gittuf-inspect at the edges of its formats: times that entries say, and numbers in its words."""

from check_accounts import folder_of
from check_inspecting import ALICE, MAIN, NOBODY, TIP, kept, told
from checking import INSPECT, run, want
from rows_histories import History

# The last second of the year 9999.
LAST_SECOND = 253_402_300_799
WHO = "rows <rows@localhost>"
# What an entry says of its author, and the time in it: of decimal digits, before the last space and behind another.
SAID = (
    (f"{WHO} 0 +0000", 0),
    (f"{WHO} {LAST_SECOND} +0000", LAST_SECOND),
    (f"{WHO} {LAST_SECOND + 1} +0000", None),
    (f"{WHO} {10**20} +0000", None),
    (f"{WHO} 05 +0000", None),
    (f"{WHO} -5 +0000", None),
    (f"{WHO} +5 +0000", None),
    (f"{WHO} 5  +0000", None),
    (f"{WHO} 5", None),
    (f"{WHO} 5 UTC", 5),
    ("5 +0000", 5),
)
MOST_KEYS, MOST_LISTED, MOST_ENTRIES = 64, 256, 1_000_000


def tells_times(repositories):
    """gittuf-inspect log tells the second that an entry says it was made at, up to the last of the year 9999, and null for others"""
    history = History()
    for author, _ in SAID:
        history.repository.author = author.encode()
        history.record(MAIN, NOBODY)
    status, found = told(folder_of(repositories, "inspected times", history.repository), word="log")
    want((status, [(it["author"], it["time"]) for it in found]), (0, list(SAID)), "the authors and their times")


def takes_numbers(repositories):
    """gittuf-inspect takes 64 keys, 256 entries to skip and the number 1,000,000, and refuses one more of each"""
    folder = kept(repositories, "inspected numbers")
    keys = [f"{it:064x}" for it in range(MOST_KEYS + 1)]
    for more in (0, 1):
        listed, entries = ",".join(keys[: MOST_KEYS + more]), ",".join([TIP] * (MOST_LISTED + more))
        words = (
            *(("verdicts", MAIN, "--root", listed), ("would", MAIN, TIP, "--key", listed)),
            *(("would", "--annotate", "skip", entries, "--key", ALICE),),
            *((word, name, str(MOST_ENTRIES + more)) for word, name in (("log", "--from"), ("policy", "--at"))),
        )
        for it in words:
            want(run(INSPECT, folder, *it)[0] == 2, bool(more), f"whether {' '.join(it)[:40]}.. is refused, with {more} too many")


CHECKS = (tells_times, takes_numbers)
