"""The check of tools/test on logs that were drawn, judged from a folder and from a database."""

import os
import shutil

from checking import in_this_run, want, want_run
from made_databases import command
from made_folders import IMPORTED
from made_folders import command as folder_command
from rows_of_drawn_logs import SEEDS, drawn_log, history_of, sealed_in, verdicts_of

# So many logs are drawn in the shorter run, and in the longer one; of so many at a time each policy is sealed once.
LOGS, MORE_LOGS, AT_A_TIME = 30, 9_500, 50


def histories(count):
    """Drawn logs behind those of the rows, each by its seed, with the verdict on each reference."""
    for first in range(SEEDS.stop, SEEDS.stop + count, AT_A_TIME):
        seeds = range(first, min(first + AT_A_TIME, SEEDS.stop + count))
        logs = [drawn_log(seed) for seed in seeds]
        files = sealed_in(logs)
        for seed, (log, kept) in zip(seeds, logs):
            history, ids = history_of(log, kept, files)
            yield seed, history, verdicts_of(log, kept, ids)


def stores_judge_alike(repositories):
    """drawn logs get from a folder and from a database the verdicts of a slow reading in Python, and give the stream back"""
    folder, database = repositories.path("drawn"), repositories.path("drawn.db")
    ends = {0: 0, 1: 0}
    for seed, history, asks in histories(in_this_run(LOGS, MORE_LOGS)):
        stream = history.repository.stream()
        for place, make in ((folder, folder_command), (database, command)):
            want_run(make(place, "import"), 0, IMPORTED, input=stream)
            for status, line, name in asks:
                want_run(make(place, "verify-ref", name), status, line.encode() + b"\n")
                ends[status] += 1
            want_run(make(place, "export"), 0, stream)
        shutil.rmtree(folder)
        os.remove(database)
    want(min(ends.values()) > 0, True, f"whether both were seen: {ends}")
    return f"{ends[0]} accepted, {ends[1]} not, up to seed {seed}"


CHECKS = (stores_judge_alike,)
