"""The check of tools/test on mutants of good inputs, of which tools/fuzz makes more."""

import os

from checking import in_this_run
from fuzzing import Fuzz

# So many in the shorter run, and in the longer one; always the first of this seed.
MUTANTS, MORE, SEED = 1_200, 5_000, 1


def ends_as_the_table_says(repositories):
    """mutants of streams, logs, policies, envelopes, key files, dossiers, words, listings, stores and requests: each run ends by a status of the table"""
    place = repositories.path("mutants")
    os.mkdir(place)
    with Fuzz(place, SEED) as fuzz:
        for _ in range(in_this_run(MUTANTS, MORE)):
            fuzz.one()
        return fuzz.told()


CHECKS = (ends_as_the_table_says,)
