"""The checks of tools/test on random days of four persons, of which tools/try-days makes more."""

from checking import in_this_run
from made_days import Days

# So many steps in the shorter run, and in the longer one.
STEPS, MORE, SEED = 12, 40, 1


def judge_as_the_whole(repositories):
    """over random steps of four persons, one of whom attacks, each verdict of a clone is the program's on its whole stream"""
    return Days(repositories, SEED).pass_by(in_this_run(STEPS, MORE))


def keep_a_server_lawful(repositories):
    """over random steps of the four nothing unlawful comes into a server that has the hook, and its log never goes back"""
    return Days(repositories, SEED, is_gated=True).pass_by(in_this_run(STEPS, MORE))


CHECKS = (judge_as_the_whole, keep_a_server_lawful)
