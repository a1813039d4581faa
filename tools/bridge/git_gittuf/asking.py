"""Asks for what is read soon, where a call wants many answers: in one pass by gittuf-inspect, or by several processors."""

import contextlib
import os

from git_gittuf import epochs, history, inspecting, program
from git_gittuf.budgets import budget
from git_gittuf.program import Ended
from git_gittuf.repository import LOG

# From so many questions after rules on, and so many entries, a log of the policies alone is made for them.
MANY, LONG = 2, 500


def standing(work, asked):
    """Those of the references that are to stand elsewhere for a while, with where, as far as all can at once; else none."""
    moves = {}
    for _, at in asked:
        if at and not work.is_standing(*at):
            moves.setdefault(*at)
    way = {it for name in moves for it in work.in_the_way(name)}
    is_folder = any(other.startswith(name + b"/") for name in moves for other in moves)
    return {} if is_folder or way - moves.keys() else moves


def in_one_pass(work, asked):
    """The answers to those of these words that ask for a verdict, as far as gittuf-inspect tells several at once."""
    found, names = {}, {}
    for it in asked:
        if it[0] == "verify-ref":
            names.setdefault(it[2:], []).append(it)
    for root, them in names.items():
        if len(them) > 1:
            told = inspecting.verdicts(work, [os.fsencode(it[1]) for it in them], root[1] if root else None)
            found.update({it: told[os.fsencode(it[1])] for it in them if os.fsencode(it[1]) in told})
    return found


@contextlib.contextmanager
def policies_alone(work):
    """Lets the log stand, where it is long, at unsigned entries for the policies that came into force alone; tells whether it does."""
    listed = history.entries(work.asked("log")) if LOG in work.kept.references() else ()
    found = epochs.of_entries(work.repository, listed) if len(listed) >= LONG else ()
    if not found:
        yield False
        return
    tip, objects = None, []
    for number, (_, target) in enumerate(found, start=1):
        tip, body = epochs.entry(number, tip, target)
        objects.append((tip, b"commit", body))
    with work.standing_at({LOG: tip}, objects):
        yield True


def rules_soon(work, what):
    """What the program says of the rules for something, over the policies of a long log alone: where no verdict hangs on it."""
    words = ("explain", what)
    with policies_alone(work) as is_alone:
        found = program.run(work.kept.for_program(), "-", *words) if is_alone else None
    status, printed = found or work.read(*words)
    if status:
        raise Ended(words, status, printed)
    return printed


def rules_told(work, what):
    """The same, as it was told before where it was."""
    found = work.answers.get(work.place(("explain", what), None, ()))
    return found[1] if found else rules_soon(work, what)


def of_rules(work, asked):
    """Keeps the answers to those of these words that ask which rules protect something, where the log is long and many ask.

    That hangs on the policies that came into force, and on no other entry. So they are asked over a log of these alone, which
    is read at once, and one of them over the whole log too: where that is another, nothing is taken of it.
    """
    words = [it for it in asked if it[0] == "explain"]
    if len(words) < MANY:
        return {}
    places = {it: work.place(it, None, ()) for it in words}
    with policies_alone(work) as is_alone:
        answers = all_of(work, words) if is_alone else {}
    if not answers or answers[words[0]] != program.run(work.kept.for_program(), "-", *words[0]) or work.place(words[0], None, ()) != places[words[0]]:
        return {}
    for it, answer in answers.items():
        work.answers.put(places[it], answer)
    return answers


def all_of(work, words):
    """What the program answers to each of these words, by all processors where the store lets several read it."""
    ask = lambda it: program.run(work.kept.for_program(), "-", *it)
    # Side by side each of them could spend all that a push is given.
    count = len(os.sched_getaffinity(0)) if work.kept.IS_SHARED and budget.most is None else 1
    if count < 2 or len(words) < 2:
        return {it: ask(it) for it in words}
    # Few calls want it, and it takes long to load.
    import concurrent.futures

    with concurrent.futures.ThreadPoolExecutor(count) as pool:
        return dict(zip(words, pool.map(ask, words)))


def ahead(work, asked):
    """Asks for these words, each with where its reference is to stand, and keeps the answers, which `read` finds then.

    What is kept nowhere is asked for again. Each answer is kept for the references that stand in the store while it is given.
    """
    new = [it for it in asked if work.answers.get(work.place(*it, ())) is None]
    if len(new) < 2:
        return
    rules = of_rules(work, [it for it, at in new if not at])
    new = [(it, at) for it, at in new if it not in rules]
    moves = standing(work, new)
    with work.standing_at(moves) if moves else contextlib.nullcontext():
        words = list(dict.fromkeys(it for it, at in new if not at or at[0] in moves or work.is_standing(*at)))
        places = {it: work.place(it, None, ()) for it in words}
        answers = in_one_pass(work, words)
        left = [it for it in words if it not in answers]
        # Where the programs work one after the other, each is asked for once it is wanted.
        answers.update(all_of(work, left) if work.kept.IS_SHARED else {})
        for it, answer in answers.items():
            work.answers.put(places[it], answer)
