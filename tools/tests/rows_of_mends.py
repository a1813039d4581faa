"""Rows on what mends a violation, and on the calls of a store that telling it takes, as unproved/tests_gate asks."""

from rows_histories import AFTER, BEFORE, KEEPER, MAIN, MAINTAINER
from rows_of_gates import STORE, Log, add
from rows_policies import text_of

# So many tags may lead to a commit.
TAGS = 8


def told(call, line):
    """What is told of main where this call fails, counted from when the log is judged."""
    return b"told %d %s\n" % (call, MAIN.encode()), line + b"\n"


def what_mends_a_violation():
    """A stranger's entry is to be skipped, and the state before it to be brought back, to which eight tags lead. The branch's
    value is asked for, and then each tag, the commit and its two trees, each once, and nothing more."""
    log = Log()
    repository = log.history.repository
    target, kind = log.history.commit(BEFORE), "commit"
    tree = repository.tree_of(target)
    for number in range(TAGS):
        body = f"object {target}\ntype {kind}\ntag v{number}\ntagger rows <rows@localhost> 0 +0000\n\nv\n"
        target, kind = repository.add(b"tag", body.encode()), "tag"
    lawful = log.record(target, MAINTAINER)
    strangers = log.record(log.history.commit(AFTER), KEEPER)
    fault = {"got": 0, "kind": "ref-rule", "need": 1, "rule": "main"}
    mends = {"from": target, "prior": 2, "skip": [3], "tree": tree}
    line = text_of({"fault": fault, "mends": mends, "number": 3, "reference": MAIN, "verdict": "violation"})
    calls = 1 + TAGS + 1 + 2
    yield STORE, log.first, add(1), lawful, add(2), strangers, add(3)
    yield (*(told(call, b"fault") for call in range(1, calls + 1)), told(calls + 1, line))


ROWS = (what_mends_a_violation,)
