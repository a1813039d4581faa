"""The checks of tools/test on a gate: the desk that `serve --gate` opens, and what it denies."""

import copy
import http.client
import random
import shutil
import signal
import threading

from check_judging import CHANGED, FIRST, MAIN, POLICY, WITH_KEY, Guarded
from check_serving import ask, desk, exported, imported, line_of_log, objects_in, push, push_text, tip_of
from check_snapshots import take_snapshot
from checking import PROGRAM, in_this_run, run, want, want_run
from made_folders import command

FREE = "refs/heads/free"


def begun(repositories, name):
    """A guarded folder with one lawful change of main, its stream, and a database that has it."""
    guarded = Guarded(repositories, name)
    guarded.change("maintainer", FIRST)
    stream = exported(f"{guarded.place}/")
    place = repositories.path(f"{name}.db")
    imported(place, stream)
    return guarded, stream, place


def another(guarded, name):
    """The same folder and log once more, to which something else may be added."""
    made = copy.copy(guarded)
    made.place, made.entries = f"{guarded.place}-{name}", list(guarded.entries)
    shutil.copytree(guarded.place, made.place)
    return made


def text_between(before, after, entry):
    """The push of an entry with what a stream has and another has not."""
    old = objects_in(before)
    return push_text({id: it for id, it in objects_in(after).items() if id not in old}, entry.encode())


def denied(port, guarded, before, name, words, violates):
    """Pushes the last entry of a folder, which the gate is to deny with the line that the verdict on it has then."""
    after = exported(f"{guarded.place}/")
    status, line, _ = run(*command(guarded.place, "verify-ref", name))
    want((status, line.startswith(f"violation {name} {len(guarded.entries)} {violates}".encode())), (1, True), f"the verdict {line!r}")
    tip = tip_of(port)
    want(push(port, text_between(before, after, guarded.entries[-1])), (403, line), f"the reply to {words}")
    want(tip_of(port), tip, f"the tip after {words}")
    want_run((PROGRAM, f"{guarded.place}/", "-", "push", str(port), str(len(guarded.entries))), 7, line, b"desk refused\n")


def taken(port, guarded, before, words):
    """Pushes the last entry of a folder, which the gate is to take, and returns the stream that the folder has then."""
    after, number, entry = exported(f"{guarded.place}/"), len(guarded.entries), guarded.entries[-1]
    want(push(port, text_between(before, after, entry)), (201, f"done {number} {entry}\n".encode()), f"the reply to {words}")
    return after


def denies_what_the_policy_forbids(repositories):
    """a gate denies a stranger's change, a path that is another's and a policy that nobody of the root signed, each with its line, and takes the rest"""
    guarded, stream, place = begun(repositories, "gated")
    with desk(place, gate=True) as (ran, port):
        strange = another(guarded, "strange")
        strange.change("stranger", CHANGED)
        denied(port, strange, stream, MAIN, "a stranger's change", "ref-rule main 0 of 1\n")
        path = another(guarded, "path")
        path.change("maintainer", WITH_KEY)
        denied(port, path, stream, MAIN, "another's path", "path-rule keys/a keys 0 of 1\n")
        policy = another(guarded, "policy")
        policy.propose("stranger")
        policy.sign("stranger", "record", POLICY)
        denied(port, policy, stream, POLICY, "a stranger's policy", "not-epoch")
        want(ask(port, "GET", "/v1/stream"), (200, stream), "the stream after what was denied")

        guarded.change("maintainer", CHANGED)
        stream = taken(port, guarded, stream, "the maintainer's change")
        guarded.change("stranger", FIRST, FREE)
        stream = taken(port, guarded, stream, "a change of a free branch")
        guarded.sign("stranger", "annotate", "note", guarded.entries[2], "--message", "seen")
        stream = taken(port, guarded, stream, "a stranger's note")
        want(ask(port, "GET", f"/v1/verify/{MAIN}"), (200, f"accepted {MAIN} 2 entries\n".encode()), "the verdict at the gate")
        ran.send_signal(signal.SIGKILL)
    want(exported(place), stream, "what the store has after the gate was killed")
    want(line_of_log(place)[0], len(guarded.entries), "how many entries its log has")


def takes_what_mends(repositories):
    """a gate over a log with a violation takes the entries that recover from it, and denies another one"""
    guarded, _, _ = begun(repositories, "mended")
    guarded.change("stranger", CHANGED)
    stream, place = exported(f"{guarded.place}/"), repositories.path("mended too.db")
    imported(place, stream)
    with desk(place, gate=True) as (_, port):
        want(ask(port, "GET", f"/v1/verify/{MAIN}")[1].split()[:3], [b"violation", MAIN.encode(), b"3"], "the verdict at first")
        again = another(guarded, "again")
        again.change("maintainer", WITH_KEY)
        text = text_between(stream, exported(f"{again.place}/"), again.entries[-1])
        own = f"violation {MAIN} 4 path-rule keys/a keys 0 of 1\n".encode()
        want(push(port, text), (403, own), "the reply to another violation, which is named by its own number")
        guarded.skip("maintainer", 3)
        stream = taken(port, guarded, stream, "the skip")
        take_snapshot(guarded.place, FIRST, MAIN)
        guarded.sign("maintainer", "record", MAIN)
        taken(port, guarded, stream, "what brings the branch back")
        want(ask(port, "GET", f"/v1/verify/{MAIN}")[1].split()[0], b"accepted", "the verdict at last")


class Offer:
    """A push that a gate is to take, with what its store has then and what it answers once that is there."""

    def __init__(self, guarded, before):
        self.after, self.number, self.entry = exported(f"{guarded.place}/"), len(guarded.entries), guarded.entries[-1]
        self.text = text_between(before, self.after, self.entry)
        self.replies = (201, f"done {self.number} {self.entry}\n".encode()), (200, b"already %d\n" % self.number)


def pushes_until_killed(port, ran, seconds, texts):
    """The replies to pushes of a gate that is killed after so many seconds."""
    timer, replies = threading.Timer(seconds, ran.kill), []
    timer.start()
    try:
        for text in texts:
            replies.append(push(port, text))
    except (OSError, http.client.HTTPException):
        pass
    finally:
        timer.cancel()
        timer.join()
        ran.kill()
    return replies


def strangers_push(guarded, stream, count):
    """The push of a stranger's change behind a stream whose log has so many entries."""
    strange = another(guarded, f"strange {count}")
    shutil.rmtree(strange.place)
    imported(f"{strange.place}/", stream)
    strange.entries = strange.entries[:count]
    strange.change("stranger", WITH_KEY)
    return text_between(stream, exported(f"{strange.place}/"), strange.entries[-1])


def holds_what_it_said(repositories):
    """whenever a gate is killed, what it said it took is there, nothing that it is to deny ever is, and its pushes can be made again"""
    guarded, stream, place = begun(repositories, "killed")
    offers, streams = [], [stream]
    for listing in (CHANGED, FIRST) * 4:
        guarded.change("maintainer", listing)
        offers.append(Offer(guarded, streams[-1]))
        streams.append(offers[-1].after)
    # A stranger's change of the log behind each of its streams, which the gate is to deny each time.
    unlawful = [strangers_push(guarded, it, len(guarded.entries) - len(offers) + at) for at, it in enumerate(streams[:-1])]
    drawn, there, kills = random.Random(41), 0, 0
    while kills < in_this_run(6, 100):
        if there == len(offers):
            place, there = repositories.path(f"killed {kills}.db"), 0
            imported(place, stream)
        with desk(place, gate=True) as (ran, port):
            replies = pushes_until_killed(port, ran, drawn.uniform(0, 0.03), (unlawful[there], offers[there].text, unlawful[there]))
        kills += 1
        for reply, wanted in zip(replies, ((403,), (200, 201), (409,))):
            want(reply[0] in wanted, True, f"whether {reply} is a reply to a push that is unlawful, lawful, or behind that")
        found = exported(place)
        want(found in streams[there + (len(replies) > 1) : there + 2], True, f"whether the store has what {len(replies)} replies said")
        there = streams.index(found, there)
    return f"{kills} kills"


CHECKS = (denies_what_the_policy_forbids, takes_what_mends, holds_what_it_said)
