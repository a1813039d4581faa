"""Dossiers: two entries that one key signed, as a file for others. The program writes them, and says what they show."""

import hashlib
import os
import re
import sys

import stream_format
from git_gittuf import commands, epochs, history, keys, mirror_places, policies, program, settings, signers
from git_gittuf.program import Ended
from git_gittuf.repository import LOG, Stopped
from git_gittuf.shown import plain, quoted
from git_gittuf.signers import People
from git_gittuf.telling import say, show

KEY = re.compile("[0-9a-f]{112}|[0-9a-f]{120}")
ID = re.compile("[0-9a-f]{64}")
# A key of no person, by which the program gives out bodies as by any other.
NO_KEY = "0" * 112
# What a dossier has at most, and a byte more, by which the program knows a longer one.
MOST = (64 << 20) + 1
HEAD = re.compile(rb"gittuf-evidence 1\nkey ([0-9a-f]+)\n")
SIZE = re.compile(rb"(?:left|right) (\d+)\n")
NUMBER = re.compile(rb"\nnumber: (\d+)\n")


class Side:
    """An entry of a dossier: its id, and the id of the key that it names, or nothing."""

    def __init__(self, body):
        found = stream_format.hash_of(b"commit", len(body))
        found.update(body)
        key = signers.key_in(body)
        self.id, self.key = found.hexdigest(), key.decode() if key else None


def made(store, public, left, right):
    """What the program answers where it is to write a dossier of two objects of a store."""
    return program.told(store, "-", "evidence-make", public, left, right)


def bodies_of(text):
    """Both bodies of a dossier that the program wrote or took."""
    at, found = HEAD.match(text).end(), []
    for _ in range(2):
        head = SIZE.match(text, at)
        found.append(text[head.end() : head.end() + int(head[1])])
        at = head.end() + int(head[1]) + 1
    return found


def people(work):
    """The persons of the policy in force here, and nobody where there is none."""
    return signers.in_force(work) if LOG in work.repository.references() else People()


def earlier(work):
    """The persons of each policy that was in force, the last one first, and nobody where the log is none."""
    status, printed = work.read("log") if LOG in work.repository.references() else (0, b"")
    found = [] if status else epochs.of_entries(work.repository, history.entries(printed), settings.held_to(work.repository))
    return [People(policies.Policy(work.repository, target)) for _, target in reversed(found)]


def holder(work, key):
    """How the holder of a key is named: as the policy in force does, or one before, or by the front of the key's id."""
    now = people(work)
    before = None if key in now.persons else next((it for it in earlier(work) if key in it.persons), None)
    return f"{before.shown(key)} (by a key that the policy names no more)" if before else now.shown(key)


def publics(work):
    """The public keys that are known here by their ids: those of policies that were in force or are edited, and the own one."""
    found = {key: public for it in reversed(earlier(work)) for key, public in it.publics.items()}
    found.update(people(work).publics)
    try:
        found.update(policies.edited(work).publics())
    except Stopped:
        # What is edited may be malformed.
        pass
    path = keys.path_of(work.repository)
    if keys.is_there(path):
        key, public = keys.id_and_public(path)
        found[key] = bytes.fromhex(public)
    return {key: public.hex() for key, public in found.items()}


def store_with(work, words, ids):
    """The store in which both entries stand, with their bodies."""
    own = [*mirror_places.own_stores(work.repository), work.kept.for_program()]
    lacks = None
    for store in [mirror_places.store_at(words.source)] if words.source is not None else own:
        status, text, said = made(store, NO_KEY, *ids)
        if not status:
            return store, bodies_of(text)
        if status != 3:
            raise Ended(("evidence-make",), status, b"")
        lacks = lacks or said.split(" ")[-1]
    where = f"{plain(store)} lacks" if words.source is not None else "no store here that has the other one has"
    raise Stopped(f"{where} the object {lacks}: git gittuf mirror keeps what a server showed, and --from names another store", 3)


def key_for(work, words, sides):
    """The public key that both entries name, by its digits."""
    named = [it.key for it in sides]
    if None in named or named[0] != named[1]:
        shown = [holder(work, it) for it in named]
        raise Stopped(f"one is signed by {shown[0]} and the other by {shown[1]}: a dossier shows what one key signed", 3)
    if words.key is not None:
        if not KEY.fullmatch(words.key) or hashlib.sha256(bytes.fromhex(words.key)).hexdigest() != named[0]:
            raise Stopped(f"--key is not the public part of the key {named[0]}, by which both are signed", 3)
        return words.key
    found = publics(work).get(named[0])
    if found is None:
        raise Stopped(f"both are signed by the key {named[0]}, which no policy here names: --key takes its public part", 3)
    return found


def ids_of(work, entries):
    """The ids of entries, which may be of other logs than the one here where they are named by their ids."""
    return [it if ID.fullmatch(it) else commands.entry_ids(work, [it]) for it in entries]


def of_line(line, text, who):
    """What a line of evidence-check means, of a dossier and of the holder of its key."""
    kind, _, value = line.partition(" ")
    ids = [Side(it).id[:12] for it in bodies_of(text)]
    if kind == "fork":
        return (
            f"{who} signed two entries of number {value}, {ids[0]} and {ids[1]}: a server showed two histories, or one was signed"
            " anew after a push that was refused. Ask which one counts."
        )
    if kind == "reuse":
        return (
            f"The leaf {value} of the key of {who} signed two messages, so others can forge by it: the key file was copied, put back"
            " or stolen. git gittuf policy rotate gives another key in its place."
        )
    return "It shows nothing: the entries are one, or have two numbers and two leaves, or are not both well signed by this key."


def told(work, text):
    """Prints what a dossier shows, and returns the status of that; without a call at work where there is no repository."""
    status, printed, said = program.told("-", "-", "evidence-check", input=text)
    if status == 3:
        raise Stopped("it is no dossier, or has more than 64 MiB", 3)
    if status not in (0, 1):
        raise Ended(("evidence-check",), status, printed)
    show(printed)
    key = hashlib.sha256(bytes.fromhex(HEAD.match(text)[1].decode())).hexdigest()
    who = holder(work, key) if work else People().shown(key)
    for line in os.fsdecode(printed).splitlines():
        say(of_line(line, text, who))
    return status


def expect_file_alone(words):
    if words.entries or words.output is not None:
        raise Stopped("--check takes a file alone", 2)


def check(work, path):
    with open(path, "rb") as file:
        return told(work, file.read(MOST))


def check_anywhere(words):
    """Tells what a dossier shows where there is no repository that can be worked in, and so no policy that says whose its key is."""
    expect_file_alone(words)
    status = check(None, words.check)
    if not status:
        say("Whose key that is a clone says whose policy names it: there the same call does.")
    sys.stdout.flush()
    return status


def evidence(work, words):
    if words.check is not None:
        expect_file_alone(words)
        work.bring()
        return check(work, words.check)
    if len(words.entries) != 2 or words.output is None:
        raise Stopped("evidence takes two entries and -o FILE, or --check FILE", 2)
    work.bring()
    ids = ids_of(work, words.entries)
    store, bodies = store_with(work, words, ids)
    status, text, _ = made(store, key_for(work, words, [Side(it) for it in bodies]), *ids)
    if status:
        raise Ended(("evidence-make",), status, b"")
    status = told(work, text)
    if status:
        # Nobody is to be sent what shows nothing.
        return status
    with open(words.output, "wb") as file:
        file.write(text)
    say(f"{plain(words.output)} shows that to whoever has it: git gittuf evidence --check {quoted(words.output)}")
    return 0
