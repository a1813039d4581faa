"""The words of `git gittuf policy` that show what is edited, sign it, and bring it into force."""

import json
import os
import sys
import termios

from git_gittuf import commands, keys, leaves, policies, policy_faults, policy_lines, policy_objects, program, sentences, trust, withheld
from git_gittuf.program import Ended
from git_gittuf.repository import LOG, POLICY, STAGED, Stopped
from git_gittuf.shown import plain
from git_gittuf.telling import say, tell


def draft_and_force(work):
    """What is edited, or in force, and the policy in force, on which all that is shown and signed stands."""
    withheld.expect_none(work)
    trust.pin(work)
    force = policies.in_force(work)
    policies.expect_recorded(work, force)
    draft = policies.staged(work, force)
    if not draft.files and LOG not in work.repository.references() and work.repository.remotes():
        # Theirs is not to be begun beside.
        raise Stopped(sentences.NO_LOG, 3)
    if not draft.files:
        raise Stopped("there is no policy yet: git gittuf policy init <your name> begins one", 3)
    return draft, force


def keep(work, draft):
    """Puts the files at the reference of what is edited."""
    listing = draft.listing()
    try:
        before = policies.edited(work)
    except Stopped:
        # What is malformed is written over.
        before = None
    if before and before.files and before.listing() == listing:
        return False
    work.change(lambda: work.asked("snapshot", STAGED.decode(), input=listing))
    return True


def who_signs(draft, force, name):
    """The ids of the keys that may sign a file, by the draft and for the root also by what is in force."""
    found = draft.of_keys(draft.role(name).get("persons", []))
    if name == "root" and force.files:
        found += force.of_keys(force.role("root").get("persons", []))
    return found


def waits(draft, force, name):
    """Whether a file is to be signed: it is new, another than the one in force, or others are to sign it than did."""
    old, file, role = force.signed_files().get(name), draft.signed_files()[name], draft.role(name)
    if not old or old.payload != file.payload:
        return True
    signed, _ = policy_faults.who_signed(file, role, draft)
    return "persons" in role and len(signed) < role["threshold"]


def files_to_sign(draft, force, key_id):
    """The files that wait for the signature of this key."""
    files = draft.signed_files()
    waiting = [it for it in files if waits(draft, force, it)]
    publics = {**force.publics(), **draft.publics()}
    unsigned = [it for it in waiting if key_id not in files[it].signers(publics)]
    return [it for it in unsigned if key_id in who_signs(draft, force, it)]


def is_terminal():
    return all(os.isatty(it) for it in (0, 1, 2))


def expect_shown(words, draft, force):
    """Goes on where the person who signs has seen what is signed: at a terminal now, or else before, by its id."""
    shown = policies.id_of(force, draft)
    if words.id is not None:
        if words.id != shown:
            raise Stopped("what is edited is not what had this id: git gittuf policy show prints it, with its id", 3)
        return
    if not is_terminal():
        way = "git gittuf policy show prints it with its id, and git gittuf policy sign --id ID signs what has this id"
        raise Stopped(f"what is signed is to be seen before: {way}", 2)
    # What was typed or pasted before the question is no answer to it.
    termios.tcflush(0, termios.TCIFLUSH)
    print("Sign this? [y/N] ", end="", file=sys.stderr, flush=True)
    if sys.stdin.readline().strip().lower() not in ("y", "yes"):
        raise Stopped("nothing is signed", 3)


def sign(work, words):
    """Seals each file that waits for this person's signature, once it was seen what that changes."""
    work.bring()
    key = leaves.signing_key(work.repository)
    draft, force = draft_and_force(work)
    names = files_to_sign(draft, force, keys.id_and_public(key)[0])
    if not names:
        raise Stopped("nothing here waits for a signature of this key: git gittuf policy show says who signs", 3)
    print_changes(force, draft)
    sys.stdout.flush()
    expect_shown(words, draft, force)
    for name in names:
        file = draft.signed_files()[name]
        asked = ("seal", "--add") if file.signatures else ("seal",)
        status, printed = program.run("-", key, *asked, input=file.envelope() if file.signatures else file.payload)
        if status:
            raise Ended(asked, status, printed)
        draft.set_file(name, policies.read_file(name, printed))
    keep(work, draft)
    print_signers(draft, force)
    if any(len(signed) < role["threshold"] for _, role, signed in signers_of(draft, force)):
        say("git gittuf push carries it to the others, each of whom signs it by git gittuf policy sign.")
    else:
        say("git gittuf policy apply brings it into force, or says whose signature it lacks.")


def discard(work, _):
    """Puts what is in force at the reference of what is edited, whatever stands there."""
    work.bring()
    force = policies.in_force(work)
    policies.expect_recorded(work, force)
    if STAGED not in work.repository.references() or not keep(work, force):
        raise Stopped("nothing is edited: git gittuf policy show prints the policy", 3)


def apply(work, words):
    """Puts what is edited at the policy's reference, and records that where it succeeds what is in force."""
    work.bring()
    key = leaves.signing_key(work.repository)
    commands.expect_one_log(work, words.anyway)
    draft, force = draft_and_force(work)
    bare = [name for name, file in draft.signed_files().items() if not file.signatures]
    if bare:
        who = dict.fromkeys(person for name in bare for person in draft.role(name).get("persons", []))
        whose = f" by {' or '.join(map(plain, who))}" if who else ""
        raise Stopped(f"nobody has signed {' and '.join(bare)} yet: git gittuf policy sign{whose}", 3)
    listing = draft.listing()
    if force.files and force.listing() == listing:
        raise Stopped("what is edited is in force already: git gittuf policy show prints it", 3)

    def steps():
        work.asked("snapshot", POLICY.decode(), input=listing)
        status, printed, said = work.told("policy-apply", key=key)
        if said.startswith("policy "):
            why = policy_faults.sentence(said, draft, force)
            if not words.anyway:
                raise Stopped(f"nothing is applied, and no leaf is used: {why}; --anyway records it in vain", status)
            tell(f"it is recorded in vain, and what is in force goes on: {why}")
            return work.asked("record", POLICY.decode(), key=key)
        print(end=f"{said}\n" if said else "", file=sys.stderr, flush=True)
        if status:
            raise Ended(("policy-apply",), status, printed)
        return printed

    print(work.change(steps).decode(), end="", flush=True)
    commands.say_what_carries_it(work.repository)


def waiting(draft, force):
    """The files that are to be signed, by their names."""
    return {name: file for name, file in draft.signed_files().items() if waits(draft, force, name)}


def object_of(force, draft):
    """What show prints, as an object."""
    files = waiting(draft, force)
    return {
        "in_force": policy_objects.of_policy(force),
        "edited": policy_objects.of_policy(draft) if draft is not force else None,
        "changes": policy_lines.of_change(force, draft),
        "waiting": [policy_objects.of_signers(draft, *it) for it in files.items()],
        "id": policies.id_of(force, draft) if files else None,
    }


def show(work, words):
    """Prints the policy in force, what is edited beside it, and who signed that."""
    work.bring()
    draft, force = draft_and_force(work)
    if words.json:
        print(json.dumps(object_of(force, draft), sort_keys=True))
        return
    for line in policy_lines.of_policy(force):
        print(plain(line))
    print_changes(force, draft)
    print_signers(draft, force)
    if waiting(draft, force):
        print(f"id {policies.id_of(force, draft)}")


def print_changes(force, draft):
    for line in policy_lines.of_change(force, draft):
        print(line)


def signers_of(draft, force):
    """Each file that is to be signed, with its role and who signed it."""
    for name, file in waiting(draft, force).items():
        role = draft.role(name)
        yield name, role, policy_faults.who_signed(file, role, draft)[0]


def print_signers(draft, force):
    """Prints of each file that is to be signed who did."""
    for name, role, signed in signers_of(draft, force):
        print(plain(f"{name} is signed by {len(signed)} of {role['threshold']}{': ' if signed else ''}{policy_lines.words(signed)}"))
