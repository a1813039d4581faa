"""Why the program takes no policy, in a sentence: whose signatures a file wants, who is missing, and the next line to type."""

import re

from git_gittuf.shown import plain

COUNTED = re.compile(r"policy (root-threshold|root-succession|file-threshold) (?:(\S+) )?(\d+) of (\d+)")
NEXT = "git gittuf policy sign"
# What the other faults mean, by their first word.
OTHERS = {
    "unreadable": "the policy cannot be read as a whole: git gittuf policy discard gives up what is edited",
    "no-root": "it has no file root: git gittuf policy discard gives up what is edited",
    "bad-file": "this file is malformed: git gittuf policy discard gives up what is edited",
    "root-version": "another root was brought into force since this one was edited: git gittuf policy discard, and edit again",
    "file-version": "another file of this name was brought into force since this one was edited: git gittuf policy discard, and edit again",
    "file-dropped": "this file may go once the one that has its rule is another too: git gittuf policy rule takes out its rule",
}


def who_signed(file, role, policy):
    """The persons of a role who signed a file with keys of a policy, and those who did not."""
    signers, persons = set(file.signers(policy.publics())), role.get("persons", [])
    signed = [it for it in persons if set(policy.of_keys([it])) & signers]
    return signed, [it for it in persons if it not in signed]


def sentence(said, draft, force):
    """What the program said of a policy, and what to do about it."""
    found = COUNTED.fullmatch(said)
    if not found:
        words = said.split(" ")
        return plain(f"{said}; {OTHERS.get(words[1], 'git gittuf policy show prints it')}")
    kind, name = found[1], found[2] or "root"
    holder = force if kind == "root-succession" else draft
    file = draft.all_files().get(name)
    if not file:
        return plain(f"{said}; git gittuf policy show says who signed")
    role = holder.role(name)
    _, missing = who_signed(file, role, holder)
    whose = "the root that is in force wants" if kind == "root-succession" else f"the file {name} wants"
    who = f"{', '.join(missing)}, of whom each signs it by {NEXT}" if missing else f"a good signature of somebody: {NEXT}"
    return plain(f"{said}; {whose} {role['threshold']} of {', '.join(role.get('persons', []))}, and missing is {who}")
