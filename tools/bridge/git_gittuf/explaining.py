"""`git gittuf explain`: the rules that protect a branch or a path, as the program names them, and whom they ask."""

import json
import os

from git_gittuf import consents, history, keys, looking, names, policies, sentences, withheld
from git_gittuf.repository import LOG, REMOTES, Stopped
from git_gittuf.shown import plain
from git_gittuf.telling import say, show, tell


def branch_for(work, word):
    """The branch or tag that a word names, here, in the log or at a remote, or nothing."""
    repository = work.repository
    name, references = names.own_name(repository, word), repository.references()
    if name in references and not name.startswith(REMOTES):
        return name
    try:
        return names.of_word(repository, word, lambda: history.recorded_names(work))[0].name
    except Stopped:
        # What is not there yet is named as a whole.
        return name if word.startswith("refs/") else None


def name_for(work, word):
    """The name in one of a policy's two spaces that a word means: a branch or tag before a path."""
    if word.startswith("git:") and not word.startswith("git:refs/"):
        raise Stopped(f"{plain(word)} names no branch or tag as a rule does: git:refs/heads/main is the name of one", 2)
    if word.startswith(("git:", "file:")):
        return word
    name = branch_for(work, word)
    if name:
        return "git:" + os.fsdecode(name)
    if not os.path.lexists(word):
        tell(f"there is no branch or tag {plain(word)}, here or in the log, and no file: it is taken for a path")
    top, folder = work.repository.top, os.path.realpath(os.path.dirname(os.path.abspath(word)))
    if top and keys.is_inside(folder, top):
        word = os.path.relpath(os.path.join(folder, os.path.basename(word)), top)
    return f"file:{word}"


def told(name, line, policy):
    """What is told of a line of the program, by name."""
    words = line.split(" ")
    found = {"kind": words[0], "line": line, "name": name}
    if words[0] == "rule":
        rule = looking.rule_of(policy, words[1]) or {}
        found.update(rule=policies.unescaped(words[1]), threshold=int(words[2]), terminating=words[3] == "terminating")
        found.update(persons=rule.get("persons"), keys=sorted(policy.keys_in([rule])))
    return found


def asked_by(it):
    """In words, how many of whom a rule asks."""
    return f"{it['threshold']} of {looking.listing(it['persons'] or [])}"


def of_its_paths(policy, name):
    """What is said of a branch or tag that no rule protects, where rules protect paths that it may have."""
    rules = consents.asked_by_paths(policy) if name.startswith("git:") else []
    named = ", ".join(plain(it["name"]) for it in rules)
    return f", but for the paths of {named}, of which its first record counts each that it has as changed" if named else ""


def sentence(name, rows, policy):
    if rows[0]["kind"] == "rule":
        each = "; ".join(f"{plain(it['rule'])} wants {asked_by(it)}" for it in rows)
        return f"A change of {plain(name)} needs the signatures that one of these rules wants: {each}."
    if rows[0]["kind"] == "unprotected":
        return f"No rule protects {plain(name)}: anybody may change it{of_its_paths(policy, name)}."
    return "No policy is in force: git gittuf policy init begins one."


def explain(work, words):
    work.bring()
    withheld.expect_none(work)
    name = name_for(work, words.name)
    printed, policy = work.asked("explain", name), policies.in_force(work)
    rows = [told(name, line, policy) for line in os.fsdecode(printed).splitlines()]
    for it in rows:
        if words.json:
            print(json.dumps(it, sort_keys=True))
            continue
        show(f"{it['line']}\n".encode(errors="surrogateescape"))
        if words.verbose and it["kind"] == "rule":
            print(f"  asks {asked_by(it)}")
    say(sentences.of_no_log(True) if LOG not in work.repository.references() and work.repository.remotes() else sentence(name, rows, policy))
