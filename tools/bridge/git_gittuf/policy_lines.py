"""What a policy says, a line for each thing, and what a change of it would change."""

import hashlib
import json
import os

from git_gittuf import forms, policies
from git_gittuf.shown import plain, word


def words(texts):
    return " ".join(map(word, texts))


def who(it, schema):
    """The persons of a role or a rule, or in schema 1 its keys."""
    return words(it["persons" if schema == 2 else "keyids"])


def of_roles(policy):
    lines = []
    for name in policies.ROLES:
        role, what = policy.role(name), "the policy is signed by" if name == "root" else "its rules are signed by"
        schema = policy.files["root"].says.get("schema", 1)
        lines.append(f"{what} {role['threshold']} of {who(role, schema)}")
    return lines


def of_persons(policy):
    """The persons of all files, and where a file has another of a name, whose it is."""
    named = {}
    for name, file in sorted(policy.files.items(), reverse=True):
        for it in file.says.get("persons", []):
            named.setdefault((word(it["name"]), words(it["keyids"])), []).append(name)
    names = [name for name, _ in named]
    lines = []
    for (name, keys), files in sorted(named.items()):
        where = f" in the file {' and '.join(files)}" if names.count(name) > 1 else ""
        lines.append(f"person {name} has the keys {keys}{where}")
    return lines


def of_rules(says):
    lines = []
    for rule in says["rules"]:
        ends = ", and no later rule" if rule["terminating"] else ""
        named = who(rule, says.get("schema", 1))
        lines.append(f"rule {word(rule['name'])}: {words(rule['paths'])} by {rule['threshold']} of {named}{ends}")
    return lines


def of_global(says):
    """What holds whatever the rules delegate."""
    lines = []
    for rule in says["rules"]:
        asks = f"signed by at least {rule['threshold']}" if rule["kind"] == "threshold" else "never goes back"
        lines.append(f"global {word(rule['name'])}: {words(rule['paths'])} {asks}")
    return lines


def of_other(path, text):
    """The lines of another file: its rules where it has some, and else by what it is told from others."""
    name = path.removeprefix(b"metadata/").removesuffix(b".json").decode(errors="replace")
    shown = word(os.fsdecode(path))
    try:
        says = policies.File.read(name, text).says
    except (ValueError, RecursionError):
        return [f"file {shown} is {hashlib.sha256(text).hexdigest()}"]
    persons = [f"person {word(it['name'])} has the keys {words(it['keyids'])}" for it in says.get("persons", [])]
    lines = [f"version {says['version']}", *persons, *of_rules(says), *of_more(says)]
    return [f"file {shown} has {it}" for it in lines]


def of_more(says):
    """The whole text of a file that says more than the lines above tell."""
    return [f"more than is told here: {json.dumps(says)}"] if forms.says_more(says) else []


def of_policy(policy):
    if not policy.files:
        return []
    lines = [*of_roles(policy), *of_persons(policy)]
    if "targets" in policy.files:
        lines += of_rules(policy.files["targets"].says)
    if policy.global_file:
        lines += of_global(policy.global_file.says)
        lines += [f"file {policies.GLOBAL} says {it}" for it in of_more(policy.global_file.says)]
    for name, file in sorted(policy.files.items()):
        lines += [f"file {name} says {it}" for it in of_more(file.says)]
    for path, text in sorted(policy.others.items()):
        lines += of_other(path, text)
    return lines


def of_versions(force, draft):
    """Where a file's version or schema is not what an edit gives it."""
    lines = []
    for name, file in sorted(draft.files.items()):
        old, version = force.files.get(name), file.says["version"]
        wanted = old.says["version"] + (old.payload != file.payload) if old else 1
        if version != wanted:
            lines.append(f"+ the version of {name} is {version}, where {wanted} follows")
        if file.says.get("schema", 1) != (old.says.get("schema", 1) if old else 2):
            lines.append(f"+ the schema of {name} is {file.says.get('schema', 1)}")
    return lines


def of_change(force, draft):
    """What would change, a line for each thing that goes, with -, or comes, with +."""
    # Few calls want it, and it takes long to load.
    import difflib

    lines = difflib.ndiff(of_policy(force), of_policy(draft))
    return [plain(it) for it in (*filter(lambda line: line[0] in "+-", lines), *of_versions(force, draft))]
