"""The words of `git gittuf policy` that edit: each changes what the files say, and lets the program keep them."""

import hashlib
import re

from git_gittuf import history, keys, policies, reaching
from git_gittuf.policy_commands import draft_and_force, keep, print_changes
from git_gittuf.repository import Stopped
from git_gittuf.shown import plain, quoted
from git_gittuf.telling import tell

NAME = re.compile(r"[A-Za-z0-9._-]{1,64}")
PUBLIC = re.compile(r"(?:[0-9a-f]{112}|[0-9a-f]{120})")


def expect_name(name):
    if not NAME.fullmatch(name):
        raise Stopped(f"{name!r} is no name: 1 to 64 letters, digits, dots, underscores and hyphens", 2)


def edit(work, change):
    """Lets a change of what the files say stand at the reference of what is edited."""
    draft, force = draft_and_force(work)
    old, there = force.all_files(), draft.all_files()
    says = {name: draft.says(name) for name in there}
    if any(it.get("schema", 1) != 2 for it in says.values()):
        raise Stopped("this policy's files are of schema 1, and this edits those of schema 2: see docs/FORMATS.md", 3)
    change(says)
    for name in there.keys() - says.keys():
        del draft.others[policies.path_of(name)]
    for name, it in says.items():
        file = policies.settled(it, old.get(name), there.get(name))
        # What is not edited stays byte for byte.
        if name in policies.FILES or name not in there or file.payload != there[name].payload:
            draft.set_file(name, file)
    kept = keep(work, draft)
    print_changes(force, draft)
    if not kept:
        print("nothing is other than it was")


def init(work, words):
    """Begins a policy of one person, whose key is the one of this repository."""
    expect_name(words.name)
    work.bring()
    force = policies.in_force(work)
    policies.expect_recorded(work, force)
    if policies.staged(work, force).files:
        way = "" if force.files else ", and git gittuf policy sign and git gittuf policy apply bring it into force"
        raise Stopped(f"there is a policy already: git gittuf policy show prints it{way}", 3)
    draft = policies.Policy(work.repository)
    draft.files = policies.begin(words.name, *keys.id_and_public(keys.needed(work.repository)))
    keep(work, draft)
    print_changes(force, draft)


def person(work, words):
    """Adds a person, gives one other keys, or removes one."""
    expect_name(words.name)
    work.bring()

    def change(says):
        if words.remove:
            remove_person(says, words.name)
            return
        given = [it for it in words.public if it != "key" and not re.fullmatch("[0-9a-f]{64}", it)]
        if not given or not all(PUBLIC.fullmatch(it) for it in given):
            raise Stopped("a person has at least one key: the line of git gittuf key, or its last word", 2)
        give_keys(says, words.name, given)

    edit(work, change)


def give_keys(says, name, publics):
    """Gives a person these public keys in each file that has the person, and in the one of the rules."""
    them = [policies.key_of(it, hashlib.sha256(bytes.fromhex(it)).hexdigest()) for it in publics]
    held = {key: it["name"] for file in says.values() for it in file["persons"] if it["name"] != name for key in it["keyids"]}
    for it in them:
        if it["keyid"] in held:
            # Who gives a person another name has both for a while.
            tell(f"the key {it['keyid'][:12]} is that of {plain(held[it['keyid']])} too, and no policy comes into force in which two persons share one")
    for file, it in says.items():
        if file == "targets" or policies.has_person(it, name):
            policies.add_person(it, name, them)


def rotate(work, words):
    """Gives a person another key in place of the older ones, and says who signs that."""
    expect_name(words.name)
    work.bring()
    given = [it for it in words.public if it != "key" and not re.fullmatch("[0-9a-f]{64}", it)]
    given = given or [keys.id_and_public(keys.needed(work.repository))[1]]
    if len(given) != 1 or not PUBLIC.fullmatch(given[0]):
        raise Stopped("one key takes the place of the older ones: the line of git gittuf key, or its last word", 2)

    def change(says):
        if not any(policies.has_person(it, words.name) for it in says.values()):
            raise Stopped(f"there is no person {words.name}: git gittuf policy show lists them", 3)
        give_keys(says, words.name, given)

    edit(work, change)
    root = draft_and_force(work)[1].role("root")
    if words.name in root.get("persons", []):
        tell(
            f"{words.name} is of those who sign the policy, and signs this by both keys: git gittuf policy sign with the old one,"
            f" and once git gittuf key --file <the new one> has set it, again with the new one{without(words.name, root)}"
        )


def without(name, root):
    """Who signs a policy where the older key of one of those who do is lost, as far as they are as many as the root asks for."""
    others = [it for it in root["persons"] if it != name]
    if len(others) < root["threshold"]:
        return "; where the old one is lost, too few are left to sign it"
    return f"; where the old one is lost, it is signed by {root['threshold']} of {', '.join(map(plain, others))}"


def remove_person(says, name):
    if not any(policies.has_person(it, name) for it in says.values()):
        raise Stopped(f"there is no person {name}: git gittuf policy show lists them", 3)
    rules = {it["name"]: it for file in says.values() for it in file.get("rules", [])}
    wanted = [where for where, it in {**says["root"]["roles"], **rules}.items() if name in it["persons"]]
    if wanted:
        named = f"git gittuf policy rule {quoted(wanted[0])} --persons .. names others first{', and so for each' if len(wanted) > 1 else ''}"
        raise Stopped(f"{name} is wanted for {', '.join(map(plain, wanted))}: {named}", 3)
    for it in says.values():
        policies.drop_person(it, name)


def pattern_of(word):
    if word.startswith(("git:", "file:")):
        return word
    if word.startswith("refs/"):
        return f"git:{word}"
    raise Stopped(f"{plain(word)} says not what it is: a branch begins with refs/heads/, and a path with file:", 2)


def rule(work, words):
    """Adds or changes a rule, or who signs policies, which are the rules `root` and `targets`."""
    work.bring()

    def change(says):
        if words.name in policies.ROLES:
            change_role(says, words)
        else:
            change_rule(file_to_edit(says, words), words)
            # A file whose rule is gone would be of no rule.
            if words.remove and words.name in says:
                del says[words.name]

    edit(work, change)
    given = [] if words.remove or words.name in policies.ROLES else [pattern_of(it) for it in words.patterns]
    for it in reaching.unreached(work.repository, given, history.recorded_names(work)) if given else []:
        tell(f"no {'file' if it.startswith('file:') else 'branch or tag'} that is here is reached by {plain(it)} yet")


def global_rule(work, words):
    """Adds or changes a rule that holds whatever the others delegate, or takes one out."""
    work.bring()
    draft, force = draft_and_force(work)
    says = draft.says(policies.GLOBAL) if draft.global_file else policies.begin_global()
    if words.remove:
        take_out(says, words.remove)
    else:
        put_in(says, global_rule_of(words.given))
    file = policies.settled(says, force.global_file, draft.global_file) if says["rules"] else None
    draft.set_file(policies.GLOBAL, file)
    kept = keep(work, draft)
    print_changes(force, draft)
    if not kept:
        print("nothing is other than it was")


def take_out(says, name):
    others = [it for it in says["rules"] if it["name"] != name]
    if len(others) == len(says["rules"]):
        raise Stopped(f"there is no global rule {plain(name)}: git gittuf policy show lists them", 3)
    says["rules"] = others


def put_in(says, rule):
    """Puts a rule in the place of the one of its name, or behind all."""
    if any(it["name"] == rule["name"] for it in says["rules"]):
        says["rules"] = [rule if it["name"] == rule["name"] else it for it in says["rules"]]
    else:
        says["rules"].append(rule)


def global_rule_of(given):
    """The rule that the words are: what it asks for, its name, how many persons, and what it speaks of."""
    wanted = "a global rule is threshold NAME N PATTERN .., no-rewind NAME PATTERN .., or --remove NAME"
    kind, name, *rest = given if len(given) > 1 else (None, None)
    if kind not in ("threshold", "no-rewind"):
        raise Stopped(wanted, 2)
    expect_name(name)
    rule = {"kind": kind, "name": name}
    if kind == "threshold":
        count, *rest = rest or ("",)
        if not re.fullmatch("[1-9][0-9]{0,8}", count):
            raise Stopped(wanted, 2)
        rule["threshold"] = int(count)
    rule["paths"] = [pattern_of(it) for it in rest]
    if not rule["paths"] or kind == "no-rewind" and any(it.startswith("file:") for it in rule["paths"]):
        raise Stopped(f"{wanted}; one against going back speaks of references alone", 2)
    return rule


def file_to_edit(says, words):
    """What the file says in which a rule stands, or is to stand; it is begun where a rule of its name delegates to it."""
    name = words.file or next((it for it in says if any(rule["name"] == words.name for rule in says[it].get("rules", []))), "targets")
    if name == "root" or name not in says and not any(it["name"] == name for file in says.values() for it in file.get("rules", [])):
        raise Stopped(f"there is no rule {plain(name)}, of which the file {plain(name)} would go on: git gittuf policy show lists them", 3)
    file = says.setdefault(name, policies.begin_file(name))
    listed = {it["name"]: it["keyids"] for it in says["targets"]["persons"]}
    for person in (words.persons or "").split(",") if name != "targets" else []:
        if person in listed and not policies.has_person(file, person):
            policies.add_person(file, person, [it for it in says["targets"]["keys"] if it["keyid"] in listed[person]])
    return file


def settle(it, words, known):
    """Sets the persons and the threshold of a rule or a role as far as the words say them."""
    if words.persons:
        it["persons"] = words.persons.split(",")
    unknown = [name for name in it["persons"] if name not in known]
    if unknown:
        adds = f"git gittuf policy person {quoted(unknown[0])} <key> adds one"
        raise Stopped(f"there is no person {plain(unknown[0])}: {adds}", 3)
    it["threshold"] = it.get("threshold", 1) if words.threshold is None else words.threshold
    if not 1 <= it["threshold"] <= len(set(it["persons"])):
        raise Stopped(f"{it['threshold']} of {len(set(it['persons']))} persons can never sign: --threshold says how many are to", 3)


def change_role(says, words):
    if words.patterns or words.remove or words.terminating is not None or words.before or words.file:
        raise Stopped(f"{words.name} says who signs policies, and takes --persons and --threshold alone", 2)
    targets, root = says["targets"], says["root"]
    listed = {it["name"]: it["keyids"] for it in [*root["persons"], *targets["persons"]]}
    settle(root["roles"][words.name], words, listed)
    for name in root["roles"][words.name]["persons"]:
        if not policies.has_person(root, name):
            policies.add_person(root, name, [it for it in targets["keys"] if it["keyid"] in listed[name]])
    used = {name for it in root["roles"].values() for name in it["persons"]}
    for name in [it["name"] for it in root["persons"] if it["name"] not in used]:
        policies.drop_person(root, name)


def change_rule(targets, words):
    expect_name(words.name)
    found = [it for it in targets["rules"] if it["name"] == words.name]
    if words.remove:
        if not found:
            raise Stopped(f"there is no rule {words.name}: git gittuf policy show lists them", 3)
        targets["rules"].remove(found[0])
        return
    if not found:
        if not words.patterns or not words.persons:
            raise Stopped("a new rule says what it protects, and by whom: rule main refs/heads/main --persons alice,bob", 2)
        found = [{"name": words.name, "terminating": False}]
        targets["rules"].append(found[0])
    if words.patterns:
        found[0]["paths"] = [pattern_of(it) for it in words.patterns]
    if words.terminating is not None:
        found[0]["terminating"] = words.terminating
    if words.before:
        put_before(targets["rules"], found[0], words.before)
    settle(found[0], words, {it["name"] for it in targets["persons"]})


def put_before(rules, rule, name):
    """Lets a rule stand before another one of its file, which so counts later."""
    if name not in [it["name"] for it in rules] or name == rule["name"]:
        raise Stopped(f"there is no other rule {plain(name)} in that file: git gittuf policy show lists them", 3)
    rules.remove(rule)
    rules.insert([it["name"] for it in rules].index(name), rule)
