"""The forms of a policy's files, as far as they are read here: who edits and signs meets what anybody may have written."""

import json


def distinct(pairs):
    """The fields of a JSON object, of which none stands twice: what is shown is then what any reader takes."""
    found = dict(pairs)
    if len(found) != len(pairs):
        raise ValueError("a field stands twice")
    return found


def json_of(text):
    return json.loads(text, object_pairs_hook=distinct)


def is_text(it):
    return isinstance(it, str)


def is_number(it):
    return type(it) is int and 0 < it < 1 << 63


def is_flag(it):
    return isinstance(it, bool)


def all_are(test):
    return lambda it: isinstance(it, list) and all(map(test, it))


def has(**fields):
    return lambda it: isinstance(it, dict) and all(name in it and test(it[name]) for name, test in fields.items())


are_texts = all_are(is_text)
is_envelope = has(payload=is_text, payloadType=is_text, signatures=all_are(has(keyid=is_text, sig=is_text)))
are_keys = all_are(has(keyid=is_text, keytype=is_text, public=is_text))
are_persons = all_are(has(name=is_text, keyids=are_texts))
# The file of global rules is called by what no rule is called.
GLOBAL = "global/rules"
# Who signs: persons, or in schema 1 keys.
WHO = {1: has(keyids=are_texts, threshold=is_number), 2: has(persons=are_texts, threshold=is_number)}
def expect(holds, what):
    if not holds:
        raise ValueError(f"{what} is not as docs/FORMATS.md has it")


def expect_global(says):
    """Refuses what a file of global rules says where it is none."""
    expect(says.get("type") == "global", "its type")
    is_rule = has(name=is_text, kind=is_text, paths=are_texts)
    expect(all_are(is_rule)(says.get("rules")), "its list of rules")
    asking = [it for it in says["rules"] if it["kind"] == "threshold"]
    expect(all(is_number(it.get("threshold")) for it in asking), "how many persons a rule asks for")
    expect(all(it["kind"] in ("threshold", "no-rewind") for it in says["rules"]), "what a rule asks for")


def expect_says(name, says):
    """Refuses what a file says where it is not that of a root, of global rules, or of the rules of this name."""
    expect(isinstance(says, dict), "what it says")
    if name == GLOBAL:
        expect_global(says)
        return
    schema = says.get("schema", 1)
    expect(type(schema) is int and schema in WHO, "its schema")
    expect(is_number(says.get("version")), "its version")
    expect(are_keys(says.get("keys")), "its list of keys")
    expect(are_persons(says.get("persons", [] if schema == 1 else None)), "its list of persons")
    is_who = WHO[schema]
    if name == "root":
        expect(says.get("type") == "root" and has(root=is_who, targets=is_who)(says.get("roles")), "who signs by it")
        return
    expect(says.get("type") == "rules" and says.get("name") == name, "its name")
    is_rule = has(name=is_text, paths=are_texts, terminating=is_flag)
    expect(all_are(lambda it: is_rule(it) and is_who(it))(says.get("rules")), "its list of rules")


def known_part(it, fields):
    return {name: value for name, value in it.items() if name in fields}


def says_more(says):
    """Whether a file says something that no line of it shows."""
    if says.get("type") == "global":
        parts = ({"name", "kind", "paths", *(["threshold"] if it["kind"] == "threshold" else [])} for it in says["rules"])
        shown = [known_part(it, fields) for it, fields in zip(says["rules"], parts)]
        return {**known_part(says, {"type", "version"}), "rules": shown} != says
    who = {"threshold", "persons" if says.get("schema", 1) == 2 else "keyids"}
    parts = {"keys": {"keyid", "keytype", "public"}, "rules": {"name", "paths", "terminating", *who}}
    if says.get("schema", 1) == 2:
        parts["persons"] = {"name", "keyids"}
    shown = known_part(says, {"type", "version", "schema", "name"})
    shown.update({name: [known_part(it, fields) for it in says[name]] for name, fields in parts.items() if name in says})
    if "roles" in says:
        shown["roles"] = {name: known_part(says["roles"][name], who) for name in ("root", "targets")}
    return shown != says
