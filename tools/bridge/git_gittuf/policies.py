"""The files of a policy, as they stand in Git: read, edited in plain steps, and written for the program to sign.

A policy has a file `root` with the persons who sign the policy itself, and a file `targets` with the rules. What is
edited stands at refs/gittuf/policy-staging until it is applied, each file as an envelope, which has no signature yet or
those of some persons. Rule files of other names are carried along as they are.
"""

import base64
import hashlib
import json
import os
import re

from git_gittuf import epochs, forms, history, policy_trees, settings, signatures
from git_gittuf.repository import LOG, POLICY, STAGED, Stopped
from git_gittuf.shown import plain

TYPE = "application/vnd.gittuf+json"
FILES = ("root", "targets")
GLOBAL, GLOBAL_PATH = forms.GLOBAL, policy_trees.GLOBAL_PATH
ROLES = FILES
HEXADECIMAL = re.compile("(?:[0-9a-f]{2})+")
ESCAPED = re.compile(rb"%([0-9A-Fa-f]{2})")
# Of LMS keys, and of keys of several levels.
KEY_TYPES = {112: "lms", 120: "hss"}


class File:
    """One file of a policy: what it says, and the envelope that it came in."""

    def __init__(self, payload, signatures=()):
        self.payload, self.signatures = payload, list(signatures)
        self.says = forms.json_of(payload)

    @classmethod
    def read(cls, name, text):
        envelope = forms.json_of(text)
        forms.expect(forms.is_envelope(envelope) and envelope["payloadType"] == TYPE, "its envelope")
        found = cls(base64.b64decode(envelope["payload"], validate=True), envelope["signatures"])
        forms.expect_says(name, found.says)
        return found

    def envelope(self):
        payload = base64.b64encode(self.payload).decode()
        named = {"payload": payload, "payloadType": TYPE, "signatures": self.signatures}
        return json.dumps(named, separators=(",", ":")).encode() + b"\n"

    def signers(self, publics):
        """The ids of those of these keys that signed it."""
        signed = signatures.signed_bytes(TYPE.encode(), self.payload)
        found = [(it["keyid"], it["sig"]) for it in self.signatures if it["keyid"] in publics]
        return [key for key, text in found if signatures.is_good(publics[key], signed, signatures.decoded(text))]


class Policy:
    """The files of a policy's commit, or of none, and what else is in its tree's folder `metadata`, by name."""

    def __init__(self, repository, commit=None, place="the policy in force"):
        self.commit, self.files, self.others, self.global_file = commit, {}, {}, None
        for path, text in policy_trees.texts_of(repository, commit, place) if commit else ():
            if path == GLOBAL_PATH:
                self.read_global(text)
                continue
            name = path.removeprefix(b"metadata/").removesuffix(b".json").decode(errors="replace")
            if name in FILES and path.endswith(b".json"):
                self.files[name] = read_file(name, text, place)
            else:
                self.others[path] = text

    def read_global(self, text):
        """Takes the file of global rules, or what stands in its place, which stays until another is put there."""
        try:
            self.global_file = File.read(GLOBAL, text)
        except (ValueError, RecursionError):
            self.others[GLOBAL_PATH] = text

    def listing(self):
        """What snapshot takes for these files."""
        texts = {f"metadata/{name}.json".encode(): file.envelope() for name, file in self.files.items()}
        if self.global_file:
            texts[GLOBAL_PATH] = self.global_file.envelope()
        rows = sorted({**self.others, **texts}.items())
        return b"".join(b"100644 %d %s\n%s\n" % (len(text), path, text) for path, text in rows)

    def says(self, name):
        return json.loads(json.dumps(self.signed_files()[name].says))

    def role(self, name):
        """Who signs a file: the role of its name, of the root for global rules, or for a delegated rule's file that rule."""
        name = "root" if name == GLOBAL else name
        return self.files["root"].says["roles"][name] if name in ROLES else self.rule(name) or {"persons": [], "threshold": 1}

    def all_files(self):
        """The files by their names, those of delegated rules last."""
        return {**self.files, **self.delegated()}

    def signed_files(self):
        """All files that are signed, by their names: the file of global rules too, where there is one."""
        return {**self.all_files(), **({GLOBAL: self.global_file} if self.global_file else {})}

    def set_file(self, name, file):
        if name == GLOBAL:
            self.global_file = file
            self.others.pop(GLOBAL_PATH, None)
        elif name in FILES:
            self.files[name] = file
        else:
            self.others[path_of(name)] = file.envelope()

    def rules(self):
        """The rules of all files, each with the name of its file."""
        files = {name: file for name, file in self.all_files().items() if name != "root"}
        return [(name, it) for name, file in files.items() for it in file.says["rules"]]

    def rules_named(self, lines):
        """The rules that the program's lines on what protects a name or a path tell."""
        named = {unescaped(it.split(" ")[1]) for it in lines.splitlines() if it.startswith("rule ")}
        return [it for _, it in self.rules() if it["name"] in named]

    def keys_in(self, rules):
        """The keys of those whom these rules ask."""
        asked = {name for it in rules for name in it.get("persons", [])}
        persons = [it for file in self.all_files().values() for it in file.says.get("persons", []) if it["name"] in asked]
        return {key for it in (*rules, *persons) for key in it.get("keyids", [])}

    def rule(self, name):
        return next((it for _, it in self.rules() if it["name"] == name), None)

    def delegated(self):
        """The rule files of delegated rules, by the names of these, as far as they are ones."""
        found = {}
        for path, text in self.others.items():
            name = path.removeprefix(b"metadata/").removesuffix(b".json").decode(errors="replace")
            try:
                found[name] = File.read(name, text)
            except (ValueError, RecursionError):
                # It is shown as it is, and what the program says of it counts.
                continue
        return found

    def persons(self):
        """All persons with their keys, by name."""
        found = {}
        for file in (*self.delegated().values(), *self.files.values()):
            found.update({it["name"]: it["keyids"] for it in file.says.get("persons", [])})
        return found

    def publics(self):
        """The public keys that the files list, by their ids, which are the hashes of them."""
        listed = [it["public"] for file in (*self.files.values(), *self.delegated().values()) for it in file.says["keys"]]
        found = [bytes.fromhex(it) for it in listed if HEXADECIMAL.fullmatch(it)]
        return {hashlib.sha256(it).hexdigest(): it for it in found}

    def of_keys(self, names):
        """The ids of the keys of these persons."""
        persons = self.persons()
        return [key for name in names for key in persons.get(name, [])]


def unescaped(word):
    """A name as a policy has it, of which the program escapes what is no sign of a word."""
    return os.fsdecode(ESCAPED.sub(lambda it: bytes.fromhex(it[1].decode()), os.fsencode(word)))


def payload_of(text):
    """The payload of an envelope."""
    return base64.b64decode(forms.json_of(text)["payload"], validate=True)


def read_file(name, text, place="the policy in force"):
    try:
        return File.read(name, text)
    except (ValueError, RecursionError) as why:
        said = plain(f"the file {name} of {place} is malformed: {why or 'it is no JSON'}")
        way = "git gittuf policy discard gives up what is edited" if place == STAGED.decode() else "the program's explain says more"
        raise Stopped(f"{said}; {way}", 3) from None


def in_force(work):
    """The policy of the log's last epoch, as the program tells it, whatever stands at the policy's reference."""
    repository = work.repository
    entries = history.entries(work.asked("log")) if LOG in repository.references() else []
    root = settings.held_to(repository)
    found = epochs.of_entries(repository, entries, root)
    if root and not found and epochs.of_entries(repository, entries):
        said = "the first policy of this log has other root keys than gittuf.root says, or gittuf.firstRoot, as it was seen here first"
        raise Stopped(f"{said}: git gittuf verify says more", 3)
    return Policy(repository, found[-1][1] if found else None)


def metadata_of(work, commit):
    """The ids of the folders with a policy's files, or nothing."""
    return work.repository.git("ls-tree", commit.decode(), "metadata", "global")[1]


def expect_recorded(work, force):
    """Refuses to edit where the policy's reference stands at what no entry of the log brings into force."""
    own = work.repository.references().get(POLICY)
    if own is None or force.commit and metadata_of(work, own) == metadata_of(work, force.commit):
        return
    if force.commit:
        where, back = f"in force is {force.commit.decode()[:12]}", f"git update-ref {POLICY.decode()} {force.commit.decode()}"
    else:
        where, back = "none is in force", f"git update-ref -d {POLICY.decode()}"
    said = f"{POLICY.decode()} stands at {own.decode()[:12]}, which no entry of the log brings into force; {where}"
    raise Stopped(f"{said}: {back} sets it back", 3)


def edited(work):
    """The files that are edited, as they stand."""
    return Policy(work.repository, work.repository.references().get(STAGED), STAGED.decode())


def staged(work, force):
    """What is edited, or else what is in force, as where that went on beside what was edited."""
    found = edited(work)
    if not all(it in found.files for it in FILES) or any(is_older(found.files[it], force.files.get(it)) for it in FILES):
        return force
    return found


def id_of(force, draft):
    """The id of a change, by which is signed what was shown: of all that the policies say, without who signed it."""
    found = hashlib.sha256()
    for it in (force, draft):
        rows = {path_of(name): file.payload for name, file in it.signed_files().items()}
        for path, text in sorted({**it.others, **rows}.items()):
            found.update(b"%d %d " % (len(path), len(text)) + path + text)
        found.update(b"end ")
    return found.hexdigest()


def is_older(file, other):
    """Whether a file can no longer take the place of another."""
    return bool(other) and file.payload != other.payload and file.says["version"] <= other.says["version"]


def key_of(public, key_id):
    return {"keyid": key_id, "keytype": KEY_TYPES[len(public)], "public": public}


def written(says):
    return File(json.dumps(says, sort_keys=True, separators=(",", ":")).encode())


def settled(says, old, draft):
    """The file that says this: the one in force, the one that is edited, or a new one of the next version, unsigned."""
    version = old.says.get("version", 0) if old else 0
    if old and {**says, "version": version} == {**old.says, "version": version}:
        return old
    says = {**says, "version": version + 1}
    return draft if draft and says == draft.says else written(says)


def path_of(name):
    """Where a file stands in a policy's tree."""
    return GLOBAL_PATH if name == GLOBAL else b"metadata/%s.json" % name.encode()


def begin_global():
    """What the file of global rules says before it has a rule. Its version is for who edits it: the program reads none."""
    return {"rules": [], "type": "global", "version": 1}


def begin_file(name):
    """What a delegated rule's file says before it has a rule."""
    return {"keys": [], "name": name, "persons": [], "rules": [], "schema": 2, "type": "rules", "version": 1}


def begin(name, key_id, public):
    """The first files of a policy: one person, who signs policies alone, and no rule."""
    role = {"persons": [name], "threshold": 1}
    who = {"keys": [key_of(public, key_id)], "persons": [{"name": name, "keyids": [key_id]}], "schema": 2, "version": 1}
    root = {**who, "type": "root", "roles": {"root": role, "targets": role}}
    rules = {**who, "type": "rules", "name": "targets", "rules": []}
    return {"root": written(root), "targets": written(rules)}


def add_person(says, name, keys):
    """Puts a person with these keys, by id, into what a file says, in place of an older one of the name."""
    ids = [it["keyid"] for it in keys]
    others = [it for it in says["persons"] if it["name"] != name]
    says["persons"] = [*others, {"name": name, "keyids": ids}]
    used = {key for it in says["persons"] for key in it["keyids"]}
    listed = {it["keyid"]: it for it in [*says["keys"], *keys]}
    says["keys"] = [it for key, it in listed.items() if key in used]


def drop_person(says, name):
    says["persons"] = [it for it in says["persons"] if it["name"] != name]
    used = {key for it in says["persons"] for key in it["keyids"]}
    says["keys"] = [it for it in says["keys"] if it["keyid"] in used]


def has_person(says, name):
    return any(it["name"] == name for it in says["persons"])


