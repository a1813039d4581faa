"""The check of tools/test on the examples of docs/FORMATS.md: what a reader copies is read."""

import json
import os

from check_keys import ENTRY_LINE, KEY_LINE, line_of
from check_snapshots import listing_of, seal, take_snapshot
from checking import LAUNCHER, TOP, Failure, want, want_run
from made_folders import command

POLICY = "refs/gittuf/policy"
PERSONS = ("alice", "bob")
# What `explain` prints of names that the example's rules speak of, and of others.
EXPLAINED = {
    "git:refs/heads/main": b"rule main 2 terminating\n",
    "git:refs/heads/release-1": b"rule main 2 terminating\n",
    "git:refs/heads/other": b"unprotected\n",
    "file:manual/a/b": b"rule manual 1 open\n",
    "file:a/README.md": b"rule manual 1 open\n",
    "file:main.c": b"unprotected\n",
}


def examples():
    """The root and the rule file of the page, as texts."""
    with open(os.path.join(TOP, "docs", "FORMATS.md"), encoding="utf-8") as file:
        _, found, section = file.read().partition("## Roots and rule files\n")
    texts = [it for it in section.split("```\n")[1::2] if it.startswith('{"type":')][:2]
    if not found or [json.loads(it)["type"] for it in texts] != ["root", "rules"]:
        raise Failure("docs/FORMATS.md has no root and rule file as examples")
    return texts


def propose(place, texts, keys):
    """Puts the texts, sealed by both keys, on the policy's reference."""
    rows = []
    for name, text in zip((b"root", b"targets"), texts):
        sealed = seal(keys[0], input=text.encode())
        rows.append((b"100644", b"metadata/%s.json" % name, seal(keys[1], "--add", input=sealed)))
    take_snapshot(place, listing_of(rows), POLICY)


def reads_its_examples(repositories):
    """the root and the rule file of docs/FORMATS.md are read as they stand, and make a policy for one's own keys"""
    place, texts = repositories.path("examples"), examples()
    keys = [repositories.path(f"examples-{who}.key") for who in PERSONS]
    made = [line_of(KEY_LINE, (LAUNCHER, "-", key, "key-gen", "5", "8"))[0].decode().split()[1:] for key in keys]
    apply = (LAUNCHER, f"{place}/", keys[0], "policy-apply")
    propose(place, texts, keys)
    want_run(apply, 3, errors=b"policy root-threshold 0 of 2\n")
    for listed, (key_id, public) in zip(json.loads(texts[0])["keys"], made):
        texts = [it.replace(listed["keyid"], key_id).replace(listed["public"], public) for it in texts]
    propose(place, texts, keys)
    want(int(line_of(ENTRY_LINE, apply)[1]), 1, "the number of the policy's entry")
    for name, printed in EXPLAINED.items():
        want_run(command(place, "explain", name), 0, printed)


CHECKS = (reads_its_examples,)
