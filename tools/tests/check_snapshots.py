"""The checks of tools/test on snapshots and on sealed envelopes."""

import base64
import hashlib
import json
import re

from check_folders import command, expect_same, files_below
from check_keys import KEY_LINE, line_of
from checking import PROGRAM
from checking import Failure, run, want, want_run

COMMIT_LINE = re.compile(rb"commit ([0-9a-f]{64})\n")
REFERENCE = "refs/heads/files"
FILES = (
    (b"100644", b"README", b"A project.\n"),
    (b"120000", b"link", b"README"),
    (b"100755", b"run/it", b""),
    (b"100644", b"src/a", b"1\n\n2"),
)


def listing_of(files):
    return b"".join(b"%s %d %s\n%s\n" % (mode, len(body), path, body) for mode, path, body in files)


def blob_of(body):
    return hashlib.sha256(b"blob %d\0%s" % (len(body), body)).hexdigest()


def take_snapshot(place, listing, name=REFERENCE):
    """Makes a snapshot on a reference, and returns the id of its commit."""
    status, output, errors = run(*command(place, "snapshot", name), input=listing)
    want((status, errors), (0, b""), "the status and errors of snapshot")
    found = COMMIT_LINE.fullmatch(output)
    if not found:
        raise Failure(f"snapshot printed {output!r}")
    return found[1].decode()


def keeps_a_listing(repositories):
    """what snapshot keeps passes git fsck --strict as a Git repository, and git lists it as the listing says"""
    repositories.needed()
    place = repositories.path("snapshots")
    first = take_snapshot(place, listing_of(FILES))
    second = take_snapshot(place, b"")
    status, stream, _ = run(*command(place, "export"))
    want(status, 0, "the status of export")
    repositories.from_stream(stream, "snapshots.git")
    repositories.git("fsck", "--strict", name="snapshots.git")
    commits = repositories.git("log", "--format=%H %s", REFERENCE, name="snapshots.git").decode().splitlines()
    want(commits, [f"{second} snapshot", f"{first} snapshot"], "the commits as Git reads them")
    lines = [f"{mode.decode()} blob {blob_of(body)}\t{path.decode()}" for mode, path, body in FILES]
    want(repositories.git("ls-tree", "-r", first, name="snapshots.git").decode().splitlines(), lines, "the files of the first")
    want(repositories.git("ls-tree", "-r", second, name="snapshots.git"), b"", "the files of the second")


def refuses_other_listings(repositories):
    """a listing that is none leaves the store as it was"""
    place = repositories.path("refusing")
    take_snapshot(place, listing_of(FILES))
    before = files_below(place)
    row = b"100644 1 %s\nx\n"
    for listing in (
        row % b".git",
        row % b"b" + row % b"a",
        row % b"a" + row % b"a/b",
        row % b"a" + b"\n",
        b"40000 1 a\nx\n",
        b"100644 01 a\nx\n",
        b"100644 2 a\nx\n",
    ):
        want_run(command(place, "snapshot", REFERENCE), 3, errors=b"input\n", input=listing)
    expect_same(place, before)


def seal(key, *words, input):
    """Seals with a key file, and returns the envelope."""
    status, output, errors = run(PROGRAM, "-", key, "seal", *words, input=input)
    want((status, errors), (0, b""), "the status and errors of seal")
    return output


def seals_for_each_key(repositories):
    """an envelope has one signature for each key that sealed it, in the order in which they came"""
    ids, keys = [], []
    for name in ("first.key", "second.key"):
        keys.append(repositories.path(name))
        found = line_of(KEY_LINE, (PROGRAM, "-", keys[-1], "key-gen", "5", "8"))
        ids.append(found[0].split()[1].decode())
    text = seal(keys[0], input=b"{}")
    once = json.loads(text)
    want(base64.b64decode(once["payload"]), b"{}", "the payload")
    want(once["payloadType"], "application/vnd.gittuf+json", "the type of the payload")
    text = seal(keys[1], "--add", input=text)
    text = seal(keys[0], "--add", input=text)
    found = json.loads(text)["signatures"]
    want([it["keyid"] for it in found], ids, "the ids of the keys")
    want(found[0] == once["signatures"][0], False, "whether the first key's signature is the old one")
    leaves = [int.from_bytes(base64.b64decode(it["sig"])[:4], "big") for it in found]
    want(leaves, [1, 0], "the leaves that signed")


CHECKS = (
    keeps_a_listing,
    refuses_other_listings,
    seals_for_each_key,
)
