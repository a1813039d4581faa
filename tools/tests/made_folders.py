"""A store in a folder for the checks of tools/test: its files, its streams, and what is held of it."""

import hashlib
import os

from checking import PROGRAM, want, want_run

HEADER, END = b"gittuf-stream 1\n", b"end\n"
IMPORTED = b"imported\n"
FAULT = b"fault\n"


def command(place, *words):
    """The words of a command over the store in this folder."""
    return (PROGRAM, f"{place}/", "-", *words)


def files_below(folder):
    """The bytes of each file below a folder, and None for each folder, by path."""
    found = {}
    for at, folders, files in os.walk(os.fsencode(folder)):
        for name in folders:
            found[os.path.relpath(os.path.join(at, name), os.fsencode(folder))] = None
        for name in files:
            with open(os.path.join(at, name), "rb") as file:
                found[os.path.relpath(file.name, os.fsencode(folder))] = file.read()
    return found


def expect_same(place, before):
    """Holds the files of a folder to what they were, and names the first that is not so."""
    after = files_below(place)
    for path in sorted({*before, *after}):
        found, wanted = after.get(path, "nothing"), before.get(path, "nothing")
        want(found, wanted, f"the file {os.fsdecode(path)} of a folder that was not to change")


def write(place, name, text):
    path = os.path.join(place, name)
    os.makedirs(os.path.dirname(path), exist_ok=True)
    with open(path, "wb") as file:
        file.write(text)


def object_file(kind, body):
    """The text of an object's file, and its id."""
    text = b"%s %d\0%s" % (kind, len(body), body)
    return text, hashlib.sha256(text).hexdigest()


def record(text, object_id):
    """The record in a stream of the object with this file."""
    head, _, body = text.partition(b"\0")
    return b"object %s %s\n%s\n" % (object_id.encode(), head, body)


def small_store(repositories, name):
    """A new folder with three objects and a reference to the second, and the files' texts by rising id."""
    place = repositories.path(name)
    objects = sorted(object_file(b"blob", b"body %d\n" % it)[::-1] for it in range(3))
    for object_id, text in objects:
        write(place, f"objects/{object_id}", text)
    write(place, "refs/heads/main", objects[1][0].encode() + b"\n")
    return place, objects


def stream_of(objects, references):
    records = b"".join(record(text, object_id) for object_id, text in objects)
    return HEADER + records + b"".join(b"ref %s %s\n" % it for it in references) + END


def is_no_store(place):
    """Holds each command over a folder to a fault that changes nothing there."""
    before = files_below(place)
    for words in (("verify-ref", "refs/heads/main"), ("export",), ("import",)):
        want_run(command(place, *words), 4, b"", b"fault\n", input=HEADER + END)
        expect_same(place, before)
