"""The commands to which check_memory refuses memory, each over a small store and a key file."""

import shutil
from typing import NamedTuple

from checking import EMPTY_STREAM, PROGRAM, run
from made_folders import command

MAIN, POLICY = "refs/heads/main", "refs/gittuf/policy"
PAYLOAD = b'{"type":"rules","name":"targets","version":1}'
# Making a demonstration takes a second, so that of its calls for memory one in so many is refused.
OF_LONG = 40


class Trial(NamedTuple):
    """A command by its words behind the store and the key file, and what it reads.

    Its store is a copy, `memory` or `new`, a folder that is not there, and its key file a copy, `none` or `new`. One
    call for memory in so many is refused it.
    """

    words: tuple
    given: bytes = b""
    store: str = "copy"
    key: str = "none"
    step: int = 1


def trials(scarce, offer, port):
    """The commands, with what they read: a stream to offer to a mirror, and the port of a desk that takes what is pushed."""
    with open(EMPTY_STREAM, "rb") as file:
        empty = file.read()
    dossier = run(*command(scarce.place, *scarce.shown))[1]
    envelope = run(PROGRAM, "-", shutil.copy(scarce.key, scarce.copied_key), "seal", input=PAYLOAD)[1]
    return (
        Trial(("verify-ref", MAIN)),
        Trial(("verify-ref", MAIN, "--root", "a" * 64)),
        Trial(("verify-ref", POLICY)),
        *(Trial(("verify-ref", MAIN, "--stdin"), it, store="memory") for it in (scarce.stream, empty)),
        Trial(("verify-global", MAIN)),
        Trial(("log",)),
        Trial(("explain", f"git:{MAIN}")),
        Trial(("explain", "file:README")),
        Trial(("export",)),
        Trial(("import",), scarce.stream, store="new"),
        Trial(("mirror",), offer),
        Trial(("push", port, "1")),
        Trial(scarce.shown),
        Trial(("evidence-check",), dossier, store="memory"),
        *(Trial(words, given, key="none" if words[0] == "snapshot" else "copy") for words, given in scarce.signs),
        Trial(("seal",), PAYLOAD, store="memory", key="copy"),
        Trial(("seal", "--add"), envelope, store="memory", key="copy"),
        Trial(("key-gen", "5", "8"), store="memory", key="new"),
        Trial(("key-gen", "5", "4", "--bottom", "5"), store="memory", key="new"),
        Trial(("demo", "1"), store="memory", step=OF_LONG),
    )
