"""Files beside the store of which nothing depends on whether they are there: each is written whole, or not."""

import contextlib
import hashlib
import os


def write(path, text):
    """Keeps a text with its sum. Where there is no room for it nothing is kept, and whoever wants it makes it again."""
    # Calls that only read write it side by side.
    beside = f"{path}.{os.getpid()}"
    try:
        with open(beside, "wb") as file:
            file.write(b"%s\n%s" % (hashlib.sha256(text).hexdigest().encode(), text))
        os.rename(beside, path)
    except OSError:
        with contextlib.suppress(OSError):
            os.remove(beside)


def read(path, most):
    """The text that was kept, or nothing where it is not as it was written, or has more bytes than so many."""
    try:
        with open(path, "rb") as file:
            found, _, text = file.read(most).partition(b"\n")
    except OSError:
        return None
    return text if found == hashlib.sha256(text).hexdigest().encode() else None
