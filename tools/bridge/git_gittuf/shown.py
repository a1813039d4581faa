"""Texts of others as they are shown: nothing in them moves a cursor, turns a line round, or is a command of its own."""

import os
import shlex


def by_number(sign):
    """A sign by its number, or by the byte that it stands for, where that is no UTF-8."""
    number = ord(sign)
    return f"\\x{number - 0xDC00 if 0xDC80 <= number <= 0xDCFF else number:02x}"


def plain(text):
    """A text that may come from anybody, for a terminal: what is not printed as itself is escaped."""
    if text.isprintable():
        return text
    return "".join(it if it.isprintable() else by_number(it) for it in text)


def plain_name(name):
    """The same of the bytes of a name."""
    return plain(os.fsdecode(name))


def plain_lines(printed):
    """The lines of the program, each as it is shown."""
    lines = os.fsdecode(printed).split("\n")
    # Where the program failed in the middle of a line, that is shown too.
    return "".join(f"{plain(it)}\n" for it in (lines if lines[-1] else lines[:-1]))


def quoted(word):
    """A word of a line that is to be copied into a shell, where it stays one word whatever is in it."""
    if word.isprintable():
        return shlex.quote(word)
    escaped = lambda it: "".join(f"\\x{byte:02x}" for byte in os.fsencode(it))
    return "$'" + "".join(it if it.isprintable() and it not in "\\'" else escaped(it) for it in word) + "'"


def word(text):
    """A word of others among words of a line: quoted where it would be taken for several, or for something else."""
    return text if text.isprintable() and not set(text) & set(" '\"") and text else quoted(text)
