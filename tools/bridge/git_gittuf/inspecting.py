"""What gittuf-inspect tells of a log, where that program is here: the same verdicts in one pass, and what the program has no line for.

It stands beside the program in a package, or is built or released here and no source changed since. Where it is not there, or answers
otherwise than its page says, nothing is taken from it, and the program is asked as ever.
"""

import functools
import json
import os
import re
import subprocess

from git_gittuf import program
from git_gittuf.program import BUILT_INSPECT
from git_gittuf.repository import ZEROS, Stopped

# Whose words it is asked at once, as far as a system lets a program have so many.
MANY = 500
ID = re.compile("[0-9a-f]{64}")
# What a processor of x86-64-v3 has, as tools/build/which asks for it.
NEWER = {b"avx", b"avx2", b"bmi1", b"bmi2", b"f16c", b"fma", b"abm", b"movbe"}
# What a program prints as it is; all else of a name is escaped in a line.
PRINTED = re.compile(rb"[!-$&-~]+")
NAMES = re.compile(rb"[!-~]+")


def changed_since(path):
    """Whether a source here is younger than what was built of it."""
    built, crates = os.stat(path).st_mtime_ns, os.path.join(program.TOP, "crates")
    for crate in os.listdir(crates):
        for at, _, files in os.walk(os.path.join(crates, crate, "src")):
            if any(os.stat(os.path.join(at, it)).st_mtime_ns > built for it in files):
                return True
    return False


def is_of_the_sources(folder):
    """Whether what was unpacked into a folder is of the sources here, as the launcher asks it of the small program there."""
    words = (os.path.join(folder, "source_check"), program.TOP, *(os.path.join(folder, f"gittuf.{it}") for it in ("files", "sources")))
    nothing = subprocess.DEVNULL
    return subprocess.run(words, stdin=nothing, stdout=nothing, stderr=nothing, check=False).returncode == 0


def is_newer():
    """Whether programs for x86-64-v3 are to run here, as the launcher has it: where GITTUF_CPU says so, or this processor is one."""
    if asked := os.environ.get("GITTUF_CPU"):
        return asked == "x86-64-v3"
    try:
        with open("/proc/cpuinfo", "rb") as file:
            flags = next((it for it in file if it.startswith(b"flags")), b"")
    except OSError:
        return False
    return set(flags.split()) >= NEWER


def one_of(folder):
    """The path of the one in a folder that is for this processor, or nothing where none can be run."""
    names = (program.NEWER_INSPECT, program.INSPECT) if is_newer() else (program.INSPECT,)
    return next((it for it in (os.path.join(folder, name) for name in names) if os.access(it, os.X_OK)), None)


def released():
    """The path of the released one, or nothing where none that is of the sources here is unpacked."""
    for folder in program.released():
        path = one_of(folder)
        if path and is_of_the_sources(folder):
            return path
    return None


@functools.lru_cache(maxsize=1)
def place():
    """The path of the program gittuf-inspect, or nothing where none is here that is of these sources."""
    try:
        if os.path.exists(os.path.join(program.TOP, "version")):
            return one_of(program.TOP)
        return BUILT_INSPECT if os.access(BUILT_INSPECT, os.X_OK) and not changed_since(BUILT_INSPECT) else released()
    except OSError:
        return None


def objects_in(printed):
    """The objects of JSON, one a line, or nothing where something else stands there."""
    try:
        # A text may hold other signs that end a line for Python.
        *lines, last = printed.decode().split("\n")
        found = [json.loads(it) for it in lines]
    except (ValueError, RecursionError):
        return None
    return found if found and not last and all(isinstance(it, dict) for it in found) else None


def told(work, *words, store=None):
    """What it tells by these words, as objects, or nothing where it is not here or tells something else. Its status says no more.

    It is told of the store of the call, or of another one.
    """
    path = place()
    try:
        status, printed, _ = program.ended(path, (store or work.kept.for_program(), *words), b"", True) if path else (None, b"", b"")
    except Stopped:
        # It cannot be begun here.
        return None
    return objects_in(printed) if status in (0, 1) else None


def escaped(text):
    """Bytes as the program prints a path in a line."""
    return b"".join(b"%c" % it if PRINTED.fullmatch(b"%c" % it) else b"%%%02X" % it for it in text)


def word_of(it):
    """The word that a line has for a text of an object, which is escaped there where it is no UTF-8."""
    return it["escaped"].encode("ascii") if isinstance(it, dict) else escaped(it.encode())


def number(it):
    if type(it) is not int or it < 0:
        raise ValueError
    return it


def an_id(it):
    if not ID.fullmatch(it):
        raise ValueError
    return it.encode()


def fault_in_words(fault):
    """What a verdict's line has of a fault."""
    kind = fault["kind"]
    if kind == "no-policy":
        return b"no-policy"
    if kind == "broken":
        return b"broken " + an_id(fault["id"])
    if kind == "not-epoch":
        return b"not-epoch " + fault["why"].encode()
    counts = b"%s %d of %d" % (word_of(fault["rule"]), number(fault["got"]), number(fault["need"]))
    return {"ref-rule": b"ref-rule " + counts, "path-rule": b"path-rule %s %s" % (word_of(fault.get("path", "")), counts)}[kind]


def line_of(name, it):
    """The status and the line of verify-ref for what is told of a reference, or nothing where it is told otherwise."""
    try:
        if it["reference"].encode() != name or not NAMES.fullmatch(name):
            return None
        if it["verdict"] == "accepted":
            return 0, b"accepted %s %d entries\n" % (name, number(it["entries"]))
        if it["verdict"] == "tip-differs":
            return 1, b"tip-differs %s kept %s recorded %s\n" % (name, an_id(it["kept"]), an_id(it["recorded"]))
        if it["verdict"] == "violation":
            return 1, b"violation %s %d %s\n" % (name, number(it["number"]), fault_in_words(it["fault"]))
    except (LookupError, TypeError, ValueError, AttributeError):
        pass
    return None


def verdicts(work, names, root):
    """The status and the line of verify-ref on each of these references by their names, as far as they are told in one pass."""
    found, how = {}, () if root is None else ("--root", root)
    for at in range(0, len(names), MANY):
        some = names[at : at + MANY]
        rows = told(work, "verdicts", *map(os.fsdecode, some), *how)
        if rows is not None and len(rows) == len(some):
            found.update({name: line_of(name, it) for name, it in zip(some, rows)})
    return {name: it for name, it in found.items() if it}


def would(work, name, value, key, root):
    """What would be found of an entry that this key signed now: the entry, and each fault; or nothing where that is not told."""
    target = (value or ZEROS).decode()
    rows = told(work, "would", os.fsdecode(name), target, "--key", key, *(("--root", root) if root else ()))
    try:
        entry, *faults = rows or [{}]
        is_of = entry["reference"].encode() == name and entry["target"] == target and entry["id"] == ZEROS.decode()
        is_refused = entry["verdict"] == "refused"
        if not is_of or entry["verdict"] not in ("authorised", "refused") or is_refused != bool(faults):
            return None
        for it in faults:
            fault_in_words(it["fault"])
        return entry, [it["fault"] for it in faults]
    except (LookupError, TypeError, ValueError, AttributeError):
        return None


def mends(work, name, root):
    """What mends the violation of a reference: which numbers are to be skipped, and the target and the tree that are wanted.

    Each is nothing where there is none; and all is nothing where it stands in no violation, or that is not told.
    """
    rows = told(work, "verdicts", os.fsdecode(name), *(("--root", root) if root else ()))
    try:
        if rows is None or len(rows) != 1 or not line_of(name, rows[0]):
            return None
        it = rows[0]["mends"]
        return [number(at) for at in it["skip"]], it["from"] and an_id(it["from"]), it["tree"] and an_id(it["tree"])
    except (LookupError, TypeError, ValueError, AttributeError):
        return None


def skips(work, ids, key, root):
    """Whether an annotation of this key would skip each of these entries, by their ids, or nothing where that is not told."""
    rows = told(work, "would", "--annotate", "skip", ",".join(ids), "--key", key, *(("--root", root) if root else ()))
    try:
        if rows is None or [it["id"] for it in rows] != list(ids):
            return None
        found = {it["id"]: it["skips"] for it in rows}
        return found if all(type(it) is bool for it in found.values()) else None
    except (LookupError, TypeError):
        return None


def log(work, entries):
    """What is told of each entry of the log, by its id, where it is told of just these; else nothing."""
    rows = told(work, "log")
    try:
        is_of = rows is not None and [(it["number"], it["id"].encode()) for it in rows] == [it[:2] for it in entries]
        is_known = is_of and all(type(it["signed"]) is bool and type(it["epoch"]) in (int, type(None)) for it in rows)
        return {it["id"].encode(): it for it in rows} if is_known else None
    except (LookupError, TypeError, AttributeError):
        return None


def change_in(told):
    """What a policy changes of the one before it, where it is told as that; else nothing."""
    parts, ways = ("keys", "persons", "rules", "thresholds"), ("added", "removed")
    try:
        found = {part: {way: told[part][way] for way in ways} for part in parts}
        is_told = all(isinstance(texts, list) and all(isinstance(it, str) for it in texts) for it in found.values() for texts in it.values())
        return found if is_told else None
    except (LookupError, TypeError):
        return None
