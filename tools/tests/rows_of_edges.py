"""Rows at both sides of the limits of names, words, listings, envelopes and key files, as commands tell them."""

import base64

from rows_histories import KEEPER, LOG, MAIN, MAINTAINER, History, guarded, top_file
from rows_objects import FILE, PROGRAM
from rows_of_streams import EMPTY
from rows_policies import PAYLOAD_TYPE, envelope, rule
from rows_runs import Anew, Run, done, given, refused
from rows_signing import LEAVES, LMS_TYPE, OTS_TYPE, long

# A name has so many bytes and components at most, and a root is asked for by so many ids.
LONGEST_NAME, COMPONENTS, MOST_ROOTS = 255, 16, 64
# A listing's paths have so many bytes and levels at most, and its files so many bytes.
LONGEST_PATH, LEVELS, LARGEST = 4_096, 32, 16_777_216
MOST_SIGNATURES = 64


def accepted(name, words=""):
    return done(f"verify-ref {name}{words}", f"accepted {name} 0 entries")


def no_name(name):
    return refused(f"verify-ref {name}", 2, "words refused")


def named(length):
    return "refs/heads/".ljust(length, "x")


def names_of_references():
    """The longest name, the most components, and each byte and pair of bytes that may not stand in one."""
    taken = [named(LONGEST_NAME), "refs/" + "/".join("a" * (COMPONENTS - 1)), "refs/a", "refs/heads/\N{SNOWMAN}"]
    taken += [f"refs/heads/a{it}b" for it in "!\"#$%&'()+,-.;<=>@_`{|}\x80"] + ["refs/a.lock.a", "refs/@", "refs/a}"]
    none = [named(LONGEST_NAME + 1), "refs/" + "/".join("a" * COMPONENTS), "refs/", "refs", "heads/a", "Refs/a", "/refs/a"]
    none += ["refs//a", "refs/a/", "refs/.a", "refs/a/.b", "refs/a.lock", "refs/a.lock/b", "refs/a.", "refs/a..b", "refs/a@{b"]
    none += [f"refs/heads/a{it}b" for it in "~^:?*[\\\x01\x1f\x7f"]
    return History(), *(accepted(it) for it in taken), *(no_name(it) for it in none), given(EMPTY)


def roots_asked_for():
    """One id to 64 of them; an empty one, one of 63 digits, and upper case are outside the grammar."""
    id = KEEPER.id
    none = ("", f"{id},", f",{id}", id[1:], id.upper(), ",".join([id] * (MOST_ROOTS + 1)))
    return (
        History(),
        accepted(MAIN, f" --root {id}"),
        accepted(MAIN, f" --root {','.join([id] * MOST_ROOTS)}"),
        *(refused(f"verify-ref {MAIN} --root {it}", 2, "words refused") for it in none),
    )


def words_outside():
    """No word of a command may be left out, come again, stand for another or be written otherwise."""
    id = KEEPER.id
    words = ["--help", "verify", f"Verify-ref {MAIN}", "verify-ref --help", f"verify-ref {MAIN} --std"]
    words += [f"verify-ref {MAIN} --stdin=true", "export x", f"policy-apply {MAIN}", f"record {MAIN} --stdin", "record"]
    words += ["snapshot", f"snapshot {LOG}", f"verify-ref {LOG}", "seal --add --add", "explain gi:a", "explain "]
    words += [f"annotate skips {id}", "annotate skip ", f"approve {MAIN} 11", f"approve {LOG} {id}", "key-gen 5 "]
    none = (refused(it, 2, "words refused") for it in words)
    # Two dashes end the flags, which stand in any place.
    return (
        History(),
        *none,
        given(EMPTY),
        Run("export --", (0, EMPTY, "")),
        Run("log --", (0, "", "")),
        done(f"explain -- git:{MAIN}", "no-policy"),
        done(f"verify-ref --root {id} -- {MAIN}", f"accepted {MAIN} 0 entries"),
        done(f"verify-ref --stdin {MAIN}", f"accepted {MAIN} 0 entries", source=EMPTY),
    )


def listing(*files):
    return b"".join(b"100644 %d %s\n%s\n" % (len(body), path, body) for path, body in files)


def kept(files, **more):
    """The files are put on a branch of a new store."""
    history = History(PROGRAM)
    commit = history.snapshot(MAIN, {path: (FILE, body) for path, body in files})
    return Anew(), done(f"snapshot {MAIN}", f"commit {commit}", source=listing(*files), **more)


def not_kept(text):
    return refused(f"snapshot {MAIN}", 3, "input", source=text), given(EMPTY)


def listings_kept_or_not():
    """The longest path, the deepest one, and the largest file, and each of them once more."""
    long_path = b"d/".ljust(LONGEST_PATH, b"n")
    deep = b"d/" * (LEVELS - 1) + b"f"
    return (
        History(),
        *kept([(long_path, b"")]),
        *kept([(deep, b"")]),
        *kept([(b"x", bytes(LARGEST))]),
        *kept([]),
        Anew(),
        *not_kept(listing((long_path + b"n", b""))),
        *not_kept(listing((b"d/" + deep, b""))),
        *not_kept(listing((b"x", bytes(LARGEST + 1)))),
    )


def listings_in_other_forms():
    """What is no row, and rows whose paths are none of a tree's."""
    rows = [b"100644 1 a\nx", b"100644 1 a\nxx\n", b"100644 01 a\nx\n", b"100644  1 a\nx\n", b"100644 1 a\0b\nx\n", b"\n"]
    rows += [b"%s 1 a\nx\n" % mode for mode in (b"100664", b"40000", b"160000", b"0100644")]
    rows += [b"100644 0 %s\n\n" % path for path in (b"", b".", b"..", b".git", b"a//b", b"/a", b"a/", b"a/.git/b", b"a/./b")]
    rows += [listing((b"b", b""), (b"a", b"")), listing((b"a", b""), (b"a", b"")), listing((b"a", b""), (b"a/b", b""))]
    return History(), *(run for it in rows for run in not_kept(it))


def with_signatures(listed, payload="", kind="t"):
    return ('{"payload":"%s","payloadType":"%s","signatures":[%s]}' % (payload, kind, ",".join(listed))).encode()


def envelopes_sealed_or_not():
    """An envelope has 1 to 64 signatures, base64 in one alphabet without bits left over, and no other forms."""
    fresh, one = KEEPER.file(bytes(LEAVES)), '{"sig":""}'
    none = [with_signatures([one] * count) for count in (0, MOST_SIGNATURES + 1)]
    none += [with_signatures([one], payload=it) for it in ("A", "AB==", "AA", "AA=", "+_AA", "AA==\\n", " ")]
    none += [with_signatures([it]) for it in ('{"sig":"AB=="}', '{"sig":1}', "{}", '{"sig":"","keyid":1}', "1")]
    none += [b"", b"[]", b"{}", b'{"payload":"","payloadType":"t"}', b"\xff", with_signatures([one]) + b"x"]
    runs = [refused("seal --add", 3, "input", source=it, key=fresh) for it in none]
    for payload in ("", "AA==", "-_8=", "+/8="):
        body = base64.urlsafe_b64decode(payload) if "_" in payload else base64.b64decode(payload)
        signature = KEEPER.sign(0, b"DSSEv1 1 t %d %s" % (len(body), body))
        listed = [one] * (MOST_SIGNATURES - 2) + ['{"keyid":"k","sig":"AA=="}']
        wanted = envelope_of(body, [(None, b"")] * (MOST_SIGNATURES - 2) + [("k", b"\0"), (KEEPER.id, signature)])
        runs += [Anew(), Run("seal --add", (0, wanted + b"\n", ""), source=with_signatures(listed, payload), key=fresh)]
    return History(), *runs


def envelope_of(body, signatures):
    """An envelope of the type `t`, whose signatures without a key id are written with an empty one."""
    text = envelope(body, [(id or "", sig) for id, sig in signatures])
    return text.replace(b'"payloadType":"' + PAYLOAD_TYPE.encode(), b'"payloadType":"t')


def types_of_key_files():
    """The types of a key file at both ends, a file of another length, and one that is cut in its header."""
    fresh = KEEPER.file(bytes(LEAVES))
    runs = []
    for lms, ots in ((4, 4), (8, 4), (0, 4), (5, 0), (5, 5)):
        runs.append(refused("seal", 3, "key file", source=b"{}", key=fresh.replace(LMS_TYPE + OTS_TYPE, long(lms) + long(ots), 1)))
    for key in (fresh[:63], fresh[:64], fresh[:-1], fresh + b"\0", b"", fresh.replace(LMS_TYPE, long(6), 1)):
        runs.append(refused("seal", 3, "key file", key=key))
    return History(), *runs


def paths_told():
    """A path in a verdict: each byte outside 33 to 126, and `%`, is written as `%` and two digits."""
    rows = [(bytes((byte,)), f"%{byte:02X}") for byte in (1, 10, 32, 37, 127, 128, 255)]
    rows += [(bytes((byte,)), chr(byte)) for byte in (33, 36, 38, 126)]
    runs = []
    for name, told in rows:
        history = guarded()
        history.record(MAIN, history.commit({b"keys/" + name: b"a\n"}), MAINTAINER)
        line = f"violation {MAIN} 2 path-rule keys/{told} keys 0 of 1\n"
        runs += [Anew(), Run(f"verify-ref {MAIN} --stdin", (1, line, ""), source=history.repository.stream())]
    return History(), *runs


def patterns_matched():
    """`*` stands for any bytes, a slash among them, and for none; `?` for one; each other byte for itself."""
    globs = {"a*": ("a", "ab", "a/b", "a/"), "a?": ("ab", "a/"), "a": ("a",), "*": ("", "a", "ab", "a/b", "a/", "b")}
    names = ("", "a", "ab", "a/b", "a/", "b", "A")
    rules = [rule(f"r{at}", f"file:{glob}", [MAINTAINER]) for at, glob in enumerate(globs)]
    history = guarded(top_file([MAINTAINER], rules))
    runs = [done("import", "imported")]
    for name in names:
        met = [f"rule r{at} 1 open" for at, (glob, taken) in enumerate(globs.items()) if name in taken or glob == "*"]
        runs.append(done(f"explain file:{name}", "\n".join(met)))
    return history, *runs, done("explain git:a", "unprotected"), refused("explain a", 2, "words refused")


ROWS = (
    names_of_references,
    roots_asked_for,
    words_outside,
    listings_kept_or_not,
    listings_in_other_forms,
    envelopes_sealed_or_not,
    types_of_key_files,
    paths_told,
    patterns_matched,
)
