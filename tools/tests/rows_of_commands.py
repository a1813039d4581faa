"""Rows on the commands that sign, that put files on a reference, and that apply and explain a policy."""

from rows_histories import BEFORE, KEEPER, MAIN, MAINTAINER, OWNER, POLICY, REVIEWER
from rows_histories import History, asked_again, base_root, guarded, keys_rule, main_rule, top_file
from rows_objects import EXECUTABLE, FILE, LINK, PROGRAM, ZEROS
from rows_policies import encoded, envelope, rule, rule_file
from rows_runs import Run, done, given, refused
from rows_signing import LEAVES

NO_KEY_FILE = b"LMSKEY01"
# An envelope has at most so many signatures.
MOST_SIGNATURES = 64
# Some id, of which nothing is kept.
NOWHERE = "1" * 64


def with_used(key, *used):
    """The key file of a key with these leaves used."""
    return key.file(bytes(leaf in used for leaf in range(LEAVES)))


def listing(files):
    """The listing of files, which are (mode, bytes) by path."""
    return b"".join(b"%s %d %s\n%s\n" % (mode, len(body), path, body) for path, (mode, body) in sorted(files.items()))


def sealed(words, text, **more):
    return Run(words, (0, text + b"\n", ""), **more)


def put(history, reference, files, **more):
    """Puts files on a reference by its command, and as the history has it."""
    commit = history.snapshot(reference, files)
    return done(f"snapshot {reference}", f"commit {commit}", source=listing(files), **more)


def added(history, words):
    """The command of these words adds the entry that the history has last."""
    return done(words, f"entry {len(history.ids)} {history.ids[-1]}")


def recorded(history, reference, signer, words=None):
    """Records by a command where a reference stands, and in the history."""
    history.record(reference, history.repository.references.get(reference, ZEROS), signer)
    return added(history, words or f"record {reference}")


def annotated(history, words, skip, ids, message=None):
    """Annotates entries of these ids by its command, and in the history, as the maintainer."""
    history.annotate(skip, ids, MAINTAINER, message)
    return added(history, f"annotate {words}")


def payload_sealed():
    """The first leaf signs a payload, and the second its envelope again, in place of the first signature. Another key
    signs after it, and then the first key in its old place, by the leaf after one that has a mark of another kind."""
    history, message = History(), encoded(b"{}")
    first, second, other, third = ((key.id, history.sign(key, message)) for key in (KEEPER, KEEPER, OWNER, KEEPER))
    once, again, both, anew = (envelope(b"{}", them) for them in ([first], [second], [second, other], [third, other]))
    return (
        History(),
        sealed("seal", once, key=with_used(KEEPER), source=b"{}"),
        sealed("seal --add", again, source=once + b"\n"),
        sealed("seal --add", both, key=with_used(OWNER), source=again),
        sealed("seal --add", anew, key=KEEPER.file(b"\1\xff" + bytes(LEAVES - 2)), source=both),
    )


def last_leaf():
    """One leaf is left, and none then."""
    history = History()
    history.used[KEEPER] = LEAVES - 1
    return (
        History(),
        sealed("seal", history.seal(b"", [KEEPER]), key=with_used(KEEPER, *range(LEAVES - 1)), source=b""),
        refused("seal", 6, "exhausted"),
        refused(f"record {MAIN}", 6, "exhausted"),
    )


def nothing_sealed():
    """Standard input is judged first, then the key file, and last whether the envelope has a place left. What is
    refused uses no leaf."""
    history = History()
    once, again = (history.seal(b"{}", [KEEPER]) for _ in range(2))
    others = [(str(number), b"signed") for number in range(MOST_SIGNATURES)]
    full = envelope(b"{}", others)
    signature = history.sign(KEEPER, encoded(b"{}"))
    among, renewed = ([*others[:40], (KEEPER.id, body), *others[41:]] for body in (b"signed", signature))
    return (
        History(),
        refused("seal --add", 3, "input", key=with_used(KEEPER), source=b"["),
        sealed("seal", once, source=b"{}"),
        refused("seal --add", 3, "input", source=full),
        sealed("seal", again, source=b"{}"),
        sealed("seal --add", envelope(b"{}", renewed), source=envelope(b"{}", among)),
        refused("seal --add", 3, "input", key=NO_KEY_FILE, source=b"{}"),
        refused("seal --add", 3, "input", source=b"[]"),
        refused("seal --add", 3, "key file", source=full),
        refused("seal", 3, "key file", source=b"{}"),
        refused("seal", 6, "exhausted", key=with_used(KEEPER, *range(LEAVES))),
    )


def files_put_recorded_and_skipped():
    """Files are put on a branch, which is recorded, and others are put on it. The second entry is skipped with a
    message, and notes are made of several ids with a long message and with none."""
    history = History(PROGRAM)
    files = {b"README": (FILE, b"a\n"), b"run": (EXECUTABLE, b"")}
    others = {b"a.b": (FILE, b""), b"a/b": (EXECUTABLE, b"c\n\n"), b"a/c/to": (LINK, b"../b"), b"a0": (FILE, b"\0")}
    runs = [put(history, MAIN, files, key=with_used(MAINTAINER)), recorded(history, MAIN, MAINTAINER)]
    first = history.repository.references[MAIN]
    runs += [put(history, MAIN, others), recorded(history, MAIN, MAINTAINER)]
    second = history.repository.references[MAIN]
    one, two = history.ids
    runs += [
        annotated(history, f"skip {two} --message wrong", True, [two], b"wrong"),
        annotated(history, f"--message {'m' * 60} note {two},{NOWHERE},{one}", False, [two, NOWHERE, one], b"m" * 60),
        annotated(history, f"note {one}", False, [one]),
        recorded(history, "refs/heads/none", MAINTAINER),
        put(history, "refs/heads/empty", {}),
    ]
    log = (
        f"entry 1 {one} ref refs/heads/main {first}\n"
        f"entry 2 {two} ref refs/heads/main {second}\n"
        f"entry 3 {history.ids[2]} skip 1\n"
        f"entry 4 {history.ids[3]} note 3\n"
        f"entry 5 {history.ids[4]} note 1\n"
        f"entry 6 {history.ids[5]} ref refs/heads/none {ZEROS}"
    )
    violation = asked_again(1, "violation refs/heads/main 1 no-policy")
    return History(), *runs, done("log", log), violation, given(history.repository.stream())


def no_files_put():
    """Standard input is no listing, or a branch stands at what is no commit, and the store stays as it was."""
    history = History()
    blob = history.repository.blob(b"no commit\n")
    history.repository.set(MAIN, blob)
    history.repository.set("refs/heads/lost", NOWHERE)
    lists = (
        b"100644 2 a\nhi",
        b"40000 0 a\n\n",
        b"100644 0 .git\n\n",
        b"100644 0 b\n\n100644 0 a\n\n",
        b"100644 0 a\n\n100644 0 a/b\n\n",
    )
    return (
        history,
        done("import", "imported"),
        *(refused("snapshot refs/heads/lost", 3, "input", source=one) for one in lists),
        refused("snapshot refs/heads/lost", 3, f"object {NOWHERE}", source=b"100644 0 a\n\n"),
        refused("snapshot refs/heads/main", 3, f"object {blob}"),
        given(history.repository.stream()),
    )


def no_policy_applied_or_explained():
    """No policy is there, and what is refused uses no leaf."""
    history = History(PROGRAM)
    history.record(POLICY, ZEROS, OWNER)
    return (
        History(),
        refused("policy-apply", 3, "policy unreadable", key=with_used(OWNER)),
        done("explain git:refs/heads/main", "no-policy"),
        done("record refs/gittuf/policy", f"entry 1 {history.ids[0]}"),
        done("explain git:refs/heads/main", "no-policy"),
    )


def policy_put_together():
    """The owner seals a root and a top file, puts them on the policy's reference and applies them. A top file with
    another rule and the same version is refused, with no leaf used, and with the next version it is applied."""
    history, root, applied = History(PROGRAM), base_root(), []
    sealed_root = history.seal(root, [OWNER])
    runs = [sealed("seal", sealed_root, key=with_used(OWNER), source=root)]
    for threshold, version, in_force, is_refused in ((1, 1, 1, False), (2, 1, 1, True), (2, 2, 2, False)):
        rules = [keys_rule(), main_rule(MAINTAINER, REVIEWER, threshold=threshold)]
        top = top_file([KEEPER, MAINTAINER, REVIEWER], rules, version)
        sealed_top = history.seal(top, [OWNER])
        texts = {b"metadata/root.json": sealed_root, b"metadata/targets.json": sealed_top}
        runs.append(sealed("seal", sealed_top, source=top))
        runs.append(put(history, POLICY, {path: (FILE, text + b"\n") for path, text in texts.items()}))
        if is_refused:
            runs.append(refused("policy-apply", 3, "policy file-version targets"))
        else:
            runs.append(recorded(history, POLICY, OWNER, "policy-apply"))
            applied.append(history.repository.references[POLICY])
        runs.append(done("explain git:refs/heads/main", f"rule main {in_force} open"))
    (one, two), (first, second) = history.ids, applied
    log = f"entry 1 {one} ref refs/gittuf/policy {first}\nentry 2 {two} ref refs/gittuf/policy {second}"
    return History(), *runs, done("log", log), asked_again(0, "accepted refs/gittuf/policy 2 entries", POLICY)


def rules_explained():
    """A rule goes on in a file of its own, whose rule ends the search."""
    rules = [rule("r1", "file:src/*", [MAINTAINER]), rule("r2", "file:*", [MAINTAINER])]
    below = rule_file("r1", [MAINTAINER], [rule("r1a", "file:src/a*", [MAINTAINER], terminating=True)])
    return (
        guarded(top_file([MAINTAINER], rules), r1=(below, [MAINTAINER])),
        done("import", "imported"),
        done("explain file:src/abc", "rule r1 1 open\nrule r1a 1 terminating"),
        done("explain file:src/b", "rule r1 1 open\nrule r2 1 open"),
        done("explain file:a", "rule r2 1 open"),
        done("explain git:refs/heads/main", "unprotected"),
    )


def log_that_breaks():
    """The first entry is missing. Nothing is signed, so that the first leaf is there to seal."""
    history = guarded()
    history.record(MAIN, history.commit(BEFORE))
    first, second = history.ids
    del history.repository.objects[first]
    commands = ("log", f"record {MAIN}", f"annotate skip {second}", "policy-apply", f"explain git:{MAIN}")
    return (
        history,
        done("import", "imported", key=with_used(KEEPER)),
        *(Run(words, (3, f"log-broken {first}\n", "")) for words in (*commands, f"verify-ref {MAIN}")),
        sealed("seal", History().seal(b"{}", [KEEPER]), source=b"{}"),
        given(history.repository.stream()),
    )


ROWS = (
    payload_sealed,
    last_leaf,
    nothing_sealed,
    files_put_recorded_and_skipped,
    no_files_put,
    no_policy_applied_or_explained,
    policy_put_together,
    rules_explained,
    log_that_breaks,
)
