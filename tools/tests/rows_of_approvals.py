"""Rows on `approve`: what it makes, from where and to where, and what it refuses; and on which file is an approval."""

from rows_histories import ATTESTATIONS, BEFORE, KEEPER, MAIN, MAINTAINER, REVIEWER
from rows_histories import History, base_files, base_top, guarded
from rows_objects import EXECUTABLE, FILE, LINK, PROGRAM, ZEROS
from rows_of_streams import END, HEAD, ref_line
from rows_policies import approval, encoded, envelope, text_of
from rows_runs import Anew, Held, Run, done, failing, given, moments, refused, room
from rows_signing import LEAVES

NOWHERE = "e" * 64
# An approval has at most so many signatures and so many bytes.
MOST_SIGNATURES, MOST = 64, 1_048_576
NOTHING = f"approve {MAIN} {ZEROS}"
NOTHING_APPROVED = f"approval {ZEROS} {ZEROS}"


def fresh(key):
    return key.file(bytes(LEAVES))


def path_of(reference, before, tree):
    return f"reference-authorizations/{reference}/{before}-{tree}".encode()


def attested(history, files):
    """Puts the attestations at a commit of files as `approve` makes it, which are blobs by path, after the commit where
    they stand."""
    repository = history.repository
    rows = {path: (FILE, repository.blob(text)) for path, text in files.items()}
    parents = [repository.references[ATTESTATIONS]] if ATTESTATIONS in repository.references else []
    repository.set(ATTESTATIONS, repository.commit(repository.tree(rows), b"approve", parents))


def nothing_approved_by_two():
    """Two keys approve that main stays away, and then the first one again, in its old place."""
    history, payload = History(PROGRAM), approval(MAIN, ZEROS, ZEROS)
    message = encoded(payload)
    one, other, again = ((key.id, history.sign(key, message)) for key in (MAINTAINER, REVIEWER, MAINTAINER))
    runs = []
    for listed, key in (([one], fresh(MAINTAINER)), ([one, other], fresh(REVIEWER)), ([again, other], None)):
        attested(history, {path_of(MAIN, ZEROS, ZEROS): envelope(payload, listed)})
        key = key or MAINTAINER.file(b"\1" + bytes(LEAVES - 1))
        runs += [done(NOTHING, NOTHING_APPROVED, key=key), given(history.repository.stream())]
    return History(), *runs, Held(MAINTAINER.file(b"\1\1" + bytes(LEAVES - 2)))


def protected(threshold=2):
    """A history of the program's own whose first entry is a policy that asks for two signers of main."""
    history = History(PROGRAM)
    history.policy(base_files(base_top(threshold)))
    return history


def approved_and_recorded():
    """The reviewer approves a change, whose attestations are recorded, and the maintainer records it. Then the keeper's
    entry is skipped, and the next approval goes from the target before it. Another file stays where it is."""
    history = protected()
    repository, target = history.repository, history.commit(BEFORE)
    tree = repository.tree_of(target)
    history.record(ATTESTATIONS, history.commit({b"note": b"kept\n"}))
    stream = repository.stream()
    files = {b"note": b"kept\n", path_of(MAIN, ZEROS, tree): history.seal(approval(MAIN, ZEROS, tree), [REVIEWER])}
    attested(history, files)
    runs = [done(f"approve {MAIN} {target}", f"approval {ZEROS} {tree}", key=fresh(REVIEWER))]
    history.record(ATTESTATIONS, repository.references[ATTESTATIONS], MAINTAINER)
    runs.append(done(f"record {ATTESTATIONS}", f"entry 3 {history.ids[2]}", key=fresh(MAINTAINER)))
    history.record(MAIN, target, MAINTAINER)
    history.record(MAIN, repository.commit(repository.tree({}), b"other"), KEEPER)
    history.skip(5, MAINTAINER)
    skipped = repository.stream()
    files[path_of(MAIN, target, ZEROS)] = history.seal(approval(MAIN, target, ZEROS), [REVIEWER])
    attested(history, files)
    used = REVIEWER.file(b"\1" + bytes(LEAVES - 1))
    return (
        History(),
        done("import", "imported", source=stream),
        *runs,
        Anew(),
        Run(f"verify-ref {MAIN} --stdin", (1, f"violation {MAIN} 5 ref-rule main 0 of 2\n", ""), source=skipped),
        done(NOTHING, f"approval {target} {ZEROS}", key=used),
        given(repository.stream()),
    )


def with_approval(listed, payload=None):
    """A store whose attestations have an approval that main stays away, with these signatures."""
    history, payload = History(PROGRAM), payload or approval(MAIN, ZEROS, ZEROS)
    attested(history, {path_of(MAIN, ZEROS, ZEROS): envelope(payload, listed)})
    return history


def full_approval():
    """It has 64 signatures: of none a place is left, and of the key itself its own. With 63 one place is left."""
    runs = []
    for count, own in ((MOST_SIGNATURES, False), (MOST_SIGNATURES, True), (MOST_SIGNATURES - 1, False)):
        listed = [("b", b"")] * count
        if own:
            listed[40] = (MAINTAINER.id, b"older")
        history = with_approval(listed)
        stream = history.repository.stream()
        runs += [Anew(), done("import", "imported", source=stream, key=fresh(MAINTAINER))]
        if count == MOST_SIGNATURES and not own:
            runs += [refused(NOTHING, 3, "input"), Held(fresh(MAINTAINER)), given(stream)]
            continue
        payload = approval(MAIN, ZEROS, ZEROS)
        signature = (MAINTAINER.id, history.sign(MAINTAINER, encoded(payload)))
        listed[40 if own else count :] = [signature, *listed[41:]] if own else [signature]
        attested(history, {path_of(MAIN, ZEROS, ZEROS): envelope(payload, listed)})
        runs += [done(NOTHING, NOTHING_APPROVED), given(history.repository.stream())]
    return History(), *runs


def longest_approval():
    """With the signature of the key it would have 1 MiB, and a byte more then. Nothing is signed where it is too long."""
    payload, message = approval(MAIN, ZEROS, ZEROS), encoded(approval(MAIN, ZEROS, ZEROS))
    signature = (MAINTAINER.id, MAINTAINER.sign(0, message))
    alone = len(envelope(payload, [("", b""), signature]))
    runs = []
    for more in (0, 1):
        listed = [("k" * (MOST + more - alone), b"")]
        history = with_approval(listed)
        stream = history.repository.stream()
        text = envelope(payload, [*listed, signature])
        assert len(text) == MOST + more
        runs += [Anew(), done("import", "imported", source=stream, key=fresh(MAINTAINER))]
        if more:
            runs += [refused(NOTHING, 3, "input"), Held(fresh(MAINTAINER)), given(stream, over=[room("sink", 2_000_000)])]
        else:
            attested(history, {path_of(MAIN, ZEROS, ZEROS): text})
            runs += [done(NOTHING, NOTHING_APPROVED), given(history.repository.stream(), over=[room("sink", 4_000_000)])]
    return History(), *runs


def nothing_to_approve():
    """The target is missing, or its tree is; a file is in the way of the approval's place; no leaf is left; the key file
    is none. The store stays as it was."""
    history = History(PROGRAM)
    repository = history.repository
    target = history.commit(BEFORE)
    tree = repository.tree_of(target)
    del repository.objects[tree]
    blob = repository.blob(b"in the way\n")
    repository.set(ATTESTATIONS, repository.commit(repository.tree({b"reference-authorizations": (FILE, blob)}), b"x"))
    stream = repository.stream()
    return (
        History(),
        done("import", "imported", source=stream, key=fresh(MAINTAINER)),
        refused(f"approve {MAIN} {NOWHERE}", 3, f"object {NOWHERE}"),
        refused(f"approve {MAIN} {target}", 3, f"object {tree}"),
        refused(f"approve {MAIN} {blob}", 3, f"object {blob}"),
        refused(NOTHING, 3, f"object {blob}"),
        Held(fresh(MAINTAINER)),
        refused(NOTHING, 3, "key file", key=b"LMSKEY01"),
        given(stream),
        Anew(),
        refused(NOTHING, 6, "exhausted", key=MAINTAINER.file(b"1" * LEAVES)),
        refused(NOTHING, 4, "fault", over=[moments()]),
        refused("approve refs/heads/a..b " + ZEROS, 2, "words refused"),
        refused(f"approve {MAIN} {ZEROS[1:]}", 2, "words refused"),
        refused(f"approve {MAIN}", 2, "words refused"),
        Anew(),
        done("import", "imported", source=HEAD + ref_line(ATTESTATIONS, NOWHERE) + END, key=fresh(MAINTAINER)),
        refused(NOTHING, 3, f"object {NOWHERE}"),
    )


def approved_by_a_store_that_fails():
    """Its calls are the readings of the log's reference and of the attestations', and the commit, kept or not. Where the
    sink has no room the approval is there."""
    history, runs = History(PROGRAM), []
    payload = approval(MAIN, ZEROS, ZEROS)
    attested(history, {path_of(MAIN, ZEROS, ZEROS): history.seal(payload, [MAINTAINER])})
    empty, whole, used = History().repository.stream(), history.repository.stream(), b"\1" + bytes(LEAVES - 1)
    for call, kept, marks, then in ((1, 0, bytes(LEAVES), empty), (3, 0, used, empty), (3, 3, used, whole)):
        over = [failing("store", call), failing("kept", kept)]
        runs += [Anew(), refused(NOTHING, 4, "fault", key=fresh(MAINTAINER), over=over)]
        runs += [Held(MAINTAINER.file(marks)), given(then)]
    no_room = [room("sink", len(NOTHING_APPROVED))]
    return History(), *runs, Anew(), refused(NOTHING, 4, "fault", key=fresh(MAINTAINER), over=no_room), given(whole)


def judged_by(files_of):
    """What is said of main, whose change the maintainer records, where the attestations have these files for its text."""
    history = guarded(base_top(2))
    target = history.commit(BEFORE)
    tree = history.repository.tree_of(target)
    files = files_of(history, path_of(MAIN, ZEROS, tree), history.seal(approval(MAIN, ZEROS, tree), [REVIEWER]), tree)
    history.record(ATTESTATIONS, history.commit(files))
    history.record(MAIN, target, MAINTAINER)
    return history.repository.stream()


def with_mode(mode):
    return lambda history, path, text, tree: {path: (mode, history.repository.blob(text))}


def with_note(history, path, _text, tree):
    """What was signed has a field beside the four."""
    fields = {"type": "approval", "targetRef": MAIN, "fromRevisionID": ZEROS, "targetTreeID": tree, "note": 1}
    return {path: history.seal(text_of(fields), [REVIEWER])}


def of_another_type(history, path, _text, tree):
    """Its signature is good over a payload of that type."""
    payload, kind = approval(MAIN, ZEROS, tree), "application/json"
    return {path: envelope(payload, [(REVIEWER.id, history.sign(REVIEWER, encoded(payload, kind)))], kind)}


def that_says(**other):
    """What was signed says another type of itself, or none."""

    def made(history, path, _text, tree):
        fields = {"targetRef": MAIN, "fromRevisionID": ZEROS, "targetTreeID": tree} | other
        return {path: history.seal(text_of(fields), [REVIEWER])}

    return made


def which_files_are_approvals():
    """A file or an executable of at most 1 MiB at the place, and no link, no directory and no other name; with fields
    beside the four; of the type alone, in the envelope and in what was signed, and where it is an envelope."""
    counted, not_counted = (0, f"accepted {MAIN} 1 entries\n", ""), (1, f"violation {MAIN} 3 ref-rule main 1 of 2\n", "")
    rows = (
        (with_mode(FILE), counted),
        (with_mode(EXECUTABLE), counted),
        (with_mode(LINK), not_counted),
        (lambda _history, path, text, _tree: {path + b"/x": text}, not_counted),
        (lambda _history, path, text, _tree: {path + b"x": text}, not_counted),
        (lambda _history, path, text, _tree: {path: text.ljust(MOST)}, counted),
        (lambda _history, path, text, _tree: {path: text.ljust(MOST + 1)}, not_counted),
        (with_note, counted),
        (of_another_type, not_counted),
        (that_says(type="approval"), counted),
        (that_says(type="approvals"), not_counted),
        (that_says(), not_counted),
        (lambda _history, path, _text, _tree: {path: b"{}"}, not_counted),
    )
    runs = [it for files_of, ending in rows for it in (Anew(), Run(f"verify-ref {MAIN} --stdin", ending, source=judged_by(files_of)))]
    return History(), *runs


ROWS = (
    nothing_approved_by_two,
    approved_and_recorded,
    full_approval,
    longest_approval,
    nothing_to_approve,
    approved_by_a_store_that_fails,
    which_files_are_approvals,
)
