"""Rows on what is wrong with a policy, first fault first, as `policy-apply` and a verdict tell it."""

from rows_histories import BEFORE, KEEPER, MAIN, MAINTAINER, NEWCOMER, OWNER, POLICY
from rows_histories import History, asked, asked_again, base_files, base_root, base_top, guarded, top_file
from rows_objects import EXECUTABLE, FILE, LINK, PROGRAM, ZEROS
from rows_policies import encoded, envelope, root, rule, rule_file
from rows_runs import Anew, Held, Run, done, given, refused
from rows_signing import LEAVES

NOWHERE = "e" * 64
# Rules stand in a chain so long at most, a policy file has so many bytes and signatures, and a file so many rules.
DEEPEST, LARGEST, MOST_SIGNATURES, MOST_RULES = 8, 1_048_576, 64, 1_024


def verdicts(rows):
    """What is said of the first policy, whose files are texts by name, for each of them."""
    runs = []
    for files, why in rows:
        history = History()
        tree = {b"metadata/" + name: it for name, it in files(history).items()}
        history.record(POLICY, history.commit(tree), OWNER)
        line = f"violation {POLICY} 1 not-epoch {why}" if why else f"accepted {POLICY} 1 entries"
        ending = (1 if why else 0, line + "\n", "")
        runs += [Anew(), Run(f"verify-ref {POLICY} --stdin", ending, source=history.repository.stream())]
    return History(), *runs


def sealed(history, **files):
    """Policy files by stem, which are a payload and its signers."""
    return {stem.replace("_", "-").encode() + b".json": history.seal(*it) for stem, it in files.items()}


def owners(payload, signer=OWNER):
    return payload, [signer]


def below(name, rules=()):
    return rule_file(name, [OWNER], list(rules) or [rule("more", "git:*", [OWNER])])


def top(*names):
    return top_file([OWNER], [rule(name, "git:*", [OWNER]) for name in names])


def of_another_type(files, name):
    """The same files, of which one says that its payload is of another type."""
    return files | {name: files[name].replace(b"vnd.gittuf+json", b"json")}


def files_of_a_policy():
    """A root alone and with files, no root, bad ones, one that nobody signed, a file under another's stem, one that hangs
    on no rule, one that another key signed, and one of another type; files go by their stems, so that `a` comes before
    `a-b`."""
    good = owners(base_root())
    with_dev = {"root": good, "targets": owners(top("dev"))}
    rows = (
        (lambda it: sealed(it, root=good), None),
        (lambda it: sealed(it, dev=owners(below("dev")), **with_dev), None),
        (lambda it: {}, "no-root"),
        (lambda it: {b"targets.json": b"{}"}, "no-root"),
        (lambda it: {b"a.json": b"{}", b"root.json": b"{}"}, "bad-file root"),
        (lambda it: {b"root.json": envelope(base_root(), [(None, b"")])}, "root-threshold 0 of 1"),
        (lambda it: {b"root.json": envelope(base_root(), [(OWNER.id, b"")])}, "root-threshold 0 of 1"),
        (lambda it: sealed(it, root=owners(base_root(), KEEPER)), "root-threshold 0 of 1"),
        (lambda it: sealed(it, root=good, dev=owners(below("dev"))), "unreachable dev"),
        (lambda it: sealed(it, root=good, a=owners(below("dev")), a_b=owners(below("dev"))), "bad-file a"),
        (lambda it: sealed(it, root=good) | {b"a.json": b"{}", b"targets.json": b"{}"}, "bad-file targets"),
        (lambda it: sealed(it, dev=owners(below("dev"), KEEPER), **with_dev), "file-threshold dev 0 of 1"),
        (lambda it: sealed(it, root=good, targets=owners(below("dev"))), "bad-file targets"),
        (lambda it: sealed(it, root=good) | {b".json": b"{}"}, "bad-file "),
        (lambda it: sealed(it, root=good) | {b"a b%.json": b"{}"}, "bad-file a%20b%25"),
        (lambda it: sealed(it, root=good) | {b"a b%.json": it.seal(*owners(below("a b%")))}, "unreachable a%20b%25"),
        (lambda it: of_another_type(sealed(it, **with_dev), b"root.json"), "bad-file root"),
        (lambda it: of_another_type(sealed(it, dev=owners(below("dev")), **with_dev), b"dev.json"), "bad-file dev"),
        (lambda it: sealed(it, root=good) | {b"note.txt": b"{}"}, None),
    )
    return verdicts(rows)


def with_mode(history, mode, text):
    return {b"root.json": (mode, history.repository.blob(text))}


def forms_of_a_policy_file():
    """A file or an executable, and no link; of at most 1 MiB; and whose object is there."""
    rows = (
        (lambda it: with_mode(it, EXECUTABLE, it.seal(base_root(), [OWNER])), None),
        (lambda it: with_mode(it, LINK, it.seal(base_root(), [OWNER])), "no-root"),
        (lambda it: with_mode(it, FILE, it.seal(base_root(), [OWNER]).ljust(LARGEST)), None),
        (lambda it: with_mode(it, FILE, it.seal(base_root(), [OWNER]).ljust(LARGEST + 1)), "bad-file root"),
        (lambda it: {b"root.json": (FILE, NOWHERE)}, "bad-file root"),
    )
    return verdicts(rows)


def with_signatures(count):
    """A root alone that so many signatures stand under, of which the last is the owner's, where there is any."""

    def sealed_so(history):
        ours = [(OWNER.id, history.sign(OWNER, encoded(base_root())))] if count else []
        return {b"root.json": envelope(base_root(), [(None, b"")] * (count - 1) + ours)}

    return sealed_so


def numbers_of_signatures():
    """A file with one signature and with 64, with none and with one more."""
    read = ((with_signatures(count), None) for count in (1, MOST_SIGNATURES))
    return verdicts((*read, *((with_signatures(count), "bad-file root") for count in (0, MOST_SIGNATURES + 1))))


def chain(length, rules=None, **more):
    """Rule files in one another, each with one rule, of which the top file has the first: so many rules; or these rules in
    the top file, of the person `p`, and more files."""
    names = [f"r{number}" for number in range(1, length + 1)]
    files = {name: owners(below(name, [rule(later, "git:*", [OWNER])])) for name, later in zip(names, names[1:])} | more
    first = top_file([OWNER], rules, people={"p": [OWNER]}) if rules else top("r1")
    return lambda it: sealed(it, root=owners(base_root()), targets=owners(first), **files)


def numbers_of_rules():
    """A chain of eight rules and of nine."""
    return verdicts(((chain(DEEPEST), None), (chain(DEEPEST + 1), f"too-deep r{DEEPEST + 1}")))


def faults_of_rules_in_order():
    """Of what keeps rules from being a policy's the first is told: a name of two rules before a file that hangs on no rule,
    this before a chain of nine rules, and this before too many rules."""
    first, *more = [rule(name, "git:*", ["p"]) for name in ("r1", *(f"m{number}" for number in range(1, MOST_RULES)))]
    off = {"off": owners(below("off"))}
    rows = (
        (chain(DEEPEST + 1, [first, more[0], more[0]], **off), "duplicate-name m1"),
        (chain(DEEPEST + 1, [first], **off), "unreachable off"),
        (chain(DEEPEST + 1, [first, *more]), f"too-deep r{DEEPEST + 1}"),
    )
    return verdicts(rows)


def policy_gone():
    """The policy's reference goes, or stands at what is missing, and the old policy stays in force."""
    history = guarded()
    history.record(POLICY, ZEROS, OWNER)
    history.record(POLICY, NOWHERE, OWNER)
    history.record(MAIN, history.commit(BEFORE), MAINTAINER)
    return (
        history,
        asked(1, f"violation {POLICY} 2 not-epoch unreadable", POLICY),
        asked_again(0, f"accepted {MAIN} 1 entries"),
    )


def root_that_does_not_succeed():
    """`policy-apply` refuses a root that its own keys alone signed, and uses no leaf. Another space is unprotected."""
    history = History(PROGRAM)
    history.policy(base_files(base_top()))
    later = root(2, [NEWCOMER, OWNER], [NEWCOMER], [OWNER])
    files = base_files(base_top()) | {"root": (later, [NEWCOMER])}
    rows = {f"metadata/{stem}.json".encode(): history.seal(*it) for stem, it in files.items()}
    history.repository.set(POLICY, history.commit(rows))
    key = OWNER.file(bytes(LEAVES))
    return (
        History(),
        done("import", "imported", source=history.repository.stream(), key=key),
        refused("policy-apply", 3, "policy root-succession 0 of 1"),
        done("explain file:src/b", "unprotected"),
        done("explain file:", "unprotected"),
        Held(key),
        given(history.repository.stream()),
    )


ROWS = (
    files_of_a_policy,
    forms_of_a_policy_file,
    numbers_of_signatures,
    numbers_of_rules,
    faults_of_rules_in_order,
    policy_gone,
    root_that_does_not_succeed,
)
