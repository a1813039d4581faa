"""Rows on offers to a mirror: what they are to its log, what is taken and kept, and what fails."""

from rows_histories import LOG, MAIN, History
from rows_objects import object_id
from rows_runs import Anew, Run, done, failing, given, refused, room

# The store answers so many calls for an offer of three entries where it has two: where its log stands, both entries, what
# it has of each offered object, each reference after another until there is none, and the change.
OFFER_CALLS = 10


def log_of(letters, **references):
    """A history whose entries, none of them signed, record a target for each letter, and with further references."""
    history = History()
    for letter in letters:
        history.record(MAIN, object_id(b"blob", letter.encode()))
    for name, letter in references.items():
        history.repository.set(f"refs/{name.replace('__', '/')}", object_id(b"blob", letter.encode()))
    return history


def offered(history, line, status=0, **more):
    return Run("mirror", (status, line + "\n", ""), source=history.repository.stream(), **more)


def forked(kept, other, number):
    """The offer of another past to a kept one."""
    return offered(other, f"forked {number} {kept.ids[number - 1]} {other.ids[number - 1]}", 1)


def with_fork(kept, other, number):
    """The stream of a mirror that was offered another past."""
    entry = other.ids[number - 1]
    kept.repository.add(*other.repository.objects[entry])
    kept.repository.set(f"refs/mirror/fork/{number}/{entry}", entry)
    return kept.repository.stream()


def a_mirror_grows():
    """Seven entries are kept and eight offered, then the seven again, and then eight of which the last is another."""
    seven, eight, other = log_of("abcdefg"), log_of("abcdefgh"), log_of("abcdefgi")
    return (
        History(),
        offered(seven, "taken 0 7"),
        offered(eight, "taken 7 8"),
        offered(eight, "same 8"),
        offered(seven, "behind 8 7", 1),
        given(eight.repository.stream(), over=[room("sink", 65536)]),
        forked(eight, other, 8),
        forked(eight, other, 8),
        given(with_fork(eight, other, 8), over=[room("sink", 65536)]),
    )


def pasts_part():
    """Logs part at their first entry, in the middle and at the last; the offered one is as long, longer or shorter."""
    runs = []
    for kept, other, number in (("a", "b", 1), ("abcd", "bbcd", 1), ("abcd", "abdd", 3), ("abcd", "abca", 4), ("abc", "abdefg", 3), ("abcdef", "abd", 3)):
        ours, theirs = log_of(kept), log_of(other)
        runs += [Anew(), offered(ours, f"taken 0 {len(kept)}"), forked(ours, theirs, number)]
    return (History(), *runs)


def no_log_is_offered():
    """Of no log nothing is taken; a mirror without one has it as its first offer."""
    return (
        History(),
        offered(History(), "same 0"),
        offered(log_of("a"), "taken 0 1"),
        offered(History(), "behind 1 0", 1),
        given(log_of("a").repository.stream()),
    )


def a_mirrors_own_references():
    """What stands below refs/mirror/ stays and is not taken, and each other reference is the offered one."""
    kept = log_of("a", heads__gone="b", mirror__mine="c", mirrors="d")
    later = log_of("ab", heads__new="f", mirror__mine="g", mirror__theirs="h")
    after = log_of("ab", heads__new="f", mirror__mine="c")
    return (
        kept,
        done("import", "imported"),
        offered(later, "taken 1 2"),
        given(after.repository.stream()),
    )


def broken(letter):
    """A history whose log stands at an object that is nowhere."""
    history = History()
    history.repository.set(LOG, object_id(b"blob", letter.encode()))
    return history


def offers_refused():
    """A stream is refused before the kept log, and that before the offered one; nothing is changed."""
    whole, ours, theirs = log_of("a"), broken("b"), broken("c")
    stream = whole.repository.stream()
    cut, bad = stream[:-1], b"gittuf-stream 2\n"
    ends = lambda history: (3, f"log-broken {history.repository.references[LOG]}\n", "")
    return (
        ours,
        done("import", "imported"),
        refused("mirror", 3, "stream 5", source=cut),
        refused("mirror", 3, "stream 1", source=bad),
        Run("mirror", ends(ours), source=theirs.repository.stream()),
        Run("mirror", ends(ours), source=stream),
        given(ours.repository.stream()),
        Anew(),
        offered(whole, "taken 0 1"),
        Run("mirror", ends(theirs), source=theirs.repository.stream()),
        refused("mirror", 3, "stream 5", source=cut),
        given(stream),
    )


def offers_over_what_fails():
    """The store fails at each of its calls, and a commit that fails is made or not; the sink has no room for the line, and
    what was taken stands."""
    whole, more = log_of("ab"), log_of("abc")
    source = more.repository.stream()
    runs = []
    for call in range(1, OFFER_CALLS + 1):
        runs += [Anew(), offered(whole, "taken 0 2"), refused("mirror", 4, "fault", source=source, over=[failing("store", call)])]
        runs += [given(whole.repository.stream())]
    over = [failing("store", OFFER_CALLS), failing("kept", OFFER_CALLS)]
    runs += [Anew(), offered(whole, "taken 0 2"), refused("mirror", 4, "fault", source=source, over=over), given(more.repository.stream())]
    runs += [Anew(), offered(whole, "taken 0 2"), refused("mirror", 4, "fault", source=source, over=[failing("source", 1)])]
    runs += [refused("mirror", 4, "fault", source=source, over=[room("sink", 0)]), given(source)]
    return (History(), *runs)


ROWS = (
    a_mirror_grows,
    pasts_part,
    no_log_is_offered,
    a_mirrors_own_references,
    offers_refused,
    offers_over_what_fails,
)
