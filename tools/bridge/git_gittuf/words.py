"""The words that git gittuf takes, and what carries each out."""

import argparse
import functools
import importlib
import re

from git_gittuf import budgets, hooks
from git_gittuf.repository import Stopped
from git_gittuf.shown import plain

WORDS = (
    "setup", "key", "doctor", "record", "approve", "verify", "recover", "push", "fetch", "sync", "skip", "note", "log", "explain",
    "report", "export", "mirror", "evidence", "policy", "hook",
)  # fmt: skip
STORES = ("folder", "database")
STEPS = ("init", "person", "rotate", "rule", "global", "show", "sign", "discard", "apply")


# How wide a terminal is takes long to find, and says nothing here.
FORMAT = functools.partial(argparse.HelpFormatter, width=80)


class Parser(argparse.ArgumentParser):
    def __init__(self, **how):
        super().__init__(add_help=False, allow_abbrev=False, formatter_class=FORMAT, **how)

    def error(self, message):
        self.exit(2, f"git-gittuf: {message}; git gittuf -h says which words are taken\n")


def policy_words(parser):
    words = parser.add_subparsers(dest="step", required=True, metavar="init, person, rotate, rule, global, show, sign, discard or apply")
    it = words.add_parser("init")
    it.add_argument("name")
    it.set_defaults(work="policy_edits.init")
    it = words.add_parser("person")
    it.add_argument("name")
    it.add_argument("public", nargs="*")
    it.add_argument("--remove", action="store_true")
    it.set_defaults(work="policy_edits.person")
    it = words.add_parser("rule")
    it.add_argument("name")
    it.add_argument("patterns", nargs="*")
    it.add_argument("--persons", type=persons)
    it.add_argument("--threshold", type=int)
    it.add_argument("--terminating", action="store_true", default=None)
    it.add_argument("--no-terminating", action="store_false", dest="terminating", default=None)
    it.add_argument("--before", metavar="RULE")
    it.add_argument("--file", metavar="NAME")
    it.add_argument("--remove", action="store_true")
    it.set_defaults(work="policy_edits.rule")
    it = words.add_parser("global")
    it.add_argument("given", nargs="*")
    it.add_argument("--remove", metavar="NAME")
    it.set_defaults(work="policy_edits.global_rule")
    it = words.add_parser("rotate")
    it.add_argument("name")
    it.add_argument("public", nargs="*")
    it.set_defaults(work="policy_edits.rotate")
    it = words.add_parser("sign")
    it.add_argument("--id")
    it.set_defaults(work="policy_commands.sign")
    for name in ("show", "discard", "apply"):
        it = words.add_parser(name)
        it.set_defaults(work=f"policy_commands.{name}")
        it.set_defaults(reads=name == "show")
        if name == "show":
            it.add_argument("--json", action="store_true")
    it.add_argument("--anyway", action="store_true")


def key_ids(text):
    """The ids of keys that a text names, with a comma between each two, as the program takes them."""
    ids = [it.strip() for it in text.split(",")]
    for it in ids:
        if not re.fullmatch("[0-9a-f]{64}", it):
            raise argparse.ArgumentTypeError(f"{it!r} is no id of a key: git gittuf key --id prints one, of 64 digits")
    return ",".join(ids)


def persons(text):
    """The names of persons that a text has, with a comma between each two."""
    names = [it.strip() for it in text.split(",")]
    if not all(names):
        raise argparse.ArgumentTypeError(f"{text!r} lacks a name before or behind a comma")
    return ",".join(names)


def port(text):
    """A port by its number."""
    if not re.fullmatch("[1-9][0-9]{0,4}", text) or int(text) > 65535:
        raise argparse.ArgumentTypeError(f"{text!r} is no port: 1 to 65535 are")
    return int(text)


def seconds(text):
    """A number of seconds that may be spent."""
    if not budgets.SECONDS.fullmatch(text):
        raise argparse.ArgumentTypeError(f"{text!r} is no number of seconds: 1 to 999999 are")
    return int(text)


def hook_step(text):
    """What is to be done about hooks, or the name of one by which Git calls this."""
    if text not in ("install", hooks.CLONE, hooks.SERVER):
        raise argparse.ArgumentTypeError(f"{text!r} is no word of hook: install is, and --remove")
    return text


def entry_id(text):
    """The whole id of an entry, since a part of one could be met by trying."""
    if not re.fullmatch("[0-9a-f]{64}", text):
        raise argparse.ArgumentTypeError(f"{text!r} is no id of an entry: git gittuf log prints them, of 64 digits")
    return text


def key_words(it):
    it.add_argument("--file")
    it.add_argument("--bottom", choices=("5", "10"))
    it.add_argument("--height", default="10", choices=("5", "10", "15"))
    it.add_argument("--width", default="4", choices=("1", "2", "4", "8"))
    one = it.add_mutually_exclusive_group()
    one.add_argument("--id", action="store_true")
    one.add_argument("--public", action="store_true")


def annotate_words(it):
    it.add_argument("entries", nargs="+")
    it.add_argument("-m", "--message")


def expect_known(words):
    """Refuses a word that is none, with those that are near."""
    steps, known = words, WORDS
    if words[:1] == ["policy"] and words[1:]:
        steps, known = words[1:], STEPS
    if not steps or steps[0] not in known:
        # Few calls want it, and it takes long to load.
        import difflib

        near = difflib.get_close_matches(steps[0], known) if steps else []
        said = f"{plain(steps[0])} is no word{' of policy' if known is STEPS else ''}" if steps else "a word is wanted"
        like = f", and near is {' or '.join(near)}" if near else ""
        raise Stopped(f"{said}{like}: git gittuf -h says which words are taken", 2)


def words_of_begin(take):
    take["setup"].add_argument("remote", nargs="?")
    take["setup"].add_argument("--anew", action="store_true")
    take["setup"].add_argument("--root", type=key_ids)
    take["setup"].add_argument("--entry", type=entry_id)
    take["setup"].add_argument("--store", choices=STORES)
    key_words(take["key"])
    take["doctor"].add_argument("--take", metavar="REMOTE", nargs="?", const="")
    take["doctor"].add_argument("--json", action="store_true")
    take["doctor"].add_argument("--store", nargs="?", const="", choices=("", *STORES))
    take["doctor"].set_defaults(work="doctor.doctor")
    policy_words(take["policy"])


def words_of_signing(take):
    for name in ("record", "approve", "recover"):
        take[name].add_argument("branch")
    take["approve"].add_argument("commit", nargs="?")
    take["approve"].add_argument("--delete", action="store_true")
    take["recover"].set_defaults(work="recovering.recover")
    take["push"].add_argument("branches", nargs="*")
    for name in ("push", "sync"):
        take[name].add_argument("--remote")
        take[name].set_defaults(work=f"pushing.{name}")
    take["fetch"].add_argument("--remote", metavar="NAME")
    take["fetch"].set_defaults(work="desk_fetching.fetch")
    for name in ("push", "fetch"):
        take[name].add_argument("--desk", type=port, metavar="PORT", required=name == "fetch")
    for name in ("skip", "note"):
        annotate_words(take[name])
        take[name].set_defaults(work="commands.annotate")
    for name in ("doctor", "record", "approve", "skip", "note", "recover", "push", "sync"):
        take[name].add_argument("--anyway", action="store_true")


def words_of_hooks(take):
    take["hook"].add_argument("step", nargs="?", type=hook_step, metavar="install")
    take["hook"].add_argument("more", nargs="*")
    take["hook"].add_argument("--server", action="store_true")
    take["hook"].add_argument("--remove", action="store_true")
    take["hook"].add_argument("--most-seconds", type=seconds, metavar="N")


def words_of_judging(take):
    take["verify"].add_argument("branches", nargs="*")
    take["verify"].set_defaults(work="verifying.verify")
    take["report"].add_argument("-o", "--output", metavar="FILE")
    take["report"].set_defaults(work="reporting.report")
    for name in ("verify", "report"):
        take[name].add_argument("--root", type=key_ids)
        take[name].add_argument("--pinned", action="store_true")
        take[name].add_argument("--entry", type=entry_id)
        take[name].add_argument("--remote")
    take["log"].set_defaults(work="listing.log")
    for name in ("verify", "log", "explain"):
        take[name].add_argument("-v", "--verbose", action="store_true")
        take[name].add_argument("--json", action="store_true")
    take["explain"].add_argument("name")
    take["explain"].set_defaults(work="explaining.explain")
    take["mirror"].add_argument("remote", metavar="REMOTE")
    take["mirror"].add_argument("--into", metavar="STORE")
    take["mirror"].set_defaults(work="mirroring.mirror")
    take["evidence"].add_argument("entries", nargs="*")
    for words in (("-o", "--output"), ("--check",), ("--key",)):
        take["evidence"].add_argument(*words)
    take["evidence"].add_argument("--from", dest="source", metavar="STORE")
    take["evidence"].set_defaults(work="dossiers.evidence")
    for name in ("doctor", "verify", "log", "explain", "export", "report", "mirror", "evidence"):
        take[name].set_defaults(reads=True)


class Unasked:
    """In place of the parser of a word that is not asked for: it takes what that would, and does nothing."""

    def __getattr__(self, _):
        return lambda *_, **__: self


def loaded(place):
    """What stands at a place, as a module and a name, which is loaded then: a call is to begin at once."""
    module, _, name = place.partition(".")
    return getattr(importlib.import_module(f"git_gittuf.{module}"), name)


def read(words):
    """The words, and in `work` what they ask for."""
    expect_known(words)
    word, *more = words
    parser = Parser(prog="git gittuf")
    parser.set_defaults(word=word, work=f"commands.{word}")
    take = {**{it: Unasked() for it in WORDS}, word: parser}
    for add in (words_of_begin, words_of_signing, words_of_judging, words_of_hooks):
        add(take)
    asked = parser.parse_args(more)
    if word == "hook":
        asked.work = "hook_calls.call" if asked.step in (hooks.CLONE, hooks.SERVER) else "hooks.change"
    asked.work = loaded(asked.work)
    return asked
