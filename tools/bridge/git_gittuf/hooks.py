"""`git gittuf hook`: the hooks of a clone and of a server, by which Git asks git gittuf before it pushes or takes a push."""

import os
import shlex
import sys

from git_gittuf import budgets, keys, settings
from git_gittuf.repository import Stopped
from git_gittuf.shown import quoted

CLONE, SERVER = "pre-push", "pre-receive"
MARK = "# git gittuf hook install made this, and git gittuf hook --remove takes it away.\n"
# Where a hook of others stands that is called first.
OTHERS = ".before-gittuf"


def text_of(name, tool):
    return f'#!/bin/sh\n{MARK}exec {shlex.quote(tool)} hook {name} "$@"\n'


def folder_of(repository):
    """The folder in which Git looks for hooks, which is to be this repository's own."""
    told = os.fsdecode(repository.asked("say where its hooks stand", "rev-parse", "--git-path", "hooks")[:-1])
    folder = os.path.realpath(os.path.join(repository.top or repository.git_dir, told))
    if not any(keys.is_inside(folder, it) for it in (repository.common, repository.top)):
        said = f"core.hooksPath says that hooks stand in {quoted(folder)}, which other repositories may share"
        raise Stopped(f"{said}: git config core.hooksPath {quoted(os.path.join(repository.common, 'hooks'))} gives this one its own", 3)
    return folder


def is_own(path):
    """Whether a hook is one that was installed."""
    try:
        with open(path, encoding="utf-8", errors="replace") as file:
            return MARK in file.read(4096)
    except OSError:
        return False


def put(path, text):
    with open(f"{path}.new", "w", encoding="utf-8") as file:
        file.write(text)
        os.fchmod(file.fileno(), 0o755)
        os.fsync(file.fileno())
    os.rename(f"{path}.new", path)


def install(repository, name):
    folder = folder_of(repository)
    path = os.path.join(folder, name)
    os.makedirs(folder, exist_ok=True)
    if os.path.lexists(path) and not is_own(path):
        if os.path.lexists(path + OTHERS):
            raise Stopped(f"{path} is a hook of others, and {path}{OTHERS} another one: take one of them away", 3)
        os.rename(path, path + OTHERS)
    put(path, text_of(name, os.path.realpath(sys.argv[0])))
    first = f", and calls {name}{OTHERS} first" if os.path.lexists(path + OTHERS) else ""
    print(f"{path} is there{first}")


def remove(repository):
    """Takes the hooks away, and puts those of others back that they took the place of."""
    folder, is_gone = folder_of(repository), False
    for path in (os.path.join(folder, it) for it in (CLONE, SERVER)):
        if is_own(path):
            os.remove(path)
            is_gone = True
            print(f"{path} of git gittuf is taken away")
        if os.path.lexists(path + OTHERS) and not os.path.lexists(path):
            os.rename(path + OTHERS, path)
            print(f"{path} is that of others again")
    if not is_gone:
        raise Stopped(f"no hook of git gittuf is in {folder}", 3)
    if repository.config(budgets.SETTING):
        repository.set("--unset-all", budgets.SETTING)
        print(f"{budgets.SETTING} is set no more")


def limit(repository, seconds):
    settings.keep(repository, budgets.SETTING, str(seconds))
    print(f"a push that takes more than {seconds} seconds of the processor to judge is refused: {budgets.SETTING} says so")


def change(work, words):
    """Installs the hook of a clone or of a server, or takes both away."""
    if words.remove:
        remove(work.repository)
    elif words.step != "install":
        raise Stopped("git gittuf hook install makes a hook, and git gittuf hook --remove takes it away", 2)
    elif work.repository.top is None and not words.server:
        raise Stopped("nobody pushes from a bare repository: git gittuf hook install --server guards what it takes", 2)
    elif words.most_seconds and not words.server:
        raise Stopped("a limit is for those who push to a server: git gittuf hook install --server --most-seconds N", 2)
    else:
        install(work.repository, SERVER if words.server else CLONE)
        if words.most_seconds:
            limit(work.repository, words.most_seconds)
