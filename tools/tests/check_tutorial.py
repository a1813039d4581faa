"""The check of tools/test that docs/TUTORIAL.md says what happens: each of its lines is run, on a terminal.

Called by itself with --write it writes what happened into the page.
"""

import os
import re
import sys

from checking import TOP, Failure, at_terminal, want

PAGE = os.path.join(TOP, "docs", "TUTORIAL.md")
BLOCK = re.compile(r"```console\n(.*?)```\n", re.DOTALL)
# Ids and public keys are others in each run. An id may be cut to 12 digits.
DIGITS = re.compile(r"\b[0-9a-f]{12,}\b")
# What is written over on a terminal while something takes long.
WRITTEN_OVER = re.compile(r"\r\x1b\[K[^\r\n]*(?=\r\x1b\[K)|\r\x1b\[K")
BETWEEN = "\x1e"


def blocks_of(page):
    """The blocks of the page, each as its commands with the lines that follow them."""
    found = []
    for block in BLOCK.findall(page):
        commands = []
        for line in block.splitlines(keepends=True):
            if line.startswith("$ "):
                commands.append([line[2:].rstrip("\n"), ""])
            else:
                commands[-1][1] += line
        found.append(commands)
    return found


def printed_by(commands, folder):
    """What each command prints in one shell, on a terminal."""
    script = "".join(f"{command}\nprintf '\\036'\n" for command in commands)
    status, text = at_terminal(script, folder)
    want(status >= 0, True, "whether the shell ended by itself")
    return WRITTEN_OVER.sub("", text).split(BETWEEN)[:-1]


def numbered(text, folder=None):
    """A text in which each id is its place among all ids, so that texts of two runs can be compared."""
    if folder:
        text = text.replace(folder, "~")
    places = {}
    return DIGITS.sub(lambda it: f"<{len(it[0])} digits, {places.setdefault(it[0][:12], len(places))}>", text)


def walk(repositories):
    """Runs the lines of the page in an empty folder, and returns the blocks with what they printed."""
    folder = repositories.path("tutorial")
    links = os.path.join(folder, "links")
    os.makedirs(links)
    os.symlink(os.path.join(TOP, "tools", "git-gittuf"), os.path.join(links, "git-gittuf"))
    os.symlink(os.path.realpath(sys.executable), os.path.join(links, "python3"))
    with open(PAGE, encoding="utf-8") as file:
        page = file.read()
    blocks = blocks_of(page)
    home = {"HOME": folder, "XDG_DATA_HOME": os.path.join(folder, "data"), "TERM": "dumb", "PATH": f"{links}:{os.environ['PATH']}"}
    # The page's own names are to be used.
    before = dict(os.environ)
    for name in [it for it in os.environ if it.startswith("GIT_") and "CONFIG" not in it]:
        del os.environ[name]
    os.environ.update(home)
    try:
        found = iter(printed_by([command for block in blocks for command, _ in block], folder))
    finally:
        os.environ.clear()
        os.environ.update(before)
    ran = [[[command, next(found, None)] for command, _ in block] for block in blocks]
    return page, blocks, ran, folder


def says_what_happens(repositories):
    """each line of docs/TUTORIAL.md does what the page shows"""
    repositories.needed()
    _, blocks, ran, folder = walk(repositories)
    told = [numbered(BETWEEN.join(it[1] or "" for block in all_blocks for it in block), folder) for all_blocks in (blocks, ran)]
    wanted, found = (it.split(BETWEEN) for it in told)
    commands = [it[0] for block in blocks for it in block]
    want(len(found), len(wanted), "how many of the lines were run")
    for command, expected, printed in zip(commands, wanted, found):
        if expected != printed:
            raise Failure(f"`{command}` printed {printed!r}, and the page has {expected!r}")
    return f"{len(commands)} lines"


def write(repositories):
    page, _, ran, folder = walk(repositories)
    texts = iter("".join(f"$ {command}\n{(printed or '').replace(folder, '~')}" for command, printed in block) for block in ran)
    page = BLOCK.sub(lambda _: f"```console\n{next(texts)}```\n", page)
    with open(PAGE, "w", encoding="utf-8") as file:
        file.write(page)


CHECKS = (says_what_happens,)

if __name__ == "__main__" and sys.argv[1:] == ["--write"]:
    import tempfile

    from check_repositories import Repositories

    with tempfile.TemporaryDirectory(prefix="gittuf-tutorial-") as made:
        write(Repositories(os.path.realpath(made)))
