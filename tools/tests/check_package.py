"""The checks of tools/test on the package, the manual pages and the completion."""

import json
import os
import re
import shutil
import subprocess
import sys
import tarfile

from checking import TOP, Failure, Skip, run, want
from git_gittuf.usage import help_of
from guarded_clones import MAIN, SMALL, TOOL
from made_releases import packages

PACKAGE = os.path.join(TOP, "tools", "package")
WORDS = ("setup", "key", "policy", "record", "approve", "verify", "recover", "push", "fetch", "sync", "skip", "note", "log", "explain", "report", "export")
WORDS += ("mirror", "evidence", "doctor", "hook")
# What git gittuf and the launcher call, and no toolchain among it.
NEEDED = ("sh", "cat", "env", "git", "readlink", "sync")
PAGES = ("gittuf-program.1", "git-gittuf.1")


def text_of(*path):
    with open(os.path.join(TOP, *path), encoding="utf-8") as file:
        return file.read()


def installed(repositories):
    """A root with nothing in it but the package, and what else there is of it."""
    folder = repositories.path("packages")
    os.mkdir(folder)
    status, output, errors = run(PACKAGE, folder)
    want((status, errors), (0, b""), "the status and errors of package")
    deb, archive = output.decode().split()
    root = os.path.join(folder, "root")
    if shutil.which("dpkg-deb"):
        want(run("dpkg-deb", "--extract", deb, root)[0], 0, "the status of dpkg-deb")
        fields = run("dpkg-deb", "--field", deb, "Package", "Architecture")[1]
        want(fields, b"Package: gittuf\nArchitecture: amd64\n", "what the package says of itself")
    else:
        os.mkdir(root)
        want(run("ar", "x", deb, "data.tar.xz", folder=folder)[0], 0, "the status of ar")
        with tarfile.open(os.path.join(folder, "data.tar.xz")) as packed:
            packed.extractall(root)
    unpacked = os.path.join(folder, "unpacked")
    os.mkdir(unpacked)
    want(run("tar", "-xf", archive, "-C", unpacked)[0], 0, "the status of tar")
    (top,) = os.listdir(unpacked)
    return os.path.join(root, "usr"), os.path.join(unpacked, top)


def bare_path(repositories):
    """A folder with what the package wants of the system, and nothing else."""
    folder = repositories.path("needed by the package")
    os.mkdir(folder)
    for it in NEEDED:
        os.symlink(shutil.which(it), os.path.join(folder, it))
    os.symlink(os.path.realpath(sys.executable), os.path.join(folder, "python3"))
    return folder


def runs_where_it_is_installed(repositories):
    """the package and the archive run where nothing else of this is, without a toolchain, tell commit and kit, and ask what is beside them"""
    repositories.needed()
    places, needed = installed(repositories), bare_path(repositories)
    want(*(files_below(it) for it in places), "the files of the archive beside those of the package")
    commit = run("git", "-C", TOP, "rev-parse", "HEAD")[1].decode().strip()
    for number, place in enumerate(places):
        environment = {"PATH": f"{place}/bin:{needed}", "HOME": repositories.path(f"home {number}")}
        for name in [it for it in os.environ if it.startswith("GIT_")]:
            environment[name] = os.environ[name]
        project = repositories.path(f"packaged {number}")
        shutil.copytree(repositories.needed(), project, symlinks=True)

        def answer(*words, status=0):
            ran = subprocess.run(words, cwd=project, env=environment, capture_output=True, check=False)
            want((ran.returncode, ran.stderr), (status, b""), f"the status and errors of {' '.join(words)}")
            return ran.stdout.decode()

        version = answer(f"{place}/bin/gittuf", "--version")
        if commit not in version or not re.search(r"rattle-kit-\w+ logic [0-9a-f]+$", version):
            raise Failure(f"--version says {version!r}")
        if os.path.lexists(inspect := f"{place}/bin/gittuf-inspect"):
            want(answer(inspect, "--version"), version, "what gittuf-inspect says of itself")
            want(answer(inspect, "--help").splitlines()[0], "usage: gittuf-inspect STORE WORD ..", "the first line of its help")
            want(json.loads(answer(inspect, "-", "verdicts", MAIN))["verdict"], "accepted", "what it tells of an empty store")
        answer("git", "gittuf", "setup")
        answer("git", "gittuf", "key", *SMALL)
        answer("git", "gittuf", "record", "main", "--anyway")
        found = answer("git", "gittuf", "verify", "main", status=1)
        want(found, f"violation {MAIN} 1 no-policy\n", "the verdict")
        answer("git", "branch", "topic", "main")
        answer("git", "gittuf", "record", "topic", "--anyway")
        both = [f"violation refs/heads/{it} {number} no-policy\n" for number, it in enumerate(("main", "topic"), start=1)]
        want(answer("git", "gittuf", "verify", "main", "topic", status=1), "".join(both), "the verdicts on both")
        # What stands beside the program is asked for several.
        told = [f'{{"reference":"refs/heads/{it}","verdict":"accepted","entries":7}}' for it in ("main", "topic")]
        for name in ("gittuf-inspect", "gittuf-inspect-x86-64-v3"):
            inspect = os.path.join(place, "lib", "gittuf", name)
            if os.path.exists(inspect):
                os.remove(inspect)
            with open(inspect, "w", encoding="utf-8") as file:
                file.write("#!/bin/sh\ncat <<END\n" + "\n".join(told) + "\nEND\n")
            os.chmod(inspect, 0o755)
        found = answer("git", "gittuf", "verify", "main", "topic")
        want(found.splitlines(), [f"accepted refs/heads/{it} 7 entries" for it in ("main", "topic")], "the verdicts that are told beside the program")
        answer("git", "fsck", "--strict")
    return f"{len(files_below(places[0]))} files"


def files_below(place):
    return sorted(os.path.relpath(os.path.join(at, it), place) for at, _, files in os.walk(place) for it in files)


def command_names():
    """The names of the program's commands, as its definitions have them."""
    found = re.findall(r'^name_text .* = codes "([a-z-]+)"$', text_of("crates", "command_words", "specs", "FirstWords.antt"), re.MULTILINE)
    if len(found) < 2 or len(set(found)) != len(found):
        raise Failure(f"the names of commands in FirstWords.antt are {found}")
    return found


def lists_of_commands():
    """What lists commands: its name, its text, and the form in which a command's name stands there."""
    yield "gittuf-program.1", text_of("man", "gittuf-program.1"), r"^\.It Cm {}\b"
    yield "_gittuf", text_of("completion", "_gittuf"), r"^  '{}:"
    yield "gittuf.bash", text_of("completion", "gittuf.bash"), r"(?<![\w-]){}(?![\w-])"
    yield "PROGRAM.md", text_of("docs", "PROGRAM.md"), r"^\| .*`{}[`, ]"
    yield "FORMATS.md", text_of("docs", "FORMATS.md"), r"^\| `{}[` ]"


def has_pages(repositories):
    """the manual pages are read without a warning, and name each word and command"""
    for it in PAGES:
        path = os.path.join(TOP, "man", it)
        if shutil.which("mandoc"):
            words = ("mandoc", "-T", "lint", "-W", "warning", path)
        elif shutil.which("groff"):
            words = ("groff", "-mdoc", "-ww", "-z", path)
        else:
            raise Skip("neither mandoc nor groff is here")
        found = run(*words)
        want(found, (0, b"", b""), f"what {words[0]} says of {it}")
    # Git takes gittuf, which begins with its own name, for the page's name.
    want(text_of("man", "gittuf.1"), ".so man1/git-gittuf.1\n", "what git help gittuf shows")
    page, use = text_of("man", "git-gittuf.1"), text_of("tools", "bridge", "git_gittuf", "usage.py")
    for it in WORDS:
        want(bool(re.search(rf"\.(It )?Cm .*\b{it}\b", page)), True, f"whether the page has the word {it}")
        want(bool(re.search(rf"^  {it}\b", use, re.MULTILINE)), True, f"whether -h has the word {it}")
    names = command_names()
    listed = text_of("gittuf").split("Commands:\n")[1].split("\n\n")[0]
    want(set(re.findall(r"^  ([a-z-]+) ", listed, re.MULTILINE)), set(names), "the commands that --help lists")
    for where, text, form in lists_of_commands():
        want([it for it in names if not re.search(form.format(re.escape(it)), text, re.MULTILINE)], [], f"the commands that {where} lacks")
    return "by mandoc" if shutil.which("mandoc") else "by groff"


def pages_lead_to_pages(repositories):
    """each link of a packed page leads to a packed page, or outside"""
    pages = {os.path.basename(it): body for it, (body, _) in packages.files_of({}, "").items() if it.startswith("share/doc/") and it.endswith(".md")}
    links = [(it, link[2]) for it, body in pages.items() for link in packages.PAGE_LINK.finditer(body.decode())]
    want([it for it in links if it[1] and ":" not in it[1] and it[1] not in {*pages, "log-and-epochs.svg"}], [], "the links that lead nowhere")
    if not any(where in pages for _, where in links):
        raise Failure("no page leads to another")


def completes(repositories):
    """bash completes the words of git gittuf, its steps and the names of branches, and the commands of the programs"""
    repositories.needed()
    file = os.path.join(TOP, "completion", "gittuf.bash")
    rows = (
        ("_git_gittuf", "git gittuf ", set(WORDS)),
        ("_git_gittuf", "git gittuf ver", {"verify"}),
        ("_git_gittuf", "git-gittuf policy s", {"show", "sign"}),
        ("_git_gittuf", "git gittuf policy sign --", {"--id"}),
        ("_git_gittuf", "git gittuf policy apply --", {"--anyway"}),
        ("_git_gittuf", "git gittuf policy global t", {"threshold"}),
        ("_git_gittuf", "git gittuf record ma", {"main"}),
        ("_gittuf", "gittuf - - verify-ref --", {"--root", "--stdin"}),
        ("_gittuf", "gittuf kept/ my.key key-gen ", {"5", "10", "15"}),
        ("_gittuf_inspect", "gittuf-inspect kept/ ", {"log", "verdicts", "would", "used", "policy"}),
        ("_gittuf_inspect", "gittuf-inspect kept/ policy --a", {"--at", "--against"}),
    )
    for function, line, wanted in rows:
        words = line.split(" ")
        script = 'source "$1"; f=$2; shift 2; COMP_WORDS=("$@"); COMP_CWORD=$(($# - 1)); "$f"; printf "%s\\n" "${COMPREPLY[@]}"'
        status, output, errors = run("bash", "-c", script, "bash", file, function, *words, folder=repositories.path("project"))
        want((set(output.decode().split()), errors), (wanted, b""), f"what follows {line!r}")
    if shutil.which("zsh"):
        for it in ("_gittuf", "_gittuf-inspect", "_git-gittuf"):
            want(run("zsh", "-n", os.path.join(TOP, "completion", it)), (0, b"", b""), f"what zsh says of {it}")
    if shutil.which("fish"):
        place = os.path.join(TOP, "completion", "git-gittuf.fish")
        script = "source $argv[1]; complete -C $argv[2]"
        for line, wanted in (("ver", "verify"), ("policy sign --", "--id"), ("policy apply --", "--anyway")):
            status, output, errors = run("fish", "--no-config", "-c", script, place, f"git gittuf {line}")
            want((status, output.decode().split(), errors), (0, [wanted], b""), f"what fish has behind {line!r}")


def tells_its_use(repositories):
    """each word of git gittuf has its part of the page of use by -h, and a slip is told with what is near, by status 2"""
    repositories.needed()
    where = repositories.path("project")
    for it in (("verify",), ("policy", "rule")):
        for words in ((*it, "-h"), (*it, "main", "-h"), ("help", *it)):
            status, output, errors = run(TOOL, *words, folder=where)
            want((status, output.decode().split()[: len(it)], errors), (0, [*it], b""), f"what {' '.join(words)} answers")
    for it in WORDS:
        want(help_of([it]).startswith(f"  {it} "), True, f"whether {it} has a part of the page")
    slips = {
        ("verfy", "main"): "verfy is no word, and near is verify",
        ("policy", "sing"): "sing is no word of policy, and near is sign",
        (): "a word is wanted",
    }
    for it, said in slips.items():
        want(run(TOOL, *it, folder=where), (2, b"", f"git-gittuf: {said}: git gittuf -h says which words are taken\n".encode()), f"what {it} is told")
    # What the program takes of a key's words is said before it is asked.
    file = ("--file", repositories.path("no.key"))
    slips = {("--height", "3"): "5, 10, 15", ("--width", "3"): "1, 2, 4, 8", ("--bottom", "10"): "none is 15 and one is 5"}
    for it, said in slips.items():
        status, output, errors = run(TOOL, "key", *file, *it, folder=where)
        # Versions of Python differ in whether they quote each.
        is_told = said in errors.decode().replace("'", "")
        want((status, output, is_told, os.path.exists(file[1])), (2, b"", True, False), f"what key {it} is told: {errors}")


CHECKS = (
    runs_where_it_is_installed,
    has_pages,
    pages_lead_to_pages,
    tells_its_use,
    completes,
)
