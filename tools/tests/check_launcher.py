"""The checks of tools/test on the launcher."""

import os
import shutil
import subprocess
import time

from checking import ACCEPTED, EMPTY_STREAM, LAUNCHER, PROGRAM, SMALL_PROGRAM, TOP, VERIFY, Failure
from checking import on_terminal, processor_seconds, run, want, want_run

# Where a built program and the small one stand in a checkout, and what stands beside a program.
BUILT, SMALL_BUILT = "crates/gittuf/out/gittuf", "crates/source_check/out/source_check"
LIST, SOURCES = (os.path.join(os.path.dirname(PROGRAM), f"gittuf.{it}") for it in ("files", "sources"))
# What unpacks a release, of the two that can.
UNPACKS = "xz" if shutil.which("xz") else "python3"
# What the launcher and the build call where nothing is built.
SYSTEM = ("bash", "sh", "cat", "mkdir", "mktemp", "mv", "rm", "sha256sum", "tar", UNPACKS, "touch", "readlink", "nproc", "tail")
# The launcher adds about 2.5 ms on a busy machine. A busier one is allowed more, and the figure is printed.
MOST_MS = 20
RUNS = 31
COMMANDS = (b"import", b"export", b"verify-ref")


def refuses_words(repositories):
    """the launcher passes the status and errors of refused words through"""
    words = ((), ("-",), ("--help", "-", "export"), ("-h",))
    for it in (*words, *(("-", "-", "verify-ref", *more) for more in ((), ("refs/heads/a..b", "--stdin"), ("", "-")))):
        want_run((LAUNCHER, *it), 2, b"", b"words refused\n")


def works_from_elsewhere(repositories):
    """the launcher works from another folder, and through a symbolic link"""
    link = repositories.path("a link to gittuf")
    os.symlink(LAUNCHER, link)
    for launcher in (LAUNCHER, link, os.path.relpath(LAUNCHER, repositories.folder)):
        want_run((launcher, *VERIFY), 0, ACCEPTED, input=b"gittuf-stream 1\nend\n", folder=repositories.folder)


def stand_in(repositories, name, text):
    """A copy of the launcher whose program is a script that counts as built from the sources."""
    top = repositories.path(name)
    program = os.path.join(top, BUILT)
    os.makedirs(os.path.dirname(program))
    os.makedirs(os.path.join(top, "tools", "build"))
    shutil.copy2(LAUNCHER, top)
    shutil.copy2(os.path.join(TOP, "tools", "build", "which"), os.path.join(top, "tools", "build"))
    with open(os.path.join(top, "crates.txt"), "w", encoding="utf-8") as file:
        file.write("gittuf:\n")
    with open(program, "w", encoding="utf-8") as file:
        file.write(text)
    os.chmod(program, 0o755)
    check = os.path.join(top, SMALL_BUILT)
    os.makedirs(os.path.dirname(check))
    shutil.copy2(SMALL_PROGRAM, check)
    for suffix, line in (("files", "crates.txt"), ("sources", "sum=0")):
        with open(f"{program}.{suffix}", "w", encoding="utf-8") as file:
            file.write(f"{line}\n")
    ahead = time.time() + 60
    os.utime(file.name, (ahead, ahead))
    return os.path.join(top, "gittuf")


def passes_all_through(repositories):
    """the launcher passes words, standard input and status through unchanged"""
    text = "#!/bin/sh\nprintf '[%s]' \"$@\"\ncat\necho heard >&2\nexit 6\n"
    launcher = stand_in(repositories, "a copy", text)
    words = ("-", "", "two words", "*", "--help", "line\nline", "")
    told = "".join(f"[{it}]" for it in words).encode()
    want_run((launcher, *words), 6, told + b"a\0b\n", b"heard\n", input=b"a\0b\n")


def answers_alone(repositories):
    """--help and --version are answered with status 0 where nothing is built and nothing can be"""
    top = repositories.path("not built")
    os.mkdir(top)
    shutil.copy2(LAUNCHER, top)
    for launcher in (os.path.join(top, "gittuf"), LAUNCHER):
        status, output, errors = run(launcher, "--help")
        want((status, errors), (0, b""), "the status and errors of --help")
        for it in (b"usage: ", b"STORE", b"KEY", b"fault", b"memory", *COMMANDS):
            want(it in output, True, f"that --help speaks of {it.decode()}")
        want(max(map(len, output.splitlines())) <= 120, True, "that the lines of --help are short")
        status, output, errors = run(launcher, "--version")
        want((status, output[:13], output.count(b"\n"), errors), (0, b"gittuf 0.1.0;", 1, b""), "what --version answers")
        want(b"not built" in output, launcher != LAUNCHER, "that --version says whether the program is built")


def names_the_page(repositories):
    """where standard error is a terminal a line names --help after refused words and after a fault, and after nothing else"""
    status, output, told = on_terminal(LAUNCHER)
    want((status, output), (2, b""), "the status and output on a terminal")
    first, second = told.split(b"\n", 1)
    want((first, b"--help" in second, second.count(b"\n")), (b"words refused", True, 1), "the lines on a terminal")
    status, _, told = on_terminal(LAUNCHER, repositories.path("nothing there/store.db"), "-", "log")
    first, second = told.split(b"\n", 1)
    want((status, first, b"--help says what fault can be" in second), (4, b"fault", True), "the lines of a fault on a terminal")
    status, _, told = on_terminal(LAUNCHER, "-", "-", "import")
    want((status, told), (3, b"stream 5\n"), "the status and lines of a refused import on a terminal")


def copy_of_the_product(repositories, name):
    """A copy of the launcher, its tools, the program and its sources, in which nothing keeps its time."""
    top = repositories.path(name)
    with open(LIST, encoding="utf-8") as file:
        paths = file.read().splitlines()
    copied = {PROGRAM: BUILT, SMALL_PROGRAM: SMALL_BUILT, LIST: f"{BUILT}.files", SOURCES: f"{BUILT}.sources"}
    tools = [os.path.join("tools", "build", it) for it in os.listdir(os.path.join(TOP, "tools", "build"))]
    copied |= {os.path.join(TOP, it): it for it in ("gittuf", *tools, *paths)}
    # The program comes first, so that every source is newer.
    for path, to in copied.items():
        os.makedirs(os.path.dirname(os.path.join(top, to)), exist_ok=True)
        shutil.copy(path, os.path.join(top, to))
    return top, bare_environment(repositories, f"{name} tools")


def bare_environment(repositories, name, *more):
    """An environment whose PATH has what a system has, and no toolchain."""
    folder = repositories.path(name)
    os.mkdir(folder)
    for tool in (*SYSTEM, *more):
        os.symlink(shutil.which(tool), os.path.join(folder, tool))
    return {**{it: value for it, value in os.environ.items() if not it.startswith("GITTUF_")}, "PATH": folder}


def judged_in(top, environment):
    """What the launcher of a copy answers of the empty stream."""
    with open(EMPTY_STREAM, "rb") as file:
        empty = file.read()
    words = (os.path.join(top, "gittuf"), *VERIFY)
    ran = subprocess.run(words, input=empty, capture_output=True, env=environment, check=False)
    return ran.returncode, ran.stdout, ran.stderr


def runs_in_a_copy(repositories):
    """a copied folder with a built program runs without building, and one in which a source changed does not run"""
    top, environment = copy_of_the_product(repositories, "the product")

    def judge():
        return judged_in(top, environment)

    accepted = (0, ACCEPTED, b"")
    want(judge(), accepted, "what the copied program answers")
    source = os.path.join(top, "crates", "octets", "src", "lib.rt")
    with open(source, "rb") as file:
        text = file.read()
    times = os.stat(source).st_atime_ns, os.stat(source).st_mtime_ns
    for other in (text + b"\n", text.replace(b"a", b"b", 1), b""):
        with open(source, "wb") as file:
            file.write(other)
        # The time of its text is what it was.
        os.utime(source, ns=times)
        status, output, told = judge()
        want((status, output, b"rt is not on the PATH" in told), (4, b"", True), "what a changed source leads to")
        want(b"building the program" in told, False, f"whether a build is said to begin: {told}")
        with open(source, "wb") as file:
            file.write(text)
        want(judge(), accepted, "what the program answers once the text is as it was")
    os.rename(source, f"{source}.away")
    want(judge()[0], 4, "the status where a source is missing")
    os.rename(f"{source}.away", source)
    want(judge(), accepted, "what the program answers once the source is back")


def takes_what_was_proved(repositories):
    """programs that the gate has just built are taken, and none that is older or of other sources"""
    top, environment = copy_of_the_product(repositories, "the proved product")
    with open(os.path.join(environment["PATH"], "rt"), "w", encoding="utf-8") as file:
        file.write("#!/bin/sh\necho a kit\n")
    os.chmod(file.name, 0o755)
    build, *programs = [os.path.join(top, it) for it in ("tools/build/build-program", BUILT, SMALL_BUILT)]
    listed, sources, cpu = (os.path.join(top, f"{BUILT}.{it}") for it in ("files", "sources", "cpu"))

    def want_taken(is_taken, since=None, **more):
        for path in (listed, sources, cpu):
            if os.path.exists(path):
                os.remove(path)
        more.update({"GITTUF_PROVED_SINCE": str(since)} if since else {})
        told = subprocess.run((build, "--programs"), capture_output=True, env={**environment, **more}, check=False).stdout.decode().splitlines()
        want(f"program {programs[0]}" in told, is_taken, f"whether the next program to run is told to be this one with {more}")
        wanted = (0, ACCEPTED) if is_taken else (4, b"")
        want(judged_in(top, {**environment, **more})[:2], wanted, f"what is answered with {more}")
        want(os.path.exists(sources), is_taken, f"whether the sum of the sources is there with {more}")

    began = time.time()
    want_taken(False, began)
    for path in programs:
        os.utime(path, (began + 2, began + 2))
    want_taken(False)
    want_taken(False, began - 60)
    want_taken(False, began + 1, GITTUF_CPU="x86-64-v3")
    want_taken(False, began + 3)
    want_taken(True, began + 1)
    want(judged_in(top, environment), (0, ACCEPTED, b""), "what is answered of what was taken")
    for path in programs:
        os.utime(path, (began, began))
        want_taken(False, began + 1)
        os.utime(path, (began + 2, began + 2))
    os.remove(programs[1])
    want_taken(False, began + 1)


def builds_where_a_part_is_missing(repositories):
    """where the program, the small one, the list of the sources or their sum is missing the launcher has it built"""
    launcher = stand_in(repositories, "a copy in parts", "#!/bin/sh\necho ran\n")
    top = os.path.dirname(launcher)
    with open(os.path.join(top, "tools", "build", "build-program"), "w", encoding="utf-8") as file:
        file.write("#!/bin/sh\necho built \"$@\"\n")
    os.chmod(file.name, 0o755)
    want_run((launcher, "-"), 0, b"ran\n")
    for part in (BUILT, SMALL_BUILT, f"{BUILT}.files", f"{BUILT}.sources", "crates.txt"):
        path = os.path.join(top, part)
        os.rename(path, f"{path}.away")
        want_run((launcher, "-"), 0, b"built -\n")
        os.rename(f"{path}.away", path)
        want_run((launcher, "-"), 0, b"ran\n")


def tells_each_change(repositories):
    """the small program that the launcher asks tells to the nanosecond whether a listed file changed since"""
    folder = repositories.path("some files")
    os.mkdir(folder)
    one, stamp, listed = (os.path.join(folder, it) for it in ("one", "stamp", "list"))
    for path in (one, stamp):
        with open(path, "wb"):
            pass
    os.symlink("one", os.path.join(folder, "a link"))

    def want_status(status, *names, words=(folder, "list", "stamp")):
        with open(listed, "w", encoding="utf-8") as file:
            file.writelines(f"{it}\n" for it in names)
        want_run((SMALL_PROGRAM, *words), status)

    def set_stamp(more):
        then = os.stat(one).st_ctime_ns + more
        os.utime(stamp, ns=(then, then))

    for more, status in ((0, 0), (1, 0), (-1, 1), (10**9, 0), (-(10**9), 1)):
        set_stamp(more)
        want_status(status, "one")
    set_stamp(0)
    # The system's clock for files goes in steps.
    time.sleep(0.02)
    os.chmod(one, 0o600)
    want_status(1, "one")
    set_stamp(60 * 10**9)
    want_status(0, "one", one, "list", "stamp")
    for names in ((), ("",), ("one", ""), ("one", "two"), ("two", "one"), ("one", "."), ("one", "a link")):
        want_status(1, *names)
    for words in ((folder, "list", "two"), (folder, "two", "stamp"), (folder, "list", "."), (one, listed, stamp)):
        want_status(1, "one", words=words)
    for words in ((), (folder,), (folder, "list"), (folder, "list", "stamp", "")):
        want_status(2, "one", words=words)


def is_quick(repositories):
    """the launcher adds little to a run, in processor time"""
    taken = {LAUNCHER: [], PROGRAM: []}
    for _ in range(RUNS):
        for it, times in taken.items():
            start = processor_seconds()
            run(it, "-", "-", "verify-ref")
            times.append(1000 * (processor_seconds() - start))
    more = min(taken[LAUNCHER]) - min(taken[PROGRAM])
    if more > MOST_MS:
        raise Failure(f"it adds {more:.1f} ms, and {MOST_MS} are allowed")
    return f"{more:.1f} ms"


CHECKS = (
    refuses_words,
    works_from_elsewhere,
    passes_all_through,
    answers_alone,
    names_the_page,
    runs_in_a_copy,
    takes_what_was_proved,
    builds_where_a_part_is_missing,
    tells_each_change,
    is_quick,
)
