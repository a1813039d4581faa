"""What the measurements of tools/bench share: building a small program, and running programs for their figures."""

import os
import signal
import subprocess
import sys
import tempfile
import time

TOOLS = os.path.dirname(os.path.dirname(os.path.realpath(__file__)))
sys.path[1:1] = [os.path.join(TOOLS, it) for it in ("tests", "bridge", "build")]


def processor():
    """The processor that the program is built for on this machine."""
    ran = subprocess.run([os.path.join(TOOLS, "build", "cpu")], stdout=subprocess.PIPE, check=True)
    return ran.stdout.decode().strip()


# The gate builds the program for every processor of the kind, and what is measured is the one for this machine's.
os.environ.setdefault("GITTUF_CPU", processor())

import unproved
from checking import EMPTY_STREAM, LAUNCHER, VERIFY
from figures import Bounds, Failed

RUNS = 3
TIME = "/usr/bin/time"


class Figure:
    """What a run took: seconds by the clock, of the processor, and the most memory in bytes."""

    def __init__(self, clock, processor, memory):
        self.clock, self.processor, self.memory = clock, processor, memory

    def parts(self):
        return self.clock, self.processor, self.memory

    def __str__(self):
        return f"{self.processor:8.2f} s {self.clock:8.2f} s {self.memory / 2**20:8.1f} MiB"


class Case:
    """Words to run with a file at standard input, what is done before, the output that is wanted, or None, and the
    status that is. Where it runs apart, GNU time starts it, since the memory of a child of this tool is at least what
    this tool has."""

    def __init__(self, *words, wanted=None, source=os.devnull, before=None, status=0, apart=False):
        self.words, self.wanted, self.source, self.before, self.status = words, wanted, source, before, status
        self.apart = apart

    def measure(self):
        if self.before:
            self.before()
        output = subprocess.DEVNULL if self.wanted is None else None
        temporary = tempfile.NamedTemporaryFile
        with open(self.source, "rb") as given, temporary() as told, temporary() as memory:
            first = (TIME, "--quiet", "--format=%M", f"--output={memory.name}") if self.apart else ()
            start = time.perf_counter()
            try:
                process = subprocess.Popen([*first, *self.words], stdin=given, stdout=output or told)
            except FileNotFoundError as missing:
                raise Failed(f"{missing.filename} is not installed") from None
            # The usage of this one child, which no other call tells.
            _, status, used = os.wait4(process.pid, 0)
            clock = time.perf_counter() - start
            process.returncode = os.waitstatus_to_exitcode(status)
            told.seek(0)
            found = told.read()
            most = int(memory.read()) if self.apart else used.ru_maxrss
        if process.returncode != self.status or (self.wanted is not None and found != self.wanted):
            name = " ".join([os.path.basename(self.words[0]), *self.words[1:]])
            raise Failed(f"{name[:400]} ended with status {process.returncode} and printed {found[:200]!r}")
        return Figure(clock, used.ru_utime + used.ru_stime, most * 1024)


def measure(runs=RUNS, **cases):
    """The least of each figure over the rounds, in each of which all cases run, so that they share what else runs."""
    rounds = [{name: case.measure() for name, case in cases.items()} for _ in range(runs)]
    return [Figure(*(min(it[name].parts()[part] for it in rounds) for part in range(3))) for name in cases]


def most_memory(*words):
    """The most bytes that a program had resident."""
    return Case(*words, apart=True).measure().memory


def build_crate(name, cpu, *words):
    """Proves and builds a small program of unproved/ by running it on these words, and returns its path."""
    said = {"stdin": subprocess.DEVNULL, "stdout": subprocess.DEVNULL, "stderr": subprocess.PIPE}
    folder = unproved.crate_folder(name)
    ran = subprocess.run(["rt", "run", f"--cpu={cpu}", "--", *words], cwd=folder, **said)
    made = os.path.join(folder, "out", name)
    if ran.returncode or not os.access(made, os.X_OK):
        lines = ran.stderr.decode(errors="replace").strip().splitlines()
        raise Failed(f"unproved/{name} is not built: {lines[-1] if lines else 'rt said nothing'}")
    return made


def build_bench(work, cpu, *words):
    """Builds the program bench by a piece of its work on these words, and returns what such a run begins with."""
    return build_crate("bench", cpu, work, *words), work


def build_program():
    """Sees to the program of these sources for this machine's processor, and returns that processor: where none is built
    here it is the released one, whose bytes a build makes too, and where release/ has none of them one is built."""
    cpu = processor()
    # The launcher unpacks or builds it, and says on standard error that it builds.
    environment = {**os.environ, "GITTUF_CPU": cpu}
    with open(EMPTY_STREAM, "rb") as empty:
        subprocess.run([LAUNCHER, *VERIFY], stdin=empty, stdout=subprocess.DEVNULL, env=environment, check=True)
    return cpu


def signature_check(bench, width):
    """The seconds that the check of a signature of height 10 takes by bench lms, the least of three runs."""
    count = 2000 if width == 4 else 400
    words = [*bench, "verify", "10", str(width), str(count), "time"]
    runs = [subprocess.run(words, stdout=subprocess.PIPE, check=True).stdout.split()[1] for _ in range(RUNS)]
    return min(int(it) for it in runs) / count / 1e9


def where_it_runs(cpu):
    """A line on the machine, which a figure is read with."""
    return f"built for {cpu}; {os.cpu_count()} processors, on which {os.getloadavg()[0]:.1f} programs ran"


def row(name, figure, text=""):
    """A line of a table: what was run, its figure, and what is said of it."""
    print(f"{name:44}{figure.processor:9.3f} s {figure.clock:9.3f} s   {text}".rstrip(), flush=True)


def head():
    """The head of such a table."""
    print(f"{'':44}{'processor':>11} {'clock':>11}")


ENDING = """
Ratios are of processor time. It takes the released program where that is of these sources, and builds what is not there, for
the processor that tools/build/cpu prints; GITTUF_BUILD=1 has it build the program too. It makes its files in a temporary folder
below TMPDIR or /tmp, which goes.

Status 0: every bound is met. Status 1: one is not, or something failed. Status 2: the words are not as above.
"""


def run_tool(tool, usage, work):
    """Runs a measurement on the words of the tool, `--small` or none, and returns the status. What does the work gets a
    temporary folder, the processor that is built for, whether little is to be measured, and the bounds."""
    words = sys.argv[1:]
    if words in (["--help"], ["-h"]):
        print(usage.strip() + "\n" + ENDING.rstrip())
        return 0
    if words not in ([], ["--small"]):
        print(f"{tool}: takes --small or no word; --help says more", file=sys.stderr)
        return 2

    def stop(*_):
        raise Failed("stopped")

    signal.signal(signal.SIGTERM, stop)
    # Nothing of a repository that this may run in, or of who runs it, changes what git does here.
    for name in [it for it in os.environ if it.startswith("GIT_")]:
        del os.environ[name]
    os.environ.update(GIT_CONFIG_GLOBAL=os.devnull, GIT_CONFIG_NOSYSTEM="1")
    bounds = Bounds()
    try:
        cpu = build_program()
        print(where_it_runs(cpu), flush=True)
        with tempfile.TemporaryDirectory(prefix="gittuf-bench-") as folder:
            work(folder, cpu, bool(words), bounds)
    except (Failed, OSError, subprocess.CalledProcessError) as why:
        print(f"{tool}: {why}", file=sys.stderr)
        return 1
    return 0 if bounds.met else 1
