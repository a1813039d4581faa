"""The checks of tools/test on the release: that it runs at once, and never where another program is to run."""

import hashlib
import io
import os
import re
import stat
import subprocess
import sys
import tarfile
import time

from check_launcher import bare_environment
from checking import TOP, VERIFY, Failure, Skip, processor_seconds, want
from made_releases import ARCHIVE, KIT, RELEASED, Checkout, own_processor, packages, programs_here, releases, stand_ins
from rows_histories import BEFORE, MAIN, MAINTAINER, guarded
from rows_runs import Anew, Run
from stream_format import Refused

PLAIN, NEWER = packages.PLAIN, packages.NEWER
ACCEPTED = b"accepted refs/heads/main 4 entries\n"
NOBODY = 65534
# What the first start may take of the processor.
MOST_MS = 1000
# Each of two programs stands in the package and in the archive.
MOST_BYTES = 6_500_000


def runs_without_a_toolchain(repositories):
    """a fresh checkout with a release prints the example's verdict and passes tests, with git and Python alone"""
    repositories.needed()
    checkout = Checkout(repositories, "a fresh checkout")
    environment = bare_environment(repositories, "git and python", "git", "env", "sync", "sed")
    os.symlink(os.path.realpath(sys.executable), os.path.join(environment["PATH"], "python3"))
    with open(checkout.path("examples/guarded.stream"), "rb") as file:
        stream = file.read()
    began, used = time.perf_counter(), processor_seconds()
    want(checkout.call(*VERIFY, environment=environment, input=stream), (0, ACCEPTED, b""), "the first verdict")
    taken, used = (1000 * it for it in (time.perf_counter() - began, processor_seconds() - used))
    want(used <= MOST_MS, True, f"that {used:.0f} ms of the processor are at most {MOST_MS}")
    ran = subprocess.run((checkout.path("tools/test"), "levels"), capture_output=True, env=environment, timeout=300)
    closing = re.search(rb"^\d+ passed, 0 failed(, \d+ skipped)?\n\Z", ran.stdout, re.MULTILINE)
    want((ran.returncode, bool(closing)), (0, True), f"what tools/test answers, {ran.stdout[-300:]!r}")
    return f"the first verdict after {taken:.0f} ms, {used:.0f} of them by the processor"


def runs_the_one_for_the_processor(repositories):
    """the released program for the processor runs, or the one that GITTUF_CPU names, and the second start unpacks nothing"""
    checkout, environment = Checkout(repositories, "by processor", stand_ins()), bare_environment(repositories, "by processor tools")
    named = {None: own_processor(environment), PLAIN: PLAIN, NEWER: NEWER}
    for cpu, taken in named.items():
        words = {**environment, **({"GITTUF_CPU": cpu} if cpu else {})}
        for _ in range(2):
            want(checkout.call("hello", environment=words), (0, f"gittuf-{taken} hello\n".encode(), b""), f"the program for {cpu}")
        checkout.forget()
    want(checkout.call("hello", environment=environment)[0], 0, "the status of the first start")
    # In a package each start chooses too.
    place = repositories.path("by processor package")
    with tarfile.open(checkout.path("release", ARCHIVE)) as packed:
        packed.extractall(place)
    program = os.path.join(place, ARCHIVE.removesuffix(".tar.xz"), "bin", "gittuf")
    for cpu, taken in named.items():
        words = {**environment, **({"GITTUF_CPU": cpu} if cpu else {})}
        ran = subprocess.run((program, "hello"), capture_output=True, env=words)
        want((ran.stdout, ran.stderr), (f"gittuf-{taken} hello\n".encode(), b""), f"the packaged program for {cpu}")
    told = subprocess.run((program, "--version"), capture_output=True, env=environment).stdout.decode()
    want(told.startswith(f"gittuf {packages.version()}; commit ") and told.endswith(f"built for {PLAIN} and {NEWER} by {KIT}\n"), True, told)
    # What unpacks is gone.
    os.rename(checkout.path("release"), checkout.path("away"))
    os.rename(checkout.path("tools/build/build-program"), checkout.path("away.build"))
    for cpu, taken in named.items():
        words = {**environment, **({"GITTUF_CPU": cpu} if cpu else {})}
        want(checkout.call("again", environment=words), (0, f"gittuf-{taken} again\n".encode(), b""), f"the program for {cpu}")


def unpacks_at_once(repositories):
    """many first starts at once run the released program each"""
    checkout, environment = Checkout(repositories, "at once", stand_ins()), bare_environment(repositories, "at once tools")
    words, how = (checkout.path("gittuf"), "hello"), {"stdout": subprocess.PIPE, "stderr": subprocess.PIPE, "env": environment}
    started = [subprocess.Popen(words, **how) for _ in range(8)]
    wanted = f"gittuf-{own_processor(environment)} hello\n".encode()
    for it in started:
        want((*it.communicate(timeout=60), it.returncode), (wanted, b"", 0), "what one of them prints")
    want(sorted(os.listdir(checkout.path("crates/gittuf/out"))), ["released"], "what is left")


def refuses_a_damaged_one(repositories):
    """a release that is damaged by one byte, or lacks a file, is refused by name, and built where GITTUF_BUILD asks"""
    checkout, environment = Checkout(repositories, "damaged", stand_ins()), bare_environment(repositories, "damaged tools")
    body = checkout.files[ARCHIVE]
    for at in (0, 5, len(body) // 3, len(body) // 2, len(body) - 1):
        checkout.change(f"release/{ARCHIVE}", body[:at] + bytes((body[at] ^ 1,)) + body[at + 1 :])
        checkout.want_refused(ARCHIVE, environment)
    checkout.change(f"release/{ARCHIVE}", body[:-1])
    checkout.want_refused(ARCHIVE, environment)
    os.remove(checkout.path("release", ARCHIVE))
    checkout.want_refused(ARCHIVE, environment)
    checkout.change(f"release/{ARCHIVE}", body)
    says = checkout.files["RELEASE"]
    checkout.change("release/RELEASE", says.replace(b"kit a", b"kit b"))
    checkout.want_refused("RELEASE", environment)
    # Where a program is another than RELEASE tells, the sums of the files do not help.
    other = says.replace(releases.sum_of(stand_ins()[f"gittuf-{PLAIN}"]).encode(), b"0" * 64)
    checkout.change("release/RELEASE", other)
    sums = checkout.files["SHA256SUMS"].replace(releases.sum_of(says).encode(), releases.sum_of(other).encode())
    checkout.change("release/SHA256SUMS", sums)
    checkout.want_refused(ARCHIVE, environment)
    status, _, errors = checkout.call("-", environment={**environment, "GITTUF_BUILD": "1"})
    want((status, b"GITTUF_BUILD asks for it" in errors), (4, True), "what GITTUF_BUILD=1 does beside a damaged release")


# What the loader of a machine says whose C library is too old, with a status that is that of a violation.
TOO_OLD = b"#!/bin/sh\necho \"$0: libc.so.6: version 'GLIBC_2.99' not found\" >&2\nexit 1\n"


def tells_where_it_does_not_run(repositories):
    """released programs that do not run on a machine, for their C library or their loader, are told as that by status 4"""
    checkout, environment = Checkout(repositories, "elsewhere", {**stand_ins(), releases.SMALL: TOO_OLD}), bare_environment(repositories, "elsewhere tools")
    lacks_loader = {name: b"#!/nowhere/loader\n" for name in releases.PROGRAMS[1:]}
    ends = {b"GLIBC_2.99' not found; GITTUF_BUILD=1 builds one here\n": None, b" cannot be run here, and nothing was judged\n": {**stand_ins(), **lacks_loader}}
    for part, programs in ends.items():
        if programs:
            checkout.release(programs)
        for _ in range(2):
            status, output, errors = checkout.call("hello", environment=environment)
            want((status, output, errors.endswith(part)), (4, b"", True), f"what is answered where it does not run: {errors}")


def runs_where_nothing_can_be_written(repositories):
    """in a checkout that cannot be written the release runs from the user's cache or a temporary place, and says nothing"""
    checkout, environment = Checkout(repositories, "read only", stand_ins()), bare_environment(repositories, "read only tools")
    own = f"gittuf-{own_processor(environment)} hello\n".encode()
    places = {it: repositories.path(f"read only {it}") for it in ("cache", "temporary")}
    how = {}
    for path in places.values():
        os.mkdir(path)
    if os.geteuid() == 0:
        how = {"user": NOBODY, "group": NOBODY, "extra_groups": []}
        # The folder of the checks is passed through alone.
        os.chmod(repositories.folder, 0o711)
        for path in places.values():
            os.chown(path, NOBODY, NOBODY)
    else:
        for at, folders, _ in os.walk(checkout.top):
            os.chmod(at, 0o555)
    try:
        with_cache = {**environment, "XDG_CACHE_HOME": places["cache"], "TMPDIR": places["temporary"]}
        for _ in range(2):
            want(checkout.call("hello", environment=with_cache, **how), (0, own, b""), "what runs from the cache")
            want(os.listdir(places["temporary"]), [], "what is left in the temporary place")
        want(os.path.exists(os.path.join(places["cache"], "gittuf", checkout.top[1:], f"gittuf-{PLAIN}")), True, "that it stands in the cache")
        nowhere = {**with_cache, "XDG_CACHE_HOME": "/proc/nowhere"}
        want(checkout.call("hello", environment=nowhere, **how), (0, own, b""), "what runs from a temporary place")
        want(os.listdir(places["temporary"]), [], "what is left in the temporary place")
        want(os.path.exists(checkout.path(RELEASED)), False, "that nothing is unpacked into the checkout")
    finally:
        for at, folders, _ in os.walk(checkout.top):
            os.chmod(at, stat.S_IRWXU)


def compares_programs(repositories):
    """a program that is another byte for byte is found, and so is one that prints otherwise on a row"""
    programs = stand_ins()
    releases.hold_bytes(programs, dict(programs))
    one = programs[f"gittuf-{NEWER}"]
    want_refused(f"gittuf-{NEWER}", releases.hold_bytes, programs, {**programs, f"gittuf-{NEWER}": one[:-1]})
    history = guarded()
    history.record(MAIN, history.commit(BEFORE), MAINTAINER)
    runs = (Run(f"verify-ref {MAIN} --stdin"), Run("log"), Run("record refs/heads/main"), Run("export"), Anew(), Run("explain git:x --stdin"))
    rows = [("a_row", history, *runs), ("another", guarded(), Run("log --never"))]
    path, here = repositories.path("the program here"), programs_here()[f"gittuf-{PLAIN}"]
    with open(path, "wb") as file:
        file.write(here)
    os.chmod(path, 0o755)
    want(releases.hold_rows(path, here, rows), 4, "how many runs are compared")
    other = f'#!/bin/sh\n[ "$3" != explain ] || exit 7\nexec "{path}" "$@"\n'.encode()
    want_refused("a_row", releases.hold_rows, path, other, rows)


def want_refused(part, call, *words):
    try:
        call(*words)
    except Refused as why:
        want(part in str(why), True, f"that {str(why)!r} names {part}")
        return
    raise Failure(f"nothing is refused, and {part} is wanted")


def is_whole(repositories):
    """what release/ holds has the sums that it tells, its package has the files of its archive, and README the C library that it wants"""
    kept = releases.kept()
    if not kept:
        raise Skip("there is no release")
    sums = dict(reversed(line.split("  ")) for line in kept["SHA256SUMS"].decode().splitlines())
    want({it: hashlib.sha256(body).hexdigest() for it, body in kept.items() if it != "SHA256SUMS"}, sums, "the sums")
    told = packages.released()
    want(told["version"], packages.version(), "the version")
    archive = files_of_tar(kept[ARCHIVE], f"gittuf-{told['version']}/")
    for name in releases.PROGRAMS:
        want(hashlib.sha256(archive[f"lib/gittuf/{name}"]).hexdigest(), told[name], f"the sum of {name}")
    (deb,) = (it for it in kept if it.endswith(".deb"))
    want(files_of_tar(member_of(kept[deb], b"data.tar.xz"), "./usr/"), archive, "the files of the package")
    with open(os.path.join(TOP, "README.md"), encoding="utf-8") as file:
        told = set(re.findall(r"glibc ([0-9.]*[0-9])", file.read()))
    want(told, {packages.c_library(archive[f"lib/gittuf/{it}"] for it in releases.PROGRAMS)}, "the C library that README names")
    size = sum(map(len, kept.values()))
    want(size <= MOST_BYTES, True, f"that {size} bytes are at most {MOST_BYTES}")
    return f"{size} bytes"


def files_of_tar(body, front):
    with tarfile.open(fileobj=io.BytesIO(body)) as tar:
        return {it.name.removeprefix(front): tar.extractfile(it).read() for it in tar if it.isfile()}


def member_of(body, name):
    """A member of an ar archive."""
    at = 8
    while at < len(body):
        size = int(body[at + 48 : at + 58])
        if body[at : at + 16].strip() == name:
            return body[at + 60 : at + 60 + size]
        at += 60 + size + size % 2
    raise Failure(f"the package has no {name.decode()}")


CHECKS = (
    runs_without_a_toolchain,
    runs_the_one_for_the_processor,
    unpacks_at_once,
    refuses_a_damaged_one,
    tells_where_it_does_not_run,
    runs_where_nothing_can_be_written,
    compares_programs,
    is_whole,
)
