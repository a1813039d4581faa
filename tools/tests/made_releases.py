"""Checkouts with a release, for tools/test: of the program that is here, or of stand-ins."""

import os
import re
import shutil
import subprocess
import sys

from checking import INSPECT, PROGRAM, SMALL_PROGRAM, TOP, run, want

sys.path.insert(1, os.path.join(TOP, "tools", "build"))

import packages
import releases

VERSION = packages.version()
ARCHIVE = packages.archive_name(VERSION)
RELEASED = "crates/gittuf/out/released"
KIT = "a kit that is none"
# What no launcher and no build reads, and half of a checkout is.
OF_PROOFS = re.compile("crates/[^/]+/(proofs|must-fail)/")


def paths_of_the_checkout():
    """What a clone would have once all that is here was committed, but for the release."""
    told = run("git", "-C", TOP, "ls-files", "-z", "--cached", "--others", "--exclude-standard")[1].decode().split("\0")
    return [it for it in told if it and not it.startswith("release/") and os.path.lexists(os.path.join(TOP, it))]


def programs_here():
    """The program that is here, under the name of each processor, the small one, and gittuf-inspect or what stands for it."""
    small, program = map(packages.stripped_file, (SMALL_PROGRAM, PROGRAM))
    inspect = packages.stripped_file(INSPECT) if os.path.exists(INSPECT) else b"#!/bin/sh\nexit 4\n"
    return dict(zip(releases.PROGRAMS, (small, program, program, inspect, inspect)))


def stand_ins(text="$1"):
    """Scripts that print their processor and a text, and the small program that is here."""
    found = programs_here()
    for name in releases.PROGRAMS[1:]:
        found[name] = f"#!/bin/sh\necho {name} \"{text}\"\n".encode()
    return found


def own_processor(environment):
    """The name of the processor here, as the launcher tells it."""
    return subprocess.run((os.path.join(TOP, "tools/build/cpu"),), capture_output=True, env=environment).stdout.decode().strip()


class Checkout:
    """A fresh checkout of what is here, in a folder of its own, with a release of these programs.

    Without programs it is whole, and the release is the one that is kept, or one of the programs here where that is of others.
    """

    def __init__(self, repositories, name, programs=None):
        self.top = repositories.path(name)
        paths = [it for it in paths_of_the_checkout() if not (programs and OF_PROOFS.match(it))]
        for folder in {os.path.dirname(it) for it in paths}:
            os.makedirs(os.path.join(self.top, folder), exist_ok=True)
        for path in paths:
            shutil.copy2(os.path.join(TOP, path), os.path.join(self.top, path), follow_symlinks=False)
        self.commit, self.says = packages.asked("rev-parse", "HEAD"), {"kit": KIT, "sources": self.told()["sources"]}
        kept = releases.kept()
        if programs or not kept or packages.released()["sources"] != self.says["sources"]:
            self.release(programs or programs_here())
        else:
            self.put_release(kept)

    def put_release(self, files):
        shutil.rmtree(self.path("release"), ignore_errors=True)
        os.mkdir(self.path("release"))
        self.files = files
        packages.write(self.path("release"), files)

    def release(self, programs):
        """Gives it a release of these programs, in place of any other."""
        self.put_release(releases.files_of(programs, VERSION, self.commit, self.says))

    def path(self, *names):
        return os.path.join(self.top, *names)

    def told(self):
        told = run(self.path("tools/build/build-program"), "--programs")[1].decode()
        return dict(line.split(" ", 1) for line in told.splitlines())

    def call(self, *words, environment, input=b"", **how):
        """What the launcher answers: its status, output and errors."""
        ran = subprocess.run((self.path("gittuf"), *words), input=input, capture_output=True, env=environment, timeout=60, **how)
        return ran.returncode, ran.stdout, ran.stderr

    def forget(self):
        """Takes away what was unpacked."""
        shutil.rmtree(self.path("crates/gittuf/out"), ignore_errors=True)

    def change(self, path, text):
        with open(self.path(path), "wb") as file:
            file.write(text)

    def want_refused(self, name, environment):
        """Wants a refusal that names a file of the release."""
        self.forget()
        status, output, errors = self.call("-", environment=environment)
        want((status, output, errors.count(b"\n")), (4, b"", 1), f"what is answered where {name} is damaged, beside {errors!r}")
        want(f"gittuf: release/{name} is missing or damaged".encode() in errors, True, f"that {errors!r} names {name}")
