"""The checks of tools/test on building beside a release: when the launcher builds, what it says, and what it keeps."""

import os
import shutil

from check_launcher import BUILT, SMALL_BUILT, bare_environment
from checking import want
from made_releases import Checkout, own_processor, packages, stand_ins

PLAIN, NEWER = packages.PLAIN, packages.NEWER
OCTETS = "crates/octets/src/lib.rt"
# A stand-in for the toolchain, which notes how it was called. What it builds prints for which processor it was built.
TOOLCHAIN = """#!/bin/sh
[ "$1" = version ] && echo a kit && exit
echo "${PWD##*/} $*" >> "$NOTES"
[ -z "${REFUSES-}" ] || exit 1
case $1 in
    all) printf '== %s\\n' octets text_reader gittuf summary ;;
    run)
        mkdir -p out
        printf '#!/bin/sh\\n[ "$1" = "%s" ] || echo built by "%s"\\n' "${PWD%/crates/*}" "$2" > "out/${PWD##*/}"
        chmod +x "out/${PWD##*/}"
        ;;
esac
"""


def with_toolchain(repositories, name):
    """A bare environment with the stand-in, and what reads its notes and begins them anew."""
    environment = bare_environment(repositories, name, "flock", "chmod")
    notes, tool = repositories.path(f"{name} notes"), os.path.join(environment["PATH"], "rt")
    with open(tool, "w", encoding="utf-8") as file:
        file.write(TOOLCHAIN)
    os.chmod(tool, 0o755)

    def noted():
        found = []
        if os.path.exists(notes):
            with open(notes, encoding="utf-8") as file:
                found = file.read().splitlines()
            os.remove(notes)
        return found

    return {**environment, "NOTES": notes}, noted


def builds_what_is_of_other_sources(repositories):
    """where a source changed, or GITTUF_BUILD asks, the program is built, and the first line says why and for how long"""
    checkout = Checkout(repositories, "other sources", stand_ins())
    environment, noted = with_toolchain(repositories, "other sources tools")
    text = {}
    for path in (OCTETS, "HANDLES", "crates.txt"):
        with open(checkout.path(path), "rb") as file:
            text[path] = file.read()
    changed = {OCTETS: text[OCTETS] + b"\n", "HANDLES": b"Handles allowed: none.\n", "crates.txt": text["crates.txt"].replace(b"octets:", b"octets: hex", 1)}
    commit = packages.asked("rev-parse", "HEAD")[:12]
    others = f"the sources are others than those of commit {commit}, whose program release/ has".encode()

    def want_built(why, *lines, **more):
        status, output, errors = checkout.call("hello", environment={**environment, "REFUSES": "1", **more})
        first = errors.split(b"\n")[0]
        want((status, output, noted()), (4, b"", ["source_check check"]), "what the launcher does")
        want((why in first, b" min where nothing is proved yet" in first), (True, True), f"what {first!r} says")

    for path, body in changed.items():
        for unpacked in (False, True):
            checkout.forget()
            if unpacked:
                want(checkout.call("hello", environment=environment)[::2], (0, b""), "the start before the change")
            checkout.change(path, body)
            want_built(others)
            checkout.change(path, text[path])
            want(checkout.call("hello", environment=environment)[::2], (0, b""), "the start after it was taken back")
    want_built(b"GITTUF_BUILD asks for it", GITTUF_BUILD="1")
    want_built(b"release/ has none for x86-64-v4", GITTUF_CPU="x86-64-v4")
    # A document, a proof and a crate that the program does not stand on are no sources of it.
    for path in ("README.md", "crates/small_judge/src/lib.rt", "crates/octets/specs/Lib.antt"):
        with open(checkout.path(path), "ab") as file:
            file.write(b"\n")
    with open(checkout.path("crates.txt"), "ab") as file:
        file.write(b"\n# nothing\nanother_crate: octets\n")
    want(checkout.call("hello", environment=environment)[::2], (0, b""), "the start where no source changed")
    shutil.rmtree(checkout.path("release"))
    checkout.forget()
    want_built(b"there is no release/")


def keeps_what_is_built(repositories):
    """nothing is unpacked over a built program, one that is of the sources runs, and for another processor it is compiled alone"""
    checkout = Checkout(repositories, "built", stand_ins())
    environment, noted = with_toolchain(repositories, "built tools")
    status, output, errors = checkout.call("hello", environment={**environment, "GITTUF_BUILD": "1", "GITTUF_CPU": NEWER})
    want((status, output), (0, f"built by --cpu={NEWER}\n".encode()), f"what a built program prints, beside {errors!r}")
    lines = [it for it in errors.decode().splitlines() if " crates: " in it]
    want(len(lines), 3, f"how many lines say how far the build is in {errors!r}")
    for number, line in enumerate(lines, 1):
        want((f"gittuf: {number} of " in line, line.endswith(" min left")), (True, True), f"what {line!r} says")
    builds = [f"{it} run --cpu={NEWER}" for it in ("source_check", "gittuf")]
    called = noted()
    want((called[0], called[1].split(" --jobs")[0], called[2:]), ("source_check check", "gittuf all check", builds), "what was called")
    built = checkout.path(BUILT)
    with open(built, "rb") as file:
        body = file.read()
    want(checkout.call("hello", environment=environment), (0, output, b""), "what runs then")
    # A processor that the release has is taken from there, and the built program stays.
    want(checkout.call("hello", environment={**environment, "GITTUF_CPU": PLAIN})[:2], (0, f"gittuf-{PLAIN} hello\n".encode()), "the plain one")
    more = {"GITTUF_BUILD": "1", "GITTUF_CPU": PLAIN}
    with open(built, "rb") as file:
        want((file.read(), noted()), (body, []), "the built program, and what was called")
    status, output, errors = checkout.call("hello", environment={**environment, **more})
    want((status, output), (0, f"built by --cpu={PLAIN}\n".encode()), "what is built for another processor")
    want(noted(), [it.replace(NEWER, PLAIN) for it in builds], "what was called for it")
    # An older program stays where it is, and the released one runs.
    with open(f"{built}.sources", "w", encoding="utf-8") as file:
        file.write("sum=0\n")
    with open(checkout.path(SMALL_BUILT), "w", encoding="utf-8") as file:
        file.write("#!/bin/sh\nexit 1\n")
    own = f"gittuf-{own_processor(environment)} hello\n".encode()
    want(checkout.call("hello", environment=environment), (0, own, b""), "what runs beside an older program")
    want((os.path.exists(built), os.path.exists(checkout.path(SMALL_BUILT)), noted()), (True, True, []), "what is left of it")


CHECKS = (
    builds_what_is_of_other_sources,
    keeps_what_is_built,
)
