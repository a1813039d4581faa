"""Packages: the programs, git gittuf, the tools and their pages, as a package of Debian and as an archive."""

import gzip
import io
import lzma
import os
import re
import struct
import subprocess
import tarfile

from stream_format import Refused, git

TOP = os.path.dirname(os.path.dirname(os.path.dirname(os.path.realpath(__file__))))
LAUNCHER = os.path.join(TOP, "gittuf")
PROGRAM = os.path.join(TOP, "crates", "gittuf", "out", "gittuf")
SMALL_PROGRAM = os.path.join(TOP, "crates", "source_check", "out", "source_check")
RELEASE = os.path.join(TOP, "release")
PLAIN, NEWER = "x86-64-v2", "x86-64-v3"
# The names of the program gittuf-inspect in a package, which runs on each processor and is faster on a newer one, and what
# stands there beside it.
INSPECT = "gittuf-inspect"
NEWER_INSPECT = f"{INSPECT}-{NEWER}"
INSPECT_COMPLETION = {
    "share/bash-completion/completions/gittuf-inspect": "gittuf.bash",
    "share/zsh/vendor-completions/_gittuf-inspect": "_gittuf-inspect",
}
INSPECT_PAGE = "gittuf-inspect.1"
SMALLEST = 9 | lzma.PRESET_EXTREME
# The folder of the programs and of the launcher.
FRONT = "lib/gittuf"
TOOLS = ("git-gittuf", "git-to-stream", "stream-to-git")
LINKS = {"gittuf": "gittuf", **{it: f"tools/{it}" for it in TOOLS}}
COMPLETION = {
    "share/bash-completion/completions/gittuf": "gittuf.bash",
    "share/bash-completion/completions/git-gittuf": "gittuf.bash",
    "share/zsh/vendor-completions/_gittuf": "_gittuf",
    "share/zsh/vendor-completions/_git-gittuf": "_git-gittuf",
    "share/fish/vendor_completions.d/git-gittuf.fish": "git-gittuf.fish",
}
# A link of a page, and where it leads.
PAGE_LINK = re.compile(r"\[([^\]]*)\]\(([^)#\s]*)(?:#[^)]*)?\)")
# These are for whoever changes the product, and has it in a checkout.
NOT_PACKED = {"ARCHITECTURE.md", "CONTRIBUTING.md", "DECISIONS.md", "WRONG-BODIES.md"}
CONTROL = """Package: gittuf
Version: {version}
Architecture: amd64
Maintainer: Pearmallet maintainers <maintainers@users.noreply.pearmallet.example>
Depends: libc6 (>= {libc}), python3 (>= 3.9), git (>= 1:2.29)
Section: vcs
Priority: optional
Installed-Size: {size}
Description: guard the branches of a Git repository by signatures
 A policy in the repository says whose signatures a change of a branch or of a
 path needs, a signed log records each change, and everyone judges both in a
 clone of one's own. The checker is proved. {built}.
"""


def stripped(body):
    """A program (ELF, 64 bits) without what is not loaded when it runs: the names for debuggers, and the table of sections."""
    if not body.startswith(b"\x7fELF\2\1"):
        return body
    at, size, count = struct.unpack_from("<Q", body, 32) + struct.unpack_from("<HH", body, 54)
    headers = (struct.unpack_from("<8xQ16xQ", body, at + size * it) for it in range(count))
    return body[:40] + bytes(8) + body[48:60] + bytes(4) + body[64 : max(map(sum, headers))]


def stripped_file(path):
    with open(path, "rb") as file:
        return stripped(file.read())


def asked(*words):
    status, output, said = git("-C", TOP, *words)
    if status:
        raise Refused(f"a package names the commit that it is of, and git does not: {said}")
    return output.decode().strip()


def has_commit(commit):
    """Whether a commit is in this repository: one of a history that was given up is not."""
    return git("-C", TOP, "cat-file", "-e", f"{commit}^{{commit}}")[0] == 0


def text_of(*path):
    with open(os.path.join(TOP, *path), "rb") as file:
        return file.read()


def version():
    """The number of the version, which the launcher has."""
    return re.search(rb"^version=(\S+)$", text_of("gittuf"), re.MULTILINE)[1].decode()


def built():
    """What tools/build/build-program tells of the sources and of a program that is built here, by its words."""
    words = (os.path.join(TOP, "tools", "build", "build-program"), "--programs")
    told = subprocess.run(words, stdin=subprocess.DEVNULL, capture_output=True, check=True).stdout.decode()
    return dict(line.split(" ", 1) for line in told.splitlines())


def released():
    """What release/RELEASE says, by its words; nothing where there is none."""
    try:
        return dict(line.split(" ", 1) for line in text_of("release", "RELEASE").decode().splitlines())
    except FileNotFoundError:
        return {}


def archive_name(number):
    return f"gittuf-{number}.tar.xz"


def released_program(name):
    """A program from the archive of the release."""
    number = released()["version"]
    with tarfile.open(os.path.join(RELEASE, archive_name(number))) as archive:
        return archive.extractfile(f"gittuf-{number}/{FRONT}/{name}").read()


def files_of(programs, about):
    """The files by their paths below /usr, each with its bytes and mode, of programs by their names. What belongs to
    gittuf-inspect is there where that is."""
    has_inspect = INSPECT in programs
    found = {
        f"{FRONT}/gittuf": (text_of("gittuf"), 0o755),
        f"{FRONT}/version": (f"gittuf {about}\n".encode(), 0o644),
        f"{FRONT}/tools/build/which": (text_of("tools", "build", "which"), 0o644),
        "share/doc/gittuf/copyright": (text_of("LICENSE"), 0o644),
    }
    for name, body in programs.items():
        found[f"{FRONT}/{name}"] = (body, 0o755)
    for it in (*TOOLS, *([INSPECT] if has_inspect else [])):
        found[f"{FRONT}/tools/{it}"] = (text_of("tools", it), 0o755)
    for folder in ("bridge", "bridge/git_gittuf"):
        for it in sorted(os.listdir(os.path.join(TOP, "tools", folder))):
            if it.endswith(".py"):
                found[f"{FRONT}/tools/{folder}/{it}"] = (text_of("tools", folder, it), 0o644)
    for path, it in {**COMPLETION, **(INSPECT_COMPLETION if has_inspect else {})}.items():
        found[path] = (text_of("completion", it), 0o644)
    for it in sorted({*os.listdir(os.path.join(TOP, "man"))} - (set() if has_inspect else {INSPECT_PAGE})):
        found[f"share/man/man1/{it}.gz"] = (gzip.compress(text_of("man", it), mtime=0), 0o644)
    packed = {*os.listdir(os.path.join(TOP, "docs"))} - NOT_PACKED
    for it in sorted(packed):
        found[f"share/doc/gittuf/{it}"] = (page_among(packed, text_of("docs", it)), 0o644)
    return found


def page_among(packed, body):
    """A page whose links lead to pages that are packed, or outside; one to what a checkout alone has is its words."""
    leads = lambda link: ":" in link[2] or not link[2] or link[2] in packed
    return PAGE_LINK.sub(lambda link: link[0] if leads(link) else link[1], body.decode()).encode()


def archive(files, links, seconds, front):
    """A tar file of these files and links below a folder, with the folders above them."""
    made = io.BytesIO()
    with tarfile.open(fileobj=made, mode="w", format=tarfile.GNU_FORMAT) as tar:
        paths = {*files, *links}
        above = {os.path.dirname(it)[:end] for it in paths for end in ends_of(os.path.dirname(it))}
        for path in sorted({front.rstrip("/"), *(front + it for it in above)} - {""}):
            add(tar, path, seconds, tarfile.DIRTYPE, 0o755)
        for path in sorted(paths):
            if path in links:
                add(tar, front + path, seconds, tarfile.SYMTYPE, 0o777, link=links[path])
            else:
                add(tar, front + path, seconds, tarfile.REGTYPE, files[path][1], files[path][0])
    return made.getvalue()


def ends_of(folder):
    """Where each folder above a folder, and the folder itself, ends in its path."""
    return [it for it, sign in enumerate(folder) if sign == "/"] + [len(folder)] if folder else []


def add(tar, path, seconds, kind, mode, body=b"", link=""):
    it = tarfile.TarInfo(path)
    it.type, it.mode, it.mtime, it.size, it.linkname = kind, mode, seconds, len(body), link
    it.uname = it.gname = "root"
    tar.addfile(it, io.BytesIO(body))


def c_library(programs):
    """The version of the C library that programs want: each names those of which it uses something."""
    named = re.findall(rb"GLIBC_(\d+)\.(\d+)", b"".join(programs))
    return "{}.{}".format(*max(((int(it), int(more)) for it, more in named), default=(2, 17)))


def deb_of(number, says, files, links, seconds):
    """A package of Debian: an ar archive of the format's number, what it says of itself, and its files."""
    size = sum(len(body) for body, _ in files.values()) // 1024 + 1
    libc = c_library(body for path, (body, _) in files.items() if body.startswith(b"\x7fELF"))
    control = {"control": (CONTROL.format(version=number, size=size, libc=libc, built=says).encode(), 0o644)}
    members = {
        "debian-binary": b"2.0\n",
        "control.tar.xz": lzma.compress(archive(control, {}, seconds, "./")),
        "data.tar.xz": lzma.compress(archive(files, links, seconds, "./usr/"), preset=SMALLEST),
    }
    made = b"!<arch>\n"
    for name, body in members.items():
        made += b"%-16s%-12d%-6d%-6d%-8s%-10d`\n" % (name.encode(), seconds, 0, 0, b"100644", len(body))
        made += body + b"\n" * (len(body) % 2)
    return made


def packages_of(programs, number, commit, kit, changed=""):
    """The package and the archive by their names, of programs by theirs, which this kit built of a commit."""
    cpus = " and ".join(it.removeprefix("gittuf-") for it in sorted(programs) if it.startswith("gittuf-") and not it.startswith(INSPECT))
    says = f"built for {cpus} by {kit}"
    files = files_of(programs, f"{number}; commit {commit}{changed}, {says}")
    linked = {**LINKS, **({INSPECT: f"tools/{INSPECT}"} if INSPECT in programs else {})}
    links = {f"bin/{name}": f"../{FRONT}/{it}" for name, it in linked.items()}
    seconds = int(asked("log", "-1", "--format=%ct", commit))
    return {
        f"gittuf_{number}_amd64.deb": deb_of(number, says[0].upper() + says[1:], files, links, seconds),
        archive_name(number): lzma.compress(archive(files, links, seconds, f"gittuf-{number}/"), preset=SMALLEST),
    }


def write(folder, files):
    """Writes files by their names into a folder, each of them whole."""
    for name, body in files.items():
        path = os.path.join(folder, name)
        with open(f"{path}.new", "wb") as file:
            file.write(body)
        os.rename(f"{path}.new", path)
