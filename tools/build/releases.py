"""What release/ holds: the packages, what is said of them, and that the programs are those that were proved."""

import hashlib
import os
import tempfile

import packages
from stream_format import Refused

SMALL = "source_check"
PROGRAMS = (SMALL, f"gittuf-{packages.PLAIN}", f"gittuf-{packages.NEWER}", packages.INSPECT, packages.NEWER_INSPECT)


def sum_of(body):
    return hashlib.sha256(body).hexdigest()


def files_of(programs, number, commit, told):
    """The files of release/ by their names, of programs by theirs. What is told names the kit and the sum of the sources."""
    made = packages.packages_of(programs, number, commit, told["kit"])
    says = {"version": number, "commit": commit, "sources": told["sources"], "kit": told["kit"]}
    says |= {name: sum_of(body) for name, body in programs.items()}
    made["RELEASE"] = "".join(f"{word} {value}\n" for word, value in says.items()).encode()
    sums = "".join(f"{sum_of(body)}  {name}\n" for name, body in sorted(made.items()))
    return made | {"SHA256SUMS": sums.encode()}


def kept(folder=packages.RELEASE):
    """The files that stand there, by their names."""
    found = {}
    for name in os.listdir(folder) if os.path.isdir(folder) else ():
        with open(os.path.join(folder, name), "rb") as file:
            found[name] = file.read()
    return found


def hold_bytes(proved, released):
    """Holds released programs to those that were proved and built here, both by their names."""
    for name, body in proved.items():
        if body != released[name]:
            raise Refused(f"the released {name} is not the program that was proved and built here: tools/release makes it anew")


def hold_rows(proved, released, rows):
    """Holds what a released program prints on rows to what the program at a path prints. Returns how many runs there were."""
    import rows_of_programs

    with tempfile.TemporaryDirectory(prefix="gittuf-release-") as folder:
        path = os.path.join(folder, "gittuf")
        with open(path, "wb") as file:
            file.write(released)
        os.chmod(path, 0o755)
        count, differ = rows_of_programs.compare((path, proved), folder, rows)
    if differ:
        raise Refused(f"the released program prints otherwise than the one that was proved and built here: {', '.join(differ)}")
    return count
