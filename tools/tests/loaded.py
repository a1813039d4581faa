"""Calls of git gittuf and git-to-stream in tools/test that need no start of their own: children of a process that has loaded them."""

import contextlib
import marshal
import os
import selectors
import socket
import subprocess
import sys
import time

from checking import GIT_TO_STREAM, LONG, SECONDS, TOP, Failure, counted, programs, run, shared_folder

TOOL = os.path.join(TOP, "tools", "git-gittuf")
SERVER = os.path.join(os.path.dirname(os.path.realpath(__file__)), "loaded_tools.py")
PIECE = 1 << 16
# The environment names its socket, and so often one looks for it that was begun just now.
LOADED, TRIES = "GITTUF_TEST_LOADED", 1200


@contextlib.contextmanager
def tools_loaded():
    """While this lasts there is a process that has loaded them, for all topics but those of the longer run."""
    if os.environ.get(LONG):
        yield
        return
    os.environ[LOADED] = os.path.join(shared_folder(), "loaded")
    words = (os.path.realpath(sys.executable), "-S", SERVER, os.environ[LOADED], programs()[0], TOOL, GIT_TO_STREAM)
    # Its own output is nothing, and a pipe as that of each call is.
    with subprocess.Popen(words, stdin=subprocess.PIPE, stdout=subprocess.PIPE) as ran:
        try:
            yield
        finally:
            ran.stdin.close()


class Loaded:
    """A connection to that process, which is made at the first call."""

    calls, exec_path = None, None

    def connect(self):
        self.exec_path = run("git", "--exec-path")[1].decode().strip()
        self.calls = socket.socket(socket.AF_UNIX, socket.SOCK_SEQPACKET)
        self.calls.settimeout(SECONDS)
        for _ in range(TRIES):
            with contextlib.suppress(FileNotFoundError, ConnectionRefusedError):
                self.calls.connect(os.environ[LOADED])
                return
            time.sleep(0.05)
        raise Failure("nothing has git gittuf loaded")

    def environment(self, folder):
        """The environment that Git gives what it finds by a word."""
        path = f"{self.exec_path}:{os.environ['PATH']}"
        return {**os.environ, "GIT_EXEC_PATH": self.exec_path, "PATH": path, "PWD": folder}

    def call(self, path, words, folder):
        """The status, the output and the errors of a tool for these words in a folder, with nothing on standard input."""
        if not self.calls:
            self.connect()
        pipes = [os.pipe() for _ in range(3)]
        theirs = (pipes[0][0], pipes[1][1], pipes[2][1])
        environment = self.environment(folder) if path == TOOL else dict(os.environ)
        socket.send_fds(self.calls, [marshal.dumps((path, words, folder, environment))], theirs)
        for it in (*theirs, pipes[0][1]):
            os.close(it)
        try:
            output, errors = read_all(pipes[1][0], pipes[2][0])
        except Failure:
            # What it answers late is no answer to another call.
            self.calls = self.calls.close()
            raise
        status, used = marshal.loads(self.calls.recv(PIECE))
        counted.append(used)
        return status, output, errors


def read_all(*pipes):
    """All that comes out of pipes until each is at its end."""
    found, end = {it: [] for it in pipes}, time.monotonic() + SECONDS
    with selectors.DefaultSelector() as waiting:
        for it in pipes:
            waiting.register(it, selectors.EVENT_READ)
        while waiting.get_map():
            ready = waiting.select(max(end - time.monotonic(), 0))
            if not ready:
                raise Failure(f"a call did not end in {SECONDS} seconds")
            for it, _ in ready:
                piece = os.read(it.fd, PIECE)
                found[it.fd].append(piece)
                if not piece:
                    waiting.unregister(it.fd)
                    os.close(it.fd)
    return tuple(b"".join(found[it]) for it in pipes)


loaded = Loaded()


def git_gittuf(folder, *words):
    """What git gittuf answers in a folder: as one that is loaded, where there is one."""
    if LOADED in os.environ:
        return loaded.call(TOOL, words, folder)
    return run("git", "-C", folder, "gittuf", *words)


def stream_of(folder):
    """The stream of a repository, which git-to-stream is to give without a word."""
    status, stream, errors = loaded.call(GIT_TO_STREAM, (folder,), folder) if LOADED in os.environ else run(GIT_TO_STREAM, folder)
    if status or errors:
        raise Failure(f"git-to-stream ended with {status}: {errors}")
    return stream
