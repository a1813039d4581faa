#!/usr/bin/env python3
"""Runs git gittuf and git-to-stream for tools/test: each call in a child of a process that has loaded them and did nothing else.

Most of what such a call takes of the processor is Python's start and the loading of modules, which is the same each time.
A child has the words, the folder, the environment and the pipes that a call by Git has, and calls the program by its path.

Each topic has a connection to the socket that this makes, over which calls go one after the other, and back the status of
each with the seconds of the processor that it took. Where standard input comes to its end, this ends.
"""

import gc
import importlib
import marshal
import os
import select
import signal
import socket
import sys

# So many bytes has the longest call: its words, folder and environment.
LONGEST = 1 << 17


def load(program, paths):
    """The texts of the tools, compiled, by their paths, once each module that they may want is there."""
    sys.dont_write_bytecode = not sys.pycache_prefix
    bridge = os.path.join(os.path.dirname(os.path.realpath(paths[0])), "bridge")
    sys.path.insert(1, bridge)
    for name in ("git_repositories", *(f"git_gittuf.{it}" for it in sorted(os.listdir(os.path.join(bridge, "git_gittuf"))))):
        if "__" not in name:
            importlib.import_module(name.removesuffix(".py"))
    # The launcher looks at the sources each time, which do not change in a run.
    sys.modules["git_gittuf.program"].CALLED = program
    tools = {}
    for it in paths:
        with open(it, encoding="utf-8") as file:
            tools[it] = compile(file.read(), it, "exec")
    return tools


def become(path, tool, words, folder, environment):
    """Does what the tool does where it is begun anew, and ends."""
    try:
        os.chdir(folder)
        os.environ.clear()
        os.environ.update(environment)
        sys.argv[:] = [path, *words]
        sys.path[0] = os.path.dirname(os.path.realpath(path))
        status = 0
        exec(tool, {"__name__": "__main__", "__file__": path})
    except SystemExit as end:
        status = end.code or 0
    except BaseException:
        status = 1
        sys.excepthook(*sys.exc_info())
    if isinstance(status, str):
        print(status, file=sys.stderr)
        status = 1
    try:
        sys.stdout.flush()
    finally:
        os._exit(status)


def serve(calls, tools):
    """Does the calls of one topic."""
    while True:
        call, pipes, _, _ = socket.recv_fds(calls, LONGEST, 3)
        if not call:
            return
        path, words, folder, environment = marshal.loads(call)
        child = os.fork()
        if not child:
            calls.close()
            for at, it in enumerate(pipes):
                os.dup2(it, at)
                os.close(it)
            become(path, tools[path], words, folder, environment)
        for it in pipes:
            os.close(it)
        _, status, used = os.wait4(child, 0)
        calls.send(marshal.dumps((os.waitstatus_to_exitcode(status), used.ru_utime + used.ru_stime)))


def main():
    place, program, *paths = sys.argv[1:]
    tools = load(program, paths)
    gc.collect()
    gc.freeze()
    listener = socket.socket(socket.AF_UNIX, socket.SOCK_SEQPACKET)
    listener.bind(place)
    listener.listen()
    # Nobody waits for the processes of the topics, and each of these for its own.
    signal.signal(signal.SIGCHLD, signal.SIG_IGN)
    while True:
        if 0 in select.select([0, listener], [], [])[0]:
            return
        calls, _ = listener.accept()
        if not os.fork():
            signal.signal(signal.SIGCHLD, signal.SIG_DFL)
            listener.close()
            serve(calls, tools)
            os._exit(0)
        calls.close()


if __name__ == "__main__":
    main()
