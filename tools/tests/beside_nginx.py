"""nginx for a check and a measurement: on this machine alone, with all its files in a folder."""

import contextlib
import os
import pwd
import shutil
import subprocess
import time

CONFIGURATION = """daemon off;
user {user};
worker_processes {workers};
pid {folder}/pid;
error_log {folder}/errors;
events {{ worker_connections 512; }}
http {{
    access_log off;
    keepalive_timeout 0;
    {temporary}
    {servers}
}}
"""
TEMPORARY = ("client_body", "proxy", "fastcgi", "uwsgi", "scgi")
TRIES = 1000


def nginx_program():
    """The path of nginx, which may stand where a user's PATH does not look, or nothing."""
    return shutil.which("nginx", path=os.pathsep.join((os.environ["PATH"], "/usr/sbin", "/sbin")))


@contextlib.contextmanager
def nginx(folder, servers, workers):
    """nginx with these servers, by the processes of its workers, once they are there: its ports are open by then."""
    temporary = " ".join(f"{it}_temp_path {folder}/{it};" for it in TEMPORARY)
    user, path = pwd.getpwuid(os.getuid()).pw_name, os.path.join(folder, "nginx.conf")
    with open(path, "w", encoding="utf-8") as file:
        file.write(CONFIGURATION.format(user=user, workers=workers, folder=folder, temporary=temporary, servers=servers))
    with subprocess.Popen((nginx_program(), "-c", path), stdout=subprocess.DEVNULL, stderr=subprocess.DEVNULL) as ran:
        try:
            yield workers_of(ran, workers, folder)
        finally:
            ran.terminate()


def workers_of(master, count, folder):
    for _ in range(TRIES):
        if master.poll() is not None:
            break
        with open(f"/proc/{master.pid}/task/{master.pid}/children", encoding="ascii") as file:
            if len(found := file.read().split()) == count:
                return found
        time.sleep(0.01)
    with open(os.path.join(folder, "errors"), encoding="utf-8") as file:
        raise OSError(f"nginx does not start: {file.read()[-400:]}")
