"""The checks of tools/test on docs/DESK.md: its lines do what it says, also those for systemd and nginx; and on what a person is told at a terminal."""

import base64
import http.client
import os
import re
import shutil
import socket
import threading
import time

from beside_nginx import nginx, nginx_program
from check_launcher import stand_in
from check_serving import TRIES, desk, entry_more, free_port, guarded, imported, line_of_log, made_key, opened, push, tip_of
from checking import LAUNCHER, TOP, Skip, on_terminal, run, want

PAGE = os.path.join(TOP, "docs", "DESK.md")
PORT, BACKUP = "8080", "Back it up, and move it"
OPENING = b"gittuf: opening the desk on this machine; Ctrl-C stops it\n"
# What stands in the page's lines for nginx, and is another here.
NAME, USERS, ENCRYPTED = "desk.example", "/etc/nginx/desk.users", re.compile(r" *ssl_certificate.*\n")


def page():
    with open(PAGE, encoding="utf-8") as file:
        return file.read()


def blocks(heading):
    """The blocks of lines below a heading of the page."""
    return page().partition(f"## {heading}\n")[2].partition("\n## ")[0].split("```\n")[1::2]


def does_what_it_says(repositories):
    """the lines of docs/DESK.md open a desk, ask it and bring it entries by curl, and print what the page says"""
    if not shutil.which("curl"):
        raise Skip("there is no curl")
    folder, port = repositories.path("by the page"), str(free_port())
    os.mkdir(folder)
    for path in (LAUNCHER, os.path.join(TOP, "examples")):
        os.symlink(path, os.path.join(folder, os.path.basename(path)))
    script = lambda text: run("bash", "-c", text.replace(PORT, port), folder=folder)
    first, second = blocks("Open one")[0].splitlines()
    want(script(first), (0, b"imported\n", b""), f"what `{first}` prints")
    said = b"accepted refs/heads/main 4 entries\n"
    pushes, printed = blocks("Bring it an entry")
    run_here = blocks("Ask it")[0] + pushes + blocks(BACKUP)[0]
    want(page().count("curl -"), run_here.count("curl -"), "how many lines with curl are run")
    with opened(second.replace(PORT, port).split(), int(port), folder):
        answers = (tip_of(int(port)), said, said, b"malformed 14\n")
        lines = blocks("Ask it")[0].splitlines()
        want(len(lines), len(answers), "how many lines ask")
        for line, answer in zip(lines, answers):
            want(script(line), (0, answer, b""), f"what `{line}` prints")
        want(script(pushes), (0, printed.encode(), b""), "what the lines print that bring entries")


def is_backed_up(repositories):
    """the lines of docs/DESK.md keep and move all that a desk has, which its database file alone does not, open or once it was killed"""
    if not shutil.which("curl"):
        raise Skip("there is no curl")
    folder = repositories.path("backed up")
    os.mkdir(folder)
    os.symlink(LAUNCHER, os.path.join(folder, os.path.basename(LAUNCHER)))
    place, alone = (os.path.join(folder, it) for it in ("desk.db", "alone.db"))
    imported(place, guarded())
    text, number, entry, after = entry_more(repositories, "backed up.db", guarded(), made_key(repositories, "backed up.key"))
    script = lambda line: run("bash", "-c", line, folder=folder)
    asked, stored, restored = blocks(BACKUP)[0].splitlines()
    kept = os.path.join(folder, "backup.stream")
    with desk(place) as (ran, port):
        want(push(port, text), (201, b"done %d %s\n" % (number, entry)), "the reply to a push")
        want(script(asked.replace(PORT, str(port))), (0, b"", b""), f"what `{asked}` prints")
        want(whole(kept), after, "what an open desk is backed up as")
        want(script(stored)[0], 4, "the status of the line for a store that no desk has open")
        shutil.copyfile(place, alone)
        ran.kill()
        ran.wait()
    want(line_of_log(alone)[0], number - 1, "how many entries a copy of the file alone has")
    want((script(stored), whole(kept)), ((0, b"", b""), after), "what a killed desk is backed up as")
    for it in ("copy.db", "copy/"):
        line = restored.replace("copy.db", it)
        want(script(line), (0, b"imported\n", b""), f"what `{line}` prints")
        want(line_of_log(os.path.join(folder, it)), (number, entry), f"the log of {it}")
    moved = stored.replace("desk.db", "copy/")
    want((script(moved), whole(kept)), ((0, b"", b""), after), "what a folder is moved as")


def whole(path):
    with open(path, "rb") as file:
        return file.read()


def is_a_unit(repositories):
    """systemd takes the unit of docs/DESK.md as it stands, whose program is there"""
    if not shutil.which("systemd-analyze"):
        raise Skip("there is no systemd-analyze")
    path = repositories.path("gittuf-desk.service")
    unit = blocks("Keep it open")[0]
    want(unit.count("\nExecStart=/usr/bin/gittuf "), 1, "how many programs of the package the unit starts")
    with open(path, "w", encoding="utf-8") as file:
        file.write(unit.replace("/usr/bin/gittuf", LAUNCHER))
    status, output, errors = run("systemd-analyze", "verify", path)
    found = [it for it in (output + errors).decode().splitlines() if "gittuf-desk.service" in it]
    want((status, found), (0, []), "what systemd says of the unit")


def code_of(port, method, path, body=None, **fields):
    """The code of the reply to a request with these fields."""
    connection = http.client.HTTPConnection("127.0.0.1", port, timeout=60)
    try:
        connection.request(method, path, body, {"Host": NAME, **fields})
        return connection.getresponse().status
    finally:
        connection.close()


def server_for(folder, port, behind):
    """The page's lines for nginx, without its certificate, at one port before another, with a user of its own."""
    users = os.path.join(folder, "users")
    with open(users, "w", encoding="utf-8") as file:
        file.write("somebody:{PLAIN}password\n")
    text = ENCRYPTED.sub("", blocks("What to put in front of it")[0])
    for name, wanted in (("443 ssl", f"127.0.0.1:{port}"), (USERS, users), (f"127.0.0.1:{PORT}", f"127.0.0.1:{behind}")):
        want(text.count(name), 1, f"how often {name} stands there")
        text = text.replace(name, wanted)
    return text


def is_kept_from_pages(repositories):
    """a desk takes what a page in a browser sends, and nginx by the lines of docs/DESK.md refuses that, other names, and whoever has no password"""
    if not nginx_program():
        raise Skip("there is no nginx")
    place, folder, port = repositories.path("behind.db"), repositories.path("nginx"), free_port()
    imported(place, guarded())
    os.mkdir(folder)
    text, number, entry, _ = entry_more(repositories, "before.db", guarded(), made_key(repositories, "behind.key"))
    known = {"Authorization": "Basic " + base64.b64encode(b"somebody:password").decode()}
    page = {"Origin": "http://other.example", "Content-Type": "text/plain"}
    with desk(place) as (_, behind), nginx(folder, server_for(folder, port, behind), 1):
        before = tip_of(behind)
        for fields, code in (({**known, **page}, 403), ({**known, "Origin": "null"}, 403), ({**known, "Host": "other.example"}, 403), ({}, 401)):
            want(code_of(port, "POST", "/v1/push", text, **fields), code, f"the code of a push with {fields}")
            want(code_of(port, "GET", "/v1/tip", **fields), code, f"the code of the tip with {fields}")
        want(tip_of(behind), before, "the tip behind nginx")
        want(code_of(port, "GET", "/v1/tip", **known), 200, "the code of the tip of somebody who is known")
        want(code_of(port, "POST", "/v1/push", text, **known), 201, "the code of the push of somebody who is known")
        want(tip_of(behind), b"tip %d %s\n" % (number, entry), "the tip then")
    imported(repositories.path("bare.db"), guarded())
    with desk(repositories.path("bare.db")) as (_, behind):
        want(code_of(behind, "POST", "/v1/push", text, **page), 201, "the code of a page's push to the desk itself")


def tells_a_person(repositories):
    """at a terminal a line says that a desk is opened, and where its port is another's, or root's, what is to be done; else no line does"""
    place = repositories.path("told.db")
    imported(place, guarded())
    ready, words = b"ready 9 entries\n", lambda port: (LAUNCHER, place, "-", "serve", str(port), "1", "1")
    with socket.create_server(("127.0.0.1", 0)) as listener:
        port = listener.getsockname()[1]
        taken = b"gittuf: something listens at port %d already: take another port, or see by ss -ltnp what it is\n" % port
        want(on_terminal(*words(port)), (4, ready, OPENING + b"fault\n" + taken), "what is told where the port is taken")
        want(run(*words(port)), (4, ready, b"fault\n"), "what is told of it where nobody looks")
    port = free_port()
    asking = threading.Thread(target=asks_once, args=(port,))
    asking.start()
    want(on_terminal(*words(port)), (0, ready, OPENING), "what is told of a desk that serves one connection")
    asking.join()
    # Somebody who is not root, and a program that ends as where the system refuses the port.
    launcher, user = stand_in(repositories, "kept", "#!/bin/sh\necho fault >&2\nexit 4\n"), repositories.path("a user")
    os.mkdir(user)
    with open(os.path.join(user, "id"), "w", encoding="utf-8") as file:
        file.write("#!/bin/sh\necho 1000\n")
    os.chmod(file.name, 0o755)
    with open("/proc/sys/net/ipv4/ip_unprivileged_port_start", encoding="ascii") as file:
        first = int(file.read())
    for port in (1, first):
        *_, told = on_terminal("env", f"PATH={user}:{os.environ['PATH']}", launcher, "-", "-", "serve", str(port), "1", "1")
        kept = b"gittuf: port %d is for root alone: take one from %d on\n" % (port, first)
        want(kept in told, port < first, f"whether port {port} is said to be root's, where {told} is told")


def asks_once(port):
    """Asks a desk for its tip, once one listens."""
    for _ in range(TRIES):
        try:
            return tip_of(port)
        except OSError:
            time.sleep(0.01)
    return None


CHECKS = (does_what_it_says, is_backed_up, is_a_unit, is_kept_from_pages, tells_a_person)
