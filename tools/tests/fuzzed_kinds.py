"""More of what fuzzing makes mutants of: dossiers, databases, what is offered to a mirror, and what is sent to a gate."""

import shutil
import subprocess

from check_requests import told
from check_serving import entry_more, exported, free_port, objects_in, push_text, wait_for_listener
from checking import PROGRAM, Failure, run
from desk_clients import post
from drawn_requests import drawn_request, made_pushes
from made_mutants import body_of, bytes_of, stream_of
from made_twins import made_twins
from rows_histories import MAIN, POLICY
from rows_objects import object_id
from stand_in_desk import PARENT

# What a gate may reply to that, of all that it replies.
CODES = (200, 201, 400, 403, 404, 405, 409, 411, 413, 422)


class Goods:
    """What these mutants are made of: a dossier, a database, an offer that a mirror takes, and a push that a gate refuses."""

    def __init__(self, path, store, key):
        self.path = path
        shutil.copytree(store, path("twins"))
        self.dossier = run(PROGRAM, f"{path('twins')}/", "-", *made_twins(path, path("twins")))[1]
        self.stream = exported(f"{store}/")
        push, _, self.entry, self.offer = entry_more(self, "more/", self.stream, shutil.copy(key, path("more.key")))
        objects = objects_in(self.stream)
        self.new = {id: it for id, it in objects_in(self.offer).items() if id not in objects}
        log = [PARENT.search(self.new[self.entry][1])[1]]
        while parent := PARENT.search(objects[log[0]][1]):
            log.insert(0, parent[1])
        self.pushes = [push, push, *made_pushes(objects, log)]
        run(PROGRAM, path("good.db"), "-", "import", input=self.stream)
        with open(path("good.db"), "rb") as file:
            self.database = file.read()

    def put(self, name, text):
        with open(self.path(name), "wb") as file:
            file.write(text)
        return self.path(name)

    def store(self, name):
        """A new copy of the store in a folder."""
        shutil.rmtree(self.path(name), ignore_errors=True)
        shutil.copytree(self.path("more"), self.path(name))
        return f"{self.path(name)}/"


class Gate:
    """A gate over a store, which is opened anew where it ended."""

    def __init__(self, goods):
        self.goods, self.ran, self.port = goods, None, 0

    def opened(self):
        if self.ran is None:
            self.port = free_port()
            words = (PROGRAM, self.goods.path("good.db"), "-", "serve", str(self.port), "2", "1000000", "--gate")
            self.ran = subprocess.Popen(words, stdout=subprocess.PIPE, stderr=subprocess.PIPE)
            if not self.ran.stdout.readline():
                raise Failure(f"no gate was opened: {self.ran.stderr.read()}")
            wait_for_listener(self.port, self.ran)
        return self.port

    def ends(self):
        """Ends it, and tells how it had ended by itself."""
        if self.ran is None:
            return "there was none"
        ended, self.ran = self.ran, None
        status = ended.poll()
        ended.kill()
        _, errors = ended.communicate()
        return f"it went on: {errors!r}" if status is None else f"it ended with {status}: {errors!r}"


def dossiers(fuzz):
    """What evidence-check takes."""
    fuzz.held(("-", "-", "evidence-check"), bytes_of(fuzz.drawn, fuzz.goods.dossier), (0, 1, 3))


def databases(fuzz):
    """A database of which bytes are others, read and changed."""
    place = fuzz.goods.put("mutant.db", bytes_of(fuzz.drawn, fuzz.goods.database))
    fuzz.put_key(fuzz.key_text)
    words = fuzz.drawn.choice((*fuzz.reading, ("record", MAIN), ("snapshot", MAIN), ("import",), ("verify-global", MAIN)))
    fuzz.held((place, fuzz.key, *words), b"", (0, 1, 3, 4), words[0] == "verify-ref")


def offers(fuzz):
    """What is offered to a mirror, after which its log still stands."""
    store, way = fuzz.goods.store("mirror"), bytes_of if fuzz.drawn.random() < 0.3 else stream_of
    fuzz.held((store, "-", "mirror"), way(fuzz.drawn, fuzz.goods.offer), (0, 1, 3))
    fuzz.held((store, "-", "verify-ref", fuzz.drawn.choice((MAIN, POLICY))), b"", (0, 1), True)


def pushed(fuzz):
    """A push of which an object is another, under its own id."""
    objects, entry = dict(fuzz.goods.new), fuzz.goods.entry
    id = fuzz.drawn.choice(sorted(objects))
    kind, body = objects.pop(id)
    body = body_of(fuzz.drawn, kind, body)
    other = object_id(kind, body).encode()
    objects[other] = (kind, body)
    return push_text(objects, other if id == entry else entry)


def requests(fuzz):
    """What is sent to a gate: pushes by bytes and by structure, and requests of each kind."""
    port, way = fuzz.gate.opened(), fuzz.drawn.random()
    if way < 0.4:
        text = post(pushed(fuzz))
    elif way < 0.6:
        text = post(bytes_of(fuzz.drawn, fuzz.drawn.choice(fuzz.goods.pushes)))
    else:
        text = drawn_request(fuzz.drawn, fuzz.goods.pushes)
    try:
        reply = told(port, text)
    except OSError as why:
        reply = str(why), b""
    if reply is not None and reply[0] not in CODES:
        fuzz.found(("serve",), text, f"a gate replied {reply!r}, and {fuzz.gate.ends()}")


KINDS = (dossiers, databases, offers, requests, requests)
