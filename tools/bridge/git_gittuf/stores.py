"""In what the store of a clone is kept, a folder or a database, and how it goes from the one into the other.

A database that is there is the store, and a folder is where there is none. So a move is at each moment done or not: what
is made beside gets its name at once, and of two the one is left over from a move that was stopped.
"""

import os

from git_gittuf import program
from git_gittuf.kept import Kept
from git_gittuf.repository import Stopped

def found(folder):
    """The store that is there, or the folder that is to be made."""
    if not os.path.exists(os.path.join(folder, "kept.db")):
        return Kept(folder)
    return database(folder)


def database(folder):
    # Few clones have one.
    from git_gittuf.kept_database import Database

    return Database(folder)


def move(work, kind):
    """Moves the store into a folder or a database, with all that it has; returns whether it was another."""
    with work.alone():
        old = work.kept
        if old.KIND == kind:
            return False
        new = Kept(old.beside) if kind == Kept.KIND else database(old.beside)
        failed = program.piped((old.for_program(), "-", "export"), (new.new_place(), "-", "import"))
        if failed:
            raise Stopped(f"the store is not moved, as {failed}: git gittuf setup --anew makes it again")
        new.take_place()
        old.leave()
        work.look_at_store()
    return True
