"""Files and folders of the store: which are the same still, which are to go, and which are to stand on the disk."""

import os
import subprocess


def remove_tree(path):
    """Removes a file, or a folder with all that is in it, where it is there."""
    if os.path.lexists(path):
        # It takes long to load.
        import shutil

        if os.path.isdir(path) and not os.path.islink(path):
            shutil.rmtree(path, ignore_errors=True)
        else:
            os.remove(path)


def sync(folder):
    """Waits until all of a file system stands on the disk."""
    if subprocess.run(("sync", "-f", folder), capture_output=True).returncode:
        os.sync()


def write_out(path):
    file = os.open(path, os.O_RDONLY)
    try:
        os.fsync(file)
    finally:
        os.close(file)


def row_of(path):
    """A file by what tells whether it is still the same one, or that there is none."""
    try:
        return row(path, os.stat(path))
    except OSError:
        return f"{path} none"


def rows_in(folder, known=()):
    """The same of each file of a folder that is not known, by its name there, and all names."""
    found, names = {}, []
    with os.scandir(folder) as files:
        for it in files:
            names.append(it.name)
            if it.name not in known:
                found[it.name] = row(it.name, it.stat(follow_symlinks=False))
    return found, names


def row(name, it):
    return f"{name} {it.st_size} {it.st_mtime_ns} {it.st_ctime_ns} {it.st_ino}"
