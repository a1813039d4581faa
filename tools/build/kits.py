"""The module of the command rt, by which tools prove and build as the gate does."""

import importlib.machinery
import importlib.util
import inspect
import os
import shutil


def once(work):
    """A method that answers from memory. The kit follows each path between crates anew, and there are many."""
    found = {}

    def answer(crate):
        if crate.folder not in found:
            found[crate.folder] = work(crate)
        return found[crate.folder]

    return answer


def gate():
    """The module of the command rt."""
    path = shutil.which("rt")
    if not path:
        raise OSError("rt is not on the PATH")
    loader = importlib.machinery.SourceFileLoader("rt_gate", os.path.realpath(path))
    module = importlib.util.module_from_spec(importlib.util.spec_from_loader("rt_gate", loader))
    loader.exec_module(module)
    return module


def crates_of(rt, folder):
    """The crates of a folder, lowest first. A kit whose own call would set aside what earlier runs left is not asked for it."""
    if len(inspect.signature(rt.crates_of).parameters) == 1:
        return rt.crates_of(folder)
    rt.rtlib.Crate = rt.Crate
    return sorted(rt.rtlib.crates_below(folder), key=lambda it: len(it.below()))


def begin(rt, folder):
    """Has the module work as under `rt ci`, and returns the crates of a folder."""
    rt.rtlib.guarded()
    rt.Crate.cuts_libraries = True
    rt.Crate.allowed = rt.handles_of(folder)
    for crate in (rt.rtlib.Crate, rt.Crate):
        crate.below, crate.stamp = once(crate.below), once(crate.stamp)
    return crates_of(rt, folder)
