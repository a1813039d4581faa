"""What two programs print on the rows of tools/make-rows, one beside the other."""

import os
import shutil
import subprocess

from rows_runs import Anew, Run

# What these print is decided by what they read alone, and not by a clock or by what is drawn.
TOLD = ("import", "export", "log", "explain", "verify-ref", "seal", "demo")
SECONDS = 120


def pieces_of(row):
    """The runs of a row that a program can do by itself, in pieces that begin with an empty store. A run is words, standard
    input and a key file. A piece ends before a run that goes by a clock or draws, or whose objects fail or have no room."""
    _, history, *runs = row
    stream, pieces, key, source, goes_on = history.repository.stream(), [[]], b"", None, True
    for run in runs:
        if isinstance(run, Anew):
            pieces, key, source, goes_on = [*pieces, []], b"", None, True
        elif isinstance(run, Run):
            source, key = (source if run.source is None else run.source), (key if run.key is None else run.key)
            goes_on = goes_on and run.way == "run" and not run.over and run.words.split(" ")[0] in TOLD
            if goes_on:
                pieces[-1].append((run.words.split(" "), stream if source is None else source, key))
    return [it for it in pieces if it]


def answers(program, folder, piece):
    """What a program answers to each run."""
    store, key = os.path.join(folder, "store"), os.path.join(folder, "key")
    shutil.rmtree(store, ignore_errors=True)
    for words, given, key_file in piece:
        with open(key, "wb") as file:
            file.write(key_file)
        ran = subprocess.run((program, f"{store}/", key, *words), input=given, capture_output=True, timeout=SECONDS)
        yield ran.returncode, ran.stdout, ran.stderr


def compare(programs, folder, rows):
    """Runs rows, which are a name, a history and runs, by both programs. Returns how many runs there were, and the names of
    the rows in which the programs answered otherwise."""
    count, differ = 0, []
    for row in rows:
        for piece in pieces_of(row):
            one, other = (list(answers(it, folder, piece)) for it in programs)
            count += len(piece)
            if one != other:
                differ.append(row[0])
    return count, differ
