"""How much memory one rendering of `bench` takes at its peak."""
import array
import itertools
import os
import shutil
import subprocess

HERE = os.path.dirname(os.path.abspath(__file__))


def built_library(folder):
    """Builds in a folder what notes each call that takes or gives back memory."""
    library = os.path.join(folder, "heap.so")
    compiler = os.environ.get("CC") or shutil.which("cc") or "gcc"
    source = os.path.join(HERE, "heap.c")
    subprocess.run([compiler, "-O1", "-shared", "-fPIC", "-o", library, source], check=True)
    return library


def notes_of(library, command, path, folder):
    """By how many bytes each call of a run grew what is in use, or nothing where the run fails."""
    notes = os.path.join(folder, "notes")
    told = {"LD_PRELOAD": library, "HEAP_NOTES": notes}
    quiet = {"stdout": subprocess.DEVNULL, "stderr": subprocess.DEVNULL}
    with open(path, "rb") as given:
        ended = subprocess.run(command, stdin=given, env=told, check=False, **quiet)
    if ended.returncode != 0:
        return None
    grown = array.array("q")
    with open(notes, "rb") as file:
        grown.frombytes(file.read())
    return grown


def first_difference(one, other):
    """Where two lists of numbers part."""
    pairs = zip(one, other)
    return next((i for i, (a, b) in enumerate(pairs) if a != b), min(len(one), len(other)))


def peak_of(none, one):
    """The most bytes in use, above those before, from the first call of a run with one rendering
    that the run without a rendering doesn't make."""
    from_here = first_difference(none, one)
    return max(itertools.accumulate(one[from_here:], initial=0))


def calls_of(none, one):
    """How often one rendering takes memory or grows a block."""
    return sum(it > 0 for it in one) - sum(it > 0 for it in none)
