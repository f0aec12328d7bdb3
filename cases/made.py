#!/usr/bin/env python3
"""made.py: makes the case files that a script of makers/ prints, each as its checksum in made.sha256 says.

    cases/made.py NAME ..    makes these, else all, and compares each with its checksum
    cases/made.py --write    writes the checksums anew, after a rule has changed

A file is in made/, which git ignores, and stays there until a script of makers/ or models/ changes. The last line is
'N passed, M failed', a file each, and the exit status is 0 only if nothing failed.
"""
import fcntl
import glob
import hashlib
import os
import re
import subprocess
import sys

HERE = os.path.dirname(os.path.abspath(__file__))
MADE, SUMS = os.path.join(HERE, "made"), os.path.join(HERE, "made.sha256")
FOLDERS = ("makers", "models", "runners")
IMPORT = re.compile(r"(?m)^(?:from|import) (\w+)")
# the files, each with the script that prints it; the first part of a name is the program that they are for
MAKERS = {
    "job-applied": "fix_cases",
    "job-brief": "brief_cases",
    "job-cut": "cut_cases",
    "job-deep": "deep_cases",
    "job-fix-brief": "fix_brief",
    "job-fix-pictures": "fix_pictures",
    "job-folded": "fold_cases",
    "job-github": "github_model",
    "job-lsp": "lsp_cases",
    "job-sarif": "sarif_cases",
    "job-separator": "separator_cases",
    "job-sources": "sources_cases",
    "job-told": "tell_cases",
    "lint-fix": "lint_fixes",
    "lint-github": "lint_github",
    "lint-sarif": "sarif_lint",
}


class NotMade(Exception):
    """A file that isn't what its checksum says."""


def program_of(name):
    """The program that a file of cases is for."""
    return name.split("-")[0]


def sums():
    """The checksums by the names of the files."""
    with open(SUMS, encoding="ascii") as file:
        return {name: value for value, name in map(str.split, file)}


def sum_of(data):
    return hashlib.sha256(data).hexdigest()


def scripts_of(name):
    """The texts of the script that prints a file, and of those that it imports."""
    found, rest = {}, [MAKERS[name]]
    while rest:
        module = rest.pop()
        path = next((it for it in (f"{HERE}/{folder}/{module}.py" for folder in FOLDERS) if os.path.isfile(it)), None)
        if path and module not in found:
            with open(path, encoding="utf-8") as file:
                found[module] = file.read()
            rest += IMPORT.findall(found[module])
    return found


def stamp(name):
    """A checksum of the scripts that a file is made by."""
    return sum_of("\0".join(f"{it}\0{text}" for it, text in sorted(scripts_of(name).items())).encode())


def printed(name):
    """What the script of a file prints."""
    folders = os.pathsep.join(os.path.join(HERE, it) for it in FOLDERS)
    words = [sys.executable, os.path.join(HERE, "makers", f"{MAKERS[name]}.py")]
    # the same text whatever the locale is
    variables = {**os.environ, "PYTHONPATH": folders, "PYTHONUTF8": "1"}
    return subprocess.run(words, check=True, capture_output=True, env=variables).stdout


def path_of(name):
    return os.path.join(MADE, f"{name}.jsonl")


def is_made(name, by):
    """Whether a file is there, as these scripts print it."""
    stamped = f"{path_of(name)}.stamp"
    if not os.path.isfile(path_of(name)) or not os.path.isfile(stamped):
        return False
    with open(stamped, encoding="ascii") as file:
        return file.read() == by


def made(name):
    """The path of a file, which is made where it isn't there; several processes may ask at once."""
    os.makedirs(MADE, exist_ok=True)
    with open(f"{path_of(name)}.lock", "w", encoding="ascii") as lock:
        fcntl.flock(lock, fcntl.LOCK_EX)
        by = stamp(name)
        if not is_made(name, by):
            data = printed(name)
            if sum_of(data) != sums().get(name):
                raise NotMade(f"{MAKERS[name]}.py prints another {name}.jsonl than made.sha256 says")
            with open(path_of(name), "wb") as file:
                file.write(data)
            with open(f"{path_of(name)}.stamp", "w", encoding="ascii") as file:
                file.write(by)
    return path_of(name)


def at(path):
    """The same path, made first where it is one of made/."""
    if os.path.dirname(os.path.abspath(path)) == MADE:
        made(os.path.splitext(os.path.basename(path))[0])
    return path


def all_files():
    """All files of cases, those that are made among them."""
    return sorted(glob.glob(f"{HERE}/*.jsonl")) + [made(it) for it in MAKERS]


def main(words):
    if words == ["--write"]:
        rows = [f"{sum_of(printed(it))}  {it}\n" for it in MAKERS]
        with open(SUMS, "w", encoding="ascii") as file:
            file.writelines(rows)
        return 0
    passed, failed = 0, 0
    for name in words or MAKERS:
        try:
            made(name)
            passed += 1
        except (NotMade, subprocess.CalledProcessError) as error:
            failed += 1
            print(f"{error}: {(getattr(error, 'stderr', None) or b'').decode()[-2000:]}")
    print(f"{passed} passed, {failed} failed")
    return 1 if failed else 0


if __name__ == "__main__":
    sys.exit(main(sys.argv[1:]))
