#!/usr/bin/env python3
"""run.py CASES.jsonl: runs the built programs on a file of cases and compares what they write.

Each line of the file is a JSON object: `argv` (the program's name and its words), `stdin` and `stdout` (base64), or
in their place `stdin_text` and `stdout_text` (plain) or `report` (the description that is the input), `status` and
`stderr`. `what` says what a case shows. `folder` is where the program runs, `variables` are all that it is told of its
surroundings. `terminal` is the stream that is a terminal, `stdout` or `stderr`. With `beginnings` a case is one for
each beginning of its input but the whole. The first mismatches are shown in full. The last line is 'N passed, M
failed', and the exit status is 0 only where nothing failed."""
import base64
import json
import os
import subprocess
import sys
from functools import partial

from made import at
from programs import ROOT, SHOWN, counted, each, run, run_in_terminal


def bytes_of(case, name):
    """The bytes of the field `stdin` or `stdout`, however they are given."""
    if name == "stdin" and "report" in case:
        return json.dumps(case["report"], ensure_ascii=False).encode()
    if f"{name}_text" in case:
        return case[f"{name}_text"].encode()
    return base64.b64decode(case[name])


def read(line):
    """The cases of a line."""
    case = json.loads(line)
    given = bytes_of(case, "stdin")
    inputs = [given[:end] for end in range(len(given))] if case.get("beginnings") else [given]
    return [{**case, "given": given} for given in inputs]


def answer(case):
    """What the program of a case answers: status, standard output, standard error."""
    folder = os.path.join(ROOT, case.get("folder", "."))
    runs = partial(run_in_terminal, case["terminal"]) if "terminal" in case else run
    try:
        return runs(case["argv"], case["given"], case.get("variables"), cwd=folder)
    except (OSError, subprocess.TimeoutExpired) as fault:
        return (str(fault), b"", b"")


def show(number, case, wanted, got):
    print(f"case {number}: {case.get('what', '')} {case['argv']!r}")
    print(f"  input {case['given']!r}")
    for what, want, have in zip(("status", "standard output", "standard error"), wanted, got):
        if want != have:
            print(f"  {what}: wanted {want!r}")
            print(f"  {what}: got    {have!r}")


def main(path):
    with open(at(path), encoding="utf-8") as file:
        cases = [case for line in file if line.strip() for case in read(line)]
    failed = 0
    for number, (case, got) in enumerate(zip(cases, each(answer, cases))):
        wanted = (case["status"], bytes_of(case, "stdout"), case["stderr"].encode())
        failed += got != wanted
        if got != wanted and failed <= SHOWN:
            show(number, case, wanted, got)
    return counted(len(cases) - failed, failed)


if __name__ == "__main__":
    sys.exit(main(sys.argv[1]))
