#!/usr/bin/env python3
"""line_breaks.py: compares the opportunities that the built `breaks` prints with those of line-breaks.txt.

Lines of that file that begin with `!` are texts that the annex breaks otherwise where it has a regular expression in
place of its list of pairs: there the answers must differ. The last line is 'N passed, M failed', and the exit status
is 0 only where nothing failed."""
import os
import re
import sys
import tempfile

from programs import RECORDED, SHOWN, counted, run


def read(line):
    """A line's text, and the places in bytes at which it may be broken."""
    text, places = "", []
    for code, sign in re.findall(r"([0-9A-F]+)([ /]?)", line):
        text += chr(int(code, 16))
        if sign == "/":
            places.append(len(text.encode()))
    return text, [*places, len(text.encode())]


def main():
    with open(os.path.join(RECORDED, "line-breaks.txt"), encoding="utf-8") as lines:
        rows = [line.strip() for line in lines if not line.startswith("#")]
    cases = [(row.startswith("!"), *read(row.lstrip("! "))) for row in rows]
    with tempfile.NamedTemporaryFile() as given:
        given.write("\0".join(text for _, text, _ in cases).encode())
        given.flush()
        status, told, _ = run(["breaks", given.name])
    answers = [[int(it.rstrip("!")) for it in row.split()] for row in told.decode().splitlines()]
    if status != 0 or len(answers) != len(cases):
        print(f"status {status}, {len(answers)} answers")
        return counted(0, len(cases))
    failed = [case for case, answer in zip(cases, answers) if (answer == case[2]) == case[0]]
    for _, text, places in failed[:SHOWN]:
        print(f"{[f'{ord(c):04X}' for c in text]}: {places} was wanted")
    return counted(len(cases) - len(failed), len(failed))


if __name__ == "__main__":
    sys.exit(main())
