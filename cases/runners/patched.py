#!/usr/bin/env python3
"""patched.py CASES.jsonl..: reads pictures of fixes back as patches, and applies them by GNU `patch` to their sources.

What comes of it must be the text that the edits give (fix_model.py). The frames of a fix are read as hunks of a
unified diff: the bar, `-`, `+` and the numbers, which must count on from row to row; rows of marks are passed over.
`patch` must find each hunk at exactly the line that the numbers name, without fuzz.

A row shows neither a terminator nor a tab. So source and applied text are written as rows show them, each line with a
line feed, before the one is patched and compared with the other; where all lines have line feeds and none a tab, these
are the texts themselves. Left out, and counted, are pictures of sources with escapes and those with lines that are
cut. Fixes in causes and in nested reports are passed over, as their rows are wrapped again and lose blanks at their
ends; so are rows of context at the ends of a frame: a patch needs none.

With --run the pictures are those that the built programs draw, else those of the cases. The last line is 'N passed, M
failed', and the exit status is 0 only where nothing failed; without `patch` nothing is tried, and it says so."""
import json
import os
import re
import shutil
import subprocess
import sys
import tempfile

from diff_model import edits_of
from fix_model import applied, refusal
from lint_model import TAB, findings, fixed
from model import lines_of
from made import at
from programs import SHOWN, counted, each, run
from run import bytes_of

ROW = re.compile(r" +([0-9]+) ([│|+-]) (.*)", re.DOTALL)
FRAME = re.compile(r" +(╭─|,-)\[.*\]")
MARKS = re.compile(r" +[·:] [-+ ]+")
FRAME_END = re.compile(r" +[╰`](────|----)")
COLOUR = re.compile("\x1b\\[[0-9;]*m")
FIX = "  fix: "
# what the row after the last one of a fix begins with, if it isn't empty
ENDS = (FIX, "  ├─▶", "  ╰─▶", "  |->", "  `->")


class Unread(Exception):
    """A picture that isn't what the edits do, and why."""


# ---- frames as hunks


def hunk_of(rows, moved, most):
    """A frame's rows (number, sign, text) as a hunk, where the lines before it have moved by `moved`, and by how many
    those after it have. The source has `most` lines."""
    number, sign, _ = rows[0] if rows else (0, "", "")
    old = number - moved if sign == "+" else number
    if not 1 <= old <= most + 1:
        raise Unread(f"a frame begins at a line that isn't there: {old} of {most}")
    at, at_new, lines = old, old + moved, []
    for number, sign, text in rows:
        if number != (at_new if sign == "+" else at):
            raise Unread(f"a row {sign} has the number {number} where {at}, or {at_new} after the fix, is next")
        lines.append((sign if sign in "+-" else " ") + text)
        at, at_new = at + (sign != "+"), at_new + (sign != "-")
    begins = [first if after > first else first - 1 for first, after in ((old, at), (old + moved, at_new))]
    head = f"@@ -{begins[0]},{at - old} +{begins[1]},{at_new - old - moved} @@"
    return [head, *lines], at_new - at


def patch_of(rows, most):
    """The frames of a fix as a unified diff of a source of `most` lines; empty where there are none."""
    hunks, frame, moved = [], [], 0
    for row in rows:
        found = ROW.fullmatch(row)
        if found:
            frame.append((int(found[1]), found[2], found[3]))
        elif FRAME_END.fullmatch(row):
            hunk, moved = hunk_of(frame, moved, most)
            hunks, frame = [*hunks, *hunk], []
        elif not FRAME.fullmatch(row) and not MARKS.fullmatch(row):
            raise Unread(f"this is no row of a frame: {row!r}")
    return "".join(row + "\n" for row in ["--- old", "+++ new", *hunks]) if hunks else ""


def patched(text, patch):
    """A text after a patch that fits exactly."""
    with tempfile.TemporaryDirectory() as folder:
        old, new, hunks = (os.path.join(folder, name) for name in ("old", "new", "hunks"))
        for path, data in ((old, text), (hunks, patch.encode())):
            with open(path, "wb") as file:
                file.write(data)
        words = ["--unified", "--force", "--fuzz=0", "--binary", "--no-backup-if-mismatch", "-o", new, old, hunks]
        done = subprocess.run(["patch", *words], capture_output=True, text=True, check=False)
        if done.returncode or "offset" in done.stdout or "fuzz" in done.stdout:
            raise Unread(f"patch says {done.stdout!r} {done.stderr!r} of\n{patch}")
        with open(new, "rb") as file:
            return file.read()


# ---- the fixes of a case, and the rows of each in its picture


def shown(data, tab):
    """A text as rows show it."""
    text = ""
    for line in lines_of(data, tab):
        for it in line.cells:
            text += " " * (it.next_column - it.column) if it.character == "\t" else it.character
        text += "\n"
    return text.encode()


def fixes_of(report, inherited, nested):
    """The fixes of a report and of those related to it, as edits and source, in the order in which they are drawn."""
    source = report.get("source", inherited)
    yield from ((edits_of(it), source and source["text"].encode()) for it in report.get("fixes") or [])
    for it in [] if nested else report.get("related") or []:
        yield from fixes_of(it, source, nested)


def fixes_in(case):
    """The fixes of a case, and the tab width of its picture."""
    words = case["argv"]
    if words[0] == "lint":
        data = bytes_of(case, "stdin")
        found = findings(data, int(words[3]))
        edits = [it for one in fixed(found, data)[0] for it in one]
        return [(edits, data)] if found else [], TAB
    named = dict(zip(words[1::2], words[2::2]))
    return list(fixes_of(case["report"], None, named.get("--nested") == "yes")), int(named.get("--tab", 4))


def rows_in(picture):
    """The rows below the message of each fix that stands at the edge."""
    found, rows = [], picture.split("\n")
    for at in [at for at, row in enumerate(rows) if row.startswith(FIX)]:
        end = next(k for k in range(at + 1, len(rows)) if not rows[k] or rows[k].startswith(ENDS))
        below = rows[at + 1 : end]
        first = next((k for k, row in enumerate(below) if FRAME.fullmatch(row) or row.startswith("  [")), len(below))
        last = max((k for k, row in enumerate(below) if FRAME_END.fullmatch(row) or row.startswith("  [")), default=-1)
        found.append(below[first : last + 1])
    return found


def compare(rows, edits, data, tab):
    """Says why the rows of a fix aren't what its edits do to a source."""
    why = refusal(data, edits) if data is not None and edits else None
    if why:
        if rows != [f"  [Failed to apply fix: {why}]"]:
            raise Unread(f"the fix is refused ({why})")
        return
    patch = patch_of(rows, len(lines_of(data or b"")))
    if not patch:
        if data is not None and applied(data, edits) != data:
            raise Unread("no change is shown")
        return
    before, after = shown(data, tab), shown(applied(data, edits), tab)
    made = patched(before, patch)
    if made != after:
        raise Unread(f"the patch gives {made!r}, not {after!r}:\n{patch}")


# ---- cases


def picture_of(case, runs):
    return (run(case["argv"], bytes_of(case, "stdin"))[1] if runs else bytes_of(case, "stdout")).decode()


def tried(case, runs):
    """Why a case is left out, and what is wrong with it."""
    if case["argv"][1] == "--fix":
        return "without a picture", None
    given = bytes_of(case, "stdin")
    if b"\x1b" in given or b"\\u001b" in given:
        return "with escapes", None
    picture = COLOUR.sub("", picture_of(case, runs))
    if "..." in picture or "\u2026" in picture:
        return "with cut lines", None
    fixes, tab = fixes_in(case)
    try:
        found = rows_in(picture)
        if len(found) != len(fixes):
            raise Unread(f"{len(fixes)} fixes, but {len(found)} pictures")
        for rows, (edits, data) in zip(found, fixes):
            compare(rows, edits, data, tab)
    except Unread as why:
        return None, f"{why}\n{picture}"
    return None, None


def main(words):
    runs, paths = "--run" in words, [it for it in words if it != "--run"]
    if not shutil.which("patch"):
        print("skipped: fixes as patches, since there is no GNU patch")
        return counted(0, 0)
    cases = []
    for path in paths:
        with open(at(path), encoding="utf-8") as file:
            cases += [json.loads(line) for line in file if line.strip()]
    results = each(lambda case: tried(case, runs), cases)
    faults = [fault for _, fault in results if fault]
    for fault in faults[:SHOWN]:
        print(fault)
    reasons = [reason for reason, _ in results if reason]
    for reason in sorted(set(reasons)):
        print(f"left out {reason}: {reasons.count(reason)}")
    return counted(len(cases) - len(reasons) - len(faults), len(faults))


if __name__ == "__main__":
    sys.exit(main(sys.argv[1:]))
