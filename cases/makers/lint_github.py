#!/usr/bin/env python3
"""lint_github.py: writes the cases of `lint --github` (lint-github.jsonl) to standard output.

Each finding of the model of `lint` (lint_model.py) is told as a workflow command, by the rules of both
(crates/miette_lint_program/CALLING.md, crates/miette_brief/CALLING.md); each row is read back as GitHub's runner reads
it. The sources are drawn as those of lint_fixes.py. What a line holds: run.py."""
import json
import random

from github_model import command, read
from lint_fixes import WIDTHS, of_bytes, source_of
from lint_model import TAB, findings
from model import Source

COUNT = 200
NAMES = ["f", "x.rs", "src/漢", "a,b:c%.rs", ""]
# the rule of a text, and what its fix is called
RULES = {
    "trailing blanks": ("trailing-blanks", "delete trailing blanks"),
    "tab after space": ("tab-after-space", "indent by spaces"),
    "no final terminator": ("final-terminator", "end the last line"),
}


def units(data, cell):
    """The UTF-16 units of a character: two past U+FFFF, else one, also for bytes that are no UTF-8."""
    try:
        return len(data[cell.start : cell.end].decode().encode("utf-16-le")) // 2
    except UnicodeDecodeError:
        return 1


def columns(data, line, finding):
    """The first and the last column of a finding in its line, from 1."""
    before = sum(units(data, it) for it in line.cells if it.end <= finding.offset)
    here = sum(units(data, it) for it in line.cells if finding.offset < it.end <= finding.offset + finding.length)
    return before + 1, before + max(here, 1)


def is_mended(data, line, finding):
    """Of a line of blanks alone these are deleted, and not evened."""
    is_blank = not data[line.start : line.text_end].strip(b" \t")
    return finding.text in RULES and not (finding.text == "tab after space" and is_blank)


def row_of(source, name, finding):
    number = source.line_of(finding.offset)
    line, data = source.lines[number], source.data
    rule, fix = RULES.get(finding.text, ("wide-line", None))
    first, last = columns(data, line, finding)
    place = [("file", name), ("line", number + 1), ("endLine", number + 1), ("col", first), ("endColumn", last)]
    properties = [*(place if name else []), ("title", rule)]
    rows = [finding.text, *([f"fix: {fix}"] if is_mended(data, line, finding) else [])]
    row = command("warning", properties, rows)
    assert read(row) == ("warning", [(key, str(value)) for key, value in properties], "\n".join(rows)), row
    return row


def commands(data, name, width):
    """What `lint --github` prints, and its status."""
    found, source = findings(data, width), Source(data, TAB)
    return "".join(row_of(source, name, it) + "\n" for it in found), 1 if found else 0


def case(number):
    dice = random.Random(9000 + number)
    data, name, width = source_of(dice), dice.choice(NAMES), dice.choice(WIDTHS)
    text, status = commands(data, name, width)
    words = ["lint", "--github", name, str(width)]
    made = {"what": "findings as commands of GitHub", "argv": words, **of_bytes("stdin", data)}
    return {**made, "stdout_text": text, "status": status, "stderr": ""}


if __name__ == "__main__":
    for number in range(COUNT):
        print(json.dumps(case(number), ensure_ascii=True))
