#!/usr/bin/env python3
"""sarif_lint.py: writes the cases of `lint --sarif` (lint-sarif.jsonl) to standard output.

The sources are made as those of lint_fixes.py; some calls have wrong words. What is found, and what is proposed for it,
is lint_model.py's, the log is sarif_model.py's. What a line holds: run.py."""
import json
import random

import lint_model
from lint_fixes import WIDTHS, of_bytes, source_of
from sarif_model import spelled_log

COUNT = 200
# how many bytes a source has, but in each hundredth case
MOST = 150
NAMES = ["f", "x.rs", "src/漢 b.rs", "", "/tmp/a:b", "a:b"]
CODES = {
    "trailing blanks": ("trailing-blanks", "delete trailing blanks"),
    "tab after space": ("tab-after-space", "indent by spaces"),
    "no final terminator": ("final-terminator", "end the last line"),
}
USAGE = "usage: lint [--brief | --github | --fix | --diff | --sarif [--tool TOOL]] NAME WIDTH | --lsp WIDTH\n"
WRONG = [["f", "x"], ["f"], ["--tool", "t", "f"], ["--tool", "t", "f", "80", "x"], ["--tools", "t", "f", "80"], []]


def is_blank(data, at):
    """Whether the text of the line that an offset lies in is blank."""
    before, after = data[:at], data[at:]
    begin = max(before.rfind(b"\n"), before.rfind(b"\r")) + 1
    text = (before[begin:] + after).replace(b"\r", b"\n").split(b"\n")[0]
    return not text.strip(b" \t")


def report_of(found, data):
    """A finding as a report: a warning with its code, one label without a text, and what is proposed."""
    code, message = CODES.get(found.text, ("wide-line", ""))
    report = {"message": found.text, "code": code, "severity": "warning"}
    report["labels"] = [{"offset": found.offset, "length": found.length}]
    # a line of blanks alone is mended by deleting them, and so a tab in it is
    if found.edits and not (code == "tab-after-space" and is_blank(data, found.offset)):
        edits = [{"offset": it.offset, "length": it.length, "text": it.text.decode()} for it in found.edits]
        report["fixes"] = [{"message": message, "edits": edits}]
    return report


def log_of(data, name, width, tool):
    """The log of what is found, and the program's status."""
    reports = [report_of(it, data) for it in lint_model.findings(data, width)]
    if not reports:
        return spelled_log([], tool), 0
    first, *others = reports
    return spelled_log([{**first, "source": {"data": data, "name": name}, "related": others}], tool), 1


def case(number):
    dice = random.Random(number + 1000)
    data = source_of(dice)
    while len(data) > MOST and number % 100:
        data = source_of(dice)
    name, width = dice.choice(NAMES), dice.choice(WIDTHS)
    tool = dice.choice([None, None, "my lint", "--sarif"])
    text, status = log_of(data, name, width, tool or "lint")
    words = ["lint", "--sarif", *(["--tool", tool] if tool else []), name, str(width)]
    wanted = {"what": "the log of a linted source", "argv": words, **of_bytes("stdin", data)}
    return {**wanted, "stdout_text": text, "status": status, "stderr": ""}


def wrong(words):
    wanted = {"what": "words of lint --sarif", "argv": ["lint", "--sarif", *words], "stdin_text": "a "}
    return {**wanted, "stdout_text": "", "status": 2, "stderr": USAGE}


if __name__ == "__main__":
    for number in range(COUNT):
        print(json.dumps(case(number), ensure_ascii=True))
    for words in WRONG:
        print(json.dumps(wrong(words)))
