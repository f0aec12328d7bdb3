#!/usr/bin/env python3
"""fix_brief.py: writes the cases of fixes in brief reports (job-fix-brief.jsonl) to standard output.

Reports with fixes, over sources of their own, inherited ones or none, are drawn by chance from a fixed seed, with the
rows that the rules ask for (tell_model.py). What a line holds: run.py."""
import json
import random

from brief_cases import NAMES, answered
from fix_edits import fix_of, source_of
from tell_cases import labels_of
from tell_model import brief_rows

COUNT = 200
MESSAGES = ["m", "a colon is missing", "two\nrows", "\ttab", "", "漢字", "\x1b[1mbold"]
HELPS = ["h", "try it\nagain", ""]
QUOTED = ['say "x"', "\\", "a\tb", "\x01\x7f", "é漢", "\r\n", "\x1b[m", "\\n", "\u0085"]


def fix(dice, source):
    made = fix_of(dice, source, None, 4, 12)
    if dice.random() < 0.5:
        made["message"] = dice.choice(MESSAGES)
    for edit in made.get("edits", []):
        if dice.random() < 0.25:
            edit["text"] = dice.choice(QUOTED)
    return made


def named(dice):
    source = source_of(dice, dice.choice([1, 3, 6, 12]))
    if "name" in source and dice.random() < 0.5:
        source["name"] = dice.choice([*NAMES, 'a"b'])
    return source


def report_of(dice, inherited, depth):
    report = {"message": dice.choice(MESSAGES)}
    for key, choices in (("code", ["c", "a::b"]), ("severity", ["advice", "warning", "error"]), ("help", HELPS)):
        if dice.random() < 0.3:
            report[key] = dice.choice(choices)
    if dice.random() < (0.85 if inherited is None else 0.4):
        report["source"] = named(dice)
    source = report.get("source", inherited)
    if source and dice.random() < 0.4:
        report["labels"] = labels_of(dice, source)
    if dice.random() < 0.1:
        other = named(dice)
        report["snippets"] = [{"source": other, "labels": labels_of(dice, other)}]
    if dice.random() < 0.85:
        report["fixes"] = [fix(dice, source) for _ in range(dice.choice([1, 1, 2, 3]))]
    if depth and dice.random() < 0.2:
        report["cause"] = report_of(dice, source, depth - 1)
    if depth and dice.random() < 0.4:
        report["related"] = [report_of(dice, source, depth - 1) for _ in range(dice.choice([1, 1, 2]))]
    return report


def case(number):
    dice = random.Random(number)
    report, chain = report_of(dice, None, dice.choice([0, 1, 1, 2])), dice.random() < 0.8
    words = ["job", "--brief", *([] if chain else ["--chain", "no"])]
    return answered({"what": "fixes, told briefly", "argv": words, "report": report}, brief_rows, report, None, chain)


if __name__ == "__main__":
    for number in range(COUNT):
        print(json.dumps(case(number), ensure_ascii=True))
