#!/usr/bin/env python3
"""tell_cases.py: writes the cases of JSON, brief and narrated reports with labels over further sources, and with fixes
(job-told.jsonl) to standard output.

Reports are drawn by chance from a fixed seed, with the text that the rules ask for (tell_model.py, narrated_model.py).
What a line holds: run.py."""
import json
import random

from brief_cases import Refused
from fix_cases import fix_of, source_of
from narrated_model import REFUSED, narrated
from tell_model import brief_rows, spelled_json, value

COUNT = 600
TEXTS = ["here", "", "two\nrows", "漢", "defined here"]
HELPS = ["h", "try it\nagain"]


def label_of(dice, data):
    begin = dice.randint(0, len(data))
    label = {"offset": begin, "length": dice.choice([0, 1, dice.randint(0, len(data) + 1 - begin)])}
    if dice.random() < 0.02:
        label["offset"] += len(data) + 2
    if dice.random() < 0.7:
        label["label"] = dice.choice(TEXTS)
    if dice.random() < 0.2:
        label["primary"] = True
    return label


def labels_of(dice, source):
    data = source["text"].encode()
    return [label_of(dice, data) for _ in range(dice.choice([0, 1, 1, 2, 3]))]


def report_of(dice, inherited, depth):
    report = {"message": dice.choice(["m", "mismatched types", "two\nrows"])}
    for key, choices in (("code", ["c", "a::b"]), ("severity", ["advice", "warning", "error"]), ("help", HELPS)):
        if dice.random() < 0.3:
            report[key] = dice.choice(choices)
    if dice.random() < (0.85 if inherited is None else 0.4):
        report["source"] = source_of(dice)
    source = report.get("source") or inherited
    if source and dice.random() < 0.8:
        report["labels"] = labels_of(dice, source)
    if dice.random() < 0.6:
        made = [source_of(dice) for _ in range(dice.choice([1, 1, 2, 3]))]
        report["snippets"] = [{"source": it, "labels": labels_of(dice, it)} for it in made]
    if dice.random() < 0.6:
        text = source["text"] if source else "ab"
        report["fixes"] = [fix_of(dice, text) for _ in range(dice.choice([1, 1, 2]))]
    if depth and dice.random() < 0.3:
        report["cause"] = report_of(dice, source, depth - 1)
    elif dice.random() < 0.2:
        report["causes"] = ["why"]
    if depth and dice.random() < 0.3:
        report["related"] = [report_of(dice, source, depth - 1) for _ in range(dice.choice([1, 1, 2]))]
    return report


def told(kind, report):
    """The text of a report of this kind, or that it is refused."""
    if kind == "--json":
        return spelled_json(value(report))
    if kind == "--narrated":
        return narrated(report)
    try:
        return "".join(row + "\n" for row in brief_rows(report, None, True))
    except Refused:
        return REFUSED


def case(number):
    dice = random.Random(number)
    report, kind = report_of(dice, None, 2), ["--json", "--brief", "--narrated"][number % 3]
    text = told(kind, report)
    wanted = {"what": "several sources and fixes, told", "argv": ["job", kind], "report": report}
    if text == REFUSED:
        return {**wanted, "stdout_text": "", "status": 4, "stderr": "job: report refused\n"}
    return {**wanted, "stdout_text": text, "status": 0, "stderr": ""}


if __name__ == "__main__":
    for number in range(COUNT):
        print(json.dumps(case(number), ensure_ascii=False))
