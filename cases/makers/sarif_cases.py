#!/usr/bin/env python3
"""sarif_cases.py: writes the cases of SARIF logs (job-sarif.jsonl) to standard output.

Reports with labels over several sources, causes, related reports and fixes are drawn by chance from a fixed seed, with
the log that the rules ask for (sarif_model.py). What a line holds: run.py."""
import json
import random

from sarif_model import spelled_log

COUNT = 400
PIECES = ["a", "b = 1", " ", "\n", "\n", "\r\n", "\r", "é", "漢", "😀", "\t", "{x}", "e\u0301", "\ufeff"]
NAMES = ["a.rs", "src/b c.rs", "/tmp/x:y", "a:b", "a:b/c:d", "https://x.org/a b%20c%", "C:\\dir\\é.c", "漢/{}", "", "%41"]
URLS = ["https://x.org/bad", "https://x.org/a b", "https://x.org/100%/%c3", "see there", "mailto:a@b", ":x", "", "1x:y"]
TEXTS = ["here", "", "two\nrows", "漢", "`{}` and }", 'quoted "\\']
CODES = ["c", "a::b", "", "c"]
# the tool's name, and the words that say it
TOOLS = [
    ("job", ["--sarif"]),
    ("job", ["--sarif"]),
    ("job", ["--sarif"]),
    ("my lint", ["--sarif", "--tool", "my lint"]),
    ('é"{}', ["--tool", 'é"{}', "--sarif"]),
]


def source_of(dice):
    source = {"text": "".join(dice.choice(PIECES) for _ in range(dice.randint(0, 12)))}
    if dice.random() < 0.7:
        source["name"] = dice.choice(NAMES)
    return source


def span_of(dice, data):
    begin = dice.randint(0, len(data))
    return {"offset": begin, "length": dice.choice([0, 1, 2, dice.randint(0, len(data) + 1 - begin)])}


def label_of(dice, data):
    label = span_of(dice, data)
    if dice.random() < 0.05:
        label["offset"] += len(data) + 2
    if dice.random() < 0.6:
        label["label"] = dice.choice(TEXTS)
    if dice.random() < 0.15:
        label["primary"] = True
    return label


def labels_of(dice, text):
    return [label_of(dice, text.encode()) for _ in range(dice.choice([0, 1, 1, 2, 3, 4]))]


def fix_of(dice, text):
    data = text.encode()
    edits = [{**span_of(dice, data), "text": dice.choice(["", "x", "漢", "\n"])} for _ in range(dice.choice([0, 1, 1, 2, 3]))]
    return {"message": dice.choice(["a number", "use `{}`"]), "edits": edits}


def report_of(dice, inherited, depth):
    report = {"message": dice.choice(["m", "expected `{integer}`", "two\nrows", ""])}
    for key, choices in (("code", CODES), ("severity", ["advice", "warning", "error"]), ("help", TEXTS), ("url", URLS)):
        if dice.random() < 0.4:
            report[key] = dice.choice(choices)
    if dice.random() < (0.8 if inherited is None else 0.4):
        report["source"] = source_of(dice)
    source = report.get("source") or inherited
    text = source["text"] if source else "ab"
    if dice.random() < 0.8:
        report["labels"] = labels_of(dice, text)
    if dice.random() < 0.4:
        made = [source_of(dice) for _ in range(dice.choice([1, 1, 2, 3]))]
        report["snippets"] = [{"source": it, "labels": labels_of(dice, it["text"])} for it in made]
    if dice.random() < 0.5:
        report["fixes"] = [fix_of(dice, text) for _ in range(dice.choice([1, 1, 2, 3]))]
    if depth and dice.random() < 0.35:
        report["cause"] = report_of(dice, source, depth - 1)
    elif dice.random() < 0.2:
        report["causes"] = ["why", "{}"]
    if depth and dice.random() < 0.35:
        report["related"] = [report_of(dice, source, depth - 1) for _ in range(dice.choice([1, 1, 2]))]
    return report


def case(number):
    report = report_of(random.Random(number), None, 3)
    tool, words = TOOLS[number % 5]
    wanted = {"what": "a log", "argv": ["job", *words], "report": report}
    return {**wanted, "stdout_text": spelled_log([report], tool), "status": 0, "stderr": ""}


if __name__ == "__main__":
    for number in range(COUNT):
        print(json.dumps(case(number), ensure_ascii=False))
