#!/usr/bin/env python3
"""github_model.py: writes the cases of `job --github` (job-github.jsonl) to standard output.

It is a model of the rules of GitHub's workflow commands (crates/miette_brief/CALLING.md), made without the
programs: reports drawn by chance from a fixed seed, with the commands that the rules ask for, each of which is read
back as GitHub's runner reads it. What a line holds: run.py."""
import json
import random

from brief_cases import Refused, answered, by_offset, is_accepted, wrapped
from brief_cases import CODES, NAMES, report_of as any_report, source_of, label_of
from fix_brief import report_of as fixed_report

COUNT = 200
KINDS = {None: "error", "error": "error", "warning": "warning", "advice": "notice"}
SIGNS = ["100%", "%0A", "a, b: c", "=", "::", "x\r\ny", "%25", "\n"]


# ---- positions


def places_of(text):
    """Where a text can be cut: (bytes before, line, UTF-16 units before in that line), both counted from 0."""
    places, at, line, units = [(0, 0, 0)], 0, 0, 0
    while at < len(text):
        pair = text.startswith("\r\n", at)
        piece = "\r\n" if pair else text[at]
        at += len(piece)
        if piece[-1] in "\r\n":
            line, units = line + 1, 0
        else:
            units += 2 if ord(piece) > 0xFFFF else 1
        places.append((len(text[:at].encode()), line, units))
    return places


def region_of(text, label):
    """Where a label begins and ends, rounded to places: down where it begins, up where it ends, an empty one down."""
    places, size = places_of(text), len(text.encode())
    begin, end = label["offset"], min(label["offset"] + label["length"], size)
    first = [it for it in places if it[0] <= begin][-1]
    last = first if end <= begin else next(it for it in places if it[0] >= end)
    return first[1:], last[1:]


# ---- spelling


def escaped(text, others=""):
    return "".join(f"%{ord(c):02X}" if c in "%\r\n" + others else c for c in text)


def command(kind, properties, rows):
    told = ",".join(f"{key}={escaped(str(value), ':,')}" for key, value in properties)
    return "::" + kind + (" " + told if told else "") + "::" + "%0A".join(escaped(row) for row in rows)


def decoded(text):
    for sign, byte in (("%0D", "\r"), ("%0A", "\n"), ("%3A", ":"), ("%2C", ","), ("%25", "%")):
        text = text.replace(sign, byte)
    return text


def read(row):
    """A row as the runner takes it apart."""
    head, body = row[2:].split("::", 1)
    kind, _, told = head.partition(" ")
    pairs = [piece.split("=", 1) for piece in told.split(",") if piece]
    return kind, [(key, decoded(value)) for key, value in pairs], decoded(body)


# ---- reports


def marks_of(report, source):
    """Each label with its source: of the report by offset, and then of its further sources."""
    marks = [(source, label) for label in by_offset(report)]
    for it in report.get("snippets") or []:
        marks += [(it["source"], label) for label in by_offset(it)]
    return marks


def primary_of(marks):
    placed = [it for it in marks if it[0]]
    return next((it for it in placed if it[1].get("primary")), placed[0] if placed else None)


def properties_of(report, source, primary):
    code = [("title", report["code"])] if report.get("code") else []
    over, label = primary or (source, None)
    if not over or not over.get("name"):
        return code
    if not label:
        return [("file", over["name"]), *code]
    (line, column), (last, end) = region_of(over["text"], label)
    columns = [("col", column + 1), ("endColumn", max(column + 1, end))] if line == last else []
    return [("file", over["name"]), ("line", line + 1), ("endLine", last + 1), *columns, *code]


def causes_of(report):
    texts = []
    while report.get("cause"):
        report = wrapped(report["cause"])
        texts.append(report["message"])
    return texts + (report.get("causes") or [])


def rows_of(report, inherited, chain):
    """The commands of a report and of those related to it."""
    report = wrapped(report)
    source = report.get("source") or inherited
    marks = marks_of(report, source)
    if not all(is_accepted(over["text"].encode(), label) for over, label in marks if over):
        raise Refused
    primary = primary_of(marks)
    ordered = ([primary] if primary else []) + [it for it in marks if it is not primary]
    rows = [report["message"]]
    rows += ["note: " + label["label"] for _, label in ordered if label.get("label") is not None]
    rows += ["caused by: " + text for text in causes_of(report)] if chain else []
    rows += ["help: " + report["help"]] if report.get("help") is not None else []
    rows += ["fix: " + fix.get("message", "") for fix in report.get("fixes") or []]
    rows += ["see: " + report["url"]] if report.get("url") is not None else []
    kind, properties = KINDS[report.get("severity")], properties_of(report, source, primary)
    row = command(kind, properties, rows)
    assert read(row) == (kind, [(key, str(value)) for key, value in properties], "\n".join(rows)), row
    assert "\n" not in row and "\r" not in row, row
    told = [row]
    for related in report.get("related") or []:
        told += rows_of(related, source, chain)
    return told


# ---- reports by chance


def signed(dice, report):
    """Some texts get signs that commands escape, and some reports a further source."""
    for key in ("message", "help", "code", "url"):
        if key in report and dice.random() < 0.3:
            report[key] += dice.choice(SIGNS)
    for label in report.get("labels") or []:
        if "label" in label and dice.random() < 0.2:
            label["label"] += dice.choice(SIGNS)
    if "name" in report.get("source", {}) and dice.random() < 0.3:
        report["source"]["name"] = dice.choice([*NAMES, "C:\\a,b", "50%", "a=b"])
    if dice.random() < 0.15:
        other = source_of(dice, 20)
        labels = [label_of(dice, len(other["text"].encode()), 0.02) for _ in range(dice.randint(1, 3))]
        report.setdefault("snippets", []).append({"source": other, "labels": labels})
    if report.get("cause"):
        signed(dice, report["cause"])
    for related in report.get("related") or []:
        signed(dice, related)
    return report


def case(number):
    dice = random.Random(7000 + number)
    if number % 3:
        report = any_report(dice, dice.choice([8, 20, 60]), dice.choice([0, 1, 2]), None, 0.02)
    else:
        report = fixed_report(dice, None, dice.choice([0, 1, 2]))
    report, chain = signed(dice, report), dice.random() < 0.8
    words = ["job", "--github", *([] if chain else ["--chain", "no"])]
    return answered({"what": "commands of GitHub", "argv": words, "report": report}, rows_of, report, None, chain)


if __name__ == "__main__":
    for number in range(COUNT):
        print(json.dumps(case(number), ensure_ascii=True))
