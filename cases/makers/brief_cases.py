#!/usr/bin/env python3
"""brief_cases.py: writes the cases of `job --brief` (job-brief.jsonl) to standard output.

It is a model of the rules of brief reports (crates/miette_brief/CALLING.md), made without the programs: reports drawn
by chance from a fixed seed, with the rows that the rules ask for. What a line holds: run.py."""
import json
import random
import re

CONTROLS = re.compile("[\x00-\x1f\x7f-\x9f]+")
TERMINATORS = re.compile(rb"\r\n|\r|\n")
COUNT = 400

PIECES = ["a", "be", "se v", "é", "漢字", "👩‍🚀", ":", "7", "]", "`x`", " ", "\u2028", "e\u0301", "x=1;"]
BREAKS = ["\n", "\r\n", "\r", "\t", "\x00", "\x1b[1m", "\x7f", "\x85", "\n\n", "\r\r\n", "\x9f\x80"]
NAMES = ["f", "bad file.rs", "a:b", "", "src/é.rs", "two\nrows", "C:\\x", "\t", "漢"]
CODES = ["c", "oops::my::bad", "", "E 0\n1", "é]"]


class Refused(Exception):
    """A label isn't accepted."""


def one_row(text):
    """A text as it stands in a row."""
    return CONTROLS.sub(" ", text)


def position(data, offset):
    """Line and column of an offset, both from 1; the column in bytes since the line's start, without terminators."""
    found = list(TERMINATORS.finditer(data))
    ends = [it.end() for it in found if it.end() <= offset]
    texts_end = min([offset, *(it.start() for it in found if it.start() < offset < it.end())])
    return len(ends) + 1, texts_end - (ends[-1] if ends else 0) + 1


def is_accepted(data, label):
    offset, length = label["offset"], label["length"]
    return offset <= len(data) and offset + length <= len(data) + 1


def place_at(source, label):
    data = source["text"].encode()
    return (source.get("name"), position(data, label["offset"]))


def spelled(place):
    """A place with the colon and the space after it; what isn't there is left out."""
    name, at = place
    parts = ([] if name is None else [one_row(name)]) + ([] if at is None else [f"{at[0]}:{at[1]}"])
    return ":".join(parts) + ": " if parts else ""


def primary(labels):
    """Of labels by offset the one that a frame names."""
    return next((label for label in labels if label.get("primary")), labels[0] if labels else None)


def by_offset(report):
    return sorted(report.get("labels") or [], key=lambda label: label["offset"])


def wrapped(report):
    """A report with its contexts put in front: the old chain becomes texts."""
    chain, below = [report["message"]], report
    while below.get("cause"):
        below = below["cause"]
        chain = [*chain, *reversed(below.get("contexts") or []), below["message"]]
    chain = [*chain, *(below.get("causes") or [])]
    contexts = report.get("contexts") or []
    if not contexts:
        return report
    chain = [*reversed(contexts), *chain]
    kept = {key: value for key, value in report.items() if key not in ("cause", "causes", "contexts")}
    return {**kept, "message": chain[0], "causes": chain[1:]}


def cause_rows(report, source, at):
    rows = []
    while report.get("cause"):
        report = wrapped(report["cause"])
        own = report.get("source") or source
        label = primary(by_offset(report))
        place = at
        if own and label and is_accepted(own["text"].encode(), label):
            place = place_at(own, label)
        rows.append(f"{spelled(place)}note: caused by: {one_row(report['message'])}")
    return rows + [f"{spelled(at)}note: caused by: {one_row(text)}" for text in report.get("causes") or []]


def rows_of(report, inherited, chain):
    """The rows of a report and of those related to it."""
    report = wrapped(report)
    source, labels = report.get("source") or inherited, by_offset(report)
    if source and not all(is_accepted(source["text"].encode(), label) for label in labels):
        raise Refused
    at = (None, None)
    if source:
        at = place_at(source, primary(labels)) if labels else (source.get("name"), None)
    code = report.get("code")
    kind = (report.get("severity") or "error") + ("" if code is None else f"[{one_row(code)}]")
    rows = [f"{spelled(at)}{kind}: {one_row(report['message'])}"]
    for label in labels:
        if label.get("label") is not None:
            own = place_at(source, label) if source else (None, None)
            rows.append(f"{spelled(own)}note: {one_row(label['label'])}")
    if chain:
        rows += cause_rows(report, source, at)
    if report.get("help") is not None:
        rows.append(f"{spelled(at)}help: {one_row(report['help'])}")
    for related in report.get("related") or []:
        rows += rows_of(related, source, chain)
    return rows


# ---- reports by chance


def text_of(dice, most):
    return "".join(dice.choice(PIECES if dice.random() < 0.8 else BREAKS) for _ in range(dice.randint(0, most)))


def source_of(dice, most):
    source = {"text": "".join(dice.choice(PIECES + BREAKS[:3] * 2) for _ in range(dice.randint(0, most)))}
    if dice.random() < 0.7:
        source["name"] = dice.choice(NAMES)
    return source


def label_of(dice, length, bad):
    end = length + (3 if dice.random() < bad else 0)
    offset = dice.randint(0, end)
    reach = max(end + 1 - offset, 0)
    label = {"offset": offset, "length": dice.choice([0, 1 if reach else 0, reach, dice.randint(0, reach)])}
    if dice.random() < 0.7:
        label["label"] = text_of(dice, 6)
    if dice.random() < 0.25:
        label["primary"] = True
    if dice.random() < 0.1:
        label["context"] = dice.randint(1, 9)
    return label


def report_of(dice, size, deep, inherited=None, bad=0.03):
    report = {"message": text_of(dice, 8)}
    if dice.random() < 0.6:
        report["source"] = source_of(dice, size)
    source = report.get("source") or inherited
    length = len(source["text"].encode()) if source else size
    labels = [label_of(dice, length, bad) for _ in range(dice.randint(0, max(size // 6, 2)))]
    if labels or dice.random() < 0.5:
        report["labels"] = labels
    for key, choices in (("code", CODES), ("severity", ["advice", "warning", "error"]), ("url", ["u\nv"])):
        if dice.random() < 0.4:
            report[key] = dice.choice(choices)
    if dice.random() < 0.4:
        report["help"] = text_of(dice, 8)
    if dice.random() < 0.15:
        report["contexts"] = [text_of(dice, 4) for _ in range(dice.randint(1, 3))]
    if deep and dice.random() < 0.6:
        report["cause"] = report_of(dice, size, deep - 1, source, 0.2)
    elif dice.random() < 0.3:
        report["causes"] = [text_of(dice, 5) for _ in range(dice.randint(0, 3))]
    if deep and dice.random() < 0.5:
        report["related"] = [report_of(dice, size, deep - 1, source, bad) for _ in range(dice.randint(0, 3))]
    return report


def words_of(dice):
    """Words of which only `--chain` says something to a brief report, the last one."""
    words, chain = [["--brief"]], True
    if dice.random() < 0.4:
        words.append(dice.choice([["--narrated"], ["--graphical"], ["--width", "9"], ["--footer", "--json"]]))
    if dice.random() < 0.2:
        words.append(dice.choice([["--color", "yes"], ["--context", "3"], ["--no-graphics", "0"], ["--brief"]]))
    dice.shuffle(words)
    for _ in range(dice.choice([0, 0, 0, 1, 2])):
        chain = dice.random() < 0.4
        words.append(["--chain", "yes" if chain else "no"])
    return [word for group in words for word in group], chain


def answered(wanted, rows, *given):
    """A case with the rows that a report has, or with its refusal."""
    try:
        text = "".join(row + "\n" for row in rows(*given))
    except Refused:
        return {**wanted, "stdout_text": "", "status": 4, "stderr": "job: report refused\n"}
    return {**wanted, "stdout_text": text, "status": 0, "stderr": ""}


def case(number):
    dice = random.Random(number)
    small = number % 4
    report = report_of(dice, 8 if small else dice.choice([30, 60, 250]), 1 if small == 1 else 2)
    words, chain = words_of(dice)
    wanted = {"what": "a brief report", "argv": ["job", *words], "report": report}
    return answered(wanted, rows_of, report, None, chain)


if __name__ == "__main__":
    for number in range(COUNT):
        print(json.dumps(case(number), ensure_ascii=True))
