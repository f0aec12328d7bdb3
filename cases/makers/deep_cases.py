#!/usr/bin/env python3
"""deep_cases.py: writes the cases of causes and related reports up to three deep (job-deep.jsonl) to standard output.

Trees, sources and labels are drawn by chance from a fixed seed, lines are cut and labels folded, with the picture that
the rules ask for (tree_model.py). In every second case the rows of snippets have room under their arrows, in the others
mostly not. What a line holds: run.py."""
import json
import random

import cut_cases
import fold_cases
from model import Settings
from tree_model import Page, whole_picture

COUNT = 200
DEEPEST = 3

MESSAGES = ["m", "a well-known word isn't here", "no such host\ntry later", "漢字 can't be read", "x" * 30]
HELPS = ["h", "try it again with another name", "see\nbelow"]


def source_of(dice):
    if dice.random() < 0.6:
        made = fold_cases.source_of(dice, 8)
    else:
        texts = [cut_cases.text_of(dice, 2, 16) for _ in range(dice.randint(1, 3))]
        made = {"text": "".join(text + dice.choice(["\n", "\r\n", "\r"]) for text in texts), "name": "f.rs"}
    return made if made["text"] else {"text": "ab\n"}


def labels_of(dice, source):
    data = source["text"].encode()
    labels = []
    for _ in range(dice.choice([1, 1, 2])):
        labels.append(fold_cases.label_of(dice, data, False) if data.isascii() else cut_cases.label_of(dice, data))
    return labels


def report_of(dice, inherited, depth):
    """A report that may stand under another one, with what stands under it down to `depth` levels."""
    report = {"message": dice.choice(MESSAGES)}
    if dice.random() < 0.2:
        report["code"] = dice.choice(["app::code", "c"])
    if dice.random() < 0.4:
        report["severity"] = dice.choice(["error", "warning", "advice"])
    if dice.random() < 0.2:
        report["help"] = dice.choice(HELPS)
    own = source_of(dice) if inherited is None or dice.random() < 0.5 else None
    if own:
        report["source"] = own
    source = own or inherited
    if dice.random() < 0.8:
        report["labels"] = labels_of(dice, source)
    if depth == 0:
        return report
    kinds = dice.choice([["cause"], ["related"], ["related"], ["related"], ["cause", "related"]])
    if "cause" in kinds:
        report["cause"] = report_of(dice, source, depth - 1)
    elif dice.random() < 0.3:
        report["causes"] = [dice.choice(MESSAGES) for _ in range(dice.randint(1, 2))]
    if "related" in kinds:
        more = range(dice.choice([0, 0, 0, 1]))
        report["related"] = [report_of(dice, source, depth - 1), *(report_of(dice, source, 0) for _ in more)]
    return report


def words_of(page):
    """The words of `job` that ask for this page."""
    drawn = page.snippets
    words = ["--theme", "unicode_nocolor", "--width", str(page.width), "--context", str(drawn.context)]
    words += ["--line-columns", str(drawn.line_columns)] if drawn.line_columns is not None else []
    words += ["--label-lines", str(drawn.label_lines)] if drawn.label_lines is not None else []
    words += ["--nested", "yes"] if page.nested else []
    words += ["--wrap", "no"] if not page.wraps else []
    words += ["--break", "no"] if not page.breaks else []
    return words + (["--hyphens", "no"] if not page.hyphens else [])


def case(number):
    dice = random.Random(number)
    width = dice.randint(60, 160) if number % 2 else dice.choice([0, 8, 14, 20, dice.randint(14, 60), 40])
    columns, lines = dice.choice([None, 8, 16, 24]), dice.choice([None, 1, 2, 3, 5])
    page = Page(width, *(dice.random() < often for often in (0.9, 0.9, 0.9, 0.8)))
    page = page._replace(snippets=Settings(dice.choice([1, 1, 2]), 4, columns, lines))
    report = report_of(dice, None, dice.choice([2, DEEPEST, DEEPEST]))
    wanted = {"what": "causes and related reports", "argv": ["job", *words_of(page)], "report": report}
    return {**wanted, "stdout_text": whole_picture(report, page), "status": 0, "stderr": ""}


if __name__ == "__main__":
    for number in range(COUNT):
        print(json.dumps(case(number), ensure_ascii=False))
