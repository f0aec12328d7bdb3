#!/usr/bin/env python3
"""fix_pictures.py: writes the cases of pictures of fixes (job-fix-pictures.jsonl) to standard output.

Reports with fixes are drawn by chance from a fixed seed, with the picture that the rules ask for (diff_model.py,
tree_model.py): by themselves, under causes and related reports, over sources of up to 300 lines, with lines that are
cut, lines that look alike, in colours, and in ASCII. What a line holds: run.py."""
import json
import random

import deep_cases
from diff_model import PLAIN, THEMES
from fix_edits import LOOKS, fix_of, source_of
from model import Settings
from tree_model import Page, whole_picture

COUNT = 400
MESSAGES = ["m", "mismatched types", "a well-known word isn't here", "two\nrows"]


def settings_of(dice, cuts):
    context, tab = dice.choice([0, 1, 1, 1, 2, 3]), dice.choice([4, 4, 4, 1, 8])
    return Settings(context, tab, dice.choice([8, 12, 16, 24, 40]) if cuts else None)


def labelled(dice, report, source):
    if source and source["text"] and dice.random() < 0.4:
        report["labels"] = deep_cases.labels_of(dice, source)


def alone(dice, page):
    """A report over a source of few lines."""
    source = source_of(dice, dice.choice([1, 3, 6, 12]))
    fixes = [fix_of(dice, source) for _ in range(dice.choice([1, 1, 1, 2]))]
    report = {"message": "m", "source": source, "fixes": fixes}
    if dice.random() < 0.4:
        report["help"] = dice.choice(deep_cases.HELPS)
    if page.snippets.context:
        labelled(dice, report, source)
    return report


def alike(dice, page):
    """A fix of blanks, terminators and characters without columns."""
    source = source_of(dice, 6)
    return {"message": "m", "source": source, "fixes": [fix_of(dice, source, LOOKS, 2, 1)]}


def many_edits(dice, page):
    source = source_of(dice, dice.choice([6, 12, 20]))
    return {"message": "m", "source": source, "fixes": [fix_of(dice, source, None, 8)]}


def long_lines(dice, page):
    source = source_of(dice, 5, long=0.7)
    report = {"message": "m", "source": source, "fixes": [fix_of(dice, source, None, 4)]}
    if page.snippets.context:
        labelled(dice, report, source)
    return report


def large(dice, page):
    """Edits far apart in many lines, or of many lines at once."""
    source = source_of(dice, dice.choice([120, 300]))
    fix = fix_of(dice, source, None, 6, 1)
    if dice.random() < 0.4:
        lines = source["text"].splitlines(keepends=True)
        begin = dice.randint(0, len(lines) // 2)
        old = lines[begin : begin + dice.randint(1, 130)]
        new = [text for text in old if dice.random() < 0.9] + [dice.choice(["", "new\n"])]
        offset, length = (len("".join(texts).encode()) for texts in (lines[:begin], old))
        fix["edits"] = [{"offset": offset, "length": length, "text": "".join(new)}]
    return {"message": "m", "source": source, "fixes": [fix]}


def tree(dice, page, inherited=None, depth=2):
    """A report with causes and related reports, with sources of their own, inherited ones, or none."""
    report = {"message": dice.choice(MESSAGES)}
    severities = ["error", "warning", "advice"]
    for key, choices in (("code", ["c", "a::b"]), ("severity", severities), ("help", deep_cases.HELPS)):
        if dice.random() < 0.3:
            report[key] = dice.choice(choices)
    if dice.random() < (0.85 if inherited is None else 0.35):
        report["source"] = source_of(dice, 4)
    source = report.get("source", inherited)
    if page.snippets.context and page.theme == PLAIN:
        labelled(dice, report, source)
        if dice.random() < 0.1:
            other = deep_cases.source_of(dice)
            report["snippets"] = [{"source": other, "labels": deep_cases.labels_of(dice, other)}]
    if dice.random() < 0.8:
        report["fixes"] = [fix_of(dice, source, None, 2) for _ in range(dice.choice([1, 1, 1, 2]))]
    if depth and dice.random() < 0.5:
        report["cause"] = tree(dice, page, source, depth - 1)
    elif dice.random() < 0.2:
        report["causes"] = [dice.choice(MESSAGES)]
    if depth and dice.random() < 0.6:
        report["related"] = [tree(dice, page, source, depth - 1) for _ in range(dice.choice([1, 1, 2]))]
    return report


MADE = [alone, alone, alike, many_edits, long_lines, tree, tree, alike, alone, large]


def page_of(dice, made):
    page = Page(80, snippets=settings_of(dice, made is long_lines or dice.random() < 0.1))
    if made is tree:
        page = page._replace(width=dice.choice([120, 80, 40, dice.randint(8, 60)]), nested=dice.random() < 0.5)
        page = page._replace(wraps=dice.random() < 0.85, breaks=dice.random() < 0.9, hyphens=dice.random() < 0.9)
    elif dice.random() < 0.2:
        page = page._replace(width=dice.choice([0, 12, 20, 200]))
    return page


def words_of(page):
    """The words of `job` that ask for this page."""
    words, tab = deep_cases.words_of(page), page.snippets.tab
    words[1] = next(name for name, theme in THEMES.items() if theme == page.theme)
    return words + (["--tab", str(tab)] if tab != 4 else [])


def case(number):
    dice = random.Random(number)
    made = MADE[number % len(MADE)]
    page = page_of(dice, made)
    themes = {3: "unicode", 10: "unicode", 5: "none", 12: "ascii"}
    page = page._replace(theme=THEMES[themes.get(number % 14, "unicode_nocolor")])
    report = made(dice, page)
    if page.theme != PLAIN:
        report.pop("labels", None)
    wanted = {"what": "pictures of fixes: " + made.__name__, "argv": ["job", *words_of(page)], "report": report}
    return {**wanted, "stdout_text": whole_picture(report, page), "status": 0, "stderr": ""}


if __name__ == "__main__":
    for number in range(COUNT):
        print(json.dumps(case(number), ensure_ascii=True))
