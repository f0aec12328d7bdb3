#!/usr/bin/env python3
"""sources_cases.py: writes the cases of labels over further sources (job-sources.jsonl) to standard output.

Reports with labels over up to four sources are drawn by chance from a fixed seed, some with causes and related reports
that have further sources too, with folded and cut lines and a refused label in one of the sources, with the picture
that the rules ask for (tree_model.py). Others have colours: a mark of each label in the next highlight. The last ones
have sources of 20,000 bytes and more, and hundreds of labels; some of them have colours too. What a line holds:
run.py."""
import json
import random
import re

import cut_cases
import deep_cases
import fold_cases
from model import Settings, snippet_rows
from tree_model import Page, whole_picture

COUNT = 360
WITH_COLOURS = 40
LARGE = 16
LARGE_WITH_COLOURS = 4
HIGHLIGHTS = ["35;1", "33;1", "32;1"]
MESSAGES = ["m", "mismatched types", "port is set twice", "a well-known word isn't here"]


def section_of(dice):
    """A further source with its labels: some have none, and now and then one is refused."""
    source = deep_cases.source_of(dice)
    if dice.random() < 0.1:
        source = {"text": dice.choice(["x = 1", "", "ab"])}
    labels = [] if dice.random() < 0.1 or not source["text"] else deep_cases.labels_of(dice, source)
    if labels and dice.random() < 0.08:
        labels[0]["offset"] += len(source["text"].encode()) + 2
    return {"source": source, "labels": labels}


def report_of(dice, inherited, depth):
    """A report that may stand under another one, with what stands under it down to `depth` levels."""
    report = {"message": dice.choice(MESSAGES)}
    if dice.random() < 0.4:
        report["severity"] = dice.choice(["error", "warning", "advice"])
    if dice.random() < 0.3:
        report["help"] = dice.choice(deep_cases.HELPS)
    own = deep_cases.source_of(dice) if dice.random() < (0.85 if inherited is None else 0.4) else None
    if own:
        report["source"] = own
    source = own or inherited
    if dice.random() < 0.8:
        report["labels"] = deep_cases.labels_of(dice, source or {"text": "ab\n"})
    if dice.random() < 0.8:
        report["snippets"] = [section_of(dice) for _ in range(dice.choice([1, 1, 1, 2, 3]))]
    if depth and dice.random() < 0.4:
        report["cause"] = report_of(dice, source, depth - 1)
    elif dice.random() < 0.2:
        report["causes"] = [dice.choice(MESSAGES)]
    if depth and dice.random() < 0.4:
        report["related"] = [report_of(dice, source, depth - 1) for _ in range(dice.choice([1, 1, 2]))]
    return report


def chance(number):
    dice = random.Random(number)
    page = Page(dice.choice([80, 80, 120, 40, dice.randint(20, 160)]), nested=dice.random() < 0.4)
    columns, lines = dice.choice([None, None, 12, 24]), dice.choice([None, None, 2, 3, 5])
    page = page._replace(snippets=Settings(dice.choice([1, 1, 1, 2]), 4, columns, lines))
    return report_of(dice, None, dice.choice([0, 0, 1, 2])), deep_cases.words_of(page), page


def coloured(number):
    """A label of one letter in each of several sources of one line."""
    dice = random.Random(number)
    counts = [dice.randint(0, 3) for _ in range(dice.randint(2, 4))]
    sections = []
    for at, count in enumerate(counts):
        offsets = sorted(dice.sample(range(6), count))
        labels = [{"offset": it, "length": 1} for it in offsets]
        sections.append({"source": {"name": "abcd"[at], "text": "source"}, "labels": labels})
    report = {"message": "m", **sections[0], "snippets": sections[1:]}
    rows, before = ["  \x1b[31m×\x1b[0m m"], 0
    for section in sections:
        rows += coloured_rows(section, before)
        before += len(section["labels"])
    return report, ["--theme", "unicode"], "".join(row + "\n" for row in rows)


def coloured_rows(section, before):
    """The rows of one source, its first mark in the highlight after `before` labels."""
    labels = section["labels"]
    if not labels:
        return []
    marks, column = "", 0
    for at, label in enumerate(labels):
        style = HIGHLIGHTS[(before + at) % len(HIGHLIGHTS)]
        marks += " " * (label["offset"] - column) + f"\x1b[{style}m─\x1b[0m"
        column = label["offset"] + 1
    place = f"{section['source']['name']}:1:{labels[0]['offset'] + 1}"
    return [f"   ╭─[\x1b[36;1;4m{place}\x1b[0m]", " \x1b[2m1\x1b[0m │ source", f"   · {marks}", "   ╰────"]


def large_source(dice, size, is_cut):
    """A source of `size` bytes and a few more: of short lines, of some wide ones, or of one where lines are cut."""
    kind = dice.choice(["short", "short", "wide", "one"] if is_cut else ["short", "short", "wide"])
    ends = dice.choice([["\n"], ["\n"], ["\r\n"], ["\n", "\r\n", "\r"]])
    rows, length = [], 0
    while length < size:
        row = dice.choice(fold_cases.WORDS) * dice.choice([1, 1, 2, 3])
        if kind != "short":
            row = cut_cases.text_of(dice, 0, dice.choice([6, 6, 60]))
        rows.append(row + ("" if kind == "one" else dice.choice(ends)))
        length += len(rows[-1].encode())
    return {"name": dice.choice(["large.rs", "src/漢"]), "text": "".join(rows)}


def large_labels(dice, source, count, is_folded):
    """`count` labels over a source, most of them in a line; some of hundreds of lines where these are folded."""
    length, labels = len(source["text"].encode()), []
    lengths = [0, 1, 1, 3, 3, 7, 12, dice.randint(1, 60)] + ([dice.randint(2_000, 9_000)] if is_folded else [])
    for at in range(count):
        size = dice.choice(lengths[: 9 if at % 16 == 0 else 8])
        label = {"offset": dice.randint(0, length - 1), "length": size}
        label["length"] = min(size, length - label["offset"])
        if dice.random() < 0.6:
            label["label"] = dice.choice(cut_cases.TEXTS)
        if dice.random() < 0.1:
            label["primary"] = True
        labels.append(label)
    return labels


def large_section(dice, size, page):
    """A large source with its labels: now and then one of these is refused."""
    source = large_source(dice, size, page.snippets.line_columns is not None)
    count = dice.choice([40, 100, 150]) if len(source["text"].splitlines()) > 400 else 30
    labels = large_labels(dice, source, count, page.snippets.label_lines is not None)
    if dice.random() < 0.15:
        dice.choice(labels)["offset"] += size * 2
    return {"source": source, "labels": labels}


def large(number):
    """A report over large sources, with causes and related reports, of which some inherit its first source."""
    dice = random.Random(number)
    page = Page(dice.choice([80, 120, 300]), wraps=dice.random() < 0.7, nested=dice.random() < 0.5)
    columns, lines = dice.choice([None, 24, 40]), dice.choice([None, 3, 5])
    page = page._replace(snippets=Settings(dice.choice([0, 1, 1, 2]), 4, columns, lines))
    sizes = [20_000, 200_000] if number % LARGE == 0 else [20_000, dice.choice([20_000, 30_000])]
    first, *further = [large_section(dice, size, page) for size in sizes + [20_000] * dice.choice([0, 0, 1])]
    report = {"message": dice.choice(MESSAGES), **first, "snippets": further}
    inner = {"message": dice.choice(MESSAGES), "labels": large_labels(dice, first["source"], 40, lines is not None)}
    if dice.random() < 0.5:
        inner["snippets"] = [section_of(dice), large_section(dice, 20_000, page)]
    own = report_of(dice, first["source"], 0) if dice.random() < 0.3 else {"message": "m", **section_of(dice)}
    under = dice.choice([["cause"], ["related"], ["cause", "related"], ["related", "cause"]])
    for it, below in zip(under, [inner, own]):
        report[it] = [below] if it == "related" else below
    return report, deep_cases.words_of(page), page


def large_coloured(number):
    """Labels in several large sources, in colour: no two marks meet, and a text has its line for itself."""
    dice = random.Random(number)
    sections = [coloured_section(dice, name) for name in "abc"[: dice.choice([2, 3])]]
    drawn = Settings(dice.choice([1, 1, 2]), placed=True)
    report = {"message": "m", **sections[0], "snippets": sections[1:]}
    words = ["--theme", "unicode", "--context", str(drawn.context)]
    rows, before = ["  \x1b[31m×\x1b[0m m"], 0
    for it in sections:
        plain = snippet_rows(it["labels"], drawn, it["source"]["name"], it["source"]["text"].encode())
        rows += in_colours(plain, before)
        before += len(it["labels"])
    return report, words, "".join(row + "\n" for row in rows)


def coloured_section(dice, name):
    """A source of lines that are alike, with labels on some of them, in any order."""
    line, labels = "let source = text;\n", []
    for at in sorted(dice.sample(range(1_000), 120)):
        many = dice.random() < 0.5
        for offset in dice.choice([[0, 4], [4, 9, 13], [0, 6, 11, 17]]) if many else [dice.randint(0, 12)]:
            label = {"offset": at * len(line) + offset, "length": dice.choice([1, 1, 0] if many else [1, 3, 5])}
            labels.append(label if many else {**label, "label": dice.choice(["here", "漢字", "two words"])})
    dice.shuffle(labels)
    return {"source": {"name": name, "text": line * 1_100}, "labels": labels}


def in_colours(plain, before):
    """The plain rows of such labels in colour, the first mark in the highlight after `before` labels."""
    rows, styles = [], (HIGHLIGHTS[at % len(HIGHLIGHTS)] for at in range(before, 10_000))
    for row in plain:
        if "╭─[" in row:
            row = re.sub(r"\[(.*)\]$", "[\x1b[36;1;4m\\1\x1b[0m]", row)
        elif "╰──" in row and "·" in row:
            row = re.sub("╰── .*", f"\x1b[{style}m\\g<0>\x1b[0m", row)
        elif "·" in row:
            parts = re.split("([─┬▲]+)", row)
            for at in range(1, len(parts), 2):
                style = next(styles)
                parts[at] = f"\x1b[{style}m{parts[at]}\x1b[0m"
            row = "".join(parts)
        else:
            row = re.sub(r"^ ( *\d+) │", " \x1b[2m\\1\x1b[0m │", row)
        rows.append(row)
    return rows


def case(number):
    if number < COUNT or 0 <= number - COUNT - WITH_COLOURS < LARGE:
        report, words, page = (chance if number < COUNT else large)(number)
        text = whole_picture(report, page)
    else:
        report, words, text = (coloured if number < COUNT + WITH_COLOURS else large_coloured)(number)
    wanted = {"what": "labels over several sources", "argv": ["job", *words], "report": report}
    return {**wanted, "stdout_text": text, "status": 0, "stderr": ""}


if __name__ == "__main__":
    for number in range(COUNT + WITH_COLOURS + LARGE + LARGE_WITH_COLOURS):
        print(json.dumps(case(number), ensure_ascii=False))
