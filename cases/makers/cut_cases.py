#!/usr/bin/env python3
"""cut_cases.py: writes the cases of `job --line-columns` and `--fit-lines` (job-cut.jsonl) to standard output.

Sources and labels are drawn by chance from a fixed seed, with the picture that the rules ask for (model.py). After 400
there are 40 in which labels at the end of the source are drawn, and 40 whose lines fit the width. What a line holds:
run.py."""
import json
import random

from model import Settings, picture

COUNT = 400
WITH_ENDS = 40
FITTING = 40
PIECES = ["a", "be", "fn x(y) ", "é", "漢字", "e\u0301", "\t", "  ", "=1;", "\x1b[31mr\x1b[0m", "_" * 9, "漢\u0301"]
TEXTS = ["here", "", "two\nrows", "漢", "this one\nand\nmore"]


def text_of(dice, least, most):
    return "".join(dice.choice(PIECES) for _ in range(dice.randint(least, most)))


def source_of(dice):
    text = ""
    for _ in range(dice.randint(1, 5)):
        long = dice.random() < 0.6
        text += text_of(dice, 12 if long else 0, 50 if long else 6) + dice.choice(["\n", "\n", "\r\n", "\r"])
    if dice.random() < 0.4:
        text += text_of(dice, 1, 40)
    source = {"text": text}
    if dice.random() < 0.6:
        source["name"] = dice.choice(["f.rs", "src/漢"])
    return source


def label_of(dice, data):
    offset = dice.randint(0, len(data) - 1)
    length = dice.choice([0, 1, 1, 3, dice.randint(0, 12), dice.randint(0, 80), dice.randint(0, len(data))])
    label = {"offset": offset, "length": min(length, len(data) - offset)}
    if dice.random() < 0.7:
        label["label"] = dice.choice(TEXTS)
    if dice.random() < 0.2:
        label["primary"] = True
    return label


def at_end(dice, data):
    label = {"offset": len(data), "length": dice.choice([0, 1])}
    if dice.random() < 0.8:
        label["label"] = dice.choice(TEXTS)
    return label


def fitting(dice):
    """Words by which lines are cut at a width, or aren't, and from how many columns on that is."""
    width, other = (str(dice.choice([24, 40, 60, 80, 100, dice.randint(20, 160)])) for _ in range(2))
    return dice.choice(
        [
            (["--fit-lines", "yes", "--width", width], int(width)),
            (["--term-width", width, "--fit-lines", "yes"], int(width)),
            (["--term-width", other, "--width", width, "--fit-lines", "yes"], int(width)),
            (["--fit-lines", "yes"], 80),
            (["--line-columns", width, "--width", other, "--fit-lines", "yes"], int(width)),
            (["--fit-lines", "no", "--line-columns", width, "--term-width", other], int(width)),
            (["--fit-lines", "yes", "--fit-lines", "no", "--width", other], None),
        ]
    )


def case(number):
    dice = random.Random(number)
    ends = COUNT <= number < COUNT + WITH_ENDS
    source = source_of(dice)
    data = source["text"].encode()
    labels = [label_of(dice, data) for _ in range(dice.choice([1, 1, 2, 2, 3, 5]))]
    if ends:
        labels = labels[: dice.randint(0, 2)] + [at_end(dice, data) for _ in range(dice.randint(1, 2))]
    report = {"message": "m", "source": source, "labels": labels}
    limit = dice.choice([1, 3, 4, 7, 8, 12, 16, 20, 40, 60, dice.randint(1, 200)])
    tab, context = dice.choice([4, 4, 8, 3]), dice.choice([0, 1, 2] if ends else [1, 1, 2])
    cutting = ["--line-columns", str(limit)]
    if number >= COUNT + WITH_ENDS:
        cutting, limit = fitting(dice)
    words = ["--theme", "unicode_nocolor", "--tab", str(tab), "--context", str(context), *cutting]
    words += ["--end-labels", "yes"] if ends else []
    text = picture(report, Settings(context, tab, line_columns=limit, end_labels=ends))
    wanted = {"what": "a cut line", "argv": ["job", *words], "report": report}
    return {**wanted, "stdout_text": text, "status": 0, "stderr": ""}


if __name__ == "__main__":
    for number in range(COUNT + WITH_ENDS + FITTING):
        print(json.dumps(case(number), ensure_ascii=True))
