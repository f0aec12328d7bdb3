#!/usr/bin/env python3
"""fold_cases.py: writes the cases of `job --label-lines` (job-folded.jsonl) to standard output.

One report of ASCII is drawn by chance from a fixed seed, with the picture that the rules ask for (model.py). In some
labels at the source's end are drawn too, and in the last of them many lines are shown after the labels. What a line
holds: run.py."""
import json
import random

from model import Settings, lines_of, picture

COUNT = 400
WITH_ENDS = 60
WITH_MORE = 24

WORDS = ["a", "be", "if x {", "}", "\tlet y = 1;", "return", "", "  z", "loop {", "\tq"]
TEXTS = ["here", "p", "two words", "one\ntwo", "", "p\n\nq", "never closed"]


def source_of(dice, most):
    ends = dice.choice([["\n"], ["\n"], ["\n", "\r\n", "\r"]])
    rows = [dice.choice(WORDS) + dice.choice(ends) for _ in range(dice.randint(0, most))]
    source = {"text": "".join(rows) + dice.choice(["", "", "end"])}
    if dice.random() < 0.6:
        source["name"] = dice.choice(["f.rs", "dir/bad_file.rs", ""])
    return source


def label_of(dice, data, own):
    """Mostly from somewhere in a line to somewhere in a line, or to its end, with the terminator or without it."""
    length = len(data)
    ends = [0, length] + [place for line in lines_of(data) for place in (line.start, line.text_end, line.end)]
    begin = dice.choice([dice.choice(ends), dice.randint(0, length)])
    ends = [dice.choice(ends), dice.choice(ends), dice.randint(0, length), length, begin, begin + 1]
    end = dice.choice(ends)
    begin, end = min(begin, end), min(max(begin, end), length + 1)
    label = {"offset": begin, "length": end - begin}
    if dice.random() < 0.7:
        label["label"] = dice.choice(TEXTS)
    if dice.random() < 0.2:
        label["primary"] = True
    if own and dice.random() < 0.5:
        label["context"] = dice.randint(1, 4)
    if dice.random() < 0.005:
        label["offset"] += length + 2
    return label


def worked(number):
    """A function of 42 lines that is never closed: folded; with as many lines as it has; with another label inside."""
    rows = ["fn main() {", "    let a = 1;"] + ["    step();"] * 38 + ["    print(a)", "}"]
    text = "\n".join(rows)
    labels = [{"offset": 0, "length": len(text), "label": "this is never closed"}]
    if number == 2:
        labels.append({"offset": text.index("step", 300), "length": 4, "label": "here"})
    return {"message": "m", "source": {"name": "f.rs", "text": text}, "labels": labels}, 1, (5, 42, 41)[number]


def chance(number):
    dice = random.Random(number)
    source = source_of(dice, dice.choice([9, 15, 20, 30, 60, 120]))
    own = dice.random() < 0.25
    labels = [label_of(dice, source["text"].encode(), own) for _ in range(dice.choice([1, 1, 2, 2, 3, 4]))]
    report = {"message": "m", "source": source, "labels": labels}
    return report, dice.choice([1, 1, 1, 1, 2, 3]), dice.choice([1, 1, 2, 3, 3, 4, 5, 7, 12])


def with_ends(number):
    """The same, with one or two labels more at the source's end."""
    report, context, limit = chance(number)
    dice = random.Random(number + COUNT)
    for _ in range(dice.choice([1, 1, 2])):
        label = {"offset": len(report["source"]["text"]), "length": dice.choice([0, 0, 1])}
        if dice.random() < 0.8:
            label["label"] = dice.choice(TEXTS)
        report["labels"].insert(dice.randint(0, len(report["labels"])), label)
    return report, dice.choice([0, context, context]), limit


def with_more(number):
    """Labels that begin in the first third of many lines, of which many more are shown: one may go on to the last."""
    dice = random.Random(number)
    ends = dice.choice([["\n"], ["\r\n"], ["\r"], ["\n", "\r\n", "\r"]])
    rows = [dice.choice(WORDS) + dice.choice(ends) for _ in range(dice.randint(150, 300))]
    text = "".join(rows) + dice.choice(["", "end"])
    labels = [label_of(dice, text[: len(text) // 3].encode(), False) for _ in range(dice.choice([1, 1, 2, 3]))]
    if dice.random() < 0.5:
        begin = dice.randint(0, len(text) // 3)
        labels.append({"offset": begin, "length": len(text) - begin - dice.randint(0, 20), "label": dice.choice(TEXTS)})
    report = {"message": "m", "source": {"name": "f.rs", "text": text}, "labels": labels}
    return report, dice.choice([60, 200, 400]), dice.choice([3, 5, 1000])


def words_of(dice, context, limit):
    """Words that ask for this, of which the last one counts."""
    words = [["--context", str(context)]] if context != 1 or dice.random() < 0.2 else []
    if dice.random() < 0.2:
        words.append(["--label-lines", str(dice.randint(1, 9))])
    words += [["--label-lines", str(limit)], ["--theme", "unicode_nocolor"]]
    return [word for group in words for word in group]


def case(number):
    more = number >= COUNT + WITH_ENDS
    ends = COUNT <= number and not more
    made = with_more if more else with_ends if ends else worked if number < 3 else chance
    report, context, limit = made(number)
    argv = ["job", *words_of(random.Random(-number), context, limit), *(["--end-labels", "yes"] if ends else [])]
    text = picture(report, Settings(context, label_lines=limit, end_labels=ends))
    return {"what": "folded labels", "argv": argv, "report": report, "stdout_text": text, "status": 0, "stderr": ""}


if __name__ == "__main__":
    for number in range(COUNT + WITH_ENDS + WITH_MORE):
        print(json.dumps(case(number), ensure_ascii=True))
