#!/usr/bin/env python3
"""fix_cases.py: writes the cases of what `job --fix` applies (job-applied.jsonl) to standard output.

Sources and edits are drawn by chance from a fixed seed: overlapping, touching and empty ones, every kind of terminator,
with the text that the rules ask for (fix_model.py). Of the last ones some begin or end inside a character, so that the
text after them is no UTF-8. What a line holds: run.py."""
import json
import random

from fix_model import Edit, taken
from lint_fixes import of_bytes
from model import lines_of

TEXTS, SPLIT_TEXTS = 2000, 200
PIECES = ["a", "be", "fn x(y)", "é", "漢", "\t", "  ", "=1;", " ", "e\u0301"]
INSERTED = ["", "", "x", "\n", "x\n", "a\nb", "\r", "\r\n", " ", "    ", "\t", "漢", "é=", "\n\n", "long text here"]
MESSAGES = ["m", "a colon is missing", "put a well-known word here, in place of the other one", "two\nrows"]
SURE = ["machine-applicable", "maybe-incorrect", "has-placeholders", "unspecified"]


def source_of(dice):
    """Short lines, some of them the same, with every kind of terminator."""
    ends = dice.choice([["\n"], ["\n"], ["\r\n"], ["\r"], ["\n", "\r\n", "\r"]])
    rows = []
    for _ in range(dice.choice([0, 1, 2, 3, 5, 8, 12])):
        text = dice.choice(rows)[0] if rows and dice.random() < 0.3 else cut_text(dice)
        rows.append((text, dice.choice(ends)))
    text = "".join(text + end for text, end in rows) + dice.choice(["", "", cut_text(dice)])
    source = {"text": text}
    if dice.random() < 0.7:
        source["name"] = dice.choice(["f.rs", "src/漢"])
    return source


def cut_text(dice):
    return "".join(dice.choice(PIECES) for _ in range(dice.choice([0, 1, 1, 2, 3, 8, 20])))


def boundaries(text):
    """The bytes at which characters begin."""
    places = [0]
    for character in text:
        places.append(places[-1] + len(character.encode()))
    return places


def edit_of(dice, text, splits=False):
    data = text.encode()
    places = range(len(data) + 1) if splits else boundaries(text)
    ends = [place for line in lines_of(data) for place in (line.start, line.text_end, line.end)] or [0]
    begin = dice.choice([dice.choice(places), dice.choice(ends)])
    end = dice.choice([begin, begin, dice.choice(places), dice.choice(ends), min(begin + 1, len(data))])
    begin, end = min(begin, end), max(begin, end)
    if end not in places:
        end = begin
    made = dice.choice(INSERTED)
    if dice.random() < 0.1:
        made = data[begin:end].decode(errors="ignore")
    if dice.random() < 0.02:
        end = len(data) + 1
    return {"offset": begin, "length": end - begin, "text": made}


def fix_of(dice, text, splits=False):
    edits = [edit_of(dice, text, splits) for _ in range(dice.choice([0, 1, 1, 1, 1, 2, 2, 3, 4]))]
    return {"message": dice.choice(MESSAGES), "applicability": dice.choice(SURE), "edits": edits}


def edits_of(fix):
    return [Edit(it["offset"], it["length"], it["text"].encode()) for it in fix["edits"]]


def applied_of(dice, splits):
    """The words, a report, the text that comes of it, in bytes, and the status."""
    source = source_of(dice)
    fixes = [fix_of(dice, source["text"], splits) for _ in range(dice.choice([0, 1, 1, 2, 3, 5]))]
    report = {"message": "m", "source": source, "fixes": fixes}
    every = dice.random() < 0.5
    asked = [edits_of(it) for it in fixes if every or it["applicability"] == "machine-applicable"]
    took, made = taken(source["text"].encode(), asked)
    return ["job", "--fix=all" if every else "--fix"], report, made, 0 if all(took) else 5


def is_text(data):
    try:
        data.decode()
    except UnicodeDecodeError:
        return False
    return True


def drawn(number):
    dice, splits = random.Random(-number), number >= TEXTS
    made = applied_of(dice, splits)
    while splits and is_text(made[2]):
        made = applied_of(dice, splits)
    return made


def case(number):
    words, report, wanted, status = drawn(number)
    shown = {"what": "applied fixes", "argv": words, "report": report}
    return {**shown, **of_bytes("stdout", wanted), "status": status, "stderr": ""}


if __name__ == "__main__":
    for number in range(TEXTS + SPLIT_TEXTS):
        print(json.dumps(case(number), ensure_ascii=False))
