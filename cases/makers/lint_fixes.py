#!/usr/bin/env python3
"""lint_fixes.py: writes the cases of `lint --fix` and `lint --diff` (lint-fix.jsonl) to standard output.

Sources of any bytes are drawn by chance from a fixed seed: blanks in front and at the end, every kind of terminator,
wide lines, bytes that are no UTF-8, and up to 200 lines, with what the rules ask for (lint_model.py). What a line
holds: run.py."""
import base64
import json
import random

import lint_model

COUNT = 300
PIECES = [b"a", b"be", b"fn x(y)", "é".encode(), "漢字".encode(), "e\u0301".encode(), b"=1;", b"a b"]
RARE = [b"\xff", b"\xe6\xbc", b"\x1b[31mr\x1b[0m", b"\x01", "\u3000".encode(), "\u200b".encode(), b"\x80\x80", b"\x1b"]
BLANKS = [b"", b"", b" ", b"    ", b"\t", b" \t", b"  \t\t ", b"\t \t", b"     \t"]
ENDS = [[b"\n"], [b"\n"], [b"\r\n"], [b"\r"], [b"\n", b"\r\n", b"\r"]]
WIDTHS = [0, 1, 2, 5, 8, 20, 80, 80, 80, 2**64 - 1]


def line_of(dice, rare):
    text = dice.choice(BLANKS)
    for _ in range(dice.choice([0, 1, 1, 2, 3, 8])):
        text += dice.choice(RARE if dice.random() < rare else PIECES) + dice.choice([b"", b"", b" ", b"\t"])
    return text + dice.choice(BLANKS)


def source_of(dice):
    ends, rare = dice.choice(ENDS), dice.choice([0, 0, 0.05, 0.3])
    most = dice.choice([0, 1, 2, 4, 6, 12]) if dice.random() < 0.93 else 200
    clean = dice.random() < 0.1
    text = b""
    for _ in range(dice.randint(0, most)):
        text += (b"a" if clean else line_of(dice, rare)) + dice.choice(ends)
    return text + (line_of(dice, rare) if dice.random() < 0.4 and not clean else b"")


def of_bytes(name, data):
    try:
        return {f"{name}_text": data.decode()}
    except UnicodeDecodeError:
        return {name: base64.b64encode(data).decode()}


def case(number):
    dice = random.Random(number)
    data, name, width = source_of(dice), dice.choice(["f", "x.rs", "src/漢", ""]), dice.choice(WIDTHS)
    if number % 2:
        text, status = lint_model.diff(data, name, width)
        made, left = text.encode(), ""
    else:
        made, left, status = lint_model.fix(data, name, width)
    words = ["lint", "--diff" if number % 2 else "--fix", name, str(width)]
    wanted = {"what": "a linted source, mended", "argv": words, **of_bytes("stdin", data)}
    return {**wanted, **of_bytes("stdout", made), "status": status, "stderr": left}


if __name__ == "__main__":
    for number in range(COUNT):
        print(json.dumps(case(number), ensure_ascii=True))
