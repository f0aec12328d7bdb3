#!/usr/bin/env python3
"""separator_cases.py: writes the cases of `job --separator unicode` (job-separator.jsonl) to standard output.

Messages and help texts by chance from a fixed seed, in several scripts, with the rows that the rules ask for. The
classes of the characters that stand in them are written out here, and the rules of UAX #14 are gone through as the
annex has them, rule by rule, over all characters before a place. What a line holds: run.py."""
import json
import random
import re

COUNT = 400

# characters by their class, and how many columns each has
CLASSES = {
    "AL": "abcdefghijklmnopqrstuvwxyzABCXYZ#&*<=>@^_~`éßж", "NU": "0123456789", "SP": " ", "HY": "-", "QU": "\"'",
    "IS": ".,:;", "EX": "!?", "SY": "/", "OP": "([{", "CP": ")]", "CL": "}", "PR": "$+\\€", "PO": "%¢°", "BA": "|\u00ad",
    "GL": "\u00a0", "CM": "\u0301\u0308", "ZW": "\u200b", "WJ": "\u2060", "HL": "אבג", "BK": "\u000b\u000c",
    "RI": "🇩🇪🇫🇷", "IN": "…", "B2": "—",
}
WIDE = {
    "ID": "漢字設定見つ書かきくけこさし日本語", "NS": "ーっゃ々", "CL": "、。」）", "OP": "「（", "H2": "가", "H3": "각한",
    "EB": "👍", "EM": "🏽",
}
# what only the worked text has
WORKED = {"ID": "フイルの中にポト番号がりませんうよてだい", "NS": "ァ"}
CLASS = {c: k for table in (WORKED, CLASSES, WIDE) for k, cs in table.items() for c in cs}
IS_WIDE = {c for table in (WORKED, WIDE) for cs in table.values() for c in cs}
HELP = "設定ファイル「settings.toml」の中に、ポート番号が見つかりません。「port = 8080」のように書いてください。"
NARROW = {c: 0 for k in ("CM", "ZW", "WJ", "BK") for c in CLASSES[k]} | {"\u00ad": 0}


def columns(text):
    return sum(2 if c in IS_WIDE else NARROW.get(c, 1) for c in text)


def pairs(left, right):
    """LB21, LB22, LB23 to LB29: whether no line is broken between characters of these classes."""
    letters = ("AL", "HL")
    ideographs = ("ID", "EB", "EM")
    hangul = ("JL", "JV", "JT", "H2", "H3")
    return (
        right in ("BA", "HY", "NS") or left == "BB" or (left == "SY" and right == "HL") or right == "IN"
        or (left in letters and right == "NU") or (left == "NU" and right in letters)
        or (left == "PR" and right in ideographs) or (left in ideographs and right == "PO")
        or (left in ("PR", "PO") and right in letters) or (left in letters and right in ("PR", "PO"))
        or (left in ("CL", "CP", "NU") and right in ("PO", "PR"))
        or (left in ("PO", "PR") and right in ("OP", "NU"))
        or (left in ("HY", "IS", "NU", "SY") and right == "NU")
        or (left in hangul and right == "PO") or (left == "PR" and right in hangul)
        or (left in letters and right in letters) or (left == "IS" and right in letters)
    )


def may_break(text, place):
    """Whether a line may or must end before the character at a place, by all that stands before it."""
    before, after = text[:place], text[place]
    last, next_class = CLASS[before[-1]], CLASS[after]
    if last == "BK":
        return True  # LB4
    if next_class in ("BK", "SP", "ZW"):
        return False  # LB6, LB7
    if re.search("\u200b *$", before):
        return True  # LB8
    if next_class == "CM" and last not in ("BK", "SP", "ZW"):
        return False  # LB9
    # LB9, LB10: what a mark belongs to stands for both; else it is a letter
    bases = []
    for c in before:
        if CLASS[c] != "CM":
            bases.append((CLASS[c], c in IS_WIDE))
        elif not bases or bases[-1][0] in ("BK", "SP", "ZW"):
            bases.append(("AL", False))
    right, right_wide = ("AL", False) if next_class == "CM" else (next_class, after in IS_WIDE)
    left, left_wide = bases[-1]
    unspaced = [base for base in bases]
    while unspaced and unspaced[-1][0] == "SP":
        unspaced.pop()
    head = unspaced[-1][0] if unspaced else "sot"
    if "WJ" in (left, right):
        return False  # LB11
    if left == "GL" or (right == "GL" and left not in ("SP", "BA", "HY")):
        return False  # LB12, LB12a
    if right in ("CL", "CP", "EX", "IS", "SY"):
        return False  # LB13
    if head == "OP" or (head == "QU" and right == "OP") or (head in ("CL", "CP") and right == "NS"):
        return False  # LB14 to LB16
    if head == "B2" and right == "B2":
        return False  # LB17
    if left == "SP":
        return True  # LB18
    if "QU" in (left, right):
        return False  # LB19
    if left in ("HY", "BA") and len(bases) > 1 and bases[-2][0] == "HL":
        return False  # LB21a
    if pairs(left, right):
        return False
    if left in ("AL", "HL", "NU") and right == "OP" and not right_wide:
        return False  # LB30
    if left == "CP" and not left_wide and right in ("AL", "HL", "NU"):
        return False
    if left == "RI" and right == "RI":
        flags = 0
        while flags < len(bases) and bases[-1 - flags][0] == "RI":
            flags += 1
        return flags % 2 == 0  # LB30a
    return not (left == "EB" and right == "EM")  # LB30b, LB31


def words(line, separator):
    """The words of a line, each with the spaces after it."""
    if separator == "ascii":
        return re.findall("[^ ]* +|[^ ]+", line)
    found, begin = [], 0
    for place in range(1, len(line)):
        if line[place - 1] not in "-\u00ad" and may_break(line, place):
            found.append(line[begin:place])
            begin = place
    return found + [line[begin:]] if line else []


def cut(letters, narrow):
    """A word's letters, cut after hyphens, and where they are too wide."""
    for piece in re.sub(r"(?<=[0-9A-Za-z])-(?=[0-9A-Za-z])", "-\0", letters).split("\0"):
        part, used = "", 0
        for c in piece:
            if used and narrow < used + columns(c):
                yield part
                part, used = "", 0
            part, used = part + c, used + columns(c)
        yield part


def parts(line, narrow, separator):
    """What a line is cut into: letters, and the spaces after them."""
    for word in words(line, separator):
        letters = word.rstrip(" ")
        pieces = list(cut(letters, narrow))
        for piece in pieces[:-1]:
            yield piece, ""
        yield pieces[-1], word[len(letters):]


def wrapped(text, width, indents, separator):
    """The text under its indents."""
    first, further = indents
    rooms = max(width - columns(first), 0), max(width - columns(further), 0)
    rows = []
    for line in text.split("\n"):
        row = None
        for letters, spaces in parts(line, min(rooms), separator):
            room = rooms[1] if rows else rooms[0]
            if row is not None and room < columns(row) + columns(letters):
                rows.append(row)
                row = None
            row = (row or "") + letters + spaces
        rows.append(row or "")
    fronts = [first] + [further] * (len(rows) - 1)
    return "\n".join(front + row.rstrip(" ") for front, row in zip(fronts, rows))


SCRIPTS = ["AL NU SP HY", "ID NS CL OP SP AL", "ID AL NU SP PO PR", "AL SP OP CP CL QU EX IS SY", "HL SP HY AL NU",
           "RI AL SP", "EB EM ID CM SP", "H2 H3 SP IS CP OP", " ".join(CLASSES), " ".join([*CLASSES, *WIDE])]


def text_of(dice):
    kinds = dice.choice(SCRIPTS).split()
    pools = [CLASSES.get(k, "") + WIDE.get(k, "") for k in kinds]
    text = "".join(dice.choice(dice.choice(pools)) for _ in range(dice.randint(1, 50)))
    if dice.random() < 0.3:
        text = re.sub("(?<=...)(?=....)", lambda _: dice.choice(["", "", "", " "]), text)
    return text if dice.random() < 0.8 else text + "\n" + text[: dice.randint(0, 20)]


def case(report, width, separator):
    shown = wrapped(report["message"], width - 2, ("  × ", "  │ "), separator) + "\n"
    shown += wrapped(report["help"], width - 2, ("  help: ", " " * 8), separator) + "\n"
    argv = ["job", "--graphical", "--theme", "unicode_nocolor", "--separator", separator, "--width", str(width)]
    return {"argv": argv, "report": report, "stdout_text": shown, "status": 0, "stderr": ""}


def chance(number):
    dice = random.Random(number)
    width = dice.randint(8, 44)
    return case({"message": text_of(dice), "help": text_of(dice)}, width, "unicode")


def main():
    cases = [case({"message": "m", "help": HELP}, 40, separator) for separator in ("ascii", "unicode")]
    for found in cases + [chance(number) for number in range(COUNT)]:
        print(json.dumps(found, ensure_ascii=False))


if __name__ == "__main__":
    main()
