"""fix_edits.py: sources and fixes by chance, for the scripts that make cases of pictures of fixes and of brief reports.

The sources have lines of every kind, some of them alike; the fixes change words, whole lines, blanks, terminators, the
end, single bytes of characters, or nothing at all."""
from fix_cases import MESSAGES, SURE
from fix_model import Edit, refusal
from model import lines_of

WORDS = ["a", "be", "fn x(y)", "let a = lenght;", "return", "é", "漢字", "e\u0301", "=1;", "x\u200by", "if z {", "}"]
BLANKS = [" ", "  ", "\t", " \t", "    ", "\u3000", "\u00a0"]
RARE = ["\x1b[31mr\x1b[0m", "\x01", "\ufffd", "\x1b["]
NAMES = ["f.rs", "f.rs", "src/漢", "", "a b.c"]
ENDS = [["\n"], ["\n"], ["\n"], ["\r\n"], ["\r"], ["\n", "\r\n", "\r"]]


def line_text(dice, most=3):
    """The text of a line: blanks in front in some, words, and blanks at the end in some."""
    text = dice.choice(["", "", "    ", "\t", "  \t"])
    for _ in range(dice.randint(0, most)):
        text += dice.choice(RARE) if dice.random() < 0.02 else dice.choice(WORDS)
        text += dice.choice(BLANKS) if dice.random() < 0.5 else ""
    return text


def source_of(dice, most, long=0.0):
    """Up to `most` lines, each of them long with the chance `long`."""
    ends, rows = dice.choice(ENDS), []
    for _ in range(dice.randint(0, most)):
        again = rows and dice.random() < 0.2
        text = dice.choice(rows) if again else line_text(dice, 20 if dice.random() < long else 3)
        rows.append(text)
    text = "".join(it + dice.choice(ends) for it in rows)
    text += line_text(dice) if dice.random() < 0.3 else ""
    source = {"text": text}
    if dice.random() < 0.75:
        source["name"] = dice.choice(NAMES)
    return source


# ---- edits of each kind: where they begin and end, in bytes, and the text


def word(dice, data, line):
    begin = dice.randint(line.start, line.text_end)
    end = min(begin + dice.randint(0, 6), line.text_end)
    return begin, end, dice.choice([*WORDS, "", "x", "len"])


def whole_lines(dice, data, line):
    lines = [it for it in lines_of(data) if it.start >= line.start][: dice.choice([1, 1, 2, 3])]
    made = "".join(line_text(dice) + dice.choice(["\n", "\n", "\r\n"]) for _ in range(dice.choice([0, 0, 1, 2, 3])))
    return line.start, (lines or [line])[-1].end, made


def new_lines(dice, data, line):
    made = "".join(line_text(dice) + "\n" for _ in range(dice.choice([1, 1, 2, 4])))
    return line.start, line.start, made


def blanks_in_front(dice, data, line):
    text = data[line.start : line.text_end]
    return line.start, line.start + len(text) - len(text.lstrip(b" \t")), dice.choice([*BLANKS, "", "        "])


def blanks_at_end(dice, data, line):
    text = data[line.start : line.text_end]
    return line.start + len(text.rstrip(b" \t")), line.text_end, dice.choice(["", "", *BLANKS])


def terminator(dice, data, line):
    begin, end = dice.choice([(line.text_end, line.end), (line.end - 1, line.end), (line.text_end, line.text_end + 1)])
    return max(begin, line.start), min(max(end, begin), len(data)), dice.choice(["", "\n", "\r\n", "\r", "\n\n"])


def new_terminator(dice, data, line):
    at = dice.randint(line.start, line.end)
    return at, at, dice.choice(["\n", "\r", "\r\n", "\n  "])


def at_end(dice, data, line):
    return len(data), len(data), dice.choice(["\n", "x", "end\n", "\nmore\n", "\r\n", "\u200b"])


def the_same(dice, data, line):
    text = data[line.start : line.end].decode(errors="ignore")
    return line.start, line.start + len(text.encode()), text


def no_width(dice, data, line):
    at = dice.randint(line.start, line.text_end)
    return at, min(at + dice.choice([0, 2, 3]), line.text_end), dice.choice(["\u200b", "\u0301", "\u200b\u0301", ""])


KINDS = [word, word, word, whole_lines, new_lines, new_lines, blanks_in_front, blanks_at_end, terminator, terminator]
KINDS += [new_terminator, at_end, the_same, no_width]
LOOKS = [blanks_in_front, blanks_at_end, terminator, no_width, new_terminator, word]


def edit_of(dice, data, kinds, splits):
    """An edit; one that isn't to split characters is moved to their boundaries."""
    lines = lines_of(data) or lines_of(b"\n")
    line = dice.choice(lines)
    begin, end, text = dice.choice(kinds)(dice, data, line) if data else (0, 0, dice.choice(["", "x", "a\nb\n", "\n"]))
    if not splits:
        begin, end = (at_boundary(data, it) for it in (begin, end))
    return {"offset": begin, "length": max(end - begin, 0), "text": text}


def at_boundary(data, offset):
    while offset < len(data) and data[offset] & 0xC0 == 0x80:
        offset -= 1
    return offset


def edits_of(dice, data, kinds, most, bad):
    """Edits as they are given: by offset or not; of `bad` fixes in a hundred some overlap or go past the end."""
    splits = dice.random() < 0.1
    found = []
    for _ in range(dice.randint(1, most)):
        edit = edit_of(dice, data, kinds, splits)
        made = [Edit(it["offset"], it["length"], it["text"].encode()) for it in [*found, edit]]
        if refusal(data, made) is None or dice.random() * 100 < bad:
            found.append(edit)
    if found and dice.random() * 100 < bad:
        found[-1]["length"] += dice.choice([1, 2, 2**64 - 1])
        found[-1]["length"] = min(found[-1]["length"], 2**64 - 1)
    return found


def fix_of(dice, source, kinds=None, most=3, bad=7):
    """A fix over a source, or over none."""
    fix = {"message": dice.choice(MESSAGES)}
    if dice.random() < 0.5:
        fix["applicability"] = dice.choice(SURE)
    if dice.random() < 0.96:
        data = source["text"].encode() if source else b"ab\n"
        fix["edits"] = edits_of(dice, data, kinds or KINDS, most, bad)
    return fix
