#!/usr/bin/env python3
"""positions.py: tries lines and columns of sources of any bytes through the built program `show`.

Sources are drawn by chance from a fixed seed: with LF, CR LF and lone CR, characters past U+FFFF, marks, byte order
marks, and in half of them bytes that are no UTF-8. SARIF logs, whose lines end as those of pictures, point to two
places in each, some after a line's text or inside a character, in columns of UTF-16 units or of characters. `--json`
says which bytes these are, `--github` gives their lines and columns in UTF-16 units, and `--brief` line and column of
the first in bytes. All are those of a model of the rules (crates/miette_positions/CALLING.md), made without
the program.

The last line is 'N passed, M failed', and the exit status is 0 only where nothing failed."""
import json
import os
import random
import re
import sys
import tempfile

from programs import built, judged, run

COUNT = 400
PIECES = ["a", "bc", " ", "\t", "\n", "\n", "\r\n", "\r\n", "\r", "\r", "é", "漢", "😀", "e\u0301", "\ufeff", "\u2028"]
PIECES += ["\x0b", "👩\u200d👧", "🇩🇪"]
# bytes that are no UTF-8: cut characters, lone parts, surrogates, overlong forms, what is past U+10FFFF
BROKEN = [b"\xff", b"\x80", b"\xf0\x9f", b"\xf0\x9f\x98", b"\xe6\xbc", b"\xc3", b"\xed\xa0\x80", b"\xc0\xaf"]
BROKEN += [b"\xf4\x90\x80\x80", b"\xf8", b"\xe0\x80"]
KINDS = {"utf16CodeUnits": "utf-16-le", "unicodeCodePoints": "utf-32-le"}
NEWLINES = ["\r\n", "\n", "\r"]
ROW = re.compile(r"::warning file=[0-9]+,line=(\d+),endLine=(\d+)(?:,col=(\d+),endColumn=(\d+))?::m\n")


# ---- the model


def characters(text):
    """The bytes of each character of a line's text. What is no UTF-8 is one, as far as it begins a character."""
    at = 0
    while at < len(text):
        size = 1
        for end in range(at + 1, min(at + 4, len(text)) + 1):
            try:
                text[at:end].decode()
            except UnicodeDecodeError as fault:
                if fault.reason != "unexpected end of data":
                    break
                size = end - at
            else:
                size = end - at
                break
        yield text[at : at + size]
        at += size


def lines_of(data):
    """Where each line begins, and its text; a line is there after a last terminator."""
    found, begin = [], 0
    for end in re.finditer(rb"\r\n|\n|\r", data):
        found.append((begin, data[begin : end.start()]))
        begin = end.end()
    return [*found, (begin, data[begin:])]


def units(text, encoding):
    """How many units a part of a line's text has."""
    size = 4 if encoding == "utf-32-le" else 2
    return sum(len(it.decode(errors="replace")[:1].encode(encoding)) // size for it in characters(text))


def offset_of(data, line, column, encoding):
    """The byte of a position, brought to the nearest one before it that there is."""
    begin, text = lines_of(data)[line]
    at = 0
    for it in characters(text):
        if units(text[: at + len(it)], encoding) > column:
            break
        at += len(it)
    return begin + at


def place_of(data, offset):
    """The line of a byte from 1, and what of that line's text is before it."""
    starts = [it for it, _ in lines_of(data) if it <= offset]
    return len(starts), data[starts[-1] : offset]


# ---- what is asked


def position(dice, data, encoding):
    """A line and a column from 0: most are a character's."""
    lines = lines_of(data)
    line = dice.randrange(len(lines))
    text = lines[line][1]
    column = dice.randint(0, units(text, encoding))
    return line, dice.choice([column, column, column, column + 1, 99, 2**40])


def asked(number, encoding):
    """A source, and two positions in it."""
    dice = random.Random(number)
    pieces = [it.encode() for it in PIECES] + (BROKEN if number % 2 else [])
    data = b"".join(dice.choice(pieces) for _ in range(dice.choice([0, 1, 2, 5, 9, 20, 20, 60])))
    return data, sorted(position(dice, data, encoding) for _ in range(2))


def result(number, places):
    """A result over the source of this number."""
    (line, column), (last, after) = places
    region = {"startLine": line + 1, "startColumn": column + 1, "endLine": last + 1, "endColumn": after + 1}
    place = {"artifactLocation": {"uri": str(number)}, "region": region}
    return {"message": {"text": "m"}, "locations": [{"physicalLocation": place}]}


def wanted(number, kind):
    """The bytes that are pointed to, their lines and columns, and the place in bytes."""
    data, places = asked(number, KINDS[kind])
    start, end = (offset_of(data, *it, KINDS[kind]) for it in places)
    (line, before), (last, after) = place_of(data, start), place_of(data, end)
    columns = None, None
    if line == last:
        first = units(before, "utf-16-le") + 1
        columns = first, max(first, units(after, "utf-16-le"))
    return (start, end - start), (line, last, *columns), (line, len(before) + 1)


def told(folder, log, form):
    status, output, faults = run(["show", "--from", "sarif", "--root", folder, form], log)
    if (status, faults) != (0, b""):
        raise RuntimeError((status, faults[:200]))
    return output.decode()


def found(folder, log):
    """The same of what the program writes, result by result."""
    spans = [json.loads(it)["labels"][0]["span"] for it in told(folder, log, "--json").splitlines()]
    regions = [tuple(int(it) if it else None for it in row) for row in ROW.findall(told(folder, log, "--github"))]
    starts = re.findall(r"^[0-9]+:(\d+):(\d+): warning: m$", told(folder, log, "--brief"), re.MULTILINE)
    places = [(int(line), int(column)) for line, column in starts]
    return zip([(it["offset"], it["length"]) for it in spans], regions, places, strict=True)


def cases():
    for kind, encoding in KINDS.items():
        with tempfile.TemporaryDirectory(dir=built("show")) as folder:
            results = []
            for number in range(COUNT):
                data, places = asked(number, encoding)
                with open(os.path.join(folder, str(number)), "wb") as file:
                    file.write(data)
                results.append(result(number, places))
            told_by = {"tool": {"driver": {"name": "t"}}, "columnKind": kind, "newlineSequences": NEWLINES}
            got = found(folder, json.dumps({"runs": [{**told_by, "results": results}]}).encode())
        for number, it in zip(range(COUNT), got, strict=True):
            right = wanted(number, kind)
            yield f"{kind} {number}", it == right, (asked(number, encoding), right, it)


if __name__ == "__main__":
    sys.exit(judged(cases()))
