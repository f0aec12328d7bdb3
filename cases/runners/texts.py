#!/usr/bin/env python3
"""texts.py: runs the built `job` on texts of control characters, wide ones and marks, and says what must hold.

Each of 300 texts is a message, a help, a source and a label's text, by each handler at each width from 0 to 10:
nothing is lost, and nothing comes twice. A linked cause is drawn in colours at each width from 0 to 40, which must be
the plain picture once the colours are deleted. Labels, of `lint` too, are read back from their JSON text. What `lint`
finds in 20 sources, worked by hand, stands byte by byte in its log. The last line is 'N passed, M failed', and the exit
status is 0 only where nothing failed."""
import json
import re
import subprocess
import sys
from concurrent.futures import ProcessPoolExecutor

from programs import PROCESSORS, SHOWN, counted, run

SEEDS, WIDTHS = range(300), range(11)
# What the texts are made of. Some signs stand here together too, so that they meet often.
PIECES = ["\t", "\r", "\n", "\x1b", "[", "m", " ", "-", "漢", "\u0301", "\ufffd", "\x1b[", "\x1b[m", "\r\n"]
MESSAGE_PIECES = ["\t", "\r", "\n", "\x1b", "[", "m", " ", "-", "漢", "\u0301", "\ufffd", '"', "\\", "\0"]
COLOUR = re.compile(r"\x1b\[[0-9;]*m")
# a text of colours, links and other sequences, and what is left where the colours are deleted
SEQUENCES = "\x1b[38;2;1;2;3mm\x1b[0m[m \x1b]8;;u\x1b\\\x1b\x1b[m\x1b[2K\x1b[1;"
WITHOUT_COLOURS = "m[m \x1b]8;;u\x1b\\\x1b\x1b[2K\x1b[1;"
LINKED = {"message": "in-ner text here", "code": "c::d", "url": "http://a-b/ c", "help": "try it"}
# sources, the columns that their lines may have, and what lint finds: text, offset, length
FOUND = [
    (b"x = 1 \n \ty\nend", 80, [("trailing blanks", 5, 1), ("tab after space", 8, 1), ("no final terminator", 13, 1)]),
    (b"\xe6\xbc\xa2a\n", 2, [("wider than 2 columns", 3, 1)]),
    (b" \t\n", 80, [("trailing blanks", 0, 2), ("tab after space", 1, 1)]),
    (b"", 0, []),
    (b"\n\r\r\n", 0, []),
    (b"a \t b\t \n", 80, [("trailing blanks", 5, 2)]),
    (b"\t \ta\n", 80, [("tab after space", 2, 1)]),
    (b"  \t\ta\n", 80, [("tab after space", 2, 1)]),
    (b"\t a\tb\n", 80, []),
    (b"x \tb\n", 80, []),
    (b"\ta\n", 4, [("wider than 4 columns", 1, 1)]),
    (b"\ta\n", 3, [("wider than 3 columns", 0, 2)]),
    (b"abc\rdef\n", 2, [("wider than 2 columns", 2, 1), ("wider than 2 columns", 6, 1)]),
    (b"e\xcc\x81e\xcc\x81\n", 1, [("wider than 1 columns", 3, 3)]),
    (b"ab\xe6\xbc\xa2", 80, [("no final terminator", 2, 3)]),
    (b"a\xff", 80, [("no final terminator", 1, 1)]),
    (b"a\xe6\xbc", 1, [("wider than 1 columns", 1, 2), ("no final terminator", 1, 2)]),
    (b"a ", 1, [("trailing blanks", 1, 1), ("wider than 1 columns", 1, 1), ("no final terminator", 1, 1)]),
    (b"\x1b[31mab\n", 1, [("wider than 1 columns", 6, 1)]),
    (b"a\r\nb \r\nc", 80, [("trailing blanks", 4, 1), ("no final terminator", 7, 1)]),
]


def text_of(seed):
    """The text of a seed: up to 12 pieces."""
    state, text = seed, ""
    for _ in range(1 + seed % 12):
        state = (state * 6364136223846793005 + 1442695040888963407) % 2**64
        text += PIECES[(state >> 33) % 14]
    return text


def message_of(seed):
    """Six pieces, quotation marks and zeros among them."""
    return "".join(MESSAGE_PIECES[(seed * (2 * place + 1) + place * place) % 14] for place in range(1, 7))


def written(words, report):
    """What `job` writes for these words and a description; nothing, where it ends with a fault."""
    status, shown, fault = run(["job", *map(str, words)], json.dumps(report).encode())
    return None if status or fault else shown.decode()


def lines_of(text):
    """How many lines the text has as a source."""
    return len(re.findall(r"[^\r\n]*(?:\r\n|\r|\n)|[^\r\n]+", text))


def without(text, dropped):
    return "".join(it for it in text if it not in dropped)


def plain(text):
    return {"message": text, "help": text}


def whole(text):
    """A report with this text as its message, its help, its source, and the text of a label over the whole source."""
    label = {"offset": 0, "length": len(text.encode()), "label": text}
    return {"message": text, "help": text, "source": {"text": text}, "labels": [label]}


def keeps_its_texts(text, width):
    """No character of message and help is lost but spaces, and none comes twice."""
    picture = written(["--term-unicode", "yes", "--context", "99", "--width", width], plain(text))
    return picture is not None and without(picture, " \n×│help:") == without(text + text, " \n")


def shows_its_lines(text, width):
    """Each line of the source has its one row, and no character of it is lost but spaces and tabs."""
    picture = written(["--term-unicode", "yes", "--context", "99", "--width", width], whole(text))
    if picture is None:
        return False
    rows = [row for row in picture.split("\n") if row.lstrip(" ")[:1].isdecimal()]
    kept = without("".join(rows), " 0123456789│╭├╰─▶")
    return len(rows) == lines_of(text) and kept == without(text, " \t\r\n")


def tells_its_texts(text, width):
    """Message and help stand as they are, and each line has its row."""
    told = written(["--narrated", "--context", "99", "--width", width], whole(text))
    head = "\n    Diagnostic severity: error\nBegin snippet starting at line 1, column 1\n\nsnippet line 1: "
    return (
        told is not None
        and told.startswith(text + head)
        and told.endswith(f"\ndiagnostic help: {text}\n")
        and told.count("\nsnippet line ") == lines_of(text)
    )


def reads_back(text, width):
    """The texts are read back from the JSON text, by another reader."""
    read = json.loads(written(["--json", "--width", width], whole(text)) or "{}")
    label = {"label": text, "span": {"offset": 0, "length": len(text.encode())}}
    return (read.get("message"), read.get("help"), read.get("labels")) == (text, text, [label])


def is_one_row(text, width):
    """The debug report is one row, without a control character."""
    told = written(["--debug", "--width", width], whole(text)) or ""
    row = told.removesuffix(" }\n")
    controls = [it for it in row if ord(it) < 32 or 127 <= ord(it) < 160]
    return row != told and row.startswith('Diagnostic { message: "') and not controls


def message_reads_back(seed):
    message = message_of(seed)
    return json.loads(written(["--json"], {"message": message}) or "{}").get("message") == message


def are_found(source, width, found):
    """These are the results of the log of `lint`, byte by byte."""
    status, log, fault = run(["lint", "--sarif", "f", str(width)], source)
    results = []
    for it in json.loads(log)["runs"][0]["results"]:
        region = it["locations"][0]["physicalLocation"]["region"]
        results.append((it["message"]["text"], region["byteOffset"], region["byteLength"]))
    return (status, fault, results) == (int(found != []), b"", found)


def labels_read_back(found):
    """The JSON report's labels are these, as another reader reads them."""
    labels = [{"label": text, "offset": offset, "length": length} for text, offset, length in found]
    report = {"message": "m", "source": {"text": "x" * 20, "name": "f"}, "labels": labels}
    read = json.loads(written(["--json"], report) or "{}").get("labels")
    wanted = [{"label": text, "span": {"offset": offset, "length": length}} for text, offset, length in found]
    return read == wanted


def fades(coloured, uncoloured, width):
    """The picture has colours, and without them it is the plain one."""
    report = {"message": "outer", "cause": LINKED}
    words = ["--links", "yes", "--width", width]
    picture, wanted = written([*coloured, *words], report), written([*uncoloured, *words], report)
    if picture is None or wanted is None:
        return False
    return len(picture) > len(wanted) and COLOUR.sub("", picture) == wanted


def deletes_colours(text, wanted):
    return COLOUR.sub("", text) == wanted


UNICODE = (("--theme", "unicode"), ("--theme", "unicode_nocolor"))
ASCII = (("--theme", "ascii"), ("--theme", "none"))
RGB = (("--term-unicode", "yes", "--term-color", "rgb", "--rgb", "always"), UNICODE[1])

OF_TEXTS = (keeps_its_texts, shows_its_lines, tells_its_texts, reads_back, is_one_row)

CHECKS = (
    [(it, text_of(seed), width) for it in OF_TEXTS for width in WIDTHS for seed in SEEDS]
    + [(message_reads_back, seed) for seed in SEEDS]
    + [(are_found, *row) for row in FOUND]
    + [(labels_read_back, found) for _, _, found in FOUND]
    + [(fades, *look, width) for look in (UNICODE, ASCII, RGB) for width in range(41)]
    + [(deletes_colours, SEQUENCES, WITHOUT_COLOURS)]
)


def holds(check):
    function, *given = check
    try:
        return function(*given)
    except (OSError, ValueError, subprocess.TimeoutExpired) as fault:
        print(fault)
        return False


def main():
    with ProcessPoolExecutor(PROCESSORS) as pool:
        failed = [check for check, held in zip(CHECKS, pool.map(holds, CHECKS, chunksize=50)) if not held]
    for function, *given in failed[:SHOWN]:
        print(f"{function.__name__}: {given!r}")
    return counted(len(CHECKS) - len(failed), len(failed))


if __name__ == "__main__":
    sys.exit(main())
