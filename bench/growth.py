#!/usr/bin/env python3
"""Counts how one rendering of ours grows where an input doubles, of inputs that are not everyday's.

    bench/growth.py [--seconds N] [--keep FILE] [NAME ..]

Of each series whose name has a NAME, or of all, five sizes are counted, each twice the one before,
in instructions as by count.py. A row has the largest size, its count in millions, the bytes of its
text, and of each doubling how often as much it takes and how often as long the text is. After a
doubling that takes more than 2.2 times as much, and 1.15 times what the text grows by, stands `!`.
A series ends before a size that is refused: a description nests no deeper than 127. FILE keeps all
counts as JSON: what stands there isn't counted again.
"""
import argparse
import os
import sys
import tempfile
from typing import Callable, NamedTuple

import count
from reports import long_message
from workloads import BRIEF, COLOUR, CUT, FOLDED, JSON, NARRATED, NESTED, PLAIN, described

LINE = "let value = compute(input, 12);\n"
WIDE = len(LINE)
SIZES = 5
BOUND, MORE = 2.2, 1.15
OWN_CONTEXTS = 3
# lines are highlighted only where there are colours
HIGHLIGHTED = (*COLOUR, "--color", "yes", "--highlight")
RUST = (*HIGHLIGHTED, "rust")
HELP = (
    "look at the rule book and at the list of exceptions, then run the tool again with the flag "
    "that it names"
)


class Series(NamedTuple):
    """Inputs of growing sizes, and how they are rendered."""

    name: str
    words: tuple
    make: Callable[[int], dict]
    first: int


def label(offset, length, text=None, **others):
    """A label, with a text or without."""
    return {"offset": offset, "length": length, **({"label": text} if text else {}), **others}


def over(labels, text, **others):
    """A report with labels over a source."""
    source = {"text": text, "name": "x.txt"}
    return {"message": "findings", "labels": labels, "source": source, **others}


def labels_apart(lines, length=3, **others):
    """Labels that begin `lines` lines apart."""
    return lambda n: over(
        [label(i * lines * WIDE, length, "x", **others) for i in range(n)], LINE * (lines * n)
    )


def own_contexts(lines):
    """Labels that begin `lines` lines apart, with contexts of their own."""
    context = lambda i: 1 + i % OWN_CONTEXTS
    return lambda n: over(
        [label(i * lines * WIDE, 3, "x", context=context(i)) for i in range(n)], LINE * (lines * n)
    )


def marks_on_a_line(after=""):
    """Labels without texts on one line."""
    return lambda n: over(
        [label(i * 100 + 5, 3) for i in range(n)], "abcdefghij" * (10 * n) + after
    )


def crossing(n):
    """Labels over three lines, each crossing the next."""
    return over([label(i * 2 * WIDE, 3 * WIDE, "x") for i in range(n)], LINE * (2 * n + 4))


def many_rows(n):
    """A label's text of `n` lines, after ten other labels."""
    labels = [label(i * 3, 1, "y") for i in range(10)]
    return over([*labels, label(31, 1, "row\n" * n)], LINE * 2)


def within(n):
    """Labels in one another."""
    return over([label(i * WIDE, 2 * (n - i) * WIDE - 2, "b") for i in range(n)], LINE * (2 * n))


def same_lines(n):
    """Labels over the same lines."""
    return over([label(0, 300 * WIDE, "b")] * n, LINE * 310)


def of_labels():
    """Labels far apart, over many lines, on one line, with contexts of their own."""
    yield Series("labels far apart, folded", (*PLAIN, *FOLDED), labels_apart(8), 250)
    yield Series("labels far apart", PLAIN, labels_apart(8), 250)
    yield Series("labels of 20 lines, folded", (*PLAIN, *FOLDED), labels_apart(20, 20 * WIDE - 2), 125)
    yield Series("labels of 20 lines", PLAIN, labels_apart(20, 20 * WIDE - 2), 125)
    yield Series("marks on a cut line", (*PLAIN, *CUT), marks_on_a_line(), 125)
    yield Series("marks on a cut line, an accent", (*PLAIN, *CUT), marks_on_a_line("é"), 125)
    yield Series("marks on a line", PLAIN, marks_on_a_line(), 500)
    yield Series("labels that cross the next", PLAIN, crossing, 500)
    yield Series("contexts of their own, far apart", PLAIN, own_contexts(8), 500)
    yield Series("contexts of their own, side by side", PLAIN, own_contexts(1), 500)
    yield Series("a label's text of many rows", PLAIN, many_rows, 500)
    yield Series("labels in one another, folded", (*PLAIN, "--label-lines", "3"), within, 60)
    yield Series("labels over the same lines, folded", (*PLAIN, "--label-lines", "3"), same_lines, 60)


def causes(n):
    """Causes in one another, each with a source and a message of three lines."""
    source = {"text": LINE * 20, "name": "f"}
    found = {"message": "root"}
    for i in range(n):
        message = f"layer {i}\nsecond row\nthird"
        labels = [label(4, 5, "here")]
        found = {"message": message, "labels": labels, "source": source, "cause": found}
    return found


def helped(n):
    """Related reports with a help that is wrapped."""
    inner = [{"message": f"finding {i}", "help": HELP, "code": "c"} for i in range(n)]
    return {"message": "m", "related": inner}


def linked(n):
    """Related reports with links and sources of their own."""
    found = {"code": "c", "url": "https://example.com/c", "labels": [label(4, 5, "here")]}
    source = lambda i: {"text": LINE * 5, "name": f"f{i}"}
    inner = [{"message": f"finding {i}", **found, "source": source(i)} for i in range(n)]
    return {"message": "m", "related": inner}


def of_reports():
    """Causes and related reports."""
    narrow = (*COLOUR, "--width", "40")
    yield Series("causes with sources", PLAIN, causes, 7)
    yield Series("causes with sources, narrow, in colour", narrow, causes, 7)
    yield Series("related with helps, nested", NESTED, helped, 250)
    yield Series("related with sources and links", (*COLOUR, "--links", "yes"), linked, 250)


def repeated(unit):
    """A message of copies of a text."""
    return lambda n: {"message": unit * n}


def caused(unit):
    """A cause with a message of copies of a text."""
    return lambda n: {"message": "m", "cause": {"message": unit * n}}


def many_words(n):
    """A code, a url and a help of many words."""
    return {"message": "m", "code": "c" * n, "url": "u" * n, "help": "h " * n}


def of_texts():
    """Messages of odd characters."""
    units = {
        "a-b-": "a-b-",
        "words of 3 CJK": "漢字文 ",
        "combining marks alone": "\u0301",
        "emoji joined": "👩\u200d",
        "unfinished ESC [": "\x1b[",
        "ESC [ 31 m x": "\x1b[31mx",
        "unfinished ESC ]": "\x1b]8;;u",
        "tabs": "\t",
        "words with NBSP": "ab\u00a0",
        "LF alone": "\n",
        "CRLF": "a\r\n",
    }
    for name, unit in units.items():
        yield Series(f"message: {name}", PLAIN, repeated(unit), 2500)
    for name in ("ESC [ 31 m x", "unfinished ESC ]"):
        yield Series(f"cause, in colour: {name}", COLOUR, caused(units[name]), 2500)
    unbroken = (*PLAIN, "--width", "10", "--break", "no")
    yield Series("message of one word, not broken", unbroken, repeated("abcdefghij"), 2500)
    yield Series("code, url, help and footer", (*PLAIN, "--footer", "see"), many_words, 2500)


def lines_of(unit, place):
    """A label on each of the lines of a source, at its place in the line."""
    size = len(unit)
    return lambda n: over([label(i * size + place(i), 1, "x") for i in range(n)], unit * n)


def at_the_end(n):
    """Empty labels at the end of a source."""
    return over([label(n, 0)] * n, "x" * n)


def after_tabs(n):
    """A label after `n` tabs."""
    return over([label(n, 1, "x")], "\t" * n + "x")


def of_sources():
    """Odd ends of lines, and a line of tabs."""
    end_labels = (*PLAIN, "--end-labels", "yes")
    yield Series("CR alone", PLAIN, lines_of("abcdefg\r", lambda i: 0), 500)
    yield Series("labels on CRLF", PLAIN, lines_of("abcdef\r\n", lambda i: 6 + i % 2), 500)
    yield Series("empty labels at the end", end_labels, at_the_end, 250)
    yield Series("a label after tabs", (*PLAIN, "--tab", "8"), after_tabs, 2500)


def joined_emoji(n):
    """Labels on a line of tabs and emoji."""
    return over([label(i * 12, 4, "x") for i in range(n)], "\t👩\u200d👧" * n)


def briefly(n):
    """Labels on each line, and causes that are texts."""
    labels = [label(i * WIDE, 3, f"x{i}") for i in range(n)]
    return over(labels, LINE * n, causes=[f"c{i}" for i in range(n)])


def unnamed(n):
    """Labels with escapes over a source without a name, and causes that are texts."""
    labels = [label(i * WIDE, 3, f'"x{i}"\n') for i in range(n)]
    source = {"text": LINE * n}
    return {"message": "m", "labels": labels, "source": source, "causes": [f"c\t{i}" for i in range(n)]}


def related(n):
    """Related reports in one another."""
    inner = {"related": [related(n - 1)]} if n else {}
    return {"message": 'm"' * 20, **inner}


def of_handlers():
    """Narrated, brief and JSON reports."""
    yield Series("narrated: contexts of their own", NARRATED, own_contexts(8), 500)
    yield Series("narrated: labels of 20 lines", NARRATED, labels_apart(20, 20 * WIDE - 2), 125)
    yield Series("narrated: labels on tabs and emoji", NARRATED, joined_emoji, 250)
    yield Series("brief: labels and causes", BRIEF, briefly, 500)
    yield Series("JSON: labels and causes", JSON, unnamed, 500)
    yield Series("JSON: related in one another", JSON, related, 7)


def on_one_line(start, unit):
    """A label near the front of a long line."""
    return lambda n: over([label(3, 3, "x")], start + unit * n)


def of_highlighters():
    """Sources that are highlighted."""
    whole = lambda n: over([label(0, n * WIDE - 2, "x")], LINE * n)
    cut_json = (*HIGHLIGHTED, "json", *CUT)
    yield Series("highlighted: a label over many lines", RUST, whole, 250)
    yield Series("highlighted: labels far apart", RUST, labels_apart(8), 125)
    unclosed = on_one_line('let s = "', 'a\\" /* ')
    yield Series("highlighted: an unclosed string", RUST, unclosed, 500)
    yield Series("highlighted: quotes", RUST, on_one_line("", "'a \"b"), 500)
    yield Series("highlighted: brackets, cut", cut_json, on_one_line("", '{"a":[1,'), 500)


FAMILIES = (of_labels, of_reports, of_texts, of_sources, of_handlers, of_highlighters)
ALL = [series for family in FAMILIES for series in family()]
# A message of 100 KB at widths that double.
WIDTHS = "width: a message of 100 KB"
FIRST_WIDTH = 10


def counted(words, report, asked):
    """The instructions of one rendering, and the bytes of its text."""
    path = os.path.join(asked.folder, "report.json")
    with open(path, "wb") as file:
        file.write(described(report))
    program = count.built("bench")
    none = count.instructions([program, "0", *words], path, asked)
    one = count.instructions([program, "1", *words], path, asked)
    text, _ = count.run([program, "1", *words], path, asked)
    return one - none, int(text)


def rows_of(series, asked):
    """Size, instructions and bytes of text of each size of a series, up to one that is refused."""
    rows = []
    for size in (series.first << i for i in range(SIZES)):
        try:
            rows.append((size, *counted(series.words, series.make(size), asked)))
        except count.Failed:
            break
    return rows


def widths(asked):
    """The same of a message at widths that double."""
    report = long_message(100)
    sizes = [FIRST_WIDTH << i for i in range(SIZES)]
    return [(it, *counted((*PLAIN, "--width", str(it)), report, asked)) for it in sizes]


def grown(before, after):
    """A doubling, for the table."""
    takes, text = after[1] / before[1], after[2] / before[2]
    mark = "!" if takes > BOUND and takes > MORE * text else ""
    return f"{takes:.2f}/{text:.2f}{mark}"


def line_of(name, rows):
    """A row of the table."""
    size, takes, text = rows[-1]
    doublings = " ".join(grown(*pair) for pair in zip(rows, rows[1:]))
    return f"{name:42}{size:>7}{count.number(takes / 1e6):>8}{text:>11,}  {doublings}"


def words():
    """What is asked for."""
    reader = argparse.ArgumentParser(description=__doc__.split("\n", maxsplit=1)[0])
    reader.add_argument("names", nargs="*", metavar="NAME", help="what the names have")
    options = {"seconds": (300, "most seconds of the processor"), "keep": ("", "a file for the counts")}
    for name, (usual, about) in options.items():
        reader.add_argument(f"--{name}", type=type(usual), default=usual, help=about)
    return reader.parse_args()


def main():
    """Counts what is asked for."""
    asked = words()
    wanted = lambda name: not asked.names or any(it in name for it in asked.names)
    ways = {it.name: (lambda it=it: rows_of(it, asked)) for it in ALL}
    ways[WIDTHS] = lambda: widths(asked)
    kept = count.read_kept(asked)
    with tempfile.TemporaryDirectory() as folder:
        asked.folder = folder
        for name, way in ways.items():
            if wanted(name):
                kept[name] = kept.get(name) or way()
                count.write_kept(kept, asked)
                print(line_of(name, kept[name]), flush=True)
    return 0


if __name__ == "__main__":
    sys.exit(main())
