"""lint_model.py: a model of the rules of what `lint` finds, proposes and fixes (crates/miette_lint_program/CALLING.md).

It was made without the programs. lint_fixes.py makes sources by chance, and writes them as cases."""
import re
from typing import NamedTuple

from diff_model import fix_rows
from fix_model import Edit, taken
from model import TERMINATOR, Settings, Source, snippet_rows

TAB = 4


class Finding(NamedTuple):
    """What is amiss at a place, and the edits that mend it: none of a line that is too wide."""

    text: str
    offset: int
    length: int
    edits: list


def trailing_blanks(data, line):
    text = data[line.start : line.text_end]
    kept = len(text.rstrip(b" \t"))
    if kept < len(text):
        offset, length = line.start + kept, len(text) - kept
        yield Finding("trailing blanks", offset, length, [Edit(offset, length, b"")])


def tab_after_space(data, line):
    blanks = re.match(rb"[ \t]*", data[line.start : line.text_end])[0]
    space = blanks.find(b" ")
    tab = blanks.find(b"\t", space) if space >= 0 else -1
    if tab >= 0:
        spaces = b" " * len(blanks.decode().expandtabs(TAB))
        yield Finding("tab after space", line.start + tab, 1, [Edit(line.start, len(blanks), spaces)])


def too_wide(line, width):
    first = next((it.start for it in line.cells if it.next_column > width), None)
    if first is not None:
        yield Finding(f"wider than {width} columns", first, line.text_end - first, [])


def no_terminator(data, line):
    if line.text_end == line.end:
        last, first = line.cells[-1], TERMINATOR.search(data)
        made = first[0] if first else b"\n"
        yield Finding("no final terminator", last.start, last.end - last.start, [Edit(line.end, 0, made)])


def findings(data, width):
    found = []
    for line in Source(data, TAB).lines:
        found += [*trailing_blanks(data, line), *tab_after_space(data, line)]
        found += [*too_wide(line, width), *no_terminator(data, line)]
    return found


def picture(found, data, name, width):
    """The picture of what is found; empty where nothing is."""
    if not found:
        return []
    labels = [{"offset": it.offset, "length": it.length, "label": it.text} for it in found]
    settings = Settings(1, TAB, width)
    return [f"  ⚠ {len(found)} findings", *snippet_rows(labels, settings, name, data)]


def text_of(rows):
    return "".join(row + "\n" for row in rows)


def fixes_of(found):
    return [it.edits for it in found if it.edits]


def fixed(found, data):
    """The fixes that are taken, and the text after them."""
    took, text = taken(data, fixes_of(found))
    made = [edits for edits, is_taken in zip(fixes_of(found), took) if is_taken]
    return made, text


def mended(data, width):
    """How many findings are gone once all that is proposed is done, of how many."""
    found = findings(data, width)
    _, text = fixed(found, data)
    return f"{len(found) - len(findings(text, width))} of {len(found)} findings"


def diff(data, name, width):
    """What `lint --diff` prints, and its status."""
    found = findings(data, width)
    made, _ = fixed(found, data)
    rows = picture(found, data, name, width)
    if found:
        edits = [it for one in made for it in one]
        rows += [f"  fix: {mended(data, width)}"]
        rows += fix_rows(edits, data, name, Settings(1, TAB, width)) if edits else []
    return text_of(rows), 1 if found else 0


def fix(data, name, width):
    """What `lint --fix` prints on standard output and on standard error, and its status."""
    _, text = fixed(findings(data, width), data)
    left = findings(text, width)
    return text, text_of(picture(left, text, name, width)), 1 if left else 0
