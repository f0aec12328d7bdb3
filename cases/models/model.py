"""model.py: a model of the rules of graphical reports (docs/REFERENCE.md), made without the programs.

It draws the picture of one report in plain Unicode characters: groups of labels, frames, labels of one line and of
several, lines that are cut, folded labels, and labels at the source's end. cut_cases.py and fold_cases.py make reports
by chance, and write them as cases with the picture that the rules ask for."""
import re
from bisect import bisect_right
from itertools import groupby
from typing import NamedTuple, Optional

TERMINATOR = re.compile(rb"\r\n|\r|\n")
# the columns of characters that have not one, but for those below U+0020
WIDTHS = {"\u0301": 0, "\u200b": 0, "\ufeff": 0, "漢": 2, "字": 2, "\u3000": 2, "😀": 2}


class Settings(NamedTuple):
    """The settings of a picture: a line of more columns is cut, a label of more lines is folded. Where frames are placed,
    one of a single line has its place too."""

    context: int = 1
    tab: int = 4
    line_columns: Optional[int] = None
    label_lines: Optional[int] = None
    end_labels: bool = False
    placed: bool = False


# ---- lines and the columns of their characters


def first_of(data):
    """The first character of bytes, and its size; what is no character is U+FFFD."""
    try:
        character = data[:4].decode()[0]
    except UnicodeDecodeError as fault:
        if fault.start == 0:
            return "\ufffd", fault.end
        character = data[: fault.start].decode()[0]
    return character, len(character.encode())


class Cell(NamedTuple):
    """A character: where it begins and ends in the source, and on its line in columns."""

    character: str
    start: int
    end: int
    column: int
    next_column: int


def character_columns(character):
    """The columns of a character: controls, which have no width, have none."""
    is_control = character < " " or "\x7f" <= character <= "\x9f"
    return 0 if is_control else WIDTHS.get(character, 1)


class Line:
    """A line: where it starts, where its text ends, where it ends, and the cells of its text."""

    def __init__(self, data, start, text_end, end, tab):
        self.start, self.text_end, self.end = start, text_end, end
        self.cells, self.width = [], 0
        offset, hidden = start, False
        while offset < text_end:
            character, size = first_of(data[offset:text_end])
            # a sequence that begins with an escape has no columns up to its `m`
            hidden = hidden or character == "\x1b"
            columns = tab - self.width % tab if character == "\t" else character_columns(character)
            after = self.width + (0 if hidden else columns)
            self.cells.append(Cell(character, offset, offset + size, self.width, after))
            hidden = hidden and character != "m"
            offset, self.width = offset + size, after

    def after_text(self, offset):
        """The column of an offset that no cell has: the terminator's, or the one after it."""
        return self.width if offset <= self.text_end else self.width + 1

    def first_column(self, offset):
        return next((it.column for it in self.cells if offset < it.end), self.after_text(offset))

    def last_column(self, offset):
        return next((it.column for it in self.cells if offset <= it.start), self.after_text(offset))


def lines_of(data, tab=4, begin=0, end=None):
    """The lines of the bytes from an offset to another one."""
    end = len(data) if end is None else end
    found, start = [], begin
    for it in TERMINATOR.finditer(data[begin:end]):
        found.append(Line(data, start, begin + it.start(), begin + it.end(), tab))
        start = begin + it.end()
    if start < end:
        found.append(Line(data, start, end, end, tab))
    return found


# ---- sources and reads


class Read(NamedTuple):
    """What a read answers: its first line, the place of its data, and how many terminators stand in it."""

    line: int
    begin: int
    end: int
    terminators: int


class Source:
    """The bytes of a source, and its lines."""

    def __init__(self, data, tab):
        self.data, self.tab, self.lines = data, tab, lines_of(data, tab)
        self.ends = [it.end for it in self.lines if it.text_end < it.end]

    def line_of(self, offset):
        """The number of an offset's line, from 0."""
        return bisect_right(self.ends, offset)

    def column_of(self, offset):
        """The bytes from the line's start to an offset, without terminators."""
        line = self.line_of(offset)
        return len(self.data[self.ends[line - 1] if line else 0 : offset].translate(None, b"\r\n"))

    def reading_end(self, offset, length):
        """Where a read of a span ends: not between a carriage return and its line feed."""
        end = offset + length or 1
        return end + 1 if self.data[end - 1 : end + 1] == b"\r\n" else end

    def read(self, offset, length, context):
        """A read of a span with lines of context."""
        line, begin = self.line_of(offset), offset
        end = min(self.reading_end(offset, length), len(self.data))
        if context:
            line = max(line - context, 0)
            begin = self.lines[line].start if line < len(self.lines) else len(self.data)
            last = self.line_of(self.reading_end(offset, length)) + context
            end = self.lines[last].end if last < len(self.lines) else len(self.data)
        return Read(line, begin, max(begin, end), max(self.line_of(end) - self.line_of(begin), 0))


# ---- labels and their groups


class Label:
    """A label as it is drawn, with this number of context lines unless it has its own."""

    def __init__(self, given, source, context):
        self.given, self.context = given, given.get("context", context)
        self.offset, self.length = given["offset"], given["length"]
        self.end = self.offset + self.length
        self.start, self.after = self.offset, max(self.offset, min(self.end, len(source.data)))
        self.reach, self.is_after_text = max(self.after, self.start + 1), False
        self.parts = given["label"].split("\n") if given.get("label") is not None else []
        self.is_primary = given.get("primary", False)
        self.read = source.read(self.offset, self.length, self.context)

    def move_to_end(self, length):
        """Draws a label at the source's end after the text of the last line."""
        self.start = self.after = length - 1
        self.reach, self.is_after_text = length, True

    def starts_on(self, line):
        return line.start <= self.start < line.end

    def ends_on(self, line):
        return line.start < self.reach <= line.end

    def lies_on(self, line):
        return self.start < line.end and line.start < self.reach

    def runs_through(self, line):
        return self.start < line.start and line.end < self.reach

    def is_several(self, line):
        """Whether it lies on this line and on another one."""
        return self.lies_on(line) and not (self.starts_on(line) and self.ends_on(line))


class Labels:
    """The labels of a report by offset, and their groups."""

    def __init__(self, source, given, settings):
        length = len(source.data)
        asks = settings.end_labels and any(it["offset"] == length > 0 and it.get("context", 1) for it in given)
        self.source, self.context = source, max(settings.context, 1) if asks else settings.context
        self.has_own = any("context" in it for it in given)
        common = max(self.context, 1) if self.has_own else self.context
        self.labels = [Label(it, source, common) for it in sorted(given, key=lambda it: it["offset"])]
        if asks:
            for label in self.labels:
                if label.offset == length:
                    label.move_to_end(length)

    def groups(self):
        """Each group as the read that is shown, and the primary label of it."""
        for begin, end in self.own_spans() if self.has_own else self.joined_spans():
            inside = [it for it in self.labels if begin <= it.offset and (it.offset if self.has_own else it.end) <= end]
            primary = next((it for it in inside if it.is_primary), inside[0] if inside else None)
            yield self.source.read(begin, end - begin, 0 if self.has_own else self.context), primary

    def joined_spans(self):
        """The spans of labels whose contexts meet, as one each."""
        spans = []
        for label in self.labels:
            own = self.source.read(label.offset, label.length, self.context)
            if spans:
                begin, end = spans[-1]
                before = self.source.read(begin, end - begin, self.context)
                if own.line <= before.line + before.terminators:
                    spans[-1] = (begin, max(end, label.end))
                    continue
            spans.append((label.offset, label.end))
        return spans

    def own_spans(self):
        """The same where labels have their own numbers of context lines: the places of the reads."""
        spans = []
        for own in sorted((it.read for it in self.labels), key=lambda it: it.begin):
            if spans and own.begin <= spans[-1][1]:
                spans[-1] = (spans[-1][0], max(spans[-1][1], own.end))
            else:
                spans.append((own.begin, own.end))
        return spans


def shown_lines(source, label, limit):
    """The numbers of the lines in the context of a label, folded where it has more lines than the limit."""
    first, last = source.line_of(label.offset), source.line_of(label.reach - 1)
    below = source.line_of(max(label.read.begin, label.read.end - 1)) + 1
    numbers = set(range(source.line_of(label.read.begin), min(below, len(source.lines))))
    if limit is not None and last - first + 1 > limit:
        numbers -= {it for it in numbers if first + label.context < it < last - label.context}
    return numbers


# ---- marks, and lines that are cut


class Mark(NamedTuple):
    """The mark of a label of one line: its first column, that of its anchor, and the one after its last one."""

    start: int
    anchor: int
    after: int
    label: Label


def marks_of(line, labels):
    marks, reached = [], 0
    for label in labels:
        start = max(line.width if label.is_after_text else line.first_column(label.start), reached)
        reached = start + 1
        if label.start != label.after:
            reached = max(line.last_column(label.after), reached)
        marks.append(Mark(start, (start + reached) // 2, reached, label))
    return marks


# a smaller limit of columns counts as this
LEAST = 8
DOTS = "\u2026"


def columns_of(cells):
    return cells[-1].next_column - cells[0].column


def parted(line, wide, is_near):
    """The cells of a line in stretches, of which those are shown that are near or no wider than the dots; neighbours
    that are shown are one. A cell without columns goes with the one before it."""
    near, before, parts = [], False, []
    for cell in line.cells:
        before = before if cell.column == cell.next_column else is_near(cell)
        near.append(before)
    for is_shown, group in groupby(zip(line.cells, near), key=lambda it: it[1]):
        cells = [cell for cell, _ in group]
        is_shown = is_shown or columns_of(cells) <= wide
        if parts and parts[-1][0] == is_shown:
            parts[-1][1].extend(cells)
        else:
            parts.append((is_shown, cells))
    return parts


def row_columns(parts, wide):
    return sum(columns_of(cells) if is_shown else wide for is_shown, cells in parts)


def cut_stretches(line, limit, ends, wide):
    """The stretches of a line that is cut, with dots of `wide` columns; none where it isn't. Shown is what is within
    its reach of an end: the most columns by which the row is no wider than the limit. Without ends it is the first
    cells."""
    if limit is None or line.width <= max(limit, LEAST):
        return None
    return cut_by(line, limit, reach_of(line, limit, ends, wide), ends, wide)


def cut_by(line, limit, reach, ends, wide):
    """The stretches of a line that is cut `reach` columns around its ends."""
    if not ends:
        return parted(line, wide, lambda cell: cell.next_column + wide <= max(limit, LEAST))
    return parted(line, wide, lambda it: any(it.column - reach <= end < it.next_column + reach for end in ends))


def reach_of(line, limit, ends, wide):
    """How many columns around its ends a line is shown: the most, up to the limit, that have room."""
    limit = max(limit, LEAST)
    for reach in range(limit, -1, -1):
        near = parted(line, wide, lambda it: any(it.column - reach <= end < it.next_column + reach for end in ends))
        if row_columns(near, wide) <= limit:
            return reach
    return 0


def places_of(line, parts, wide):
    """Where a column of a line that is cut is in its row: the first dot's where it is left out."""
    places, row = [], 0
    for is_shown, cells in parts:
        places += [row + k if is_shown else row for k in range(columns_of(cells))]
        row += columns_of(cells) if is_shown else wide
    return lambda column: places[column] if column < line.width else row + column - line.width


def printed(cells):
    return "".join(" " * (it.next_column - it.column) if it.character == "\t" else it.character for it in cells)


def ends_of(line, marks, several):
    """The columns around which a line is cut: the first and the last one of each mark, its anchor where a text hangs from
    it, and where a label of several lines begins or ends on it."""
    ends = [end for mark in marks for end in (mark.start, mark.after - 1)]
    ends += [mark.anchor for mark in marks if mark.label.parts]
    ends += [line.first_column(it.start) for it in several if it.starts_on(line)]
    return ends + [max(line.last_column(it.after) - 1, 0) for it in several if it.ends_on(line)]


def cut(limit, line, marks, several):
    """What is shown of a line's text, and its marks in the row."""
    parts = cut_stretches(line, limit, ends_of(line, marks, several), len(DOTS))
    if parts is None:
        return printed(line.cells), marks
    place = places_of(line, parts, len(DOTS))
    text = "".join(printed(cells) if is_shown else DOTS for is_shown, cells in parts)
    return text, [Mark(place(it.start), place(it.anchor), place(it.after - 1) + 1, it.label) for it in marks]


# ---- rows


def number_gutter(line, left, several):
    row = ""
    for label in several:
        if label.starts_on(line) or label.ends_on(line):
            corner = "╭" if label.starts_on(line) else "├" if label.parts else "╰"
            return row + corner + "─" * (left - 3) + "▶ "
        row, left = row + "│", left - 1
    return row + " " * left


def other_gutter(line, left, several, corner=True):
    row = ""
    for label in several:
        if label.ends_on(line):
            return row + ("╰" + "─" * (left - 1) if corner else " " * left)
        row, left = row + "│", left - 1
    return row + " " * left


def mark_row(marks):
    row = ""
    for start, anchor, after, label in marks:
        middle = "▲" if label.start == label.after else "┬" if label.parts else "─"
        row = row.ljust(start) + "─" * (anchor - start) + middle + "─" * (after - anchor - 1)
    return row


def text_rows(marks):
    """The texts of labels of one line, from the last one to the first."""
    rows = []
    for at in reversed(range(len(marks))):
        parts, lead = marks[at].label.parts, ""
        for mark in marks[:at]:
            lead = lead.ljust(mark.anchor) + "│"
        lead = lead.ljust(marks[at].anchor)
        head = "╰── " if len(parts) == 1 else "╰─┤ "
        rows += [lead + ("  │ " if k else head) + part for k, part in enumerate(parts)]
    return rows


def closing_rows(line, left, several):
    """The texts of labels of several lines that end on this one."""
    rows = []
    for label in several:
        if not label.ends_on(line):
            continue
        if len(label.parts) == 1:
            rows.append(f"{other_gutter(line, left, several)}─ {label.parts[0]}")
            continue
        for k, part in enumerate(label.parts):
            rows.append(other_gutter(line, left - 1, several, k == 0) + ("│ " if k else "┤ ") + part)
    return rows


def line_rows(line, heads, left, labels, limit):
    """The rows of a line, of which the first begins with its number, the others with as many blanks."""
    on = [it for it in labels if it.lies_on(line)]
    several = [it for it in on if it.is_several(line)]
    text, marks = cut(limit, line, marks_of(line, [it for it in on if it not in several]), several)
    first, other = heads
    rows = [first + number_gutter(line, left, several) + text]
    if marks:
        gutter = other_gutter(line, left, several)
        rows += [other + gutter + row for row in (mark_row(marks), *text_rows(marks))]
    return rows + [other + row for row in closing_rows(line, left, several)]


def break_row(digits, lines, labels):
    """The row that stands for lines that are left out, with those labels that run through all of them."""
    through = [it for it in labels if all(it.runs_through(line) for line in lines)]
    return ("...".rjust(digits + 2) + "│ " + "│" * len(through)).rstrip(" ")


def frame_rows(source, labels, group, primary, name, settings):
    """The rows of a group with its frame."""
    lines = dict(enumerate(lines_of(source.data, source.tab, group.begin, group.end), group.line))
    digits = len(str(group.line + len(lines))) if lines else 1
    at = f"{source.line_of(primary.offset) + 1}:{source.column_of(primary.offset) + 1}"
    place = f"[{name}:{at}]" if name is not None else f"[{at}]" if len(lines) > 1 or settings.placed else "───"
    kept = set().union(*(shown_lines(source, it, settings.label_lines) for it in labels))
    out = {it for it in lines if it not in kept}
    shown = [it for it in lines if it in kept or not {it - 1, it + 1} & out]
    most = max((sum(it.is_several(lines[number]) for it in labels) for number in shown), default=0)
    pad, left = " " * (digits + 2), most + 3 if most else 0
    rows, before = [f"{pad}╭─{place}"], None
    for number in shown:
        if before is not None and number > before + 1:
            rows.append(break_row(digits, [lines[it] for it in range(before + 1, number)], labels))
        before, heads = number, (f" {number + 1:>{digits}} │ ", f"{pad}· ")
        rows += line_rows(lines[number], heads, left, labels, settings.line_columns)
    return [*rows, f"{pad}╰────"]


def snippet_rows(given, settings, name, data):
    """The rows of these labels over bytes; one row where a label isn't accepted."""
    source = Source(data, settings.tab)
    order = Labels(source, given, settings)
    for label in order.labels:
        if label.offset > len(data) or label.end > len(data) + 1:
            text = label.given.get("label", "<none>")
            span = f"(offset: {label.offset}, length: {label.length})"
            return [f"  [Failed to read contents for label `{text}` {span}: OutOfBounds]"]
    frames = [frame_rows(source, order.labels, *it, name, settings) for it in order.groups()]
    return [row for rows in frames for row in rows]


def picture(report, settings, data=None, icon="×"):
    """The picture of a report of a message, a source and labels; the bytes of its source, where they are no text."""
    source = report["source"]
    data = source["text"].encode() if data is None else data
    rows = [f"  {icon} {report['message']}", *snippet_rows(report["labels"], settings, source.get("name"), data)]
    return "".join(row + "\n" for row in rows)
