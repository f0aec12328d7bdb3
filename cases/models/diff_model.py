"""diff_model.py: a model of the rules of what a fix changes and of how it is drawn (docs/REFERENCE.md, 'What a fix
changes', 'Fixes in the report'), made without the programs.

It draws the rows below a fix's message: frames of unchanged, removed and added lines, rows of marks where such lines
look alike, lines that are cut, in colours too, or the one row of a fix that can't be applied. fix_worked.py has
pictures made by hand; fix_pictures.py makes reports by chance, and writes them as cases."""
from collections import namedtuple
from itertools import groupby
from typing import NamedTuple

from fix_model import Edit, applied, by_offset, refusal
from model import DOTS, LEAST, Settings, Source, cut_by, cut_stretches, places_of, printed, reach_of


class Theme(NamedTuple):
    """The codes of styles, of which an empty one leaves a text as it is; and whether frames are of ASCII."""

    error: str = ""
    warning: str = ""
    advice: str = ""
    help: str = ""
    link: str = ""
    linum: str = ""
    is_ascii: bool = False

    def drawn(self, signs):
        """Signs of frames, arrows and icons, as this theme has them."""
        return signs.translate(IN_ASCII) if self.is_ascii else signs

    def dots(self):
        """What stands in place of characters that are left out."""
        return "..." if self.is_ascii else DOTS


IN_ASCII = str.maketrans("│·╭─╰├▶×⚠☞", "|:,-`|>x!>")
# as the words of `job` name them
THEMES = {"unicode_nocolor": Theme(), "unicode": Theme("31", "33", "36", "36", "36;1;4", "2")}
THEMES |= {"none": Theme(is_ascii=True), "ascii": THEMES["unicode"]._replace(is_ascii=True)}
PLAIN = THEMES["unicode_nocolor"]


def painted(text, code):
    return f"\x1b[{code}m{text}\x1b[0m" if code and text else text


# ---- blocks of lines, and what changes in them


def start_of(source, number):
    """Where a line starts; the line that isn't there starts at the end."""
    return source.lines[number].start if number < len(source.lines) else len(source.data)


class Block(NamedTuple):
    """The lines that some edits have, from the first one to the last one: numbers in the source."""

    first: int
    last: int
    edits: list

    def new_text(self, source):
        """What its lines are after its edits."""
        text, at = b"", start_of(source, self.first)
        for it in self.edits:
            text, at = text + source.data[at : it.offset] + it.text, it.end()
        return text + source.data[at : start_of(source, self.last + 1)]

    def meets_return(self, source):
        """Whether its new text begins with a line feed after a carriage return: both become one terminator."""
        before = source.data[: start_of(source, self.first)]
        return before.endswith(b"\r") and self.new_text(source).startswith(b"\n")


def joined(blocks):
    """Blocks that share a line are one."""
    found = []
    for it in blocks:
        if found and it.first <= found[-1].last:
            before = found.pop()
            it = Block(before.first, max(before.last, it.last), before.edits + it.edits)
        found.append(it)
    return found


def blocks_of(source, edits):
    own = [Block(source.line_of(it.offset), source.line_of(it.end()), [it]) for it in by_offset(edits)]
    found = joined(own)
    return joined([it._replace(first=it.first - it.meets_return(source)) for it in found])


def in_common(some, others):
    """How many lines two lists have in common at the front."""
    return next((at for at, (a, b) in enumerate(zip(some, others)) if a != b), min(len(some), len(others)))


# the numbers of a block's removed lines in the source, up to the one after them, and of its added lines in the applied
# text
Change = namedtuple("Change", ["block", "first", "after", "added", "added_after"])


def changes_of(source, edits):
    """The changed lines of each block that has some."""
    found, moved = [], 0
    for block in blocks_of(source, edits):
        old = [source.data[it.start : it.end] for it in source.lines[block.first : block.last + 1]]
        text = block.new_text(source)
        new = [text[it.start : it.end] for it in Source(text, 1).lines]
        ending = in_common(old[::-1], new[::-1])
        before = in_common(old[: len(old) - ending], new[: len(new) - ending])
        first, after = block.first + before, block.first + len(old) - ending
        added, added_after = first + moved, block.first + moved + len(new) - ending
        moved += len(new) - len(old)
        if first < after or added < added_after:
            found.append(Change(block, first, after, added, added_after))
    return found


def stretches_of(changes):
    """Changes with no unchanged line between them stand together."""
    found = []
    for it in changes:
        if found and found[-1][-1].after == it.first:
            found[-1].append(it)
        else:
            found.append([it])
    return found


def frames_of(stretches, context):
    """Stretches stand in one frame where all unchanged lines between them are shown."""
    found = []
    for it in stretches:
        if found and it[0].first - found[-1][-1][-1].after <= 2 * context:
            found[-1].append(it)
        else:
            found.append([it])
    return found


# ---- the columns of what an edit deletes or inserts


class Side:
    """The source, of which lines are removed, or the applied text, in which lines are added: with the span that each
    edit has there, by its offset in the source, and the sign and style of its lines."""

    def __init__(self, source, sign, code, spans):
        self.source, self.sign, self.code, self.spans = source, sign, code, spans

    def line(self, number):
        return self.source.lines[number]

    def parts(self, number):
        """What of a line the edits delete or insert, as it lies in the line: empty where an edit of the line has
        nothing there."""
        line, found = self.line(number), []
        for begin, end in self.spans:
            if self.source.line_of(begin) <= number <= self.source.line_of(end):
                found.append((max(begin, line.start), min(end, line.end)))
        return found

    def with_ends(self, number):
        """A line, and the columns around which it is cut."""
        return self.line(number), ends_of(self.line(number), self.parts(number))


def sides_of(source, edits, theme):
    order, moved, inserted = by_offset(edits), 0, []
    for it in order:
        inserted.append((it.offset + moved, it.offset + moved + len(it.text)))
        moved += len(it.text) - it.length
    after = Source(applied(source.data, edits), source.tab)
    old = Side(source, "-", theme.error, [(it.offset, it.end()) for it in order])
    return old, Side(after, "+", theme.advice, inserted)


def columns(line, begin, end):
    """The first column of a label over these bytes of a line, and the one after its last column."""
    first = line.first_column(begin)
    return first, max(first + 1, line.last_column(end) if begin < end else 0)


def ends_of(line, parts):
    ends = []
    for begin, end in parts:
        first, after = columns(line, begin, end)
        ends += [first, after - 1] if begin < end else [first]
    return ends


def looks(line):
    """What is seen of a line: white space is spaces, those at the end and characters without columns aren't seen."""
    seen = [(it.character, it.next_column - it.column) for it in line.cells]
    return "".join(" " * wide if it.isspace() else it * (wide > 0) for it, wide in seen).rstrip(" ")


def look_alike(old, new):
    texts = [side.data[line.start : line.end] for side, line in (old, new)]
    return texts[0] != texts[1] and looks(old[1]) == looks(new[1])


# ---- rows


def laid_out(line, cut, dots):
    """The stretches of cells that are shown, with none in place of those that dots stand for, and where a column is in
    the row."""
    if cut is None:
        return [line.cells], lambda column: column
    return [cells if is_shown else None for is_shown, cells in cut], places_of(line, cut, len(dots))


def cut_beside(of, other, limit, dots):
    """The stretches of a changed line that is cut, by the smaller reach of it and of the one that goes with it: each is a
    line with its ends."""
    line, ends = of
    if limit is None or line.width <= max(limit, LEAST):
        return None
    reach = min(reach_of(it[0], limit, it[1], len(dots)) for it in [of, other] if it)
    return cut_by(line, limit, reach, ends, len(dots))


def text_of(stretches, parts, code, dots):
    """The text of a row, in which characters with a byte of one of these parts are painted, neighbours together."""

    def is_painted(cell):
        return any(begin < cell.end and cell.start < end for begin, end in parts if begin < end)

    text = ""
    for cells in stretches:
        if cells is None:
            text += dots
            continue
        for changed, group in groupby(cells, key=is_painted):
            text += painted(printed(list(group)), code) if changed else printed(list(group))
    return text


def mark_row(line, parts, place, side):
    """The row of marks below a line; empty where it would have none. As a label's, a mark begins where the one before it
    ends, if that is later."""
    row, column, reached = "", 0, 0
    for begin, end in parts:
        if begin < end:
            first = max(line.first_column(begin), reached)
            reached = max(first + 1, line.last_column(end))
            start, after = place(first), place(reached - 1) + 1
            row += " " * (start - column) + painted(side.sign * (after - start), side.code)
            column = after
    return row


class Frame:
    """How the rows of a frame begin."""

    def __init__(self, digits, settings, theme):
        self.digits, self.settings, self.theme = digits, settings, theme
        self.pad = " " * (digits + 2)

    def head(self, number, sign):
        return f" {painted(f'{number + 1:>{self.digits}}', self.theme.linum)} {sign} "

    def other(self, signs):
        """A row without a number, or its beginning."""
        return self.pad + self.theme.drawn(signs)

    def dots(self):
        return painted(self.theme.dots(), self.theme.linum)

    def unchanged(self, source, number):
        line, dots = source.lines[number], self.theme.dots()
        stretches, _ = laid_out(line, cut_stretches(line, self.settings.line_columns, [], len(dots)), dots)
        return self.head(number, self.theme.drawn("│")) + text_of(stretches, [], "", self.dots())

    def changed(self, side, number, other, alike):
        """The row of a removed or an added line, and that of its marks, where it has some; told the ends of the line that
        goes with it, if there is one."""
        line, parts, dots = side.line(number), side.parts(number), self.theme.dots()
        cut = cut_beside(side.with_ends(number), other, self.settings.line_columns, dots)
        stretches, place = laid_out(line, cut, dots)
        text = text_of(stretches, parts, side.code, self.dots())
        rows = [self.head(number, painted(side.sign, side.code)) + text]
        marks = mark_row(line, parts, place, side) if alike else ""
        return rows + ([self.other("· ") + marks] if marks else [])


def stretch_rows(frame, stretch, sides):
    """All removed lines of a stretch, then all added ones."""
    old, new = sides
    removed, added = [], []
    for change in stretch:
        pairs = list(zip(range(change.first, change.after), range(change.added, change.added_after)))
        alike = [(a, b) for a, b in pairs if look_alike((old.source, old.line(a)), (new.source, new.line(b)))]
        others = {a: new.with_ends(b) for a, b in pairs}
        for number in range(change.first, change.after):
            removed += frame.changed(old, number, others.get(number), number in [a for a, _ in alike])
        others = {b: old.with_ends(a) for a, b in pairs}
        for number in range(change.added, change.added_after):
            added += frame.changed(new, number, others.get(number), number in [b for _, b in alike])
    return removed + added


def place_of(source, change):
    """The place that a frame shows, whose first changes are these."""
    at = max(change.block.edits[0].offset, start_of(source, change.first))
    return f"{source.line_of(at) + 1}:{source.column_of(at) + 1}"


class Shown(NamedTuple):
    """The stretches of changes in a frame, and the unchanged lines before, between and after them."""

    stretches: list
    unchanged: list

    def digits(self):
        """How wide the largest number is."""
        changes = [it for stretch in self.stretches for it in stretch]
        ends = [it.after for it in changes if it.first < it.after]
        ends += [it.added_after for it in changes if it.added < it.added_after]
        return len(str(max(ends + [it.stop for it in self.unchanged if it])))


def shown_in(source, stretches, context):
    first, last = stretches[0][0].first, stretches[-1][-1].after
    before = range(max(first - context, 0), first)
    between = [range(a[-1].after, b[0].first) for a, b in zip(stretches, stretches[1:])]
    return Shown(stretches, [before, *between, range(last, min(last + context, len(source.lines)))])


def frame_rows(shown, sides, name, settings, theme):
    source, at = sides[0].source, place_of(sides[0].source, shown.stretches[0][0])
    frame = Frame(shown.digits(), settings, theme)
    place = at if name is None else painted(f"{name}:{at}", theme.link)
    rows = [f"{frame.other('╭─[')}{place}]"]
    before, *after = shown.unchanged
    rows += [frame.unchanged(source, it) for it in before]
    for stretch, lines in zip(shown.stretches, after):
        rows += stretch_rows(frame, stretch, sides)
        rows += [frame.unchanged(source, it) for it in lines]
    return [*rows, frame.other("╰────")]


def edits_of(fix):
    return [Edit(it["offset"], it["length"], it["text"].encode()) for it in fix.get("edits") or []]


def fix_rows(edits, data, name, settings=Settings(), theme=PLAIN):
    """The rows below the message of a fix over a source; none where nothing changes."""
    why = refusal(data, edits)
    if edits and why:
        return [f"  [{painted('Failed to apply fix', theme.error)}: {painted(why, theme.warning)}]"]
    source = Source(data, settings.tab)
    sides, rows = sides_of(source, edits, theme), []
    for stretches in frames_of(stretches_of(changes_of(source, edits)), settings.context):
        rows += frame_rows(shown_in(source, stretches, settings.context), sides, name, settings, theme)
    return rows
