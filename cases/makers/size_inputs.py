"""The inputs of sizes.py: what each program reads at a size, and by which words it is called.

A family of inputs makes the bytes of any size. `sizes.py --all` runs its sizes. Most of them are the
double of another one, by which growth is told; a size that stands apart, as 32,600 texts, is where
calls in one another, one for each item, would end a run on the stack that it has. The small set of
the gate has the sizes `gate`, by the ways `gate_ways` or by all."""
import json
from typing import Callable, NamedTuple

# In the words of a way this stands for the middle of the input, in bytes.
MIDDLE = "MIDDLE"


class Way(NamedTuple):
    """A program, the words that it is called with, and the status that it ends with."""

    name: str
    program: str
    words: tuple
    status: int = 0
    # Whether it draws pictures, whose text may grow by rule as rows times labels.
    draws: bool = False


class Family(NamedTuple):
    """Inputs of one form. `make` gives the bytes of a size."""

    name: str
    make: Callable[[int], bytes]
    sizes: tuple
    gate: tuple
    ways: tuple
    # Whether by rule a picture's text grows with the square of the size.
    is_square: bool = False
    gate_ways: tuple = ()
    # Peak memory is at most `memory_times` times the text, or `memory_each` bytes for each item, and 4 MB more.
    memory_times: int = 8
    memory_each: int = 0


PLAIN = Way("plain", "job", ("--theme", "unicode_nocolor"), draws=True)
COLOUR = Way("colour", "job", ("--theme", "unicode"), draws=True)
NARRATED = Way("narrated", "job", ("--narrated",))
JSON = Way("json", "job", ("--json",))
BRIEF = Way("brief", "job", ("--brief",))
DEBUG = Way("debug", "job", ("--debug",))
HANDLERS = (PLAIN, COLOUR, NARRATED, BRIEF, JSON, DEBUG)
NESTED = Way("nested", "job", (*PLAIN.words, "--nested", "yes"), draws=True)
NESTED_COLOUR = Way("nested colour", "job", (*COLOUR.words, "--nested", "yes"), draws=True)
ALL = (*HANDLERS, NESTED, NESTED_COLOUR)
FOLDED = Way("folded", "job", (*PLAIN.words, "--label-lines", "5"), draws=True)
CUT = Way("cut", "job", (*PLAIN.words, "--line-columns", "80"), draws=True)
HIGHLIGHT = ("--theme", "unicode", "--color", "yes", "--line-columns", "80", "--highlight")
HIGHLIGHTED = Way("highlighted", "job", (*HIGHLIGHT, "json"), draws=True)
RUST = Way("highlighted as Rust", "job", (*HIGHLIGHT, "rust"), draws=True)
WHOLE = Way("whole", "job", (*PLAIN.words, "--context", "100000000"), draws=True)
BENCH = Way("bench", "bench", ("2", *PLAIN.words), draws=True)
DRAW = Way("draw", "draw", ("f", MIDDLE, "1", "here", "m"), draws=True)
LINT = Way("lint", "lint", ("f", "80"), 1, draws=True)
FIXED = Way("fixed", "job", ("--fix=all",))
SARIF = Way("sarif", "job", ("--sarif",))
EDITORS = Way("lsp", "job", ("--lsp",))
GITHUB = Way("github", "job", ("--github",))
FORMATS = (SARIF, EDITORS, GITHUB)
LINT_SARIF = Way("lint sarif", "lint", ("--sarif", "f", "80"), 1)
LINT_GITHUB = Way("lint github", "lint", ("--github", "f", "80"), 1)

CHARACTERS = {
    "letters": b"a",
    "digits": b"7",
    "tabs": b"\t",
    "NUL": b"\0",
    "ESC": b"\x1b",
    "colours": b"\x1b[31mx",
    "CJK": "漢".encode(),
    "combining": "e\u0301".encode(),
    "emoji": "👩‍👩‍👧".encode(),
    "FF": b"\xff",
}
# Characters that stand joined or paired with their neighbours on a whole line.
JOINED = {
    "joined emoji": "👩\u200d".encode(),
    "joined emoji with selectors": "👁\ufe0f\u200d".encode(),
    "joined emoji with skin tones": "👩🏽\u200d".encode(),
    "flags": "🇫🇷".encode(),
    "Khmer": "ក".encode(),
    "lameds": "ל".encode(),
}
# Characters that take no columns, on a whole line.
FAINT = {
    "marks": "\u0301".encode(),
    "selectors": "\ufe0f".encode(),
    "joiners": "\u200d".encode(),
    "tags": "\U000e0061".encode(),
    "vowels of Hangul": "\u1161".encode(),
}
WORDS = "alpha beta-gamma delta "


def doubled(least, most):
    """The sizes from the least on, each the double of the one before, up to the most."""
    sizes = [least]
    while 2 * sizes[-1] <= most:
        sizes.append(2 * sizes[-1])
    return tuple(sizes)


def text_of(length):
    """A text of words, `length` bytes long."""
    return (WORDS * (length // len(WORDS) + 1))[:length]


def described(**members):
    """The description that has these members."""
    return json.dumps(members, ensure_ascii=False).encode()


def listed(member, item):
    """A description whose member is a list of the same item, n times."""
    form = '{"message":"","%s":[%s]}'
    return lambda size: (form % (member, ",".join([item] * size))).encode()


def repeated(unit, head=b""):
    """The same bytes n times, after a head."""
    return lambda size: head + unit * size


def labelled(text, spans, label=None):
    """The description of a source with a label at each of these spans."""
    said = "" if label is None else ',"label":' + json.dumps(label)
    labels = ",".join('{"offset":%d,"length":%d%s}' % (*span, said) for span in spans)
    source = json.dumps(text, ensure_ascii=False)
    form = '{"message":"m","source":{"name":"f","text":%s},"labels":[%s]}'
    return (form % (source, labels)).encode()


def one_line(label=None):
    """A line with n labels, all with this text."""
    return lambda size: labelled("ab " * size, ((3 * i, 2) for i in range(size)), label)


def line_each(size):
    """n lines, each with a label of its own."""
    return labelled("ab\n" * size, ((3 * i, 2) for i in range(size)), "x")


def all_lines(size):
    """n lines under one label."""
    return labelled("ab\n" * size, [(0, 3 * size)], "x")


def first_line(size):
    """n lines, of which the first has a label."""
    return labelled("ab\n" * size, [(0, 2)], "x")


def chained(size):
    """Labels over three lines, each begun a line below the one before, so that few cross."""
    return labelled("ab\n" * (size + 2), ((3 * i, 8) for i in range(size)), "x")


def nested(size):
    """Labels over many of 10 n lines, each within the one before."""
    lines = 10 * size
    return labelled("ab\n" * lines, ((3 * i, 3 * (lines - 2 * i) - 1) for i in range(size)), "x")


def crossing(size):
    """Labels over many of 10 n lines, each begun and ended below the one before."""
    return labelled("ab\n" * 10 * size, ((3 * i, 27 * size) for i in range(size)), "x")


def labels_on(unit, head=b""):
    """n labels on a line of 10 n characters after its head."""

    def make(size):
        spans = ((len(head) + 10 * len(unit) * i, len(unit)) for i in range(size))
        return labelled((head + unit * 10 * size).decode(), spans)

    return make


def far_labels(lines, over):
    """n labels, one after the other, each over `over` of the `lines` lines that it has."""
    return lambda size: labelled("ab\n" * lines * size, far_spans(size, 3 * lines, 3 * over - 1), "x")


def far_spans(size, step, length):
    """n spans of this length, each `step` bytes after the one before."""
    return ((step * i, length) for i in range(size))


def long_line(unit, times, end=""):
    """A line of n times `times` units, with a label on one unit of all these, and an end."""
    length = len(unit.encode())
    return lambda size: labelled(unit * times * size + end, far_spans(size, times * length, length))


def within(member, inner, depth, wrap):
    """A description in the member of another one, n times."""
    head, tail = ('{"message":"m","%s":' % member, "}")
    head, tail = (head + "[", "]" + tail) if wrap else (head, tail)
    return (head * depth + inner + tail * depth).encode()


def deep_related(depth):
    """Related reports in one another, of which the last has a help of n bytes."""
    return lambda size: within("related", helped(size), depth, True)


def each_helped(depth):
    """Related reports in one another, each with a help of n bytes."""

    def make(size):
        inner = described(message="m", help=text_of(size)).decode()
        head = inner[:-1] + ',"related":['
        return (head * depth + inner + "]}" * depth).encode()

    return make


def of_depth(member, wrap):
    """Reports in one another, n deep, of which the last has a help of 10,000 bytes."""
    return lambda depth: within(member, helped(10_000), depth, wrap)


def deep_causes(depth):
    """Causes of causes, of which the last has a help of n bytes."""
    return lambda size: within("cause", helped(size), depth, False)


def helped(size):
    """A description with a help of n bytes, as a text."""
    return described(message="m", help=text_of(size)).decode()


def empty_texts(_size):
    """A description whose texts are all empty."""
    label = {"offset": 0, "length": 0, "label": ""}
    source = {"text": "", "name": "", "language": ""}
    inner = {"message": "", "causes": [""], "contexts": [""], "source": source, "labels": [label]}
    return described(**inner, help="", code="", url="", related=[inner])


def long_member(member):
    """A description with a member of n bytes."""
    return lambda size: described(**{"message": "m", "code": "c", member: text_of(size)})


def many_colours(size):
    """A help of about n bytes, in which each word has a colour of its own."""
    colours = (f"{i >> 16};{i >> 8 & 255};{i & 255}" for i in range(size // 25))
    return described(message="m", help=" ".join(f"\x1b[38;2;{it}mword\x1b[0m" for it in colours))


def long_label(unit):
    """A label whose text has n bytes, on one line or on many."""
    return lambda size: labelled("ab\n", [(0, 2)], (unit * size)[:size])


def fixed(text, fixes):
    """The description of a source with fixes, each as its edits."""
    named = ("offset", "length", "text")
    message = "an `x` in place of the first letter of a line"
    members = [{"message": message, "edits": [dict(zip(named, it)) for it in edits]} for edits in fixes]
    return described(message="m", source={"name": "f", "text": text}, fixes=members)


def each_fourth(size):
    """n lines, and edits of the first letter of each fourth one."""
    return "ab\n" * size, [(3 * i, 1, "x") for i in range(0, size, 4)]


def one_fix(size):
    """A fix of edits of each fourth of n lines, the last one first."""
    text, edits = each_fourth(size)
    return fixed(text, [edits[::-1]])


def fix_each(size):
    """A fix for each fourth of n lines, the last one first."""
    text, edits = each_fourth(size)
    return fixed(text, [[it] for it in edits[::-1]])


def fix_again(size):
    """The same fix, of two edits, for each fourth of n lines."""
    text, edits = each_fourth(size)
    return fixed(text, [[edits[0], edits[-1]]] * len(edits))


def further(size):
    """A label over each of n further sources, between two longer lines."""
    source = {"name": "g", "text": f"{text_of(200)}\nab\n{text_of(200)}\n"}
    section = {"source": source, "labels": [{"offset": 201, "length": 2, "label": "x"}]}
    return described(message="m", snippets=[section] * size)


def lint_lines(text):
    """n lines, each of this text with blanks at its end."""
    return lambda size: (text + " \n").encode() * size


def with_sizes(sizes, *others):
    """These sizes and others, in their order."""
    return tuple(sorted({*sizes, *others}))


COUNTS = doubled(10_000, 1_000_000)
LENGTHS = doubled(25_000, 1_600_000)
DEPTH_LENGTHS = doubled(12_500, 100_000)
DEPTHS = doubled(15, 120)
LABELS = doubled(1_000, 256_000)
SQUARES = doubled(1_000, 8_000)
DRAWN = (PLAIN, COLOUR)
TOLD = (PLAIN, NARRATED)
ONE = (1,)


def small():
    """Inputs that are small, or deep."""
    yield Family("only a message", lambda _: described(message="m"), ONE, ONE, (*HANDLERS, BENCH))
    yield Family("empty texts", empty_texts, ONE, ONE, ALL)
    # In colour nearly all of the text are colours of 4 or 5 bytes, each of which is held as 16.
    yield Family("related 63 deep", deep_related(63), ONE, ONE, ALL, memory_times=12)
    yield Family("causes 126 deep", deep_causes(126), ONE, ONE, HANDLERS)


def lists():
    """Lists of texts and of reports."""
    sizes = (32_600, 100_000)
    # What a text of the list, or a report, is held in takes more than its text does.
    each = 120
    yield Family("empty causes", listed("causes", '""'), sizes, sizes, HANDLERS, memory_each=each)
    yield Family("causes", listed("causes", '"a cause"'), COUNTS, (), HANDLERS, memory_each=each)
    yield Family("contexts", listed("contexts", '"a"'), COUNTS, (40_000,), HANDLERS, memory_each=each)
    sizes = (9_900, 32_600)
    item = '{"message":"a"}'
    every = with_sizes(COUNTS, *sizes)
    yield Family("related", listed("related", item), every, sizes, ALL, memory_each=500)


def pictures():
    """Sources with many labels."""
    yield Family("labels on one line", one_line(), COUNTS, (10_000,), (*HANDLERS, BENCH), memory_each=640)
    yield Family("a label on each line", line_each, COUNTS, (10_000,), HANDLERS)
    yield Family("labels over three lines", chained, COUNTS, (10_000,), HANDLERS)
    yield Family("a label on all lines", all_lines, COUNTS, (20_000,), (PLAIN, FOLDED, NARRATED))
    yield Family("lines after a label", first_line, COUNTS, (20_000,), (WHOLE,))
    yield Family("texts on one line", one_line("x"), SQUARES, (1_000,), HANDLERS, True, TOLD)
    sizes = doubled(125, 2_000)
    yield Family("labels in labels", nested, sizes, (250,), DRAWN, True, (PLAIN,))
    yield Family("labels across labels", crossing, sizes, (250,), DRAWN, True)
    sizes = doubled(1_000, 64_000)
    yield Family("labels in labels, told", nested, sizes, (), (NARRATED, BRIEF, JSON, DEBUG))
    yield Family("labels across labels, told", crossing, sizes, (250,), (NARRATED, BRIEF, JSON, DEBUG))
    yield Family("lint", lint_lines("a"), COUNTS, (20_000,), (LINT,))
    sizes = (400_000,)
    yield Family("lint of 9.6 MB", lint_lines("let it = that + other;"), sizes, (), (LINT,))


def attached():
    """Labels over many sources, and fixes."""
    yield Family("labels over further sources", further, doubled(2_500, 80_000), (10_000,), HANDLERS)
    told = (*HANDLERS, FIXED)
    yield Family("a fix of many lines", one_fix, COUNTS, (20_000,), told)
    yield Family("a fix for each line", fix_each, COUNTS, (20_000,), told)
    yield Family("the same fix", fix_again, COUNTS, (20_000,), told)


def formats():
    """What other programs read: logs, lists for editors, commands."""
    # For editors each label is seven objects of JSON, of some 200 bytes, before the list is written.
    told = {"ways": FORMATS, "memory_times": 10}
    yield Family("a label on each line, for tools", line_each, COUNTS, (10_000,), **told)
    yield Family("labels on one line, for tools", one_line("x"), COUNTS, (10_000,), **told)
    yield Family("labels across labels, for tools", crossing, doubled(1_000, 64_000), (250,), **told)
    related = listed("related", '{"message":"a"}')
    yield Family("related, for tools", related, COUNTS, (9_900,), FORMATS, memory_each=900)
    yield Family("labels over further sources, for tools", further, doubled(2_500, 80_000), (10_000,), FORMATS)
    yield Family("a fix of many lines, for tools", one_fix, COUNTS, (20_000,), FORMATS)
    yield Family("a fix for each line, for tools", fix_each, COUNTS, (20_000,), FORMATS)
    # All findings are held, a report of 1 KB each.
    ways = (LINT_SARIF, LINT_GITHUB)
    yield Family("lint, for tools", lint_lines("a"), COUNTS, (20_000,), ways, memory_times=11)


def fitted():
    """Pictures with labels that are folded, and lines that are cut."""
    folded = (FOLDED,)
    yield Family("labels far apart, folded", far_labels(8, 1), SQUARES, (1_000,), folded)
    yield Family("labels of 20 lines, folded", far_labels(20, 20), SQUARES, (), folded)
    letters = "abcdefghij"
    yield Family("labels on a cut line", long_line(letters, 10), SQUARES, (1_000,), (CUT,))
    yield Family("labels on a cut line, an accent", long_line(letters, 10, "é"), SQUARES, (), (CUT,))
    accents = "äbcdéfghij"
    yield Family("labels on a cut line of accents", long_line(accents, 10), SQUARES, (), (CUT,))
    marks = '["a",1],'
    # Of the drawn line the text has the cut row alone, while the pieces of the whole line are held, each
    # 24 bytes: 18 for each byte of this line.
    yield Family(
        "labels on a cut line, highlighted", long_line(marks, 12), SQUARES, (), (HIGHLIGHTED,), memory_times=16
    )
    yield Family("labels on a cut line of escapes", long_line("'\\", 6), SQUARES, (), (RUST,), memory_times=16)


def long_texts():
    """Texts of many bytes."""
    for member in ("message", "help", "url", "code"):
        yield Family(f"long {member}", long_member(member), LENGTHS, (200_000,), HANDLERS)
    yield Family("help of many colours", many_colours, LENGTHS, (200_000,), HANDLERS)
    yield Family("long label", long_label(WORDS), LENGTHS, (200_000,), HANDLERS)
    yield Family("label of many lines", long_label("x\n"), LENGTHS, (200_000,), HANDLERS)
    # The text of an inner report is held as characters of 4 bytes, in room that doubles, beside itself.
    yield Family("help in related 20 deep", deep_related(20), DEPTH_LENGTHS, (), ALL, memory_times=12)
    yield Family("helps in related 20 deep", each_helped(19), DEPTH_LENGTHS[:-1], (), (NESTED_COLOUR,))
    yield Family("depth of related", of_depth("related", True), DEPTHS[:-1], (), ALL, True)
    yield Family("depth of causes", of_depth("cause", False), DEPTHS, (), ALL, True)


def long_lines():
    """Lines of many characters."""
    for kind, unit in CHARACTERS.items():
        yield Family(f"line of {kind}", repeated(unit), COUNTS, (80_000,), (DRAW, LINT))
        if kind != "FF":
            yield Family(f"labels on {kind}", labels_on(unit), LABELS, (8_000,), TOLD, memory_each=640)
    unit, head, kind = CHARACTERS["digits"], b"\t", "digits after a tab"
    yield Family(f"line of {kind}", repeated(unit, head), COUNTS, (), (DRAW, LINT))
    yield Family(f"labels on {kind}", labels_on(unit, head), LABELS, (1_000,), TOLD, memory_each=640)
    for kind, unit in (JOINED | FAINT).items():
        yield Family(f"line of {kind}", repeated(unit), COUNTS, (), (DRAW, LINT))
        yield Family(f"labels on {kind}", labels_on(unit), LABELS, (1_000,), (NARRATED,))
    sizes = with_sizes((10_000_000, 100_000_000), 50_000_000)
    yield Family("up to 100 MB of FF", repeated(b"\xff"), sizes, (), (DRAW, LINT))


FAMILIES = [*small(), *lists(), *pictures(), *attached(), *formats(), *fitted(), *long_texts(), *long_lines()]
