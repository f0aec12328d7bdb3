"""calls_reports.py: the reports of `calls report` and `calls stops` as descriptions, and what the rules ask of their
rows.

A report that can be described has the text that `job` prints of its description, by the same settings: what `job`
prints is compared with an independent model's text elsewhere. A highlighter's red is taken away before. A report whose
cause's source stops can't be described; its texts are written by hand here, from docs/REFERENCE.md."""
import json
import re

from calls_expected import CYAN, END, LINK, LINK_END, RED, YELLOW, quoted
from programs import run

BEFORE = '"> "'

README = "source\n  text\n    here"
NINE = "1\n2\n3\n4\n5\n6\n7\n8\n9\n"


def labels(*rows):
    """Labels of an offset, a length, a text and a number of context lines; without those that are empty or 0."""
    keys = ("offset", "length", "label", "context")
    return [{key: it for key, it in zip(keys, row) if it or key in ("offset", "length")} for row in rows]


def over(text, *rows):
    return {"message": "m", "source": {"text": text}, "labels": labels(*rows)}


def fix(message, offset, length, text):
    """A fix of one edit."""
    return {"message": message, "edits": [{"offset": offset, "length": length, "text": text}]}


def further(report):
    """The source and the labels of a report, as those of a further source."""
    return {key: report[key] for key in ("source", "labels")}


UNNAMED = {
    "message": "oops!",
    "code": "oops::my::bad",
    "url": "http://x",
    "help": "try doing it better next time?",
    "labels": labels((9, 4, "This bit here")),
    "source": {"text": README},
}
OOPS = {**UNNAMED, "source": {"text": README, "name": "bad_file.rs"}}
CROSSING = over("a\nb\nc\nd\n", (0, 5, "x"), (2, 5, "y\nand z"))
LINKED = {"message": "in-ner text here", "code": "c::d", "url": "http://a-b/ c", "help": "try it"}
MANY = (
    (0, 1, "a"),
    (1, 1),
    (2, 3, "c"),
    (3, 3, "d"),
    (6, 0, "e"),
    (8, 1, "f"),
    (8, 9, "g"),
    (10, 1),
    (12, 4, "i"),
    (16, 1, "j"),
)
LONGER = fix("a longer word", 9, 4, "a text")
MENDED = {**OOPS, "fixes": [LONGER, fix("far off", 99, 1, "")]}
RELATED = {"message": "m", "related": [{"message": "rel", "severity": "warning"}, OOPS]}
STOPS = "a cause over a source that stops"
REPORTS = {
    "one label": OOPS,
    "labels on one line": over("abcdef", (1, 3, "a"), (2, 3, "b")),
    "wide characters": over("a漢漢b", (4, 4, "wider than 4 columns"), (7, 1, "no final terminator")),
    "tabs": over("x = 1 \n \ty\nend", (5, 1, "blank"), (8, 1, "tab")),
    "lines that cross": CROSSING,
    "own context": over(NINE, (0, 1, "", 1), (8, 1, "here"), (16, 1, "", 2)),
    "many labels": over(NINE, *MANY),
    "a linked cause": {"message": "m", "cause": LINKED},
    "causes with sources": {"message": "m", "cause": {**OOPS, "cause": CROSSING}},
    "texts": {"message": "m", "causes": ["first", "se-cond\nin two lines", "third"]},
    "related reports": RELATED,
    "related reports in one another": {**CROSSING, "related": [RELATED]},
    "a refused label": over("a", (9, 1, "far off"), (0, 1, "here")),
    "labels over two sources": {**OOPS, "snippets": [further(CROSSING)]},
    "fixes": MENDED,
    "fixes of a cause": {"message": "m", "fixes": [LONGER], "cause": MENDED},
    STOPS: {"message": "m", "cause": UNNAMED},
}
STOPPED = {
    "one label": over(NINE, (8, 1, "here")),
    "two labels": over(NINE, (4, 1, "a"), (8, 1, "b")),
    "labels far apart": over(NINE, (0, 1, "a"), (16, 1, "b")),
    "own context": over(NINE, (0, 1, "a", 1), (4, 1, "b", 2), (16, 1, "c")),
    "no labels": over(NINE),
    "a related report": {"message": "m", "related": [over(NINE, (8, 1, "here"))]},
    "a cause": {"message": "m", "labels": labels((0, 1, "a"), (16, 1, "b")), "cause": over(NINE, (8, 1, "here"))},
    "a further source": {"message": "m", "snippets": [further(over(NINE, (8, 1, "here")))]},
    "a fix": {**over(NINE), "fixes": [fix("five", 8, 1, "five")]},
    "a fix far down": {**over("\n" * 1200), "fixes": [fix("five", 1150, 0, "five")]},
}
DRAWN = ["--theme", "unicode", "--links", "yes"]
NESTED = ["--nested", "yes"]
WORDS = {
    "graphical": [*DRAWN, "--width", "40"],
    "nested": [*DRAWN, "--width", "30", *NESTED],
    "highlighted": [*DRAWN, "--width", "30"],
    "chosen": [*DRAWN, "--width", "30"],
    "wanting": [*DRAWN, "--width", "30"],
    "nested wanting": [*DRAWN, "--width", "30", *NESTED],
    "chosen wanting": [*DRAWN, "--width", "30"],
    "chosen narrated": ["--narrated"],
    "narrated": ["--narrated"],
    "brief": ["--brief"],
    "github": ["--github"],
    "json": ["--json"],
    "debug": ["--debug"],
}
# what colours the lines of sources, what is refused memory at the second one
NARRATED = ("chosen narrated", "narrated")
HIGHLIGHTING = [it for it in WORDS if it not in ("graphical", *NARRATED, "brief", "github", "json", "debug")]
WANTING = [it for it in WORDS if it.endswith("wanting")]
RED_TEXT = re.compile(re.escape(RED) + "(.*?)" + re.escape(END))
NUMBER = re.compile(r"\x1b\[2m *\d+\x1b\[0m │ .")


def indented(*rows):
    """Rows as a cause alone."""
    first = f"{RED}  ╰─▶ {END}"
    later = f"{RED}      {END}"
    return f"  {RED}×{END} m\n" + "".join(f"{later if at else first}{row}\n" for at, row in enumerate(rows))


HEAD = (
    f"\x1b]8;;http://x\x1b\\{RED}oops::my::bad {END}{LINK}(link){END}{LINK_END}",
    "",
    f"  {RED}×{END} oops!",
)
# of 40 columns two are kept free, and six are the indent's
IN_40 = indented(
    *HEAD,
    f"  [{RED}Failed to read contents for",
    f"label{END} `{LINK}This bit here{END}` (offset:",
    f"{LINK}9{END}, length: {LINK}4{END}): {YELLOW}IoError{END}]",
    f"{CYAN}  help: {END}try doing it better next",
    "        time?",
    "",
)
IN_30 = indented(
    *HEAD,
    f"  [{RED}Failed to read",
    f"contents for label{END}",
    f"`{LINK}This bit here{END}`",
    f"(offset: {LINK}9{END}, length:",
    f"{LINK}4{END}): {YELLOW}IoError{END}]",
    f"{CYAN}  help: {END}try doing it",
    "        better next",
    "        time?",
    "",
)
# a cause that can't be read lies where its diagnostic does, here nowhere
UNPLACED = "error: m\nnote: caused by: oops!\n"
UNREAD = {"graphical": IN_40, "brief": UNPLACED, **dict.fromkeys(HIGHLIGHTING, IN_30)}


def job(description, handler, lines=1):
    """What `job` prints by these settings, or none where it refuses the report."""
    words = ["job", *WORDS[handler], "--context", str(lines)]
    status, shown, fault = run(words, json.dumps(description).encode())
    return None if (status, fault) == (4, b"job: report refused\n") else shown.decode()


def unquoted(column):
    """The text of a column, without what was there before."""
    text = column.strip('"').removeprefix("> ")
    plain = {"n": "\n", "t": "\t", "\\": "\\", '"': '"', "u{1b}": "\x1b", "u{fe0f}": "\ufe0f"}
    return re.sub(r"\\(n|t|\\|\"|u\{1b\}|u\{fe0f\})", lambda it: plain[it[1]], text)


def highlighted(text):
    """How many lines a highlighter is asked for: those of snippets, not of fixes; here no snippet follows a fix."""
    return len(NUMBER.findall(text.split("fix: ")[0]))


def is_drawn(column, text, highlights):
    """Whether a column has this text, or, by a highlighter, this text with more of it in red."""
    got = unquoted(column)
    if not highlights:
        return column == quoted("> " + text)
    red, before = len(RED_TEXT.findall(got)), len(RED_TEXT.findall(text))
    return RED_TEXT.sub(r"\1", got) == RED_TEXT.sub(r"\1", text) and red == before + highlighted(text)


def is_wanted(description, handler, columns, lines=1):
    """Whether the columns after a row's name are as the rules ask; a read fails only in the report of that name."""
    is_unread = description is REPORTS[STOPS] and handler in UNREAD
    text = UNREAD[handler] if is_unread else job(description, handler, lines)
    if columns[0] != BEFORE or len(columns) != 2:
        return False
    if text is None:
        return columns[1] == f"not read: {BEFORE}"
    if handler in WANTING and highlighted(text) > 1:
        # the second line is refused memory
        return columns[1] == f"refused: {BEFORE}"
    return is_drawn(columns[1], text, handler in HIGHLIGHTING)
