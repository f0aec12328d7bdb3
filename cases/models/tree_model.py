"""tree_model.py: a model of the rules of whole graphical reports (docs/REFERENCE.md, 'Wrapping', 'The parts of a
report'), made without the programs.

It draws the picture of a report with its causes and related reports in plain Unicode characters: what stands under an
arrow is drawn by itself for the width that is left, and wrapped after the arrow and its bar, level by level. The
snippets are those of model.py, the rows of fixes those of diff_model.py. deep_cases.py and fix_pictures.py make reports
by chance, and write them as cases; those in another theme than `unicode_nocolor` have no labels."""
import re
from typing import NamedTuple

from diff_model import PLAIN, Theme, edits_of, fix_rows, painted
from model import WIDTHS, Settings, snippet_rows

SEQUENCE = re.compile(r"\x1b\[[^\n@-~]*[@-~]|\x1b\](?:(?!\x1b\\)[^\n\x07])*(?:\x07|\x1b\\)")
ICONS = {"error": "×", "warning": "⚠", "advice": "☞"}
TITLES = {"error": "Error: ", "warning": "Warning: ", "advice": "Advice: "}


class Page(NamedTuple):
    """How rows are wrapped, whether related reports are nested, how snippets are drawn, and by which theme."""

    width: int = 80
    wraps: bool = True
    breaks: bool = True
    hyphens: bool = True
    nested: bool = False
    snippets: Settings = Settings()
    theme: Theme = PLAIN

    def narrow(self):
        """The page for what stands under an arrow."""
        return self._replace(width=max(self.width - 6, 0))


# ---- wrapping


class Character(NamedTuple):
    """A character of a text, and the sequences in front of it."""

    sequences: str
    code: str

    def columns(self):
        return WIDTHS.get(self.code, 0 if self.code < " " or self.code == "\x7f" else 1)


def characters_of(line):
    """The characters of a line, and the sequences at its end."""
    found, sequences, at = [], "", 0
    while at < len(line):
        sequence = SEQUENCE.match(line, at)
        if sequence:
            sequences, at = sequences + sequence[0], sequence.end()
        else:
            found.append(Character(sequences, line[at]))
            sequences, at = "", at + 1
    return found, sequences


def columns_of(characters):
    return sum(it.columns() for it in characters)


def words_of(characters):
    """The words of a line as letters and the spaces after them."""
    words, letters, spaces = [], [], []
    for it in characters:
        if it.code != " " and spaces:
            words.append((letters, spaces))
            letters, spaces = [], []
        (spaces if it.code == " " else letters).append(it)
    return [*words, (letters, spaces)] if letters or spaces else words


def at_hyphens(letters):
    """The parts of a word, cut after each `-` between two ASCII letters or digits."""
    codes, cuts = [it.code for it in letters], [0]
    for at in range(1, len(codes) - 1):
        around = codes[at - 1] + codes[at + 1]
        if codes[at] == "-" and around.isascii() and around.isalnum():
            cuts.append(at + 1)
    return [letters[begin:end] for begin, end in zip(cuts, [*cuts[1:], len(letters)])]


def broken(letters, room):
    """The parts of a word, cut before each character that would make one wider than the room."""
    parts = [[]]
    for it in letters:
        used = columns_of(parts[-1])
        if used > 0 and used + it.columns() > room:
            parts.append([])
        parts[-1].append(it)
    return parts


def cut_words(characters, room, page):
    """The words of a line, cut where that is wanted; the last part of each has its spaces."""
    for letters, spaces in words_of(characters):
        parts = at_hyphens(letters) if page.hyphens else [letters]
        if page.breaks:
            parts = [part for it in parts for part in broken(it, room)]
        yield from ((part, spaces if at == len(parts) - 1 else []) for at, part in enumerate(parts))


def without_last_spaces(characters):
    """The text of a row: sequences stay where spaces are dropped."""
    kept = len(characters)
    while kept and characters[kept - 1].code == " ":
        kept -= 1
    shown = "".join(it.sequences + it.code for it in characters[:kept])
    return shown + "".join(it.sequences for it in characters[kept:])


def wrapped_rows(text, rooms, page):
    """The rows of a text; the first of all and the others have the columns of `rooms`."""
    rows = []
    for line in text.split("\n"):
        characters, rest = characters_of(line)
        own = [[]]
        for at, (letters, spaces) in enumerate(cut_words(characters, min(rooms), page)):
            room = rooms[0 if not rows and len(own) == 1 else 1]
            if at > 0 and columns_of(own[-1]) + columns_of(letters) > room:
                own.append([])
            own[-1] += [*letters, *spaces]
        shown = [without_last_spaces(it) for it in own]
        rows += [*shown[:-1], shown[-1] + rest]
    return rows


def whole_rows(text, first, further):
    """The lines of a text as they are, each under its indent."""
    rows, lines = [], text.split("\n")
    for at, line in enumerate(lines):
        characters, rest = characters_of(line)
        indent = further if at else first
        if all(it.code.isspace() for it in characters):
            of_indent, after = characters_of(indent)
            indent = without_last_spaces(of_indent) + after
        rows.append(rest if at == len(lines) - 1 and not characters else indent + line)
    return rows


def wrapped(text, first, further, page):
    """A text after what stands in front of its first row and of the others."""
    if not page.wraps:
        return "\n".join(whole_rows(text, first, further))
    width = max(page.width - 2, 0)
    rooms = [max(width - columns_of(characters_of(it)[0]), 0) for it in (first, further)]
    return "\n".join((further if at else first) + row for at, row in enumerate(wrapped_rows(text, rooms, page)))


# ---- the parts of a report


def severity(report):
    return report.get("severity", "error")


def style(report, page):
    return getattr(page.theme, severity(report))


def header(report, page):
    if report.get("code") is None:
        return ""
    after = f" ({painted(report['url'], page.theme.link)})" if report.get("url") is not None else ""
    return painted(report["code"], style(report, page)) + after + "\n\n"


def message(report, page):
    icon, bar = (painted(page.theme.drawn(it), style(report, page)) for it in (ICONS[severity(report)], "│"))
    return wrapped(report["message"], f"  {icon} ", f"  {bar} ", page) + "\n"


def snippets(report, source, page):
    """The snippets of a report's own labels over its source, and then those over each further source."""
    further = report.get("snippets", [])
    drawn = page.snippets._replace(placed=any(it["labels"] for it in further))
    rows = []
    for it in [{"source": source, "labels": report.get("labels") or []}, *further]:
        if it["source"] is not None and it["labels"]:
            rows += snippet_rows(it["labels"], drawn, it["source"].get("name"), it["source"]["text"].encode())
    return "".join(row + "\n" for row in rows)


def titled(title, text, page):
    """A help text, or the message of a fix."""
    return wrapped(text, painted(f"  {title}: ", page.theme.help), " " * (len(title) + 4), page) + "\n"


def help_of(report, page):
    return titled("help", report["help"], page) if report.get("help") is not None else ""


def fixes(report, source, page):
    """The fixes of a report over its source, its own or inherited."""
    text = ""
    for fix in report.get("fixes") or []:
        rows, edits = [], edits_of(fix)
        if source is not None and edits:
            rows = fix_rows(edits, source["text"].encode(), source.get("name"), page.snippets, page.theme)
        text += titled("fix", fix["message"], page) + "".join(row + "\n" for row in rows)
    return text


def under_arrow(text, is_last, code, page):
    indents = ("  ╰─▶ ", " " * 6) if is_last else ("  ├─▶ ", "  │   ")
    first, further = (painted(page.theme.drawn(it), code) for it in indents)
    return wrapped(text, first, further, page) + "\n"


def inner(report, inherited, page):
    """A report that stands in another one, without its causes."""
    source = report.get("source", inherited)
    text = header(report, page) + message(report, page) + snippets(report, source, page) + help_of(report, page)
    return (text + fixes(report, source, page) + related(report, source, page)).lstrip("\n")


def causes(report, source, page):
    """The causes of a report over its source, its own or inherited: reports, and then perhaps texts."""
    found, code = [], style(report, page)
    while "cause" in report:
        report = report["cause"]
        found.append(report)
    found += report.get("causes", [])
    texts = [it if isinstance(it, str) else inner(it, source, page.narrow()) for it in found]
    return "".join(under_arrow(it, at == len(texts) - 1, code, page) for at, it in enumerate(texts))


def related(report, source, page):
    reports, text = report.get("related", []), ""
    for at, it in enumerate(reports):
        if page.nested:
            shown = inner(it, source, page.narrow()).rstrip("\n")
            text += under_arrow(shown, at == len(reports) - 1, style(report, page), page)
        else:
            text += "\n" + TITLES[severity(it)] + (header(it, page) or "\n") + body(it, it.get("source", source), page)
    return text


def body(report, source, page):
    """A report below its header, over its source, its own or inherited."""
    text = message(report, page) + causes(report, source, page) + snippets(report, source, page)
    return text + help_of(report, page) + fixes(report, source, page) + related(report, source, page)


def whole_picture(report, page):
    """The picture of a report with its causes and related reports."""
    return header(report, page) + body(report, report.get("source"), page)
