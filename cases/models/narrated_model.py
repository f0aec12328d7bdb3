"""narrated_model.py: a model of the rules of narrated reports (crates/miette_narrated/CALLING.md), made without the
programs.

It tells a report with labels over several sources, and fixes. tell_cases.py makes reports by chance, and writes them
as cases."""
import json
import re

from fix_model import Edit, by_offset, refusal
from model import WIDTHS, Labels, Settings, Source, lines_of
from tree_model import TITLES, severity

REFUSED = "refused"


class Refused(Exception):
    """A label isn't accepted."""


def shown(data):
    return data.decode(errors="replace")


def width(text):
    """The columns of a text, where a tab and other controls have one."""
    return sum(WIDTHS.get(it, 1) for it in text)


def column(data, line, offset):
    """The columns before an offset."""
    text = data[line.start : line.text_end]
    at = offset - line.start
    places, begin = [0], 0
    for cell in line.cells:
        places.append(cell.end - line.start)
    if at in places:
        return width(shown(text[:at]))
    # (by itself a control has none)
    starts = [it for it in line.cells if it.start < offset]
    return sum(0 if it.character < " " or it.character == "\x7f" else WIDTHS.get(it.character, 1) for it in starts)


def label_row(data, line, number, label, reaches):
    """The row of a label below a line, if it has one there; whether labels that begin in the snippet end there."""
    begin, end = label["offset"], min(label["offset"] + label["length"], len(data))
    first = column(data, line, begin) + 1
    last = column(data, line, end) if begin < end else first
    ends = end <= line.text_end or (reaches is not None and begin <= reaches)
    if line.start <= begin and ends:
        what = f"label at line {number}, column{f' {first}' if first == last else f's {first} to {last}'}"
    elif line.start <= begin <= line.text_end:
        what = f"label starting at line {number}, column {first}"
    elif ends and line.start <= end:
        what = f"label ending at line {number}, column {last}"
    else:
        return []
    text = label.get("label")
    return [f"    {what}" + (f": {text}" if text is not None else "")]


def snippet_rows(source, given, context):
    data = source["text"].encode()
    for label in given:
        if label["offset"] > len(data) or label["offset"] + label["length"] > len(data) + 1:
            raise Refused
    whole, rows = Source(data, 4), []
    order = sorted(given, key=lambda it: it["offset"])
    for read, _ in Labels(whole, given, Settings(context)).groups():
        name = f" for {source['name']}" if source.get("name") is not None else ""
        begins = f"starting at line {read.line + 1}, column {whole.column_of(read.begin) + 1}"
        rows += [f"Begin snippet{name} {begins}", ""]
        lines = lines_of(data, 4, read.begin, read.end)
        for at, line in enumerate(lines):
            rows.append(f"snippet line {read.line + at + 1}: {shown(data[line.start : line.text_end])}")
            reaches = read.end if at == len(lines) - 1 else None
            for label in order:
                rows += label_row(data, line, read.line + at + 1, label, reaches)
    return rows


def sections(report, source):
    own = [{"source": source, "labels": report.get("labels") or []}] if source is not None else []
    return [*own, *report.get("snippets", [])]


# ---- fixes


def place(source, offset):
    """Line and column of an offset, both from 1: the line that isn't there has column 1."""
    number = source.line_of(offset)
    if number >= len(source.lines):
        return number + 1, 1
    return number + 1, column(source.data, source.lines[number], offset) + 1


def edit_row(source, edit):
    line, first = place(source, edit.offset)
    last_line, after = place(source, edit.end())
    text = json.dumps(edit.text.decode(), ensure_ascii=False)
    if edit.length == 0:
        return f"    insert at line {line}, column {first}: {text}"
    if last_line == line:
        last = max(after - 1, first)
        at = f"line {line}, column{f' {first}' if last == first else f's {first} to {last}'}"
    else:
        at = f"from line {line}, column {first} to line {last_line}, column {after}"
    return f"    replace {at} with: {text}" if edit.text else f"    delete {at}"


def fix_rows(fix, source):
    rows = [f"diagnostic fix: {fix['message']}"]
    if source is None or not fix["edits"]:
        return rows
    edits = [Edit(it["offset"], it["length"], it["text"].encode()) for it in fix["edits"]]
    data = source["text"].encode()
    why = refusal(data, edits)
    if why:
        return [*rows, f"    failed to apply: {why}"]
    return rows + [edit_row(Source(data, 4), it) for it in by_offset(edits)]


# ---- reports


def chain_of(report):
    texts = []
    while report.get("cause"):
        report = report["cause"]
        texts.append(report["message"])
    return texts + (report.get("causes") or [])


def body(report, source, chain, context):
    rows = [f"    Caused by: {it}" for it in chain_of(report)] if chain else []
    for it in sections(report, source):
        if it["labels"]:
            rows += snippet_rows(it["source"], it["labels"], context)
    rows += [f"diagnostic help: {report['help']}"] if report.get("help") is not None else []
    for fix in report.get("fixes", []):
        rows += fix_rows(fix, source)
    rows += [f"diagnostic code: {report['code']}"] if report.get("code") is not None else []
    rows += ["For more details, see:", report["url"]] if report.get("url") is not None else []
    related = report.get("related") or []
    rows += [""] if related else []
    for it in related:
        level = f"    Diagnostic severity: {severity(it)}"
        rows += [TITLES[severity(it)] + it["message"], level, ""]
        rows += body(it, it.get("source") or source, True, context)
    return rows


def narrated(report, chain=True, context=1, footer=None):
    """The text of a narrated report, or that it is refused."""
    source = report.get("source")
    try:
        rows = [report["message"], f"    Diagnostic severity: {severity(report)}", *body(report, source, chain, context)]
    except Refused:
        return REFUSED
    rows += [footer] if footer is not None else []
    return "".join(row + "\n" for row in rows)
