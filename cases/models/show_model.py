"""show_model.py: what `show` makes of a row of bytes (crates/miette_show/CALLING.md), made without the programs: whose
reports readers_model.py, gcc_model.py, sarif_reader_model.py and shellcheck_model.py make."""
import json
import re

import gcc_model
import sarif_reader_model
import shellcheck_model
from readers_model import NoMessage, member, report_of

# what messages begin with: a bracket, and after white space a quote, a bracket or nothing
AFTER = rb'[ \t\r\n]*(?:["{}\[\]]|\Z)'
BEGINNING = {form: re.compile(bracket + AFTER) for form, bracket in (("auto", rb"[\[{]"), ("gcc", rb"\["))}
BEGINNING.update(dict.fromkeys(("rustc", "sarif", "shellcheck"), re.compile(rb"{" + AFTER)))

# the mark of UTF-8, which is skipped, and those of UTF-16, of which nothing is read
MARK, WIDE = b"\xef\xbb\xbf", (b"\xff\xfe", b"\xfe\xff")

# control characters, and the sign of as many bytes that stands for each in a picture
CONTROLS = re.compile(
    rb"(?P<one>[\x00-\x08\x0b\x0c\x0e-\x1f\x7f])"
    rb"|(?P<two>\xc2[\x80-\x9f]|\xd8\x9c)"
    rb"|\xe2(?:\x80[\x8e\x8f\xaa-\xae]|\x81[\xa6-\xa9])"
)
SIGNS = {"one": b"?", "two": "\u00bf".encode(), None: "\ufffd".encode()}

# tools that write a value each time
ALWAYS = ("gcc", "sarif", "shellcheck")

# what a value that has no reports ends with
NONE = (NoMessage, gcc_model.NoReports, sarif_reader_model.NoReports, shellcheck_model.NoReports)

# how a value begins, its first row where it is a bracket alone, and the rows within a value
VALUE = re.compile(rb'[\[{]["{}\[\] \t\r\n]')
ALONE = re.compile(rb"[\[{]\r?\n")
INNER = re.compile(rb"[ \t\r\n}\]]")


def rows_of(given):
    """The rows, each with the LF that ends it."""
    rows = given.split(b"\n")
    return [it + b"\n" for it in rows[:-1]] + ([rows[-1]] if rows[-1] else [])


def depth_after(depth, row):
    """How many brackets are open after a row that begins beside texts; none where it ends within one."""
    beside = re.sub(rb'"(?:[^"\\]|\\.)*"', b"", row, flags=re.S)
    if b'"' in beside:
        return 0
    for byte in re.findall(rb"[][{}]", beside):
        depth = depth + 1 if byte in b"[{" else max(depth - 1, 0)
    return depth


def unmarked(part):
    """What stands after the mark of UTF-8."""
    return part[len(MARK) :] if part.startswith(MARK) else part


def visible(files):
    """Files whose control characters can be seen."""
    return {name: CONTROLS.sub(lambda found: SIGNS[found.lastgroup], data) for name, data in files.items()}


def begins(part, form):
    """Whether a part begins as messages do."""
    return part.startswith(WIDE) or BEGINNING[form].match(unmarked(part)) is not None


def parts_of(given):
    """The rows, those of a value as one, each with its number."""
    part, begun, depth = [], 1, 0
    for number, row in enumerate(rows_of(given), 1):
        if part and not (depth > 0 and (ALONE.match(unmarked(part[0])) or INNER.match(row))):
            yield begun, b"".join(part)
            part, begun, depth = [], number, 0
        part.append(row)
        depth = depth_after(depth, row) if VALUE.match(unmarked(part[0])) else 0
    if part:
        yield begun, b"".join(part)


def refused(name):
    raise ValueError(name)


def has(value, *members):
    """Whether members of these types stand in an object."""
    return all(member(value, key, kind) is not None for key, kind in members)


def is_gcc(value):
    return isinstance(value, list) and all(has(it, ("kind", str), ("locations", list)) for it in value)


def is_rustc(value):
    told = has(value, ("reason", str)) or has(value, ("$message_type", str))
    return told or has(value, ("spans", list), ("children", list))


def form_of(value):
    """The format of a value, where none is asked for."""
    if is_gcc(value):
        return "gcc"
    if has(value, ("runs", list)):
        return "sarif"
    if has(value, ("comments", list)):
        return "shellcheck"
    if is_rustc(value):
        return "rustc"
    raise NoMessage


def reports_in(value, files, form):
    """The reports of what a value says that is read in a format."""
    if form != "rustc":
        readers = {"gcc": gcc_model, "sarif": sarif_reader_model, "shellcheck": shellcheck_model}
        return readers[form].reports_of(value, files)
    report = report_of(value, files)
    return [] if report is None else [report]


def failed_calls(log):
    """The calls of a tool that failed, as its log says."""
    calls = [it for run in log["runs"] for it in member(run, "invocations", list) or []]
    return [it for it in calls if member(it, "executionSuccessful", bool) is False]


def failure_in(value, form, asked):
    """What a value says that failed."""
    if form == "sarif":
        return "tool" if failed_calls(value) else None
    ended = member(value, "reason", str) == "build-finished" and asked in ("auto", "rustc") and is_rustc(value)
    return "build" if ended and member(value, "success", bool) is False else None


def told_of(row, files, form="auto"):
    """The reports of a part, what is passed on of it, whether it can't be read, and what it says that failed. Of what
    is none of the format, the last is `nothing`."""
    if not begins(row, form):
        return [], row, False, "nothing"
    try:
        value = json.loads(unmarked(row).decode(), parse_constant=refused)
        its = form_of(value) if form == "auto" else form
        return reports_in(value, files, its), b"", False, failure_in(value, its, form)
    except (ValueError, RecursionError, *NONE):
        return [], row, True, "nothing"


def is_error(report):
    return report["severity"] == "error"


def note_of(number, bad, failed):
    """What is said of a part that can't be read, or that says what failed."""
    words = "no message that can be read" if bad else f"the {failed} failed"
    return f"show: row {number}: {words}\n".encode() if bad or failed in ("build", "tool") else b""


def status_of(told, form):
    """The status, by whether each part can't be read, whether it has an error, and what it says that failed."""
    missing = form in ALWAYS and all(failed == "nothing" for _, _, failed in told)
    if missing or any(bad for bad, _, _ in told):
        return 3
    return 1 if any(grave or failed in ("build", "tool") for _, grave, failed in told) else 0


def has_place(report):
    """Whether a report has a source, so that a log can say where it is."""
    return report.get("source") is not None


def left_out_note(number, report):
    """What is said of a report without a place, which a SARIF log leaves out."""
    first = report["message"].split("\n")[0]
    return f"show: row {number}: not in the log, it has no place: {first}\n".encode()


def shown_of(row, files, draw, form="auto"):
    """What is shown of a part, as `draw` draws reports, and what is passed on of it; whether it can't be read, whether
    an error is among the reports, and what it says that failed."""
    reports, passed, bad, failed = told_of(row, files, form)
    shown = b"".join(draw(it).encode() + b"\n" for it in reports)
    return shown, passed, bad, any(map(is_error, reports)), failed
