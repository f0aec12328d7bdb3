"""shellcheck_model.py: a model of how ShellCheck's comments become reports (crates/miette_read_shellcheck/CALLING.md),
made without the programs: each comment is put in rustc's form, of which readers_model.py makes the
report."""
from gcc_model import said
from readers_model import made_of, member, objects, text

PAGE = "https://www.shellcheck.net/wiki/"


class NoReports(Exception):
    """It has no list of comments, or a comment without a message."""


def offset(data, line, column):
    """The byte of a column of a line, both from 1, columns in characters; after the line's text its end. LF alone ends
    a line, and a CR is a character."""
    lines = data.split(b"\n")
    if not 1 <= line <= len(lines) or column < 1:
        return None
    start = sum(len(it) + 1 for it in lines[: line - 1])
    shown = lines[line - 1].decode(errors="surrogateescape")
    return start + len(shown[: column - 1].encode(errors="surrogateescape"))


def span(name, value, files):
    """What a comment, or a replacement, is about, as a span in rustc's form."""
    line, column, end_line, end_column = (
        member(value, key, int) or 0 for key in ("line", "column", "endLine", "endColumn")
    )
    it = {"file_name": name, "line_start": line, "column_start": column}
    if name in files:
        begin, end = offset(files[name], line, column), offset(files[name], end_line, end_column)
        it.update({"byte_start": begin, "byte_end": end} if None not in (begin, end) else {})
    return it


def as_rustc(comment, files):
    """A comment in rustc's form."""
    name, code = text(comment, "file"), member(comment, "code", int)
    edits = objects(member(comment, "fix", dict) or {}, "replacements")
    spans = [{**span(name, it, files), "suggested_replacement": text(it, "replacement")} for it in edits]
    words = said([text(it, "replacement") for it in edits]) if edits else ""
    return {
        "message": comment["message"],
        "level": "error" if text(comment, "level") == "error" else "warning",
        "code": {"code": None if code is None else f"SC{code}"},
        "spans": [{**span(name, comment, files), "is_primary": True}],
        "children": [{"message": words, "level": "help", "spans": spans}] if edits else [],
    }


def reports_of(value, files):
    """The reports of what ShellCheck writes over these files."""
    comments = member(value, "comments", list)
    if comments is None or any(member(it, "message", str) is None for it in comments):
        raise NoReports
    made = []
    for it in comments:
        code = member(it, "code", int)
        url = {} if code is None else {"url": f"{PAGE}SC{code}"}
        made.append({**made_of(as_rustc(it, files), files), **url})
    return made
