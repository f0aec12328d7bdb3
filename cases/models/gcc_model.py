"""gcc_model.py: a model of how an array of GCC's diagnostics becomes reports (crates/miette_read_gcc/CALLING.md),
made without the programs: each diagnostic is put in rustc's form, of which readers_model.py makes the report."""
import re

from readers_model import made_of, member, objects, text

ERRORS = ["error", "fatal error", "internal compiler error", "sorry, unimplemented", "permerror"]
LEVELS = {**{it: "error" for it in ERRORS}, "warning": "warning", "pedwarn": "warning"}


class NoReports(Exception):
    """It is no array, or has an item without a message."""


def offset(data, line, before):
    """The byte of a line (from 1) with `before` bytes in front of it, at most the end of the line's text. Lines end
    with LF, CR LF or a lone CR, and the first begins after a byte order mark, as GCC counts them."""
    ends = list(re.finditer(rb"\r\n|\n|\r", data))
    starts = [3 if data.startswith(b"\xef\xbb\xbf") else 0, *(it.end() for it in ends)]
    if not 1 <= line <= len(starts):
        return None
    text_ends = [*(it.start() for it in ends), len(data)]
    return min(starts[line - 1] + before, text_ends[line - 1])


def at(point, origin, files, further=0):
    """The byte that stands `further` bytes after a point, where it is in a file."""
    name, line, column = text(point, "file"), member(point, "line", int), member(point, "byte-column", int)
    if name not in files or line is None or column is None or column < origin:
        return None
    return offset(files[name], line, column - origin + further)


def span(start, end, origin, files, further):
    """A span in rustc's form, from one point up to what stands `further` bytes after another one."""
    it = {"file_name": text(start, "file")}
    it.update(line_start=member(start, "line", int) or 0, column_start=member(start, "column", int) or 0)
    begin, last = at(start, origin, files), at(end, origin, files, further)
    if begin is not None and last is not None and text(start, "file") == text(end, "file"):
        it.update(byte_start=begin, byte_end=last)
    return it


def location(value, origin, files, primary):
    caret = member(value, "caret", dict) or {}
    told = [member(value, key, dict) for key in ("start", "finish")]
    start, finish = (caret if it is None else it for it in told)
    return {**span(start, finish, origin, files, 1), "is_primary": primary, "label": text(value, "label")}


def locations(value, origin, files):
    return [location(it, origin, files, number == 0) for number, it in enumerate(objects(value, "locations"))]


def said(edits):
    """GCC has no words for a proposal."""
    if len(edits) > 1:
        return "make these changes"
    return f"write `{edits[0].removesuffix(chr(10))}`" if edits[0] else "delete this"


def proposal(value, origin, files):
    """What its fix-its propose, as a help of rustc's."""
    fixits = objects(value, "fixits")
    spans = []
    for it in fixits:
        start, after = (member(it, key, dict) or {} for key in ("start", "next"))
        spans.append({**span(start, after, origin, files, 0), "suggested_replacement": text(it, "string")})
    return [{"message": said([text(it, "string") for it in fixits]), "level": "help", "spans": spans}] if spans else []


def event(value, number, origin, files):
    point = member(value, "location", dict) or {}
    row = f"({number}) {text(value, 'description')}"
    return {"message": row, "level": "note", "spans": [span(point, point, origin, files, 1)]}


def as_rustc(diagnostic, files):
    """A diagnostic in rustc's form."""
    origin = member(diagnostic, "column-origin", int)
    origin = 1 if origin is None else origin
    children = proposal(diagnostic, origin, files)
    children += [event(it, number, origin, files) for number, it in enumerate(objects(diagnostic, "path"), 1)]
    for it in objects(diagnostic, "children"):
        children.append({"message": text(it, "message"), "level": "note", "spans": locations(it, origin, files)})
        children += proposal(it, origin, files)
    code = {"code": {"code": member(diagnostic, "option", str)}}
    level = LEVELS.get(text(diagnostic, "kind"), "note")
    own = locations(diagnostic, origin, files)
    return {"message": diagnostic["message"], "level": level, **code, "spans": own, "children": children}


def reports_of(value, files):
    """The reports of what GCC writes over these files."""
    if not isinstance(value, list) or any(member(it, "message", str) is None for it in value):
        raise NoReports
    made = []
    for it in value:
        url = member(it, "option_url", str)
        made.append({**made_of(as_rustc(it, files), files), **({} if url is None else {"url": url})})
    return made
