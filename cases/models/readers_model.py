"""readers_model.py: a model of how a row of rustc or cargo becomes a report (crates/miette_read/CALLING.md),
made without the programs.

`report_of` gives the report as `job` reads one (crates/miette_description/CALLING.md), by the row as it was parsed
and the texts of files by their names. tree_model.py draws it."""
from typing import NamedTuple, Optional

CALLS = {"#[derive(": "in this derive macro expansion", "#[": "in this attribute macro expansion"}


def member(value, key, kind):
    """A member of this type; one of another type is as if it weren't there."""
    found = value.get(key) if isinstance(value, dict) else None
    whole = kind is int and (isinstance(found, bool) or not isinstance(found, int) or found < 0)
    return None if whole or not isinstance(found, kind) else found


def objects(value, key):
    """The objects of a list."""
    return [it for it in member(value, key, list) or [] if isinstance(it, dict)]


def text(value, key):
    return member(value, key, str) or ""


class Told(NamedTuple):
    rows: list
    span: Optional[dict]
    primary: bool = False
    own: bool = False


# ---- what is told


def primary_first(spans):
    return sorted(spans, key=lambda it: member(it, "is_primary", bool) is not True)


def is_in_package(name, row):
    """Whether some of the last parts of the folder of a row's package are the first parts of a file's name."""
    manifest = text(row, "manifest_path")
    if not manifest.endswith("/Cargo.toml"):
        return False
    folder, parts = manifest[: -len("/Cargo.toml")].split("/"), name.split("/")[:-1]
    counts = range(1, min(len(folder), len(parts)) + 1)
    return any(folder[-count:] == parts[:count] and parts[:count] != [""] for count in counts)


class Build(NamedTuple):
    """The row that is read, and the texts of files by their names."""

    row: dict
    files: dict

    def standing(self, span):
        """The first span that is the user's own, of this one and the calls of macros around it."""
        around, at = [], span
        while at is not None and len(around) < 64:
            around.append(at)
            at = member(member(at, "expansion", dict) or {}, "span", dict)
        there = [it for it in around if text(it, "file_name") in self.files]
        packaged = [it for it in there if is_in_package(text(it, "file_name"), self.row)]
        relative = [it for it in there if not text(it, "file_name").startswith("/")]
        return [*packaged, *relative, *there, span][0]

    def moved(self, span):
        """The place, without a text, of a span that stands elsewhere though its file is there."""
        name = text(span, "file_name")
        return [Told([], span)] if name in self.files and text(self.standing(span), "file_name") != name else []


def stretch(span):
    start, end = (member(span, key, int) for key in ("byte_start", "byte_end"))
    return None if start is None or end is None else (start, end)


def called(span, build):
    """What is told at the outermost call of the macro that a span stands in."""
    at = member(span, "expansion", dict)
    if at is None:
        return []
    for _ in range(64):
        outer = member(member(at, "span", dict) or {}, "expansion", dict)
        if outer is None:
            break
        at = outer
    call, name, inner = member(at, "span", dict), text(at, "macro_decl_name"), build.standing(span)
    begun = [said for front, said in CALLS.items() if name.startswith(front)]
    said = begun[0] if begun else "in this macro invocation" if name.endswith("!") else None
    if call is None or said is None:
        return []
    if text(call, "file_name") == text(inner, "file_name") and stretch(call) and stretch(inner):
        if stretch(call)[0] <= stretch(inner)[0] and stretch(inner)[1] <= stretch(call)[1]:
            return []
    return [Told([said], call)]


def told_by(span, build, rows=(), own=False):
    label = [text(span, "label")] if text(span, "label") else []
    return Told([*rows, *label], build.standing(span), member(span, "is_primary", bool) is True, own)


def is_edit(span):
    return member(span, "suggested_replacement", str) is not None


def child_told(child, build):
    spans = primary_first(objects(child, "spans"))
    said, is_help = text(child, "message"), text(child, "level") == "help"
    if any(map(is_edit, spans)):
        return [told_by(it, build) for it in spans if not is_edit(it) or text(it, "label")]
    rows = [[("help: " if is_help else "") + said], *([[]] * len(spans))]
    if spans:
        return [told_by(it, build, row) for it, row in zip(spans, rows)]
    return [] if is_help else [Told([said], None)]


def all_told(message, build):
    spans = primary_first(objects(message, "spans"))
    told = [told_by(it, build, own=True) for it in spans]
    for it in spans:
        told += build.moved(it)
    for it in spans:
        told += called(it, build)
    for child in objects(message, "children"):
        told += child_told(child, build)
    return told


# ---- labels in lists


class Label:
    def __init__(self, name, stretch, rows, primary, number):
        self.name, self.stretch, self.primary, self.number = name, stretch, primary, number
        self.rows = []
        self.add(rows)

    def add(self, rows):
        for row in rows:
            if row not in self.rows:
                self.rows.append(row)


def lines(data, stretch):
    """The numbers of the first and of the last line of some bytes."""
    return data[: stretch[0]].count(b"\n"), data[: max(stretch[0], stretch[1] - 1)].count(b"\n")


def clash(data, some, other):
    alone = all(first == last for first, last in (lines(data, some), lines(data, other)))
    ends = [max(it[0] + 1, it[1]) for it in (some, other)]
    return alone and some[0] < ends[1] and other[0] < ends[0]


def near(data, some, other):
    (first, last), (begin, end) = lines(data, some), lines(data, other)
    return begin - last <= 3 and first - end <= 3


class Settled:
    def __init__(self, files):
        self.files, self.labels, self.lists, self.texts = files, [], [], []

    def found(self, span):
        """The file's name and the bytes of a span that is in its file."""
        name, bytes_ = text(span, "file_name"), stretch(span)
        inside = bytes_ and name in self.files and bytes_[0] <= bytes_[1] <= len(self.files[name])
        return (name, bytes_) if inside else None

    def add(self, told):
        if told.span is None:
            return self.tell("\n".join(told.rows))
        found = self.found(told.span)
        if found is None:
            line, column = (member(told.span, key, int) or 0 for key in ("line_start", "column_start"))
            after = ": " + "\n".join(told.rows) if told.rows else ""
            return self.tell(f"{text(told.span, 'file_name')}:{line}:{column}{after}")
        return self.place(told, *found)

    def tell(self, row):
        if row not in self.texts:
            self.texts.append(row)

    def place(self, told, name, at):
        own_file = [it for it in self.labels if it.name == name]
        same = [it for it in own_file if it.stretch == at]
        for it in same:
            it.add(told.rows)
            it.primary = it.primary or (told.primary and told.own)
        within = any(it.stretch[0] <= at[0] and at[1] <= it.stretch[1] for it in own_file)
        if same or (not told.rows and within):
            return
        number = self.open_list(told.own, name, at)
        begins = number == len(self.lists)
        if begins:
            self.lists.append(name)
        self.labels.append(Label(name, at, told.rows, told.primary and (told.own or begins), number))

    def open_list(self, own, name, at):
        data = self.files[name]
        for number, file in enumerate(self.lists):
            labels = [it for it in self.labels if it.number == number]
            joins = own or any(near(data, it.stretch, at) for it in labels)
            if file == name and joins and not any(clash(data, it.stretch, at) for it in labels):
                return number
        return len(self.lists)


# ---- proposals

SURE = {"MachineApplicable": "machine-applicable", "MaybeIncorrect": "maybe-incorrect"}
SURE["HasPlaceholders"] = "has-placeholders"


def offers(message, settled):
    """The proposals whose places are all found: the message, what is said of them, and edits with their files."""
    for child in objects(message, "children"):
        spans = [it for it in objects(child, "spans") if is_edit(it)]
        if spans and all(map(settled.found, spans)):
            edits = [(*settled.found(it), text(it, "suggested_replacement")) for it in spans]
            yield text(child, "message"), SURE.get(text(spans[0], "suggestion_applicability")), edits


def conflict(some, other):
    (a, b), (c, d) = some[1], other[1]
    return a == c or (a < d and c < b)


def fixes(offer, name, said):
    """An offer's fixes over a file; an edit that conflicts with one of a fix begins a further one."""
    parts = [[]]
    for edit in (it for it in offer[2] if it[0] == name):
        if any(conflict(edit, it) for it in parts[-1]):
            parts.append([])
        parts[-1].append(edit)
    made = [[{"offset": at[0], "length": at[1] - at[0], "text": new} for _, at, new in part] for part in parts if part]
    sure = {"applicability": offer[1]} if offer[1] else {}
    return [{"message": said, **sure, "edits": edits} for edits in made]


def source(name, files):
    return {"name": name, "text": files[name].decode()}


def advice(offer, main, files):
    for name in dict.fromkeys(it[0] for it in offer[2] if it[0] != main):
        said = {"message": offer[0], "severity": "advice", "source": source(name, files)}
        yield {**said, "fixes": fixes(offer, name, f"in {name}")}


# ---- the report


class NoMessage(Exception):
    """The row is to be a message, but has none."""


def code_of(message):
    return member(member(message, "code", object) or {}, "code", str)


def is_closing(message):
    """Whether a message only speaks of those before it."""
    said, bare = message["message"], not objects(message, "spans") and not objects(message, "children")
    counts = said.startswith("aborting due to ") or said.endswith((" warning emitted", " warnings emitted"))
    return text(message, "level") == "failure-note" or (bare and code_of(message) is None and counts)


def diagnostic_in(row):
    """The diagnostic in a row, or None in another row of cargo or rustc."""
    reason = member(row, "reason", str)
    if reason is not None and reason != "compiler-message":
        return None
    message = row if reason is None else member(row, "message", dict)
    if message is not None and member(message, "$message_type", str) not in (None, "diagnostic"):
        return None
    if message is None or member(message, "message", str) is None:
        raise NoMessage
    return message


def severity(level):
    errors = ["error", "error: internal compiler error"]
    return "error" if level in errors else "warning" if level == "warning" else "advice"


def help_row(child):
    """The message of a help or a proposal, with the texts of its edits that are short."""
    texts = [text(it, "suggested_replacement") for it in objects(child, "spans") if is_edit(it)]
    told = ", ".join(f"`{it}`" for it in texts if it and "\n" not in it)
    return text(child, "message") + (": " + told if told else "")


def helps(message, settled, row_of):
    """What helps, each row once, as `row_of` tells a help or a proposal that can't be found."""
    rows = []
    for child in objects(message, "children"):
        spans = objects(child, "spans")
        edits = list(filter(is_edit, spans))
        lost = edits and not all(map(settled.found, edits))
        if (lost or (not spans and text(child, "level") == "help")) and row_of(child) not in rows:
            rows.append(row_of(child))
    return rows


def labels(settled, number):
    found = [it for it in settled.labels if it.number == number]
    made = [{"offset": it.stretch[0], "length": it.stretch[1] - it.stretch[0], "primary": it.primary} for it in found]
    return [{**label, **({"label": "\n".join(it.rows)} if it.rows else {})} for label, it in zip(made, found)]


def report_of(row, files):
    """The report of a row of rustc over these files; None of its words at its end, and of another row."""
    message = diagnostic_in(row)
    return None if message is None or is_closing(message) else made_of(row, files, help_row)


def made_of(row, files, row_of=lambda child: text(child, "message")):
    """The report of a row over these files, and of one that is told in rustc's form; None of another row."""
    message = diagnostic_in(row)
    if message is None:
        return None
    settled = Settled(files)
    for told in all_told(message, Build(row, files)):
        settled.add(told)
    main = settled.lists[0] if settled.lists else None
    report = {"message": message["message"], "severity": severity(text(message, "level"))}
    code = code_of(message)
    report.update({"code": code} if code is not None else {})
    if main is not None:
        report.update(source=source(main, files), labels=labels(settled, 0))
    further = list(enumerate(settled.lists))[1:]
    report["snippets"] = [{"source": source(name, files), "labels": labels(settled, at)} for at, name in further]
    made = list(offers(message, settled))
    report["fixes"] = [fix for offer in made if main is not None for fix in fixes(offer, main, offer[0])]
    report["related"] = [it for offer in made for it in advice(offer, main, files)]
    report["causes"] = settled.texts
    rows = helps(message, settled, row_of)
    return {**report, **({"help": "\n".join(rows)} if rows else {})}
