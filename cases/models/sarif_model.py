"""sarif_model.py: a model of the rules of SARIF logs (crates/miette_sarif/CALLING.md), made without the programs.

It gives the value of a log as Python's objects, and spells it. sarif_cases.py makes reports by chance, and writes them
as cases."""
import json
import re
from typing import NamedTuple

from fix_model import Edit, by_offset, refusal

SCHEMA = "https://docs.oasis-open.org/sarif/sarif/v2.1.0/errata01/os/schemas/sarif-schema-2.1.0.json"
LEVELS = {"advice": "note", "warning": "warning", "error": "error", None: "error"}
UNRESERVED = "ABCDEFGHIJKLMNOPQRSTUVWXYZabcdefghijklmnopqrstuvwxyz0123456789-._~"
DELIMITERS = "!$&'()*+,;="


class Stop(NamedTuple):
    """Where a source can be cut: an offset in bytes, and its line and column in UTF-16 units."""

    offset: int
    line: int
    column: int


def pieces(data):
    """The characters and terminators of a source, each with its bytes; a part that is no UTF-8 is U+FFFD."""
    text = data.decode(errors="surrogateescape")
    if text.isprintable() or not any("\udc80" <= it <= "\udcff" for it in text):
        return [(it, len(it.encode())) for it in re.findall("\r\n|.", text, re.DOTALL)]
    found, at = [], 0
    while at < len(data):
        it, length = character(data[at : at + 4])
        if it == "\r" and data[at + 1 : at + 2] == b"\n":
            it, length = "\r\n", 2
        found.append((it, length))
        at += length
    return found


def character(data):
    """The first character, and how many bytes it has: of what is no UTF-8 the longest beginning of a character."""
    for length in range(1, len(data) + 1):
        try:
            return data[:length].decode(), length
        except UnicodeDecodeError as fault:
            if fault.reason != "unexpected end of data":
                return "\ufffd", max(fault.end, 1)
    return "\ufffd", len(data)


def stops(data):
    """The stops of a source, in order."""
    found, offset, line, column = [Stop(0, 0, 0)], 0, 0, 0
    for piece, length in pieces(data):
        offset += length
        ends = piece in ("\r\n", "\n", "\r")
        line, column = (line + 1, 0) if ends else (line, column + len(piece.encode("utf-16-le")) // 2)
        found.append(Stop(offset, line, column))
    return found


class Source:
    """A source: its bytes, and the name that it has."""

    def __init__(self, given):
        self.data = given["data"] if "data" in given else given["text"].encode()
        self.is_read = not given.get("unread")
        self.name = given.get("name") or "" if self.is_read else ""
        self.stops = stops(self.data)

    def down(self, offset):
        return max(it for it in self.stops if it.offset <= offset)

    def up(self, offset):
        return min((it for it in self.stops if it.offset >= offset), default=self.stops[-1])

    def stretch(self, offset, length):
        """The stops of a span, or None where it is refused."""
        if not self.is_read or offset > len(self.data) or offset + length > len(self.data) + 1:
            return None
        end = min(offset + length, len(self.data))
        return self.down(offset), self.up(end) if end > offset else self.down(offset)


# ---- uris


def kept(data, allowed):
    return "".join(chr(it) if chr(it) in allowed else f"%{it:02X}" for it in data)


def scheme(text):
    found = re.match(r"[A-Za-z][A-Za-z0-9+.-]*:", text)
    return found and found[0]


def address(text):
    """An address as a URI: escapes stay."""
    allowed = UNRESERVED + DELIMITERS + ":/?#[]@"
    parts = re.split("(%[0-9A-Fa-f]{2})", text)
    return "".join(it if at % 2 else kept(it.encode(), allowed) for at, it in enumerate(parts))


def uri_of_name(name):
    found = scheme(name)
    if found and name[len(found) :].startswith("//"):
        return address(name)
    first, slash, rest = name.partition("/")
    allowed = UNRESERVED + DELIMITERS + "/@"
    path = kept(first.encode(), allowed) + slash + kept(rest.encode(), allowed + ":")
    return "file://" + path if name.startswith("/") else path


# ---- texts


def message(text):
    return {"text": text.replace("{", "{{").replace("}", "}}")}


def causes_of(report):
    """The reports that are causes, and the texts of the last one's cause."""
    reports = []
    while report.get("cause"):
        report = report["cause"]
        reports.append(report)
    return reports, report.get("causes") or []


# ---- places


def region(stretch):
    start, end = stretch
    return {
        "startLine": start.line + 1,
        "startColumn": start.column + 1,
        "endLine": end.line + 1,
        "endColumn": end.column + 1,
    }


def whole_region(source, stretch):
    start, end = stretch
    value = {**region(stretch), "byteOffset": start.offset, "byteLength": end.offset - start.offset}
    if start.line == end.line and start.offset < end.offset:
        try:
            value["snippet"] = {"text": source.data[start.offset : end.offset].decode()}
        except UnicodeDecodeError:
            pass
    return value


class Artifacts:
    """The uris in the order in which results name them."""

    def __init__(self):
        self.uris, self.untitled = [], []

    def located(self, source):
        if source.name:
            uri = uri_of_name(source.name)
        else:
            if source not in self.untitled:
                self.untitled.append(source)
            uri = f"untitled:{self.untitled.index(source) + 1}"
        if uri not in self.uris:
            self.uris.append(uri)
        return {"uri": uri, "index": self.uris.index(uri)}

    def place(self, source, label):
        value = {"artifactLocation": self.located(source)}
        stretch = source.stretch(label["offset"], label["length"])
        return {**value, "region": whole_region(source, stretch)} if stretch else value

    def location(self, source, label):
        """A label's place and text, nothing where it has neither."""
        value = {"physicalLocation": self.place(source, label)} if source else {}
        return {**value, "message": message(label["label"])} if label.get("label") else value


def groups_of(report, source, further):
    """The labels of a report, each list with its source, by offset."""
    groups = [(source, report.get("labels") or [])] + list(further)
    return [(over, sorted(labels, key=lambda label: label["offset"])) for over, labels in groups]


def primary_of(groups):
    given = [(source, label) for source, labels in groups if source for label in labels]
    return next((it for it in given if it[1].get("primary")), given[0] if given else None)


# ---- fixes


def replacements(source, edits):
    """What takes the place of whole characters and terminators. None where edits can't be applied, or there are none."""
    if not edits or not source.is_read or refusal(source.data, edits):
        return None
    joined = []
    for edit in by_offset(edits):
        start, end = source.down(edit.offset), source.up(edit.end())
        before = joined[-1] if joined else None
        if before and (start.offset < before["to"].offset or start == before["from"]):
            before["edits"].append(edit)
            before["to"] = max(before["to"], end)
        else:
            joined.append({"from": start, "to": end, "edits": [edit]})
    return [replacement(source, it) for it in joined]


def replacement(source, group):
    text, at = b"", group["from"].offset
    for edit in group["edits"]:
        text, at = text + source.data[at : edit.offset] + edit.text, edit.end()
    text += source.data[at : group["to"].offset]
    return (group["from"], group["to"]), text


def fix_value(artifacts, source, fix):
    """The item of a fix, or None."""
    edits = [Edit(it["offset"], it["length"], it["text"].encode()) for it in fix.get("edits") or []]
    made = replacements(source, edits) if source else None
    try:
        parts = made and [(stretch, text.decode()) for stretch, text in made]
    except UnicodeDecodeError:
        return None
    if not parts:
        return None
    changes = [
        {"deletedRegion": region(stretch), **({"insertedContent": {"text": text}} if text else {})}
        for stretch, text in parts
    ]
    change = {"artifactLocation": artifacts.located(source), "replacements": changes}
    return {"description": message(fix["message"]), "artifactChanges": [change]}


def applies(source, fix):
    return fix_value(Artifacts(), source, fix) is not None


# ---- results


class Found(NamedTuple):
    """A report with the sources of its labels: its own or inherited one, further ones, those of its causes."""

    report: dict
    source: object
    further: list
    causes: list


def further_of(report):
    return [(Source(it["source"]), it.get("labels") or []) for it in report.get("snippets") or []]


def found_in(report, inherited):
    """The report and those related to it, depth first."""
    source = Source(report["source"]) if report.get("source") else inherited
    causes = []
    for cause in causes_of(report)[0]:
        own = Source(cause["source"]) if cause.get("source") else source
        causes.append((cause, own, further_of(cause)))
    yield Found(report, source, further_of(report), causes)
    for related in report.get("related") or []:
        yield from found_in(related, source)


def rules_of(found):
    rules = {}
    for it in found:
        code, url = it.report.get("code"), it.report.get("url")
        if code:
            rules.setdefault(code, None)
            if rules[code] is None and url is not None and scheme(url):
                rules[code] = address(url)
    return rules


def rows(it, rules, unapplied):
    report = it.report
    reports, texts = causes_of(report)
    yield report["message"]
    yield from ("caused by: " + text for text in [cause["message"] for cause in reports] + texts)
    if report.get("help") is not None:
        yield "help: " + report["help"]
    yield from ("fix: " + text for text in unapplied)
    url = report.get("url")
    if url is not None:
        uri = rules.get(report.get("code") or None)
        if uri is None or not scheme(url) or address(url) != uri:
            yield "see: " + url


def result(it, rules, artifacts):
    report = it.report
    fixes = [(it.source, fix) for fix in report.get("fixes") or []]
    fixes += [(source, fix) for cause, source, _ in it.causes for fix in cause.get("fixes") or []]
    value = {}
    if report.get("code"):
        value = {"ruleId": report["code"], "ruleIndex": list(rules).index(report["code"])}
    value["level"] = LEVELS[report.get("severity")]
    unapplied = [fix["message"] for source, fix in fixes if not applies(source, fix)]
    value["message"] = message("\n".join(rows(it, rules, unapplied)))
    groups = groups_of(report, it.source, it.further)
    primary = primary_of(groups)
    if primary:
        value["locations"] = [artifacts.location(*primary)]
    elif it.source:
        value["locations"] = [{"physicalLocation": {"artifactLocation": artifacts.located(it.source)}}]
    related = []
    for source, labels in groups + [group for cause, own, more in it.causes for group in groups_of(cause, own, more)]:
        for label in labels:
            is_other = primary is None or label is not primary[1]
            location = artifacts.location(source, label) if is_other else None
            if location:
                related.append({"id": len(related) + 1, **location})
    items = []
    for source, fix in fixes:
        item = fix_value(artifacts, source, fix)
        if item is not None and item not in items:
            items.append(item)
    value.update({key: given for key, given in (("relatedLocations", related), ("fixes", items)) if given})
    return value


def rule_value(code, uri):
    return {"id": code} if uri is None else {"id": code, "helpUri": uri}


def log(reports, tool):
    """The value of the log of reports."""
    found = [it for report in reports for it in found_in(report, None)]
    rules, artifacts = rules_of(found), Artifacts()
    results = [result(it, rules, artifacts) for it in found]
    driver = {"name": tool}
    if rules:
        driver["rules"] = [rule_value(*it) for it in rules.items()]
    run = {
        "tool": {"driver": driver},
        "columnKind": "utf16CodeUnits",
        "newlineSequences": ["\r\n", "\n", "\r"],
    }
    if artifacts.uris:
        run["artifacts"] = [{"location": {"uri": it}} for it in artifacts.uris]
    return {"$schema": SCHEMA, "version": "2.1.0", "runs": [{**run, "results": results}]}


def spelled_log(reports, tool):
    return json.dumps(log(reports, tool), ensure_ascii=False, separators=(",", ": "))
