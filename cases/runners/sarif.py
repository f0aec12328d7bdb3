#!/usr/bin/env python3
"""sarif.py: the SARIF logs of the built `job` and `lint`, held to the format and to the sources that they speak of.

Each description in the case files of `job` that isn't bad has its log by `job --sarif`, and files of this repository
have theirs by `lint --sarif`, as they are and with CR LF, CR, an emoji or bytes that are no UTF-8 in each line. A log
has the members of SARIF 2.1.0 that its rules name, and no others; braces are doubled, uris are uris, indices are those
of the rule and the artifact that is named, ids count from 1, nothing stands twice, and there is a result for each
report and each one related to it, or for each finding. Each region lies in its source: lines, columns in UTF-16,
offsets and the text that is shown agree. The sources are read here line by line, by themselves. The last line is
'N passed, M failed', and the exit status is 0 only where nothing failed."""
import json
import os
import re
import sys

from made import all_files
from programs import ROOT, SHOWN, counted, each, run
from run import bytes_of
from sarif_model import uri_of_name

FILES = ["README.md", "LICENSE", "docs/GUIDE.md", "docs/REFERENCE.md", "cases/made.py", "crates/job/src/main.rt"]
WIDTHS = ["0", "40", "80"]
TERMINATOR = re.compile(b"\r\n|\n|\r")
LINES = ["startLine", "startColumn", "endLine", "endColumn"]
# what an object of each kind must have, and what it may have, with the kinds of these
KINDS = {
    "log": ("version runs", {"$schema": "uri", "version": "text", "runs": ["run"]}),
    "run": (
        "tool columnKind newlineSequences results",
        {
            **{"tool": "tool", "columnKind": "text", "newlineSequences": ["text"]},
            **{"artifacts": ["artifact"], "results": ["result"]},
        },
    ),
    "tool": ("driver", {"driver": "driver"}),
    "driver": ("name", {"name": "text", "version": "text", "informationUri": "uri", "rules": ["rule"]}),
    "rule": ("id", {"id": "text", "helpUri": "uri"}),
    "artifact": ("location", {"location": "file"}),
    "file": ("uri", {"uri": "uri", "index": "number"}),
    "result": (
        "level message",
        {
            **{"ruleId": "text", "ruleIndex": "number", "level": "level", "message": "message"},
            **{"locations": ["location"], "relatedLocations": ["location"], "fixes": ["fix"]},
        },
    ),
    "message": ("text", {"text": "doubled"}),
    "location": ("", {"id": "count", "physicalLocation": "place", "message": "message"}),
    "place": ("artifactLocation", {"artifactLocation": "file", "region": "region"}),
    "region": (
        " ".join(LINES),
        {**dict.fromkeys(LINES, "count"), "byteOffset": "number", "byteLength": "number", "snippet": "content"},
    ),
    "content": ("text", {"text": "text"}),
    "fix": ("description artifactChanges", {"description": "message", "artifactChanges": ["change"]}),
    "change": ("artifactLocation replacements", {"artifactLocation": "file", "replacements": ["replacement"]}),
    "replacement": ("deletedRegion", {"deletedRegion": "region", "insertedContent": "content"}),
}
SIMPLE = {
    "text": lambda it: isinstance(it, str),
    "doubled": lambda it: isinstance(it, str) and not re.search(r"[{}]", re.sub(r"\{\{|\}\}", "", it)),
    "level": lambda it: it in ("error", "warning", "note"),
    "number": lambda it: type(it) is int and it >= 0,
    "count": lambda it: type(it) is int and it >= 1,
    "uri": lambda it: isinstance(it, str)
    and re.fullmatch(r"(?:[\w.~:/?#\[\]@!$&'()*+,;=-]|%[0-9A-Fa-f]{2})*", it, re.ASCII) is not None,
}


# ---- the members of a log


def wrong_members(kind, value, place):
    """What is wrong in a value of this kind."""
    if isinstance(kind, list):
        spelled = [json.dumps(it) for it in value] if isinstance(value, list) else []
        if not spelled or len({*spelled}) < len(spelled) and kind[0] != "result":
            yield from [] if value == [] and kind == ["result"] else [f"{place}: no list of different items"]
        for at, it in enumerate(value if isinstance(value, list) else []):
            yield from wrong_members(kind[0], it, f"{place}[{at}]")
    elif kind in SIMPLE:
        yield from [] if SIMPLE[kind](value) else [f"{place}: not of kind {kind}: {value!r}"]
    elif not isinstance(value, dict):
        yield f"{place}: no object"
    else:
        needed, known = KINDS[kind]
        yield from (f"{place}: lacks {it}" for it in needed.split() if it not in value)
        for key, it in value.items():
            its = wrong_members(known[key], it, f"{place}.{key}") if key in known else [f"{place}: has {key}"]
            yield from its


def numbered(values, key):
    """Whether the values of a member count from 1, where they have it."""
    numbers = [it[key] for it in values if key in it]
    return numbers == list(range(1, len(numbers) + 1))


def wrong_numbers(made):
    """What is wrong with indices and ids of a run."""
    rules = [it["id"] for it in made["tool"]["driver"].get("rules", [])]
    if len({*rules}) < len(rules):
        yield "a rule twice"
    for at, result in enumerate(made["results"]):
        if ("ruleId" in result) != ("ruleIndex" in result):
            yield f"results[{at}]: a rule without its index"
        if "ruleId" in result and rules[result["ruleIndex"] :][:1] != [result["ruleId"]]:
            yield f"results[{at}]: the index of another rule"
        related = result.get("relatedLocations", [])
        if not numbered(related, "id") or not all("id" in it for it in related):
            yield f"results[{at}]: ids that don't count from 1"


def objects_in(value):
    """All objects in a value."""
    if isinstance(value, dict):
        yield value
    for it in value.values() if isinstance(value, dict) else value if isinstance(value, list) else []:
        yield from objects_in(it)


# ---- the places of a log


def units(data):
    """The bytes and the units in UTF-16 of each character; the longest beginning of one is U+FFFD."""
    at = 0
    while at < len(data):
        for length in range(1, 5):
            try:
                code = ord(data[at : at + length].decode())
                break
            except UnicodeDecodeError as fault:
                code = 0xFFFD
                if fault.reason != "unexpected end of data":
                    length = max(fault.end, 1)
                    break
        length = min(length, len(data) - at)
        yield length, 2 if code > 0xFFFF else 1
        at += length


class Text:
    """A source by its lines: where each text begins and ends."""

    def __init__(self, data):
        self.data, self.lines, start = data, [], 0
        for found in TERMINATOR.finditer(data):
            self.lines.append((start, found.start()))
            start = found.end()
        self.lines.append((start, len(data)))

    def offset(self, line, column):
        """The offset of a position from 1, or None where there is none."""
        if line > len(self.lines):
            return None
        at, end = self.lines[line - 1]
        left = column - 1
        for length, its in units(self.data[at:end]):
            if left <= 0:
                break
            at, left = at + length, left - its
        return at if left == 0 else None

    def wrong(self, region):
        """What is wrong in a region."""
        start = self.offset(region["startLine"], region["startColumn"])
        end = self.offset(region["endLine"], region["endColumn"])
        if start is None or end is None:
            return "a position that isn't there"
        if end < start or [region[it] for it in LINES[:2]] > [region[it] for it in LINES[2:]]:
            return "an end before the begin"
        if region.get("byteOffset", start) != start or region.get("byteLength", end - start) != end - start:
            return f"other bytes than lines and columns say: {start}, {end - start}"
        shown = region.get("snippet", {}).get("text")
        if shown is not None and shown.encode() != self.data[start:end]:
            return "a snippet that isn't what stands there"
        is_told = region["startLine"] == region["endLine"] and start < end and "byteOffset" in region
        return "a snippet is missing" if is_told and shown is None and is_text(self.data[start:end]) else None


def is_text(data):
    try:
        data.decode()
    except UnicodeDecodeError:
        return False
    return True


def wrong_places(made, sources):
    """What is wrong in the places of a run, by the texts of sources by their uris."""
    uris = [it["location"]["uri"] for it in made.get("artifacts", [])]
    for it in objects_in(made["results"]):
        file = it.get("artifactLocation")
        if file is None:
            continue
        if uris[file.get("index", -1) :][:1] != [file["uri"]]:
            yield f"the index of another artifact: {file}"
        regions = [it["region"]] if "region" in it else [one["deletedRegion"] for one in it.get("replacements", [])]
        text = sources.get(file["uri"])
        for region in regions if text else []:
            wrong = text.wrong(region)
            yield from [f"{wrong}: {region}"] if wrong else []


def wrong_log(words, given, sources, count):
    """What is wrong in the log that a program gives for some input."""
    status, shown, fault = run(words, given)
    if status > 1 or fault:
        return [f"status {status}: {fault!r}"]
    log = json.loads(shown)
    wrong = list(wrong_members("log", log, "log"))
    if wrong:
        return wrong
    made = log["runs"][0]
    found = [] if len(made["results"]) == count else [f"{len(made['results'])} results in place of {count}"]
    return [*found, *wrong_numbers(made), *wrong_places(made, sources)]


# ---- descriptions


def reports_in(report, is_printed=True):
    """A report and all below it, each with whether it has a result of its own."""
    yield report, is_printed
    if report.get("cause"):
        yield from reports_in(report["cause"], False)
    for related in report.get("related") or []:
        yield from reports_in(related, is_printed)


def sources_of(report):
    """The texts of the sources of a report by their uris, where these are of one source each."""
    found = {}
    for it, _ in reports_in(report):
        for source in [it.get("source"), *(further["source"] for further in it.get("snippets") or [])]:
            if source and source.get("name"):
                found.setdefault(uri_of_name(source["name"]), []).append(source["text"].encode())
    return {uri: Text(texts[0]) for uri, texts in found.items() if len({*texts}) == 1}


def described():
    """The descriptions of all case files of `job` that are accepted, each once."""
    found = {}
    for path in all_files():
        with open(path, encoding="utf-8") as lines:
            for case in map(json.loads, lines):
                if case["argv"][0] == "job" and case.get("status") not in (2, 3) and not case.get("beginnings"):
                    found.setdefault(bytes_of(case, "stdin"), os.path.basename(path))
    return [(path, text.decode()) for text, path in found.items()]


def of_description(case):
    path, text = case
    report = json.loads(text)
    count = sum(is_printed for _, is_printed in reports_in(report))
    return [f"{path}: {it}" for it in wrong_log(["job", "--sarif"], text.encode(), sources_of(report), count)]


# ---- files


def files():
    """Files of this repository, as they are and with other terminators, an emoji or bytes that are no UTF-8."""
    for path in FILES:
        with open(os.path.join(ROOT, path), "rb") as file:
            text = file.read()
        yield path, text
        yield f"{path} with CR LF", text.replace(b"\n", b"\r\n")
        yield f"{path} with CR", text.replace(b"\n", b" \r")
        yield f"{path} with emoji", text.replace(b"\n", "😀 \n".encode())
        yield f"{path} with other bytes", text.replace(b"\n", b"\xe6\xbc\xff\t\n").rstrip(b"\n")


def of_file(case):
    (name, text), width = case
    _, rows, _ = run(["lint", "--brief", "f", width], text)
    count = rows.count(b"\nf:")
    uri = uri_of_name(name)
    wrong = wrong_log(["lint", "--sarif", name, width], text, {uri: Text(text)}, count)
    return [f"{name}, {width}: {it}" for it in wrong]


def main():
    descriptions, linted = described(), [(file, width) for file in files() for width in WIDTHS]
    found = [*each(of_description, descriptions), *each(of_file, linted)]
    wrong = [it[0] for it in found if it]
    print("\n".join(wrong[:SHOWN]), end="\n" if wrong else "")
    print(f"logs of descriptions: {len(descriptions)}, of linted texts: {len(linted)}")
    return counted(len(found) - len(wrong), len(wrong))


if __name__ == "__main__":
    sys.exit(main())
