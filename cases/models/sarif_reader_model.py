"""sarif_reader_model.py: a model of how a SARIF 2.1.0 log becomes reports (crates/miette_read_sarif/CALLING.md),
made without the programs: what a result tells is put in the words of readers_model.py, which places it."""
import re
from urllib.parse import unquote_to_bytes

from readers_model import Settled, Told, advice, fixes, labels, member, objects, source, text


class NoReports(Exception):
    """It has no list of runs, or tells another version."""


def name_of(uri):
    """The name of the file that a URI stands for."""
    path = re.sub(r"\Afile:(//)?", "", uri)
    return unquote_to_bytes(path).decode(errors="replace")


def first(*found):
    return next((it for it in found if it is not None), None)


def full_uri(bases, location, most=16):
    """The URI of a location, after those of its bases, of which `most` at most may stand on each other."""
    uri = member(location, "uri", str) or ""
    if re.match(r"/|[^/]*:", uri):
        return uri
    named = member(location, "uriBaseId", str)
    base = None if named is None else member(bases, named, dict)
    front = full_uri(bases, base, most - 1) if base is not None and most else ""
    return re.sub(r"(?<=[^/])\Z", "/", front) + uri


# ---- regions


def columns_after(data, start, end, columns, units):
    """The byte after `columns` columns of a line's text, at most its end; inside a character its start."""
    at = start
    for it in data[start:end].decode(errors="surrogateescape"):
        size = len(it.encode(errors="surrogateescape"))
        columns -= units(it)
        if columns < 0:
            break
        at += size
    return at


def offset(data, line, columns, units, ends):
    """The byte `columns` columns after the beginning of a line (from 1); the first of the sequences that stands
    somewhere ends a line."""
    ends = list(re.finditer(b"|".join(map(re.escape, ends)), data))
    starts = [0, *(it.end() for it in ends)]
    if not 1 <= line <= len(starts):
        return None
    return columns_after(data, starts[line - 1], [*(it.start() for it in ends), len(data)][line - 1], columns, units)


def chars_after(data, start, count, units):
    """The byte after `count` code units of characters, inside one its start; none where there are too few."""
    total = sum(units(it) for it in data[start:].decode(errors="surrogateescape"))
    return None if count > total else columns_after(data, start, len(data), count, units)


def span_by_offsets(data, region, units):
    """Where a region without lines begins and ends."""
    at, count = member(region, "charOffset", int), member(region, "charLength", int) or 0
    if at is not None:
        begin = chars_after(data, 0, at, units)
        return begin, None if begin is None else chars_after(data, begin, count, units)
    begin, count = member(region, "byteOffset", int), member(region, "byteLength", int) or 0
    return (None, None) if begin is None or begin + count > len(data) else (begin, begin + count)


def span(name, region, run):
    """A region in rustc's form."""
    units, files = run.units, run.files
    line, column = member(region, "startLine", int) or 0, first(member(region, "startColumn", int), 1)
    if member(region, "startLine", int) is None:
        begin, end = span_by_offsets(files[name], region, units) if name in files else (None, None)
        found = {"byte_start": begin, "byte_end": end} if None not in (begin, end) else {}
        return {"file_name": name, "line_start": line, "column_start": column, **found}
    it = {"file_name": name, "line_start": line, "column_start": column}
    if name in files:
        data, last = files[name], member(region, "endColumn", int)
        begin = offset(data, line, max(column - 1, 0), units, run.ends)
        after = len(data) if last is None else max(last - 1, 0)
        end = offset(data, first(member(region, "endLine", int), line), after, units, run.ends)
        it.update({"byte_start": begin, "byte_end": end} if None not in (begin, end) else {})
    return it


# ---- runs


class Run:
    def __init__(self, run, files):
        tool = member(run, "tool", dict) or {}
        parts = [member(tool, "driver", dict) or {}, *objects(tool, "extensions")]
        # the rules of the driver, and of each extension
        self.rules = [objects(it, "rules") for it in parts]
        self.files, self.artifacts = files, objects(run, "artifacts")
        self.bases = member(run, "originalUriBaseIds", dict) or {}
        wide = text(run, "columnKind") == "utf16CodeUnits"
        listed = [it.encode() for it in member(run, "newlineSequences", list) or [] if isinstance(it, str) and it]
        self.ends = listed or [b"\r\n", b"\n"]
        self.units = (lambda it: 1 + (ord(it) > 0xFFFF)) if wide else (lambda it: 1)

    def rule(self, result):
        named = member(result, "rule", dict) or {}
        index = first(member(result, "ruleIndex", int), member(named, "index", int))
        part = member(named, "toolComponent", dict)
        at = 0 if part is None else first(member(part, "index", int), len(self.rules)) + 1
        found = self.rules[at] if at < len(self.rules) else []
        if index is not None and index < len(found):
            return found[index]
        return self.rule_by_id(rule_id(result))

    def rule_by_id(self, wanted):
        """The first rule of an id, else of what stands in front of its last `/`, and so on."""
        while wanted is not None:
            for it in (rule for rules in self.rules for rule in rules):
                if member(it, "id", str) == wanted:
                    return it
            wanted = wanted.rpartition("/")[0] if "/" in wanted else None
        return None

    def level(self, result):
        said = member(result, "level", str)
        if said is not None:
            return said
        if first(member(result, "kind", str), "fail") != "fail":
            return "none"
        default = member(self.rule(result) or {}, "defaultConfiguration", dict) or {}
        return first(member(default, "level", str), "warning")

    def strings(self, result):
        """The message strings of a result's rule."""
        return member(self.rule(result) or {}, "messageStrings", dict) or {}

    def file(self, physical):
        """The name of the file of an `artifactLocation`."""
        artifact = member(physical, "artifactLocation", dict)
        if artifact is None:
            return None
        index = member(artifact, "index", int)
        listed = self.artifacts[index] if index is not None and index < len(self.artifacts) else {}
        for it in (artifact, member(listed, "location", dict) or {}):
            if member(it, "uri", str) is not None:
                return name_of(full_uri(self.bases, it))
        return None

    def whole(self, location):
        """The name of the file of a location that has no region."""
        physical = member(location, "physicalLocation", dict) or {}
        region = member(physical, "region", dict) or {}
        begun = any(member(region, key, int) is not None for key in ("startLine", "charOffset", "byteOffset"))
        return None if begun else self.file(physical)

    def told(self, location, rows, primary, own):
        physical = member(location, "physicalLocation", dict) or {}
        name, region = self.file(physical), member(physical, "region", dict) or {}
        if name is None:
            return Told(rows, None, own=own)
        if self.whole(location) is not None:
            return Told([f"{name}: {it}" for it in rows], None, own=own)
        found = span(name, region, self)
        if member(region, "startLine", int) is None and "byte_start" not in found:
            return Told([": ".join([name, *rows])], None, own=own)
        return Told(rows, found, primary, own)

    def steps(self, thread, strings):
        """The steps of a thread, with their numbers."""
        for number, it in enumerate(objects(thread, "locations"), 1):
            location = member(it, "location", dict)
            if location is not None:
                said = message(location, strings)
                yield self.told(location, [f"({number}) {said}" if said else f"({number})"], False, False)

    def own_told(self, value, strings):
        """What the `locations` of a result or of a notification tell."""
        return [self.told(it, rows_of(it, strings), at == 0, True) for at, it in enumerate(objects(value, "locations"))]

    def bare(self, locations, strings):
        """The names of files that are told as a whole, of which nothing is said."""
        return [it for it in map(self.whole, (it for it in locations if not rows_of(it, strings))) if it is not None]

    def wholes(self, value):
        """The names of files that the `locations` of a result or of a notification tell as a whole."""
        return [it for it in map(self.whole, objects(value, "locations")) if it is not None]

    def all_told(self, result):
        strings = self.strings(result)
        own = self.own_told(result, strings)
        related = [self.told(it, rows_of(it, strings), True, False) for it in objects(result, "relatedLocations")]
        threads = [it for flow in objects(result, "codeFlows") for it in objects(flow, "threadFlows")]
        return own + related + [step for it in threads for step in self.steps(it, strings)]

    def edits(self, fix):
        """The edits of a proposal, as spans and texts."""
        for change in objects(fix, "artifactChanges"):
            name = self.file({"artifactLocation": member(change, "artifactLocation", dict)}) or ""
            for it in objects(change, "replacements"):
                region, new = member(it, "deletedRegion", dict), member(it, "insertedContent", dict) or {}
                yield span(name, region or {}, self), text(new, "text")

    def proposals(self, result):
        """What is said of each proposal, and its edits."""
        for fix in objects(result, "fixes"):
            edits = list(self.edits(fix))
            described = message({"message": member(fix, "description", dict)}, self.strings(result))
            yield described or words([new for _, new in edits]), edits


def rule_id(result):
    return first(member(result, "ruleId", str), member(member(result, "rule", dict) or {}, "id", str))


# what stands for something else in a text: a pair with a backslash, a link, two braces, the number of an argument
LINK = r"\[(?P<text>(?:\\[\s\S]|[^\[\]\\])*)\]\([!-(*-Z\\^-~]+\)"
PIECE = rf"(?P<pair>\\[\[\]\\])|{LINK}|(?P<brace>[{{}}])(?P=brace)|\{{0*(?P<number>%s)\}}"


def shown(text, arguments, in_link=False):
    """What is shown of a text."""
    def piece(found):
        if found["pair"]:
            return found["pair"][1:] if in_link else found["pair"]
        if found["text"] is not None:
            return shown(found["text"], arguments, True)
        return found["brace"] or arguments[int(found["number"])]
    numbers = "|".join(str(at) for at, it in enumerate(arguments) if isinstance(it, str))
    return re.sub(PIECE % (numbers or "(?!)"), piece, text)


def message(value, strings):
    said = member(value, "message", dict) or {}
    named = member(said, "id", str)
    string = member(strings, named, dict) if named is not None else None
    text = first(member(said, "text", str), member(string or {}, "text", str))
    return named if text is None else shown(text, member(said, "arguments", list) or [])


def rows_of(value, strings):
    """What the message of a location says, where it says something."""
    said = message(value, strings)
    return [said] if said else []


def words(texts):
    """What a proposal says that isn't described."""
    if len(texts) != 1:
        return "make these changes" if texts else ""
    return "write `" + texts[0].removesuffix("\n") + "`" if texts[0] else "delete this"


# ---- reports

# the kinds of results that say that nothing is wrong
PASSED = ("pass", "notApplicable")


def counts(result):
    """Whether a result gives a report."""
    status = {first(member(it, "status", str), "accepted") for it in objects(result, "suppressions")}
    hidden = status == {"accepted"} or text(result, "baselineState") == "absent"
    return not hidden and text(result, "kind") not in PASSED


def notices(run):
    """The errors that a tool says of itself."""
    for it in objects(run, "invocations"):
        said = objects(it, "toolExecutionNotifications") + objects(it, "toolConfigurationNotifications")
        yield from (notice for notice in said if text(notice, "level") == "error")


def severity(level):
    return level if level in ("error", "warning") else "advice"


def over(made, telling, proposals, files):
    """The report of what is said, told and proposed."""
    told, wholes, bare = telling
    settled = Settled(files)
    for it in told:
        if it.rows or it.span is not None:
            settled.add(it)
    own = settled.lists[0] if settled.lists else next((it for it in wholes if it in files), None)
    for name in bare:
        if name not in settled.lists[:1]:
            settled.add(Told([name], None, own=True))
    if own is not None:
        made.update(source=source(own, files))
    if settled.lists:
        made.update(labels=labels(settled, 0))
    further = list(enumerate(settled.lists))[1:]
    made["snippets"] = [{"source": source(name, files), "labels": labels(settled, at)} for at, name in further]
    offers, lost = [], []
    for said, edits in proposals:
        if edits and all(settled.found(it) for it, _ in edits):
            offers.append((said, None, [(*settled.found(it), new) for it, new in edits]))
        elif said and said not in lost:
            lost.append(said)
    # over a file as a whole only proposals are the report's own of which all is in that file
    alone = [it for it in offers if settled.lists or {name for name, _, _ in it[2]} == {own}]
    made["fixes"] = [fix for it in alone for fix in fixes(it, own, it[0])] if own is not None else []
    apart = offers if settled.lists else [it for it in offers if it not in alone]
    made["related"] = [more for it in apart for more in advice(it, own if settled.lists else None, files)]
    return {**made, "causes": settled.texts, **({"help": "\n".join(lost)} if lost else {})}


def report(run, result, files):
    """The report of a result."""
    rule, strings = run.rule(result) or {}, run.strings(result)
    code, url = first(rule_id(result), member(rule, "id", str)), member(rule, "helpUri", str)
    made = {"message": message(result, strings) or "", "severity": severity(run.level(result))}
    made.update({key: it for key, it in (("code", code), ("url", url)) if it is not None})
    places = objects(result, "locations") + objects(result, "relatedLocations")
    telling = run.all_told(result), run.wholes(result), run.bare(places, strings)
    return over(made, telling, run.proposals(result), files)


def notice_report(run, notice, files):
    """The report of an error that a tool says of itself."""
    ids = (member(member(notice, key, dict) or {}, "id", str) for key in ("descriptor", "associatedRule"))
    code = first(*ids)
    made = {"message": message(notice, {}) or "", "severity": "error", **({} if code is None else {"code": code})}
    telling = run.own_told(notice, {}), run.wholes(notice), run.bare(objects(notice, "locations"), {})
    return over(made, telling, [], files)


def run_reports(value, files):
    """The reports of a run."""
    run = Run(value, files)
    yield from (notice_report(run, it, files) for it in notices(value))
    yield from (report(run, it, files) for it in objects(value, "results") if counts(it))


def reports_of(value, files):
    """The reports of a log over these files."""
    version = member(value, "version", str)
    if member(value, "runs", list) is None or not first(version, "2.1").startswith("2.1"):
        raise NoReports
    return [it for run in objects(value, "runs") for it in run_reports(run, files)]
