"""lsp_model.py: a model of the rules of what editors take (crates/miette_lsp/CALLING.md), made without the programs.

It gives the list of documents as Python's objects, and spells it. Sources, uris and edits are those of sarif_model.py,
whose log numbers the sources without a name. lsp_cases.py writes the cases."""
import json

from fix_model import Edit
from sarif_model import Artifacts, address, causes_of, found_in, groups_of, primary_of, replacements, result, scheme

SEVERITIES = {"error": 1, None: 1, "warning": 2, "advice": 3}


def position(stop):
    return {"line": stop.line, "character": stop.column}


def range_of(stretch):
    """The range of a stretch; where none is known, the empty one at the beginning."""
    if stretch is None:
        return {"start": {"line": 0, "character": 0}, "end": {"line": 0, "character": 0}}
    return {"start": position(stretch[0]), "end": position(stretch[1])}


def range_over(source, label):
    return range_of(source.stretch(label["offset"], label["length"]))


def fix_value(artifacts, source, fix):
    """The item of a fix, or None where it can't be applied."""
    edits = [Edit(it["offset"], it["length"], it["text"].encode()) for it in fix.get("edits") or []]
    made = replacements(source, edits) if source else None
    try:
        parts = made and [{"range": range_of(stretch), "newText": text.decode()} for stretch, text in made]
    except UnicodeDecodeError:
        return None
    if not parts:
        return None
    sure = fix.get("applicability") or "unspecified"
    return {"title": fix["message"], "applicability": sure, "uri": artifacts.located(source)["uri"], "edits": parts}


def message_of(it, primary, unapplied):
    """The rows of a message, joined."""
    report = it.report
    reports, texts = causes_of(report)
    rows = [report["message"]]
    if primary and primary[1].get("label"):
        rows.append(primary[1]["label"])
    rows += ["caused by: " + text for text in [cause["message"] for cause in reports] + texts]
    if report.get("help") is not None:
        rows.append("help: " + report["help"])
    rows += ["fix: " + text for text in unapplied]
    url = report.get("url")
    if url is not None and not (report.get("code") and scheme(url)):
        rows.append("see: " + url)
    return "\n".join(rows)


def related_of(it, primary, artifacts):
    """The other labels that have a place and a text."""
    groups = groups_of(it.report, it.source, it.further)
    groups += [group for cause, own, more in it.causes for group in groups_of(cause, own, more)]
    for source, labels in groups:
        for label in labels:
            is_other = primary is None or label is not primary[1]
            if source and label.get("label") and is_other:
                place = {"uri": artifacts.located(source)["uri"], "range": range_over(source, label)}
                yield {"location": place, "message": label["label"]}


def diagnostic(it, tool, primary, artifacts):
    report = it.report
    value = {"range": range_over(*primary) if primary else range_of(None)}
    value["severity"] = SEVERITIES[report.get("severity")]
    if report.get("code"):
        value["code"] = report["code"]
        if report.get("url") is not None and scheme(report["url"]):
            value["codeDescription"] = {"href": address(report["url"])}
    fixes = [(it.source, fix) for fix in report.get("fixes") or []]
    fixes += [(source, fix) for cause, source, _ in it.causes for fix in cause.get("fixes") or []]
    made = [(fix, fix_value(artifacts, source, fix)) for source, fix in fixes]
    value["source"] = tool
    value["message"] = message_of(it, primary, [fix["message"] for fix, item in made if item is None])
    related = list(related_of(it, primary, artifacts))
    if related:
        value["relatedInformation"] = related
    items = []
    for _, item in made:
        if item is not None and item not in items:
            items.append(item)
    if items:
        value["data"] = {"fixes": items}
    return value


def documents(reports, tool):
    """The list of what editors take of reports, by their sources."""
    found = [it for report in reports for it in found_in(report, None)]
    artifacts, lists = Artifacts(), {}
    for it in found:
        code = it.report.get("code")
        result(it, {code: None} if code else {}, artifacts)
    for it in found:
        primary = primary_of(groups_of(it.report, it.source, it.further))
        source = primary[0] if primary else it.source
        if source:
            uri = artifacts.located(source)["uri"]
            lists.setdefault(uri, []).append(diagnostic(it, tool, primary, artifacts))
    return [{"uri": uri, "diagnostics": given} for uri, given in lists.items()]


def spelled_list(reports, tool):
    return json.dumps(documents(reports, tool), ensure_ascii=False, separators=(",", ": "))
