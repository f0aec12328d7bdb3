"""tell_model.py: a model of the rules of the JSON and the brief report (crates/miette_json/CALLING.md,
crates/miette_brief/CALLING.md) for labels over several sources and for fixes, made without the programs. tell_cases.py
and fix_brief.py make reports by chance, and write them as
cases."""
import json

import fix_model
from brief_cases import TERMINATORS, Refused, by_offset, is_accepted, one_row, place_at, position, spelled
from diff_model import edits_of
from narrated_model import chain_of, sections

# ---- JSON


def spelled_json(value):
    return json.dumps(value, ensure_ascii=False, separators=(",", ": "))


def label_value(label):
    text = {"label": label["label"]} if label.get("label") is not None else {}
    return {**text, "span": {"offset": label["offset"], "length": label["length"]}}


def file_name(source, labels):
    if not labels or not is_accepted(source["text"].encode(), labels[0]):
        return ""
    return source.get("name") or ""


def fix_value(fix):
    edits = [{"span": {"offset": it["offset"], "length": it["length"]}, "text": it["text"]} for it in fix["edits"]]
    sure = fix.get("applicability", "unspecified")
    return {"message": fix["message"], "applicability": sure, "edits": edits}


def value(report, inherited=None):
    source, labels = report.get("source") or inherited, report.get("labels") or []
    made = {"message": report["message"]}
    made |= {"code": report["code"]} if report.get("code") is not None else {}
    made |= {"severity": report.get("severity") or "error", "causes": chain_of(report)}
    made |= {key: report[key] for key in ("url", "help") if report.get(key) is not None}
    made |= {"filename": file_name(source, labels)} if source is not None else {}
    made["labels"] = [label_value(it) for it in labels]
    further = [
        {"filename": file_name(it["source"], it["labels"]), "labels": [label_value(label) for label in it["labels"]]}
        for it in report.get("snippets", [])
    ]
    made |= {"snippets": further} if further else {}
    made |= {"fixes": [fix_value(it) for it in report["fixes"]]} if report.get("fixes") else {}
    return made | {"related": [value(it, source) for it in report.get("related") or []]}


# ---- brief


def primary_of(found):
    """Of sources with their labels by offset: the source and the label whose place is the diagnostic's."""
    all_labels = [(it["source"], label) for it in found for label in it["labels"]]
    marked = [it for it in all_labels if it[1].get("primary")]
    return (marked or all_labels or [None])[0]


def sorted_sections(report, source):
    return [{**it, "labels": by_offset(it)} for it in sections(report, source)]


def place_of(report, source):
    primary = primary_of(sorted_sections(report, source))
    if primary:
        return place_at(*primary)
    return (source.get("name"), None) if source else (None, None)


def cause_rows(report, source, at):
    rows = []
    while report.get("cause"):
        report = report["cause"]
        primary = primary_of(sorted_sections(report, report.get("source") or source))
        place = place_at(*primary) if primary and is_accepted(primary[0]["text"].encode(), primary[1]) else at
        rows.append(f"{spelled(place)}note: caused by: {one_row(report['message'])}")
    return rows + [f"{spelled(at)}note: caused by: {one_row(text)}" for text in report.get("causes") or []]


ESCAPED = {ord("\\"): "\\\\", ord('"'): '\\"', ord("\n"): "\\n", ord("\t"): "\\t"}


def quoted(data):
    """Bytes as GCC and clang quote them."""
    return '"' + "".join(ESCAPED.get(it, chr(it) if 32 <= it < 127 else f"\\{it:03o}") for it in data) + '"'


def line_and_byte(data, offset):
    """Line and byte of an offset, both from 1; the bytes of terminators count too."""
    ends = [it.end() for it in TERMINATORS.finditer(data) if it.end() <= offset]
    return f"{len(ends) + 1}:{offset - (ends[-1] if ends else 0) + 1}"


def fix_rows(fix, source, at):
    """The rows of a fix over a source, of a diagnostic at a place."""
    edits, data = edits_of(fix), source and source["text"].encode()
    why = fix_model.refusal(data, edits) if source and edits else None
    if source is None or not edits or why:
        note = [f"{spelled(at)}note: failed to apply fix: {why}"] if why else []
        return [f"{spelled(at)}fix: {one_row(fix['message'])}", *note]
    order, name = fix_model.by_offset(edits), source.get("name")
    rows = [f"{spelled((name, position(data, order[0].offset)))}fix: {one_row(fix['message'])}"]
    for it in order:
        span = f"{{{line_and_byte(data, it.offset)}-{line_and_byte(data, it.end())}}}"
        rows.append(f"fix-it:{quoted((name or '').encode())}:{span}:{quoted(it.text)}")
    return rows


def brief_rows(report, inherited, chain):
    source = report.get("source") or inherited
    found = sorted_sections(report, source)
    for it in found:
        if not all(is_accepted(it["source"]["text"].encode(), label) for label in it["labels"]):
            raise Refused
    at, code = place_of(report, source), report.get("code")
    kind = (report.get("severity") or "error") + ("" if code is None else f"[{one_row(code)}]")
    rows = [f"{spelled(at)}{kind}: {one_row(report['message'])}"]
    if source is None:
        rows += [f"note: {one_row(it['label'])}" for it in by_offset(report) if it.get("label") is not None]
    for it in found:
        texts = [label for label in it["labels"] if label.get("label") is not None]
        rows += [f"{spelled(place_at(it['source'], label))}note: {one_row(label['label'])}" for label in texts]
    rows += cause_rows(report, source, at) if chain else []
    rows += [f"{spelled(at)}help: {one_row(report['help'])}"] if report.get("help") is not None else []
    for it in report.get("fixes") or []:
        rows += fix_rows(it, source, at)
    for it in report.get("related") or []:
        rows += brief_rows(it, source, chain)
    return rows
