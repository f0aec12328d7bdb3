#!/usr/bin/env python3
"""read_back.py: the SARIF logs that the built `job` writes, read back by the built `show`.

Each description of job-sarif.jsonl, its sources named apart, has its log by `job --sarif`. `show --from sarif --json`,
over each of these sources in a file of its name, has to tell what is kept of the description, by this model: a report
for each result, with its severity, its code and the URL of that code's rule; as its message the rows that the log has;
its labels with their texts, each widened to whole characters; its fixes, as the log has them. What else becomes of
them:

- labels over the same bytes of a source are one, and one without a text within another one of its source is left out;
  in which lists they stand readers_model.py says
- a label that is refused, or over a source that is in no file (without a name, or with a URI or an absolute path as its
  name), is a cause text, of its place and text; so are the text of a label without a source, and the name of the source
  of a report without labels
- of equal fixes the first one stays; over a source in no file a fix is help; over another source than that of the first
  label, or where there is no label, it is a fix of a related report
- causes, help, fixes that can't be applied, and URLs that aren't the rule's are rows of the message; labels of causes
  are the report's

No text of them has a link, and each fix has a message. What is proved of all logs is told in miette_read_laws.

The last line is 'N passed, M failed', and the exit status is 0 only where nothing failed."""
import json
import os
import sys
import tempfile
from functools import partial

import sarif_model
from made import made
from programs import SHOWN, counted, each, run
from readers_model import Settled, Told, advice, fixes, labels
from sarif_model import Artifacts, Edit, applies, found_in, groups_of, primary_of, replacements, rules_of
from sarif_reader_model import name_of

SEVERITIES = {"advice": "advice", "warning": "warning"}


# ---- descriptions


def descriptions():
    """The descriptions, each with its sources named apart."""
    with open(made("job-sarif"), encoding="utf-8") as file:
        return [named_apart(json.loads(row)["report"], []) for row in file]


def named_apart(value, named):
    """A part of a description; `named` has the names that were given to sources."""
    if isinstance(value, list):
        return [named_apart(it, named) for it in value]
    if not isinstance(value, dict):
        return value
    made = {key: named_apart(it, named) for key, it in value.items()}
    if made.get("source", {}).get("name"):
        named.append(f"{made['source']['name']}-{len(named) + 1}")
        made["source"] = {**made["source"], "name": named[-1]}
    return made


def sources_in(value):
    """The sources of a description."""
    if isinstance(value, list):
        return [it for item in value for it in sources_in(item)]
    if not isinstance(value, dict):
        return []
    own = [value["source"]] if value.get("source") else []
    return own + [it for key, item in value.items() if key != "source" for it in sources_in(item)]


def files_of(report):
    """The texts of the files below a folder, by their names."""
    named = [(it.get("name") or "", it["text"].encode()) for it in sources_in(report)]
    return {name: data for name, data in named if name and "//" not in name and not name.startswith("/")}


# ---- what is kept


class Kept:
    """What is kept of one result: what is told at places, and what is proposed."""

    def __init__(self, it, files, artifacts):
        self.it, self.files, self.artifacts = it, files, artifacts
        self.settled, self.offers, self.lost = Settled(files), [], []
        # the files that are told as a whole: by the result's own location, and by any of which nothing is said
        self.wholes, self.bare = [], []

    def name(self, source):
        return name_of(self.artifacts.located(source)["uri"])

    def tell(self, source, label, primary=False):
        """A label, as what is told at its place."""
        rows = [label["label"]] if label.get("label") else []
        stretch = source and source.stretch(label["offset"], label["length"])
        if not source and rows:
            self.settled.add(Told(rows, None))
        elif source and not stretch:
            self.tell_whole(self.name(source), rows, primary)
        elif source:
            start, end = stretch
            span = {"file_name": self.name(source), "byte_start": start.offset, "byte_end": end.offset}
            place = {"line_start": start.line + 1, "column_start": start.column + 1}
            self.settled.add(Told(rows, {**span, **place}, True, primary))

    def tell_whole(self, name, rows, is_own):
        """A file as a whole: what is said of it is told by its name, the name of another one after all else."""
        self.wholes += [name] if is_own else []
        self.bare += [] if rows else [name]
        for row in rows:
            self.settled.add(Told([f"{name}: {row}"], None))

    def tell_all(self):
        groups = groups_of(self.it.report, self.it.source, self.it.further)
        primary = primary_of(groups)
        if primary:
            self.tell(*primary, True)
        elif self.it.source:
            self.tell_whole(self.name(self.it.source), [], True)
        causes = [group for cause, own, more in self.it.causes for group in groups_of(cause, own, more)]
        for source, given in groups + causes:
            for label in sorted(given, key=lambda it: it["offset"]):
                if primary is None or label is not primary[1]:
                    self.tell(source, label)
        for name in self.bare:
            if name not in self.settled.lists[:1]:
                self.settled.tell(name)

    def propose(self, source, fix):
        """A fix that can be applied is proposed over its source, or is help; another one is a row of the message."""
        if not source or not applies(source, fix):
            return
        edits = [Edit(it["offset"], it["length"], it["text"].encode()) for it in fix["edits"]]
        name, made = self.name(source), replacements(source, edits)
        offer = fix["message"], None, [(name, (start.offset, end.offset), new.decode()) for (start, end), new in made]
        if name in self.files and offer not in self.offers:
            self.offers.append(offer)
        elif name not in self.files and fix["message"] not in self.lost:
            self.lost.append(fix["message"])

    def propose_all(self):
        for fix in self.it.report.get("fixes") or []:
            self.propose(self.it.source, fix)
        for cause, source, _ in self.it.causes:
            for fix in cause.get("fixes") or []:
                self.propose(source, fix)

    def named(self, main):
        """The name of a report's source, as JSON tells it: without labels there is none."""
        return {} if main is None else {"filename": main if self.settled.lists else ""}

    def report(self, message, rules):
        """The report, as JSON tells it."""
        self.tell_all()
        self.propose_all()
        settled, given = self.settled, self.it.report
        whole = next((it for it in self.wholes if it in self.files), None)
        main = settled.lists[0] if settled.lists else whole
        # over a file as a whole only proposals are the report's own of which all is in that file
        alone = [it for it in self.offers if settled.lists or {name for name, *_ in it[2]} == {main}]
        apart = self.offers if settled.lists else [it for it in self.offers if it not in alone]
        code = given.get("code") or None
        made = {"message": message, "severity": SEVERITIES.get(given.get("severity"), "error"), "causes": settled.texts}
        made.update({"code": code} if code else {}, **({"url": rules[code]} if code and rules[code] else {}))
        made.update({"help": "\n".join(self.lost)} if self.lost else {}, **self.named(main))
        further = [{"filename": it, "labels": told(settled, at)} for at, it in enumerate(settled.lists) if at]
        own = [fix for offer in alone if main for fix in fixes(offer, main, offer[0])]
        made.update(labels=told(settled, 0), **({"snippets": further} if further else {}), **proposed(own))
        more = [it for offer in apart for it in advice(offer, main if settled.lists else None, self.files)]
        return {**made, "related": [advised(it) for it in more]}


def told(settled, number):
    """The labels of a list, as JSON tells them."""
    found = labels(settled, number)
    return [
        {**({"label": it["label"]} if "label" in it else {}), "span": {"offset": it["offset"], "length": it["length"]}}
        for it in found
    ]


def edited(edit):
    return {"span": {"offset": edit["offset"], "length": edit["length"]}, "text": edit["text"]}


def proposed(made):
    """Fixes, as JSON tells them."""
    said = {"applicability": "unspecified"}
    items = [{"message": it["message"], **said, "edits": [edited(edit) for edit in it["edits"]]} for it in made]
    return {"fixes": items} if items else {}


def advised(report):
    """A report that is related, as JSON tells it. Without labels its file is not named."""
    said = {"message": report["message"], "severity": "advice", "causes": [], "filename": "", "labels": []}
    return {**said, **proposed(report["fixes"]), "related": []}


def kept(description, files):
    """The reports that are kept of a description, as JSON tells them."""
    found, artifacts = list(found_in(description, None)), Artifacts()
    rules, made = rules_of(found), []
    for it in found:
        said = sarif_model.result(it, rules, artifacts)["message"]["text"]
        made.append(Kept(it, files, artifacts).report(said.replace("{{", "{").replace("}}", "}"), rules))
    return made


# ---- runs


def read_back(root, case):
    """Whether a description is kept as the model says; where it isn't, what differs."""
    number, description = case
    folder, files = os.path.join(root, str(number)), files_of(description)
    os.makedirs(folder)
    for name, data in files.items():
        path = os.path.join(folder, name)
        os.makedirs(os.path.dirname(path), exist_ok=True)
        with open(path, "wb") as file:
            file.write(data)
    log = run(["job", "--sarif"], json.dumps(description).encode())
    shown = run(["show", "--root", folder, "--from", "sarif", "--json"], log[1])
    got = [json.loads(row) for row in shown[1].decode().split("\n")[:-1]] if shown[0] in (0, 1) else shown
    wanted = kept(description, files)
    is_well = log[0] == 0 and got == wanted and shown[2] == b""
    return None if is_well else f"description {number}: {description}\n  got    {got}\n  wanted {wanted}"


def main():
    cases = list(enumerate(descriptions(), 1))
    with tempfile.TemporaryDirectory() as root:
        faults = [it for it in each(partial(read_back, root), cases) if it]
    print("\n".join(faults[:SHOWN]), end="\n" if faults else "")
    return counted(len(cases) - len(faults), len(faults))


if __name__ == "__main__":
    sys.exit(main())
