#!/usr/bin/env python3
"""refusals.py: runs the built programs with each growth of memory refused in turn, until a run meets none.

A run with a refused growth must end with the status of that fault, write nothing to standard output, and name the fault
on standard error; or end as the whole run does, where a smaller growth served in its place. The run that meets none
must end as the whole run does. The last line is 'N passed, M failed', one for each report below, and the exit status is
0 only where nothing failed."""
import json
import os
import sys
import tempfile
from urllib.parse import quote

from programs import ROOT, STATUS, built, counted, each, library_in, refusals, run_refusing

README = "source\n  text\n    here"
NINE = "1\n2\n3\n4\n5\n6\n7\n8\n9\n"
LABELLED = {
    "message": "oops!",
    "code": "oops::my::bad",
    "help": "try doing it better next time?",
    "source": {"name": "bad_file.rs", "text": README},
    "labels": [{"offset": 9, "length": 4, "label": "This bit here"}],
}
LINKED = {
    "message": "outer",
    "cause": {"message": "in-ner text here", "code": "c::d", "url": "http://a-b/c", "help": "try it"},
}
RELATED = {
    "message": "top",
    "contexts": ["first", "second"],
    "related": [{"message": "rel", "severity": "warning"}, LABELLED],
}
MANY = {
    "message": "m",
    "source": {"text": README, "name": "f", "language": "text"},
    "labels": [
        {"offset": 0, "length": 22, "label": "p\nq"},
        {"offset": 9, "length": 4, "label": "here"},
        {"offset": 9, "length": 4, "label": "and here", "primary": True},
    ],
}
APART = {"message": "m", "source": {"text": NINE}, "labels": [{"offset": 8, "length": 1}, {"offset": 16, "length": 1}]}
OWN = {
    "message": "m",
    "source": {"text": NINE},
    "labels": [{"offset": 0, "length": 1, "context": 1}, {"offset": 16, "length": 1, "context": 2, "label": "x"}],
}
MENDED = {
    "message": "m",
    "source": {"name": "f", "text": "a \nb\n"},
    "fixes": [
        {
            "message": "x",
            "edits": [{"offset": 1, "length": 1, "text": ""}, {"offset": 3, "length": 0, "text": "漢"}],
        },
        {"message": "y", "edits": [{"offset": 9, "length": 1, "text": ""}]},
    ],
}
REFUSED = {"message": "m", "source": {"text": "a"}, "labels": [{"offset": 9, "length": 1}]}
SPAN = {"file_name": os.path.join(ROOT, "crates/draw/stdin"), "byte_start": 9, "byte_end": 13}
MESSAGE = {
    "message": "m",
    "code": {"code": "c"},
    "spans": [{**SPAN, "is_primary": True, "label": "here"}, {**SPAN, "byte_start": 0, "byte_end": 1}],
    "children": [
        {"message": "n", "level": "note", "spans": [SPAN]},
        {"message": "h", "level": "help", "spans": [{**SPAN, "suggested_replacement": "there"}]},
        {"message": "o", "level": "help", "spans": [{**SPAN, "file_name": "gone"}]},
    ],
}
PLACE = {"line": 2, "column": 3, "endLine": 2, "endColumn": 7}
CHANGES = [{**PLACE, "replacement": "there"}, {**PLACE, "column": 1, "endColumn": 1, "replacement": "\t"}]
REGION = {"startLine": 2, "startColumn": 3, "endColumn": 7}
ARTIFACT = {"uri": f"file://{quote(SPAN['file_name'])}"}
LOG = {
    "newlineSequences": ["\r\n", "\n", "\u2028"],
    "results": [
        {
            "message": {"text": "{0}", "arguments": ["m"]},
            "locations": [{"physicalLocation": {"artifactLocation": ARTIFACT, "region": REGION}}],
            "fixes": [{"description": {"text": "by hand"}}],
        }
    ],
}
COMMENT = {"file": SPAN["file_name"], **PLACE, "code": 2086, "message": "m", "fix": {"replacements": CHANGES}}
TERMINAL = ["--term-unicode", "yes", "--term-color", "rgb", "--rgb", "always", "--term-links", "yes", "--width", "20"]
PLAIN = ["--term-unicode", "yes"]
REPORTS = (LABELLED, LINKED, RELATED, MANY, APART, OWN, MENDED, REFUSED)
NESTED = ["--nested", "yes", "--footer", "bye"]
KINDS = (PLAIN, TERMINAL, NESTED, ["--narrated"], ["--brief"], ["--json"], ["--debug"], ["--sarif"], ["--lsp"])

RUNS = [
    (["draw", "bad_file.rs", "9", "4", "This bit here", "oops!"], README),
    (["lint", "f", "80"], "x = 1 \n \ty\nend"),
    (["lint", "--fix", "f", "80"], "x = 1 \n \ty\nend"),
    (["lint", "--diff", "f", "80"], "x = 1 \n \ty\nend"),
    (["lint", "--sarif", "f", "80"], "x = 1 \n \ty\nend"),
    (["bench", "2", *PLAIN], json.dumps(LABELLED)),
    (["show", *PLAIN], json.dumps(MESSAGE)),
    (["show", "--brief"], json.dumps(MESSAGE)),
    (["show", "--sarif"], json.dumps(MESSAGE)),
    (["show", "--lsp"], json.dumps(MESSAGE)),
    (["show", *PLAIN], json.dumps({"runs": [LOG]})),
    (["show", *PLAIN], json.dumps({"comments": [COMMENT, {**COMMENT, "file": "gone"}]})),
] + [
    (["job", *words], json.dumps(description))
    for description in REPORTS
    for words in KINDS
    if not (description is REFUSED and words in (["--narrated"], ["--brief"]))
]


def fault_of(words, given, library):
    """What the first refused growth gave that is answered in another way, if any; how many were refused, answered."""
    given = given.encode()
    whole, _ = run_refusing(0, words, given, library)
    if not whole[1] or whole[2]:
        return ("no growth refused", whole), 0
    wanted = (STATUS[words[0]], b"", f"{words[0]}: out of memory\n".encode())
    answered = 0
    for growth, got, was_refused in refusals(words, given, library):
        if not was_refused:
            return (None if got == whole and answered else ("a last run", got)), answered
        if got not in (wanted, whole):
            return (f"growth {growth} refused", got), answered
        answered += got == wanted
    return ("no end", whole), answered


def main():
    assert {words[0] for words, _ in RUNS} == set(STATUS), "a program that isn't run"
    with tempfile.TemporaryDirectory(dir=built("draw")) as folder:
        library = library_in(folder, "refuse")
        found = each(lambda it: fault_of(*it, library), RUNS)
    wrong = [(it, fault) for it, (fault, _) in zip(RUNS, found) if fault]
    for (words, given), fault in wrong:
        print(f"{words!r} on {given!r}: {fault!r}")
    print(f"refused growths that were answered: {sum(it for _, it in found)}")
    return counted(len(RUNS) - len(wrong), len(wrong))


if __name__ == "__main__":
    sys.exit(main())
