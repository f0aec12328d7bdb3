"""sarif_read_cases.py: SARIF logs that show.py runs the program `show` on: those made by hand (`sarif_read/*.sarif`,
over the files beside them), the same changed by chance, what `job --sarif` and `lint --sarif` write (`job-sarif.jsonl`,
`lint-sarif.jsonl`), what clang 16 and flawfinder wrote, and one worded as clang's."""
import contextlib
import json
import os
import random
import re
from functools import partial
from urllib.parse import quote

import gcc_cases
from json_changes import changed
from made import made
from programs import RECORDED
from sarif_model import uri_of_name
from sarif_reader_model import name_of

FOLDER = os.path.join(RECORDED, "sarif_read")
# the members of a run and of a result that are read
READ = ("tool", "columnKind", "newlineSequences", "artifacts", "originalUriBaseIds", "results", "invocations")
# the logs made by hand
LOGS = ("places", "messages", "flows", "newlines", "rules", "hidden", "wholes")
URIS = ["wide.c", "line%20ends.txt", "file:wide.c", "file:///gone.c", "gone%2", "%e6%bc%a2", "short.c", "", "x://y", 7]
BAD = [b'{"runs":{}}\n', b'{"version":"2.1.0"}\n', b'{"runs":[]\n', b'{"runs":[],}\n', b'{"runs":[]} x\n']
BAD += [b'{"version":"1.0.0","runs":[{"results":[{"message":"m"}]}]}\n', b'{"version":"","runs":[]}\n']
OTHER = [b'{"runs":[]}\n', b'{"runs":[5,{"results":{}}]}\n', b' {"runs":[]}\n', b'{ "runs": []}\n', b"2 warnings.\n"]
OTHER += [b'{"version":"2.1","runs":[]}\n', b'{"version":1,"runs":[]}\n']


def log(name):
    """A log made by hand."""
    with open(os.path.join(FOLDER, f"{name}.sarif"), encoding="utf-8") as file:
        return json.load(file)


def row_of(value):
    return json.dumps(value, ensure_ascii=False).encode() + b"\n"


def cut(value):
    """The log cut at every 50th byte."""
    row = row_of(value).rstrip(b"\n")
    return b"".join(row[:end] + b"\n" for end in range(1, len(row), 50))


def spread(value, end=b"\n"):
    """A value over many rows."""
    return json.dumps(value, ensure_ascii=False, indent=2).encode().replace(b"\n", end) + end


def spread_and_cut(value):
    """The log over many rows, cut at every 50th byte; after each there is a quote, so that a value that is cut ends."""
    rows = spread(value)
    return b"".join(rows[:end] + b'\n"\n' for end in range(1, len(rows), 50))


# ---- logs of ours


def cases_of(name):
    with open(made(name), encoding="utf-8") as file:
        return [json.loads(row) for row in file]


def sources_in(value):
    """The sources of a description, with those of the reports in it."""
    if isinstance(value, list):
        return [it for item in value for it in sources_in(item)]
    if not isinstance(value, dict):
        return []
    own = [(value.get("name", ""), value["text"])] if isinstance(value.get("text"), str) else []
    return own + [it for key, item in value.items() if key != "fixes" for it in sources_in(item)]


def write(folder, name, text):
    """Writes a file below a folder, unless its name leads out of it or isn't that of its path."""
    path = os.path.join(folder, name)
    if os.path.normpath(name) != name or name.startswith("/"):
        return
    with contextlib.suppress(FileExistsError, NotADirectoryError, IsADirectoryError):
        os.makedirs(os.path.dirname(path), exist_ok=True)
        with open(path, "x", encoding="utf-8", newline="") as file:
            file.write(text)


def below(number, row):
    """A log whose relative URIs lie below a folder of this number."""
    return re.sub(rb'("uri": ")(?!file:)', rb"\g<1>%d/" % number, row)


def ours(folder, name):
    """The logs of these cases, each in a row, over the files of its own folder, which are written."""
    rows = []
    for number, case in enumerate(it for it in cases_of(name) if it["stdout_text"].startswith("{")):
        sources = sources_in(case["report"]) if "report" in case else [(case["argv"][-2], case.get("stdin_text"))]
        for at, (named, text) in enumerate(it for it in sources if it[1] is not None):
            write(os.path.join(folder, str(number)), name_of(uri_of_name(named)) or f"untitled:{at + 1}", text)
        rows.append(below(number, case["stdout_text"].encode()))
    return b"".join(row.rstrip(b"\n") + b"\n" for row in rows)


# ---- logs of others


def recorded(name):
    """What a tool wrote, its own rows around the log too."""
    with open(os.path.join(FOLDER, name), "rb") as file:
        return file.read()


def cut_rows(given):
    """What a tool wrote, cut at every 50th byte, with a quote after each."""
    return b"".join(given[:end] + b'\n"\n' for end in range(1, len(given), 50))


def logs_in(rows):
    """The logs that stand in what a tool wrote, each in a row or over all of it."""
    with contextlib.suppress(ValueError):
        return [json.loads(rows)]
    return [json.loads(row) for row in rows.splitlines() if row.startswith(b'{"')]


def of_tools(folder):
    """What clang 16 wrote of `gcc/broken.c`, in a folder `file:///project/`, and flawfinder of `unsafe.c`."""
    clang, flawfinder = recorded("clang.txt"), recorded("flawfinder.sarif")
    here = clang.replace(b"/project/", f"{quote(gcc_cases.FOLDER)}/".encode())
    below = clang.replace(b"file:///project/", b"")
    for what, given, sources in (("clang's", below, gcc_cases.FOLDER), ("flawfinder's", flawfinder, FOLDER)):
        yield f"{what} log", given, sources
        yield f"{what} log over files that are gone or shorter", given, folder
        yield f"{what} log cut at every 50th byte", cut_rows(given), sources
    yield "clang's log over files that begin with `/`", here, FOLDER
    yield "clang's log over a folder that isn't there", clang, gcc_cases.FOLDER


def located(line, column, end):
    region = {"endColumn": end, "startColumn": column, "startLine": line}
    return {"physicalLocation": {"artifactLocation": {"index": 0, "uri": "wide.c"}, "region": region}}


def of_clang():
    """A log worded as clang 16 words its own, between the rows that it writes beside it."""
    rules = [{"defaultConfiguration": {"enabled": True, "level": level, "rank": -1}, "id": id_, "name": ""}
             for level, id_ in (("warning", "6602"), ("note", "4712"), ("warning", "6602"))]
    said = [("warning", "6602", 0, 2, 26, 32, "unused variable 'unused'"), ("note", "4712", 1, 1, 5, 9, "here: 'main'")]
    results = [{"level": level, "locations": [located(*at)], "message": {"text": text}, "ruleId": id_, "ruleIndex": index}
               for level, id_, index, *at, text in said]
    driver = {"fullName": "", "informationUri": "https://clang.llvm.org/", "name": "clang", "rules": rules}
    run = {"artifacts": [{"location": {"index": 0, "uri": "wide.c"}, "mimeType": "text/plain"}], "results": results}
    value = {"runs": [{**run, "columnKind": "unicodeCodePoints", "tool": {"driver": driver}}], "version": "2.1.0"}
    return b"clang: warning: argument unused\n" + row_of(value) + b"2 warnings generated.\n"


# ---- logs that are changed


def other_value(dice, key, old):
    """A value in place of another one."""
    whole = isinstance(old, int) and not isinstance(old, bool)
    near = [max(0, old - 2), old + 1, old + 30] if whole else []
    given = {
        **dict.fromkeys(("startLine", "endLine", "startColumn", "endColumn", "index", "ruleIndex", "charOffset",
                         "charLength", "byteOffset", "byteLength"),
                        [0, 1, 2, 3, 5, 10**6, 2**63, 2**64 - 1, "7", -1, 1.5, None, *near]),
        "uri": URIS,
        "helpUri": ["", "https://x/y", 5],
        **dict.fromkeys(("id", "ruleId"), ["W1", "W2", "W1/a", "W2/b/c", "none", "none/", "", "/", 5]),
        "status": ["accepted", "rejected", "underReview", "", 5],
        "baselineState": ["absent", "new", "unchanged", "", 5],
        "toolComponent": [{}, {"index": 0}, {"index": 1}, {"index": 9}, {"name": "B"}, "x", None],
        "text": ["", "here", "two\nrows", "{{a}}}} {0} }{{{", "}}", "{1}[{0}](1){{", "\\\\[\\[a\\](b)[c](d e)](f)", None, 5],
        "uriBaseId": ["ROOT", "SOURCES", "LOOP", "none", "", 5],
        "arguments": [[], ["x"], ["{0}", "[a](b)"], [5, "y"], "z", None],
        "level": ["error", "warning", "note", "none", "loud", 3],
        "kind": ["fail", "pass", "notApplicable", "open", "", 3],
        "newlineSequences": [[], ["\n"], ["\r", "\r\n"], ["\u2028", "", 5], ["e", "\n\n"], [*"\r\n\x85e"], "\n", None],
        "columnKind": ["utf16CodeUnits", "unicodeCodePoints", "", 3],
        **dict.fromkeys(("locations", "relatedLocations", "rules", "artifacts", "results", "fixes", "artifactChanges",
                         "replacements", "codeFlows", "threadFlows", "extensions", "suppressions", "invocations",
                         "toolExecutionNotifications"), [[], None, "x", [5], [{}], {}]),
    }
    return dice.choice(given.get(key, [None, 7, "s", [], {}]))


def is_read(path):
    """Whether what stands there is read."""
    return path[0] in READ


def hostile(dice, count):
    """Logs of runs with one result, that are changed by chance."""
    values = [*(log(name) for name in LOGS), *logs_in(recorded("clang.txt")), *logs_in(recorded("flawfinder.sarif"))]
    found = [{**run, "results": [it]} for value in values for run in value["runs"] for it in run["results"]]
    one = partial(changed, dice, is_read=is_read, other_value=other_value)
    logs = ([one(dice.choice(found)) for _ in range(dice.choice([1, 1, 2, 4]))] for _ in range(count))
    return b"".join(row_of({"runs": runs}) for runs in logs)


def inputs(folder):
    """What is read, with the folder of its files; in `folder` some are gone or shorter, and ours are written there."""
    for name in LOGS:
        yield f"{name}.sarif", row_of(log(name)), FOLDER
        yield f"{name}.sarif cut at every 50th byte", cut(log(name)), FOLDER
        yield f"{name}.sarif over files that are gone or shorter", row_of(log(name)), folder
    value = log("places")
    rows = spread(value) + row_of(value) + spread(value, b"\r\n")
    yield "the log over many rows", rows + b"[ 50%] Building\n{ a\n{\n" + rows, FOLDER
    yield "the log over many rows, cut at every 50th byte", spread_and_cut(value), FOLDER
    yield "a log worded as clang's", of_clang(), FOLDER
    yield from of_tools(folder)
    yield "rows of logs that can't be read", b"".join(OTHER + BAD), FOLDER
    yield "logs that are changed", hostile(random.Random(13), 600), FOLDER
    for name in ("job-sarif", "lint-sarif"):
        sources = os.path.join(folder, name)
        os.makedirs(sources)
        yield f"the logs of {name}", ours(sources, name), sources
