"""shellcheck_cases.py: what ShellCheck 0.9.0 wrote of a few scripts (`shellcheck/`, by `-f json1`), as it is and
changed: what show.py runs the program `show` on."""
import json
import os
import random
from functools import partial

from gcc_cases import formatted_runs
from json_changes import changed
from programs import RECORDED

FOLDER = os.path.join(RECORDED, "shellcheck")
NAMES = ["quotes", "broken", "wide", "old", "script", "returns"]
BAD = [b'{"comments":[{}]}\n', b'{"comments":[{"message":"m"},{"message":7}]}\n', b'{"comments":[]\n']
BAD += [b'{"comments":{}}\n']
OTHER = [b'{"comments":[]}\n', b'{"comments":[{"message":"m"}]}\n', b'{ "comments": []}\n', b"[ 50%] Testing\n"]
NUMBERS = ("line", "column", "endLine", "endColumn")


def recorded(name):
    """What ShellCheck wrote of a script: an object in one row."""
    with open(os.path.join(FOLDER, f"{name}.json"), "rb") as file:
        return file.read()


def value_of(name):
    return json.loads(recorded(name))


def row_of(value):
    return json.dumps(value, ensure_ascii=False).encode() + b"\n"


def cut(name):
    """The row cut at every 50th byte."""
    row = recorded(name).rstrip(b"\n")
    return b"".join(row[:end] + b"\n" for end in range(1, len(row), 50))


def other_value(dice, key, old):
    """A value in place of another one."""
    near = [max(0, old - 2), old + 1, old + 30] if isinstance(old, int) else []
    given = {
        **dict.fromkeys(NUMBERS, [0, 1, 2, 3, 10**6, 2**63, 2**64 - 1, "7", -1, 1.5, None, *near]),
        "file": ["quotes.sh", "wide.sh", "returns.sh", "gone.sh", "short.sh", "/gone.sh", "", 7],
        "code": [0, 1000, 2**64 - 1, -1, 1.5, "2086", None],
        "level": ["error", "warning", "info", "style", "loud", "", 3],
        "message": ["m", "two\nrows", ""],
        "replacement": ["", "x", "\n", "two\nrows\n", None, 3],
        "fix": [None, 5, "x", [], {}],
        "replacements": [[], None, "x", [5], [{}], {}],
    }
    return dice.choice(given.get(key, [None, 7, "s", [], {}]))


def hostile(dice, count):
    """Comments that are changed by chance."""
    found = [it for name in NAMES for it in value_of(name)["comments"]]
    one = partial(changed, dice, is_read=bool, other_value=other_value)
    rows = ([one(dice.choice(found)) for _ in range(dice.choice([1, 1, 2, 5]))] for _ in range(count))
    return b"".join(row_of({"comments": row}) for row in rows)


def inputs(folder):
    """What is read, with the folder of its files; in `folder` some are gone or shorter."""
    for name in NAMES:
        given = recorded(name)
        yield f"ShellCheck's {name} as recorded", given, FOLDER
        yield f"ShellCheck's {name} cut at every 50th byte", cut(name), FOLDER
        yield from ((what, rows, FOLDER) for what, rows in formatted_runs(f"ShellCheck's {name}", value_of(name)))
        yield f"ShellCheck's {name} over files that are gone or shorter", given, folder
    yield "rows of ShellCheck that can't be read", b"".join(OTHER + BAD), FOLDER
    yield "ShellCheck's comments that are changed", hostile(random.Random(17), 600), folder
