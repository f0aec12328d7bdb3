"""gcc_cases.py: what GCC 12.2 wrote of a few programs (`gcc/`, by `-fdiagnostics-format=json`, with `-Wall -Wextra` or
`-fanalyzer`), as it is and changed: what show.py runs the program `show` on."""
import json
import os
import random
from functools import partial

from json_changes import changed
from programs import RECORDED

FOLDER = os.path.join(RECORDED, "gcc")
NAMES = ["broken", "ends", "fatal", "hidden", "leak", "marked", "notes", "paths"]
# the members of a diagnostic that are read
READ = ("kind", "message", "option", "option_url", "column-origin", "locations", "children", "fixits", "path")
KINDS = ["error", "fatal error", "internal compiler error", "sorry, unimplemented", "permerror", "warning", "pedwarn", "note",
         "debug", 3]
BAD = [b'[{"kind":"error"}]\n', b'[{"message":"m"},{"message":7}]\n', b'[{"message":"m"}\n', b'[{"message":"m"}] x\n']
OTHER = [b"[]\n", b'[{"message":"m"}]\n', b"[ {}]\n", b"[1]\n", b"compilation terminated.\n"]


def recorded(name):
    """What GCC wrote of a program: an array in one row, and maybe rows after it."""
    with open(os.path.join(FOLDER, f"{name}.json"), "rb") as file:
        return file.read()


def array_of(name):
    return json.loads(recorded(name).split(b"\n", 1)[0])


def cut(name):
    """The array cut at every 50th byte."""
    row = recorded(name).split(b"\n", 1)[0]
    return b"".join(row[:end] + b"\n" for end in range(1, len(row), 50))


def formatted(value, column=0):
    """A value as GCC writes it from 14 on: a row for each member and item, below the first one of its bracket."""
    after = ",\n" + " " * (column + 1)
    if isinstance(value, dict):
        held = [f"{json.dumps(key)}: {formatted(it, column + len(key) + 5)}" for key, it in value.items()]
        return "{" + after.join(held) + "}"
    if isinstance(value, list):
        return "[" + after.join(formatted(it, column + 1) for it in value) + "]"
    return json.dumps(value, ensure_ascii=False)


def formatted_runs(what, value):
    """What GCC writes from 14 on: by itself, with other ends, between a build's own rows, and cut."""
    rows = formatted(value).encode() + b"\n"
    ends = rows.replace(b"\n", b"\r\n")
    cut_off = (rows[:end].rstrip(b"\n") + b"\n" for end in range(1, len(rows), 50))
    yield f"{what}, formatted", rows
    yield f"{what}, formatted, with CR LF", ends
    yield f"{what}, formatted, between other rows", b"cc -c a.c\n[ 50%] a\n[ 5\n" + rows + ends + rows + b"  done\n"
    yield f"{what}, formatted, cut at every 50th byte", b"".join(cut_off)


def other_value(dice, key, old):
    """A value in place of another one."""
    near = [max(0, old - 2), old + 1, old + 30] if isinstance(old, int) else []
    given = {
        **dict.fromkeys(("line", "byte-column", "column"), [0, 1, 3, 10**6, 2**63, 2**64 - 1, "7", -1, 1.5, *near]),
        "column-origin": [0, 1, 2, 60, 2**64 - 1, None],
        "file": ["notes.c", "near.h", "gone.h", "short.c", "ends.c", "/gone.h", "", 7],
        "label": ["", "here", "two\nrows", None, 5],
        "string": ["", "x", ";\n", "\n", "two\nrows\n", None, 3],
        "kind": KINDS,
        "message": ["m", "two\nrows", ""],
        "description": ["", "two\nrows", None],
        **dict.fromkeys(("start", "finish", "caret", "next", "location"), [None, 5, "x", [], {}]),
        **dict.fromkeys(("locations", "children", "fixits", "path"), [[], None, "x", [5], [{}], {}]),
    }
    return dice.choice(given.get(key, [None, 7, "s", [], {}]))


def is_read(path):
    """Whether what stands there is read."""
    return path[0] in READ


def hostile(dice, count):
    """Arrays of diagnostics that are changed by chance."""
    found = [it for name in NAMES for it in array_of(name)]
    one = partial(changed, dice, is_read=is_read, other_value=other_value)
    rows = ([one(dice.choice(found)) for _ in range(dice.choice([1, 1, 2, 5]))] for _ in range(count))
    return b"".join(json.dumps(row).encode() + b"\n" for row in rows)


def inputs(folder):
    """What is read, with the folder of its files; in `folder` some are gone or shorter."""
    for name in NAMES:
        given = recorded(name)
        yield f"GCC's {name} as recorded", given, FOLDER
        yield f"GCC's {name} cut at every 50th byte", cut(name), FOLDER
        spread = json.dumps(json.loads(given.split(b"\n", 1)[0]), indent=1).encode() + b"\n"
        yield f"GCC's {name} over many rows", spread + given + b"[\r\n]\n[\n", FOLDER
        yield from ((what, rows, FOLDER) for what, rows in formatted_runs(f"GCC's {name}", array_of(name)))
        yield f"GCC's {name} without its last bytes", given[: -len(given) // 7], FOLDER
        yield f"GCC's {name} over files that are gone or shorter", given, folder
    yield "rows of GCC that can't be read", b"".join(OTHER + BAD), FOLDER
    yield "GCC's diagnostics that are changed", hostile(random.Random(11), 600), folder
