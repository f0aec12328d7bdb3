#!/usr/bin/env python3
"""fix_worked.py: pictures of fixes that were made by hand, which the model of diff_model.py has to give.

Each has a source named `f`, edits as (offset, length, text), and the rows below the message. The last line is
'N passed, M failed', and the exit status is 0 only where nothing failed."""
import sys

from diff_model import fix_rows
from fix_model import Edit
from model import Settings
from programs import counted
from tree_model import Page, whole_picture

# each with its source, the edits, and the rows below the message
WORKED = [
    ("a word", "let a = lenght;\nb\n", [(8, 6, "len")], """
   ╭─[f:1:9]
 1 - let a = lenght;
 1 + let a = len;
 2 │ b
   ╰────"""),
    ("deleted lines", "use a;\nuse b;\n\nc();\n", [(0, 14, "")], """
   ╭─[f:1:1]
 1 - use a;
 2 - use b;
 3 │ 
   ╰────"""),
    ("inserted lines", "a\nb\n", [(2, 0, "x\ny\n")], """
   ╭─[f:2:1]
 1 │ a
 2 + x
 3 + y
 2 │ b
   ╰────"""),
    ("two edits near", "a\nb\nc\nd\n", [(2, 2, ""), (6, 1, "D")], """
   ╭─[f:2:1]
 1 │ a
 2 - b
 3 │ c
 4 - d
 3 + D
   ╰────"""),
    ("far apart", "1\n2\n3\n4\n5\n6\n7\n8\n9\n10\n", [(2, 0, "b\n"), (18, 2, "x")], """
   ╭─[f:2:1]
 1 │ 1
 2 + b
 2 │ 2
   ╰────
    ╭─[f:10:1]
  9 │ 9
 10 - 10
 11 + x
    ╰────"""),
    ("neighbours", "a\nb\nc\n", [(0, 1, "A"), (2, 1, "B")], """
   ╭─[f:1:1]
 1 - a
 2 - b
 1 + A
 2 + B
 3 │ c
   ╰────"""),
    ("in a word", "ab\n", [(1, 0, "x")], """
   ╭─[f:1:2]
 1 - ab
 1 + axb
   ╰────"""),
    ("no final terminator", "a\nend", [(5, 0, "\nmore\n")], """
   ╭─[f:2:4]
 1 │ a
 2 - end
 2 + end
   ·    +
 3 + more
   ╰────"""),
    ("CR LF", "a\r\nb\r\n", [(1, 1, "")], """
   ╭─[f:1:2]
 1 - a
   ·  -
 1 + a
 2 │ b
   ╰────"""),
    ("a tab", "a\n \tb\n", [(2, 2, "    ")], """
   ╭─[f:2:1]
 1 │ a
 2 -     b
   · ----
 2 +     b
   · ++++
   ╰────"""),
    ("wide, a blank at the end", "漢字 \nb\n", [(6, 1, "")], """
   ╭─[f:1:7]
 1 - 漢字 
   ·     -
 1 + 漢字
 2 │ b
   ╰────"""),
    ("nothing", "ab\nc\n", [(0, 2, "ab")], ""),
    ("refused", "ab\n", [(2, 2, "")], """
  [Failed to apply fix: OutOfBounds]"""),
    ("overlapping", "abc\n", [(0, 2, "x"), (1, 1, "")], """
  [Failed to apply fix: Overlap]"""),
    ("a pair of terminators", "a\rb\nc\n", [(2, 1, "")], """
   ╭─[f:2:1]
 1 - a
 2 - b
 1 + a
 3 │ c
   ╰────"""),
]

TOTAL = "let total = first_value + retrun_value + third_value + last;\n"
LETTERS = "aaaaaaaaaa bbbbbbbbbb cccccccccc dddddddddd\neeeeeeeeee ffffffffff gggggggggg hhhhhhhhhh\n"
# the same, with lines that are cut where they have more columns than a limit
CUT = [
    ("the smaller reach of two", TOTAL, [(26, 6, "return_the_long")], 30, """
   ╭─[f:1:27]
 1 - …lue + retrun_value…
 1 + …lue + return_the_long_value…
   ╰────"""),
    ("beside a line that fits", TOTAL, [(26, 34, "b;")], 30, """
   ╭─[f:1:27]
 1 - …value + retrun_va…e + last;
 1 + let total = first_value + b;
   ╰────"""),
    ("two lines, each by its own pair", LETTERS, [(11, 10, "B"), (77, 10, "H" * 20)], 20, """
   ╭─[f:1:12]
 1 - …aaa bbbbbbbbbb ccc…
 2 - …gggg hhhhhhhhhh
 1 + …aaa B ccc…
 2 + …gggg HHHHHH…HHHHHH
   ╰────"""),
    ("lines added in front of one", LETTERS, [(0, 22, "x\ny\naaaaaaaaaa bbbbb "), (77, 10, "H")], 20, """
   ╭─[f:1:1]
 1 - aaaaaa…bbbbb ccccc…
 2 - …gggggggg hhhhhhhhhh
 1 + x
 2 + y
 3 + aaaaaa…bbbbb ccccc…
 4 + …gggggggg H
   ╰────"""),
]

COLON = {
    "message": "m",
    "source": {"name": "f.py", "text": "def f(x):\n    if x\n        return 1\n"},
    "fixes": [{"message": "a colon is missing", "edits": [{"offset": 18, "length": 0, "text": ":"}]}],
}
NESTED = {
    "message": "m",
    "help": "h",
    "source": {"name": "f", "text": "ab\n"},
    "related": [
        {
            "message": "r",
            "severity": "warning",
            "labels": [{"offset": 1, "length": 1}],
            "fixes": [{"message": "y", "edits": [{"offset": 1, "length": 0, "text": "x"}]}],
        }
    ],
}
# whole reports: each with how it is drawn
REPORTS = {
    "a colon": (
        (COLON, Page()),
        """
  × m
  fix: a colon is missing
   ╭─[f.py:2:9]
 1 │ def f(x):
 2 -     if x
 2 +     if x:
 3 │         return 1
   ╰────
""",
    ),
    "nested": (
        (NESTED, Page(nested=True)),
        """
  × m
  help: h
  ╰─▶   ⚠ r
         ╭─[f:1:2]
       1 │ ab
         ·  ─
         ╰────
        fix: y
         ╭─[f:1:2]
       1 - ab
       1 + axb
         ╰────
""",
    ),
}


def pictures():
    """Each worked picture's name, what was made by hand, and what the model gives."""
    for name, text, edits, limit, wanted in [(*case[:3], None, case[3]) for case in WORKED] + CUT:
        made = [Edit(offset, length, new.encode()) for offset, length, new in edits]
        rows = fix_rows(made, text.encode(), "f", Settings(line_columns=limit))
        yield name, wanted, "".join("\n" + row for row in rows)
    for name, ((report, page), wanted) in REPORTS.items():
        yield name, wanted, "\n" + whole_picture(report, page)


def main():
    results = list(pictures())
    for name, wanted, made in results:
        if wanted != made:
            print(f"{name}: wanted{wanted}\nmade{made}")
    failed = sum(wanted != made for _, wanted, made in results)
    return counted(len(results) - failed, failed)


if __name__ == "__main__":
    sys.exit(main())
