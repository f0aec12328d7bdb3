#!/usr/bin/env python3
"""stopped.py: runs the built program `calls` over sources that stop after each number of reads.

`calls stops` renders reports over a source of which one read fails, the first, the second, and so on until none does,
alone or with all after it, by each handler, with 0, 1 and 2 lines of context. What each row must be is worked out here
from docs/REFERENCE.md: which reads a handler makes, one after another, and what comes of one that fails. The report is
refused and the text is as before; or one row says which label, or that a fix, wasn't read; or two labels stand apart
whose span couldn't be read as one. JSON and the debug report are as without the fault. A text without a fault is that
of `job` (calls_reports.py), each other one is written by hand here. The last line is 'N passed, M failed'."""
import sys
from itertools import count

from calls_expected import CYAN, END, LINK, RED, YELLOW
from calls_reports import BEFORE, HIGHLIGHTING, NARRATED, STOPPED, indented, is_drawn, is_wanted
from programs import SHOWN, counted, each, run

HANDLERS = ("graphical", "nested", "chosen", "chosen narrated", "narrated", "brief", "github", "json", "debug")
DRAWING = ("graphical", "nested", "chosen")
LINES = (0, 1, 2)
WAYS = ("at", "from")
# what comes of a fault, beside the label that wasn't read
WHOLE, REFUSED, APART, UNPLACED, UNFIXED = "whole", "refused", "apart", "unplaced", "unfixed"


class Reads:
    """Reads of which one fails, alone or with all after it."""

    def __init__(self, fails_at, stays):
        self.count, self.fails_at, self.stays = 0, fails_at, stays

    def is_read(self):
        self.count += 1
        return not (self.count == self.fails_at or self.stays and self.fails_at < self.count)


def lines_of(label, lines):
    """The first and the last line of a label's context. The nine lines have a digit and a line feed each."""
    line, own = label["offset"] // 2, label.get("context", lines)
    return max(line - own, 0), min(line + own, 8)


def shown_labels(name, handler):
    """The labels that a handler draws or tells, in order: none of a cause is told, none over no source is drawn."""
    report = STOPPED[name]
    if "cause" in report:
        return report["cause"]["labels"] if handler in (*DRAWING, "brief") else []
    return (*report.get("related", ()), *report.get("snippets", ()), report)[0]["labels"]


def fixed_outcome(name, handler, reads):
    """What a report comes to after its labels: where it has fixes, its source is read for them. A picture asks it too
    which line a fix stands in that is far down; where that read fails, it counts the lines."""
    if "fixes" not in STOPPED[name]:
        return WHOLE
    if not reads.is_read():
        return UNFIXED
    if name == "a fix far down" and handler in DRAWING:
        reads.is_read()
    return WHOLE


def brief_outcome(name, labels, reads):
    """What a brief report comes to, over these reads."""
    if "cause" in STOPPED[name]:
        # where the cause lies is read, and its diagnostic lies nowhere
        return WHOLE if reads.is_read() else UNPLACED
    if not labels:
        # the source's name is read, and these sources have none
        reads.is_read()
        return fixed_outcome(name, "brief", reads)
    # where the diagnostic lies, and then each label
    return WHOLE if all(reads.is_read() for _ in (labels[0], *labels)) else REFUSED


def github_outcome(name, labels, reads):
    """What a report in commands of GitHub comes to: no cause is read, and no fix."""
    if "cause" in STOPPED[name]:
        return WHOLE
    if "snippets" in STOPPED[name]:
        # each label, and then the source of the primary one as a whole
        return WHOLE if all(reads.is_read() for _ in (*labels, labels[0])) else REFUSED
    # the source as a whole, and then each label over it, or its name, and these sources have none
    is_whole = reads.is_read()
    if not labels:
        reads.is_read()
        return WHOLE
    return WHOLE if all(reads.is_read() for _ in labels) and is_whole else REFUSED


def outcome(name, handler, lines, reads):
    """What a report by a handler comes to, over these reads."""
    labels = shown_labels(name, handler)
    if handler == "debug":
        return WHOLE
    if handler == "brief":
        return brief_outcome(name, labels, reads)
    if handler == "github":
        return github_outcome(name, labels, reads)
    if handler == "json":
        # the first label is read for the source's name, and these sources have none
        if labels:
            reads.is_read()
        return WHOLE
    for label in labels:
        if not reads.is_read():
            return REFUSED if handler in NARRATED else label["label"]
    has_own = any("context" in it for it in labels)
    groups, apart = [], False
    for label in labels:
        first, last = lines_of(label, max(lines, 1) if has_own else lines)
        is_near = bool(groups) and first <= groups[-1] + 1
        if is_near and (has_own or reads.is_read()):
            groups[-1] = max(groups[-1], last)
        else:
            groups.append(last)
            apart = apart or is_near
    # then groups of labels with their own numbers of lines are read, and the place of each picture
    for is_asked in (has_own, handler not in NARRATED):
        if is_asked and not all(reads.is_read() for _ in groups):
            return REFUSED
    return APART if apart else fixed_outcome(name, handler, reads)


HEAD = f"  {RED}×{END} m\n"
FOOT = "   ╰────\n"
TOLD_HEAD = "m\n    Diagnostic severity: error\n"


def unread(label):
    """A report whose label wasn't read."""
    span = f"(offset: {LINK}{label['offset']}{END}, length: {LINK}{label['length']}{END})"
    text = f"`{LINK}{label['label']}{END}`"
    return f"{HEAD}  [{RED}Failed to read contents for label{END} {text} {span}: {YELLOW}IoError{END}]\n"


# the same of the label (8, 1) `here` below an arrow: in 40 columns, and in 30
IN_40 = (
    f"  {RED}×{END} m",
    f"  [{RED}Failed to read contents for",
    f"label{END} `{LINK}here{END}` (offset: {LINK}8{END}, length:",
    f"{LINK}1{END}): {YELLOW}IoError{END}]",
)
IN_30 = (
    f"  {RED}×{END} m",
    f"  [{RED}Failed to read",
    f"contents for label{END}",
    f"`{LINK}here{END}` (offset: {LINK}8{END},",
    f"length: {LINK}1{END}): {YELLOW}IoError{END}]",
)


def unread_text(name, handler, label):
    """The picture of a report whose label wasn't read, or that of its cause or its related report."""
    if name == "a cause":
        return indented(*(IN_40 if handler == "graphical" else IN_30), "")
    if name == "a related report":
        return indented(*IN_30) if handler == "nested" else f"{HEAD}\nError: \n{unread(label)}"
    return unread(label)


def drawn(*rows):
    """A picture of lines, by their numbers, and of marks below them."""
    colours = {"a": "\x1b[35;1m", "b": "\x1b[33;1m"}
    shown = ""
    for row in rows:
        if row in colours:
            shown += f"   · {colours[row]}┬{END}\n   · {colours[row]}╰── {row}{END}\n"
        else:
            shown += f" \x1b[2m{row}{END} │ {row}\n"
    return shown


def told(*rows):
    """The lines of a snippet by their numbers, and rows of labels."""
    return "".join(f"snippet line {it}: {it}\n" if isinstance(it, int) else f"    label at {it}\n" for it in rows)


def begins(line):
    return f"Begin snippet starting at line {line}, column 1\n\n"


# The labels (4, 1) `a` and (8, 1) `b`, on lines 3 and 5, whose contexts meet and can't be read as one span. Each
# picture has the marks of both labels where it has their lines; each snippet's last line tells too of a label that
# begins where it ends.
THIRD, FIFTH = "line 3, column 1: a", "line 5, column 1: b"
DRAWN_APART = {
    1: f"{HEAD}   ╭─[3:1]\n{drawn(2, 3, 'a', 4)}{FOOT}   ╭─[5:1]\n{drawn(4, 5, 'b', 6)}{FOOT}",
    2: f"{HEAD}   ╭─[3:1]\n{drawn(1, 2, 3, 'a', 4, 5, 'b')}{FOOT}   ╭─[5:1]\n{drawn(3, 'a', 4, 5, 'b', 6, 7)}{FOOT}",
}
TOLD_APART = {
    1: f"{TOLD_HEAD}{begins(2)}{told(2, 3, THIRD, 4, 'line 4, columns 2 to 1: b')}{begins(4)}{told(4, 5, FIFTH, 6)}",
    2: f"{TOLD_HEAD}{begins(1)}{told(1, 2, 3, THIRD, 4, 5, FIFTH)}{begins(3)}{told(3, THIRD, 4, 5, FIFTH, 6, 7)}",
}


# the fix `five`, whose source wasn't read
UNFIXED_DRAWN = f"{HEAD}{CYAN}  fix: {END}five\n  [{RED}Failed to apply fix{END}: {YELLOW}IoError{END}]\n"
UNFIXED_TOLD = f"{TOLD_HEAD}diagnostic fix: five\n    failed to apply: IoError\n"
UNFIXED_TEXTS = {
    **dict.fromkeys(DRAWING, UNFIXED_DRAWN),
    **dict.fromkeys(NARRATED, UNFIXED_TOLD),
    "brief": "error: m\nfix: five\nnote: failed to apply fix: IoError\n",
}


def is_expected(name, handler, lines, came_to, columns):
    """Whether the columns after a row's name are those of what the report came to."""
    if came_to == WHOLE:
        return is_wanted(STOPPED[name], handler, columns, lines)
    if len(columns) != 2 or columns[0] != BEFORE:
        return False
    if came_to == REFUSED:
        return columns[1] == f"not read: {BEFORE}"
    if came_to == UNPLACED:
        return is_drawn(columns[1], "error: m\nnote: a\nnote: b\nnote: caused by: m\n", False)
    if came_to == UNFIXED:
        text = UNFIXED_TEXTS[handler]
    elif came_to == APART:
        text = (TOLD_APART if handler in NARRATED else DRAWN_APART)[lines]
    else:
        label = next(it for it in shown_labels(name, handler) if it["label"] == came_to)
        text = unread_text(name, handler, label)
    return is_drawn(columns[1], text, handler in HIGHLIGHTING)


def rows():
    """The rows that are wanted: report, handler, lines, how and where reads fail, and what that comes to."""
    for name in STOPPED:
        for handler in HANDLERS:
            for lines in LINES:
                for way in WAYS:
                    for fails_at in count(1):
                        reads = Reads(fails_at, way == "from")
                        came_to = outcome(name, handler, lines, reads)
                        yield (name, handler, lines, f"{way} {fails_at}"), came_to
                        if reads.count < fails_at:
                            break


def is_right(wanted, row):
    """Whether a row has the wanted name and what stands after it."""
    (name, handler, lines, where), came_to = wanted
    first, *columns = row.split("\t")
    return first == f"{name}, {handler}, {lines}, {where}" and is_expected(name, handler, lines, came_to, columns)


def main():
    status, shown, fault = run(["calls", "stops"])
    wanted, got = list(rows()), shown.decode().splitlines()
    wrong = [f"status {status}: {fault!r}"] if status or fault else []
    wrong += [f"{len(got)} rows in place of {len(wanted)}"] if len(got) != len(wanted) else []
    right = each(lambda it: is_right(*it), zip(wanted, got))
    wrong += [f"wanted {want!r}\n  got {row!r}" for want, row, it in zip(wanted, got, right) if not it]
    print("\n".join(wrong[:SHOWN]), end="\n" if wrong else "")
    whole = len(STOPPED) * len(HANDLERS) * len(LINES) * len(WAYS)
    print(f"renderings over sources that stop: {len(wanted)}, reads that failed: {len(wanted) - whole}")
    failed = min(len(wrong), len(wanted))
    return counted(len(wanted) - failed, failed)


if __name__ == "__main__":
    sys.exit(main())
