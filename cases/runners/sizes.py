#!/usr/bin/env python3
"""sizes.py: runs the built programs on big inputs under limits, and counts what they take.

With no words it runs the small set of the gate. `--all` runs every input of size_inputs.py at every
size, as a table; `--only WORD` keeps the inputs, or inputs by a handler, whose name has the word,
which may be a regular expression.

Each run has a stack of 1,024 KB (`--stack KB`) and an address space of ten times its text, which is
what it reads and writes, and 64 MB more. It has 2 seconds of the processor (`--seconds N`), which is
about ten times what the longest of the small set takes, and under `--all` 60. It fails where it ends
by a signal or with another status than the expected one.

Under `--all` a run also fails where its peak memory is above eight times its text, or what its
family has in place of that, and 4 MB more, and where its time or memory grows by more than 2.2 times
from a size to its double, or, where by rule a picture grows with the square of the size, by more
than 2.2 times what its text grows by. Items of almost no text may take a number of bytes each, and
their address space twice as much. Time is instructions, which `perf` counts where it can, or
valgrind where `--valgrind` asks for it; it is otherwise the processor's seconds, where there are
enough of them. A second table names the worst growth of each family, so far as there is one, and the
most memory that it takes for its text.

`--least-stack` finds the least stack on which the deepest descriptions run. The last line is
'N passed, M failed', and the exit status is 0 only where nothing failed."""
import argparse
import os
import re
import signal
import sys
import tempfile
from typing import NamedTuple, Optional

from programs import counted, program
from size_inputs import ALL, FAMILIES, MIDDLE, Family, Way
from size_runs import MB, WIDE_SPACE, WIDE_STACK_KB, Ended, Limits
from size_runs import counter_of, instructions, least_stack, run, run_limited, wait_for_all

STACK_KB = 1024
GATE_SECONDS, ALL_SECONDS = 2, 60
MEMORY_MORE = 4 * MB
# Of a list's room, which doubles as it grows, a half may be unused.
ROOM_TIMES = 2
GROWTH = 2.2
# A shorter run than this, in seconds, says nothing of growth.
LEAST_SECONDS = 0.2
# A growth of seconds that is above the bound, but within noise, is measured again this often.
AGAIN, NOISE = 2, 1.5
DEEPEST = ("only a message", "related 63 deep", "causes 126 deep")
HEAD = """| Input | Size | Text bytes | Seconds | Instructions | Peak MB | Memory/text \
| Time grows by | Memory grows by | Text grows by | Stack | Faults |
|---|--:|--:|--:|--:|--:|--:|--:|--:|--:|--:|---|"""

WORST_HEAD = """| Input | Time grows by | Memory grows by | Text grows by | Memory/text | Up to |
|---|--:|--:|--:|--:|--:|"""


class Case(NamedTuple):
    """One input at one size in a file, and the way in which it is run."""

    family: Family
    way: Way
    size: int
    path: str

    def command(self):
        """The program and its words."""
        middle = str(os.path.getsize(self.path) // 2)
        words = [middle if word == MIDDLE else word for word in self.way.words]
        return [program(self.way.program), *words]


class Row(NamedTuple):
    """What a case took: the whole run, and how it ended under its limits."""

    name: str
    size: int
    text: int
    whole: Ended
    ended: Ended
    instructions: Optional[int]
    growths: tuple = (None, None, None)
    faults: tuple = ()


def measured(case, asked):
    """The row of a case, still without growths and faults."""
    command, wanted = case.command(), case.way.status
    least = ROOM_TIMES * case.family.memory_each * case.size if asked.all else 0
    ended, whole = run_limited(command, case.path, wanted, asked, least)
    counted = None
    if asked.counter and whole.status == wanted and whole.seconds * asked.slower < asked.seconds:
        counted = instructions(asked.counter, command, case.path, wanted)
    text = os.path.getsize(case.path) + whole.written
    name = f"{case.family.name}, {case.way.name}"
    return Row(name, case.size, text, whole, ended, counted)


def growths_of(row, before, asked):
    """By how much time, memory and text grew from the row of half the size."""
    if before is None:
        return None, None, None
    of_time = None
    if row.instructions and before.instructions:
        of_time = row.instructions / before.instructions
    elif asked.all and row.whole.seconds >= LEAST_SECONDS:
        of_time = row.whole.seconds / max(before.whole.seconds, 0.01)
    return of_time, row.whole.memory / before.whole.memory, row.text / before.text


def bound_of(case, of_text):
    """By how much time and memory may grow where the text grows by so much."""
    is_square = case.family.is_square and case.way.draws
    return GROWTH * of_text if is_square and of_text else GROWTH


def with_growths(case, row, before, asked):
    """The row with its growths. Seconds that grew by little too much are measured again."""
    for _ in range(AGAIN):
        of_time, _, of_text = growths_of(row, before, asked)
        bound = bound_of(case, of_text)
        if row.instructions or not of_time or not bound < of_time < NOISE * bound:
            break
        limits = Limits(WIDE_STACK_KB, WIDE_SPACE, asked.seconds)
        seconds = run(case.command(), case.path, limits).seconds
        row = row._replace(whole=row.whole._replace(seconds=min(seconds, row.whole.seconds)))
    return row._replace(growths=growths_of(row, before, asked))


def most_memory(case, text):
    """How much memory a run may take at its peak, where its text has `text` bytes."""
    family = case.family
    return max(family.memory_times * text, family.memory_each * case.size) + MEMORY_MORE


def faults_of(case, row, asked):
    """All that is wrong with a run."""
    if row.ended.status != case.way.status:
        yield row.ended.text()
    if asked.all and row.whole.memory > most_memory(case, row.text):
        yield f"memory {row.whole.memory / row.text:.1f} times the text"
    of_time, of_memory, of_text = row.growths
    for what, growth in (("time", of_time), ("memory", of_memory)):
        if asked.all and growth and growth > bound_of(case, of_text):
            yield f"{what} grows by {growth:.1f}"


def row_of(case, before, asked):
    """The whole row of a case, where `before` is the row of half its size, if there is one."""
    row = with_growths(case, measured(case, asked), before, asked)
    return row._replace(faults=tuple(faults_of(case, row, asked)))


def is_too_long(row, before, asked):
    """Whether a run at the double of this size would likely pass the time that it has."""
    if row.whole.status == -signal.SIGXCPU:
        return True
    growth = 2.0
    if before and before.whole.seconds > 0.1:
        growth = max(growth, row.whole.seconds / before.whole.seconds)
    return growth * row.whole.seconds > asked.seconds


def rows_of(family, ways, sizes, asked):
    """The rows of a family, size by size. A way ends where the next size would take too long."""
    rows, ended = {}, set()
    with tempfile.TemporaryDirectory() as folder:
        path = os.path.join(folder, "input")
        for size in sizes:
            with open(path, "wb") as file:
                file.write(family.make(size))
            for way in (it for it in ways if it.name not in ended):
                before = None if size % 2 else rows.get((way.name, size // 2))
                row = row_of(Case(family, way, size, path), before, asked)
                rows[way.name, size] = row
                if is_too_long(row, before, asked):
                    ended.add(way.name)
                yield row


def worst(rows, of):
    """The largest number of a family's rows, with its size, or nothing."""
    told = [(of(row), row.size) for row in rows if of(row) is not None]
    return "{:.2f} at {:,}".format(*max(told)) if told else ""


def worst_row(name, rows):
    """The row of a family in the table of what is worst of each."""
    grown = [row for row in rows if row.growths[2]]
    cells = [worst(grown, lambda row, i=i: row.growths[i]) for i in range(3)]
    cells.append(worst(rows, lambda row: memory_times(row) or None))
    return f"| {name} | " + " | ".join([*cells, f"{max(row.size for row in rows):,}"]) + " |"


def memory_times(row):
    """How many times its text a run takes of memory, where the text is long enough to say so."""
    return row.whole.memory / row.text if row.text >= MB // 16 else None


def shown(value, form):
    """A number for the table, or nothing."""
    return "" if value is None else form.format(value)


def stack_of(row, asked):
    """The stack that was enough, or that was not."""
    if row.ended.status >= 0:
        return f"{asked.stack:,} KB"
    return f"above {asked.stack:,} KB" if row.whole.status >= 0 else "above all"


def table_row(row, asked):
    """A row of the table."""
    whole = row.whole
    times = memory_times(row)
    cells = [row.name, f"{row.size:,}", f"{row.text:,}", f"{whole.seconds:.2f}"]
    cells += [shown(row.instructions, "{:,}"), f"{whole.memory / MB:.1f}", shown(times, "{:.1f}")]
    cells += [shown(it, "{:.2f}") for it in row.growths]
    return "| " + " | ".join([*cells, stack_of(row, asked), "; ".join(row.faults)]) + " |"


def chosen(asked):
    """The families that are asked for, each with its ways and its sizes."""
    for family in FAMILIES:
        ways = family.ways if asked.all else family.gate_ways or family.ways
        ways = [it for it in ways if re.search(asked.only, f"{family.name}, {it.name}")]
        sizes = family.sizes if asked.all else gate_sizes(family, asked)
        yield family, ways, [it for it in sizes if it <= asked.most]


def gate_sizes(family, asked):
    """The sizes of the small set, and their halves where instructions are counted."""
    halves = [it // 2 for it in family.gate if asked.counter and it > 1]
    return sorted({*halves, *family.gate})


def run_all(asked):
    """Runs all that is asked for, and says what failed."""
    passed = failed = 0
    families = {}
    if asked.table:
        print(HEAD)
    for family, ways, sizes in chosen(asked):
        for row in rows_of(family, ways, sizes, asked):
            families.setdefault(row.name, []).append(row)
            passed += not row.faults
            failed += bool(row.faults)
            if asked.table:
                print(table_row(row, asked), flush=True)
            elif row.faults:
                print(f"{row.name}, size {row.size:,}: {'; '.join(row.faults)}", flush=True)
    if asked.all:
        print("\n" + WORST_HEAD)
        for name, rows in families.items():
            print(worst_row(name, rows))
    return counted(passed, failed)


def least_stacks(asked):
    """Prints the least stack of the deepest descriptions, way by way."""
    print("| Least stack, KB | " + " | ".join(it.name for it in ALL) + " |")
    print("|---" + "|--:" * len(ALL) + "|")
    for family in (it for it in FAMILIES if it.name in DEEPEST):
        with tempfile.TemporaryDirectory() as folder:
            path = os.path.join(folder, "input")
            with open(path, "wb") as file:
                file.write(family.make(1))
            cases = [Case(family, way, 1, path) for way in ALL]
            least = [least_stack(it.command(), path, it.way.status, asked) for it in cases]
        print(f"| {family.name} | " + " | ".join(map(str, least)) + " |", flush=True)
    return 0


def words():
    """What is asked for."""
    reader = argparse.ArgumentParser(description=__doc__.split("\n", maxsplit=1)[0])
    reader.add_argument("--all", action="store_true", help="every input at every size, as a table")
    reader.add_argument("--table", action="store_true", help="the small set as a table too")
    reader.add_argument("--only", default="", help="only inputs whose name matches")
    reader.add_argument("--most", type=int, default=10**9, help="only sizes up to this one")
    reader.add_argument("--stack", type=int, default=STACK_KB, help="KB of stack for each run")
    reader.add_argument("--seconds", type=int, help="most seconds for each run: 2, 60 under --all")
    reader.add_argument("--valgrind", action="store_true", help="count instructions by valgrind")
    reader.add_argument("--least-stack", action="store_true", help="find the least stacks")
    asked = reader.parse_args()
    asked.table |= asked.all
    asked.seconds = asked.seconds or (ALL_SECONDS if asked.all else GATE_SECONDS)
    asked.slower = 50 if asked.valgrind else 1
    asked.counter = counter_of(asked) if asked.all or asked.valgrind else None
    return asked


def main():
    """Runs what the words ask for, and gives the exit status."""
    wait_for_all()
    asked = words()
    return least_stacks(asked) if asked.least_stack else run_all(asked)


if __name__ == "__main__":
    sys.exit(main())
