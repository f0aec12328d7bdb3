#!/usr/bin/env python3
"""Counts what one rendering of each workload takes, and prints it as tables (Markdown).

    bench/count.py [--peers FOLDER] [--seconds N] [--keep FILE] [NAME ..]

Counted are the workloads of workloads.py whose names begin with a NAME, or all. The program is
`crates/bench/out/bench`, `crates/draw/out/draw` where a source is drawn, `crates/job/out/job` where
fixes are applied, and `crates/lint/out/lint` where a source is linted, as the gate builds them.
FOLDER has the programs of the peers (README.md); without it ours is counted alone.

Instructions are counted by `valgrind --tool=cachegrind`: a run with one rendering less a run with
none, or, where the input is short, a tenth of a run with eleven less one with one, so that starting
the program and reading the input don't count. Of `draw` and `lint` it is the whole process less
that over an empty source, of `job --fix` less that of the same description without fixes, of
`job --sarif` less `job --fix` of the same description.

Memory is what is in the heap at the peak of one rendering above what was there before it, the text
included, in thousands of bytes. Of ours a library that is loaded before the C library notes each
call (heap.c, which needs `cc`); the peers' programs count by their allocator. `calls` is how often
one rendering of ours takes memory or grows a block.

`indexed` is codespan-reporting with its index of lines made before. `grows by` is the count over
that of the row before of the same family; `of original` and the like are ours over theirs. A dash
stands where a program has no such output, fails, or takes more than N seconds (300) of the
processor for a run. FILE keeps all counts as JSON: what stands there isn't counted again.
"""
import argparse
import json
import os
import re
import resource
import subprocess
import sys
import tempfile

from heap import built_library, calls_of, notes_of, peak_of
from workloads import chosen

TOP = os.path.dirname(os.path.dirname(os.path.abspath(__file__)))
VALGRIND = ["valgrind", "--tool=cachegrind", "--cache-sim=no", "--cachegrind-out-file=/dev/null"]
SHORT = 4000
OURS, ORIGINAL, CODESPAN, INDEXED = "ours", "original", "codespan", "indexed"
PEERS = (ORIGINAL, CODESPAN, INDEXED)
PEER_PROGRAMS = {
    ORIGINAL: {"bench": "peer_job", "draw": "peer_draw"},
    CODESPAN: {"bench": "peer_codespan"},
    INDEXED: {"bench": "peer_codespan"},
}
COUNTS = """| Workload | ours | grows by | original | grows by | codespan | indexed \
| of original | of codespan |
|---|---:|---:|---:|---:|---:|---:|---:|---:|"""
HEAPS = """| Workload | text | ours | original | codespan | of text | of original | calls |
|---|---:|---:|---:|---:|---:|---:|---:|"""


class Failed(Exception):
    """A run that ended as it should not, or took too long."""


def peer_words(who, workload):
    """The words that a peer takes for a workload, or nothing where it has no such output."""
    if who == ORIGINAL:
        return None if workload.is_new else [*workload.words, *workload.original]
    if {"--json", "--narrated", "--nested"} & set(workload.words):
        return None
    colour = ["--color", "yes"] if "unicode" in workload.words else []
    short = ["--short"] if "--brief" in workload.ours else []
    return [*colour, *short, *(["--indexed"] if who == INDEXED else [])]


def built(name):
    """Where the gate leaves a program of ours."""
    return os.path.join(TOP, "crates", name, "out", name)


def command(who, workload, times, asked, suffix=""):
    """How a program is called to render this many times; nothing where it can't."""
    name = workload.program
    if who == OURS:
        repeated = [str(times)] if name == "bench" else []
        return [built(name), *repeated, *workload.words, *workload.ours]
    words, programs = peer_words(who, workload), PEER_PROGRAMS[who]
    if not asked.peers or name not in programs or words is None:
        return None
    program = os.path.join(asked.peers, programs[name] + suffix)
    return [program, *words, *([] if name == "draw" else ["--repeat", str(times)])]


def run(words, path, asked, fine=(0,)):
    """What a run that ends with one of these statuses writes, to standard output and to standard error."""

    def limit():
        resource.setrlimit(resource.RLIMIT_CPU, (asked.seconds, asked.seconds))

    kept = {"PATH": os.environ["PATH"]}
    with open(path, "rb") as given:
        ended = subprocess.run(
            words, stdin=given, capture_output=True, env=kept, preexec_fn=limit, check=False
        )
    said = ended.stderr.decode(errors="replace")
    if ended.returncode not in fine:
        lines = [it for it in said.split("\n") if it and not it.startswith("==")]
        raise Failed(f"status {ended.returncode}: {' / '.join(lines)[:200]}")
    return ended.stdout, said


def instructions(words, path, asked, fine=(0,)):
    """The instructions of a whole run."""
    _, said = run([*VALGRIND, *words], path, asked, fine)
    return int(re.search(r"I +refs: +([\d,]+)", said)[1].replace(",", ""))


def counted(who, workload, path, asked):
    """The instructions of one rendering."""
    if workload.program != "bench":
        words, other = command(who, workload, 1, asked), path + ".beside"
        with open(other, "wb") as file:
            file.write(workload.beside())
        # `lint` ends with 1 where it finds something
        fine = (0, 1) if workload.program == "lint" else (0,)
        bare = [words[0], *workload.beside_words] if workload.beside_words else words
        whole, beside = instructions(words, path, asked, fine), instructions(bare, other, asked, fine)
        os.remove(other)
        return {"instructions": whole - beside}
    less, more = (1, 11) if os.path.getsize(path) < SHORT else (0, 1)
    calls = [command(who, workload, it, asked) for it in (less, more)]
    without, whole = (instructions(it, path, asked) for it in calls)
    return {"instructions": (whole - without) / (more - less)}


def heap_of_ours(who, workload, path, asked):
    """Bytes of the text, and calls and peak of one rendering of ours."""
    calls = [command(who, workload, it, asked) for it in (0, 1)]
    if workload.heap_words:
        calls[0] = [calls[0][0], *workload.heap_words]
    text, _ = run(calls[1], path, asked)
    none, one = [notes_of(asked.library, it, path, asked.folder) for it in calls]
    if none is None or one is None:
        raise Failed("no notes")
    size = len(text) if workload.heap_words else int(text)
    return {"text": size, "calls": calls_of(none, one), "heap": peak_of(none, one)}


def heap_of_peer(who, workload, path, asked):
    """The peak of one rendering of a peer."""
    _, said = run([*command(who, workload, 1, asked, "_mem"), "--stats"], path, asked)
    stats = json.loads(said.strip().split("\n")[-1])
    return {"heap": stats["heap_peak"] - stats["heap_before"]}


def taken(who, workload, path, asked):
    """All that is counted of a program on a workload; nothing where it has no such output."""
    if command(who, workload, 1, asked) is None:
        return {}
    ways = [counted]
    if workload.program == "bench" and who != INDEXED or workload.heap_words and who == OURS:
        ways.append(heap_of_ours if who == OURS else heap_of_peer)
    found = {}
    for way in ways:
        try:
            found |= way(who, workload, path, asked)
        except Failed as fault:
            found[way.__name__] = str(fault)
    return found


def row_of(workload, kept, asked):
    """The counts of a workload, by program. What is kept isn't counted again."""
    row = kept.setdefault(workload.name, {})
    missing = [it for it in (OURS, *PEERS) if it not in row and (it == OURS or asked.peers)]
    if missing:
        path = os.path.join(asked.folder, workload.file())
        with open(path, "wb") as file:
            file.write(workload.make())
        for who in missing:
            row[who] = taken(who, workload, path, asked)
            write_kept(kept, asked)
        os.remove(path)
    return row


def read_kept(asked):
    """The counts that are kept."""
    if not asked.keep or not os.path.exists(asked.keep):
        return {}
    with open(asked.keep, encoding="utf-8") as file:
        return json.load(file)


def write_kept(kept, asked):
    """Keeps the counts."""
    if asked.keep:
        with open(asked.keep, "w", encoding="utf-8") as file:
            json.dump(kept, file, indent=1)


def number(value):
    """A number for a table, of about three digits."""
    if value is None:
        return "–"
    if value >= 99.95:
        return f"{value:,.0f}"
    return f"{value:.2f}" if value >= 1 else f"{value:.3g}"


def ratio(one, other):
    """One of another, where there are both."""
    if not one or not other:
        return ""
    found = one / other
    if found < 0.001:
        return "< 0.001"
    return f"{found:.2f}" if found >= 0.1 else f"{found:.3f}"


def counts_row(workload, row, before):
    """A row of the table of instructions."""
    of = {who: row.get(who, {}).get("instructions") for who in (OURS, *PEERS)}
    last = {who: before.get(who, {}).get("instructions") for who in (OURS, ORIGINAL)}
    millions = {who: number(it and it / 1e6) for who, it in of.items()}
    grown = {who: ratio(of[who], last[who]) for who in last}
    cells = [workload.name, millions[OURS], grown[OURS], millions[ORIGINAL], grown[ORIGINAL]]
    cells += [millions[CODESPAN], millions[INDEXED]]
    cells += [ratio(of[OURS], of[ORIGINAL]), ratio(of[OURS], of[CODESPAN])]
    return "| " + " | ".join(cells) + " |"


def heaps_row(workload, row):
    """A row of the table of memory."""
    ours = row.get(OURS, {})
    heaps = [row.get(who, {}).get("heap") for who in (OURS, ORIGINAL, CODESPAN)]
    text = ours.get("text")
    cells = [workload.name, *(number(it and it / 1e3) for it in (text, *heaps))]
    cells += [ratio(heaps[0], text), ratio(heaps[0], heaps[1])]
    cells.append(f"{ours['calls']:,}" if "calls" in ours else "–")
    return "| " + " | ".join(cells) + " |"


def print_tables(workloads, asked):
    """Counts, and prints both tables."""
    kept, last = read_kept(asked), {}
    print("Instructions of one rendering, in millions:\n\n" + COUNTS)
    for workload in workloads:
        row = row_of(workload, kept, asked)
        print(counts_row(workload, row, last.get(workload.family, {})), flush=True)
        last[workload.family] = row
    print("\nHeap at the peak of one rendering, in thousands of bytes:\n\n" + HEAPS)
    for workload in workloads:
        if workload.program == "bench":
            print(heaps_row(workload, kept[workload.name]))


def words(told, names, further=()):
    """What is asked for, of a script that tells this of itself and of its names; further options are a path each."""
    reader = argparse.ArgumentParser(description=told.split("\n", maxsplit=1)[0])
    for option, what in [("--peers", "the folder of the peers' programs"), *further]:
        reader.add_argument(option, default="", help=what)
    reader.add_argument("--seconds", type=int, default=300, help="most seconds of the processor")
    reader.add_argument("--keep", default="", help="a file for the counts")
    reader.add_argument("names", nargs="*", metavar="NAME", help=names)
    return reader.parse_args()


def main():
    """Counts what is asked for."""
    asked = words(__doc__, "how the names begin")
    workloads = chosen(asked.names)
    for program in sorted({built(it.program) for it in workloads}):
        if not os.path.exists(program):
            sys.exit(f"{program} isn't built: bench/README.md says how")
    with tempfile.TemporaryDirectory() as folder:
        asked.folder, asked.library = folder, built_library(folder)
        print_tables(workloads, asked)
    return 0


if __name__ == "__main__":
    sys.exit(main())
