#!/usr/bin/env python3
"""Counts the workloads that goals were set for, with both peers and the floors, as one table.

    bench/goals.py [--peers FOLDER] [--floors PROGRAM] [--seconds N] [--keep FILE] [NAME ..]

Instructions and heap are counted as by count.py. PROGRAM is that of floors/ (README.md); a floor is
counted where it writes the same bytes, or does what is named. Of the workloads in SOURCES the index
of their source's lines, which is made when the report is read, is counted beside one rendering, by
`valgrind --tool=callgrind`: what `IndexedSource::new` takes, 0 where none is made.
"""
import os
import re
import subprocess
import sys
import tempfile

import count
from heap import built_library
from workloads import chosen

# the floor of a workload: what is made, and whether it is of the same bytes
FLOORS = {
    **{it: "lines" for it in ("p_printed_3kb", "p_coloured_100kb", "p_lines_8000", "p_help_5_lines")},
    "p_message_3_lines": "lines",
    **{it: "picture" for it in ("a_small", "b_typical", "typical_cjk", "ten_warnings", "message_alone")},
    **{it: "picture" for it in ("r_eight_causes", "g_wrap_100kb", "r_error_1700", "r_table_5000")},
    **{it: "picture" for it in ("r_early_2mb", "label_text_200kb", "c_big_10mb", "g_word_100kb")},
    **{it: "picture" for it in ("r_folded_4000", "r_early_five_2mb")},
    **{it: "json" for it in ("j_json_1024kb", "r_json_controls_50kb", "r_json_small")},
    **{it: "widths" for it in ("r_accent_1024kb", "line_wide_1mb", "line_nul_1mb")},
    **{it: "widths" for it in ("e_head_1024kb", "r_accent_cut_1024kb", "e_cut_1024kb", "e_line_1024kb")},
    "line_tabs_1mb": "widths",
}
SAME = ("lines", "picture", "json")
# of few labels, whose source has no index, and of many, or with related reports
SOURCES = """r_error_1700 r_table_5000 r_early_2mb c_big_10mb r_early_five_2mb r_folded_4000 r_cut_2000
r_cut_accent_2000 b_typical ten_warnings same_span_1000 l_gutter_200 h_related_2000 h_nested_1000
i_nested_related_30""".split()
NAMES = """p_printed_3kb p_printed_3kb_ansi p_coloured_100kb p_lines_8000 p_help_5_lines p_message_3_lines
r_error_1700 r_table_5000 r_early_2mb c_big_10mb r_early_five_2mb r_folded_4000 r_cut_2000
r_cut_accent_2000 r_accent_1024kb r_accent_cut_1024kb e_cut_1024kb e_head_1024kb a_small b_typical
typical_cjk ten_warnings message_alone r_message_ansi r_eight_causes g_wrap_100kb g_word_100kb
same_span_1000 e_line_1024kb line_tabs_1mb l_gutter_200 j_json_1024kb r_json_controls_50kb
r_json_small label_text_200kb line_nul_1mb line_wide_1mb h_related_2000 h_nested_1000
i_nested_related_30""".split()
INDEX = re.compile(r"^\s*([\d,]+) \([^)]*\)\s+\S*IndexedSource::new", re.M)


def floor_of(workload, path, asked):
    """What a floor takes, once; nothing where it has other bytes."""
    what = FLOORS[workload.name]
    if what in SAME:
        shown, _ = count.run([asked.floors, what, "show"], path, asked)
        job = os.path.join(count.TOP, "crates", "job", "out", "job")
        text, _ = count.run([job, *workload.words, *workload.ours], path, asked)
        if shown != text:
            return None
    less, more = (1, 11) if os.path.getsize(path) < count.SHORT else (0, 1)
    runs = [count.instructions([asked.floors, what, str(it)], path, asked) for it in (less, more)]
    return (runs[1] - runs[0]) / (more - less)


def index_of(workload, path, asked):
    """What the index of the source's lines takes."""
    kept = os.path.join(asked.folder, "calls")
    words = ["valgrind", "--tool=callgrind", f"--callgrind-out-file={kept}"]
    count.run([*words, count.built("bench"), "0", *workload.words], path, asked)
    listed = ["callgrind_annotate", "--inclusive=yes", "--threshold=100", kept]
    told = subprocess.run(listed, capture_output=True, text=True, check=True).stdout
    found = INDEX.search(told)
    return int(found[1].replace(",", "")) if found else 0


def further(workload, row, asked):
    """Floor and index of a workload, where they are asked for."""
    ways = {"floor": floor_of} if asked.floors and workload.name in FLOORS else {}
    if workload.name in SOURCES:
        ways["index"] = index_of
    missing = {it: way for it, way in ways.items() if it not in row}
    if missing:
        path = os.path.join(asked.folder, workload.file())
        with open(path, "wb") as file:
            file.write(workload.make())
        for it, way in missing.items():
            row[it] = way(workload, path, asked)
        os.remove(path)


def millions(value):
    """A count for the table."""
    return count.number(value and value / 1e6)


def line_of(workload, row):
    """A row of the table."""
    of = {who: row.get(who, {}).get("instructions") for who in (count.OURS, *count.PEERS)}
    heaps = [row.get(who, {}).get("heap") for who in (count.OURS, count.ORIGINAL)]
    text, index = row[count.OURS].get("text"), row.get("index")
    ours = of[count.OURS]
    whole = ours and ours + (index or 0)
    cells = [millions(ours), millions(index), *(millions(of[who]) for who in count.PEERS)]
    cells += [millions(row.get("floor")), count.ratio(whole, of[count.ORIGINAL])]
    cells += [count.ratio(ours, row.get("floor")), count.ratio(heaps[0], text), count.ratio(*heaps)]
    cells.append(f"{row[count.OURS].get('calls', 0):,}")
    return f"{workload.name:22}" + "".join(f"{it or '–':>9}" for it in cells)


def main():
    """Counts what is asked for."""
    asked = count.words(__doc__, "workloads", [("--floors", "the program of the floors")])
    known = {it.name: it for it in chosen([])}
    kept = count.read_kept(asked)
    heads = "ours index original codespan indexed floor /original /floor heap/byte /original calls"
    print(f"{'workload':22}" + "".join(f"{it:>9}" for it in heads.split()), flush=True)
    with tempfile.TemporaryDirectory() as folder:
        asked.folder, asked.library = folder, built_library(folder)
        for name in asked.names or NAMES:
            row = count.row_of(known[name], kept, asked)
            further(known[name], row, asked)
            count.write_kept(kept, asked)
            print(line_of(known[name], row), flush=True)
    return 0


if __name__ == "__main__":
    sys.exit(main())
