#!/usr/bin/env python3
"""Makes the workloads: descriptions, the words of `bench` that they are rendered by, or of `job`
that applies their fixes, and the source of a workload that is drawn by `draw` or read by `lint`.

    bench/workloads.py FOLDER           writes all of them, and manifest.json
    bench/workloads.py FOLDER NAME ..   writes those whose names begin so

The bytes are the same each time. The manifest says of each workload its name, its family (the rows
of a family differ in size alone), its file, its program and its words, and the words that the
original takes beside them, and ours. count.py makes what it counts by itself.
"""
import json
import os
import sys
from typing import Callable, NamedTuple

import reports as of
from texts import coloured

PLAIN = ("--theme", "unicode_nocolor")
COLOUR = ("--theme", "unicode")
NARRATED = ("--narrated",)
JSON = ("--json",)
NESTED = (*PLAIN, "--nested", "yes")
WIDE_NESTED = (*NESTED, "--width", "400")
WIDTH = ("--width", "80")
CUT = ("--line-columns", "80")
FOLDED = ("--label-lines", "5")
BRIEF = ("--brief",)
UNICODE = ("--separator", "unicode")
MB = 1 << 20


class Workload(NamedTuple):
    """An input and how it is rendered. `make` gives its bytes."""

    name: str
    family: str
    words: tuple
    make: Callable[[], bytes]
    program: str = "bench"
    # What the original takes beside the words, and what ours takes, which no peer knows.
    original: tuple = ()
    ours: tuple = ()
    # Whether the original has no such output.
    is_new: bool = False
    # What a program but `bench` runs on for the count that is taken off; where it is the input itself, by which words,
    # and by which words it takes the same memory until it renders.
    beside: Callable[[], bytes] = bytes
    beside_words: tuple = ()
    heap_words: tuple = ()

    def file(self):
        """The name of its file."""
        return self.name + (".txt" if self.program in ("draw", "lint") else ".json")


def described(report):
    """The bytes of a description."""
    return json.dumps(report, ensure_ascii=False).encode()


def bench(name, family, options, make, *given, **others):
    """A workload of `bench`. The others are fields of `Workload` by their names."""
    made = lambda: described(make(*given))
    return Workload(name, family, options, made, **others)


def everyday():
    """Reports as programs print them each day."""
    yield bench("a_small", "a", PLAIN, of.small)
    yield bench("b_typical", "b", PLAIN, of.typical)
    yield bench("b_typical_ansi", "b_ansi", COLOUR, of.typical)
    yield bench("message_alone", "message", PLAIN, of.message_alone)
    yield bench("message_code_help", "message_code", PLAIN, of.message_code_help)
    yield bench("ten_warnings", "warnings", PLAIN, of.ten_warnings)
    yield bench("typical_tabs", "tabs", PLAIN, of.typical_tabs)
    yield bench("typical_cjk", "cjk", PLAIN, of.typical_cjk)


def big_sources():
    """Big sources, with a label or with many."""
    for size in (5, 10, 20):
        yield bench(f"c_big_{size}mb", "c", PLAIN, of.big, size)
    for count in (500, 1000, 2000, 4000):
        grown = (of.spread, count, 512 * count)
        yield bench(f"d_spread_grow_{count}", "d_spread_grow", PLAIN, *grown)
        yield bench(f"k_narrated_spread_{count}", "k_spread", NARRATED, *grown)
        yield bench(f"d_spread_1mb_{count}", "d_spread_1mb", PLAIN, of.spread, count, MB)
        yield bench(f"d_near_{count}", "d_near", PLAIN, of.near, count)
        yield bench(f"k_narrated_near_{count}", "k_near", NARRATED, of.near, count)


def long_lines():
    """One line of many bytes, and many labels on one line."""
    for size in (512, 1024, 2048):
        yield bench(f"e_line_{size}kb", "e", PLAIN, of.long_line, size)
        yield bench(f"e_head_{size}kb", "e_head", PLAIN, of.long_line, size, True)
        yield bench(f"e_cut_{size}kb", "e_cut", PLAIN, of.long_line, size, ours=CUT)
        yield bench(f"e_accent_{size}kb", "e_accent", PLAIN, of.accented_line, size, ours=CUT)
    for size in (30, 60, 120):
        yield bench(f"e_short_{size}kb", "e_short", PLAIN, of.long_line, size)
    for count in (100, 200, 400):
        yield bench(f"f_oneline_{count}", "f", PLAIN, of.one_line, count)


def long_texts():
    """A message of many words, or of one."""
    plain, colour, ascii_only = (*PLAIN, *WIDTH), (*COLOUR, *WIDTH), ("--separator", "ascii")
    for size in (100, 200, 400):
        name, message = f"g_wrap_{size}kb", (of.long_message, size)
        yield bench(name, "g", plain, *message)
        yield bench(f"{name}_ansi", "g_ansi", colour, *message)
        yield bench(f"{name}_ascii", "g_ascii", plain, *message, original=ascii_only)
        changed = (of.changed_message, size, coloured)
        yield bench(f"{name}_textcolour", "g_textcolour", plain, *changed)
        joined = (of.changed_message, size, lambda it: it.replace(" ", ""))
        yield bench(f"g_word_{size}kb", "g_word", plain, *joined)


def texts_by_unicode():
    """Texts whose words end where Unicode's rules allow it, and Chinese by spaces."""
    plain, ascii_only = (*PLAIN, *WIDTH), ("--separator", "ascii")
    for size in (100, 200, 400):
        made = {
            "wrap": (of.long_message, size),
            "textcolour": (of.changed_message, size, coloured),
            "word": (of.changed_message, size, lambda it: it.replace(" ", "")),
            "cjk": (of.chinese_message, size),
        }
        for kind, message in made.items():
            name = f"u_{kind}_{size}kb"
            yield bench(name, f"u_{kind}", plain, *message, ours=UNICODE)
        chinese = (f"u_cjk_{size}kb_ascii", "u_cjk_ascii", plain, *made["cjk"])
        yield bench(*chinese, original=ascii_only)


def several_sources():
    """Labels over several sources, which the original hasn't."""
    yield bench("n_two_files", "n_two", PLAIN, of.two_files, is_new=True)
    yield bench("n_two_files_ansi", "n_two_ansi", COLOUR, of.two_files, is_new=True)
    for count in (1, 10, 20, 100):
        made = (of.over_sources, count, 10, 8000)
        yield bench(f"n_sources_{count}", "n", PLAIN, *made, is_new=True)
        yield bench(f"n_sources_{count}_ansi", "n_ansi", COLOUR, *made, is_new=True)
        yield bench(f"n_narrated_{count}", "n_narrated", NARRATED, *made, is_new=True)
        yield bench(f"n_json_{count}", "n_json", JSON, *made, is_new=True)
        yield bench(f"n_brief_{count}", "n_brief", PLAIN, *made, ours=BRIEF, is_new=True)
    for count in (1, 10):
        yield bench(f"n_big_{count}", "n_big", PLAIN, of.over_sources, count, 1, MB, is_new=True)


def fixes():
    """Edits to a big source, in one fix and in as many, that `job --fix` applies; a picture of one in 10 MB."""
    for size, count in ((10, 100), (10, 1000), (20, 1000), (20, 2000)):
        for kind, each in (("one", count), ("many", 1)):
            name, given = f"x_{kind}_{size}mb_{count}", (size * MB, count, each)
            made = lambda given=given: described(of.fixed(*given))
            bare = lambda size=size: described(of.fixed(size * MB, 0, 1))
            yield Workload(name, f"x_{kind}", ("--fix",), made, "job", beside=bare)
    for count in (1000, 2000, 4000):
        made = lambda count=count: described(of.fixed_backwards(10 * MB, count))
        bare = lambda: described(of.fixed(10 * MB, 0, 1))
        yield Workload(f"x_backwards_{count}", "x_backwards", ("--fix",), made, "job", beside=bare)
    last = 10 * MB // of.ROW - 1
    for place, row in (("first", 0), ("middle", last // 2), ("last", last)):
        yield bench(f"x_drawn_{place}", "x_drawn", PLAIN, of.one_fixed, 10 * MB, row, is_new=True)


def linted(count, found):
    """`count` lines, with findings in those of the numbers `found`."""
    line = b"    let value = compute(that, other);"
    return b"".join(line + (b" \n" if number in found else b"\n") for number in range(count))


def lints():
    """A source that is linted, and mended, with a finding in each hundredth line, or in the last one alone."""
    kinds = {"find": (), "fix": ("--fix",), "diff": ("--diff",)}
    for count in (200_000, 400_000):
        made = lambda count=count: linted(count, range(0, count, 100))
        for kind, words in kinds.items():
            yield Workload(f"y_{kind}_{count}", f"y_{kind}", (*words, "f", "80"), made, "lint")
    made = lambda: linted(400_000, (399_999,))
    for kind, words in kinds.items():
        yield Workload(f"y_{kind}_one", f"y_{kind}_one", (*words, "f", "80"), made, "lint")


def logs():
    """Labels over 1 MB, in SARIF logs."""
    for count in (1000, 2000, 4000):
        made = lambda count=count: described(of.spread(count, MB))
        words = {"beside_words": ("--fix",), "heap_words": ("--brief",)}
        yield Workload(f"z_log_{count}", "z_log", ("--sarif",), made, "job", beside=made, **words)


def inner_reports():
    """Related reports and causes."""
    for count in (1000, 2000, 4000):
        yield bench(f"h_related_{count}", "h", PLAIN, of.related, count)
        yield bench(f"h_nested_{count}", "h_nested", NESTED, of.related, count)
    for depth in (15, 30, 60):
        yield bench(f"i_causes_{depth}", "i", PLAIN, of.causes, depth)
        yield bench(f"i_causes_{depth}_ansi", "i_ansi", COLOUR, of.causes, depth)
        if depth < 60:
            inner = (of.nested_related, depth)
            yield bench(f"i_nested_related_{depth}", "i_nested", WIDE_NESTED, *inner)


def others():
    """JSON with escapes, and labels over many lines."""
    for size in (512, 1024, 2048):
        yield bench(f"j_json_{size}kb", "j", JSON, of.escaped_message, size)
    for count in (50, 100, 200):
        yield bench(f"l_gutter_{count}", "l", PLAIN, of.blocks, count)


def hard():
    """What is hard in one way, in one size each."""
    unwrapped = (*PLAIN, "--wrap", "no")
    yield bench("span_lines_100000", "span_lines", PLAIN, of.span_of_lines, 100_000)
    yield bench("span_folded_50000", "span_folded", PLAIN, of.span_of_lines, 50_000, ours=FOLDED)
    yield bench("brief_2000", "brief", PLAIN, of.spread, 2000, MB, ours=BRIEF)
    yield bench("help_200kb_unwrapped", "help", unwrapped, of.long_help)
    yield bench("url_200kb", "url", PLAIN, of.long_url)
    yield bench("label_text_200kb", "label_text", PLAIN, of.label_text)
    yield bench("same_span_1000", "same_span", PLAIN, of.same_span, 1000)
    yield bench("line_labels_5000", "line_labels", PLAIN, of.line_labels, 5000)
    yield bench("nested_labels_2000", "nested_labels", PLAIN, of.nested_labels, 2000)


def unwrapped_texts():
    """Texts of several lines, not wrapped, with colours of their own or without."""
    plain, colour = (*PLAIN, "--wrap", "no"), (*COLOUR, "--wrap", "no")
    yield bench("p_printed_3kb", "p_printed", plain, of.compiled)
    yield bench("p_printed_3kb_ansi", "p_printed_ansi", colour, of.compiled)
    yield bench("p_coloured_100kb", "p_coloured", plain, of.changed_message, 100, coloured)
    yield bench("p_lines_8000", "p_lines", plain, of.short_lines, 8000)
    yield bench("p_help_5_lines", "p_help", plain, of.help_lines)
    yield bench("p_message_3_lines", "p_message", plain, of.message_lines)


def set_goals():
    """What else goals were set for."""
    cut = {"ours": CUT, "is_new": True}
    yield bench("r_message_ansi", "r_message", COLOUR, of.message_alone)
    yield bench("r_eight_causes", "r_causes", PLAIN, of.text_causes)
    yield bench("r_error_1700", "r_error", PLAIN, of.compiler_error, 1700)
    yield bench("r_table_5000", "r_table", PLAIN, of.table_row, 5000)
    yield bench("r_early_2mb", "r_early", PLAIN, of.early, 2)
    yield bench("r_early_five_2mb", "r_early_five", PLAIN, of.early, 2, 5)
    yield bench("r_folded_4000", "r_folded", PLAIN, of.apart, 4000, ours=FOLDED, is_new=True)
    yield bench("r_cut_2000", "r_cut", PLAIN, of.marked_line, 2000, **cut)
    yield bench("r_cut_accent_2000", "r_cut_accent", PLAIN, of.marked_line, 2000, "é", **cut)
    yield bench("r_accent_1024kb", "r_accent", PLAIN, of.accented_end, 1024)
    yield bench("r_accent_cut_1024kb", "r_accent_cut", PLAIN, of.accented_end, 1024, ours=CUT)
    yield bench("r_json_controls_50kb", "r_controls", JSON, of.controls, 50_000)
    yield bench("r_json_small", "r_json", JSON, of.message_alone)


def hard_lines():
    """Lines of 1 MB of one kind of character."""
    kinds = {"wide": "漢", "marks": "e\u0301\u0302", "emoji": "👩\u200d👧", "tabs": "\t"}
    kinds |= {"nul": "\0", "esc": "\x1b"}
    for kind, unit in kinds.items():
        yield bench(f"line_{kind}_1mb", f"line_{kind}", PLAIN, of.line_of, unit)
    drawn = ("x.txt", "100", "3", "head", "findings")
    yield Workload("line_bad_utf8_1mb", "line_bad", drawn, lambda: b"\xff" * MB, "draw")
    yield bench("middle_marks_1mb", "middle_marks", PLAIN, of.line_of, kinds["marks"], False)


FAMILIES = (everyday, big_sources, long_lines, long_texts, texts_by_unicode, several_sources)
FAMILIES += (fixes, lints, logs, inner_reports, others, hard, hard_lines, unwrapped_texts, set_goals)
ALL = [workload for family in FAMILIES for workload in family()]


def chosen(names):
    """The workloads whose names begin with one of these, or all of them."""
    return [it for it in ALL if not names or it.name.startswith(tuple(names))]


def main():
    """Writes the workloads and their manifest."""
    if len(sys.argv) < 2:
        sys.exit(__doc__)
    folder, *names = sys.argv[1:]
    os.makedirs(folder, exist_ok=True)
    entries = []
    for workload in chosen(names):
        with open(os.path.join(folder, workload.file()), "wb") as file:
            file.write(workload.make())
        entry = {**workload._asdict(), "file": workload.file()}
        del entry["make"], entry["beside"]
        entries.append(entry)
    with open(os.path.join(folder, "manifest.json"), "w", encoding="utf-8") as file:
        json.dump(entries, file, indent=1)


if __name__ == "__main__":
    main()
