#!/usr/bin/env python3
"""show.py: runs the built program `show` on what rustc, GCC and ShellCheck wrote (`rustc/`, `gcc/`, `shellcheck/`) and
on SARIF logs (`sarif_read/`), and compares it with the model of show_model.py, whose reports tree_model.py draws.

The recorded rows are tried as they are, as cargo wraps them, cut at every 50th byte, with members removed or of other
types, offsets, lines and columns that are off or after the end, other files, files that are gone or shorter. Where
rustc, gcc, shellcheck, clang 16 and flawfinder are installed, they are run anew. Of 100,000 messages it looks at the
memory.
The last line is 'N passed, M failed', and the exit status is 0 only where nothing failed."""
import json
import os
import random
import re
import select
import shutil
import subprocess
import sys
import tempfile
from functools import partial

import gcc_cases
import rustc_cases
import sarif_read_cases
import shellcheck_cases
import size_runs
from json_changes import changed
from lsp_model import spelled_list
from programs import RECORDED, counted, program, run, run_in_terminal
from sarif_model import spelled_log
from sarif_reader_model import name_of
from show_model import ALWAYS, MARK, has_place, is_error, left_out_note, note_of, parts_of, rows_of, shown_of
from show_model import status_of, told_of, visible
from tree_model import Page, whole_picture

FOLDER = os.path.join(RECORDED, "rustc")
NAMES = ["borrow", "fixits", "life", "mine", "multi"]
WORDS = ["--theme", "unicode_nocolor", "--links", "no", "--width", "120"]
CHATTER = [b"   Compiling a v0.1.0\n", b"\n", b"{not json}\n", b"[1, 2]\n", b"\xff{\"\n", b" {\"message\":\"m\"}\n"]
OTHER = [b'{"reason":"build-finished","success":true}\n', b'{"$message_type":"artifact","artifact":"a","emit":"b"}\n']
BAD = [b'{"message":5}\n', b'{"\n', b'{"reason":"compiler-message"}\n', b'{"\xff":1}\n', b'{"message":"m"} x\n']
# what other tools write for machines, which is none of the formats
OTHERS = [
    b'[{"file":"a.sh","line":1,"endLine":1,"column":6,"endColumn":8,"level":"info","code":2086,"message":"m"}]\n',
    b'[{"cell":null,"code":"F401","filename":"a.py","location":{"column":8,"row":1},"message":"`os` imported"}]\n',
    b'{"level":"error","message":"db down","ts":1}\n',
    b'{"spans":[],"message":"no list of children"}\n{"kind":"error"}\n[{"kind":"error","locations":{}}]\n',
    b'[{"kind":"error","locations":[],"message":"m"},{"kind":"error","message":"m"}]\n[[]]\n{}\n',
]
# and what is one of them
FEW = [
    b'[]\n[{"kind":"error","locations":[],"message":"m"}]\n',
    b'{"$message_type":"diagnostic","message":"m"}\n{"spans":[],"children":[],"message":"m"}\n{"reason":"x"}\n',
]
# a build that failed, and rows that say nothing of one
ENDS = [
    b'{"reason":"build-finished","success":false}\n',
    b'{"reason":"build-finished"}\n{"reason":"build-finished","success":0}\n{"reason":"x","success":false}\n',
    b'{"$message_type":"build-finished","success":false}\n',
]
RESULT = {"message": {"text": "no place\nat all"}, "level": "warning"}
# logs of tools that failed, of tools that didn't, and of what is no call
FAILED = [
    [{"invocations": [{"executionSuccessful": False}], "results": []}],
    [{"results": [RESULT]}, {"invocations": [{}, 5, {"executionSuccessful": False}], "results": [RESULT]}],
    [{"invocations": [{"executionSuccessful": True}, {"executionSuccessful": 0}, {}], "results": [RESULT]}],
    [{"invocations": {"executionSuccessful": False}}, 7],
]
# the members of a message that are changed
READ = ("message", "code", "level", "spans", "children")
# what a run over many messages may take
MANY = size_runs.Limits(size_runs.WIDE_STACK_KB, size_runs.WIDE_SPACE, 60)
# a message as wide as two rows, with a code that is a link
WIDE = [{"kind": "warning", "message": "a row of words " * 6, "option": "-Wa", "option_url": "https://x/y"}]
WIDE[0]["locations"] = []
XTERM = {"TERM": "xterm"}
# variables, and the words that they stand for, in a terminal
IN_TERMINAL = [
    ({}, []),
    (XTERM, ["--term-color", "ansi"]),
    ({"TERM": "dumb"}, []),
    ({**XTERM, "COLORTERM": "truecolor"}, ["--term-color", "rgb"]),
    ({**XTERM, "NO_COLOR": "1"}, []),
    ({**XTERM, "NO_COLOR": "0"}, ["--term-color", "ansi"]),
    ({**XTERM, "CLICOLOR": "0"}, []),
    ({**XTERM, "FORCE_COLOR": "0"}, []),
    ({"TERM": "alacritty"}, ["--term-color", "ansi", "--term-links", "yes"]),
    ({"TERM_PROGRAM": "vscode"}, ["--term-links", "yes"]),
    *(({it: "1"}, ["--term-links", "yes"]) for it in ("VTE_VERSION", "KONSOLE_VERSION", "WT_SESSION")),
]
# and where standard output is none
IN_PIPE = [
    ({}, []),
    (XTERM, []),
    ({**XTERM, "VTE_VERSION": "1"}, []),
    ({"LC_ALL": "C.UTF-8"}, ["--term-unicode", "yes"]),
    ({"LC_CTYPE": "C.UTF-8", "LANG": "C"}, ["--term-unicode", "yes"]),
    ({"LC_ALL": "C", "LC_CTYPE": "C.UTF-8"}, []),
    ({"LANG": "en_US.utf8"}, ["--term-unicode", "yes"]),
    ({"LANG": "C.UTF-8", "TERM": "linux"}, []),
    ({"FORCE_COLOR": "1"}, ["--term-color", "ansi"]),
    ({"FORCE_COLOR": "3"}, ["--term-color", "rgb"]),
    ({"COLUMNS": "40"}, ["--term-width", "40"]),
    ({"COLUMNS": "+40"}, []),
    ({"NO_GRAPHICS": "1"}, ["--no-graphics", "1"]),
    ({"NO_GRAPHICS": "0"}, []),
]
# what overrules all of them
OVERRULING = ["--width", "60", "--unicode", "no", "--color", "no", "--links", "no", "--graphical"]
# the words that ask for a log, the tool that it is of, and what spells it
LOGS = [
    (["--sarif"], "show", spelled_log),
    (["--lsp"], "show", spelled_list),
    (["--sarif", "--tool", "漢 {}"], "漢 {}", spelled_log),
    (["--tool", "rustc", "--lsp"], "rustc", spelled_list),
    (["--tool", "--tool", "--sarif"], "--tool", spelled_log),
]
SPAN = {"byte_start": 0, "byte_end": 3, "file_name": "borrow.rs", "is_primary": True, "label": "here"}


def files_in(folder):
    """The sources below a folder, by their names."""
    files = {}
    for parent, _, names in os.walk(folder):
        for name in names:
            path = os.path.join(parent, name)
            if not name.endswith((".json", ".jsonl", ".sarif")):
                with open(path, "rb") as file:
                    files[os.path.relpath(path, folder)] = file.read()
    return files


def named_in(given):
    """The files whose names begin with `/` in what is read."""
    told = re.findall(r'"file(?:_name)?": ?"(/[^"\\]*)"', given.decode(errors="replace"))
    told += map(name_of, re.findall(r'"uri": ?"(file:///[^"\\]*)"', given.decode(errors="replace")))
    files = {}
    for name in told:
        if os.path.isfile(name):
            with open(name, "rb") as file:
                files[name] = file.read()
    return files


def recorded(name):
    """What rustc wrote of a program."""
    with open(os.path.join(FOLDER, f"{name}.jsonl"), "rb") as file:
        return file.read()


def wanted(given, files, form):
    """Status, standard output and standard error, part by part, of what is read in a format."""
    page, files = Page(120), visible({**files, **named_in(given)})
    shown, notes, verdict = [], [], []
    for number, part in parts_of(given):
        text, passed, *told = shown_of(part, files, lambda report: whole_picture(report, page), form)
        shown.append(text)
        notes += [note_of(number, told[0], told[2]), passed]
        verdict.append(told)
    return status_of(verdict, form), b"".join(shown), b"".join(notes)


def wanted_log(given, files, form, tool, spelled):
    """The same where one log of all reports is asked for."""
    files, logged, notes, verdict = {**files, **named_in(given)}, [], [], []
    for number, part in parts_of(given):
        told, passed, bad, failed = told_of(part, files, form)
        left_out = [it for it in told if spelled is spelled_log and not has_place(it)]
        logged += [it for it in told if it not in left_out]
        notes += [note_of(number, bad, failed), passed, *(left_out_note(number, it) for it in left_out)]
        verdict.append((bad, any(map(is_error, told)), failed))
    return status_of(verdict, form), spelled(logged, tool).encode(), b"".join(notes)


# ---- rows that are changed


def other_value(dice, key, old):
    """A value in place of another one."""
    if key in ("byte_start", "byte_end"):
        near = [max(0, old - 3), old + 1, old + 40] if isinstance(old, int) else []
        return dice.choice([0, 1, 5, 17, 10**6, 2**63, "7", -1, *near])
    given = {
        "file_name": ["mine.rs", "util.rs", "gone.rs", "other.rs", "short.rs", "/gone.rs", 7],
        "label": ["", "here", "two\nrows", None, 5],
        "is_primary": [True, False, None, "yes"],
        "suggested_replacement": ["", "x", None, 3],
        "suggestion_applicability": ["MaybeIncorrect", "MachineApplicable", "HasPlaceholders", None, 9],
        "level": ["error", "error: internal compiler error", "warning", "note", "help", "failure-note", 3],
        "message": ["m", "two\nrows", ""],
        "span": [None, 5, "x", [], {}],
        "expansion": [None, 5, "x", {}],
        "macro_decl_name": ["m!", "#[derive(Debug)]", "#[test]", "m", None, 5],
        "spans": [[], None, "x", [5], {}],
        "children": [[], None, "x", [None], {}],
    }
    return dice.choice(given.get(key, [None, 7, "s", [], {}]))


def is_read(path):
    """Whether what stands there is read."""
    return path[0] in READ and "text" not in path


def hostile(dice, count):
    """Rows that are changed by chance."""
    rows = [json.loads(row) for name in NAMES for row in rows_of(recorded(name))]
    for row in rows:
        row["rendered"] = None
        row["code"] = row["code"] and {"code": row["code"]["code"], "explanation": None}
    one = partial(changed, dice, is_read=is_read, other_value=other_value)
    return b"".join(json.dumps(one(dice.choice(rows))).encode() + b"\n" for _ in range(count))


def cut_rows(name):
    """Every row cut at every 50th byte."""
    rows = [row[:end].rstrip(b"\n") for row in rows_of(recorded(name)) for end in range(1, len(row), 50)]
    return b"".join(row + b"\n" for row in rows)


def of_cargo(name):
    """The rows as cargo hands them on, with its own in between."""
    rows = rows_of(recorded(name))
    held = [b'{"reason":"compiler-message","package_id":"p","message":' + row.rstrip(b"\n") + b"}\n" for row in rows]
    return b"".join(held + OTHER + CHATTER)


# ---- runs


def inputs(folder):
    """What is read of rustc and cargo, with the folder of its files."""
    for name in NAMES:
        given = recorded(name)
        yield f"{name} as recorded", given, FOLDER
        yield f"{name} as cargo hands it on", of_cargo(name), FOLDER
        yield f"{name} cut at every 50th byte", cut_rows(name), FOLDER
        yield f"{name} without its last bytes", given[: -len(given) // 7], FOLDER
        yield f"{name} over files that are gone or shorter", given, folder
    yield "rows that can't be read", b"".join(CHATTER + BAD + OTHER + [b'{"message":"m","level":"error"}']), FOLDER
    yield "rows that are changed", hostile(random.Random(7), 1000), folder
    yield "both compilers, and a build's own rows", of_cargo("multi") + gcc_cases.recorded("leak"), FOLDER
    yield "nothing", b"", FOLDER
    yield "what other tools write", b"".join(OTHERS), FOLDER
    yield "little that is one of the formats", b"".join(FEW), FOLDER
    yield "builds that fail or end", of_cargo("multi") + b"".join(ENDS), FOLDER
    yield "control characters of a file", recorded("controls"), FOLDER
    yield "rows after a byte order mark", MARK + recorded("borrow") + MARK + OTHER[0] + MARK + CHATTER[0], FOLDER
    yield "an array after a byte order mark", MARK + b'[\n {"kind":"error","locations":[],"message":"m"}\n]\n', FOLDER
    for order in ("utf-16-le", "utf-16-be"):
        yield order, ("\ufeff" + OTHER[0].decode()).encode(order), FOLDER


def logs_of_failures():
    """Logs that say how the calls of their tools ended."""
    for at, runs in enumerate(FAILED):
        given = json.dumps({"version": "2.1.0", "runs": runs}).encode()
        yield f"calls of tools, {at}", given, FOLDER
        yield f"calls of tools, {at}, after a byte order mark", MARK + given, FOLDER
    yield "no log", b"".join(CHATTER), FOLDER


def told_apart(what, form, got, want):
    """Whether a run is as the model says; where it isn't, what differs is printed."""
    if got != want:
        print(f"{what}, as {form}: status {got[0]}, wanted {want[0]}")
        at = next((i for i, (a, b) in enumerate(zip(got[1], want[1])) if a != b), min(len(got[1]), len(want[1])))
        near = slice(max(0, at - 300), at + 200)
        print(f"  got    .. {got[1][near]!r}\n  wanted .. {want[1][near]!r}")
        print(f"  standard error {got[2][-300:]!r}, wanted {want[2][-300:]!r}")
    return got == want


def tried(folder, what, given, root, form="rustc"):
    """Whether the program and the model agree, in a format below a root, and told apart in its folder."""
    named = ["show", "--root", root, "--from", form, *WORDS]
    elsewhere = told_apart(what, form, run(named, given, cwd=folder), wanted(given, files_in(root), form))
    there = told_apart(what, "auto", run(["show", *WORDS], given, cwd=root), wanted(given, files_in(root), "auto"))
    return elsewhere and there and logged(folder, what, given, root, form)


def logged(folder, what, given, root, form):
    """Whether they agree on the logs of all reports: each of the words that ask for one takes its turn."""
    LOGS.append(LOGS.pop(0))
    words, tool, spelled = LOGS[0]
    got = run(["show", "--root", root, "--from", form, *words], given, cwd=folder)
    return told_apart(f"{what}, {words}", form, got, wanted_log(given, files_in(root), form, tool, spelled))


def words_tried():
    """Wrong words end with status 2 and say which are right, before anything is read."""
    usage = b"usage: show [--from auto|rustc|gcc|sarif|shellcheck] [--root DIR] [--fix [--broken-code] | OPTIONS]\n"
    wrong = [["--from", "clang"], ["--root"], ["--from"], ["--width"], ["x"], ["--brief", "--root", "."]]
    wrong += [["--fix", "--brief"], ["--root", ".", "--fix", "x"], ["--fix", "--sarif"], ["--sarif", "--lsp"]]
    wrong += [["--sarif", "--tool"], ["--tool", "a"], ["--tool", "a", "--brief"], ["--sarif", "--width", "80"]]
    return [run(["show", *words], b'{"message":"m"}\n') == (2, b"", usage) for words in wrong]


def handlers_tried():
    """The words of `job` choose what reports look like."""
    told = {"message": "m", "level": "warning", "code": {"code": "c"}, "spans": [SPAN], "children": []}
    given = json.dumps(told).encode()
    brief = run(["show", "--root", FOLDER, "--brief"], given)
    told = run(["show", "--root", FOLDER, "--json"], given)
    return [
        brief == (0, b"borrow.rs:1:1: warning[c]: m\nborrow.rs:1:1: note: here\n\n", b""),
        told[0] == 0 and json.loads(told[1])["filename"] == "borrow.rs",
    ]


def terminal_tried():
    """What is known of the terminal counts as the words that say it, and words that are given overrule it."""
    given = json.dumps(WIDE).encode()
    shown = [(partial(run_in_terminal, "stdout"), *it) for it in IN_TERMINAL] + [(run, *it) for it in IN_PIPE]
    done = [on(["show"], given, variables) == run(["show", *said], given, {}) for on, variables, said in shown]
    plain = run(["show", *OVERRULING], given, {})
    return done + [on(["show", *OVERRULING], given, variables) == plain for on, variables, _ in shown]


def live_tried():
    """What compilers and linters write now, where they are there."""
    of_gcc = ["-Wall", "-fanalyzer", "-fdiagnostics-format=json", "-c", "broken.c", "leak.c"]
    of_shellcheck = ["-f", "json1", "quotes.sh", "wide.sh", "broken.sh", "returns.sh"]
    runs = [
        ("rustc", "rustc", FOLDER, ["--edition", "2021", "--error-format=json", "--emit=metadata", "multi.rs"]),
        ("gcc", "gcc", gcc_cases.FOLDER, of_gcc),
        ("shellcheck", "shellcheck", shellcheck_cases.FOLDER, of_shellcheck),
        ("clang-16", "sarif", gcc_cases.FOLDER, ["-Wall", "-fdiagnostics-format=sarif", "-c", "broken.c"]),
        ("flawfinder", "sarif", sarif_read_cases.FOLDER, ["--sarif", "unsafe.c"]),
    ]
    done = []
    for compiler, form, sources, words in runs:
        if shutil.which(compiler) is None:
            print(f"skipped: what {compiler} writes, since there is none")
            continue
        with tempfile.TemporaryDirectory() as folder:
            for name in files_in(sources):
                shutil.copy(os.path.join(sources, name), folder)
            ran = subprocess.run([compiler, *words], cwd=folder, capture_output=True, check=False)
            given = ran.stdout + ran.stderr
            done.append(given != b"" and tried(folder, f"{compiler} itself", given, folder, form))
    return done


def read_soon(stream, size):
    """`size` bytes of a stream, or those that came where none comes for ten seconds."""
    got = b""
    while len(got) < size and select.select([stream], [], [], 10)[0]:
        more = os.read(stream.fileno(), size - len(got))
        if more == b"":
            break
        got += more
    return got


def stream_tried():
    """What is read is shown as soon as its last row has come, in one row or in many, also after one that is cut off."""
    row, files = b'{"message":"m","level":"error","spans":[],"children":[]}\n', files_in(gcc_cases.FOLDER)
    rows = gcc_cases.formatted(gcc_cases.array_of("fatal")).encode() + b"\n"
    done, words = [], [program("show"), "--root", gcc_cases.FOLDER, *WORDS]
    with subprocess.Popen(words, stdin=subprocess.PIPE, stdout=subprocess.PIPE, stderr=subprocess.DEVNULL) as shown:
        for given in (row, rows, b'{"message":[\n' + row, rows + row, row):
            shown.stdin.write(given)
            shown.stdin.flush()
            want = wanted(given, files, "auto")[1]
            done.append(read_soon(shown.stdout, len(want)) == want)
        shown.stdin.close()
    return done


def most_memory(count):
    """How the program ends that reads `count` messages, with the bytes of memory that it takes at most."""
    rows = rows_of(recorded("borrow"))
    with tempfile.TemporaryDirectory() as folder:
        path = os.path.join(folder, "rows")
        with open(path, "wb") as given:
            for at in range(count):
                given.write(rows[at % len(rows)])
        return size_runs.run([program("show"), "--root", FOLDER, *WORDS], path, MANY)


def memory_tried(count):
    """`count` messages take no more memory than a hundredth of them."""
    size_runs.wait_for_all()
    few, many = most_memory(count // 100), most_memory(count)
    kb = size_runs.KB
    print(f"{count} messages: {many.memory // kb} KB, {many.seconds:.1f} s; {count // 100}: {few.memory // kb} KB")
    return [many.status == 1 and many.written == 100 * few.written and many.memory <= few.memory + 500 * kb]


def main():
    with tempfile.TemporaryDirectory() as folder:
        for name in ("mine.rs", "multi.rs", "util.rs"):
            shutil.copy(os.path.join(FOLDER, name), folder)
        shutil.copy(os.path.join(FOLDER, "util.rs"), os.path.join(folder, "short.rs"))
        with open(os.path.join(folder, "borrow.rs"), "wb") as file:
            file.write(b"fn main() {\n    let")
        for name in ("notes.c", "near.h", "ends.c"):
            shutil.copy(os.path.join(gcc_cases.FOLDER, name), folder)
        shutil.copy(os.path.join(gcc_cases.FOLDER, "leak.c"), os.path.join(folder, "short.c"))
        with open(os.path.join(folder, "broken.c"), "wb") as file:
            file.write(b"#include <stdio.h>\r\nstruct point {\rint x;\n  ")
        done = [tried(folder, *it) for it in inputs(folder)]
        done += [tried(folder, *it) for it in rustc_cases.inputs(FOLDER, folder)]
        done += [tried(folder, *it, "gcc") for it in gcc_cases.inputs(folder)]
        shutil.copy(os.path.join(sarif_read_cases.FOLDER, "line ends.txt"), os.path.join(folder, "wide.c"))
        done += [tried(folder, *it, "sarif") for it in sarif_read_cases.inputs(folder)]
        done += [tried(folder, *it, "sarif") for it in logs_of_failures()]
        done += [tried(folder, *it, form) for it in inputs(folder) if it[1] == b"" for form in ALWAYS]
        shutil.copy(os.path.join(shellcheck_cases.FOLDER, "quotes.sh"), os.path.join(folder, "short.sh"))
        with open(os.path.join(folder, "quotes.sh"), "wb") as file:
            file.write("#!/bin/sh\r\n# 漢字\r\nlist=".encode())
        done += [tried(folder, *it, "shellcheck") for it in shellcheck_cases.inputs(folder)]
    done += words_tried() + handlers_tried() + terminal_tried() + live_tried() + stream_tried()
    done += memory_tried(100000)
    return counted(sum(done), len(done) - sum(done))


if __name__ == "__main__":
    sys.exit(main())
