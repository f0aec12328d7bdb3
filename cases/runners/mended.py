#!/usr/bin/env python3
"""mended.py [FILE ..]: 13 files of C, Rust and TOML, to which blanks were added, through `lint --fix`.

The files of C are those of this repository and four headers of the C library, of up to 1,500 lines, those of Rust are
sources of this repository, those of TOML hold its cases. By chance, from a fixed seed, lines get blanks at their
ends, and tabs after spaces in place of the spaces that they begin with; the last terminator is dropped; some files
have CR LF. What `lint --fix` prints of that must be the file as it was, in which `lint` finds nothing; and what reads
the language must read both alike: the assembly that `cc` makes, the rows that it reads of a header, the words of
Rust, the value of TOML. With FILE .. these are tried in their place, each read as the end of its name says (`.c`,
`.h`, `.rs`, `.toml`), and mended as it is before blanks are added. The last line is 'N passed, M failed', and the
exit status is 0 only where nothing failed."""
import json
import os
import random
import re
import subprocess
import sys
import tempfile

from programs import ROOT, counted, each, run

CC = os.environ.get("CC") or "cc"
WIDTH = str(2**64 - 1)
C = ["cases/runners/stop.c", "cases/runners/refuse.c", "bench/heap.c"]
HEADERS = ["stdio.h", "stdlib.h", "unistd.h", "math.h"]
RUST = ["crates/miette_text/src/wrapping.rt", "crates/miette_graphical/src/report.rt", "crates/miette_lint/src/findings.rt"]
TOML = ["gallery", "worked", "examples"]
# the words of Rust: comments, texts, letters, words, numbers, signs
RUST_WORD = re.compile(rb"""//[^\n\r]*|b?"(?:[^"\\]|\\.)*"|b?'(?:[^'\\\n]|\\.[^'\n]*)'|\w+|[^\s\w]""", re.DOTALL)


def file_in(path):
    with open(os.path.join(ROOT, path), "rb") as file:
        return file.read()


def header(name):
    """The text of a header that `cc` reads."""
    done = subprocess.run([CC, "-M", "-x", "c", "-"], input=f"#include <{name}>\n", capture_output=True, text=True)
    return file_in(next(it for it in done.stdout.split() if it.endswith("/" + name)))


def quoted(text):
    """A text in TOML: as in JSON, but that TOML escapes DEL, and has no halves of surrogate pairs."""
    return json.dumps(text, ensure_ascii=False).replace("\x7f", "\\u007f")


def toml(name):
    """The texts of a file of cases as TOML."""
    text = ""
    for line in file_in(f"cases/{name}.jsonl").decode().splitlines():
        case = json.loads(line)
        text += f"[[case]]\nwhat = {quoted(case.get('what', name))}\nwords = [\n"
        text += "".join(f"    {quoted(word)},\n" for word in case["argv"])
        text += f"]\nwanted = {quoted(case.get('stdout_text', ''))}\n\n"
    return text.rstrip("\n").encode() + b"\n"


# ---- what reads a language


def assembly(text):
    words = [CC, "-O1", "-w", "-S", "-x", "c", "-o", "-", "-"]
    done = subprocess.run(words, input=text, capture_output=True, check=True)
    return done.stdout


def header_words(text):
    """The words of a header after it is read."""
    with tempfile.TemporaryDirectory() as folder:
        path = os.path.join(folder, "read.h")
        with open(path, "wb") as file:
            file.write(text)
        done = subprocess.run([CC, "-w", "-E", "-P", "-x", "c", path], capture_output=True, check=True)
    return done.stdout.split()


def rust_words(text):
    """The words of Rust, without the blanks that end a comment."""
    return [it.rstrip() if it.startswith(b"//") else it for it in RUST_WORD.findall(text)]


def toml_value(text):
    try:
        import tomllib
    except ImportError:
        return None
    return tomllib.loads(text.decode())


READERS = {".c": assembly, ".h": header_words, ".rs": rust_words, ".toml": toml_value}


def files():
    """Each file: its name, its text, and what reads it."""
    yield from ((path, file_in(path), assembly) for path in C)
    yield from ((name, header(name), header_words) for name in HEADERS)
    yield from ((path, file_in(path), rust_words) for path in RUST)
    yield from ((f"{name}.toml", toml(name), toml_value) for name in TOML)


# ---- lines that are amiss


def uneven(dice, line):
    """A line with a tab after a space in place of four spaces at its beginning, by chance."""
    spaces = len(line) - len(line.lstrip(b" "))
    if spaces >= 4 and line.strip() and dice.random() < 0.4:
        at = 4 * dice.randrange(spaces // 4)
        line = line[:at] + b" " * dice.randint(1, 3) + b"\t" + line[at + 4 :]
    return line


def amiss(dice, text):
    """A text with lines that `lint` finds fault with."""
    lines = []
    for line in text.split(b"\n"):
        line = uneven(dice, line)
        lines.append(line + dice.choice([b" ", b"\t", b"   ", b" \t", b"\t  "]) if dice.random() < 0.3 else line)
    return b"\n".join(lines[:-1])


def fault_of(number, name, text, reads):
    """Why a file isn't mended, and how many lines were amiss."""
    dice, found = random.Random(number), 0
    worse = amiss(dice, text)
    if number % 3 == 2:
        text, worse = text.replace(b"\n", b"\r\n"), worse.replace(b"\n", b"\r\n")
    if run(["lint", name, WIDTH], text) != (0, b"", b""):
        return "something is found in the file as it was", found
    status, labels, row = run(["lint", "--brief", name, WIDTH], worse)
    found = labels.count(b": note: ")
    if status != 1 or row or not found:
        return f"status {status}, {found} findings, {row!r}", found
    mended = run(["lint", "--fix", name, WIDTH], worse)
    if mended != (0, text, b""):
        return f"status {mended[0]}, {mended[2]!r}, another text", found
    if reads(worse) != reads(text):
        return "it is read in another way", found
    return None, found


def fault_of_given(number, path):
    """The same of a file that is given, mended first."""
    with open(path, "rb") as file:
        text = file.read()
    reads = READERS[os.path.splitext(path)[1]]
    status, mended, row = run(["lint", "--fix", path, WIDTH], text)
    if status or row:
        return f"status {status}, {row!r}", 0
    if reads(mended) != reads(text):
        return "as it is, it is read in another way", 0
    return fault_of(number, path, mended, reads)


def main(given):
    if given:
        names, results = given, each(lambda it: fault_of_given(*it), list(enumerate(given)))
    else:
        names, results = [it[0] for it in files()], each(lambda it: fault_of(it[0], *it[1]), list(enumerate(files())))
    for name, (fault, _) in zip(names, results):
        if fault:
            print(f"{name}: {fault}")
    print(f"findings in {len(names)} files: {sum(found for _, found in results)}")
    failed = sum(fault is not None for fault, _ in results)
    return counted(len(results) - failed, failed)


if __name__ == "__main__":
    sys.exit(main(sys.argv[1:]))
