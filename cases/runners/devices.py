#!/usr/bin/env python3
"""devices.py: runs the built programs over devices that fail, and says how they must end.

Standard input is a folder, closed, open for writing alone, or a socket that is reset after each beginning of the
input: a read fault, and nothing is written. Standard output is full, closed, open for reading alone, a pipe that
nobody reads, or a file with room for each beginning of the text: a write fault, and a beginning is written. Standard
error fails in the same ways, which changes no status and no text. Wrong words come before all reading; what writes
nothing meets no write fault. The statuses, rows and texts are written by hand from
crates/miette_devices/CALLING.md. The last line is 'N passed, M failed', and the exit status is 0 only where nothing failed."""
import os
import resource
import socket
import subprocess
import sys
import tempfile
from concurrent.futures import ProcessPoolExecutor

from programs import PROCESSORS, SHOWN, STATUS, counted, program

PIPE = subprocess.PIPE

README = "source\n  text\n    here"
DRAWN = (
    "  × oops!\n   ╭─[bad_file.rs:2:3]\n 1 │ source\n 2 │   text\n   ·   ──┬─\n   ·     ╰── This bit here\n"
    " 3 │     here\n   ╰────\n"
)
FOUND = (
    "  ⚠ 3 findings\n   ╭─[f:1:6]\n 1 │ x = 1 \n   ·      ┬\n   ·      ╰── trailing blanks\n 2 │     y\n   ·  ─┬─\n"
    "   ·   ╰── tab after space\n 3 │ end\n   ·   ┬\n   ·   ╰── no final terminator\n   ╰────\n"
)
MENDED = (
    "  ⚠ 1 findings\n   ╭─[f:1:2]\n 1 │ a \n   ·  ┬\n   ·  ╰── trailing blanks\n   ╰────\n"
    "  fix: 1 of 1 findings\n   ╭─[f:1:2]\n 1 - a \n   ·  -\n 1 + a\n   ╰────\n"
)
SMALL = '{"message":"m"}'
SMALL_JSON = '{"message": "m","severity": "error","causes": [],"labels": [],"related": []}'
LOG = (
    '{"$schema": "https://docs.oasis-open.org/sarif/sarif/v2.1.0/errata01/os/schemas/sarif-schema-2.1.0.json",'
    '"version": "2.1.0","runs": [{"tool": {"driver": {"name": "%s"}},"columnKind": "utf16CodeUnits",'
    '"newlineSequences": ["\\r\\n","\\n","\\r"],"results": [%s]}]}'
)
LABELLED = '{"message":"漢","source":{"text":"a\\nb"},"labels":[{"offset":2,"length":1,"label":"x"}]}'
PICTURE = "  × 漢\n   ╭─[2:1]\n 1 │ a\n 2 │ b\n   · ┬\n   · ╰── x\n   ╰────\n"
COLOURED = (
    "  \x1b[31m×\x1b[0m 漢\n   ╭─[2:1]\n \x1b[2m1\x1b[0m │ a\n \x1b[2m2\x1b[0m │ b\n"
    "   · \x1b[35;1m┬\x1b[0m\n   · \x1b[35;1m╰── x\x1b[0m\n   ╰────\n"
)
NARRATED = (
    "漢\n    Diagnostic severity: error\nBegin snippet starting at line 1, column 1\n\nsnippet line 1: a\n"
    "snippet line 2: b\n    label at line 2, column 1: x\n"
)
LABELLED_DEBUG = (
    'Diagnostic { message: "漢", labels: "[LabeledSpan { label: Some(\\"x\\"), span: SourceSpan { offset: '
    'SourceOffset(2), length: 1 }, primary: false, context_lines: None }]" }\n'
)
LABELLED_JSON = (
    '{"message": "漢","severity": "error","causes": [],"filename": "","labels": [{"label": "x","span": '
    '{"offset": 2,"length": 1}}],"related": []}'
)
MESSAGE = '{"message":"%s","level":"error","spans":[],"children":[]}'
MESSAGE_M = '{"level": "error","message": {"text": "m"}}'
# words, input, status, text
RUNS = [
    (["draw", "bad_file.rs", "9", "4", "This bit here", "oops!"], README, 0, DRAWN),
    (["lint", "f", "80"], "x = 1 \n \ty\nend", 1, FOUND),
    (["lint", "--fix", "f", "80"], "x = 1 \n \ty\nend", 0, "x = 1\n    y\nend\n"),
    (["lint", "--diff", "f", "80"], "a \n", 1, MENDED),
    (["lint", "--sarif", "f", "80"], "a\n", 0, LOG % ("lint", "")),
    (["job", "--sarif"], SMALL, 0, LOG % ("job", MESSAGE_M)),
    (["job", "--json"], SMALL, 0, SMALL_JSON),
    (["job", "--term-unicode", "yes"], LABELLED, 0, PICTURE),
    (["job", "--theme", "unicode"], LABELLED, 0, COLOURED),
    (["job", "--narrated"], LABELLED, 0, NARRATED),
    (["job", "--brief"], LABELLED, 0, "2:1: error: 漢\n2:1: note: x\n"),
    (["job", "--json"], LABELLED, 0, LABELLED_JSON),
    (["job", "--debug"], LABELLED, 0, LABELLED_DEBUG),
    (["bench", "2", "--narrated"], SMALL, 0, "33\n"),
    (["show", "--theme", "unicode_nocolor"], MESSAGE % "漢", 1, "  × 漢\n\n"),
    (["show", "--brief"], '{ "comments": [{"message": "m"}]}', 0, "warning: m\nnote: caused by: :0:0\n\n"),
    (["show", "--sarif"], "", 0, LOG % ("show", "")),
    (["show", "--tool", "a", "--lsp"], MESSAGE % "m", 1, "[]"),
]
LINT_USAGE = "usage: lint [--brief | --github | --fix | --diff | --sarif [--tool TOOL]] NAME WIDTH | --lsp WIDTH\n"
SHOW_USAGE = "usage: show [--from auto|rustc|gcc|sarif|shellcheck] [--root DIR] [--fix [--broken-code] | OPTIONS]\n"
# words that are refused, status, row
REFUSED = [
    (["draw"], "usage: draw NAME OFFSET LENGTH LABEL MESSAGE\n"),
    (["draw", "f", "9", "+4", "l", "m"], "usage: draw NAME OFFSET LENGTH LABEL MESSAGE\n"),
    (["job", "--jsonx"], "usage: job [OPTIONS]\n"),
    (["bench", "x"], "usage: bench N [OPTIONS]\n"),
    (["lint", "--lsp"], LINT_USAGE),
    (["show", "--from", "clang"], SHOW_USAGE),
]
# words and an input of which nothing is written, status, row
SILENT = [
    (["job", "--json"], "[]", 3, "job: bad description\n"),
    (["job", "--sarif"], "[]", 3, "job: bad description\n"),
    (["bench", "1"], "[]", 3, "bench: bad description\n"),
    (
        ["job", "--narrated"],
        '{"message":"m","source":{"text":"ab"},"labels":[{"offset":3,"length":0}]}',
        4,
        "job: report refused\n",
    ),
    (["lint", "f", "80"], "a\n", 0, ""),
]
# words and an input that is passed on to standard error, status, what it gets
PASSED = [
    (["show"], "chatter", 0, "chatter"),
    (["show"], 'a\n{"\nb', 3, 'a\nshow: row 2: no message that can be read\n{"\nb'),
    (["show"], 'a\n{"reason":"build-finished","success":false}\nb', 1, "a\nshow: row 2: the build failed\nb"),
]


def file_of(text):
    """A file that holds the text, at its beginning."""
    file = tempfile.TemporaryFile()
    file.write(text.encode())
    file.seek(0)
    return file


def closed(_text):
    return None


def folder(_text):
    return os.open("/", os.O_RDONLY)


def for_writing(_text):
    return os.open("/dev/null", os.O_WRONLY)


def reset_after(text):
    """A socket that gives the text and then a fault, since its other end was closed with something unread."""
    here, there = socket.socketpair()
    here.send(b"unread")
    there.send(text.encode())
    there.close()
    return here


def full():
    return os.open("/dev/full", os.O_WRONLY)


def for_reading():
    return os.open("/dev/null", os.O_RDONLY)


def unread():
    """A pipe that nobody reads."""
    reader, writer = os.pipe()
    os.close(reader)
    return writer


def shut():
    return None


INPUTS = (closed, folder, for_writing, reset_after)
OUTPUTS = (shut, full, for_reading, unread)


def run(words, streams, room=None):
    """Runs a program over its three streams (one that is None is closed): status, text and row, where these are piped.
    With a room no file that it writes grows past that many bytes."""

    def before():
        for number, stream in enumerate(streams):
            if stream is None:
                os.close(number)
        if room is not None:
            resource.setrlimit(resource.RLIMIT_FSIZE, (room, room))

    command = [program(words[0]), *words[1:]]
    # A full file is a fault of the write, and no signal, since Python ignores that one and hands this on.
    named = dict(zip(("stdin", "stdout", "stderr"), streams))
    try:
        with subprocess.Popen(command, preexec_fn=before, restore_signals=room is None, **named) as started:
            text, row = started.communicate(timeout=60)
    finally:
        for stream in streams:
            if isinstance(stream, int) and stream >= 0:
                os.close(stream)
            elif stream is not None and not isinstance(stream, int):
                stream.close()
    return started.returncode, text, row


def fault(words, device):
    """The status and the row of a fault of a device."""
    return STATUS[words[0]], f"{words[0]}: {device} fault\n".encode()


def cannot_read(words, given, device):
    """A read fault ends the run, and nothing is written."""
    status, row = fault(words, "read")
    return run(words, (device(given), PIPE, PIPE)), (status, b"", row)


def cannot_write(words, given, device):
    """A write fault ends the run."""
    status, row = fault(words, "write")
    return run(words, (file_of(given), device(), PIPE)), (status, None, row)


def leaves_a_beginning(words, given, done, text, room):
    """With room for that many bytes these are written; where they aren't all, that is a write fault."""
    wanted = text.encode()
    status, row = fault(words, "write") if room < len(wanted) else (done, b"")
    with tempfile.TemporaryFile() as file:
        ended = run(words, (file_of(given), os.dup(file.fileno()), PIPE), room)
        file.seek(0)
        return (ended, file.read()), ((status, None, row), wanted[:room])


def words_come_first(words, row, device):
    """Wrong words are found before anything is read or written."""
    return run(words, (device(""), None, PIPE)), (2, None, row.encode())


def writes_nothing(words, given, status, row, device):
    """What writes nothing meets no write fault."""
    return run(words, (file_of(given), device(), PIPE)), (status, None, row.encode())


def cannot_tell(words, given, status, text, device):
    """Where standard error fails too, the status and the text are the same."""
    return run(words, (file_of(given), PIPE, device())), (status, text.encode(), None)


def cannot_tell_of_reading(words, device):
    return run(words, (folder(""), PIPE, device())), (STATUS[words[0]], b"", None)


def cannot_tell_of_writing(words, given, device):
    return run(words, (file_of(given), full(), device())), (STATUS[words[0]], None, None)


def checks():
    """Each function of a check with what it is given."""
    for words, given, status, text in RUNS:
        beginnings = [given[:end] for end in range(len(given) + 1)]
        yield from ((cannot_read, words, it, device) for device in INPUTS[:3] for it in ("", given))
        yield from ((cannot_read, words, it, reset_after) for it in beginnings)
        yield from ((cannot_write, words, given, device) for device in OUTPUTS)
        rooms = range(len(text.encode()) + 1)
        yield from ((leaves_a_beginning, words, given, status, text, room) for room in rooms)
        yield from ((cannot_tell, words, given, status, text, device) for device in OUTPUTS)
        yield from ((cannot_tell_of_reading, words, device) for device in OUTPUTS)
        yield from ((cannot_tell_of_writing, words, given, device) for device in OUTPUTS)
    for words, row in REFUSED:
        yield from ((words_come_first, words, row, device) for device in INPUTS)
        yield from ((cannot_tell, words, "", 2, "", device) for device in OUTPUTS)
    for words, given, status, row in SILENT:
        yield from ((writes_nothing, words, given, status, row, device) for device in OUTPUTS)
        yield from ((cannot_tell, words, given, status, "", device) for device in OUTPUTS)
    for words, given, status, row in PASSED:
        yield from ((writes_nothing, words, given, status, row, device) for device in OUTPUTS)
        yield from ((cannot_tell, words, given, STATUS[words[0]], "", device) for device in OUTPUTS)


def answer(check):
    """What the run of a check left, and what it must leave."""
    function, *given = check
    try:
        return function(*given)
    except (OSError, subprocess.SubprocessError) as unexpected:
        return str(unexpected), None


def main():
    every = list(checks())
    failed = 0
    with ProcessPoolExecutor(PROCESSORS) as pool:
        for (function, *given), (got, wanted) in zip(every, pool.map(answer, every, chunksize=20)):
            if got != wanted:
                failed += 1
                if failed <= SHOWN:
                    print(f"{function.__name__}: {given!r}\n  wanted {wanted!r}\n  got    {got!r}")
    return counted(len(every) - failed, failed)


if __name__ == "__main__":
    sys.exit(main())
