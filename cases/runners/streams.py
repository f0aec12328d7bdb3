#!/usr/bin/env python3
"""streams.py: runs the built programs over streams of a byte a call that stop after each number of bytes.

`stop.c`, loaded before the C library, has the programs read a byte a call and write one, or as many as are asked
for. After each number of bytes a read or a write fails, by a fault of the device or by being interrupted, or a write
takes nothing. A fault of the reader, and nothing is written; or one of the writer, after exactly the bytes that were
taken. The words, inputs and texts are those of devices.py. The last line is 'N passed, M failed', and the exit status
is 0 only where nothing failed."""
import errno
import sys
import tempfile

from devices import RUNS
from programs import SHOWN, STATUS, built, counted, each, library_in, run


def run_stopped(words, given, stops, library):
    """Status, standard output and standard error of a program over streams that stop."""
    return run(words, given, {**{key: str(it) for key, it in stops.items()}, "LD_PRELOAD": library})


def streams():
    """Words, input, what stops, and the status, text and row that are wanted."""
    for words, given, status, text in RUNS:
        given, text = given.encode(), text.encode()
        fault = f"{words[0]}: %s fault\n"
        yield words, given, {"STOP_AT_ONCE": 1}, (status, text, b"")
        for count in range(len(given) + 1):
            for number in (errno.EIO, errno.EINTR):
                stops = {"STOP_AT_ONCE": 1, "STOP_GIVES": count, "STOP_AS": number}
                yield words, given, stops, (STATUS[words[0]], b"", (fault % "read").encode())
        for count in range(len(text)):
            for number in (0, errno.EIO, errno.EINTR):
                for most in ({"STOP_AT_ONCE": 1}, {}):
                    stops = {**most, "STOP_TAKES": count, "STOP_AS": number}
                    yield words, given, stops, (STATUS[words[0]], text[:count], (fault % "write").encode())


def main():
    every = list(streams())
    with tempfile.TemporaryDirectory(dir=built("job")) as folder:
        library = library_in(folder, "stop")
        found = each(lambda it: run_stopped(*it[:3], library), every)
    wrong = [(it, got) for it, got in zip(every, found) if got != it[3]]
    for (words, _, stops, wanted), got in wrong[:SHOWN]:
        print(f"{words} {stops}\n  wanted {wanted!r}\n  got    {got!r}")
    readers, writers = (sum(key in stops for _, _, stops, _ in every) for key in ("STOP_GIVES", "STOP_TAKES"))
    print(f"bytes that readers stopped at: {readers}, that writers stopped at: {writers}")
    return counted(len(every) - len(wrong), len(wrong))


if __name__ == "__main__":
    sys.exit(main())
