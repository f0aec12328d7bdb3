#!/usr/bin/env python3
"""faults.py: runs the built programs where the machine fails, and says what each did.

    cases/run faults.py     closed and full outputs, closed pipes, inputs of 100 MB, little address space, small stacks

A program has to end by itself, with a status of its own and one row on standard error. A closed pipe may end it by the
signal SIGPIPE, as it ends most programs. The last line is 'N passed, M failed'."""
import json
import os
import resource
import signal
import subprocess
import sys
import time

from programs import counted, program

MEGABYTE = 1 << 20

LABELLED = {"message": "m", "source": {"text": "a\nb"}, "labels": [{"offset": 2, "length": 1, "label": "x"}]}
CALLS = {
    "draw": (["bad_file.rs", "9", "4", "This bit here", "oops!"], b"source\n  text\n    here"),
    "lint": (["f", "80"], b"x = 1 \n \ty\nend"),
    "job": ([], json.dumps(LABELLED).encode()),
    "bench": (["3", "--json"], json.dumps(LABELLED).encode()),
}


def limited(limits):
    """What sets limits before a program begins."""

    def before():
        for what, most in limits.items():
            resource.setrlimit(what, (most, most))

    return before


def run(name, words, given, limits=None, stdout=subprocess.PIPE, before=None):
    """Status, bytes written, what it said, seconds."""
    begun = time.time()

    def prepared():
        if before:
            before()
        if limits:
            limited(limits)()

    streams = {"input": given, "stdout": stdout, "stderr": subprocess.PIPE}
    done = subprocess.run([program(name), *words], timeout=600, preexec_fn=prepared, **streams)
    return done.returncode, len(done.stdout or b""), done.stderr, time.time() - begun


def ends_well(status, said, statuses):
    """Whether it ended by itself, and said so in at most one row."""
    return status in statuses and said.count(b"\n") <= 1


def told(what, name, got, is_well):
    status, count, said, seconds = got
    how = f"signal {signal.Signals(-status).name}" if status < 0 else f"status {status}"
    row = said.decode(errors="replace").strip()
    verdict = "" if is_well else "NOT AS IT SHOULD: "
    print(f"{verdict}{what}: {name}: {how}, {count} bytes written, said {row!r}, {seconds:.1f} s", flush=True)
    return is_well


def bad_outputs():
    """Outputs that take nothing."""
    for name, (words, given) in CALLS.items():
        wanted = (2,) if name == "lint" else (1,)
        got = run(name, words, given, stdout=None, before=lambda: os.close(1))
        yield told("output closed", name, got, ends_well(got[0], got[2], wanted) and got[2].endswith(b"write fault\n"))
        with open("/dev/full", "wb") as full:
            got = run(name, words, given, stdout=full)
        yield told("full device", name, got, ends_well(got[0], got[2], wanted) and got[2].endswith(b"write fault\n"))
        mine, its = os.pipe()
        os.close(mine)
        got = run(name, words, given, stdout=its)
        os.close(its)
        yield told("closed pipe", name, got, ends_well(got[0], got[2], (*wanted, -signal.SIGPIPE)))
        got = run_without_input(name, words)
        yield told("input closed", name, got, ends_well(got[0], got[2], wanted) and got[2].endswith(b"read fault\n"))


def run_without_input(name, words):
    """The same, with standard input closed."""
    begun = time.time()
    done = subprocess.run([program(name), *words], capture_output=True, timeout=60, preexec_fn=lambda: os.close(0))
    return done.returncode, len(done.stdout), done.stderr, time.time() - begun


def big_inputs():
    """Inputs of 100 MB: lines, one line, a description with a long text, and bytes that describe nothing."""
    size = 100 * MEGABYTE
    lines = b"a line of text\n" * (size // 15)
    text = json.dumps({**LABELLED, "source": {"text": lines.decode()}}).encode()
    rows = [
        ("draw", ["f", "50000000", "4", "here", "m"], lines, (0,)),
        ("draw", ["f", "50000000", "4", "here", "m"], b"x" * size, (0,)),
        ("lint", ["f", "80"], lines, (0,)),
        ("lint", ["f", "80"], b"x" * size, (1,)),
        ("job", [], text, (0,)),
        ("job", ["--narrated"], text, (0,)),
        ("job", ["--json"], text, (0,)),
        ("job", [], b"[" * size, (3,)),
        ("job", [], b" " * size, (3,)),
        ("bench", ["1", "--json"], text, (0,)),
    ]
    for name, words, given, wanted in rows:
        got = run(name, words, given)
        yield told(f"100 MB, {given[:8]!r}", f"{name} {words}", got, ends_well(got[0], got[2], wanted))
        for room in (16, 64, 128):
            got = run(name, words, given, {resource.RLIMIT_AS: room * MEGABYTE})
            # that is too little for each of these: it says so, and writes nothing
            is_well = got[:3] == (2 if name == "lint" else 1, 0, f"{name}: out of memory\n".encode())
            yield told(f"100 MB, {given[:8]!r}, {room} MB of address space", f"{name} {words}", got, is_well)


def deep(count, key):
    """A description whose causes or related reports stand in one another `count` times."""
    text = b'{"message":"m"}'
    for _ in range(count):
        text = b'{"message":"m","%s":%s}' % (key, text if key == b"cause" else b"[" + text + b"]")
    return text


# a member, how deep it may be, and KB of stack that are enough: a tenth and more above what docs/PERFORMANCE.md says;
# on a smaller stack a program may end by a signal
STACKS = ((b"cause", 0, 96), (b"cause", 126, 192), (b"related", 63, 224))
JOBS = ([], ["--nested", "yes"], ["--narrated"], ["--json"], ["--debug"])
PROGRAMS = [*[("job", it) for it in JOBS], ("bench", ["1"])]


def small_stacks():
    """Descriptions as deep as they may be, on the stacks that they need."""
    for key, most, stack in STACKS:
        for name, words in PROGRAMS:
            got = run(name, words, deep(most, key), {resource.RLIMIT_STACK: stack * 1024})
            is_well = ends_well(got[0], got[2], (0,))
            what = f"{most} of {key.decode()} in one another, a stack of {stack} KB"
            yield told(what, f"{name} {words}", got, is_well)
        if most:
            got = run("job", [], deep(most + 1, key))
            is_well = got[:3] == (3, 0, b"job: bad description\n")
            yield told(f"{most + 1} of {key.decode()} in one another", "job []", got, is_well)


def main():
    found = [*bad_outputs(), *big_inputs(), *small_stacks()]
    return counted(sum(found), len(found) - sum(found))


if __name__ == "__main__":
    sys.exit(main())
