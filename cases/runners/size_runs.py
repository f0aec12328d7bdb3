"""How sizes.py and show.py run a program under limits, and what they count of a run."""
import ctypes
import os
import re
import shutil
import signal
import subprocess
from typing import NamedTuple

KB, MB = 1024, 1024 * 1024
# What a run has that only tells how much is written.
WIDE_STACK_KB, WIDE_SPACE = 1024 * KB, 8192 * MB
SPACE_TIMES, SPACE_MORE = 10, 64 * MB
BECOME_REAPER = 36
# A child of the shell waits for a line, and becomes the program once the shell has ended. So only
# the program's own memory is counted, and the program is waited for here.
START = """exec 3<&0; given=$1; ulimit -c 0; ulimit -St $2; ulimit -v $3; ulimit -s $4; shift 4
{ read line; exec "$@" <"$given" 2>"$given.faults" 3<&-; } <&3 & echo $! >&2"""
WITH_STACK = 'ulimit -s "$1"; shift; exec "$@"'
PERF = ["perf", "stat", "-x", ",", "-e", "instructions:u"]
VALGRIND = ["valgrind", "--tool=cachegrind", "--cache-sim=no", "--cachegrind-out-file=/dev/null"]


class Limits(NamedTuple):
    """What a run may take: KB of stack, bytes of address space, seconds of the processor."""

    stack_kb: int
    space: int
    seconds: int


class Ended(NamedTuple):
    """How a run ended: its status, or a signal below 0, and the bytes and seconds that it took."""

    status: int
    written: int
    memory: int
    seconds: float
    fault: str

    def text(self):
        """The status, or the name of the signal, and what the program said."""
        if self.status < 0:
            return signal.Signals(-self.status).name
        return f"status {self.status}" + (f" ({self.fault})" if self.fault else "")


class Counter(NamedTuple):
    """What counts instructions: words in front of the program, the last of which takes the name of
    a log, and how the log is read."""

    words: list
    form: str


def wait_for_all():
    """Has Linux give a program whose shell has ended to this process, which then waits for it."""
    ctypes.CDLL(None).prctl(BECOME_REAPER, 1, 0, 0, 0)


def start(command, path, limits):
    """Starts a program over a file under limits; gives its process and what it writes to."""
    words = [path, str(limits.seconds), str(limits.space // KB), str(limits.stack_kb), *command]
    shell = subprocess.Popen(
        ["/bin/sh", "-c", START, "sh", *words],
        stdin=subprocess.PIPE,
        stdout=subprocess.PIPE,
        stderr=subprocess.PIPE,
        env={},
    )
    process = int(shell.stderr.readline())
    shell.wait()
    shell.stderr.close()
    shell.stdin.write(b"\n")
    shell.stdin.close()
    return process, shell.stdout


def run(command, path, limits):
    """How a program ends that reads a file under limits."""
    process, output = start(command, path, limits)
    written = 0
    with output:
        while chunk := os.read(output.fileno(), MB):
            written += len(chunk)
    _, status, used = os.wait4(process, 0)
    status = -os.WTERMSIG(status) if os.WIFSIGNALED(status) else os.WEXITSTATUS(status)
    with open(path + ".faults", encoding="utf-8", errors="replace") as file:
        fault = file.read(200).strip()
    return Ended(status, written, used.ru_maxrss * KB, used.ru_utime + used.ru_stime, fault)


def run_limited(command, path, wanted, asked, least=0):
    """How a program ends under the limits that its text gives it, with no less space than this, and
    how with wide ones where it needs them."""
    read = os.path.getsize(path)
    space = max(SPACE_TIMES * read, least) + SPACE_MORE
    limits = Limits(asked.stack, space, asked.seconds)
    ended = run(command, path, limits)
    if ended.status == wanted:
        return ended, ended
    # The room goes by what is written too, which is known only now.
    whole = run(command, path, Limits(WIDE_STACK_KB, WIDE_SPACE, asked.seconds))
    if whole.status != wanted:
        return ended, whole
    space = max(SPACE_TIMES * (read + whole.written), least) + SPACE_MORE
    return run(command, path, limits._replace(space=space)), whole


def least_stack(command, path, wanted, asked):
    """The least stack in KB, to 4 KB, on which a program ends as it should."""
    low, high = 0, WIDE_STACK_KB // 4
    while high - low > 4:
        middle = (low + high) // 8 * 4
        ended = run(command, path, Limits(middle, WIDE_SPACE, asked.seconds))
        low, high = (low, middle) if ended.status == wanted else (middle, high)
    return high


def counter_of(asked):
    """What counts instructions here, if anything: `valgrind` where it is asked for, or `perf`."""
    if asked.valgrind:
        return Counter([*VALGRIND, "--log-file="], r"I +refs: +([\d,]+)")
    if shutil.which("perf"):
        tried = subprocess.run([*PERF, "true"], capture_output=True, check=False)
        if tried.stderr[:1].isdigit():
            return Counter([*PERF, "--output="], r"(?m)^(\d+),")
    return None


def instructions(counter, command, path, wanted):
    """How many instructions a program takes, where it ends as it should and they are counted."""
    log = path + ".count"
    words = [*counter.words[:-1], counter.words[-1] + log, *command]
    words = ["/bin/sh", "-c", WITH_STACK, "sh", str(WIDE_STACK_KB), *words]
    nothing = subprocess.DEVNULL
    with open(path, "rb") as given:
        ended = subprocess.run(words, stdin=given, stdout=nothing, stderr=nothing, check=False)
    with open(log, encoding="utf-8") as file:
        found = re.search(counter.form, file.read())
    if ended.returncode != wanted or not found:
        return None
    return int(found[1].replace(",", ""))
