"""programs.py: how the scripts beside it run the built programs, each `crates/NAME/out/NAME` as the gate leaves it."""
import os
import shutil
import subprocess
import tty
from concurrent.futures import ThreadPoolExecutor

HERE = os.path.dirname(os.path.abspath(__file__))
CASES = os.path.dirname(HERE)
ROOT = os.path.dirname(CASES)
# what other tools wrote, with the files that they wrote of
RECORDED = os.path.join(CASES, "recorded")
PROCESSORS = os.cpu_count() or 2
# how many of the failed cases are shown
SHOWN = 5
# the programs that read a report or a source, and the status of each where memory or a device fails
STATUS = {"draw": 1, "job": 1, "bench": 1, "lint": 2, "show": 2}
# those that are one program, `examples`, whose first word names one of them
EXAMPLES = ("confcheck", "calc", "testdiff", "minilisp", "breaks")
# no run meets more growths of memory than these
MOST_GROWTHS = 20000


def built(name):
    """The folder of a built program, where files may surely be run."""
    return os.path.join(ROOT, "crates", name, "out")


def program(name):
    """The path of a built program."""
    return os.path.join(built(name), name)


def crate_of(name):
    """The crate of the program of this name."""
    return "examples" if name in EXAMPLES else name


def command(words):
    """The command of a run of the program that the first word names."""
    name, *rest = words
    return [program("examples"), *words] if name in EXAMPLES else [program(name), *rest]


def run(words, given=b"", variables=None, **named):
    """Status, standard output and standard error of a run of the program that the first word names. `given` is its
    input, `variables` are all that it is told of its surroundings, which else are those of this process."""
    named = {"timeout": 60, **named}
    done = subprocess.run(command(words), input=given, capture_output=True, env=variables, **named)
    return done.returncode, done.stdout, done.stderr


def passed_on(terminal):
    """All that is written to a terminal, until its last writer is done."""
    shown = b""
    try:
        while part := os.read(terminal, 4096):
            shown += part
    except OSError:
        pass
    return shown


def run_in_terminal(stream, words, given=b"", variables=None, **named):
    """As `run`, but this stream, `stdout` or `stderr`, is a terminal, which passes on what it gets as it is."""
    named = {"timeout": 60, **named}
    mine, its = os.openpty()
    tty.setraw(its)
    with ThreadPoolExecutor(1) as pool:
        shown = pool.submit(passed_on, mine)
        try:
            streams = {"stdout": subprocess.PIPE, "stderr": subprocess.PIPE, stream: its}
            done = subprocess.run(command(words), input=given, env=variables, **streams, **named)
        finally:
            os.close(its)
        text = shown.result()
    os.close(mine)
    return (done.returncode, text, done.stderr) if stream == "stdout" else (done.returncode, done.stdout, text)


def library_in(folder, name):
    """What refuses a growth, or stops a stream, built into a folder."""
    library = os.path.join(folder, f"{name}.so")
    compiler = os.environ.get("CC") or shutil.which("cc") or "gcc"
    subprocess.run([compiler, "-O1", "-shared", "-fPIC", "-o", library, os.path.join(HERE, f"{name}.c")], check=True)
    return library


def run_refusing(growth, words, given, library, variables=None):
    """A run in which one growth of memory is refused, counted from 1, or none where it is 0; and whether there was such
    a growth."""
    mine, its = os.pipe()
    told = {**(variables or {}), "LD_PRELOAD": library, "REFUSED_GROWTH": str(growth), "REFUSED_REPORT": str(its)}
    try:
        got = run(words, given, told, pass_fds=[its])
        os.close(its)
        return got, os.read(mine, 1) == b"r"
    finally:
        os.close(mine)


def refusals(words, given, library, variables=None):
    """The runs in which the first growth is refused, the second one, and so on: its number, the run, and whether there
    was such a growth. The first run without one is the last."""
    for growth in range(1, MOST_GROWTHS):
        got, was_refused = run_refusing(growth, words, given, library, variables)
        yield growth, got, was_refused
        if not was_refused:
            return


def each(function, cases):
    """What a function that waits for a program gives for each case, on all processors."""
    with ThreadPoolExecutor(PROCESSORS) as pool:
        return list(pool.map(function, cases))


def counted(passed, failed):
    """Prints the last line of a script, and gives its exit status."""
    print(f"{passed} passed, {failed} failed")
    return 1 if failed else 0


def judged(cases):
    """Prints the first of these cases that are wrong and the last line, and gives the exit status.

    A case is its name, whether it is well, and what is told of it where it isn't."""
    wrong, count = [], 0
    for name, is_well, told in cases:
        count += 1
        if not is_well:
            wrong.append((name, told))
    for name, told in wrong[:SHOWN]:
        print(f"{name}\n  {str(told)[:3000]}")
    return counted(count - len(wrong), len(wrong))
