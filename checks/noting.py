"""Notes what processes of the toolchain took, for checks/gate."""
import json
import os
import subprocess
import time

# the variable that names the file of notes
NOTES = "GATE_NOTES"


def noting(notes):
    """A Popen that writes a line of JSON for each process that ends."""

    class Noting(subprocess.Popen):
        def __init__(self, args, *rest, **named):
            self.words = [str(it) for it in args]
            self.place = str(named.get("cwd") or "")
            super().__init__(args, *rest, **named)

        def _try_wait(self, flags):
            try:
                pid, status, used = os.wait4(self.pid, flags)
            except ChildProcessError:
                return self.pid, 0
            if pid:
                self.note(used.ru_utime + used.ru_stime, used.ru_maxrss)
            return pid, status

        def note(self, seconds, memory):
            if "--crate-name" not in self.words:
                return
            crate = self.words[self.words.index("--crate-name") + 1]
            is_edit = os.path.basename(self.place).startswith("rt-edit-")
            part = "edits" if is_edit else "tests" if "--test" in self.words else "proof"
            told = {"crate": crate, "part": part, "seconds": seconds, "memory": memory}
            with open(notes, "a", encoding="utf-8") as out:
                out.write(json.dumps({**told, "end": time.time()}) + "\n")

    return Noting


def note_processes():
    """Has each process that this one starts from now on noted, where checks/gate asks for it."""
    if os.environ.get(NOTES):
        subprocess.Popen = noting(os.environ[NOTES])
