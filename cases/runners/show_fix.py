#!/usr/bin/env python3
"""show_fix.py: runs the built program `show --fix` on what rustc wrote (`rustc/`) over copies of its sources, and
compares the files and what is said of them with a model of the rules (crates/miette_show_rows/CALLING.md).

Tried are the recorded rows, the same rows twice, files that have changed since or are gone, packages that have errors,
names that lead out of the folder, also through links, fixes that overlap, files that can't be written, two runs at
once, a folder of a workspace, files of the system, a disk that is full, and each growth of memory refused. Where cargo
is installed, crates are fixed by `cargo fix` too, and the files are compared. The last line is 'N passed, M failed',
and the exit status is 0 only where nothing failed."""
import json
import os
import resource
import shutil
import signal
import subprocess
import sys
import tempfile
from concurrent.futures import ThreadPoolExecutor

from fix_model import Edit, taken
from programs import RECORDED, built, command, counted, library_in, refusals, run
from readers_model import NoMessage, Settled, diagnostic_in, fixes, is_edit, member, objects, offers, severity, stretch
from readers_model import text
from show_model import begins, parts_of, unmarked

FOLDER = os.path.join(RECORDED, "rustc")
NAMES = ["borrow", "fixits", "life", "mine", "multi"]
MANIFEST = '[package]\nname = "mended"\nversion = "0.1.0"\nedition = "2021"\n'
# what rustc can mend in one round, and a value of which it tells two ways to keep it, of which one alone can be made
BROKEN = """#![warn(unused_parens, unused_mut, let_underscore_drop)]
mod other;
use std::collections::HashMap;

struct Held;

impl Drop for Held {
    fn drop(&mut self) {}
}

fn main() {
    let _ = Held;
    let mut total = 0;
    let mut kept = 1;
    for it in (0..3) {
        if (it == 1) {
            total += it;
        }
    }
    println!("{total} {kept}");
    other::told(3);
}
"""
# what has an error and a warning, both of which rustc is sure how to mend
WRONG = """fn main() {
    let some = String::new();
    let other = some;
    if (true) {
        println!("{some} {other}");
    }
}
"""
OTHER = "pub fn told(some: u32) {\n    let unused = 1;\n    while (false) {}\n}\n"


# ---- the model


def fresh(span, files):
    """Whether the rows that rustc read at a span are those of its file, and it stands at its column of the first."""
    name, at, rows = text(span, "file_name"), stretch(span), objects(span, "text")
    if name not in files or at is None or at[0] > len(files[name]) or not rows:
        return False
    start = files[name].rfind(b"\n", 0, at[0]) + 1
    before, rest = files[name][start : at[0]], files[name][start:]
    if sum(it & 0xC0 != 0x80 for it in before) + 1 != member(span, "column_start", int):
        return False
    for row in (text(it, "text").encode() for it in rows):
        end = next((end for end in (b"\n", b"\r\n") if rest.startswith(row + end)), None)
        if end is None and rest != row:
            return False
        rest = rest[len(row + (end or b"")) :]
    return True


def sure_fixes(message, files):
    """The fixes of a message that are machine-applicable, each with the name of its file; none of alternatives."""
    sure = []
    for child in objects(message, "children"):
        spans = [it for it in objects(child, "spans") if is_edit(it)]
        for offer in offers({"children": [child]}, Settled(files)):
            if offer[1] == "machine-applicable" and all(fresh(it, files) for it in spans):
                sure.append(offer)
    joint = ("", None, [edit for offer in sure for edit in offer[2]])
    if any(len(fixes(joint, name, "")) > 1 for name, *_ in joint[2]):
        return
    for offer in sure:
        for name in dict.fromkeys(it[0] for it in offer[2]):
            for fix in fixes(offer, name, offer[0]):
                yield name, [Edit(it["offset"], it["length"], it["text"].encode()) for it in fix["edits"]]


def stale_files(message, files):
    """The files of what is machine-applicable, edit by edit, where that doesn't stand as rustc saw it."""
    for child in objects(message, "children"):
        spans = [it for it in objects(child, "spans") if is_edit(it)]
        if spans and text(spans[0], "suggestion_applicability") == "MachineApplicable":
            lost = [it for it in spans if not (fresh(it, files) and Settled(files).found(it))]
            yield from (text(it, "file_name") for it in lost)


def leads_out(name):
    """Whether a file of this name is none below the folder."""
    return name.startswith("/") or ".." in name.split("/")


def given_by(given, files):
    """What each row gives: its package, whether it is an error, its fixes and stale files; and the notes of others."""
    rows, notes = [], []
    for number, row in parts_of(given):
        if not begins(row, "rustc"):
            continue
        try:
            value = json.loads(unmarked(row).decode())
            message = diagnostic_in(value)
        except (ValueError, NoMessage):
            notes.append(f"show: row {number}: no message that can be read\n".encode())
            continue
        if message is not None:
            package, grave = text(value, "package_id"), severity(text(message, "level")) == "error"
            rows.append((package, grave, list(sure_fixes(message, files)), list(stale_files(message, files))))
    return rows, notes


def wanted(given, files, unwritable=(), broken=False):
    """Status, standard output and standard error, and the files after it."""
    rows, notes = given_by(given, files)
    unread, wrong = bool(notes), {package for package, grave, *_ in rows if grave}
    counting = [it for it in rows if broken or it[0] not in wrong]
    left = dict.fromkeys(it[0] or "what was compiled" for it in rows if it not in counting and it[2])
    stale = dict.fromkeys(name for it in counting for name in it[3])
    notes += [f"show: {it} has errors: not fixed (--broken-code fixes it)\n".encode() for it in left]
    notes += [f"show: {it}: isn't what was compiled\n".encode() for it in stale]
    gathered, said, after = {}, [], dict(files)
    for name, edits in (fix for it in counting for fix in it[2]):
        gathered.setdefault(name, []).append(edits)
    for name, lists in gathered.items():
        if name in unwritable or leads_out(name):
            notes.append(f"show: {name}: can't be written\n".encode())
            continue
        which, after[name] = taken(files[name], lists)
        said.append(f"fixed {name}: {sum(which)} of {len(which)} fixes\n".encode())
    status = 2 if stale or len(said) < len(gathered) else 3 if unread else 1 if wrong else 0
    return (status, b"".join(said), b"".join(notes)), after


# ---- runs


def files_in(folder):
    """The sources below a folder, by their names."""
    files = {}
    for path, _, names in os.walk(folder):
        for name in names:
            if name.endswith(".rs"):
                with open(os.path.join(path, name), "rb") as file:
                    files[os.path.relpath(os.path.join(path, name), folder)] = file.read()
    return files


def write(folder, files):
    for name, data in files.items():
        os.makedirs(os.path.dirname(os.path.join(folder, name)), exist_ok=True)
        with open(os.path.join(folder, name), "wb") as file:
            file.write(data)


def recorded(name):
    with open(os.path.join(FOLDER, f"{name}.jsonl"), "rb") as file:
        return file.read()


def tried(what, given, files, unwritable=(), prepare=None, **named):
    """Whether the program and the model agree over these files, in a folder that is prepared; it has no file more. Both
    are asked for what has errors too, and not."""
    return all([tried_so(what, given, files, unwritable, prepare, broken=it, **named) for it in (False, True)])


def tried_so(what, given, files, unwritable, prepare, broken, **named):
    with tempfile.TemporaryDirectory() as folder:
        write(folder, files)
        if prepare:
            prepare(folder)
        before = sorted(os.listdir(folder))
        want, after = wanted(given, files, unwritable, broken)
        words = ["show", "--root", folder, "--fix", *(["--broken-code"] if broken else [])]
        got = run(words, given, **named)
        found = files_in(folder)
        if got != want or found != after or sorted(os.listdir(folder)) != before:
            differ = [it for it in after if found.get(it) != after[it]]
            print(f"{what}, {words}: {got}, wanted {want}; files that differ: {differ}, there: {os.listdir(folder)}")
            return False
    return True


# ---- made by hand


def sure(name, data, row, column, length, new):
    """A row of rustc that proposes one edit, of which it is sure: at a row and a column from 1, in ASCII."""
    lines = data.split(b"\n")
    start = sum(len(it) + 1 for it in lines[: row - 1]) + column - 1
    rows = [{"text": lines[row - 1].decode()}]
    span = {"file_name": name, "byte_start": start, "byte_end": start + length, "column_start": column, "text": rows}
    edit = {**span, "suggested_replacement": new, "suggestion_applicability": "MachineApplicable"}
    return {"message": "m", "level": "warning", "children": [{"message": "h", "level": "help", "spans": [edit]}]}


def of_package(package, message):
    """A row of cargo."""
    return {"reason": "compiler-message", "package_id": package, "message": message}


def rows_of(*messages):
    return b"".join(json.dumps(it).encode() + b"\n" for it in messages)


def changed(message, **members):
    """A message whose proposal has other members."""
    child = message["children"][0]
    return {**message, "children": [{**child, "spans": [{**child["spans"][0], **members}]}]}


def together(*messages):
    """One proposal of the edits of several."""
    spans = [span for it in messages for span in it["children"][0]["spans"]]
    return {**messages[0], "children": [{**messages[0]["children"][0], "spans": spans}]}


TEXT = b"let a = (1);\nlet b = (2);\n"
FIRST, SECOND = sure("a.rs", TEXT, 1, 9, 3, "1"), sure("a.rs", TEXT, 2, 9, 3, "2")


def hand_made():
    """What is read, with the files."""
    files = {"a.rs": TEXT, "b.rs": TEXT}
    yield "two fixes", rows_of(FIRST, SECOND), files
    yield "in the other order", rows_of(SECOND, FIRST), files
    yield "of two files", rows_of(SECOND, sure("b.rs", TEXT, 1, 9, 3, "1"), FIRST), files
    yield "that overlap", rows_of(FIRST, sure("a.rs", TEXT, 1, 10, 2, "7;"), SECOND), files
    yield "in front of one another", rows_of(sure("a.rs", TEXT, 1, 9, 0, "x"), sure("a.rs", TEXT, 1, 9, 0, "y")), files
    seven, there = changed(FIRST, suggested_replacement="7"), sure("b.rs", TEXT, 1, 9, 3, "1")
    yield "of one proposal", rows_of(together(FIRST, SECOND)), files
    yield "of two notes", rows_of({**FIRST, "children": FIRST["children"] + SECOND["children"]}), files
    yield "of one proposal in two files", rows_of(together(there, FIRST, SECOND)), files
    yield "that are alternatives", rows_of(together(FIRST, seven), SECOND), files
    yield "that are alternatives in one of two files", rows_of(together(there, FIRST, seven), SECOND), files
    yield "in front of what is replaced", rows_of(together(sure("a.rs", TEXT, 1, 9, 0, "x"), FIRST), SECOND), files
    two = {**FIRST, "children": FIRST["children"] + seven["children"]}
    yield "that are alternatives of two notes", rows_of(two, SECOND), files
    for other in ("MaybeIncorrect", "HasPlaceholders", "Unspecified", "machineapplicable", 1, None):
        yield f"that are {other}", rows_of(changed(FIRST, suggestion_applicability=other), SECOND), files
    for key, it in [("text", []), ("text", 1), ("text", [{}]), ("column_start", 8), ("column_start", None)]:
        yield f"whose {key} is {it}", rows_of(changed(FIRST, **{key: it}), SECOND), files
    for key, it in [("byte_start", 2**64), ("byte_end", 2**63), ("byte_end", 0), ("byte_start", 22), ("file_name", "")]:
        yield f"whose {key} is {it}", rows_of(changed(FIRST, **{key: it}), SECOND), files
    yield "without a last LF", rows_of(sure("a.rs", TEXT[:-1], 2, 9, 3, "2")), {"a.rs": TEXT[:-1]}
    yield "after a lone CR", rows_of(sure("a.rs", b"(1)\r(2)\n", 1, 5, 3, "2")), {"a.rs": b"(1)\r(2)\n"}
    yield "of a file that isn't UTF-8", rows_of(FIRST), {"a.rs": b"let a = (1);\n\xff\xfe"}
    yield "of an empty file", rows_of(FIRST), {"a.rs": b""}
    spread = b"".join(json.dumps(it, indent=2).encode() + b"\n" for it in (FIRST, SECOND))
    yield "over several rows", spread, files
    yield "after a part that can't be read", b'{\n"a":\n}\n' + rows_of(FIRST) + b"{\r\n", files


def packages():
    """Rows of packages, of which some have errors."""
    files = {"a.rs": TEXT, "b.rs": TEXT}
    one, other = "path+file:///ws/one#0.1.0", "path+file:///ws/other#0.1.0"
    there, error = sure("b.rs", TEXT, 1, 9, 3, "1"), {"message": "m", "level": "error"}
    yield "an error behind", rows_of(of_package(one, FIRST), of_package(one, error)), files
    yield "an error in front", rows_of(of_package(one, error), of_package(one, FIRST), of_package(one, SECOND)), files
    yield "of another package", rows_of(of_package(one, FIRST), of_package(other, error)), files
    mixed = [of_package(one, FIRST), of_package(other, there), of_package(one, error), of_package(other, SECOND)]
    yield "of one of two packages", rows_of(*mixed), files
    yield "of both", rows_of(*mixed, of_package(other, error)), files
    own = {**FIRST, "level": "error"}
    yield "that is fixed itself", rows_of(of_package(one, own), of_package(other, SECOND)), files
    yield "of the compiler", rows_of({**FIRST, "level": "error: internal compiler error"}, SECOND), files
    yield "of a closing row", rows_of({**FIRST, "level": "failure-note"}, SECOND), files
    yield "of no package", rows_of(FIRST, error, of_package(one, there), of_package("", SECOND)), files
    yield "over a file that has changed", rows_of(of_package(one, FIRST), of_package(one, error)), {"a.rs": b"let\n"}
    yield "without fixes", rows_of(of_package(one, error), of_package(other, FIRST)), files
    yield "with rows of other kinds", rows_of({"reason": "compiler-artifact", "package_id": one}, *mixed), files


def stale():
    """Files that aren't what was compiled, beside others."""
    files = {"a.rs": TEXT, "b.rs": TEXT}
    gone = sure("c.rs", TEXT, 1, 9, 3, "1")
    yield "of a file that is gone", rows_of(FIRST, gone, gone, SECOND), files
    yield "of one edit of two", rows_of(together(FIRST, changed(SECOND, column_start=8)), SECOND), files
    yield "of two files that are gone", rows_of(sure("d.rs", TEXT, 1, 9, 3, "1"), gone, FIRST), files
    yield "of a file that has changed", rows_of(FIRST, SECOND), {**files, "a.rs": TEXT.replace(b"(2)", b"(3)")}
    yield "of alternatives", rows_of(together(FIRST, FIRST), gone), files
    unsure = changed(gone, suggestion_applicability="MaybeIncorrect")
    yield "of what isn't sure", rows_of(unsure, FIRST), files
    yield "of nothing", rows_of(changed(gone, suggested_replacement=None), FIRST), files


def led_out(folder):
    """Names that lead out of the folder, or through it, with what they may change there."""
    inner = os.path.join(folder, "inner")
    write(folder, {"a.rs": TEXT, "inner/a.rs": TEXT, "inner/src/a.rs": TEXT})
    for name in ["../a.rs", "src/../../a.rs", f"{folder}/a.rs", "src/../a.rs", "/../a.rs", "src/a..rs", "..a.rs"]:
        got = run(["show", "--root", inner, "--fix"], rows_of(sure(name, TEXT, 1, 9, 3, "1")))
        there = os.path.exists(os.path.join(inner, name))
        said = "can't be written" if there else "isn't what was compiled"
        yield got == (2, b"", f"show: {name}: {said}\n".encode())
    yield files_in(folder) == {"a.rs": TEXT, "inner/a.rs": TEXT, "inner/src/a.rs": TEXT}
    # one file by two names: what is written by the second one would undo the first
    both = rows_of(FIRST, sure("./a.rs", TEXT, 2, 9, 3, "2"))
    got = run(["show", "--fix"], both, cwd=folder)
    yield got == (2, b"fixed a.rs: 1 of 1 fixes\n", b"show: ./a.rs: can't be written\n")
    yield files_in(folder)["a.rs"] == b"let a = 1;\nlet b = (2);\n"


def led_through_links(folder):
    """Folders that are links: what lies behind them is read, and stays as it is."""
    inner = os.path.join(folder, "inner")
    write(folder, {"other/a.rs": TEXT, "inner/real/a.rs": TEXT})
    for name, target in [("vendor", "../other"), ("up", ".."), ("same", "real"), ("real/deep", "../../other")]:
        os.symlink(target, os.path.join(inner, name))
    for name in ["vendor/a.rs", "up/other/a.rs", "same/a.rs", "real/deep/a.rs", "./vendor/a.rs", "vendor//a.rs"]:
        got = run(["show", "--root", inner, "--fix"], rows_of(sure(name, TEXT, 1, 9, 3, "1")))
        yield got == (2, b"", f"show: {name}: can't be written\n".encode())
    yield files_in(folder) == {"other/a.rs": TEXT, "inner/real/a.rs": TEXT}
    # the folder itself may be one
    os.symlink("inner", os.path.join(folder, "link"))
    got = run(["show", "--root", os.path.join(folder, "link"), "--fix"], rows_of(sure("real/a.rs", TEXT, 1, 9, 3, "1")))
    yield got == (0, b"fixed real/a.rs: 1 of 1 fixes\n", b"")


def in_a_workspace(folder):
    """Names that cargo tells from its root, where `show` runs in a folder below it."""
    write(folder, {"ws/Cargo.lock": b"", "ws/crates/app/a.rs": TEXT, "ws/crates/app/src/b.rs": TEXT, "c.rs": TEXT})
    app, outside = os.path.join(folder, "ws/crates/app"), "isn't what was compiled"
    fixed = b"let a = 1;\nlet b = (2);\n"
    for name, path in [("crates/app/src/b.rs", "ws/crates/app/src/b.rs"), ("a.rs", "ws/crates/app/a.rs")]:
        got = run(["show", "--fix"], rows_of(sure(name, TEXT, 1, 9, 3, "1")), cwd=app)
        yield got == (0, f"fixed {name}: 1 of 1 fixes\n".encode(), b"") and files_in(folder)[path] == fixed
        write(folder, {path: TEXT})
    stays = [("c.rs", [], app), ("crates/app/a.rs", ["--root", "."], app), ("a.rs", [], os.path.join(app, "src"))]
    for name, words, where in [*stays, ("ws/crates/app/a.rs", [], app)]:
        got = run(["show", *words, "--fix"], rows_of(sure(name, TEXT, 1, 9, 3, "1")), cwd=where)
        yield got == (2, b"", f"show: {name}: {outside}\n".encode())
    # where the folder is cargo's root itself, none above it is looked at
    write(folder, {"ws/crates/app/Cargo.lock": b""})
    got = run(["show", "--fix"], rows_of(sure("crates/app/a.rs", TEXT, 1, 9, 3, "1")), cwd=app)
    yield got == (2, b"", f"show: crates/app/a.rs: {outside}\n".encode())
    yield all(it == TEXT for it in files_in(folder).values())


def of_the_system():
    """Files that tell no length aren't read: one has no end, and one waits."""
    for name in ["/proc/self/pagemap", "/proc/kmsg", "/proc/self/mem"]:
        if os.path.exists(name):
            got = run(["show", "--fix"], rows_of(sure(name, TEXT, 1, 9, 3, "1")), timeout=20)
            yield got == (2, b"", f"show: {name}: isn't what was compiled\n".encode())


def wrong_words(folder):
    """No folder, and `--broken-code` by itself."""
    write(folder, {"tmp/a.rs": TEXT})
    row = rows_of(sure(f"{folder[1:]}/tmp/a.rs", TEXT, 1, 9, 3, "1"))
    for words in [["--root", "", "--fix"], ["--root", ".", "--root", ""], ["--root", "", "--root", ".", "--brief"]]:
        yield is_usage(run(["show", *words], row))
    for words in [["--broken-code"], ["--broken-code", "--brief"], ["--fix", "--broken-code", "--brief"]]:
        yield is_usage(run(["show", *words], row))
    yield files_in(folder) == {"tmp/a.rs": TEXT}


def is_usage(got):
    return got[:2] == (2, b"") and got[2].startswith(b"usage: show ")


def at_once(folder):
    """Two runs over one file: what one of them says to be done is in the file, or the other says that it isn't."""
    lines = 4000
    data = b"let a = (1);\n" * lines
    path = os.path.join(folder, "a.rs")
    given = [rows_of(sure("a.rs", data, row, 9, 3, "1")) for row in (1, lines)]
    for _ in range(40):
        write(folder, {"a.rs": data})
        with ThreadPoolExecutor(2) as pool:
            told = list(pool.map(lambda it: run(["show", "--root", folder, "--fix"], it), given))
        rows = files_in(folder)["a.rs"].split(b"\n")
        there = [rows[row] == b"let a = 1;" for row in (0, lines - 1)]
        if there != [got[0] == 0 for got in told] or os.listdir(folder) != ["a.rs"]:
            print(f"two at once: {told}, {there}, {os.listdir(folder)}")
            return False
    return os.path.exists(path)


def stays_private(folder):
    """Of a file that its owner alone may read nobody else may read what is written beside it."""
    data = b"let a = (1);\n" * 3000000
    path, beside = os.path.join(folder, "a.rs"), os.path.join(folder, "a.rs.show-fix")
    write(folder, {"a.rs": data})
    os.chmod(path, 0o600)
    words, seen = command(["show", "--root", folder, "--fix"]), set()
    with subprocess.Popen(words, stdin=subprocess.PIPE, stdout=subprocess.DEVNULL, umask=0) as program:
        program.stdin.write(rows_of(sure("a.rs", data, 1, 9, 3, "1")))
        program.stdin.close()
        while program.poll() is None:
            try:
                seen.add(os.stat(beside).st_mode & 0o777)
            except FileNotFoundError:
                pass
    return seen <= {0o600} and program.returncode == 0


def linked(folder):
    os.rename(os.path.join(folder, "a.rs"), os.path.join(folder, "target"))
    os.symlink("target", os.path.join(folder, "a.rs"))


def little_room():
    """No file gets more than 20 bytes, as on a disk that is full."""
    signal.signal(signal.SIGXFSZ, signal.SIG_IGN)
    resource.setrlimit(resource.RLIMIT_FSIZE, (20, 20))


def unwritable():
    """Files that stay as they are: what is said of them, beside one that is written."""
    files, given = {"a.rs": TEXT, "b.rs": b"(1)\n"}, rows_of(FIRST, SECOND, sure("b.rs", b"(1)\n", 1, 1, 3, "1"))
    yield tried("a link", given, files, ["a.rs"], linked)
    yield tried("read-only", given, files, ["a.rs"], lambda it: os.chmod(os.path.join(it, "a.rs"), 0o444))
    yield tried("in the way", given, files, ["a.rs"], lambda it: write(it, {"a.rs.show-fix": b"mine"}))
    yield tried("a full disk", given, files, ["a.rs"], preexec_fn=little_room)
    if os.geteuid():
        yield tried("a folder", given, files, ["a.rs", "b.rs"], lambda it: os.chmod(it, 0o500))


def modes_kept():
    """A file's permissions are those of before."""
    with tempfile.TemporaryDirectory() as folder:
        write(folder, {"a.rs": TEXT})
        os.chmod(os.path.join(folder, "a.rs"), 0o751)
        got = run(["show", "--root", folder, "--fix"], rows_of(FIRST))
        return got[0] == 0 and os.stat(os.path.join(folder, "a.rs")).st_mode & 0o7777 == 0o751


def refused_growths():
    """With each growth refused the files are as before or as after, each whole, and nothing else is there."""
    files = {"a.rs": TEXT, "b.rs": TEXT}
    given = rows_of(FIRST, sure("b.rs", TEXT, 1, 9, 3, "1"), SECOND, {"message": "m", "spans": []})
    want, after = wanted(given, files)
    with tempfile.TemporaryDirectory(dir=built("show")) as folder:
        library, root = library_in(folder, "refuse"), os.path.join(folder, "root")
        write(root, files)
        for growth, got, was_refused in refusals(["show", "--root", root, "--fix"], given, library):
            found = files_in(root)
            is_well = got == want and found == after
            if was_refused and not is_well:
                is_well = got[0] == 2 and got[2] == b"show: out of memory\n" and want[1].startswith(got[1])
            is_whole = all(found.get(it) in (files[it], after[it]) for it in files)
            if not (is_well and is_whole and sorted(os.listdir(root)) == sorted(files)):
                print(f"growth {growth} refused: {got}, {found}")
                return False
            if not was_refused:
                return growth > 20
            write(root, files)
    return False


# ---- what rustc wrote


def inputs():
    """What is read, with the files."""
    files = files_in(FOLDER)
    for name in NAMES:
        given = recorded(name)
        yield f"{name} as recorded", given, files
        yield f"{name} twice", given + given, files
        yield f"{name} over files that are gone", given, {"util.rs": files["util.rs"]}
        yield f"{name} with a row in front of its file", given, {it: b"// new\n" + files[it] for it in files}
        yield f"{name} with another row", given, {it: files[it].replace(b"let ", b"let  ", 1) for it in files}
        yield f"{name} with CR LF", given, {it: files[it].replace(b"\n", b"\r\n") for it in files}
        yield f"{name} without its last bytes", given[: -len(given) // 7], files
    yield "nothing", b"", files
    yield "rows that can't be read", b'chatter\n{"message":5}\n{"\n', files


def beside_cargo():
    """A crate that cargo fixes in one round has the same files after `show --fix`."""
    if shutil.which("cargo") is None:
        print("skipped: a crate that cargo fixes, since there is no cargo")
        return []
    with tempfile.TemporaryDirectory() as folder:
        ours, its = os.path.join(folder, "ours"), os.path.join(folder, "its")
        for at in (ours, its):
            write(at, {"Cargo.toml": MANIFEST.encode(), "src/main.rs": BROKEN.encode(), "src/other.rs": OTHER.encode()})
        words = ["cargo", "check", "--offline", "--all-targets", "--message-format=json"]
        given = subprocess.run(words, cwd=ours, capture_output=True, check=False).stdout
        got = run(["show", "--fix"], given, cwd=ours)
        fix = ["cargo", "fix", "--offline", "--all-targets", "--allow-no-vcs", "--broken-code"]
        subprocess.run(fix, cwd=its, capture_output=True, check=False)
        mine, theirs = (files_in(os.path.join(at, "src")) for at in (ours, its))
        if mine != theirs:
            print(f"beside cargo fix: {got}, {mine}, {theirs}")
        return [mine == theirs and mine["main.rs"] != BROKEN.encode()]


def left_by_cargo():
    """A crate that doesn't compile stays as it is, here and there."""
    if shutil.which("cargo") is None:
        print("skipped: a crate that cargo leaves, since there is no cargo")
        return []
    with tempfile.TemporaryDirectory() as folder:
        write(folder, {"Cargo.toml": MANIFEST.encode(), "src/main.rs": WRONG.encode()})
        words = ["cargo", "check", "--offline", "--message-format=json"]
        given = subprocess.run(words, cwd=folder, capture_output=True, check=False).stdout
        got = run(["show", "--fix"], given, cwd=folder)
        mine = files_in(folder)
        fix = ["cargo", "fix", "--offline", "--allow-no-vcs"]
        subprocess.run(fix, cwd=folder, capture_output=True, check=False)
        if not mine == files_in(folder) == {"src/main.rs": WRONG.encode()}:
            print(f"beside cargo fix: {got}, {mine}, {files_in(folder)}")
        left = got[0] == 1 and got[2].endswith(b" has errors: not fixed (--broken-code fixes it)\n")
        return [left and mine == files_in(folder) == {"src/main.rs": WRONG.encode()}]


def in_folder(trial):
    """What a trial finds in a folder of its own."""
    with tempfile.TemporaryDirectory() as folder:
        found = trial(os.path.realpath(folder))
        return [found] if isinstance(found, bool) else list(found)


def main():
    tables = (*inputs(), *hand_made(), *packages(), *stale())
    done = [tried(*it) for it in tables] + [*unwritable(), modes_kept(), refused_growths(), *of_the_system()]
    for trial in (led_out, led_through_links, in_a_workspace, wrong_words, at_once, stays_private):
        done += in_folder(trial)
    done += beside_cargo() + left_by_cargo()
    return counted(sum(done), len(done) - sum(done))


if __name__ == "__main__":
    sys.exit(main())
