#!/usr/bin/env python3
"""server.py: runs the built program `lint --lsp` as editors do.

- Sessions that are drawn by chance from a fixed seed: documents that are opened, changed as a whole and in part, saved
  and closed, quick fixes, unknown messages, messages out of order, bodies that are no JSON. What is written and the
  status are those of a model that was made without the program (server_model.py), message for message.
- Frames that are broken: without a length, with one that lies, cut off anywhere.
- Bodies of many bytes, and lengths that no body has: how much memory that takes.
- A writer and a reader that fail, and each growth of memory refused in turn: what was written before is whole frames.
- Changes of a document of 1 MB, 60 a second: each is answered; the time of each, by the processor's clock.
- Debian's `nvim` without a screen, where it is there: it opens a file, is told what is found, and applies the quick fix
  of all of it; its text is then what `lint --fix` prints.

The last line is 'N passed, M failed', and the exit status is 0 only where nothing failed."""
import json
import os
import random
import re
import shutil
import subprocess
import sys
import tempfile
import threading
import time

from programs import built, judged, library_in, program, refusals, run, run_refusing
from server_model import frame, served

SESSIONS = 400
CHANGES, ROUND, A_SECOND = 120, 10, 60
# how much processor time a change of 1 MB may take, and how much memory a body that isn't there, in bytes
MOST_SECONDS, MOST_MEMORY = 0.05, 64_000_000
PIECES = ["a", "be", " ", "\t", "  \t", "é", "漢字", "😀", "e\u0301", "\n", "\r\n", "\r", "\ufeff", "=1;", " \n", "x" * 30]
URIS = ["file:///a.rs", "file:///b%20c.rs", "untitled:1"]
LEFT = re.compile(rb"Content-Length: (\d+)\r\n\r\n")


def text_of(dice, most):
    return "".join(dice.choice(PIECES) for _ in range(dice.randint(0, most)))


def place(dice):
    return {"line": dice.choice([0, 0, 1, 2, 3, 9, 2**40]), "character": dice.choice([0, 1, 2, 3, 5, 8, 99])}


def range_value(dice):
    made = {"start": place(dice), "end": place(dice)}
    if dice.random() < 0.05:
        made["start"]["line"] = dice.choice([-1, 1.5, "0", None])
    return made


def change(dice):
    made = {"text": text_of(dice, 12)}
    if dice.random() < 0.6:
        made["range"] = range_value(dice)
    if dice.random() < 0.05:
        del made["text"]
    return made


def params_of(dice, name):
    document = {"uri": dice.choice(URIS), "version": dice.choice([1, 2, -3, 2**40, -(2**63), 2**63])}
    params = {"textDocument": document}
    if name == "textDocument/didOpen":
        document["text"] = text_of(dice, 40)
    if name == "textDocument/didChange":
        params["contentChanges"] = [change(dice) for _ in range(dice.randint(0, 3))]
    if name == "textDocument/codeAction":
        params["range"] = range_value(dice)
    if dice.random() < 0.04:
        document.pop(dice.choice(list(document)))
    return params


NOTICES = ["textDocument/didOpen"] * 3 + ["textDocument/didChange"] * 6 + ["textDocument/didSave", "textDocument/didClose"]
STRANGE = ["$/cancelRequest", "initialized", "workspace/didChangeConfiguration", "textDocument/hover"]
# bodies that are no JSON: lone surrogates, numbers that no float holds, and too many levels among them
BAD = [b"", b"{", b"\xff", b"[1,]", b'{"a":1}x', b"nul", b'"\\ud800"', b"[" * 200 + b"]" * 200, b"1e999", b"\xef\xbb\xbf{}"]
BAD += [b'{"method":"exit","params":"\\udc00\\ud83d"}', b'{"method":"exit","params":[-1e999]}', b'{"method":"exit",}']
BAD += [b'{"method":"exit","id":01}', b'{"method":"exit"\x00}', b'{"method":"exit","x":"\n"}', b"[" * 128 + b"]" * 128]
# bodies that are, but no messages, or odd ones
ODD = [b"[]", b"5", b"null", b"{}", b'"exit"', b'{"id":1,"result":null}', b'{"method":5,"id":2}', b"[" * 127 + b"]" * 127]
ODD += [b'{"method":"shut","method":"x","id":-0}', b'{"id":"\\ud83d\\ude00\\u0000","method":"\\u0065xit"}', b" {} \n"]


def body(dice, number):
    """A body: most are messages that a server knows."""
    chance = dice.random()
    if chance < 0.03:
        return dice.choice(BAD)
    if chance < 0.06:
        return dice.choice(ODD)
    if chance < 0.12:
        name = dice.choice(STRANGE + NOTICES)
        idents = [number, str(number), 1.5, None, [], -number, 2**64 - 1, 2**64, -(2**63), -(2**63) - 1]
        ident = {"id": dice.choice(idents)} if dice.random() < 0.5 else {}
        return message(name, {}, ident)
    if chance < 0.3:
        name = dice.choice(["textDocument/codeAction"] * 8 + ["initialize", "shutdown"])
        return message(name, params_of(dice, name), {"id": dice.choice([number, str(number)])})
    if chance < 0.31:
        return message("exit", None, {})
    name = dice.choice(NOTICES)
    return message(name, params_of(dice, name), {})


def message(name, params, ident):
    told = {"jsonrpc": "2.0", "method": name, **ident, "params": params}
    return json.dumps(told, ensure_ascii=len(name) % 2 == 0).encode()


def session(seed):
    """The bodies of a session, and how many columns a line may have."""
    dice = random.Random(seed)
    made = [] if dice.random() < 0.1 else [message("initialize", {}, {"id": 0}), message("initialized", {}, {})]
    made += [body(dice, number) for number in range(1, dice.choice([5, 20, 60]))]
    if dice.random() < 0.8:
        made += [message("shutdown", None, {"id": "end"}), message("exit", None, {})]
    return made, dice.choice([0, 5, 20, 80])


def read_back(data):
    """The messages in frames, and whether nothing else is there."""
    messages = []
    while data:
        found = LEFT.match(data)
        if not found:
            return messages, False
        end = found.end() + int(found[1])
        messages.append(json.loads(data[found.end() : end].decode()))
        data = data[end:]
    return messages, True


def tried(bodies, width, given=None):
    """Whether a session is as the model has it, and what it was."""
    given = b"".join(frame(it) for it in bodies) if given is None else given
    status, output, faults = run(["lint", "--lsp", str(width)], given)
    messages, is_whole = read_back(output)
    wanted = (*served(bodies, width), True, b"")
    found = messages, status, is_whole, faults
    return found == wanted, (wanted, found)


def sessions():
    for seed in range(SESSIONS):
        bodies, width = session(seed)
        yield f"session {seed}", *tried(bodies, width)


HELLO = message("initialize", {}, {"id": 0})
BROKEN = [
    b"\r\n\r\n",
    b"Content-Type: x\r\n\r\n{}",
    b"Content-Length: -1\r\n\r\n",
    b"Content-Length: \r\n\r\n",
    b"Content-Length: 1x\r\n\r\n{}",
    b"Content-Length: 18446744073709551616\r\n\r\n{}",
    b"Content-Length: 18446744073709551615\r\n\r\n{}",
    b"Content-Length: 99\r\n\r\n{}",
    b"Content-Length 2\r\n\r\n{}",
    b"\n",
    b"\xff" * 4000,
]
WELL = [
    b"Content-Length: %d\r\nContent-Type: application/vscode-jsonrpc; charset=utf-8\r\n\r\n" % len(HELLO),
    b"content-length:%d  \r\n\r\n" % len(HELLO),
    b"X: 1\r\nCONTENT-LENGTH: 3\r\nContent-Length: 00%d\n\n" % len(HELLO),
]


def frames():
    for number, it in enumerate(BROKEN):
        yield f"broken frame {number}", *tried([HELLO], 80, frame(HELLO) + it)
    for number, it in enumerate(WELL):
        yield f"frame {number}", *tried([HELLO], 80, it + HELLO)
    whole = frame(HELLO) + frame(message("shutdown", None, {"id": 1}))
    for cut in range(len(whole)):
        yield f"cut at {cut}", *tried([HELLO] if cut >= len(frame(HELLO)) else [], 80, whole[:cut])


def devices():
    """A writer and a reader that fail."""
    words = [program("lint"), "--lsp", "80"]
    with open("/dev/full", "wb") as full:
        done = subprocess.run(words, input=frame(HELLO), stdout=full, stderr=subprocess.PIPE, timeout=60, check=False)
    found = done.returncode, done.stderr
    yield "a writer that fails", found == (2, b"lint: write fault\n"), found
    reader = os.open("/", os.O_RDONLY)
    done = subprocess.run(words, stdin=reader, capture_output=True, timeout=60, check=False)
    os.close(reader)
    found = done.returncode, done.stdout, done.stderr
    yield "a reader that fails", found == (2, b"", b"lint: read fault\n"), found


def growths():
    """Each growth of memory refused in turn."""
    document = {"uri": "file:///a", "version": 1, "text": "a \n"}
    ranged = {"start": {"line": 0, "character": 0}, "end": {"line": 0, "character": 2}}
    params = {"textDocument": document, "contentChanges": [{"text": " \tb", "range": ranged}], "range": ranged}
    names = ("didOpen", "didChange", "codeAction")
    bodies = [message(f"textDocument/{it}", params, {"id": 1} if it == "codeAction" else {}) for it in names]
    given = b"".join(map(frame, [HELLO, *bodies, message("shutdown", None, {"id": 2}), message("exit", None, {})]))
    words = ["lint", "--lsp", "20"]
    with tempfile.TemporaryDirectory(dir=built("lint")) as folder:
        library = library_in(folder, "refuse")
        whole, _ = run_refusing(0, words, given, library)
        for growth, got, was_refused in refusals(words, given, library):
            is_begun = whole[1].startswith(got[1]) and read_back(got[1])[1]
            is_answered = was_refused and is_begun and (got[0], got[2]) == (2, b"lint: out of memory\n")
            yield f"growth {growth} refused", got == whole or is_answered, got


def most_memory(given):
    """The status of a server, and how much memory it takes at most."""
    code = (
        "import resource, subprocess, sys; done = subprocess.run(sys.argv[1:], stdin=sys.stdin, stdout=subprocess.DEVNULL);"
        "print(done.returncode, resource.getrusage(resource.RUSAGE_CHILDREN).ru_maxrss * 1024)"
    )
    done = subprocess.run(
        [sys.executable, "-c", code, program("lint"), "--lsp", "80"], input=given, capture_output=True, timeout=300
    )
    return tuple(map(int, done.stdout.split()))


def sizes():
    for length in (10**8, 10**15):
        status, memory = most_memory(b"Content-Length: %d\r\n\r\n{}" % length)
        yield f"a length of {length} that lies", status == 2 and memory < MOST_MEMORY, (status, memory)
    big = 10**8
    for name, it in (("blanks", b" " * big), ("brackets", b"[" * big), ("a text", b'"' + b"a" * big + b'"')):
        status, memory = most_memory(frame(it) + frame(message("exit", None, {})))
        yield f"100 MB of {name}", status == 1 and memory < 6 * big, (status, memory)


def seconds_of(pid):
    """The processor time that a process has taken."""
    with open(f"/proc/{pid}/stat", encoding="ascii") as told:
        fields = told.read().rsplit(")", 1)[1].split()
    return (int(fields[11]) + int(fields[12])) / os.sysconf("SC_CLK_TCK")


def read_frame(stream):
    size = 0
    while (line := stream.readline().strip()) != b"":
        size = int(line.split(b":")[1])
    return stream.read(size)


def type_on(say, text):
    """Tells `A_SECOND` changes of a document a second, whatever has been answered."""
    begun = time.monotonic()
    for version in range(1, CHANGES + 1):
        document = {"uri": "file:///a", "version": version}
        now = {"text": f"x{version} \n" + text}
        say("textDocument/didChange", {"textDocument": document, "contentChanges": [now]})
        time.sleep(max(0, begun + version / A_SECOND - time.monotonic()))


def changes():
    """Changes of a document of 1 MB, each told as a whole: each one's diagnostics come with its version."""
    line = "    let value = combine(first, second);  // as it was\n"
    text = line * (1_000_000 // len(line))
    with subprocess.Popen(
        [program("lint"), "--lsp", "100"], stdin=subprocess.PIPE, stdout=subprocess.PIPE
    ) as server:

        def say(name, params, ident=None):
            server.stdin.write(frame(message(name, params, ident or {})))
            server.stdin.flush()

        say("initialize", {}, {"id": 0})
        read_frame(server.stdout)
        say("textDocument/didOpen", {"textDocument": {"uri": "file:///a", "version": 0, "text": text}})
        read_frame(server.stdout)
        times, versions = [seconds_of(server.pid)], []
        typing = threading.Thread(target=type_on, args=(say, text), daemon=True)
        typing.start()
        for version in range(1, CHANGES + 1):
            told = json.loads(read_frame(server.stdout))["params"]
            versions.append((told["version"], len(told["diagnostics"])))
            if version % ROUND == 0:
                times.append(seconds_of(server.pid))
        # beside other work a processor is slower, so the quickest round counts
        taken = min(after - before for before, after in zip(times, times[1:])) / ROUND
        typing.join()
        say("shutdown", None, {"id": 1})
        read_frame(server.stdout)
        say("exit", None)
        server.stdin.close()
        status = server.wait(60)
    wanted = [(version, 1) for version in range(1, CHANGES + 1)]
    print(f"a change of 1 MB takes {1000 * taken:.1f} ms of a processor")
    yield "changes of 1 MB", (versions, status) == (wanted, 0) and taken < MOST_SECONDS, (taken, status, versions[:3])


EDITOR = """
local id = vim.lsp.start_client({ cmd = { vim.env.LINT, '--lsp', '20' }, root_dir = '.' })
vim.lsp.buf_attach_client(0, id)
local function told() return #vim.diagnostic.get(0) end
assert(vim.wait(20000, function() return told() > 0 end), 'no findings')
local found = {}
for _, it in ipairs(vim.diagnostic.get(0)) do
  table.insert(found, string.format('%d:%d %s %s', it.lnum, it.col, it.code, it.message))
end
local last = vim.api.nvim_buf_line_count(0) - 1
local params = {
  textDocument = vim.lsp.util.make_text_document_params(),
  range = { start = { line = 0, character = 0 }, ['end'] = { line = last + 1, character = 0 } },
  context = { diagnostics = {} },
}
local answer = vim.lsp.buf_request_sync(0, 'textDocument/codeAction', params, 20000)
local actions = answer[id].result
local joint = actions[#actions]
table.insert(found, joint.title)
vim.lsp.util.apply_workspace_edit(joint.edit, 'utf-16')
vim.fn.writefile(found, vim.env.FOUND)
vim.cmd('set binary noeol | write! ' .. vim.env.FIXED)
vim.lsp.stop_client(id)
vim.cmd('qall!')
"""
SOURCE = "fn a() \t\n  \tlet 😀 = 1;  \n    漢字 this is a long line\nend"


def editor():
    """A real client."""
    found = shutil.which("nvim")
    if not found:
        print("skipped: the trial with an editor, since there is no nvim")
        return
    with tempfile.TemporaryDirectory(dir=built("lint")) as folder:
        paths = {name: os.path.join(folder, name) for name in ("a.txt", "found", "fixed", "script.lua")}
        for name, text in (("a.txt", SOURCE), ("script.lua", EDITOR)):
            with open(paths[name], "w", encoding="utf-8", newline="") as file:
                file.write(text)
        told = {**os.environ, "LINT": program("lint"), "FOUND": paths["found"], "FIXED": paths["fixed"], "HOME": folder}
        words = ["-u", "NONE", "--headless", "-n", "-c", f"luafile {paths['script.lua']}", "-c", "cquit"]
        done = subprocess.run([found, *words, paths["a.txt"]], env=told, capture_output=True, timeout=120, check=False)
        got = []
        for name in ("found", "fixed"):
            try:
                with open(paths[name], "rb") as file:
                    got.append(file.read())
            except OSError:
                got.append(None)
    _, fixed, _ = run(["lint", "--fix", "a.txt", "20"], SOURCE.encode())
    rows = got[0].decode().splitlines() if got[0] else []
    is_well = got[1] is not None and got[1].rstrip(b"\n") == fixed.rstrip(b"\n") and rows[-1:] == ["fix 4 of 5 findings"]
    yield "nvim", is_well, (rows, got[1], fixed, done.stderr[-2000:])


def cases():
    for part in (sessions, frames, devices, growths, sizes, changes, editor):
        yield from part()


if __name__ == "__main__":
    sys.exit(judged(cases()))
