"""server_model.py: a model of `lint --lsp` (crates/miette_language_server/CALLING.md), made without the program:
what it writes for each message that it reads, and the status that it ends with."""
import json

from lint_model import findings, mended
from model import TERMINATOR

CODES = {"trailing": "trailing-blanks", "tab": "tab-after-space", "wider": "wide-line", "no": "final-terminator"}
TITLES = {
    "trailing-blanks": "delete trailing blanks",
    "tab-after-space": "indent by spaces",
    "final-terminator": "end the last line",
}
REASONS = {
    -32700: "the message is no JSON",
    -32002: "the server is not initialized",
    -32600: "this request is not one for now",
    -32601: "the server knows no such request",
}
CAPABILITIES = {
    "capabilities": {
        "codeActionProvider": {"codeActionKinds": ["quickfix"]},
        "positionEncoding": "utf-16",
        "textDocumentSync": {"change": 1, "openClose": True, "save": True},
    },
    "serverInfo": {"name": "lint"},
}


def units(text):
    """The units of UTF-16 of some bytes that are UTF-8."""
    return len(text.decode().encode("utf-16-le")) // 2


def line_starts(data):
    return [0, *(it.end() for it in TERMINATOR.finditer(data))]


def position(data, offset):
    """The position of an offset at a character's boundary within a line's text."""
    starts = [it for it in line_starts(data) if it <= offset]
    return {"line": len(starts) - 1, "character": units(data[starts[-1] : offset])}


def offset_of(data, place):
    """The offset of a position, moved back to the nearest one that there is."""
    starts = line_starts(data)
    if place["line"] >= len(starts):
        return len(data)
    start = starts[place["line"]]
    found = TERMINATOR.search(data, start)
    at, left = start, place["character"]
    for character in data[start : found.start() if found else len(data)].decode():
        left -= len(character.encode("utf-16-le")) // 2
        if left < 0:
            break
        at += len(character.encode())
    return at


def span(data, offset, length):
    return {"start": position(data, offset), "end": position(data, offset + length)}


def text_edits(data, edits):
    return [{"range": span(data, it.offset, it.length), "newText": it.text.decode()} for it in edits]


def coded(data, width):
    """The findings of a text, each with its code, its range and its edits."""
    for it in findings(data, width):
        yield CODES[it.text.split()[0]], it, span(data, it.offset, it.length)


def diagnostic(uri, data, code, it, where, edits):
    told = {"range": where, "severity": 2, "code": code, "source": "lint", "message": it.text}
    if edits:
        fix = {"title": TITLES[code], "applicability": "machine-applicable", "uri": uri}
        told["data"] = {"fixes": [{**fix, "edits": text_edits(data, edits)}]}
    return told


def told(uri, data, width):
    """The diagnostics of a text, each with the edits that mend it."""
    for code, it, where in coded(data, width):
        edits = kept(code, it, data)
        yield diagnostic(uri, data, code, it, where, edits), edits


def kept(code, it, data):
    """A line that is all blank is mended at its end alone."""
    if code != "tab-after-space":
        return it.edits
    end = TERMINATOR.search(data, it.offset)
    line = data[it.edits[0].offset : end.start() if end else len(data)]
    return it.edits if line.strip(b" \t") else []


def before(a, b):
    return (a["line"], a["character"]) <= (b["line"], b["character"])


def actions(uri, data, width, where):
    found = list(told(uri, data, width))
    made = []
    for it, edits in found:
        if edits and before(it["range"]["start"], where["end"]) and before(where["start"], it["range"]["end"]):
            changes = {"changes": {uri: text_edits(data, edits)}}
            made.append(
                {
                    "title": TITLES[it["code"]],
                    "kind": "quickfix",
                    "diagnostics": [it],
                    "isPreferred": True,
                    "edit": changes,
                }
            )
    if made:
        every = sorted((edit for _, edits in found for edit in edits), key=lambda it: (it.offset, it.length))
        title = f"fix {mended(data, width)}"
        changes = {"changes": {uri: text_edits(data, every)}}
        made.append({"title": title, "kind": "quickfix", "edit": changes})
    return made


def at(value, *path):
    for key in path:
        value = value.get(key) if isinstance(value, dict) else None
    return value


def a_count(value):
    return isinstance(value, int) and not isinstance(value, bool) and 0 <= value < 2**64


def range_of(value):
    """A range, where it is one."""
    if all(a_count(at(value, end, part)) for end in ("start", "end") for part in ("line", "character")):
        return value
    return None


def depth(value):
    """How deep lists and objects nest."""
    inner = value.values() if isinstance(value, dict) else value if isinstance(value, list) else None
    return 0 if inner is None else 1 + max(map(depth, inner), default=0)


def number_of(text):
    """An integer of 64 bits, with a sign or without; any other is a fraction."""
    value = int(text)
    return float(text) if text == "-0" or not -(2**63) <= value < 2**64 else value


def message_of(body):
    """The value that a body is. Lone surrogates, numbers that no float holds, and more than 127 levels are refused."""
    value = json.loads(body.decode(), parse_int=number_of)
    json.dumps(value, ensure_ascii=False, allow_nan=False).encode()
    if depth(value) > 127:
        raise ValueError("too deep")
    return value


class Server:
    """A session."""

    def __init__(self, width):
        self.width, self.phase, self.documents = width, "waiting", {}

    def publish(self, uri, version, data):
        params = {"uri": uri, "diagnostics": [it for it, _ in told(uri, data, self.width)] if data is not None else []}
        if version is not None:
            params["version"] = version
        return {"jsonrpc": "2.0", "method": "textDocument/publishDiagnostics", "params": params}

    def request(self, name, ident, params):
        def refused(code):
            return {"jsonrpc": "2.0", "id": ident, "error": {"code": code, "message": REASONS[code]}}

        def answer(result):
            return {"jsonrpc": "2.0", "id": ident, "result": result}

        if self.phase == "waiting":
            if name != "initialize":
                return refused(-32002)
            self.phase = "running"
            return answer(CAPABILITIES)
        if self.phase == "stopping" or name == "initialize":
            return refused(-32600)
        if name == "shutdown":
            self.phase = "stopping"
            return answer(None)
        if name == "textDocument/codeAction":
            uri, where = at(params, "textDocument", "uri"), range_of(at(params, "range"))
            if not isinstance(uri, str) or uri not in self.documents or where is None:
                return answer([])
            return answer(actions(uri, self.documents[uri][1], self.width, where))
        return refused(-32601)

    def notice(self, name, params):
        document = at(params, "textDocument")
        uri, version = at(document, "uri"), at(document, "version")
        is_version = isinstance(version, int) and not isinstance(version, bool) and version < 2**63
        version = version if is_version else None
        if self.phase != "running" or not isinstance(uri, str):
            return None
        if name == "textDocument/didOpen" and isinstance(at(document, "text"), str):
            self.documents[uri] = version, document["text"].encode()
        elif name == "textDocument/didClose":
            self.documents.pop(uri, None)
            return self.publish(uri, None, None)
        elif name == "textDocument/didChange" and uri in self.documents:
            data = self.documents[uri][1]
            changes = at(params, "contentChanges")
            for change in changes if isinstance(changes, list) else []:
                if isinstance(at(change, "text"), str):
                    data = changed(data, change)
            self.documents[uri] = version, data
        elif name != "textDocument/didSave" or uri not in self.documents:
            return None
        return self.publish(uri, *self.documents[uri])

    def step(self, body):
        """What is written for a body, if anything is, and the status, if the server ends."""
        try:
            message = message_of(body)
        except (ValueError, RecursionError):
            error = {"code": -32700, "message": REASONS[-32700]}
            return {"jsonrpc": "2.0", "id": None, "error": error}, None
        name, ident, params = at(message, "method"), at(message, "id"), at(message, "params")
        if not isinstance(name, str):
            return None, None
        if isinstance(ident, (str, int)) and not isinstance(ident, bool):
            return self.request(name, ident, params), None
        if name == "exit":
            return None, 0 if self.phase == "stopping" else 1
        return self.notice(name, params), None


def changed(data, change):
    where, text = range_of(change.get("range")), change["text"].encode()
    if where is None:
        return text
    start = offset_of(data, where["start"])
    end = max(start, offset_of(data, where["end"]))
    return data[:start] + text + data[end:]


def frame(body):
    return b"Content-Length: %d\r\n\r\n%s" % (len(body), body)


def served(bodies, width):
    """The messages that are written for these bodies, and the status."""
    server, written = Server(width), []
    for body in bodies:
        message, status = server.step(body)
        if message is not None:
            written.append(message)
        if status is not None:
            return written, status
    return written, 2
