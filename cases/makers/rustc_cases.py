"""rustc_cases.py: rows of rustc and cargo beside those of `rustc/`, which show.py runs the program `show` on: spans in
macros of other crates, rustc's words at its end, and proposals over files that aren't there."""
import itertools
import json
import os
import random

APP, LIBRARY = "crates/app/src/main.rs", "crates/core_lib/src/lib.rs"
# what cargo says of a package: of one whose files are there, of others, and of none
MANIFESTS = [f"/ws/{it}Cargo.toml" for it in ("crates/app/", "crates/core_lib/", "my-crates/app/", "crates/", "")]
MANIFESTS += ["crates/app/Cargo.toml", "/Cargo.toml", "Cargo.toml", "/ws/crates/app/", "/ws/x.rs", 5, None]
MACROS = ["add!", "#[derive(Copy)]", "#[attr]", "add", None]
COUNTS = ["aborting due to 1 previous error", "1 warning emitted", "2 warnings emitted"]
COUNTS += ["1 warning emitted.", "warning emitted", "aborting due to"]
WRITTEN = ["y", "", "a\nb", "a\n", "`", "it.clone()", "漢"]


def row_of(message):
    return json.dumps(message).encode() + b"\n"


def span(name, start=0, end=3, **more):
    place = {"file_name": name, "byte_start": start, "byte_end": end, "line_start": 1, "column_start": start + 1}
    return {**place, "is_primary": True, "label": "here", **more}


def message(spans, children=(), **more):
    said = {"message": "m", "level": "error", "code": None, **more}
    return {"$message_type": "diagnostic", **said, "spans": spans, "children": list(children)}


def in_macros(dice, names):
    """A span in the first of these files, in a macro that was called in the next one, and so on."""
    at = None
    for name in reversed(names):
        start = dice.choice([0, 5, 40])
        around = {} if at is None else {"expansion": {"macro_decl_name": dice.choice(MACROS), "span": at}}
        at = span(name, start, start + 3, **around)
    return at


def macros(folder, count):
    """Messages at places in macros that are called in other files, as cargo hands them on and as rustc writes them."""
    dice = random.Random(11)
    absolute = [os.path.join(folder, name) for name in ("util.rs", "mine.rs", "gone.rs")]
    names = [*absolute, "multi.rs", "util.rs", "gone.rs", APP, APP, LIBRARY, "/rustc/5980/library/core/src/ops.rs"]
    for _ in range(count):
        around = [dice.choices(names, k=dice.choice([1, 2, 2, 3])) for _ in range(dice.choice([1, 1, 2]))]
        spans = [in_macros(dice, it) for it in around]
        note = {"message": "n", "level": dice.choice(["note", "help"]), "spans": spans[:1], "children": []}
        told = message(spans, dice.choice([[], [], [note]]))
        manifest = dice.choice(MANIFESTS)
        yield row_of(dice.choice([told, {"reason": "compiler-message", "manifest_path": manifest, "message": told}]))


def closing():
    """Rustc's words at its end, and messages that are near them."""
    note = {"message": "n", "level": "note", "spans": [], "children": []}
    beside = [{}, {"code": {"code": "E0308"}}, {"spans": [span("mine.rs")]}, {"children": [note]}, {"spans": [5]}]
    for said, more in itertools.product(COUNTS, beside):
        yield row_of({**message([]), "message": said, **more})
    for said, level in itertools.product(["m", 5, COUNTS[0]], ["failure-note", "note", "error", 5]):
        yield row_of(message([], message=said, level=level))
    yield row_of(message([span("mine.rs")], level="failure-note", code={"code": "E0308"}))


def lost():
    """Proposals of one edit and of more, some of them over a file that isn't there."""
    for count in (1, 2, 3):
        for texts in itertools.product(WRITTEN, repeat=count) if count < 3 else [WRITTEN[:3], WRITTEN[-3:]]:
            names = ["gone.rs"] * (count - 1) + ["mine.rs" if len(texts[0]) > 2 else "gone.rs"]
            edits = [span(*it, suggested_replacement=new, label=None) for it, new in zip(zip(names, range(3)), texts)]
            yield row_of(message([], [{"message": "try", "level": "help", "spans": edits, "children": []}]))


def inputs(sources, folder):
    """What is read, with the folder of its files: those of the recorded rows, or those of another folder."""
    with open(os.path.join(sources, "workspace.jsonl"), "rb") as file:
        workspace = file.read()
    for root in (sources, folder):
        yield "a workspace, as recorded", workspace, root
        yield "macros of other crates", b"".join(macros(folder, 300)), root
        yield "rustc's words at its end", b"".join(closing()), root
        yield "proposals that are lost", b"".join(lost()), root
