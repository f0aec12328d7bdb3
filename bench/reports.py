"""The reports of the workloads, as descriptions that `bench` reads."""
from texts import Numbers, escaped, lines, printed_errors, rows, sample, sentences, tabbed, words

KB, MB = 1 << 10, 1 << 20
ROW, LINE = 80, 40
NAME = "src/settings/table.rs"


def on(text, part, label, is_primary=False):
    """A label on the first place of a part of an ASCII text."""
    place = {"offset": text.index(part), "length": len(part)}
    return {**place, "label": label, "primary": is_primary}


def labelled(message, labels, text, name):
    """A report with these labels over a source."""
    return {"message": message, "labels": labels, "source": {"text": text, "name": name}}


def spans(places, length, text="label {}"):
    """Labels of one length at these places, numbered in their texts."""
    numbered = enumerate(places)
    return [{"offset": at, "length": length, "label": text.format(i)} for i, at in numbered]


def within(count, line, text):
    """`count` labels over twice as many lines of this length, each within the one before and begun
    a line below it."""
    found = spans(range(0, count * line, line), 0, text)
    for i, label in enumerate(found):
        label["length"] = 2 * (count - i) * line - 1
    return found


def small():
    """One label on three lines."""
    label = {"offset": 9, "length": 4, "label": "This bit here"}
    return labelled("oops!", [label], "source\n  text\n    here", "bad_file.rs")


def message_alone():
    """A message and nothing else."""
    return {"message": "could not open the file"}


def message_code_help():
    """A message with a code and a help."""
    message = "could not open the file `settings.toml`"
    return {"message": message, "code": "io::not_found", "help": "is the path right?"}


def shadowed(text):
    """The related report of the typical one."""
    return {
        "message": "the binding `text` shadows the parameter of the same name",
        "severity": "warning",
        "labels": [on(text, "let text = text.trim();", "shadowed here")],
        "help": "give the trimmed text a name of its own",
    }


def typical():
    """A compiler's error: three labels over 60 lines, help, two causes and a related report."""
    text = sample()
    match = text[text.index("    match text.parse") : text.index("}\n\npub fn read")].strip()
    arms = "the arms of this match have the type `Result<Value, Fault>`"
    wanted = "expected `String`, found `&str`"
    return {
        "message": f"mismatched types: {wanted} in this arm of the match",
        "code": "E0308",
        "url": "https://doc.rust-lang.org/error_codes/E0308.html",
        "help": "call `.to_string()` to make a `String` of the `&str`, or `.into()` where the type "
        "that is wanted is known from elsewhere",
        "severity": "error",
        "labels": [
            on(text, "Ok(Value::Text(text))", wanted, True),
            on(text, "Text(String)", "the variant holds a `String`"),
            on(text, match, arms),
        ],
        "source": {"text": text, "name": NAME, "language": "Rust"},
        "causes": [
            "the body of `value` could not be checked",
            "the crate `settings` could not be compiled",
        ],
        "related": [shadowed(text)],
    }


def ten_warnings():
    """Ten related warnings, each with a code, a help and a label, over one source."""
    names = [f"v{i}" for i in range(10)]
    related = [
        {
            "message": f"unused variable `{name}`",
            "severity": "warning",
            "code": "unused_variables",
            "help": f"if this is intentional, prefix it with an underscore: `_{name}`",
            "labels": [{"offset": 100 + 90 * i, "length": 8, "label": "unused"}],
        }
        for i, name in enumerate(names)
    ]
    return {"message": "ten warnings", "source": typical()["source"], "related": related}


def moved(report, places):
    """The report with each label's ends where they stand in another text."""
    for label in report.get("labels", []):
        start, end = label["offset"], label["offset"] + label["length"]
        label.update(offset=places[start], length=places[end] - places[start])
    for inner in report.get("related", []):
        moved(inner, places)
    return report


def typical_tabs():
    """The typical report over lines that begin with tabs."""
    report = typical()
    report["source"]["text"], places = tabbed(report["source"]["text"])
    return moved(report, places)


def typical_cjk():
    """Two labels over five lines of Chinese."""
    text = (
        "// 读取设置表并检查每一行\nfn 读取(文本: &str) -> 结果 {\n"
        "    // 这里返回值\n    返回(文本.修剪())\n}\n"
    )
    labels = []
    said = {"返回(文本": "这里期望 `String`", "结果": "返回类型在这里"}
    for part, label in said.items():
        place = len(text[: text.index(part)].encode())
        labels.append({"offset": place, "length": len(part.encode()), "label": label})
    return {
        "message": "类型不匹配：期望 `String`，找到 `&str`",
        "help": "调用 `.to_string()` 把 `&str` 变成 `String`",
        "labels": labels,
        "source": {"text": text, "name": "源.rs"},
    }


def big(megabytes):
    """One label near the end of a source of this many megabytes."""
    text = rows(3, megabytes * MB)
    labels = [{"offset": len(text) - 40 * ROW + 11, "length": 12, "label": "near the end"}]
    return labelled("a fault near the end of a big file", labels, text, "big.txt")


def spread(count, size):
    """`count` labels spread over a source of `size` bytes."""
    text = rows(4, size)
    held = len(text) // ROW
    places = (i * held // count * ROW + 7 for i in range(count))
    return labelled("many findings", spans(places, 9), text, "many.txt")


def two_files():
    """A type error whose two ends stand in two files of 60 lines."""
    text, wanted = sample(), "expected `String`, found `&str`"
    used = [on(text, "Ok(Value::Text(text))", wanted, True)]
    held = [on(text, "Text(String)", "the variant holds a `String`")]
    report = labelled(f"mismatched types: {wanted} in this arm of the match", used, text, NAME)
    declared = {"text": text, "name": "src/settings/value.rs"}
    return {**report, "code": "E0308", "snippets": [{"source": declared, "labels": held}]}


def over_sources(count, each, size):
    """`each` labels spread over each of `count` sources of `size` bytes."""
    held = size // ROW
    sections = []
    for i in range(count):
        places = (j * held // each * ROW + 7 for j in range(each))
        source = {"text": rows(20 + i, size), "name": f"src/part{i}.txt"}
        sections.append({"labels": spans(places, 9), "source": source})
    first, *further = sections
    return {"message": "many findings in many files", **first, "snippets": further}


def fixed(size, count, each):
    """`count` edits spread over `size` bytes, `each` of them in a fix: a word for another one."""
    held = size // ROW
    places = [i * held // count * ROW + 7 for i in range(count)]
    edits = [{"offset": at, "length": 9, "text": f"edit {i}"} for i, at in enumerate(places)]
    lists = [edits[i : i + each] for i in range(0, count, each)]
    sure = {"message": "other words", "applicability": "machine-applicable"}
    report = labelled("many edits", [], rows(4, size), "many.txt")
    return {**report, "fixes": [{**sure, "edits": it} for it in lists]}


def fixed_backwards(size, count):
    """`count` fixes of one edit each spread over `size` bytes, the last one first."""
    report = fixed(size, count, 1)
    return {**report, "fixes": report["fixes"][::-1]}


def one_fixed(size, row):
    """A fix of a word in one row of `size` bytes."""
    edit = {"offset": row * ROW + 7, "length": 9, "text": "another"}
    report = labelled("one edit", [], rows(4, size), "many.txt")
    return {**report, "fixes": [{"message": "another word", "edits": [edit]}]}


def near(count):
    """`count` labels on neighbouring lines in the middle of 1 MB."""
    places = ((5000 + i) * ROW + 7 for i in range(count))
    message = "many findings side by side"
    return labelled(message, spans(places, 9), rows(5, MB), "many.txt")


def long_line(kilobytes, is_head=False):
    """A label in the middle, or near the head, of a line of this many kilobytes of words."""
    text = words(Numbers(6), kilobytes * KB)
    place = 100 if is_head else len(text) // 2
    labels = [{"offset": place, "length": 10, "label": "on the line"}]
    return labelled("a fault on a long line", labels, text, "line.txt")


def accented_line(kilobytes):
    """A label in the middle of such a line, with one character outside ASCII before it."""
    text = words(Numbers(6), kilobytes * KB)
    place = len(text) // 4
    text = text[:place] + "\u00e9" + text[place + 1 :]
    labels = [{"offset": 2 * place + 1, "length": 10, "label": "on the line"}]
    return labelled("a fault on a long line", labels, text, "line.txt")


def one_line(count):
    """`count` labels on one line of words."""
    size = 10 * count
    labels = spans(range(2, size, 10), 5, "label number {}")
    text = words(Numbers(7), size)[:size] + "\n"
    return labelled("many labels on one line", labels, text, "one.txt")


def long_message(kilobytes):
    """A message of this many thousand bytes of words."""
    return {"message": words(Numbers(8), kilobytes * 1000)}


def chinese_message(kilobytes):
    """A message of this many thousand bytes of Chinese."""
    return {"message": sentences(9, kilobytes * 1000)}


def changed_message(kilobytes, change):
    """The same with its text changed."""
    return {"message": change(long_message(kilobytes)["message"])}


def escaped_message(kilobytes):
    """A message of this many kilobytes, of which each few bytes are escaped in JSON."""
    return {"message": escaped(9, kilobytes * KB)}


def finding(i, place):
    """A related report."""
    return {
        "message": f"finding {i} of the second pass",
        "severity": ("error", "warning", "advice")[i % 3],
        "labels": [{"offset": place, "length": 3, "label": f"here {i}"}],
        "help": "look again",
    }


def related(count):
    """`count` related reports over one source."""
    text = sample()
    starts = [0]
    for line in text.splitlines(keepends=True):
        starts.append(starts[-1] + len(line))
    found = [finding(i, starts[i % 60]) for i in range(count)]
    source = {"text": text, "name": NAME}
    return {"message": "many related reports", "source": source, "related": found}


def causes(depth, layer=0):
    """Causes so deep, each with a source and two labels."""
    text = sample()
    report = {
        "message": f"layer {layer} could not do what layer {layer - 1} asked for, "
        "since what it stands on answered a fault",
        "code": f"layer::{layer}",
        "help": f"look at what layer {layer + 1} says",
        "labels": [
            on(text, "value(part, line)?", "asked here", True),
            on(text, "Table::new()", "made here"),
        ],
        "source": {"text": text, "name": f"src/layer{layer}.rs"},
    }
    return {**report, "cause": causes(depth, layer + 1)} if layer < depth else report


def nested_related(depth, layer=0):
    """Related reports so deep in one another, each with a source and a label."""
    text = sample()
    message = f"layer {layer} could not do what layer {layer - 1} asked for"
    label = on(text, "Table::new()", "made here")
    report = labelled(message, [label], text, f"src/layer{layer}.rs")
    return {**report, "related": [nested_related(depth, layer + 1)]} if layer < depth else report


def blocks(count):
    """`count` labels over many lines, one within the other."""
    labels = within(count, ROW, "block {}")
    return labelled("blocks", labels, rows(10, 2 * count * ROW), "blocks.txt")


def findings(labels, text):
    """A report with these labels over a source, as the workloads of one size have it."""
    return labelled("findings", labels, text, "x.txt")


def span_of_lines(count):
    """One label over `count` lines."""
    text = lines(count)
    return findings([{"offset": 3, "length": len(text) - 10, "label": "all of it"}], text)


def same_span(count):
    """`count` labels over the same twenty lines."""
    return findings(spans([0] * count, 19 * LINE, "b{}"), lines(20))


def nested_labels(count):
    """`count` labels over many lines, each within the one before."""
    return findings(within(count, LINE, "b{}"), lines(2 * count))


def line_labels(count):
    """`count` labels with texts on one line."""
    size = 10 * count
    text = words(Numbers(7), size)[:size] + "\n"
    return findings(spans(range(2, size, 10), 5), text)


def line_of(unit, is_head=True):
    """A label near the head, or in the middle, of a line of 1 MB of the same characters."""
    size = len(unit.encode())
    count = MB // size
    place, said = (100, "head") if is_head else (count // 2, "mid")
    label = {"offset": place * size, "length": 3 * size, "label": said}
    return findings([label], unit * count)


def label_text():
    """A label with a text of 200 KB of words."""
    label = {"offset": 12, "length": 4, "label": words(Numbers(8), 200_000)[:200_000]}
    return findings([label], lines(5))


def long_help():
    """A help of 200 KB of words."""
    return {"message": "m", "help": words(Numbers(8), 200_000)[:200_000]}


def long_url():
    """A url of 200 KB."""
    return {"message": "m", "code": "c", "url": "http://x/" + "u" * 200_000}


def compiled():
    """A help that is what a compiler printed, in colours."""
    return {"message": "`rustc` failed", "help": printed_errors()}


def short_lines(count):
    """A message of `count` lines."""
    return {"message": "line of text\n" * count}


def help_lines():
    """A help of five lines, one of them empty."""
    tries = "try one of these:\n  - add `x` to the list\n  - remove `y`"
    return {"message": "m", "help": f"{tries}\n\nor see the manual"}


def message_lines():
    """A message of three lines."""
    return {"message": "expected one of:\n  `a`, `b`\nfound `c`"}


def text_causes():
    """Eight causes that are texts."""
    names = ("the service", "the listener", "the table", "the file", "the row", "the cell", "the number", "the digit")
    return {"message": "could not start", "causes": [f"could not read {it} that was asked for" for it in names]}


def compiler_error(count):
    """The typical report's labels far into a source of `count` lines."""
    report, text = typical(), sample()
    before = (text * (count // 60 + 1))[: len(text) * (count // 60 * 2 // 3)]
    for label in report["labels"]:
        label["offset"] += len(before)
    return {**report, "source": {**report["source"], "text": before + text * (count // 60 // 3)}, "related": []}


def table_row(count):
    """A label near the end of `count` rows of a table."""
    row = "{:05d},some name of a thing,12.50,2026-11-29,another longer column of text,yes\n"
    text = "".join(row.format(it) for it in range(count))
    return labelled("no such name", [{"offset": len(text) - 2000, "length": 9, "label": "here"}], text, "t.csv")


def early(megabytes, count=1):
    """`count` labels from the third line on of a source of this many megabytes."""
    labels = spans(((2 + i) * ROW + 7 for i in range(count)), 9, "here")
    return labelled("a fault at the beginning", labels, rows(4, megabytes * MB), "log.txt")


def apart(count):
    """`count` labels, eight lines between two."""
    line = "let value = compute(input, 12);\n"
    return findings(spans(range(0, 8 * len(line) * count, 8 * len(line)), 3, "x"), line * (8 * count))


def marked_line(count, end=""):
    """`count` labels without texts on one line of letters, with `end` after them."""
    places = range(5, 100 * count, 100)
    labels = [{"offset": at, "length": 3} for at in places]
    return findings(labels, "abcdefghij" * (10 * count) + end)


def accented_end(kilobytes):
    """A label near the head of a line of this many kilobytes of words, with an accent after them."""
    report = long_line(kilobytes, True)
    report["source"]["text"] += "é"
    return report


def controls(count):
    """A message of `count` control characters."""
    return {"message": "\x01" * count}
