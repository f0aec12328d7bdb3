"""calls_expected.py: what the program `calls` prints of each public call, written by hand from docs/REFERENCE.md.

A row has the call's name, what it is given and what it gives, with tabs between them. Values stand in their debug form;
runs of characters are written here as the text that prints them."""
import re

RED, CYAN, YELLOW = "\x1b[31m", "\x1b[36m", "\x1b[33m"
LINK = "\x1b[36;1;4m"
END = "\x1b[0m"
LINK_END = "\x1b]8;;\x1b\\"
COLOURS = {"31": "Red", "32": "Green"}
SEQUENCE = re.compile(r"\x1b\[([0-9;]*)m|\x1b\].*?\x1b\\")


def quoted(text, mark='"'):
    """A text or a character in its debug form."""
    plain = {"\n": "\\n", "\t": "\\t", "\\": "\\\\", mark: "\\" + mark, "\x1b": "\\u{1b}", "\ufe0f": "\\u{fe0f}"}
    return mark + "".join(plain.get(it, it) for it in text) + mark


def listed(values):
    return "[" + ", ".join(values) + "]"


def some(value):
    return f"Some({value})"


def struct(kind, **fields):
    return kind + " { " + ", ".join(f"{key}: {value}" for key, value in fields.items()) + " }"


def label(text, offset, length, lines="None"):
    span = struct("SourceSpan", offset=f"SourceOffset({offset})", length=length)
    label = some(quoted(text)) if text else "None"
    return struct("LabeledSpan", label=label, span=span, primary="false", context_lines=lines)


def edit(offset, length, text):
    span = struct("SourceSpan", offset=f"SourceOffset({offset})", length=length)
    return struct("Edit", span=span, text=quoted(text))


def fix(*edits):
    return struct("Fix", message=quoted("m"), applicability="Unspecified", edits=listed(edits))


def diagnostic(message="oops!", code="a::b", help="try", url="http://x", labels=None):
    parts = {key: some(quoted(value)) for key, value in (("code", code), ("help", help), ("url", url))}
    labels = some(listed(labels)) if labels else "None"
    rest = {"severity": "Some(Warning)", "help": parts["help"], "url": parts["url"], "labels": labels}
    return struct("MietteDiagnostic", message=quoted(message), code=parts["code"], **rest)


def style(colour=None, *switches):
    flags = {it: str(it in switches).lower() for it in ("bold", "dimmed", "italic", "underline")}
    return struct("Style", fg=some(colour) if colour else "None", **flags)


def runs(text):
    """The runs that print this text."""
    codes, tags, at = [], [], 0
    for found in SEQUENCE.finditer(text):
        codes += text[at : found.start()]
        at = found.end()
        signs = (found[1] or "").split(";")
        if found[1] is None:
            sign = f"Sequence({listed(quoted(it, chr(39)) for it in found[0])})"
        elif found[1] == "0":
            sign = "End"
        else:
            sign = f"Begin({style(COLOURS[signs[0]], *({'1': 'bold', '2': 'dimmed'}[it] for it in signs[1:]))})"
        tags.append(struct("Tag", at=len(codes), sign=sign))
    codes += text[at:]
    return struct("Runs", codes=listed(quoted(it, "'") for it in codes), tags=listed(tags))


def printed(text):
    return struct("Output", target=f"Printed({quoted(text)})")


def collected(text):
    return struct("Output", target=f"Collected({runs(text)})")


def contents(name=None, language=None):
    """All of the source, read with a line on both sides."""
    span = struct("SourceSpan", offset="SourceOffset(0)", length=22)
    fields = {"bytes": str(list(b"source\n  text\n    here")), "span": span}
    named = {"name": name, "language": language}
    named = {key: some(quoted(it)) if it else "None" for key, it in named.items()}
    return f"Ok({struct('MietteSpanContents', **fields, line=0, column=0, line_count=2, **named)})"


def named_source(language):
    return struct("NamedSource", name=quoted("bad_file.rs"), source=quoted("<redacted>"), language=language)


def delimiters(opens, closes, escape="None", over_lines="false"):
    return struct("Delimiters", opens=quoted(opens), closes=quoted(closes), escape=escape, over_lines=over_lines)


def by_rule(left_open):
    """The highlighter of one rule."""
    return struct("PatternHighlighter", rules=listed([RULE]), left_open=left_open)


def pieces(*parts):
    """Pieces of a line: texts that are plain, and texts with their styles."""
    styled = ((it, style()) if isinstance(it, str) else it for it in parts)
    return listed(f"({len(text.encode())}, {its_style})" for text, its_style in styled)


FIELDS = (
    "hbar vbar xbar vbar_break uarrow rarrow ltop mtop rtop lbot rbot mbot lbox rbox lcross rcross underbar underline"
)


def characters(drawn, icons):
    shown = dict(zip(FIELDS.split(), (quoted(it, "'") for it in drawn)))
    return struct("ThemeCharacters", **shown, **dict(zip(("error", "warning", "advice"), map(quoted, icons))))


def styles(error, warning, advice, link, linum, highlights):
    rest = {"help": advice, "link": link, "linum": linum, "highlights": listed(highlights)}
    return struct("ThemeStyles", error=error, warning=warning, advice=advice, **rest)


def theme(its_characters, its_styles):
    return struct("GraphicalTheme", characters=its_characters, styles=its_styles)


BOXES = "─│┼·▲▶╭┬╮╰╯┴[]├┤┬─"
UNICODE = characters(BOXES, ("×", "⚠", "☞"))
EMOJI = characters(BOXES, ("\U0001f4a5", "⚠\ufe0f", "\U0001f4a1"))
ASCII = characters("-|+:^>,v.`'^[]|||^", ("x", "!", ">"))
ANSI = styles(
    style("Red"),
    style("Yellow"),
    style("Cyan"),
    style("Cyan", "bold", "underline"),
    style(None, "dimmed"),
    (style(it, "bold") for it in ("Magenta", "Yellow", "Green")),
)
RGB = styles(
    style("Rgb(255, 30, 30)"),
    style("Rgb(244, 191, 117)"),
    style("Rgb(106, 159, 181)"),
    style("Rgb(92, 157, 255)", "bold", "underline"),
    style(None, "dimmed"),
    (style(f"Rgb({it})") for it in ("246, 87, 248", "30, 201, 212", "145, 246, 111")),
)
PLAIN = styles(*[style()] * 5, [style()])
TERMINAL = struct(
    "Terminal",
    width="Some(40)",
    color="Some(true)",
    unicode="true",
    hyperlinks="true",
    stdout_terminal="true",
    stderr_terminal="true",
    no_graphics="None",
    no_color=some(quoted("1")),
)

HERE = label("This bit here", 9, 4)
FULL = diagnostic(labels=[HERE])


def parts(code="None", severity="None", help="None", url="None", labels="None"):
    """The parts of a report after its message and causes."""
    return f"code {code}, severity {severity}, help {help}, url {url}, labels {labels}"


def over(offset):
    """Labels over a further source: one, of one byte, without a text."""
    return ", over another " + listed([label("", offset, 1)])


def attached(sections=(), fixes=(), message="oops!", code="None"):
    """A report's message and code, its labels over further sources, and its fixes."""
    return f"{message}, code {code}{''.join(sections)}, fixes {listed(fixes)}"


THERE = parts('Some("a::b")', "Some(Warning)", 'Some("try")', 'Some("http://x")', f"Some([{HERE}])")
NOTHING = parts()
OOPS = f"oops!: b: c, {THERE}"
IN_FRONT = f"in front: {OOPS}"
SEVEN = f"7 is too much, {NOTHING}"
BOUNDS = f"The given offset is outside the bounds of its Source, {NOTHING}"

DRAWN = (
    f"\x1b]8;;http://x\x1b\\\x1b[33ma::b {END}\x1b[36;1;4m(link){END}{LINK_END}\n\n  \x1b[33m⚠{END} oops!\n"
    f"\x1b[33m  ├─▶ {END}b\n\x1b[33m  ╰─▶ {END}c\n   ╭─[\x1b[36;1;4mbad_file.rs:2:3{END}]\n \x1b[2m1{END} │ source\n"
    f" \x1b[2m2{END} │   text\n   ·   \x1b[35;1m──┬─{END}\n   ·     \x1b[35;1m╰── This bit here{END}\n"
    f" \x1b[2m3{END} │     here\n   ╰────\n{CYAN}  help: {END}try\n"
)
TOLD = "oops!\n    Diagnostic severity: warning\n    Caused by: b\n    Caused by: c\n"
SNIPPET = (
    "Begin snippet for bad_file.rs starting at line 1, column 1\n\nsnippet line 1: source\nsnippet line 2:   text\n"
    "    label at line 2, columns 3 to 6: This bit here\nsnippet line 3:     here\n"
)
FOOT = "diagnostic help: try\ndiagnostic code: a::b\nFor more details, see:\nhttp://x\n"
PLACE = "bad_file.rs:2:3: "
LISTED = (
    f"{PLACE}warning[a::b]: oops!\n{PLACE}note: This bit here\n{PLACE}note: caused by: b\n"
    f"{PLACE}note: caused by: c\n{PLACE}help: try\n"
)
SPELLED = (
    '{"message": "oops!","code": "a::b","severity": "warning","causes": ["b","c"],"url": "http://x","help": "try",'
    '"filename": "bad_file.rs","labels": [{"label": "This bit here","span": {"offset": 9,"length": 4}}],"related": []}'
)
SHOWN = (
    f'Diagnostic {{ message: "oops!", code: "a::b", severity: "Warning", url: "http://x", help: "try", '
    f'labels: {quoted(listed([HERE]))}, caused by: "b" }}\n'
)

RULE = struct("Rule", pattern=f"Between({delimiters('/*', '*/', some(92), 'true')})", style=style(None, "dimmed"))
LET_IN = f"Words({listed(map(quoted, ('let', 'in')))})"
GREEN, COMMENT = style("Green"), style(None, "dimmed")

LINKED = "\x1b]8;;u\x1b\\here" + LINK_END
WORDS = f"a {RED}red{END} word-and-another, abcdefghijklmnop\n{LINKED} 漢\n"
FILLED = f"* a {RED}red{END}\n| word-and-\n| another,\n| abcdefghij\n| klmnop\n| {LINKED} 漢\n| "
FEEDS = f"\n{RED}\nred{END}\n"


def appended(text):
    """What an appending call is given and leaves."""
    return [quoted("> "), quoted("> " + text)]


def pushed(text):
    """What empty runs are, and with this in them."""
    return [runs(""), runs(text)]


def put(text):
    """What an output that prints and one that collects hold then."""
    return [printed(text), collected(text)]


# what stands after the name of each call
ROWS = {
    "LabeledSpan::at": [HERE],
    "LabeledSpan::at_offset": [label("here", 9, 0)],
    "LabeledSpan::clone": [label("This bit here", 9, 4, "Some(2)")] * 3,
    "MietteDiagnostic::new": [
        struct("MietteDiagnostic", message='"oops!"', **dict.fromkeys("code severity help url labels".split(), "None"))
    ],
    "MietteDiagnostic::copied": [FULL, FULL],
    "MietteDiagnostic::with_code": [FULL, diagnostic(code="c::d", labels=[HERE])],
    "MietteDiagnostic::with_help": [FULL, diagnostic(help="try again", labels=[HERE])],
    "MietteDiagnostic::with_url": [FULL, diagnostic(url="http://y", labels=[HERE])],
    "MietteDiagnostic::with_label": [FULL, diagnostic(labels=[label("and this", 0, 6)])],
    "MietteDiagnostic::with_labels_from": [FULL, diagnostic(labels=[label("", 4, 0), label("", 7, 0)])],
    "MietteDiagnostic::and_label": [FULL, diagnostic(labels=[HERE, label("and this", 0, 6)])],
    "MietteDiagnostic::and_labels": [FULL, diagnostic(labels=[HERE, label("first", 0, 6), label("second", 18, 4)])],
    "MietteDiagnostic::clone": [FULL] * 3,
    "diagnostic!": [diagnostic("7 is too much")],
    "IndexedSource::new": [contents()],
    "NamedSource::new": [contents("bad_file.rs")],
    "NamedSource::with_language": [named_source("None"), contents("bad_file.rs", "rust")],
    "NamedSource::clone": [named_source('Some("rust")'), *[contents("bad_file.rs", "rust")] * 2],
    "OwnedSource::new": [contents()],
    "OwnedSource::unindexed": [contents()],
    "OwnedSource::named": [contents("bad_file.rs", "rust")],
    "OwnedSource::named_unindexed": [contents("bad_file.rs", "rust")],
    "ThemeCharacters::unicode": [UNICODE],
    "ThemeCharacters::emoji": [EMOJI],
    "ThemeCharacters::ascii": [ASCII],
    "ThemeCharacters::clone": [EMOJI] * 3,
    "ThemeStyles::rgb": [RGB],
    "ThemeStyles::ansi": [ANSI],
    "ThemeStyles::none": [PLAIN],
    "ThemeStyles::clone": [RGB] * 3,
    "GraphicalTheme::ascii": [theme(ASCII, ANSI)],
    "GraphicalTheme::unicode": [theme(UNICODE, ANSI)],
    "GraphicalTheme::unicode_nocolor": [theme(UNICODE, PLAIN)],
    "GraphicalTheme::none": [theme(ASCII, PLAIN)],
    "GraphicalTheme::for_terminal": [TERMINAL, theme(UNICODE, PLAIN)],
    "GraphicalTheme::clone": [theme(UNICODE, ANSI)] * 3,
    "Highlighter::highlight_line for BlankHighlighter": [f"[(10, {style()})]"],
    "Highlighter::highlight_line for Box": [f"[(10, {style()})]"],
    "style_each_char": [pieces("a", ("1", style("Cyan")))],
    "Delimiters::new": [delimiters("/*", "*/")],
    "Delimiters::clone": [delimiters("/*", "*/")] * 3,
    "Pattern::words": [LET_IN],
    "Pattern::clone": [LET_IN] * 3,
    "Rule::clone": [RULE] * 3,
    "PatternHighlighter::json": [
        quoted('{"a": [1, true]}'),
        pieces("{", ('"a"', GREEN), ":", " ", "[", ("1", style("Cyan")), ",", " ", ("true", style("Yellow")), "]", "}"),
    ],
    "PatternHighlighter::toml": [
        quoted("a = 'x' # c"),
        pieces("a", " ", "=", " ", ("'x'", GREEN), " ", ("# c", COMMENT)),
    ],
    "PatternHighlighter::rust": [
        quoted('let s = "x"; // c'),
        pieces(("let", style("Magenta")), " ", "s", " ", "=", " ", ('"x"', GREEN), ";", " ", ("// c", COMMENT)),
    ],
    "PatternHighlighter::clone": [by_rule("None")] * 3,
    "Highlighter::highlight_line for PatternHighlighter": [
        by_rule("None"),
        pieces("a", " ", ("/*b", COMMENT)),
        by_rule(some(struct("OpenPart", rule=0, hashes=0))),
    ],
    "Report::copied": [FULL, f"oops!, {THERE}"],
    "Report::msg": [f"oops!, {NOTHING}"],
    "Report::from_err": [BOUNDS],
    "Report::with_diagnostic_cause": [f"oops!, {THERE}", OOPS, f"oops!: {OOPS}"],
    "Report::wrap_err": [OOPS, IN_FRONT],
    "Report::context": [OOPS, IN_FRONT],
    "WrapErr::wrap_err for Option": [f"nothing is there, {NOTHING}"],
    "WrapErr::context for Option": [f"nothing is there, {NOTHING}"],
    "WrapErr::wrap_err_with for Option": [f"item 7 is missing, {NOTHING}"],
    "WrapErr::with_context for Option": [f"item 7 is missing, {NOTHING}"],
    "WrapErr::wrap_err for Result": [OOPS, IN_FRONT],
    "WrapErr::context for Result": [OOPS, IN_FRONT],
    "WrapErr::wrap_err_with for Result": [OOPS, f"7 {IN_FRONT}"],
    "WrapErr::with_context for Result": [OOPS, f"7 {IN_FRONT}"],
    "IntoDiagnostic::into_diagnostic for Result": [BOUNDS],
    "miette!": ["7 is too much, " + parts('Some("a::b")', help='Some("try")')],
    "bail!": [SEVEN],
    "ensure!": [SEVEN],
    "Report::with_snippets": [attached([over(0)])],
    "Report::with_owned_snippets": [attached([over(0), over(1)])],
    "Report::with_all_snippets": [attached([over(2)])],
    "Report::with_fix": [attached(fixes=[fix(), fix(edit(4, 0, ":"))])],
    "Report::with_fixes": [attached(fixes=[fix(edit(4, 0, ":"))])],
    "miette! for a report with fixes": [
        attached([over(1)], [fix(edit(4, 0, ":"))], "7 is too much", some(quoted("a::b")))
    ],
    "fill": appended(FILLED),
    "wrap": [collected(""), collected(FILLED)],
    "push_if_fits": [collected(""), collected("* word-and-\u6f22")],
    "trim_leading_feeds": [runs(FEEDS), runs(f"{RED}red{END}\n")],
    "trim_trailing_feeds": [runs(FEEDS), runs(f"\n{RED}\nred{END}")],
    "read": [runs(WORDS)],
    "parse_text": [runs(WORDS)],
    "print": [runs(FEEDS), quoted(FEEDS)],
    "printed_columns": [runs(FEEDS), "3"],
    "append_all_or_nothing": appended("a text that is longer than what is there"),
    "Runs::new": [runs("")],
    "Runs::push": pushed("x"),
    "Runs::push_chars": pushed("xy"),
    "Runs::push_str": pushed("xyz"),
    "Runs::begin": pushed("\x1b[31;1m"),
    "Runs::end": pushed(END),
    "Runs::push_run": pushed(f"{RED}xyz{END}"),
    "Runs::push_run_chars": pushed(f"\x1b[31;2mxy{END}"),
    "Runs::push_link": pushed("\x1b]8;;http://x\x1b\\"),
    "Runs::push_link_end": pushed(LINK_END),
    "Runs::append": pushed(f"\x1b[32mb{END}c"),
    "Output::for_text": [printed("")],
    "Output::for_runs": [collected("")],
    "Output::reserve": put(""),
    "Output::push": put("x"),
    "Output::push_chars": put("xy"),
    "Output::push_str": put("xyz"),
    "Output::begin": put(RED),
    "Output::end": put(END),
    "Output::push_run": put(f"{RED}xyz{END}"),
    "Output::push_link": put("\x1b]8;;http://x\x1b\\"),
    "Output::push_link_end": put(LINK_END),
    "Output::into_text": [quoted(f"{RED}xyz{END}")] * 2,
    "Output::into_runs": [runs(f"{RED}xyz{END}")] * 2,
    "GraphicalReportHandler::new": [TERMINAL, quoted("  × one two three four five\n")],
    "GraphicalReportHandler::render_report": appended(DRAWN),
    "ReportHandler::debug for GraphicalReportHandler": appended(DRAWN),
    "NarratableReportHandler::render_report": appended(TOLD + SNIPPET + FOOT),
    "NarratableReportHandler::render": appended(TOLD + SNIPPET + FOOT),
    "NarratableReportHandler::clone": [
        struct("NarratableReportHandler", cause_chain="true", context_lines=1, footer=some(quoted("bye")))
    ]
    * 3,
    "ReportHandler::debug for NarratableReportHandler": appended(TOLD + SNIPPET + FOOT),
    "BriefReportHandler::render_report": appended(LISTED),
    "BriefReportHandler::render": appended(LISTED),
    "ReportHandler::debug for BriefReportHandler": appended(LISTED),
    "JSONReportHandler::render_report": appended(SPELLED),
    "ReportHandler::debug for JSONReportHandler": appended(SPELLED),
    "DebugReportHandler::render_report": appended(SHOWN),
    "ReportHandler::debug for DebugReportHandler": appended(SHOWN),
    "ReportHandler::display": appended("oops!: b: c"),
    "MietteHandlerOpts::build": [TERMINAL, quoted(f"  {RED}×{END} one two three\n  {RED}│{END} four five\n")],
    "MietteHandler::new": [TERMINAL, quoted(f"  {RED}×{END} one two three four five\n")],
    "ReportHandler::debug for MietteHandler": appended(DRAWN),
    "Edit::delete": [edit(0, 1, "")],
    "Edit::clone": [edit(4, 0, ":")] * 3,
    "Fix::new": [fix()],
    "Fix::with_edit": [fix(edit(4, 0, ":"))],
    "Fix::with_edits_from": [fix(edit(4, 0, ":"), edit(0, 1, ""))],
    "Fix::apply": [listed(str(it) for it in b"f x:")],
    "apply_all": [struct("Applied", text=listed(str(it) for it in b"f x:"), taken="[true]")],
    "Variables::read": [quoted("read")],
    "detect_terminal": [quoted("detected")],
    "write_report": [quoted(TOLD + FOOT)],
    "print_to_writer": [quoted(TOLD + FOOT)],
    "print_with_outputs": [quoted(TOLD + FOOT)],
}
# what these print stands in a row between two of theirs, or on standard error
PICTURE = "  × oops!\n"
IN_RED = f"  {RED}×{END} oops!\n"
PRINTED = {"print_report": PICTURE, "print_report_with": IN_RED, "eprint_report": "", "eprint_report_with": ""}
FAULTS = {"eprint_report": PICTURE, "eprint_report_with": IN_RED}


def text(names=None):
    """The rows of these calls, or of all."""
    names = [*ROWS, *PRINTED] if names is None else names
    printed = {name: f"{name}\tprints:\n{row}{name}\tprinted" for name, row in PRINTED.items()}
    return "".join(("\t".join([name, *ROWS[name]]) if name in ROWS else printed[name]) + "\n" for name in names)


def faults(names=None):
    """What these calls, or all, print on standard error."""
    return "".join(FAULTS[name] for name in FAULTS if names is None or name in names)
