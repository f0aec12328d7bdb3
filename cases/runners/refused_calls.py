#!/usr/bin/env python3
"""refused_calls.py: runs the built program `calls` with each growth of memory refused in turn, until a run meets none.

`calls` makes every public call that can want memory, `calls report` renders worked reports by each handler. The run
that meets no refusal prints what is expected (calls_expected.py, calls_reports.py). Each other run ends with status 0,
and its rows are the same but for that of the call that was refused. That one says so, and what came back, or what the
text holds that was appended to, is what the call was given. The last line is 'N passed, M failed', one for each call
and each report by a handler, and the exit status is 0 only where nothing failed."""
import sys
import tempfile

from calls_expected import FAULTS, NOTHING, PRINTED, ROWS, faults, text
from calls_reports import REPORTS, WORDS, is_wanted
from programs import built, counted, each, library_in, refusals, run_refusing

# (with some, so that their texts want memory)
VARIABLES = {
    "LANG": "C.UTF-8",
    "TERM": "xterm",
    "TERM_PROGRAM": "none",
    "COLORTERM": "none",
    "COLUMNS": "80",
}
OUT_OF_MEMORY = (1, b"", b"calls: out of memory\n")
WORDS_READ = "the words of the program"
UNPRINTED = "a report could not be printed: out of memory\n"
BEFORE = "no memory before the call"
# what these hand back or append to is as before
KEEPING = (
    "render",
    "debug",
    "display",
    "fill",
    "append_all_or_nothing",
    "write_report",
    "print_to_writer",
    "print_with_outputs",
    "render_report",
)
HANDING = (
    "Report::wrap_err",
    "Report::context",
    "Report::with_diagnostic_cause",
    "Highlighter::highlight_line for PatternHighlighter",
)


# these meet no refusal of their own: what they make holds nothing yet, or what they are given here has room for it
NO_GROWTH = (
    "Runs::new",
    "Output::for_text",
    "Output::for_runs",
    "trim_leading_feeds",
    "trim_trailing_feeds",
    "printed_columns",
    "Edit::delete",
)


# a smaller growth serves these where one is refused, so that the next one is refused too
TWICE = ("MietteDiagnostic::with_labels_from",)


def keeps(name):
    """Whether a refusal of this call leaves what it was given."""
    last = name.split(" for ")[0].split("::")[-1]
    return ", " in name or name in HANDING or last in KEEPING


def answer(name):
    """What a refusal of a call gives that keeps nothing: where that is a report, its text and parts."""
    if name.startswith(("WrapErr::", "IntoDiagnostic::")) or name.split(" for ")[0] in ("miette!", "bail!", "ensure!"):
        return f"refused: memory allocation failed, {NOTHING}"
    return "refused"


def is_refusal(whole, got):
    """Whether a row is that of the same call, refused."""
    if got[-1] == BEFORE:
        return got[:-1] == whole[: len(got) - 1]
    same = 0
    while same < min(len(whole), len(got)) and whole[same] == got[same]:
        same += 1
    if same == 0 or same == len(got) or not got[same].startswith("refused"):
        return False
    if keeps(got[0]):
        kept = [got[same].removeprefix("refused: "), *got[same + 1 :]]
        return kept == (got[1:same] or ['""'])
    return got[same] == answer(got[0]) and got[same + 1 :] == whole[same + 1 :]


def rows_of(shown):
    return [row.split("\t") for row in shown.decode().split("\n")]


def unprinted(whole, got):
    """The call that prints a report, and was refused that or wasn't made, where all else is as in the whole run."""
    shown, told = got[1].decode(), got[2].decode()
    wanted, its_faults = whole[1].decode(), whole[2].decode()
    for name, row in PRINTED.items():
        whole_rows, fault = f"{name}\tprints:\n{row}{name}\tprinted\n", FAULTS.get(name, "")
        if whole_rows not in wanted:
            continue
        # each of the four has its own text on its own stream, so that these are the same only where the call is
        left = its_faults.replace(fault, "") if fault else its_faults
        unmade = (wanted.replace(whole_rows, f"{name}\t{BEFORE}\n"), left)
        silent = wanted.replace(whole_rows, f"{name}\tprints:\n{name}\tprinted\n")
        refusal = (silent, its_faults.replace(fault, UNPRINTED) if fault else UNPRINTED + its_faults)
        if (shown, told) in (unmade, refusal):
            return name
    return None


def refused(whole, got):
    """What answers its refusal in a run that else is the whole one, by its name; an empty name where a smaller growth
    served."""
    if got == whole:
        return ""
    if got == OUT_OF_MEMORY:
        return WORDS_READ
    wanted, rows = rows_of(whole[1]), rows_of(got[1])
    if got[0] != 0:
        return None
    if got[2] != whole[2] or len(wanted) != len(rows):
        return unprinted(whole, got)
    changed = [(a, b) for a, b in zip(wanted, rows) if a != b]
    return changed[0][0][0] if len(changed) == 1 and is_refusal(*changed[0]) else None


def fault_of(words, is_expected, library):
    """What the first refused growth gave that is answered in another way, if any; how many were refused and answered,
    and how many of these the call itself met."""
    argv = ["calls", *words]
    variables = {**VARIABLES, "REFUSED_MORE": "1" if words and words[0] in TWICE else "0"}
    whole, _ = run_refusing(0, argv, b"", library, variables)
    if whole[0] != 0 or not is_expected(whole[1].decode(), whole[2].decode()):
        return ("no growth refused", whole), 0, 0
    answered = own = 0
    for growth, got, was_refused in refusals(argv, b"", library, variables):
        if not was_refused:
            is_own = words[:1] in ([], ["report"]) or (own > 0) == (words[0] not in NO_GROWTH)
            return (None if got == whole and growth > 1 and is_own else ("a last run", got)), answered, own
        name = refused(whole, got)
        if name is None:
            return (f"growth {growth} refused", got), answered, own
        if name == WORDS_READ and answered:
            # the words are read before any call is made
            return (f"growth {growth} refused", got), answered, own
        answered += name not in ("", WORDS_READ)
        own += name not in ("", WORDS_READ) and BEFORE.encode() not in got[1]
    return ("no end", whole), answered, own


def of_call(name):
    """The words that make one call, and whether its rows are the expected ones."""
    return [name], lambda *shown: shown == (text([name]), faults([name]))


def of_report(name, handler):
    """The words that render one report by a handler, and whether its row is the expected one."""

    def is_expected(shown, told):
        first, *columns = shown.rstrip("\n").split("\t")
        return told == "" and first == f"{name}, {handler}" and is_wanted(REPORTS[name], handler, columns)

    return ["report", name, handler], is_expected


def main():
    calls = [([], lambda *shown: shown == (text(), faults())), *map(of_call, [*ROWS, *PRINTED])]
    reports = [of_report(name, handler) for name in REPORTS for handler in WORDS]
    with tempfile.TemporaryDirectory(dir=built("calls")) as folder:
        library = library_in(folder, "refuse")
        found = each(lambda it: fault_of(*it, library), [*calls, *reports])
    wrong = [(words, fault) for (words, _), (fault, *_) in zip([*calls, *reports], found) if fault]
    for words, fault in wrong:
        print(f"calls {words!r}: {fault!r}")
    counts = [count for _, count, _ in found]
    refused_by_calls, own = sum(counts[1 : len(calls)]), sum(it for _, _, it in found[1 : len(calls)])
    print(f"public calls: {len(calls) - 1}, growths refused: {refused_by_calls}, {own} of them by the calls themselves")
    print(f"growths refused in one run of all calls: {counts[0]}")
    print(f"worked reports by a handler: {len(reports)}, growths refused: {sum(counts[len(calls):])}")
    return counted(len(found) - len(wrong), len(wrong))


if __name__ == "__main__":
    sys.exit(main())
