#!/usr/bin/env python3
"""lsp_cases.py: writes the cases of what editors take (job-lsp.jsonl) to standard output.

The reports are drawn as those of SARIF logs are (sarif_cases.py), from other seeds, with how sure each fix is, and with
the list that the rules ask for (lsp_model.py). What a line holds: run.py."""
import json
import random

from lsp_model import spelled_list
from sarif_cases import COUNT, report_of

SURE = [None, "machine-applicable", "maybe-incorrect", "has-placeholders", "unspecified"]
# the tool's name, and the words that say it
TOOLS = [
    ("job", ["--lsp"]),
    ("job", ["--lsp"]),
    ("job", ["--lsp"]),
    ("my lint", ["--lsp", "--tool", "my lint"]),
    ('é"{}', ["--tool", 'é"{}', "--lsp"]),
]


def made_sure(dice, report):
    """Gives the fixes of a report, and of those below it, how sure they are."""
    for fix in report.get("fixes") or []:
        sure = dice.choice(SURE)
        if sure:
            fix["applicability"] = sure
    below = report.get("related") or []
    for other in below + ([report["cause"]] if report.get("cause") else []):
        made_sure(dice, other)


def case(number):
    dice = random.Random(10_000 + number)
    report = report_of(dice, None, 3)
    made_sure(dice, report)
    tool, words = TOOLS[number % 5]
    wanted = {"what": "what editors take", "argv": ["job", *words], "report": report}
    return {**wanted, "stdout_text": spelled_list([report], tool), "status": 0, "stderr": ""}


if __name__ == "__main__":
    for number in range(COUNT):
        print(json.dumps(case(number), ensure_ascii=False))
