"""fix_model.py: a model of the rules of fixes (docs/REFERENCE.md, 'Fixes'), made without the programs.

It applies edits to a source. fix_cases.py makes fixes by chance, and writes them as cases."""
from typing import NamedTuple


class Edit(NamedTuple):
    """A text in place of a span."""

    offset: int
    length: int
    text: bytes

    def end(self):
        return self.offset + self.length


def by_offset(edits):
    return sorted(edits, key=lambda it: (it.offset, it.length))


def refusal(data, edits):
    """Why edits can't be applied, where they can't."""
    if any(it.end() > len(data) for it in edits):
        return "OutOfBounds"
    order = by_offset(edits)
    return "Overlap" if any(b.offset < a.end() for a, b in zip(order, order[1:])) else None


def applied(data, edits):
    """The text after edits that fit."""
    text, at = b"", 0
    for it in by_offset(edits):
        text, at = text + data[at : it.offset] + it.text, it.end()
    return text + data[at:]


def taken(data, fixes):
    """Which of several fixes, each as its edits, are taken, and the text after them."""
    counted, found = [], []
    for edits in fixes:
        others = [it for before in counted for it in before]
        fits = refusal(data, edits) is None and not any(conflict(a, b) for a in edits for b in others)
        found.append(fits or edits in counted)
        counted += [edits] if fits else []
    return found, applied(data, [it for before in counted for it in before])


def conflict(a, b):
    first, second = by_offset([a, b])
    return a.offset == b.offset or second.offset < first.end()
