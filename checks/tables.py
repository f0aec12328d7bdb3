"""Tables of Markdown, as the scripts of this folder print them."""


def cell(value):
    return f"{value:,}" if isinstance(value, int) else str(value)


def row(values, widths):
    """A row; the first cell begins at the left, the others end at the right."""
    cells = [cell(it) for it in values]
    padded = [it.ljust(width) if k == 0 else it.rjust(width) for k, (it, width) in enumerate(zip(cells, widths))]
    return f"| {' | '.join(padded)} |"


def begin(names, widths):
    """The two lines above the rows."""
    rule = [f"{'-' * (width + 2)}" if k == 0 else f"{'-' * (width + 1)}:" for k, width in enumerate(widths)]
    return f"{row(names, widths)}\n|{'|'.join(rule)}|"


def table(names, rows):
    """A whole table, whose columns are as wide as their widest cell."""
    widths = [max(len(cell(it[k])) for it in [names, *rows]) for k in range(len(names))]
    return "\n".join([begin(names, widths), *[row(it, widths) for it in rows]])
