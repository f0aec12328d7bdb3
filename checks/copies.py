"""Texts as the command `duplicates` is to read them: what it knows no form of is written as the Rust that says the same.

It passes over blank lines, comments, imports and lone brackets, and takes no arm of a `match`, variant or field for a
statement. So that it judges specifications and proofs, and contracts, by the same rules:

- a function's head is one line, however it is laid out, and so is the signature of a specification or of a lemma
- an equation on one line is an arm, and a field of a record is a field of a struct
- what only gives a name is passed over, as an import is: a `ghost use`, the line that names the goal of an answer, and a
  `let` that names a path, as `let old = c.args.painter.now in`
- a line of one word is passed over, as a variant or an element of a list

Each line stays where it is, so that what `duplicates` says of the copies is true of the texts.
"""
import os
import re

from sources import end_of_head, functions, without_comments

SIGNATURE = re.compile(r"^( *)(?:abbrev |unfoldable )?(?:pub )?(\S+) :(?= |$)")
FIELD = re.compile(r"^( *)(\S+) = ([^=;]*);$")
# a pattern in brackets, or a name
ARGUMENT = r"\((?:[^()]|\((?:[^()]|\([^()]*\))*\))*\)|[^\s()={},;]+"
EQUATION = re.compile(rf"^( *)([^\s:({{]+)((?: (?:{ARGUMENT}))+) = (\S.*[^\s{{(\[.=])$")
# a goal's name, a path's, and one word
NAMES = (
    re.compile(r"^ *(?:abbrev )?(?:pub )?(\S+) : goal\.\1$"),
    re.compile(r"^ *let \S+ = [^\s()λ,]+ in$"),
    re.compile(r"^ *[\w:]+,?$"),
)
# Haskell's comments are those of specifications
ENDINGS = {".rt": ".rs", ".antt": ".hs", ".py": ".py", ".c": ".c", "": ".py"}


def with_short_heads(text):
    """Each function's head on one line."""
    for it in reversed(functions(text)):
        end = end_of_head(text, it).start()
        head = " ".join(without_comments(text[it.start : end]).split())
        text = text[: it.start] + it.indent + head + "\n" * text.count("\n", it.start, end) + text[end:]
    return text


def with_short_signatures(lines):
    """Each signature on one line."""
    at = 0
    while at < len(lines):
        found, end = SIGNATURE.match(lines[at]), at + 1
        while found and end < len(lines) and lines[end].startswith(found[1] + " ") and lines[end].strip():
            end += 1
        yield " ".join(" ".join(lines[at:end]).split()) if found else lines[at]
        yield from [""] * (end - at - 1)
        at = end


def with_arms(lines):
    """Equations on one line as arms of a `match`."""
    for line, after in zip(lines, [*lines[1:], ""]):
        found = EQUATION.match(line)
        if not found or line.lstrip().startswith(("let ", "use ", "--")) or after.startswith(found[1] + " "):
            yield line
        else:
            arguments = ", ".join(re.findall(ARGUMENT, found[3]))
            yield f"{found[1]}{found[2]}({arguments}) => {found[4]},"


def with_fields(lines):
    """The fields of records as those of a struct."""
    is_in = False
    for line in lines:
        is_in = is_in and not line.lstrip().startswith("}")
        yield FIELD.sub(r"\1\2: \3,", line) if is_in else line
        is_in = is_in or line.endswith("record {")


def without_names(lines):
    """Blank lines for those that only give a name, and for those of one word."""
    return ["" if any(it.match(line) for it in NAMES) else line for line in lines]


def copied(path, text):
    """The path and the text of a copy."""
    base, ending = os.path.splitext(path)
    text = text.replace("ghost use ", "use ")
    if ending == ".rt":
        text = "\n".join(without_names(with_fields(with_short_heads(text).split("\n"))))
    if ending == ".antt":
        text = "\n".join(without_names(with_arms(list(with_short_signatures(list(with_fields(text.split("\n"))))))))
    return base + ENDINGS[ending], text
