"""What the scripts of this folder read: the crates, their files, their functions, and the toolchain's command."""
import functools
import glob
import importlib.machinery
import importlib.util
import os
import re
import shutil
from typing import NamedTuple

TOP = os.path.dirname(os.path.dirname(os.path.abspath(__file__)))
COMMENT = re.compile(r"(?m)//.*$")
FUNCTION = re.compile(r"(?m)^( *)(pub(?:\([a-z]+\))? )?(?:(?:const|unsafe) )*fn (\w+)")
TYPE = re.compile(r"\b(?:struct|enum|trait|type) (\w+)")
TRAIT = re.compile(r"(?m)^(?:pub(?:\(\w+\))? )?trait (\w+)")
MODULE = re.compile(r"(?m)^(pub |pub\(crate\) )?mod (\w+);")
# what ends a function's parameters and result, and the brackets in which nothing does
END_OF_HEAD = re.compile(r"\b(?:requires|ensures)\b|[][(){};]")
WORDS_OF_SPECS = (
    re.compile(r"(?m)^ *pub (?:record |data )?([\w-]+)"),
    re.compile(r"(?m)^(?:abbrev |unfoldable )(?:pub )?([\w-]+)"),
    re.compile(r"(?m)^ +([\w-]+) : "),
)


# ---- crates and files


def dependencies():
    """The crates, lowest first, each with those of the repository that it uses, as crates.txt lists them."""
    lines = [it.split(":") for it in text_of("crates.txt").split("\n") if it.strip() and not it.startswith("#")]
    found = {name.strip(): uses.split() for name, uses in lines}
    return {name: [it for it in uses if it in found] for name, uses in found.items()}


def below(uses, name):
    """The libraries that a crate depends on, lowest first."""
    found = []
    for it in uses[name]:
        found += [low for low in [*below(uses, it), it] if low not in found]
    return found


def library():
    """The crates of the library."""
    return [it for it in dependencies() if it.startswith("miette")]


def text_of(path):
    """The text of a file, whose path begins at the top of the repository."""
    with open(os.path.join(TOP, path), encoding="utf-8") as file:
        return file.read()


def paths(crate, folder="src"):
    """The sources below a folder of a crate, or of each crate where its name is `*`: of src, or of specs and proofs."""
    ending = ".rt" if folder == "src" else ".antt"
    return sorted(glob.glob(f"crates/{crate}/{folder}/**/*{ending}", root_dir=TOP, recursive=True))


def files(crate, folder="src"):
    """The same with their texts."""
    return [(it, text_of(it)) for it in paths(crate, folder)]


def without_comments(text):
    return COMMENT.sub("", text)


def source(crate):
    """All of a crate's code as one text, without comments."""
    return "\n".join(without_comments(text) for _, text in files(crate))


class Module(NamedTuple):
    """A module: its path, empty for the root; its text without comments; whether users reach it by public modules."""

    path: str
    text: str
    is_public: bool


def modules(crate):
    """The modules of a crate, each before those that it declares."""
    root = next(it for it in ("lib", "main") if os.path.exists(f"{TOP}/crates/{crate}/src/{it}.rt"))
    return modules_from(crate, Module("", without_comments(text_of(f"crates/{crate}/src/{root}.rt")), True))


def modules_from(crate, module):
    yield module
    for visibility, name in MODULE.findall(module.text):
        path = f"{module.path}::{name}" if module.path else name
        text = without_comments(text_of(f"crates/{crate}/src/{path.replace('::', '/')}.rt"))
        yield from modules_from(crate, Module(path, text, module.is_public and visibility == "pub "))


# ---- functions


class Function(NamedTuple):
    """A function of a text: its name and indent, whether it is `pub`, where it starts, where its name ends."""

    name: str
    indent: str
    is_public: bool
    start: int
    name_end: int


def functions(text):
    """The functions of a text, in order."""
    return [Function(it[3], it[1], it[2] == "pub ", it.start(), it.end()) for it in FUNCTION.finditer(text)]


def line_at(text, offset):
    """The number of the line of an offset, from 1."""
    return text.count("\n", 0, offset) + 1


def lines_of_functions(text):
    """The functions of a text: name, first line, last line, counted from 1; each goes on to the next one."""
    found = [(it.name, line_at(text, it.start)) for it in functions(text)]
    ends = [at - 1 for _, at in found[1:]] + [text.count("\n") + 1]
    return [(name, at, end) for (name, at), end in zip(found, ends)]


def end_of_head(text, function):
    """What ends a function's parameters and result: its clauses, its body, or a semicolon; none in brackets does."""
    depth = 0
    for found in END_OF_HEAD.finditer(text, function.name_end):
        depth += (found[0] in "[(") - (found[0] in "])")
        if depth == 0 and found[0] not in "])":
            return found
    raise ValueError(f"a function without an end: {text[function.start : function.start + 80]!r}")


def head_of(text, function):
    """A function's parameters and result."""
    return " ".join(text[function.name_end : end_of_head(text, function).start()].split())


def has_body(text, function):
    """Whether a method of a trait has a body."""
    end = end_of_head(text, function)
    if end[0] in "{;":
        return end[0] == "{"
    return re.compile(r"\n    \{|;\n").search(text, end.end())[0] != ";\n"


def has_clause(text, function):
    """Whether a contract says what a function gives."""
    end = end_of_head(text, function)
    if end[0] in "{;":
        return False
    contract = re.compile(rf"\n{function.indent}\{{|;\n").split(text[end.start() :], maxsplit=1)[0]
    return re.search(r"\bensures\b", contract) is not None


def at_top(text, separator):
    """The parts of a text between separators that are in no brackets."""
    depth, parts = 0, [""]
    for c in text.replace("->", "→"):
        depth += (c in "(<[{") - (c in ")>]}")
        if c == separator and depth == 0:
            parts.append("")
        else:
            parts[-1] += c
    return [it.strip() for it in parts]


def inside(text, at):
    """What a bracket that opens here has in it."""
    depth = 0
    for i in range(at, len(text)):
        depth += (text[i] == "(") - (text[i] == ")")
        if depth == 0:
            return text[at + 1 : i]
    return text[at + 1 :]


def parameters(text, function):
    """A function's parameters without `self`."""
    listed = without_comments(inside(text, text.index("(", function.name_end)))
    return [it for it in at_top(listed, ",") if it and not re.match(r"(&('\w+ )?)?(mut )?self\b", it)]


def body_lines(text, function):
    """How many lines the body of a function has, 0 for one without."""
    indent = function.indent
    # where a contract stands, the body's bracket has a line of its own; else it ends the signature's
    begin = re.compile(rf"(?m)^{indent}(?:\{{|\S.*\{{)$").search(text, function.start)
    end = begin and re.compile(rf"(?m)^{indent}\}}").search(text, begin.end())
    outer = max(len(indent) - 1, 0)
    next_item = rf"(?m)^(?:{indent}(?:pub|const|fn|///|//|#|\{{\}}|\S.*;$)| {{0,{outer}}}\}})"
    stops = re.compile(next_item).search(text, function.name_end)
    if not end or stops and stops.start() <= begin.start():
        return 0
    return text[begin.start() : end.start()].count("\n") + 1


def bodies(text):
    """What follows the name of each function, up to where its own bracket closes or the next function begins."""
    found = functions(text)
    for it, after in zip(found, [*found[1:], None]):
        rest = text[it.name_end : after.start if after else None]
        yield it.name, re.split(rf"\n{it.indent}\}}", rest)[0]


def contracts(text):
    """The functions of a text without comments by name, each with the names of its clauses; one may come twice."""
    for name, contract in re.findall(r"(?s)\bfn (\w+)(.*?)(?=\bfn \w|\Z)", text):
        yield name, re.findall(r"\b(?:ensures|requires) (\w+) \{", contract)


def words_of_specs(text):
    """The words that a file of specifications defines, fields and constructors among them."""
    return {word for form in WORDS_OF_SPECS for word in form.findall(text)}


OWNER = re.compile(r"(?m)^(?:pub(?:\(\w+\))? )?(?:unsafe )?(impl|trait)\b(.*)$")


def without_first_brackets(text):
    """A text without the generic parameters that it begins with."""
    depth = 0
    for at, it in enumerate(text):
        depth += (it == "<") - (it == ">" and text[at - 1] != "-")
        if depth == 0:
            return text[at + 1 :].strip() if it == ">" else text
    return text


def word_of(text):
    """The last word of a type's or a trait's path, without its parameters."""
    return re.sub(r"<.*", "", text.strip()).split("::")[-1].split()[-1].lstrip("&")


def module_of(file):
    """The path of the module that a file of src holds."""
    return file.removeprefix("src/").removesuffix(".rt").replace("/", "::")


def owner_of(text, function):
    """Whether a method's block is an `impl` or a `trait`, and its head without generic parameters and bounds."""
    owner = [it for it in OWNER.finditer(text) if it.start() < function.start][-1]
    return owner[1], without_first_brackets(owner[2].strip()).split("{")[0].split(" where ")[0]


def parameters_of_owner(text, function):
    """The names of the generic parameters of a method's block."""
    owner = [it for it in OWNER.finditer(text) if it.start() < function.start][-1]
    words = owner[2].strip()
    listed = words[1 : len(words) - len(without_first_brackets(words))] if words.startswith("<") else ""
    return [re.match(r"\w*", it)[0] for it in at_top(listed, ",") if it]


def has_parameters(text, function):
    """Whether a method's block has generic parameters."""
    return bool(parameters_of_owner(text, function))


def name_of(file, text, number):
    """The end of the name of a function of a file, as a check prints it: `module::name`, `Type::name`, `TypeTrait::name`."""
    its = functions(text)[number]
    if not its.indent:
        module = module_of(file)
        return its.name if module in ("lib", "main") else f"{module}::{its.name}"
    kind, head = owner_of(text, its)
    if kind == "trait":
        return f"{word_of(head.split(':')[0])}::{its.name}"
    first, _, last = head.partition(" for ")
    if not last:
        return f"{word_of(head)}::{its.name}"
    # of `impl<T: Bound> Trait for T`
    owner = "Any" if last.strip() in parameters_of_owner(text, its) else word_of(last)
    return f"{owner}{word_of(first)}::{its.name}"


def path_of(file, text, number):
    """What names a function of a file to a check: its name, or its module where the name has types of `impl From<Type> for ..`."""
    its = functions(text)[number]
    if its.indent:
        first, _, last = owner_of(text, its)[1].partition(" for ")
        if last and ("<" in first or re.match(r"(?:Box|Vec|Option|Result)<|[&(\[]", last.strip())):
            return module_of(file)
        # the name of a method of a type at types of its own, as in `impl Cell<u8>` or `impl<T> Run<Cell<T>>`, has these
        _, _, types = first.partition("<")
        if not last and types and ("<" in types or not has_parameters(text, its)):
            return module_of(file)
    return name_of(file, text, number)


# ---- the toolchain


def load_rt(command=None):
    """The toolchain's own command as a module: what applies an edit and checks it is its work."""
    command = command or os.environ.get("GATE_RT") or os.path.realpath(shutil.which("rt"))
    loader = importlib.machinery.SourceFileLoader("rt", command)
    module = importlib.util.module_from_spec(importlib.util.spec_from_loader("rt", loader))
    loader.exec_module(module)
    return module


def free_memory():
    """The bytes of memory that nothing uses."""
    with open("/proc/meminfo", encoding="ascii") as told:
        found = re.search(r"(?m)^MemAvailable: *(\d+) kB", told.read())
    return 1024 * int(found[1]) if found else 0


def load_once():
    """The same for a run during which no text changes: it reads each crate once.

    By itself rt reads the text of what a crate stands on once for each path of crates.txt that leads there.
    """
    rt = load_rt()
    for name in ("below", "stamp"):
        setattr(rt.rtlib.Crate, name, functools.cache(getattr(rt.rtlib.Crate, name)))
    return rt
