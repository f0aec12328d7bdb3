"""The texts of the workloads, the same each time they are made."""
import json
import os

HERE = os.path.dirname(os.path.abspath(__file__))
LETTERS = "etaoinshrdlucmfwypvbgkjqxz"
ROW = 80


class Numbers:
    """Numbers that look random: those of a linear congruential generator of 64 bits."""

    def __init__(self, first):
        self.state = first

    def below(self, bound):
        """The next number, below the bound."""
        self.state = (self.state * 6364136223846793005 + 1442695040888963407) % 2**64
        return (self.state >> 33) % bound


def word(numbers):
    """A word of 1 to 11 letters, the first of LETTERS more often than the last."""
    length = 1 + numbers.below(11)
    letters = (min(numbers.below(26), numbers.below(26)) for _ in range(length))
    return "".join(LETTERS[it] for it in letters)


def words(numbers, size):
    """Words with a space between them, at least `size` bytes less one."""
    found, length = [], 0
    while length < size:
        found.append(word(numbers))
        length += len(found[-1]) + 1
    return " ".join(found)


def rows(first, size):
    """Lines of 80 bytes, as many as `size` bytes hold."""
    numbers = Numbers(first)
    pool = [words(numbers, ROW)[: ROW - 1] + "\n" for _ in range(64)]
    return "".join(pool[numbers.below(64)] for _ in range(size // ROW))


def lines(count):
    """`count` lines of 40 bytes, without spaces."""
    pool = words(Numbers(3), 100_000).replace(" ", "_")
    starts = (37 * i % 90_000 for i in range(count))
    return "".join(pool[it : it + 39] + "\n" for it in starts)


def escaped(first, size):
    """Words of about `size` bytes, with a character between them that most texts escape."""
    numbers, found, length = Numbers(first), [], 0
    between = '"\\\n\t\x01\r\b\fé漢\x1b'
    while length < size:
        found.append(word(numbers) + between[numbers.below(len(between))])
        length += len(found[-1].encode())
    return "".join(found)


def sentences(first, size):
    """Chinese of about `size` bytes: clauses of 4 to 15 characters, some in brackets or after a
    word of Latin letters."""
    numbers, found, length = Numbers(first), [], 0
    while length < size:
        clause = "".join(chr(0x4E00 + numbers.below(0x1000)) for _ in range(4 + numbers.below(12)))
        clause = f"「{clause}」" if numbers.below(8) == 0 else clause
        clause = f" {word(numbers)} {clause}" if numbers.below(6) == 0 else clause
        found.append(clause + "，、。"[numbers.below(3)])
        length += len(found[-1].encode())
    return "".join(found)


def coloured(text):
    """The text with a colour on every word."""
    parts = enumerate(text.split(" "))
    return " ".join(f"\x1b[3{1 + i % 6}m{it}\x1b[0m" for i, it in parts)


def sample():
    """The 60 lines of source that the typical report shows."""
    with open(os.path.join(HERE, "sample.txt"), encoding="utf-8") as file:
        return file.read()


def printed_errors():
    """What rustc printed of a program with four errors, in colours."""
    with open(os.path.join(HERE, "rustc.json"), encoding="utf-8") as file:
        return "\n".join(json.load(file))


def tabbed(text):
    """The text with a tab for each four spaces that begin a line, and for each of its offsets the
    offset there."""
    made, places = "", []
    for line in text.splitlines(keepends=True):
        spaces = len(line) - len(line.lstrip(" "))
        tabs = spaces // 4
        places += [len(made) + it // 4 for it in range(4 * tabs)]
        places += [len(made) + tabs + it for it in range(len(line) - 4 * tabs)]
        made += "\t" * tabs + line[4 * tabs :]
    return made, [*places, len(made)]
