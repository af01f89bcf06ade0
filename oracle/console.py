"""Reads commands for a book from standard input, one a line, and prints one line for each."""

import re
import sys

from book import Book
from resources import Deposit, Refused

FIRST_HOUSE = 50_000_000

# the refusals in words (docs/RULES.md, 'The refusals')
REFUSED = {
    1: "wrong phase",
    2: "number out of range",
    3: "not enrolled",
    4: "already enrolled",
    5: "amount outside its limits",
    6: "lots not as they must be",
    7: "All or Nothing bid not for the whole lot",
    8: "second All or Nothing bid in the lot",
    9: "lot full",
    10: "excused by a call",
    11: "above capacity",
}

# the errors in words, of which the first that applies is printed: the command, the count of its
# words, then the words after it from left to right, each by its width
ERRORS = {
    "command": "no such command",
    "count": "wrong count of words",
    "kind": "not standard or all",
    "number": "not a number from 0 to 65535",
    "pri": "not a number from 0 to 4294967295",
    "price": "not a number from -2147483648 to 2147483647",
    "dollars": "not a number from 0 to 18446744073709551615",
}

# the widths of numbers: the least and the greatest
WIDTHS = {
    "number": (0, 65_535),
    "pri": (0, 4_294_967_295),
    "price": (-2_147_483_648, 2_147_483_647),
    "dollars": (0, 18_446_744_073_709_551_615),
}

ONE_LOT = ["number", "number", "pri"]

# the words after a command, and what the answer says before each of its values
COMMANDS = {
    "house": (["dollars"], []),
    "enrol": (["number", "dollars", "dollars"], []),
    "top-up": (["number", "dollars", "dollars"], []),
    "release": (["number"], ["fund ", "assessment "]),
    "open": (ONE_LOT, []),
    "excuse": (["number", "number"], []),
    "bid": (["number", "number", "kind", "number", "price"], ["entry "]),
    "close": ([], ["failed ", "capacity "]),
    "charge": (["dollars"], ["covered ", "uncovered "]),
    "recover": (["dollars"], ["returned ", "surplus "]),
    "conclude": ([], ["net-loss "]),
    "phase": ([], [""]),
    "member": (["number"], ["fund ", "assessment ", "fund-borne ", "assessment-borne "]),
    "requirement": (["number", "number"], [""]),
    "price": (["number"], [""]),
    "allocation": (["number", "number"], [""]),
    "average": (["number", "number"], [""]),
    "class": (["number", "number"], [""]),
    "seat": (["number"], ["capacity ", "standing "]),
    "bears": (["number", "number"], [""]),
}


class FormError(Exception):
    """A line that is no command; its text is the reason."""


def words_of(line):
    # words are cut at spaces, tabs and carriage returns; the line feed ends the line
    return [w for w in re.split(rb"[ \t\r\n]", line) if w]


def number_of(word, least, most):
    # ASCII digits, leading zeros allowed, with one '-' in front where the width goes below 0
    if not re.fullmatch(rb"-?[0-9]+" if least < 0 else rb"[0-9]+", word):
        return None
    sign = -1 if word.startswith(b"-") else 1
    digits = word.lstrip(b"-").lstrip(b"0") or b"0"
    if len(digits) > 20:
        return None  # longer than any width
    value = sign * int(digits)
    return value if least <= value <= most else None


def value_of(word, field):
    # the value of one word after the command
    if field == "kind":
        value = {b"standard": "standard", b"all": "all"}.get(word)
    else:
        value = number_of(word, *WIDTHS[field])
    if value is None:
        raise FormError(ERRORS[field])
    return value


def fields_for(name, count):
    # the fields of a command with that many words after it; open has three for each lot
    fields = COMMANDS[name][0]
    if name == "open" and count > 0 and count % len(ONE_LOT) == 0:
        return fields * (count // len(ONE_LOT))
    if len(fields) != count:
        raise FormError(ERRORS["count"])
    return fields


def read(words):
    # the command's name and its values
    name = words[0].decode("ascii", "replace")
    if name not in COMMANDS:
        raise FormError(ERRORS["command"])
    fields = fields_for(name, len(words) - 1)
    values = [value_of(word, field) for word, field in zip(words[1:], fields)]
    if name == "open":
        values = [[tuple(values[i : i + 3]) for i in range(0, len(values), 3)]]
    return name, values


def call_of(book, name):
    # the call or question of that name
    return getattr(book, {"class": "class_in"}.get(name, name.replace("-", "_")))


def in_words(name, answer):
    # ok, or each value after its label; a refusal with its reason
    if isinstance(answer, int):
        return f"refused {answer}: {REFUSED[answer]}"
    if not answer:
        return "ok"
    labels = COMMANDS[name][1]
    return " ".join(f"{a}{'none' if v is None else v}" for a, v in zip(labels, answer, strict=True))


class Console:
    """A book, and another after each house that is taken."""

    def __init__(self):
        self.book = Book(Deposit(FIRST_HOUSE))

    def house(self, amount):
        # a new book over a deposit; the old one stays if the deposit is refused
        try:
            self.book = Book(Deposit(amount))
        except Refused as refused:
            return refused.number
        return ()

    def answer(self, words):
        # what is printed after the arrow
        try:
            name, values = read(words)
        except FormError as error:
            return f"error: {error}"
        call = self.house if name == "house" else call_of(self.book, name)
        return in_words(name, call(*values))

    def printed(self, line):
        # the line to print, or None where there is nothing to print
        words = words_of(line)
        if not words or words[0].startswith(b"#"):
            return None
        return b" ".join(words) + b" -> " + self.answer(words).encode("ascii")


def run(lines):
    # every line that a new console prints for these lines
    console = Console()
    for line in lines:
        printed = console.printed(line)
        if printed is not None:
            yield printed + b"\n"


if __name__ == "__main__":
    for printed_line in run(sys.stdin.buffer):
        sys.stdout.buffer.write(printed_line)
