"""Reads a lot sheet (docs/RULES.md, 'The lot sheet') from standard input and prints its lots."""

import re
import sys

from rules import Bid, all_takes_lot, allocations, lot_price, refusal

REFUSED = {
    2: "number out of range",
    5: "amount outside its limits",
    7: "All or Nothing bid not for the whole lot",
    8: "second All or Nothing bid in the lot",
    9: "lot full",
}


class SheetError(Exception):
    """A line that is neither a command nor nothing; its text is the reason."""


def lines_of(data):
    # a line ends with a line feed, and the last one may lack it
    lines = data.split(b"\n")
    return lines[:-1] if lines[-1] == b"" else lines


def words_of(line):
    # words are cut at spaces, tabs and carriage returns, and at nothing else
    return [w for w in re.split(rb"[ \t\r]", line) if w]


def natural(word, most):
    # one or more ASCII digits, leading zeros allowed, of a value up to most; else None
    if not re.fullmatch(rb"[0-9]+", word):
        return None
    digits = word.lstrip(b"0") or b"0"
    if len(digits) > len(str(most)) or int(digits) > most:
        return None
    return int(digits)


def price_of(word):
    # a natural number, or one with a single '-' in front; -2147483648 to 2147483647
    if word.startswith(b"-"):
        below = natural(word[1:], 2_147_483_648)
        return None if below is None else -below
    return natural(word, 2_147_483_647)


def read_bid(words):
    # the bid of a bid line, or the first error that its form has
    if len(words) != 5:
        raise SheetError("a bid line has five words")
    member = natural(words[1], 65_535)
    if member is None:
        raise SheetError("the member is not a number from 0 to 65535")
    if words[2] not in (b"standard", b"all"):
        raise SheetError("the kind is not standard or all")
    size = natural(words[3], 65_535)
    if size is None:
        raise SheetError("the size is not a number from 0 to 65535")
    price = price_of(words[4])
    if price is None:
        raise SheetError("the price is not a number from -2147483648 to 2147483647")
    return Bid(member, words[2].decode("ascii"), size, price)


def lot_report(number, bids):
    # what a lot prints when it ends
    parts = allocations(bids)
    report = [f"lot {number}"]
    for i, b in enumerate(bids):
        report.append(f"bid {i + 1} {b.member} {b.kind} {b.size} {b.price} -> {parts[i]}")
    price = lot_price(bids)
    if price is None:
        report.append("price none")
    else:
        report.append(f"price {price} by {'all' if all_takes_lot(bids) else 'standard'}")
    report.append(f"allocated {sum(parts)}")
    return report


def run(data):
    # every line that the sheet prints, in order
    printed = []
    lots = 0
    bids = None  # the bids of the lot that is open; None before the first lot
    for at, line in enumerate(lines_of(data), start=1):
        words = words_of(line)
        if not words or words[0].startswith(b"#"):
            continue
        try:
            if words[0] == b"lot":
                if len(words) != 1:
                    raise SheetError("a lot line has one word")
                if bids is not None:
                    printed += lot_report(lots, bids)
                lots += 1
                bids = []
            elif words[0] == b"bid":
                bid = read_bid(words)
                if bids is None:
                    raise SheetError("a bid before the first lot")
                why = refusal(bids, bid)
                if why is None:
                    bids.append(bid)
                else:
                    printed.append(f"line {at}: refused {why}: {REFUSED[why]}")
            else:
                raise SheetError("no such command")
        except SheetError as error:
            printed.append(f"line {at}: error: {error}")
    if bids is not None:
        printed += lot_report(lots, bids)
    return printed


if __name__ == "__main__":
    for text in run(sys.stdin.buffer.read()):
        print(text)
