"""random_sheet.py N SEED: prints a random lot sheet of N lots, always the same for one SEED."""

import random
import sys

LOT = 10_000
ANY_BYTE = "\udcff"  # written as the single byte 255, which is no text in UTF-8
PRICES = [-2_000_000_000, -12_000_000, -3_000_000, -11, -10, -1, 0, 1, 10, 100_000, 2_000_000_000]
BAD_MEMBERS = [0, 33, 34, 256, 257, 65_535]
BAD_SIZES = [0, 10_001, 20_000, 65_535]
BAD_PRICES = [-2_147_483_648, -2_000_000_001, 2_000_000_001, 2_147_483_647]
NOT_NATURAL = ["-1", "-0", "+5", "65536", "65537", "4294967297", "18446744073709551617", "x", "1.0", "1,000", "1_0", "0x1", "5-", "\u0665", "9" * 40]
NOT_PRICE = ["+5", "--1", "-", "-+1", "2147483648", "-2147483649", "4294967296", "-4294967297", "18446744073709551616", "x", "-x", "1e3", "1,000", "1_0", "-1-", "\u22121", "-" + "9" * 40]
NOT_KIND = ["Standard", "ALL", "a", "standards", "al", "0", "nothing"]
NOT_COMMAND = ["Lot", "lots", "BID", "bids", "b", "price 5", "1 standard 5 5", "-", "lo t", "\u00e9", "\x0blot", "bid\x0c1 standard 5 5", ";lot", "lot\x00", ANY_BYTE]


def number(r, value):
    # a number in one of its spellings: now and then with leading zeros, and 0 as -0
    sign = "-" if value < 0 else ""
    zeros = "0" * r.choice([0] * 40 + [1, 1, 2, 3, 3, 8, 30, 300])
    return sign + zeros + str(abs(value))


def price(r, value):
    return "-0" if value == 0 and r.random() < 0.2 else number(r, value)


def bid(r, member, kind, size, value):
    return ["bid", number(r, member), kind, number(r, size), price(r, value)]


def member_of(r):
    return r.choice([1, 2, 3, 4, 5, 31, 32])


def size_list(r):
    # Standard sizes of a lot: nothing, too few, exactly enough, one short, plenty, or a crowd
    style = r.choice(["none", "few", "exact", "short", "plenty", "plenty", "ties", "ties", "tiny", "crowd"])
    if style == "none":
        return []
    if style == "few":
        return [r.randint(1, 2_000) for _ in range(r.randint(1, 5))]
    if style in ("exact", "short"):
        cuts = sorted(r.sample(range(1, LOT), r.randint(0, 6)))
        sizes = [b - a for a, b in zip([0] + cuts, cuts + [LOT])]
        if style == "short":
            sizes[sizes.index(max(sizes))] -= 1
        return sizes
    if style == "plenty":
        return [r.randint(1_000, LOT) for _ in range(r.randint(2, 12))]
    if style == "ties":
        return [r.choice([1, 2, 3, 7, 3_333, 5_000, 9_999, LOT]) for _ in range(r.randint(3, 12))]
    if style == "tiny":
        return [r.randint(1, 9) for _ in range(r.randint(1, 30))]
    return [r.randint(1, r.choice([9, 400, LOT])) for _ in range(r.randint(60, 70))]


def refused(r, prices):
    # a bid that breaks one limit or several
    kind = r.choice(["standard", "all"])
    member, value = member_of(r), r.choice(prices)
    size = LOT if kind == "all" else r.randint(1, LOT)
    broken = r.sample(["member", "size", "price", "whole"], r.choice([1, 1, 2, 3]))
    if "whole" in broken:
        kind, size = "all", r.choice([1, 5_000, 9_999])
    if "member" in broken:
        member = r.choice(BAD_MEMBERS)
    if "size" in broken:
        size = r.choice(BAD_SIZES)
    if "price" in broken:
        value = r.choice(BAD_PRICES)
    return bid(r, member, kind, size, value)


def mistaken(r, prices):
    # a line that is an error, for one reason or several
    words = bid(r, member_of(r), r.choice(["standard", "all"]), LOT, r.choice(prices))
    what = r.choice(["command", "lot", "words", "form", "form", "form"])
    if what == "command":
        return r.choice(NOT_COMMAND).split(" ")
    if what == "lot":
        return ["lot", r.choice(["1", "lot", "#", "# a note", "\x0b"])]
    if what == "words":
        return words[: r.randint(1, 4)] if r.random() < 0.5 else words + r.choice([["5"], ["#", "five"]])
    for place in r.sample([1, 2, 3, 4], r.choice([1, 1, 1, 2, 3])):
        words[place] = r.choice({1: NOT_NATURAL, 2: NOT_KIND, 3: NOT_NATURAL, 4: NOT_PRICE}[place])
    return words


def idle(r):
    # a line that does nothing
    note = ["#", r.choice(["a", "lot", ANY_BYTE, "\x00", "n" * 300])]
    return r.choice([[], [], ["#"], note, note, ["#lot"], ["##", "bid", "1", "standard", "1", "1"]])


def lot_lines(r):
    # the lines of one lot without the line that starts it
    prices = r.sample(PRICES, r.randint(1, 4))
    lines = [bid(r, member_of(r), "standard", size, r.choice(prices)) for size in size_list(r)]
    if r.random() < 0.4:
        for _ in range(r.choice([1, 1, 2, 3, 5])):
            lines.append(bid(r, member_of(r), "all", LOT, r.choice(prices)))
    r.shuffle(lines)
    for make, most in ((lambda: refused(r, prices), 3), (lambda: mistaken(r, prices), 3), (lambda: idle(r), 2)):
        for _ in range(r.choice([0, 0, 1, most])):
            lines.insert(r.randint(0, len(lines)), make())
    return lines


def spaced(r, words):
    # the words with odd spacing now and then
    if r.random() < 0.8:
        return " ".join(words)
    gaps = [" ", "  ", "\t", " \t ", "\r", "\r \r"]
    edge = lambda: r.choice(["", "", " ", "\t", "\r", "   "])
    text = edge()
    for i, word in enumerate(words):
        text += (r.choice(gaps) if i else "") + word
    return text + edge()


def sheet(lots, seed):
    r = random.Random(seed)
    lines = []
    for _ in range(r.randint(0, 6)):  # before the first lot
        early = bid(r, member_of(r), "standard", LOT, r.choice(PRICES))
        lines.append(r.choice([early, early, refused(r, PRICES), mistaken(r, PRICES), idle(r)]))
    for _ in range(lots):
        lines.append(["lot"])
        lines += lot_lines(r)
    ends = r.choice([["\n"], ["\r\n"], ["\n", "\n", "\n", "\r\n"]])
    text = "".join(spaced(r, words) + r.choice(ends) for words in lines)
    if text and r.random() < 0.5:
        text = text[:-1]  # the last line may lack its line feed
    return text.encode("utf-8", "surrogateescape")


if __name__ == "__main__":
    if len(sys.argv) != 3:
        sys.exit("usage: random_sheet.py N SEED")
    sys.stdout.buffer.write(sheet(int(sys.argv[1]), int(sys.argv[2])))
