"""`full_book.py AUCTIONS` has a full book go through that many auctions, and prints the sums of what
its calls answer. The amounts come from a linear congruential generator."""

import sys

from book import ASSESSMENT, FUND, Book
from resources import Deposit

HOUSE = 500_000_000
MEMBERS = range(1, 33)
LOTS = [(1_000, 10_000, 2_000_000), (2_000, 12_000, 4_000_000)]
LOTS += [(3_000, 13_000, 4_000_000), (4_000, 15_000, 6_000_000)]
GROUPS = 250  # of a recovery and four charges
WIDTH = 1 << 64  # sums and the generator's state wrap around


class Draws:
    """Pseudo-random numbers."""

    def __init__(self):
        self._state = 1

    def below(self, most):
        # one of the numbers from 0 to most - 1
        self._state = (self._state * 6_364_136_223_846_793_005 + 1_442_695_040_888_963_407) % WIDTH
        return (self._state >> 33) % most


class KeptBook(Book):
    """The same book, with the weights of the pools worked out once in an auction."""

    def close(self):
        self._kept = {}
        return super().close()

    def _results(self):
        if "results" not in self._kept:
            self._kept["results"] = super()._results()
        return self._kept["results"]

    def _weights(self, which, results):
        if which not in self._kept:
            self._kept[which] = super()._weights(which, results)
        return self._kept[which]


def amounts(m):
    # the fund and the assessment that a member has at the beginning of each auction
    return 70_000_000 + 500_000 * m, 60_000_000 + 700_000 * m


def bids(draws):
    # two bids of each member in each lot: every fifth member offers much less than the others,
    # every eighth makes its second bid All or Nothing, and the last one bids for too little
    for lot in range(1, 5):
        for turn in (1, 2):
            for m in MEMBERS:
                price = -12_000_000 - draws.below(5_000_000) - (m % 5 == 0) * 7_000_000
                size = 100 if m == 32 else 240 + draws.below(161)
                if turn == 2 and m % 8 == 1:
                    yield m, lot, "all", 10_000, price - 3_000_000
                else:
                    yield m, lot, "standard", size, price


def losses(draws):
    # recoveries, each with four charges behind it: the net loss grows in the first half and falls
    # in the second; the last recovery returns it all, and the charges behind it are greater
    for group in range(GROUPS):
        last = group == GROUPS - 1
        if last:
            yield "recover", 10_000_000_000
        else:
            yield "recover", draws.below(10_000_000 if group < GROUPS // 2 else 180_000_000)
        for _ in range(4):
            yield "charge", draws.below(25_000_000) + last * 150_000_000


class Sums:
    """What the calls answered, added up."""

    NAMES = {
        "bid": ["entries"],
        "close": ["failed", "capacity"],
        "charge": ["covered", "uncovered"],
        "recover": ["returned", "surplus"],
        "conclude": ["net-loss"],
    }

    def __init__(self):
        self._sums = {name: 0 for names in self.NAMES.values() for name in names}
        self._sums |= {"top-ups": 0, "refused": 0}

    def add(self, name, value):
        self._sums[name] = (self._sums[name] + value) % WIDTH

    def answer(self, call, answer):
        # each number that a call answers, or one refusal
        if isinstance(answer, int):
            self.add("refused", 1)
            return
        for name, value in zip(self.NAMES.get(call, []), answer, strict=True):
            self.add(name, value)

    def print(self):
        for name, value in self._sums.items():
            print(name, value)


def top_up(book, sums):
    # gives each member what the auction took; the sum has it times the member's number
    for m in MEMBERS:
        held = book.member(m)
        fund, assessment = (amounts(m)[at] - held[at] for at in (FUND, ASSESSMENT))
        sums.answer("top-up", book.top_up(m, fund, assessment))
        sums.add("top-ups", m * (fund + assessment))


def auction(book, draws, sums):
    sums.answer("open", book.open(LOTS))
    for bid in bids(draws):
        sums.answer("bid", book.bid(*bid))
    sums.answer("close", book.close())
    for name, amount in losses(draws):
        sums.answer(name, getattr(book, name)(amount))
    sums.answer("conclude", book.conclude())
    top_up(book, sums)


def main(auctions):
    book, draws, sums = KeptBook(Deposit(HOUSE)), Draws(), Sums()
    for m in MEMBERS:
        sums.answer("enrol", book.enrol(m, *amounts(m)))
    for _ in range(auctions):
        auction(book, draws, sums)
    print("auctions", auctions)
    sums.print()


if __name__ == "__main__":
    main(int(sys.argv[1]))
