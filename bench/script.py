"""Prints a console script: `script.py AUCTIONS` has that many auctions of a full book, one after
the other on one book.

32 members, four lots of 64 bids each, 1,000 charges and 250 recoveries. The loss runs up into the
assessments and back below the house's seat, so that the house loses nothing, and a top up gives
each member what the auction took. So every auction begins with the same amounts.
"""

import os
import random
import sys

sys.path.insert(0, os.path.join(os.path.dirname(os.path.abspath(__file__)), "..", "oracle"))

from book import Book
from resources import Deposit

HOUSE = 500_000_000
MEMBERS = range(1, 33)
LOTS = [(1_000, 10_000, 2_000_000), (2_000, 12_000, 4_000_000)]
LOTS += [(3_000, 13_000, 4_000_000), (4_000, 15_000, 6_000_000)]
GROUPS = 250  # of four charges and a recovery
LAST_LOSS = 700_000_000  # the net loss that is left to conclude


def amounts(m):
    # a member's fund and assessment
    return 70_000_000 + 500_000 * m, 60_000_000 + 700_000 * m


def bids(rng):
    # two bids of each member in each lot: a few members offer much less than the others, every
    # eighth makes its second bid All or Nothing, and the last one bids for too little
    for lot in range(1, 5):
        for turn in (1, 2):
            for m in MEMBERS:
                price = -12_000_000 - rng.randint(0, 5_000_000) - (m % 5 == 0) * 7_000_000
                size = 100 if m == 32 else rng.randint(240, 400)
                if turn == 2 and m % 8 == 1:
                    yield m, lot, "all", 10_000, price - 3_000_000
                else:
                    yield m, lot, "standard", size, price


def losses(rng):
    # charges, and after each four a recovery: small ones at first, then greater ones, which leave
    # the last loss standing
    net = 0
    for group in range(GROUPS):
        for _ in range(4):
            amount = rng.randint(1, 20_000_000)
            net += amount
            yield "charge", amount
        if group < GROUPS // 2:
            returned = min(net, rng.randint(1, 10_000_000))
        else:
            returned = min(net - LAST_LOSS, rng.randint(1, 140_000_000))
        if group == GROUPS - 1:
            returned = net - LAST_LOSS
        net -= returned
        yield "recover", returned


def lost(entered):
    # what each member bears at the end of an auction, and that the house bears nothing
    book = Book(Deposit(HOUSE))
    for m in MEMBERS:
        book.enrol(m, *amounts(m))
    book.open(LOTS)
    for bid in entered:
        book.bid(*bid)
    book.close()
    book.charge(LAST_LOSS)
    assert book.seat(4) == (HOUSE, 0)
    return [book.member(m)[2:] for m in MEMBERS]


def auction(entered, later):
    # the lines of one auction; the prices are lower by a dollar in each later one
    yield "open " + " ".join(str(n) for lot in LOTS for n in lot)
    for m, lot, kind, size, price in entered:
        yield f"bid {m} {lot} {kind} {size} {price - later}"
    yield "close"
    for seat in range(1, 8):
        yield f"seat {seat}"
    for name, amount in losses(random.Random(later)):
        yield f"{name} {amount}"
    for m in (1, 10, 32):
        yield f"member {m}"
    yield "conclude"


def lines(auctions):
    entered = list(bids(random.Random(1)))
    borne = lost(entered)
    yield f"house {HOUSE}"
    for m in MEMBERS:
        yield "enrol {} {} {}".format(m, *amounts(m))
    for later in range(auctions):
        yield from auction(entered, later)
        for m, (fund, assessment) in zip(MEMBERS, borne):
            yield f"top-up {m} {fund} {assessment}"


if __name__ == "__main__":
    sys.stdout.writelines(line + "\n" for line in lines(int(sys.argv[1])))
