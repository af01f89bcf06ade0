"""Prints a table of cases for BP, the class and the senior part of an amount."""

from rules import Bid, bp, class_of, pri_refusal, refusal, senior_part, subordinate_part

MEMBER = 1
HEAD = ("requirement", "bids", "price", "PRI", "amount", "BP", "class", "senior", "subordinate")


def s(size, price):
    return Bid(MEMBER, "standard", size, price)


def a(price):
    return Bid(MEMBER, "all", 10_000, price)


# requirement, the member's bids, the lot's price, PRI, amount
CASES = [
    # either side of and at the two thresholds, -14,000,000 and -18,000,000
    (5_000, [s(5_000, -13_999_999)], -12_000_000, 4_000_000, 10),
    (5_000, [s(5_000, -14_000_000)], -12_000_000, 4_000_000, 10),
    (5_000, [s(5_000, -15_000_000)], -12_000_000, 4_000_000, 10),
    (5_000, [s(5_000, -18_000_000)], -12_000_000, 4_000_000, 10),
    (5_000, [s(5_000, -18_000_001)], -12_000_000, 4_000_000, 10),
    # -32 / 3 goes down to -11; -10 would be all senior
    (3, [s(1, -10), s(4, -11)], -8, 4, 10),
    # negative averages that divide exactly: -44 / 4, and -33,000 / 3,000 with the worse bid first
    (4, [s(2, -10), s(2, -12)], -8, 4, 10),
    (3_000, [s(9_000, -12), s(1_000, -9)], -8, 4, 1_001),
    # an All or Nothing bid better than the average, and one worse
    (5_000, [s(5_000, -19_000_000), a(-16_000_000)], -12_000_000, 4_000_000, 1_001),
    (5_000, [a(-19_000_000), s(5_000, -17_000_000)], -12_000_000, 4_000_000, 1_001),
    # requirement 0: without a bid, and with bids, of which the best one part counts
    (0, [], -12_000_000, 4_000_000, 10),
    (0, [s(5_000, -19_000_000), s(1, -15_000_000)], -12_000_000, 4_000_000, 10),
    # bids one part short of the requirement, alone and next to an All or Nothing bid
    (3_000, [s(2_000, 0), s(999, 0)], -12_000_000, 4_000_000, 10),
    (3_000, [s(2_000, 0), s(999, 0), a(-18_000_001)], -12_000_000, 4_000_000, 10),
    # the extreme thresholds: -3,000,000,000 and -5,000,000,000, then 1,000,000,000 and -1,000,000,000
    (10_000, [s(10_000, -2_000_000_000)], -2_000_000_000, 2_000_000_000, 2_000_000_000),
    (10_000, [s(10_000, 999_999_999)], 2_000_000_000, 2_000_000_000, 2_000_000_000),
    (10_000, [s(10_000, -2_000_000_000)], 2_000_000_000, 2_000_000_000, 2_000_000_000),
]


def row(requirement, bids, price, pri, amount):
    # one case in words; the case itself must keep to the limits of bids and of PRI
    assert pri_refusal(pri) is None
    assert all(refusal(bids[:i], b) is None for i, b in enumerate(bids))
    best = bp(MEMBER, requirement, bids)
    return (
        str(requirement),
        ", ".join(f"{b.kind} {b.size} {b.price}" for b in bids) or "none",
        str(price),
        str(pri),
        str(amount),
        "none" if best is None else str(best),
        class_of(best, requirement, price, pri),
        str(senior_part(amount, best, requirement, price, pri)),
        str(subordinate_part(amount, best, requirement, price, pri)),
    )


if __name__ == "__main__":
    table = [HEAD] + [row(*case) for case in CASES]
    widths = [max(len(r[i]) for r in table) for i in range(len(HEAD))]
    for r in table:
        print(" | ".join(cell.ljust(width) for cell, width in zip(r, widths)).rstrip())
