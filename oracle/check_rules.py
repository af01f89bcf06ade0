"""Asserts every worked figure of docs/RULES.md against rules.py, one printed line for each."""

from rules import (
    Bid,
    all_price,
    allocations,
    average,
    bp,
    class_of,
    lot_price,
    pri_refusal,
    refusal,
    senior_part,
    senior_threshold,
    shares,
    standard_price,
    subordinate_part,
    subordinate_threshold,
)


def figure(text, got, expected):
    assert got == expected, f"{text}: expected {expected}, got {got}"
    print(f"{text}: {got}")


def standard(size, price, member=1):
    return Bid(member, "standard", size, price)


def all_or_nothing(price, member=1, size=10_000):
    return Bid(member, "all", size, price)


def the_share_rule():
    figure("4 over the weights 2, 3, 2", shares(4, [2, 3, 2]), [1, 1, 2])
    figure("3 over the weights 2, 3, 2", shares(3, [2, 3, 2]), [0, 2, 1])
    figure("10,000 over 1, 1, 1", shares(10_000, [1, 1, 1]), [3_333, 3_333, 3_334])
    figure("5 over the weights 0, 0, whose sum is 0", shares(5, [0, 0]), [0, 0])


def the_bids():
    figure("All or Nothing of size 0 is refused with", refusal([], all_or_nothing(0, size=0)), 5)
    figure("All or Nothing of size 10,001 is refused with", refusal([], all_or_nothing(0, size=10_001)), 5)
    figure("All or Nothing of size 9,999 is refused with", refusal([], all_or_nothing(0, size=9_999)), 7)
    figure("members 0, 1, 32, 33", [refusal([], standard(1, 0, m)) for m in (0, 1, 32, 33)], [2, None, None, 2])
    figure("sizes 0, 1, 10,000, 10,001", [refusal([], standard(s, 0)) for s in (0, 1, 10_000, 10_001)], [5, None, None, 5])
    most = 2_000_000_000
    figure(
        "prices one below, at the least, at the most, one above",
        [refusal([], standard(1, p)) for p in (-most - 1, -most, most, most + 1)],
        [5, None, None, 5],
    )
    figure("a second All or Nothing bid of a member", refusal([all_or_nothing(0)], all_or_nothing(1)), 8)
    figure("the 64th bid and the 65th", [refusal([standard(1, 0)] * n, standard(1, 0)) for n in (63, 64)], [None, 9])


def the_price():
    figure("Standard bids of 9,999 parts alone have the price", lot_price([standard(9_999, 7)]), None)
    figure("Standard bids of 10,000 parts have the price", lot_price([standard(10_000, 7)]), 7)


def what_each_bid_gets():
    better = [standard(2_000, 100_000, 1), standard(3_000, 0, 2), standard(2_500, -10_000_000, 3)]
    tied = [standard(3_000, -12_000_000, 4), standard(3_000, -12_000_000, 5)]
    figure("the price of the lot where two bids tie", lot_price(better + tied), -12_000_000)
    figure("the two tied bids of 3,000 get", allocations(better + tied)[3:], [1_250, 1_250])
    figure("the bids above the price get", allocations(better + tied)[:3], [2_000, 3_000, 2_500])
    taker = [standard(2_000, 100_000, 1), standard(3_000, 0, 2), all_or_nothing(-3_000_000, 3)]
    figure("All or Nothing at -3,000,000 takes all", allocations(taker), [0, 0, 10_000])
    equal = [standard(10_000, 500, 1), all_or_nothing(500, 2)]
    figure("the two prices where they are equal", [standard_price(equal), all_price(equal)], [500, 500])
    figure("All or Nothing takes all where the prices are equal", allocations(equal), [0, 10_000])
    figure("Standard bids of 9,999 parts alone get", allocations([standard(9_999, 7)]), [0])


def the_average():
    bids = [standard(1, -10), standard(4, -11)]
    taken = sorted([-10] * 1 + [-11] * 4, reverse=True)[:3]
    figure("the sum over the best 3 parts", sum(taken), -32)
    figure("the average over them", average(1, 3, bids), -11)
    figure("BP with a requirement of 3", bp(1, 3, bids), -11)


def the_classes():
    price, pri = -12_000_000, 4_000_000
    figure("PRI 0, 1, 2, 3", [pri_refusal(n) for n in (0, 1, 2, 3)], [6, 6, None, 6])
    figure("PRI 2,000,000,000 and two above", [pri_refusal(n) for n in (2_000_000_000, 2_000_000_002)], [None, 6])
    figure("the senior threshold", senior_threshold(price, pri), -14_000_000)
    figure("the subordinate threshold", subordinate_threshold(price, pri), -18_000_000)
    for best, expected, senior in (
        (-13_999_999, "Senior", 10),
        (-14_000_000, "Split", 10),
        (-15_000_000, "Split", 7),
        (-18_000_000, "Split", 0),
        (-18_000_001, "Subordinate", 0),
    ):
        figure(f"BP {best:,} is", class_of(best, 5_000, price, pri), expected)
        figure(f"BP {best:,}, senior part of 10", senior_part(10, best, 5_000, price, pri), senior)
        figure(f"BP {best:,}, subordinate part of 10", subordinate_part(10, best, 5_000, price, pri), 10 - senior)
    figure("BP absent, requirement 0", class_of(None, 0, price, pri), "Excused")
    figure("BP absent, requirement 0, senior part of 10", senior_part(10, None, 0, price, pri), 10)
    figure("BP absent, requirement 1", class_of(None, 1, price, pri), "Non-bidding")
    figure("BP absent, requirement 1, senior part of 10", senior_part(10, None, 1, price, pri), 0)


if __name__ == "__main__":
    the_share_rule()
    the_bids()
    the_price()
    what_each_bid_gets()
    the_average()
    the_classes()
    print("all figures hold")
