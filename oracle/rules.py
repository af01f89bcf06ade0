"""The rules of docs/RULES.md, a short function for each, in whole numbers only."""

from collections import namedtuple

LOT = 10_000  # parts in a whole lot
MOST_BIDS = 64
MOST_MEMBERS = 32
MOST_PRICE = 2_000_000_000
MOST_PRI = 2_000_000_000

# kind is "standard" or "all"; size is in parts, price in dollars for the whole lot
Bid = namedtuple("Bid", "member kind size price")


def shares(amount, weights):
    # share i is amount * S(i) / W rounded down, less amount * S(i-1) / W rounded down
    whole = sum(weights)
    if whole == 0:
        return [0 for _ in weights]
    result = []
    for i in range(len(weights)):
        up_to = amount * sum(weights[: i + 1]) // whole
        before = amount * sum(weights[:i]) // whole
        result.append(up_to - before)
    return result


def refusal(bids, bid):
    # the first reason that applies, in the order of the numbers; None for a bid that is taken
    if not 1 <= bid.member <= MOST_MEMBERS:
        return 2
    if not 1 <= bid.size <= LOT or not -MOST_PRICE <= bid.price <= MOST_PRICE:
        return 5
    if bid.kind == "all" and bid.size != LOT:
        return 7
    if bid.kind == "all" and any(b.kind == "all" and b.member == bid.member for b in bids):
        return 8
    if len(bids) >= MOST_BIDS:
        return 9
    return None


def standard_price(bids):
    # the greatest price at which the Standard bids at it or better add up to the lot or more
    standard = [b for b in bids if b.kind == "standard"]
    enough = [
        p
        for p in {b.price for b in standard}
        if sum(b.size for b in standard if b.price >= p) >= LOT
    ]
    return max(enough, default=None)


def all_price(bids):
    # the greatest price of an All or Nothing bid
    return max((b.price for b in bids if b.kind == "all"), default=None)


def lot_price(bids):
    # the greater of the two prices; None where neither is there and the lot fails
    both = [p for p in (standard_price(bids), all_price(bids)) if p is not None]
    return max(both, default=None)


def all_takes_lot(bids):
    # an All or Nothing bid takes all where its price is at least the Standard price, or alone
    by_standard, by_all = standard_price(bids), all_price(bids)
    return by_all is not None and (by_standard is None or by_all >= by_standard)


def allocations(bids):
    # the parts that each bid gets, in entry order
    price = lot_price(bids)
    result = [0 for _ in bids]
    if price is None:
        return result
    if all_takes_lot(bids):
        # the All or Nothing bid at the price with the lowest entry number gets everything
        winner = min(i for i, b in enumerate(bids) if b.kind == "all" and b.price == price)
        result[winner] = LOT
        return result
    # Standard bids above the price get their size
    for i, b in enumerate(bids):
        if b.kind == "standard" and b.price > price:
            result[i] = b.size
    # Standard bids at the price share the rest, in entry order, with sizes as weights
    tied = [i for i, b in enumerate(bids) if b.kind == "standard" and b.price == price]
    rest = LOT - sum(result)
    for i, share in zip(tied, shares(rest, [bids[i].size for i in tied])):
        result[i] = share
    return result


def average(member, requirement, bids):
    # the best m parts, better price first and the last bid in part; their sum over m, rounded down
    m = requirement if requirement > 0 else 1
    own = [b for b in bids if b.member == member and b.kind == "standard"]
    if sum(b.size for b in own) < m:
        return None
    total, wanted = 0, m
    for b in sorted(own, key=lambda b: b.price, reverse=True):
        taken = min(b.size, wanted)
        total += b.price * taken
        wanted -= taken
    return total // m  # Python's // rounds toward minus infinity


def bp(member, requirement, bids):
    # the greater of the average and the price of the All or Nothing bid, of those that count
    counting = [b.price for b in bids if b.member == member and b.kind == "all"]
    mean = average(member, requirement, bids)
    if mean is not None:
        counting.append(mean)
    return max(counting, default=None)


def pri_refusal(pri):
    # a PRI is even and 2 to 2,000,000,000; another is refused with 6
    return None if 2 <= pri <= MOST_PRI and pri % 2 == 0 else 6


def senior_threshold(price, pri):
    # the lot's price less half of PRI
    return price - pri // 2


def subordinate_threshold(price, pri):
    # one PRI below the senior threshold
    return senior_threshold(price, pri) - pri


def class_of(best, requirement, price, pri):
    # the class of a member with BP best (None if absent) in a lot that has a price
    if best is None:
        return "Excused" if requirement == 0 else "Non-bidding"
    if best > senior_threshold(price, pri):
        return "Senior"
    if best < subordinate_threshold(price, pri):
        return "Subordinate"
    return "Split"


def senior_part(amount, best, requirement, price, pri):
    # all for Senior and Excused, nothing for Subordinate and Non-bidding, in proportion for Split
    kind = class_of(best, requirement, price, pri)
    if kind in ("Senior", "Excused"):
        return amount
    if kind == "Split":
        return amount * (best - subordinate_threshold(price, pri)) // pri
    return 0


def subordinate_part(amount, best, requirement, price, pri):
    # what the senior part leaves
    return amount - senior_part(amount, best, requirement, price, pri)
