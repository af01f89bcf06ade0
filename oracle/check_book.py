"""Checks book.py: the figures of docs/RULES.md, each refusal and what every book keeps to.

`check_book.py [PLANNED WILD]` takes the numbers of random lives with and without a plan.
"""

import copy
import itertools
import os
import random
import sys
from collections import Counter

import console
import random_life
from book import MOST_LOSS, MOST_MONEY, Book
from resources import Deposit, Pool, refusal
from rules import shares

HERE = os.path.dirname(os.path.abspath(__file__))
POOL_SEATS = (1, 2, 3, 5, 6, 7)
TALLY = Counter()


def make(book, call):
    # the answer to one call or question, given as (name, values ..)
    return console.call_of(book, call[0])(*call[1:])


def take(book, *calls):
    # makes calls of which none may be refused; the last answer
    for call in calls:
        answer = make(book, call)
        assert isinstance(answer, tuple), (call, answer)
    return answer


# ---- the figures


def book_of_seven():
    # capacities 5, 7 (weights 2, 3, 2), 10, 4, 0, 0, 0: member 4 is Non-bidding, 1 to 3 are
    # Subordinate and 5 is Senior
    book = Book(Deposit(4))
    for member, fund in ((1, 2), (2, 3), (3, 2), (4, 5), (5, 10)):
        take(book, ("enrol", member, fund, 0))
    take(book, ("open", [(10_000, 10_000, 2)]), ("bid", 5, 1, "standard", 10_000, 0))
    for member in (1, 2, 3):
        take(book, ("bid", member, 1, "standard", 5_000, -100))
    assert take(book, ("close",)) == (0, 26)
    return book


def check_standing():
    book = book_of_seven()
    assert [book.seat(s)[0] for s in range(1, 8)] == [5, 7, 10, 4, 0, 0, 0]
    assert book.charge(9) == (9, 0)
    assert [book.bears(m, 2) for m in (1, 2, 3)] == [(1,), (1,), (2,)]
    assert book.recover(1) == (1, 0)
    assert [book.bears(m, 2) for m in (1, 2, 3)] == [(0,), (2,), (1,)]
    assert book.charge(100) == (18, 82)
    assert [book.seat(s)[1] for s in range(1, 8)] == [5, 7, 10, 4, 0, 0, 0]
    assert book.recover(100) == (26, 74)
    assert book.conclude() == (0,)


def check_lot_funds():
    # a fund of 100 over 3,333 and 6,667 gives 33 and 67: subordinate in lot 1, senior in lot 2
    assert shares(100, [3_333, 6_667]) == [33, 67]
    book = Book(Deposit(0))
    take(book, ("enrol", 1, 100, 0), ("enrol", 2, 0, 0))
    take(book, ("open", [(3_333, 10_000, 2), (6_667, 10_000, 2)]))
    take(book, ("bid", 2, 1, "all", 10_000, 0), ("bid", 1, 1, "standard", 10_000, -4))
    take(book, ("bid", 1, 2, "standard", 10_000, 0))
    assert take(book, ("close",)) == (0, 100)
    assert (book.seat(2), book.seat(3)) == ((33, 0), (67, 0))


def check_empty():
    # an open with no members is accepted; without bids all lots fail and Resting returns
    book = Book(Pool([1, 2]))
    assert book.open([(10_000, 10_000, 2)]) == ()
    assert book.bid(1, 1, "all", 10_000, 0) == 3
    assert book.close() == (1, 0)
    assert book.phase() == ("Resting",)


def check_resource_with_standing():
    # a new book stands its resource at 0
    deposit = Deposit(9)
    deposit.stand_at(4)
    Book(deposit)
    assert (deposit.capacity(), deposit.standing()) == (9, 0)


def check_order_of_refusals():
    # where several reasons apply the lowest number is answered
    book = Book(Deposit(0))
    assert book.enrol(33, 2**64 - 1, 0) == 2
    take(book, ("enrol", 1, MOST_MONEY, 0), ("enrol", 2, 0, 0))
    assert book.enrol(1, MOST_MONEY + 1, 0) == 4
    assert book.enrol(3, 0, MOST_MONEY + 1) == 5
    assert book.top_up(3, MOST_MONEY + 1, 0) == 3
    assert book.top_up(1, 1, 0) == 5
    assert book.top_up(1, 0, MOST_MONEY) == ()
    assert book.open([]) == 6
    assert book.open([(2_000, 10_000, 2)] * 5) == 6
    assert book.excuse(0, 0) == 1
    take(book, ("open", [(10_000, 15_000, 2_000_000_000)]), ("bid", 1, 1, "all", 10_000, 5))
    take(book, ("excuse", 1, 1), ("excuse", 1, 1))
    assert book.bid(3, 2, "all", 0, 0) == 2
    assert book.bid(3, 1, "all", 0, 0) == 3
    assert book.bid(1, 1, "all", 0, 0) == 5
    assert book.bid(1, 1, "all", 9_999, 0) == 7
    assert book.bid(1, 1, "all", 10_000, 0) == 8
    assert book.bid(1, 1, "standard", 1, 0) == 10
    for _ in range(63):
        take(book, ("bid", 2, 1, "standard", 1, 0))
    assert book.bid(1, 1, "standard", 1, 0) == 9
    assert book.charge(MOST_LOSS + 1) == 1
    assert (book.price(1), book.requirement(3, 1), book.requirement(3, 2)) == (1, 3, 2)
    assert book.close() == (0, MOST_MONEY * 2)
    assert (book.bears(3, 4), book.bears(3, 1), book.bears(1, 8)) == (2, 3, 2)
    assert (book.allocation(1, 65), book.allocation(1, 0), book.allocation(2, 1)) == (2, 2, 2)
    assert (book.charge(MOST_LOSS + 1), book.recover(MOST_LOSS + 1)) == (5, 5)
    assert book.charge(MOST_LOSS) == (MOST_MONEY * 2, MOST_LOSS - MOST_MONEY * 2)


def check_scripts():
    # what the console prints for each stored script is what stands beside it
    examples = os.path.join(HERE, "..", "examples")
    for folder, name in ((HERE, "lives"), (examples, "default"), (examples, "refusals")):
        with open(os.path.join(folder, name + ".txt"), "rb") as script:
            printed = b"".join(console.run(script))
        with open(os.path.join(folder, name + ".out"), "rb") as expected:
            assert printed == expected.read(), name


# ---- refusals, by another way: all the reasons that apply, of which the lowest number counts

BOTH = ("Bidding", "Charging")
EVERY = ("Resting",) + BOTH

# the phases that a call or a question belongs to, and what it takes
FORMS = {
    "enrol": (("Resting",), ("member", "fund", "assessment")),
    "top-up": (("Resting",), ("member", "fund", "assessment")),
    "release": (("Resting",), ("member",)),
    "open": (("Resting",), ("lots",)),
    "excuse": (("Bidding",), ("member", "lot")),
    "bid": (("Bidding",), ("member", "lot", "kind", "size", "price")),
    "close": (("Bidding",), ()),
    "charge": (("Charging",), ("loss",)),
    "recover": (("Charging",), ("loss",)),
    "conclude": (("Charging",), ()),
    "phase": (EVERY, ()),
    "member": (EVERY, ("member",)),
    "requirement": (BOTH, ("member", "lot")),
    "price": (("Charging",), ("lot",)),
    "allocation": (("Charging",), ("lot", "entry")),
    "average": (("Charging",), ("member", "lot")),
    "class": (("Charging",), ("member", "lot")),
    "seat": (("Charging",), ("seat",)),
    "bears": (("Charging",), ("member", "seat")),
}
QUESTIONS = list(FORMS)[10:]


class Record:
    """What the accepted calls of a life have made, kept apart from the book."""

    def __init__(self, first_capacity):
        self.first_capacity = first_capacity
        self.phase = "Resting"
        self.amounts = {}  # member: (fund, assessment)
        self.lots = []  # (weight, requirement, PRI)
        self.bids = []  # for each lot, (member, kind, size, price) in entry order
        self.excused = set()  # (member, lot)
        self.paid_in = self.paid_out = self.covered = self.returned = 0
        self.net = 0  # covered less returned since the last close
        self.calls = []  # all of them, refused ones too
        self.begun = 0  # how many of them there were up to the last close

    def reasons(self, name, values):
        # the numbers of all refusals that apply
        phases, fields = FORMS[name]
        v = dict(zip(fields, values, strict=True))
        found = set() if self.phase in phases else {1}
        found |= self._numbers(name, v) | self._money(name, v)
        if name == "open":
            found |= self._lots(v["lots"])
        if name == "bid" and 1 <= v["lot"] <= len(self.bids):
            found |= self._bid(v)
        return found

    def _numbers(self, name, v):
        found = set()
        ranges = {"member": 32, "lot": len(self.bids), "seat": 7}
        if any(field in v and not 1 <= v[field] <= most for field, most in ranges.items()):
            found.add(2)
        if "entry" in v and 2 not in found and not 1 <= v["entry"] <= len(self.bids[v["lot"] - 1]):
            found.add(2)
        if name == "bears" and v["seat"] == 4:
            found.add(2)
        if "member" in v and name == "enrol" and v["member"] in self.amounts:
            found.add(4)
        if "member" in v and name != "enrol" and v["member"] not in self.amounts:
            found.add(3)
        return found

    def _money(self, name, v):
        # a fund, an assessment or a total above 100,000,000; a loss above 10,000,000,000
        given = [v.get("fund", 0), v.get("assessment", 0)]
        if name == "top-up" and v["member"] in self.amounts:
            given += [old + new for old, new in zip(self.amounts[v["member"]], given)]
        return {5} if max(given) > 10**8 or v.get("loss", 0) > 10**10 else set()

    def _lots(self, lots):
        fits = len(lots) in (1, 2, 3, 4) and sum(weight for weight, _, _ in lots) == 10_000
        for weight, requirement, pri in lots:
            fits = fits and weight != 0 and requirement in range(10_000, 15_001)
            fits = fits and pri in range(2, 2_000_000_001, 2)
        return set() if fits else {6}

    def _bid(self, v):
        bids, is_all = self.bids[v["lot"] - 1], v["kind"] == "all"
        rows = (
            (5, v["size"] not in range(1, 10_001) or abs(v["price"]) > 2_000_000_000),
            (7, is_all and v["size"] != 10_000),
            (8, is_all and any(bid[:2] == (v["member"], "all") for bid in bids)),
            (9, len(bids) == 64),
            (10, (v["member"], v["lot"]) in self.excused),
        )
        return {number for number, applies in rows if applies}

    def enter(self, name, values, answer):
        # takes note of an accepted call
        if name == "enrol":
            self.amounts[values[0]] = values[1:]
            self.paid_in += sum(values[1:])
        elif name == "top-up":
            old = self.amounts[values[0]]
            self.amounts[values[0]] = (old[0] + values[1], old[1] + values[2])
            self.paid_in += sum(values[1:])
        elif name == "release":
            assert answer == self.amounts.pop(values[0])
            self.paid_out += sum(answer)
        elif name == "open":
            self.phase, self.lots = "Bidding", values[0]
            self.bids, self.excused = [[] for _ in values[0]], set()
        elif name == "excuse":
            self.excused.add(tuple(values))
        elif name == "bid":
            self.bids[values[1] - 1].append((values[0],) + values[2:])
            assert answer == (len(self.bids[values[1] - 1]),)
        elif name == "close":
            self.net, self.begun = 0, len(self.calls)
            if answer[0] == len(self.bids):
                assert answer[1] == 0
                self.phase, self.bids = "Resting", []
            else:
                self.phase = "Charging"
        elif name == "charge":
            assert sum(answer) == values[0]
            self.covered += answer[0]
            self.net += answer[0]
        elif name == "recover":
            assert sum(answer) == values[0] and answer[0] == min(values[0], self.net)
            self.returned += answer[0]
            self.net -= answer[0]
        elif name == "conclude":
            assert answer == (self.net,)
            self.phase, self.bids = "Resting", []


# ---- what every book keeps to


def picture(book):
    # all that a book holds, to see that nothing has changed
    lots = [(lot[:3], list(lot.bids), set(lot.excused)) for lot in book._lots]
    house = repr(vars(book._house))
    return (book._phase, dict(book._members), lots, book._net, house)


def seats_of(book):
    return [book.seat(s) for s in range(1, 8)]


def borne_of(book, members):
    # what each member bears in each pool
    return {(m, s): book.bears(m, s)[0] for m in members for s in POOL_SEATS}


def weights_of(book, members):
    # a member's weight is what it bears where all seats stand at their capacity
    full = copy.deepcopy(book)
    full.charge(MOST_LOSS)
    assert all(capacity == standing for capacity, standing in seats_of(full))
    return borne_of(full, members)


def check_balance(book, record):
    # c + paid in + returned = paid out + covered + free now
    free = 0
    for m, amounts in record.amounts.items():
        fund, assessment, fund_borne, assessment_borne = book.member(m)
        assert (fund, assessment) == amounts
        assert 0 <= fund_borne <= fund and 0 <= assessment_borne <= assessment
        free += fund - fund_borne + assessment - assessment_borne
    free += book._house.capacity() - book._house.standing()
    given = record.first_capacity + record.paid_in + record.returned
    assert given == record.paid_out + record.covered + free


def check_seats(book, record):
    # no seat bears a dollar while an earlier one has a dollar free, none is above its capacity
    seats = seats_of(book)
    assert seats[3] == (book._house.capacity(), book._house.standing())
    assert sum(standing for _, standing in seats) == record.net
    before = 0
    for at, (capacity, standing) in enumerate(seats):
        assert 0 <= standing <= capacity
        assert standing == 0 or all(c == s for c, s in seats[:at])
        assert standing == min(capacity, max(0, record.net - before))
        before += capacity


def check_pools(book, record, weights):
    # each member bears its proportion to within less than one dollar
    borne = borne_of(book, record.amounts)
    for s in POOL_SEATS:
        capacity, standing = book.seat(s)
        assert sum(weights[m, s] for m in record.amounts) == capacity
        assert sum(borne[m, s] for m in record.amounts) == standing
        for m in record.amounts:
            assert 0 <= borne[m, s] <= weights[m, s]
            if capacity == 0:
                assert borne[m, s] == 0
            else:
                assert abs(borne[m, s] * capacity - standing * weights[m, s]) < capacity
    for m in record.amounts:
        fund_borne = sum(borne[m, s] for s in (1, 2, 3))
        assessment_borne = sum(borne[m, s] for s in (5, 6, 7))
        assert book.member(m)[2:] == (fund_borne, assessment_borne)


def check_weights(book, record, weights, failed):
    # a Non-bidding member is in seats 1 and 5 with all it has and in no other; another is in
    # neither, and in the other seats with all it has where no lot failed
    for m, amounts in record.amounts.items():
        classes = {book.class_in(m, lot)[0] for lot in range(1, len(record.bids) + 1)}
        TALLY.update(f"class {kind}" for kind in classes)
        low = (weights[m, 1], weights[m, 5])
        high = (weights[m, 2] + weights[m, 3], weights[m, 6] + weights[m, 7])
        if "Non-bidding" in classes:
            assert classes == {"Non-bidding"} and low == amounts and high == (0, 0)
        else:
            assert low == (0, 0)
            assert all(h <= a for h, a in zip(high, amounts))
            assert failed > 0 or high == amounts
    for lot, bids in enumerate(record.bids, start=1):
        parts = sum(book.allocation(lot, entry)[0] for entry in range(1, len(bids) + 1))
        assert parts == (0 if book.price(lot) == (None,) else 10_000)


def check_requirements(book, record):
    # within less than one part of the proportion by funds; 0 if a call has excused the member
    funds = sum(fund for fund, _ in record.amounts.values())
    for lot, (_, requirement, _) in enumerate(record.lots, start=1):
        asked = {m: book.requirement(m, lot)[0] for m in record.amounts}
        for m, (fund, _) in record.amounts.items():
            if (m, lot) in record.excused or fund == 0:
                assert asked[m] == 0
            else:
                assert abs(asked[m] * funds - requirement * fund) < funds
        if funds > 0 and not any((m, lot) in record.excused for m in record.amounts):
            assert sum(asked.values()) == requirement


def check_twin(rng, book, record):
    # another book with the same calls up to the close and the same net loss since is alike
    twin = Book(a_house(rng, record.first_capacity))
    for call in record.calls[: record.begun]:
        make(twin, call)
    assert twin.phase() == ("Charging",)
    total = sum(capacity for capacity, _ in seats_of(twin))
    net = 0
    for _ in range(rng.randint(0, 4)):
        net += twin.charge(rng.randint(0, total))[0]
        net -= twin.recover(rng.randint(0, total))[0]
    if net <= record.net:
        take(twin, ("charge", record.net - net))
    else:
        take(twin, ("recover", net - record.net))
    assert seats_of(twin) == seats_of(book)
    assert borne_of(twin, record.amounts) == borne_of(book, record.amounts)
    TALLY["twins"] += 1


# ---- prices, classes and weights by another way, from the calls alone


def by_sums(amount, weights):
    # the share rule, from the sums of the first weights
    sums = [0] + list(itertools.accumulate(weights))
    ends = [amount * s // max(1, sums[-1]) for s in sums]
    return [b - a for a, b in zip(ends, ends[1:])]


def selling_price(bids):
    # the greatest price that sells the lot
    def sells(price):
        standard = sum(size for _, kind, size, p in bids if kind == "standard" and p >= price)
        return standard >= 10_000 or any(kind == "all" and p >= price for _, kind, _, p in bids)

    return max((p for *_, p in bids if sells(p)), default=None)


def best_price(member, requirement, bids):
    # the best m parts are those above q and, for the rest, parts at q
    m = max(1, requirement)
    own = [(size, p) for who, kind, size, p in bids if (who, kind) == (member, "standard")]
    counting = [p for who, kind, _, p in bids if (who, kind) == (member, "all")]
    enough = [q for _, q in own if sum(size for size, p in own if p >= q) >= m]
    if enough:
        q = max(enough)
        # m times q, and for each part above q what it is better by
        counting.append(q + sum(size * (p - q) for size, p in own if p > q) // m)
    return max(counting, default=None)


def class_by_gap(best, requirement, price, pri):
    # by twice the gap between the lot's price and BP: up to PRI, up to three PRIs, or more
    if best is None:
        return "Non-bidding" if requirement else "Excused"
    gap = 2 * (price - best)
    return "Senior" if gap < pri else "Split" if gap <= 3 * pri else "Subordinate"


def senior_by_gap(amount, kind, best, price, pri):
    if kind == "Split":
        return amount * (3 * pri - 2 * (price - best)) // (2 * pri)
    return amount if kind in ("Senior", "Excused") else 0


def requirements_by_sums(record):
    # for each lot, the requirement of each member
    members = sorted(record.amounts)
    result = []
    for lot, (_, requirement, _) in enumerate(record.lots, start=1):
        asked = by_sums(requirement, [record.amounts[m][0] for m in members])
        pairs = zip(members, asked)
        result.append({m: 0 if (m, lot) in record.excused else a for m, a in pairs})
    return result


def member_by_another_way(record, m, needs, prices):
    # the member's BPs and classes in the lots, and its weights in the pool seats
    best = [best_price(m, need[m], bids) for need, bids in zip(needs, record.bids)]
    weights = {s: 0 for s in POOL_SEATS}
    if any(b is None and need[m] > 0 for b, need in zip(best, needs)):
        weights[1], weights[5] = record.amounts[m]
        return best, ["Non-bidding" for _ in best], weights
    classes = [None for _ in best]
    for seats, amount in zip(((2, 3), (6, 7)), record.amounts[m]):
        lot_amounts = by_sums(amount, [weight for weight, _, _ in record.lots])
        for at, price in enumerate(prices):
            if price is not None:
                pri = record.lots[at][2]
                classes[at] = class_by_gap(best[at], needs[at][m], price, pri)
                senior = senior_by_gap(lot_amounts[at], classes[at], best[at], price, pri)
                weights[seats[0]] += lot_amounts[at] - senior
                weights[seats[1]] += senior
    return best, classes, weights


def check_by_another_way(book, record, weights):
    needs = requirements_by_sums(record)
    prices = [selling_price(bids) for bids in record.bids]
    lots = range(1, len(prices) + 1)
    assert [book.price(lot) for lot in lots] == [(price,) for price in prices]
    for m in record.amounts:
        best, classes, own = member_by_another_way(record, m, needs, prices)
        best = [None if price is None else b for b, price in zip(best, prices)]
        assert [book.requirement(m, lot) for lot in lots] == [(need[m],) for need in needs]
        assert [book.average(m, lot) for lot in lots] == [(b,) for b in best]
        assert [book.class_in(m, lot) for lot in lots] == [(kind,) for kind in classes]
        assert own == {s: weights[m, s] for s in POOL_SEATS}


# ---- random lives


def a_house(rng, capacity):
    # a deposit or a pool of that capacity
    if rng.random() < 0.5:
        return Deposit(capacity)
    least = max(1, -(-capacity // MOST_MONEY))
    weights = shares(capacity, [1] * rng.randint(least, 32))
    for _ in range(20):
        a, b = rng.randrange(len(weights)), rng.randrange(len(weights))
        moved = rng.randint(0, min(weights[a], MOST_MONEY - weights[b]))
        weights[a] -= moved
        weights[b] += moved
    return Pool(weights)


def wild_life(rng):
    # calls without a plan, with few members and bids that mostly sell their lots
    house = rng.choice((0, 1, 5, 20))
    yield ("house", house)
    lots = [[(10_000, 10_000, 2)], [(4_000, 12_345, 4), (6_000, 15_000, 2)], [(9_999, 10_000, 2)]]
    while True:
        m, lot = rng.choice((0, 1, 1, 2, 2, 3, 3, 4, 32, 33)), rng.choice((0, 1, 1, 1, 2, 2, 3))
        amounts = (rng.randint(0, 9), rng.randint(0, 9))
        price = rng.randint(-4, 4)
        yield rng.choice(
            (
                ("enrol", m) + amounts,
                ("enrol", m) + amounts,
                ("top-up", m) + amounts,
                ("release", m),
                ("open", rng.choice(lots)),
                ("open", rng.choice(lots)),
                ("excuse", m, lot),
                ("bid", m, lot, "standard", rng.choice((1, 4_000, 10_000)), price),
                ("bid", m, lot, "standard", rng.choice((1, 4_000, 10_000)), price),
                ("bid", m, lot, "all", rng.choice((9_999, 10_000)), price),
                ("charge", rng.randint(0, 30)),
                ("charge", rng.randint(0, 30)),
                ("recover", rng.randint(0, 12)),
                ("close",) if rng.random() < 0.4 else ("phase",),
                ("conclude",) if rng.random() < 0.4 else ("seat", rng.randint(0, 8)),
                ("class", m, lot),
            )
        )


def with_strays(rng, calls, book):
    # some more calls with any numbers in between, many of which are refused
    for call in calls:
        yield call
        while rng.random() < 0.15:
            yield random_life.stray(rng, book, 50, rng.randint(1, 4))


def one_call(books, record, call):
    # makes the call on both books and checks it against the record; its answer, None if there is
    # nothing to take note of
    before = [picture(book) for book in books]
    answers = [make(book, call) for book in books]
    assert answers[0] == answers[1], (call, answers)
    record.calls.append(call)
    answer = answers[0]
    reasons = record.reasons(call[0], call[1:])
    refused = isinstance(answer, int)
    assert (answer if refused else None) == min(reasons, default=None), (call, answer, reasons)
    if refused or call[0] in QUESTIONS:
        assert before == [picture(book) for book in books], call
        TALLY[f"refused {answer}" if refused else "questions answered"] += 1
        return None
    TALLY["calls accepted"] += 1
    record.enter(call[0], call[1:], answer)
    return answer


def after_close(books, record, answer):
    # checks the pools that the close has filled; their weights
    failed, capacity = answer
    TALLY["lots failed"] += failed
    if record.phase == "Resting":
        TALLY["auctions dropped"] += 1
        return None
    TALLY["auctions charged"] += 1
    assert sum(c for c, _ in seats_of(books[0])) == capacity
    weights = weights_of(books[0], record.amounts)
    check_weights(books[0], record, weights, failed)
    check_requirements(books[0], record)
    check_by_another_way(books[0], record, weights)
    return weights


def one_life(rng, calls, limit):
    # a life on two books, over a deposit and over a house of either kind
    first = next(calls)[1]
    books = [Book(Deposit(first)), Book(a_house(rng, first))]
    record, weights = Record(first), None
    for _, call in zip(range(limit), with_strays(rng, calls, books[0])):
        if call[0] == "house":
            assert refusal(Deposit, call[1]) == 5
            continue
        lowered = {}
        if call[0] == "conclude" and record.phase == "Charging":
            now = {m: books[0].member(m) for m in record.amounts}
            lowered = {m: (f - fb, a - ab) for m, (f, a, fb, ab) in now.items()}
        answer = one_call(books, record, call)
        if answer is None:
            continue
        if call[0] == "close":
            weights = after_close(books, record, answer)
        if call[0] == "conclude":
            record.amounts = lowered
        few = len(record.amounts) <= 8
        if record.phase != "Charging" or few or rng.random() < 0.2:
            check_balance(books[1], record)
        if record.phase == "Charging":
            check_seats(books[1], record)
            if few or rng.random() < 0.1:
                check_pools(books[1], record, weights)
            if rng.random() < (0.2 if few else 0.02):
                check_twin(rng, books[0], record)
    TALLY["lives"] += 1


def check_random_lives(planned, wild):
    for seed in range(planned):
        rng = random.Random(seed)
        one_life(rng, random_life.one_book(rng, rng.choice((8, 20, 40, 150))), 1_500)
    for seed in range(wild):
        rng = random.Random(-1 - seed)
        one_life(rng, wild_life(rng), 400)


def summary():
    refused = sum(n for what, n in TALLY.items() if what.startswith("refused"))
    by_number = " ".join(f"{n}:{TALLY[f'refused {n}']}" for n in range(1, 11))
    names = ("Senior", "Split", "Subordinate", "Excused", "Non-bidding", "None")
    classes = " ".join(f"{kind}:{TALLY[f'class {kind}']}" for kind in names)
    return (
        f"book: figures hold; {TALLY['lives']} lives, {TALLY['calls accepted']} calls accepted, "
        f"{TALLY['questions answered']} questions answered, {refused} refused ({by_number}), "
        f"{TALLY['auctions charged']} auctions charged, {TALLY['auctions dropped']} dropped, "
        f"{TALLY['lots failed']} lots failed, members by class ({classes}), "
        f"{TALLY['twins']} pairs alike; all statements hold"
    )


if __name__ == "__main__":
    check_standing()
    check_lot_funds()
    check_empty()
    check_resource_with_standing()
    check_order_of_refusals()
    check_scripts()
    check_random_lives(*([int(n) for n in sys.argv[1:3]] or [60, 120]))
    print(summary())
