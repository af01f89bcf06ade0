"""The book (docs/RULES.md, 'The book'): members and one auction at a time over a house's resource.

Each call and each question returns either the number of its refusal or a tuple of its answers.
"""

from collections import namedtuple

import rules
from resources import Pool

MOST_MONEY = 100_000_000  # a fund, an assessment
MOST_LOSS = 10_000_000_000  # the amount of one charge or recovery
MOST_LOTS = 4
NUMBERS = range(1, rules.MOST_MEMBERS + 1)
FUND, ASSESSMENT = 0, 1  # places in a member's amounts
HOUSE_SEAT = 4

# bids are in entry order; excused has the members that a call has excused from the lot
Lot = namedtuple("Lot", "weight requirement pri bids excused")

# what became of a lot: its price, None if it failed, and by number the requirements and BPs
Result = namedtuple("Result", "lot price requirements best")


def lot_fits(weight, requirement, pri):
    # a weight is not 0, a requirement is 10,000 to 15,000, a PRI is even and within its limits
    return weight > 0 and 10_000 <= requirement <= 15_000 and rules.pri_refusal(pri) is None


def lots_fit(lots):
    # one to four lots, each as it must be, with weights that add up to 10,000
    if not 1 <= len(lots) <= MOST_LOTS:
        return False
    return all(lot_fits(*lot) for lot in lots) and sum(lot[0] for lot in lots) == 10_000


def non_bidding(member, results):
    # in one lot, failed or not, nothing counts and the requirement is not 0
    at = member - 1
    return any(r.best[at] is None and r.requirements[at] != 0 for r in results)


def parts(member, lot_amount, result):
    # the subordinate and the senior part of a lot amount; a failed lot adds nothing
    if result.price is None:
        return (0, 0)
    best, requirement = result.best[member - 1], result.requirements[member - 1]
    senior = rules.senior_part(lot_amount, best, requirement, result.price, result.lot.pri)
    return (lot_amount - senior, senior)


class Book:
    """Resting, Bidding or Charging; the house's resource is its seat 4."""

    def __init__(self, house):
        # a new book stands its resource at 0, has no members and is Resting
        house.stand_at(0)
        self._house = house
        self._members = {}  # number: (fund, assessment)
        self._rest()

    def _rest(self):
        # the auction and its bids are dropped
        self._phase = "Resting"
        self._lots = []
        self._net = 0

    # ---- reasons that several calls and questions have in common

    def _no_member(self, member):
        # 2 for a number that no member can have, 3 for one that is not enrolled
        if member not in NUMBERS:
            return 2
        return None if member in self._members else 3

    def _no_lot(self, lot):
        # 2 for a lot outside the lots opened
        return None if 1 <= lot <= len(self._lots) else 2

    def _no_member_or_lot(self, member, lot):
        # 2 for either number goes before 3
        return self._no_lot(lot) or self._no_member(member)

    # ---- the ten calls

    def enrol(self, member, fund, assessment):
        # makes the number a member with these amounts
        if self._phase != "Resting":
            return 1
        if member not in NUMBERS:
            return 2
        if member in self._members:
            return 4
        if fund > MOST_MONEY or assessment > MOST_MONEY:
            return 5
        self._members[member] = (fund, assessment)
        return ()

    def top_up(self, member, fund, assessment):
        # adds both amounts to the member's; neither an amount nor a total may be above the limit
        if self._phase != "Resting":
            return 1
        if self._no_member(member):
            return self._no_member(member)
        new_fund = self._members[member][FUND] + fund
        new_assessment = self._members[member][ASSESSMENT] + assessment
        if new_fund > MOST_MONEY or new_assessment > MOST_MONEY:
            return 5  # an amount above the limit makes its total be above it too
        self._members[member] = (new_fund, new_assessment)
        return ()

    def release(self, member):
        # removes the member and answers its fund and its assessment
        if self._phase != "Resting":
            return 1
        if self._no_member(member):
            return self._no_member(member)
        return self._members.pop(member)

    def open(self, lots):
        # lots are (weight, requirement, PRI) in order; starts Bidding without bids and excuses
        if self._phase != "Resting":
            return 1
        if not lots_fit(lots):
            return 6
        self._lots = [Lot(*lot, [], set()) for lot in lots]
        self._phase = "Bidding"
        return ()

    def excuse(self, member, lot):
        # makes the member's requirement in the lot 0; its bids remain
        if self._phase != "Bidding":
            return 1
        if self._no_member_or_lot(member, lot):
            return self._no_member_or_lot(member, lot)
        self._lots[lot - 1].excused.add(member)
        return ()

    def bid(self, member, lot, kind, size, price):
        # enters the bid in the lot and answers its entry number
        if self._phase != "Bidding":
            return 1
        if self._no_member_or_lot(member, lot):
            return self._no_member_or_lot(member, lot)
        bids, entered = self._lots[lot - 1].bids, rules.Bid(member, kind, size, price)
        if rules.refusal(bids, entered):
            return rules.refusal(bids, entered)  # 5, 7, 8 or 9, as in a lot
        if member in self._lots[lot - 1].excused:
            return 10
        bids.append(entered)
        return (len(bids),)

    def close(self):
        # back to Resting if all lots fail, else to Charging with a net loss of 0
        if self._phase != "Bidding":
            return 1
        failed = sum(1 for lot in self._lots if rules.lot_price(lot.bids) is None)
        if failed == len(self._lots):
            self._rest()
            return (failed, 0)
        self._phase = "Charging"
        self._net = 0
        return (failed, self._capacity())

    def charge(self, amount):
        # covered is the lesser of the amount and what is free in all seats; N grows by it
        if self._phase != "Charging":
            return 1
        if amount > MOST_LOSS:
            return 5
        covered = min(amount, self._capacity() - self._net)
        self._stand_under(self._net + covered)
        return (covered, amount - covered)

    def recover(self, amount):
        # returned is the lesser of the amount and N; N falls by it
        if self._phase != "Charging":
            return 1
        if amount > MOST_LOSS:
            return 5
        returned = min(amount, self._net)
        self._stand_under(self._net - returned)
        return (returned, amount - returned)

    def conclude(self):
        # lowers every fund and assessment by what it bears and writes off the house's seat
        if self._phase != "Charging":
            return 1
        seats, net = self._seats(), self._net
        for m, (fund, assessment) in self._members.items():
            fund_borne, assessment_borne = self._borne(m, seats)
            self._members[m] = (fund - fund_borne, assessment - assessment_borne)
        self._house.write_off()
        self._rest()
        return (net,)

    # ---- requirements and classes

    def _amounts(self, which):
        # the funds or the assessments of all numbers in order, 0 for absent ones
        return [self._members[m][which] if m in self._members else 0 for m in NUMBERS]

    def _requirements(self, lot):
        # shares of the lot's requirement over all funds in number order; 0 where a call excused
        needs = rules.shares(lot.requirement, self._amounts(FUND))
        return [0 if m in lot.excused else needs[m - 1] for m in NUMBERS]

    def _result(self, lot):
        # the lot's price, and by number the requirement and BP by the lot's rules
        needs = self._requirements(lot)
        own = self._members  # an absent number has no bids and no BP
        best = [rules.bp(m, needs[m - 1], lot.bids) if m in own else None for m in NUMBERS]
        return Result(lot, rules.lot_price(lot.bids), needs, best)

    def _results(self):
        # in lot order
        return [self._result(lot) for lot in self._lots]

    # ---- the seats

    def _weights(self, which, results):
        # the weights of three pools: whole amounts of Non-bidding members, then the subordinate
        # and the senior parts of the lot amounts of all others, summed over the lots
        whole, subordinate, senior = ([0 for _ in NUMBERS] for _ in range(3))
        for m, amounts in self._members.items():
            if non_bidding(m, results):
                whole[m - 1] = amounts[which]
                continue
            lot_amounts = rules.shares(amounts[which], [lot.weight for lot in self._lots])
            for lot_amount, result in zip(lot_amounts, results):
                lower, upper = parts(m, lot_amount, result)
                subordinate[m - 1] += lower
                senior[m - 1] += upper
        return [whole, subordinate, senior]

    def _seats(self):
        # the seven seats, worked out anew: each stands at the lesser of its capacity and what of
        # N is left by the seats before it (the house stands there already, from the last call)
        results = self._results()
        funds = [Pool(weights) for weights in self._weights(FUND, results)]
        assessments = [Pool(weights) for weights in self._weights(ASSESSMENT, results)]
        seats = funds + [self._house] + assessments
        left = self._net
        for seat in seats:
            seat.fill(left)
            left -= seat.standing()
        return seats

    def _capacity(self):
        # of the seven seats together
        return sum(seat.capacity() for seat in self._seats())

    def _borne(self, member, seats):
        # a fund bears in seats 1 to 3, an assessment in seats 5 to 7
        by_fund = sum(seat.bears(member) for seat in seats[:3])
        by_assessment = sum(seat.bears(member) for seat in seats[4:])
        return (by_fund, by_assessment)

    def _stand_under(self, net):
        # takes a new N and has the seats, the house's among them, stand under it
        self._net = net
        self._seats()

    # ---- the questions

    def phase(self):
        # belongs to every phase and is never refused
        return (self._phase,)

    def member(self, member):
        # fund, assessment and what each bears, which is 0 outside Charging
        if self._no_member(member):
            return self._no_member(member)
        if self._phase != "Charging":
            return self._members[member] + (0, 0)
        return self._members[member] + self._borne(member, self._seats())

    def requirement(self, member, lot):
        # belongs to Bidding and Charging
        if self._phase == "Resting":
            return 1
        if self._no_member_or_lot(member, lot):
            return self._no_member_or_lot(member, lot)
        return (self._requirements(self._lots[lot - 1])[member - 1],)

    def price(self, lot):
        # None if the lot failed
        if self._phase != "Charging":
            return 1
        if self._no_lot(lot):
            return 2
        return (rules.lot_price(self._lots[lot - 1].bids),)

    def allocation(self, lot, entry):
        # the bid's parts; 2 for an entry number that names no bid
        if self._phase != "Charging":
            return 1
        if self._no_lot(lot) or not 1 <= entry <= len(self._lots[lot - 1].bids):
            return 2
        return (rules.allocations(self._lots[lot - 1].bids)[entry - 1],)

    def average(self, member, lot):
        # BP; None if nothing counts, and in a failed lot
        if self._phase != "Charging":
            return 1
        if self._no_member_or_lot(member, lot):
            return self._no_member_or_lot(member, lot)
        result = self._result(self._lots[lot - 1])
        return (None if result.price is None else result.best[member - 1],)

    def class_in(self, member, lot):
        # Non-bidding in one lot is Non-bidding in all; None for every other member of a failed lot
        if self._phase != "Charging":
            return 1
        if self._no_member_or_lot(member, lot):
            return self._no_member_or_lot(member, lot)
        results = self._results()
        if non_bidding(member, results):
            return ("Non-bidding",)
        here = results[lot - 1]
        if here.price is None:
            return (None,)
        best, requirement = here.best[member - 1], here.requirements[member - 1]
        return (rules.class_of(best, requirement, here.price, here.lot.pri),)

    def seat(self, seat):
        # capacity and standing
        if self._phase != "Charging":
            return 1
        if not 1 <= seat <= 7:
            return 2
        here = self._seats()[seat - 1]
        return (here.capacity(), here.standing())

    def bears(self, member, seat):
        # what the member bears in a pool; 2 for the house's seat, which no member pays
        if self._phase != "Charging":
            return 1
        if not 1 <= seat <= 7 or seat == HOUSE_SEAT:
            return 2
        if self._no_member(member):
            return self._no_member(member)
        return (self._seats()[seat - 1].bears(member),)

    # ---- for those who look on

    def enrolled(self):
        # the numbers of the members in order
        return sorted(self._members)

    def bids_in(self, lot):
        # how many bids the lot holds
        return len(self._lots[lot - 1].bids)
