"""Prints a random console script: `random_life.py N SEED` prints N commands, the same each time."""

import itertools
import random
import sys

from book import MOST_LOSS, MOST_MONEY, NUMBERS, Book
from console import FIRST_HOUSE, WIDTHS, call_of, fields_for
from resources import MOST_DEPOSIT, Deposit
from rules import LOT, MOST_BIDS, MOST_PRI, MOST_PRICE

SCALES = (9, 100, 20_000, 5_000_000, MOST_MONEY)
CROWDS = (2, 3, 4, 5, 6, 8, 12, 20, 32, 32)
MANNERS = ("full", "full", "full", "full", "all", "both", "twice", "excused", "leaves", "returns")
POOR_MANNERS = MANNERS + ("short", "none")

# words that are no number, bytes that are no text among them
JUNK = (b"x", b"+1", b"1.0", b"1e3", b"0x1f", b"--5", b"5-", b"-", b"#", b"1_000", b"\xff\xfe")
JUNK += (b"12\x0034", "\u0663".encode(), b"1\x0b", b"9" * 24, b"18446744073709551616", b"-1-")

# first words that are no command
STRANGERS = (b"sell", b"Phase", b"close.", b"top_up", b"class_in", b"0", b"\x80bid", b"\x00")


# ---- numbers


def money(rng, most):
    # 0 to most, at times one of the two
    return rng.choice((0, most, most)) if rng.random() < 0.12 else rng.randint(0, most)


def cut(rng, total, count):
    # count whole numbers of 1 or more that add up to total
    places = sorted(rng.sample(range(1, total), count - 1))
    return [b - a for a, b in zip([0] + places, places + [total])]


def a_member(rng, book):
    # mostly one that is enrolled, at times any number and at times none
    if book.enrolled() and rng.random() < 0.9:
        return rng.choice(book.enrolled())
    return rng.choice((0, 1, 32, 33, 65_535, rng.choice(NUMBERS)))


def a_lot(rng, count):
    # mostly one that was opened
    return rng.randint(1, count) if rng.random() < 0.93 else rng.choice((0, count + 1, 65_535))


# ---- Resting


def resting(rng, book, scale, crowd):
    # enrols up to the crowd, tops up, releases
    names = list(NUMBERS)
    rng.shuffle(names)
    for m in book.enrolled():
        if rng.random() < 0.12:
            yield ("release", m)
        elif rng.random() < 0.5:
            yield ("top-up", m, money(rng, scale), money(rng, scale))
    absent = [m for m in names if m not in book.enrolled()]
    for m in absent[: max(0, crowd - len(book.enrolled()))]:
        yield ("enrol", m, money(rng, scale), money(rng, scale))


def lots_to_open(rng, most_lots):
    # one to four lots with weights, requirements and PRIs as they must be
    count = rng.randint(1, most_lots)
    lots = []
    for weight in cut(rng, LOT, count):
        requirement = rng.choice((10_000, 15_000, rng.randint(10_000, 15_000)))
        pri = rng.choice((2, 10, 1_000, 4_000_000, 2 * rng.randint(1, MOST_PRI // 2)))
        lots.append((weight, requirement, pri))
    return lots


# ---- Bidding


def price_near(rng, centre, pri):
    # around the centre, so that all classes come about
    steps = rng.choice((0, 0, -pri // 2, -pri // 2 - pri, rng.randint(-2 * pri, pri // 2)))
    return max(-MOST_PRICE, min(MOST_PRICE, centre + steps + rng.randint(-1, 1)))


def standard_bids(rng, m, at, size, near):
    # Standard bids of one member that add up to the size
    size = max(1, min(3 * LOT, size))
    pieces = cut(rng, size, rng.randint(1, min(3, size)))
    return [("bid", m, at, "standard", min(LOT, piece), near()) for piece in pieces]


def member_plan(rng, m, at, requirement, manner, near):
    # what a member does in a lot
    if manner == "none":
        return []
    if manner == "short":
        return standard_bids(rng, m, at, requirement - rng.randint(1, 9), near)
    if manner == "excused":
        return [("excuse", m, at)]
    if manner == "all":
        return [("bid", m, at, "all", LOT, near())]
    plan = standard_bids(rng, m, at, requirement * rng.choice((10, 10, 15, 30)) // 10, near)
    if manner in ("both", "twice"):
        plan += [("bid", m, at, "all", LOT, near())] * (2 if manner == "twice" else 1)
    if manner in ("leaves", "returns"):
        plan.append(("excuse", m, at))  # after its bids
    if manner == "returns":
        plan.append(("bid", m, at, rng.choice(("standard", "all")), LOT, near()))
    return plan


def prices_in(rng, pri):
    # a way to choose the prices of a lot: around a centre, or from so few that many are equal
    centre = rng.choice((0, -MOST_PRICE, MOST_PRICE) + (rng.randint(-3 * pri, 3 * pri),) * 7)
    if rng.random() < 0.6:
        return lambda: price_near(rng, centre, pri)
    few = [price_near(rng, centre, pri) for _ in range(rng.randint(1, 3))]
    return lambda: rng.choice(few)


def lot_plan(rng, book, at, lot):
    # what all members do in a lot
    near = prices_in(rng, lot[2])
    lot_manners = rng.choice((("full",), ("full", "full", "excused"), MANNERS, POOR_MANNERS))
    plan = []
    for m in book.enrolled():
        (requirement,) = book.requirement(m, at)
        plan += member_plan(rng, m, at, requirement, rng.choice(lot_manners), near)
    return plan


def flood(rng, book, at):
    # bids until the lot is full and then a few more, some from a member that a call excuses
    beyond = 0
    for _ in range(150):
        m, price = a_member(rng, book), rng.randint(-9, 9)
        full = book.bids_in(at) == MOST_BIDS
        if full and beyond == 3:
            yield ("excuse", m, at)
        beyond += full
        kind, size = ("all", LOT) if rng.random() < 0.05 else ("standard", rng.randint(1, 600))
        yield ("bid", m, at, kind, size, price)
        if beyond == 6:
            return


def bidding(rng, book, lots, room):
    # all members' plans, lot after lot and member after member or in any order
    plans = [lot_plan(rng, book, at, lot) for at, lot in enumerate(lots, start=1)]
    plan = [call for each in plans for call in each]
    if rng.random() < 0.5:
        rng.shuffle(plan)
    yield from plan
    if room >= 40 and book.enrolled() and rng.random() < 0.12:
        yield from flood(rng, book, rng.randint(1, len(lots)))


# ---- Charging


def towards(rng, seats):
    # a charge or a recovery that brings the net loss into one of the seats or to one of its ends
    now = sum(standing for _, standing in seats)
    at = rng.choice([s for s in range(7) if seats[s][0] > 0] or [0])
    start = sum(capacity for capacity, _ in seats[:at])
    end = start + seats[at][0]
    inside = rng.randint(start, end)
    aim = max(0, rng.choice((inside, inside, end - 1, end, end + 1)))
    return ("charge", aim - now) if aim >= now else ("recover", now - aim)


def loss(rng, book):
    # mostly towards a seat; at times a few dollars, or more than there is
    seats = [book.seat(s) for s in range(1, 8)]
    if rng.random() < 0.75:
        return towards(rng, seats)
    over = sum(capacity for capacity, _ in seats) + rng.randint(0, 100)
    amount = rng.choice((rng.randint(0, 5), rng.randint(0, 5), over, MOST_LOSS))
    return (rng.choice(("charge", "recover")), amount)


def survey(rng, book, lots):
    # all that there is to ask about the lots and some members
    yield from [("price", at) for at in range(1, lots + 1)]
    yield from [("seat", seat) for seat in range(1, 8)]
    for m in rng.sample(book.enrolled(), min(4, len(book.enrolled()))):
        yield ("member", m)
        yield from [("class", m, at) for at in range(1, lots + 1)]
        yield from [("average", m, at) for at in range(1, lots + 1)]
        yield from [("bears", m, seat) for seat in (1, 2, 3, 5, 6, 7)]


def charging(rng, book, lots):
    # a few charges and recoveries, at times with a survey
    for _ in range(rng.randint(2, 7)):
        yield loss(rng, book)
        if rng.random() < 0.04:
            yield from survey(rng, book, lots)


# ---- questions and stray calls in between


def question(rng, book, lots):
    # mostly one that the phase has an answer for
    m, at = a_member(rng, book), a_lot(rng, max(1, lots))
    seat = rng.randint(1, 7) if rng.random() < 0.95 else rng.choice((0, 8, 65_535))
    entry = rng.randint(1, 8) if rng.random() < 0.9 else rng.choice((0, 64, 65, 65_535))
    everywhere = [("phase",), ("member", m), ("member", m)]
    in_auction = [("requirement", m, at)] * 3
    in_charging = [
        ("price", at),
        ("allocation", at, entry),
        ("average", m, at),
        ("class", m, at),
        ("class", m, at),
        ("seat", seat),
        ("seat", seat),
        ("bears", m, seat),
        ("bears", m, seat),
    ]
    questions = everywhere
    if book.phase() != ("Resting",) or rng.random() < 0.1:
        questions = questions + in_auction
    if book.phase() == ("Charging",) or rng.random() < 0.1:
        questions = questions + in_charging
    return rng.choice(questions)


def stray_lots(rng):
    # lots of which one number or the count is not as it must be
    lots = lots_to_open(rng, 4)
    at = rng.randrange(len(lots))
    weight, requirement, pri = lots[at]
    changed = (
        (0, requirement, pri),
        (weight + 1, requirement, pri),
        (weight, 9_999, pri),
        (weight, 15_001, pri),
        (weight, requirement, pri + 1),
        (weight, requirement, 0),
        (weight, requirement, 2_000_000_002),
    )
    lots[at] = rng.choice(changed)
    return [(2_000, 10_000, 2)] * 5 if rng.random() < 0.1 else lots


def to_the_limit(rng, book, m):
    # what a member's fund or assessment lacks to its limit, at times one more
    amounts = book.member(m)
    lacks = MOST_MONEY - amounts[rng.randrange(2)] if isinstance(amounts, tuple) else MOST_MONEY
    return lacks + rng.randint(0, 1)


def stray(rng, book, scale, lots):
    # a call with any numbers, mostly in its phase; it never ends Bidding or Charging
    m, at = a_member(rng, book), a_lot(rng, max(1, lots))
    most = rng.choice((scale, MOST_MONEY, MOST_MONEY + 1, 2**64 - 1))
    limit = to_the_limit(rng, book, m)
    size = rng.choice((0, 1, 9_999, 10_000, 10_001, 65_535, rng.randint(1, LOT)))
    price = rng.choice((0, 1, -1, MOST_PRICE, -MOST_PRICE, MOST_PRICE + 1, -MOST_PRICE - 1))
    calls = {
        "Resting": [
            ("enrol", rng.choice((m, rng.choice(NUMBERS))), money(rng, scale), money(rng, most)),
            ("enrol", m, money(rng, most), money(rng, scale)),
            ("top-up", m, money(rng, most), money(rng, scale)),
            ("top-up", m, *rng.choice(((0, limit), (limit, 0), (limit, limit)))),
            ("release", m if rng.random() < 0.3 else rng.choice((0, 33, rng.choice(NUMBERS)))),
            ("open", stray_lots(rng)),
            ("open", stray_lots(rng)),
        ],
        "Bidding": [
            ("excuse", m, at),
            ("bid", m, at, "standard", size, price),
            ("bid", m, at, "all", size, price),
            ("bid", m, at, "all", size, rng.randint(-scale, scale)),
            ("bid", m, at, "all", LOT, rng.randint(-scale, scale)),
            ("bid", m, at, "standard", LOT, rng.randint(-scale, scale)),
        ],
        "Charging": [
            ("charge", rng.choice((0, 1, MOST_LOSS, MOST_LOSS + 1))),
            ("recover", rng.choice((0, 1, MOST_LOSS + 1))),
        ],
    }
    phase = book.phase()[0]
    if rng.random() < 0.8:
        return rng.choice(calls[phase])
    others = [call for other in calls if other != phase for call in calls[other]]
    others.append(("close",) if phase != "Bidding" else ("conclude",))
    others.append(("house", rng.choice((MOST_DEPOSIT + 1, 2**64 - 1))))
    return rng.choice(others)


# ---- whole lives


def applied(book, call):
    # makes the call on the book that the next calls go by; a stray house is always refused
    if call[0] != "house":
        call_of(book, call[0])(*call[1:])
    return call


def among_others(rng, book, scale, lots, calls):
    # the calls, each applied before the next one is thought of, with others in between
    for call in calls:
        yield applied(book, call)
        while rng.random() < (0.7 if book.phase() == ("Charging",) else 0.25):
            yield applied(book, question(rng, book, lots))
        if rng.random() < (0.2 if book.phase() == ("Resting",) else 0.1):
            yield applied(book, stray(rng, book, scale, lots))


def auction(rng, book, scale, crowd, room):
    # from Resting to Resting
    yield from among_others(rng, book, scale, 0, resting(rng, book, scale, crowd))
    lots = lots_to_open(rng, max(1, min(4, room // crowd // 2)))
    yield from among_others(rng, book, scale, len(lots), [("open", lots)])
    calls = bidding(rng, book, lots, room)
    yield from among_others(rng, book, scale, len(lots), calls)
    yield from among_others(rng, book, scale, len(lots), [("close",)])
    if book.phase() == ("Charging",):
        calls = charging(rng, book, len(lots))
        yield from among_others(rng, book, scale, len(lots), calls)
        yield from among_others(rng, book, scale, 0, [("conclude",)])


def one_book(rng, room):
    # a house and several auctions; room is about how many calls an auction may have
    scale = rng.choice(SCALES)
    crowd = rng.choice([c for c in CROWDS if c <= max(2, room // 3)])
    house = rng.choice((scale, scale, crowd * scale, 0, MOST_DEPOSIT))
    house = rng.choice((rng.randint(0, min(house, MOST_DEPOSIT)), min(house, MOST_DEPOSIT)))
    yield ("house", house)
    book = Book(Deposit(house))
    for _ in range(rng.randint(3, 6)):
        yield from auction(rng, book, scale, crowd, room)


def life(rng, room):
    # calls without end, as (name, values ..); open has one value, the list of its lots; at times
    # a book is left in the middle of an auction
    while True:
        calls = one_book(rng, room)
        some = itertools.islice(calls, rng.randint(room // 2, 2 * room))
        yield from some if rng.random() < 0.2 else calls


def long_life(rng, room):
    # auctions without end on the console's first book, with a new scale at times
    book = Book(Deposit(FIRST_HOUSE))
    crowd = rng.choice([c for c in CROWDS if c <= max(2, room // 3)])
    while True:
        scale = rng.choice(SCALES)
        for _ in range(rng.randint(1, 4)):
            yield from auction(rng, book, scale, crowd, room)


# ---- the lines of a script


def in_words(call):
    # the words of a call in the console
    words = [call[0]]
    for value in call[1:]:
        words += [str(n) for lot in value for n in lot] if isinstance(value, list) else [str(value)]
    return [word.encode("ascii") for word in words]


def outside(rng, field):
    # a word that the field does not take
    if field == "kind":
        return rng.choice((b"half", b"Standard", b"ALL", b"al", b"1", b"\xe9"))
    least, most = WIDTHS[field]
    return rng.choice(JUNK + (b"%d" % (least - 1), b"%d" % (most + 1)) * 6)


def damaged(rng, words):
    # the words of a call, of which one is wrong, wanting or too many
    way = rng.choice(("name", "count", "value", "value", "value"))
    words = list(words)
    if way == "name":
        words[0] = rng.choice(STRANGERS)
    elif way == "count" or len(words) == 1:
        if len(words) > 1 and rng.random() < 0.5:
            words.pop()
        else:
            words.append(rng.choice((b"1", b"#", b"\xff")))
    else:
        fields = fields_for(words[0].decode("ascii"), len(words) - 1)
        for at in rng.sample(range(len(fields)), rng.randint(1, min(2, len(fields)))):
            words[at + 1] = outside(rng, fields[at])
    return words


def with_spaces(rng, words):
    # mostly one space between two words; at times tabs, carriage returns and leading zeros
    if rng.random() < 0.95:
        return b" ".join(words)
    words = [b"0" * rng.randint(0, 30) + w if w.isdigit() else w for w in words]
    between = rng.choice((b"  ", b"\t", b" \r ", b"\r", b" "))
    return rng.choice((b"", b" ", b"\t")) + between.join(words) + rng.choice((b"\r", b" ", b""))


def unanswered(rng):
    # a line that the console says nothing to
    return rng.choice((b"", b" ", b"\t\r", b"# close", b"#close", b"\t #\xff\x00", b"\r"))


def script(count, seed):
    # the lines of a script, as bytes: calls and questions, that many, with others in between;
    # every fourth script is one life of the first book
    rng = random.Random(seed)
    room = max(15, rng.choice((15, count // 7, count // 7, count // 2)))
    calls = long_life(rng, room) if seed % 4 == 0 else life(rng, room)
    for call in itertools.islice(calls, count):
        if rng.random() < 0.03:
            others = [("open", lots_to_open(rng, 4)), ("bid", 1, 1, "all", LOT, 0), call, call]
            yield with_spaces(rng, damaged(rng, in_words(rng.choice(others))))
        if rng.random() < 0.01:
            yield unanswered(rng)
        yield with_spaces(rng, in_words(call))


def text(count, seed):
    # the script; the line feed at its end is wanting at times
    return b"\n".join(script(count, seed)) + (b"\n" if seed % 3 else b"")


if __name__ == "__main__":
    sys.stdout.buffer.write(text(int(sys.argv[1]), int(sys.argv[2])))
