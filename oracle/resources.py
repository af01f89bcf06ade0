"""Deposits and pools (docs/RULES.md, 'Resources'); run as a program, prints a table of calls."""

from rules import shares

MOST_DEPOSIT = 3_200_000_000
MOST_PAYERS = 32
MOST_WEIGHT = 100_000_000


class Refused(Exception):
    """A refusal; its number is that of docs/RULES.md."""

    def __init__(self, number):
        super().__init__(number)
        self.number = number


class Deposit:
    """One amount."""

    def __init__(self, amount):
        if amount > MOST_DEPOSIT:
            raise Refused(5)
        self._capacity = amount
        self._standing = 0

    def capacity(self):
        return self._capacity

    def standing(self):
        return self._standing

    def stand_at(self, n):
        # refused above the capacity, and then nothing changes
        if n > self._capacity:
            raise Refused(11)
        self._standing = n

    def write_off(self):
        # the capacity loses what stands, and nothing stands any more
        self._capacity -= self._standing
        self._standing = 0

    def fill(self, n):
        # stands at the lesser of the amount and the capacity
        self.stand_at(min(n, self.capacity()))


class Pool:
    """Payers in their order, each with a weight; payer numbers count from 1."""

    def __init__(self, weights):
        if not 1 <= len(weights) <= MOST_PAYERS:
            raise Refused(5)
        if any(w > MOST_WEIGHT for w in weights):
            raise Refused(5)
        self._weights = list(weights)
        self._standing = 0

    def capacity(self):
        # the sum of the weights
        return sum(self._weights)

    def standing(self):
        return self._standing

    def count(self):
        return len(self._weights)

    def weight(self, payer):
        if not 1 <= payer <= self.count():
            raise Refused(2)
        return self._weights[payer - 1]

    def bears(self, payer):
        # the payer's share of what stands, over the weights in payer order
        if not 1 <= payer <= self.count():
            raise Refused(2)
        return shares(self._standing, self._weights)[payer - 1]

    def stand_at(self, n):
        # refused above the capacity, and then nothing changes
        if n > self.capacity():
            raise Refused(11)
        self._standing = n

    def write_off(self):
        # each weight loses what its payer bore, and nothing stands any more
        borne = shares(self._standing, self._weights)
        self._weights = [w - b for w, b in zip(self._weights, borne)]
        self._standing = 0

    def fill(self, n):
        # stands at the lesser of the amount and the capacity
        self.stand_at(min(n, self.capacity()))


def refusal(call, *arguments):
    # the number of the refusal that the call meets, 0 if it meets none
    try:
        call(*arguments)
    except Refused as refused:
        return refused.number
    return 0


def make_resources():
    return [
        ("deposit 500", Deposit(500)),
        ("pool of 1: weight 7", Pool([7])),
        ("pool of 3: weights 2 3 2", Pool([2, 3, 2])),
        ("pool of 32: weights k*k*97531", Pool([k * k * 97_531 for k in range(1, 33)])),
    ]


def calls_of(resource):
    # the same calls for every resource, with the capacity that it has at first
    c = resource.capacity()
    stand, fill, write_off = resource.stand_at, resource.fill, resource.write_off
    return [
        ("stand", stand, 4),
        ("stand", stand, 3),
        ("stand", stand, c + 1),
        ("fill", fill, c + 5),
        ("stand", stand, c // 2),
        ("write off", write_off),
        ("stand", stand, c),
        ("fill", fill, 1),
        ("write off", write_off),
        ("fill", fill, c),
        ("write off", write_off),
        ("fill", fill, 3),
        ("stand", stand, 0),
    ]


def borne(resource):
    # what the payers of a pool bear, in words; nothing for a deposit
    if isinstance(resource, Deposit):
        return ""
    each = [resource.bears(payer) for payer in range(1, resource.count() + 1)]
    if resource.count() <= 3:
        return f" bears {each}"
    return f" bears 1:{each[0]} 16:{each[15]} 32:{each[31]} sum {sum(each)}"


def print_calls(name, resource):
    print(name)
    for word, call, *arguments in calls_of(resource):
        number = refusal(call, *arguments)
        text = " ".join([word] + [str(a) for a in arguments])
        state = f"capacity {resource.capacity()} standing {resource.standing()}"
        print(f"{text} -> {number} {state}{borne(resource)}")


def print_refusals():
    print("refusals")
    for amount in (3_200_000_000, 3_200_000_001):
        print(f"deposit {amount} -> {refusal(Deposit, amount)}")
    for count in (0, 33):
        print(f"pool of {count} weight 1 -> {refusal(Pool, [1] * count)}")
    for weight in (100_000_000, 100_000_001):
        print(f"pool of 1 weight {weight} -> {refusal(Pool, [weight])}")
    three = Pool([2, 3, 2])
    for payer in (0, 4):
        print(f"pool of 3 weight of payer {payer} -> {refusal(three.weight, payer)}")
        print(f"pool of 3 bears of payer {payer} -> {refusal(three.bears, payer)}")


if __name__ == "__main__":
    for name, resource in make_resources():
        print_calls(name, resource)
    print_refusals()
