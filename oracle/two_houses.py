"""Runs the same calls over a book whose house is a deposit and over one whose house is a pool, and
prints both answers; after each part, how the seats stand in both."""

from book import Book
from console import call_of, in_words, read
from resources import Deposit, Pool

PARTS = [
    # four members, two lots, bids and excuses; three calls are refused
    """enrol 1 600 500
    enrol 2 300 200
    enrol 3 100 150
    enrol 4 50 40
    enrol 4 50 40
    open 4000 10000 4000000 6000 12000 2000000
    bid 1 1 standard 6000 -12000000
    bid 2 1 standard 3000 -15000000
    bid 3 1 standard 2000 -13000000
    excuse 4 1
    bid 4 1 standard 500 -11000000
    bid 1 2 all 10000 -9000000
    bid 2 2 standard 5000 -10777777
    bid 4 2 standard 600 -14000000
    excuse 4 2
    conclude
    close""",
    # a loss that runs through the funds and the house into the assessments
    """charge 707
    charge 505
    charge 606""",
    # a recovery that leaves the house with a part of the loss
    "recover 551",
    # the loss is taken, and a second auction has one lot; the call behind its close is refused
    """conclude
    top-up 1 90 0
    top-up 2 70 5
    open 10000 15000 6
    bid 1 1 standard 10000 7
    bid 2 1 standard 7000 3
    close
    excuse 2 1""",
    # more than there is, and what comes back of it
    """charge 5000
    recover 1077""",
    # the loss is taken again, and a third auction shows what the house has left
    """conclude
    release 4
    open 10000 10000 2
    bid 1 1 all 10000 -1
    close""",
]


def print_both(books, line):
    # a call or a question, and what it answers in each book
    name, values = read(line.encode("ascii").split())
    both = [in_words(name, call_of(book, name)(*values)) for book in books]
    print(line, "->", " | ".join(both))


if __name__ == "__main__":
    both_books = [Book(Deposit(500)), Book(Pool([170, 233, 97]))]
    print("deposit 500 | pool 170 233 97")
    for part in PARTS:
        for call in part.split("\n"):
            print_both(both_books, call.strip())
        for seat in range(1, 8):
            print_both(both_books, f"seat {seat}")
