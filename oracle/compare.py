"""Compares a console with console.py on random scripts of random_life.py.

`compare.py PROGRAM [SCRIPTS [COMMANDS [FIRST_SEED]]]` gives PROGRAM each script on its standard
input and compares what it prints line by line. The first difference ends it with status 1, and
so does a refusal that no script has reached.
"""

import io
import subprocess
import sys
from collections import Counter

import console
import random_life

CALLS = list(console.COMMANDS)[1:11]
REFUSALS = range(1, 11)  # 11 is not among them: no call of a book stands a seat above its capacity


def text_of(commands, seed):
    # every twentieth script is ten times as long, and one life on one book
    return random_life.text(commands * (10 if seed % 20 == 0 else 1), seed)


def expected_of(text):
    # (number of the line, what console.py prints for it) for each line that it answers
    answered = []
    for number, line in enumerate(io.BytesIO(text), start=1):
        words = console.words_of(line)
        if words and not words[0].startswith(b"#"):
            answered.append(number)
    return list(zip(answered, console.run(io.BytesIO(text)), strict=True))


def printed_by(program, text):
    # the lines that the program prints, and its status
    ended = subprocess.run([program], input=text, stdout=subprocess.PIPE, check=False)
    return list(io.BytesIO(ended.stdout)), ended.returncode


def difference(expected, printed, status):
    # the first difference in words, None where there is none
    for (number, wanted), found in zip(expected, printed):
        if wanted != found:
            return f"line {number}\n  expected {wanted!r}\n  printed  {found!r}"
    if len(printed) < len(expected):
        number, wanted = expected[len(printed)]
        return f"line {number}\n  expected {wanted!r}\n  printed  nothing"
    if len(printed) > len(expected):
        return f"after the last line\n  printed  {printed[len(expected)]!r}"
    return None if status == 0 else f"the end\n  status {status}"


class Tally:
    """What the compared scripts have reached."""

    def __init__(self):
        self.counts = Counter()
        self.longest = self.life = self.lots = 0

    def take(self, printed):
        # one printed line: its words, an arrow and the answer
        said, answer = printed.decode("ascii", "replace").rstrip("\n").rsplit(" -> ", 1)
        name = said.split(" ")[0]
        self.counts["commands"] += 1
        if answer.startswith("error: "):
            self.counts["errors", answer[7:]] += 1
            return
        refused = answer.startswith("refused ")
        if name in CALLS:
            self.life += 1
            self.longest = max(self.longest, self.life)
        if refused:
            self.counts["refused", int(answer[8:].split(":")[0])] += 1
        else:
            self.accepted(name, said, answer)

    def accepted(self, name, said, answer):
        # a call that was accepted or a question that was answered
        self.counts["accepted" if name in CALLS + ["house"] else "answered", name] += 1
        numbers = [int(word) for word in answer.split() if word.isdigit()]
        if name == "house":
            self.life = 0
        if name == "open":
            self.lots = len(said.split()) // 3
        if name == "close":
            sold = self.lots - numbers[0]
            self.counts["closes", f"{sold} of {self.lots} lots sold"] += 1
        if name == "charge" and numbers[1] > 0:
            self.counts["losses", "charges above the free capacity"] += 1
        if name == "recover" and numbers[1] > 0:
            self.counts["losses", "recoveries above the net loss"] += 1

    def group(self, kind):
        # the counts of one kind in words, the first ones first
        found = [(key[1], n) for key, n in self.counts.items() if key[0] == kind]
        return ", ".join(f"{what} {n}" for what, n in sorted(found, key=lambda pair: str(pair[0])))

    def refusals(self):
        return ", ".join(f"{n}: {self.counts['refused', n]}" for n in REFUSALS)

    def missing(self):
        # the refusals that no script has reached
        return [n for n in REFUSALS if self.counts["refused", n] == 0]

    def report(self, scripts):
        print(f"scripts {scripts}, all alike; commands {self.counts['commands']}")
        print(f"calls accepted: {self.group('accepted')}")
        print(f"questions answered: {self.group('answered')}")
        print(f"refusals by number: {self.refusals()}")
        print(f"errors: {self.group('errors')}")
        print(f"closes: {self.group('closes')}; losses: {self.group('losses')}")
        print(f"auctions concluded {self.counts['accepted', 'conclude']}")
        print(f"longest life on one book {self.longest} calls")


def main(program, scripts=500, commands=300, first_seed=1):
    tally = Tally()
    for seed in range(first_seed, first_seed + scripts):
        text = text_of(commands, seed)
        expected = expected_of(text)
        found = difference(expected, *printed_by(program, text))
        if found:
            print(f"seed {seed}, {found}")
            return 1
        tally.life = 0
        for _, printed in expected:
            tally.take(printed)
    tally.report(scripts)
    if tally.missing():
        print(f"no script reached the refusals {tally.missing()}")
        return 1
    return 0


if __name__ == "__main__":
    sys.exit(main(sys.argv[1], *[int(n) for n in sys.argv[2:5]]))
