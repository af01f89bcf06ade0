"""`run.py` measures the built programs of crates/ against those of plain/: the book itself, then the
console. `run.py PROGRAM [AUCTIONS [RUNS]]` measures that console alone.

Both programs of a pair must print the same. Times are of whole runs, files included.
"""

import filecmp
import os
import statistics
import subprocess
import sys
import tempfile
import time

import script

HERE = os.path.dirname(os.path.abspath(__file__))
CRATES = os.path.join(HERE, "..", "crates")
CALLS = 1 + 4 * 64 + 1 + 1_250 + 1 + 32  # of an auction of full_book, from open to the top ups
RUSTC = ["rustc", "--edition", "2021", "-O", "-C", "target-cpu=generic"]


def build(folder, name):
    # the plain program of that source
    plain = os.path.join(folder, name)
    source = os.path.join(HERE, "plain", name + ".rs")
    subprocess.run(RUSTC + ["-o", plain, source], check=True)
    return plain


def seconds(command, given, printed):
    # the time of one run with that input
    with open(given, "rb") as source, open(printed, "wb") as target:
        start = time.perf_counter()
        subprocess.run(command, stdin=source, stdout=target, check=True)
        return time.perf_counter() - start


def measure(commands, folder, given, runs):
    # the times of both, run in turn; None if they do not print the same
    paths = [os.path.join(folder, name) for name in ("program.out", "plain.out")]
    times = ([], [])
    for _ in range(runs):
        for command, path, taken in zip(commands, paths, times):
            taken.append(seconds(command, given, path))
        if not filecmp.cmp(*paths, shallow=False):
            return None
    return times


def report(name, times, calls):
    middle = statistics.median(times)
    rate = calls / middle
    print(f"{name}: best {min(times):.3f} s, median {middle:.3f} s, {rate:,.0f} calls per second")
    return middle


def compare(times, calls):
    # prints both times and their ratio; a status
    if times is None:
        print("the two do not print the same")
        return 1
    ratio = report("program", times[0], calls) / report("plain", times[1], calls)
    print(f"program to plain, by the medians: {ratio:.2f}")
    return 0


def full_book(program, auctions=5_000, runs=5):
    # the book itself; both programs make the calls themselves
    calls = 32 + auctions * CALLS
    print(f"full_book: {auctions} auctions, {calls} calls, {runs} runs of each in turn")
    with tempfile.TemporaryDirectory() as folder:
        commands = [[each, str(auctions)] for each in (program, build(folder, "full_book"))]
        return compare(measure(commands, folder, os.devnull, runs), calls)


def console(program, auctions=1_000, runs=5):
    # a console, which reads a script
    with tempfile.TemporaryDirectory() as folder:
        given = os.path.join(folder, "script.txt")
        lines = 0
        with open(given, "w", encoding="ascii") as target:
            for line in script.lines(auctions):
                target.write(line + "\n")
                lines += 1
        print(f"console: {auctions} auctions, {lines} commands, {runs} runs of each in turn")
        commands = [[program], [build(folder, "main")]]
        return compare(measure(commands, folder, given, runs), lines)


def both():
    # each program that is built
    status, found = 0, 0
    for measured in (full_book, console):
        program = os.path.join(CRATES, measured.__name__, "out", measured.__name__)
        if os.path.exists(program):
            found += 1
            status |= measured(program)
    if found == 0:
        print("neither full_book nor console is built: `rt run` in its crate builds one")
        return 1
    return status


if __name__ == "__main__":
    if len(sys.argv) == 1:
        sys.exit(both())
    sys.exit(console(os.path.abspath(sys.argv[1]), *[int(n) for n in sys.argv[2:4]]))
