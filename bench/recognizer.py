#!/usr/bin/env python3
"""Times the recognizer on eight grammars, and takes its greatest memory.

    bench/recognizer.py [--binary crates/bench_drivers/out/bench_drivers] [--rounds 5]

Wanted are at most 45 bytes a token of a left recursion, 100 of a right recursion and of JSON, 40 of nested brackets; at most 0.4 microseconds a token of
the left recursion and 1.0 of JSON; with 400 operands of an ambiguous sum at most 100 nanoseconds for each try to add an item; and at most 100 nanoseconds a
place of one token that is 1,000,000 places long. Of the operator table, of five groups, nothing is wanted: behind a token of it some ten items are kept, of
eight bytes each. The time is that of the fastest round, and the memory is that of the whole process, so that a few bytes a token are those of the program
itself. The program has no way to ask its counter, so the numbers of items and of tries are sums over what each set has to hold; those of the items are
compared where they are known.
"""
import argparse, os, pathlib

TOKENS = [250_000, 500_000, 1_000_000]
COUNTS = {
    "left": TOKENS,
    "right": TOKENS,
    "sum": TOKENS,
    "json": [20_000, 60_000],
    "brackets": [100_000, 500_000],
    "operators": [20_000, 60_000],
}
OPERANDS = 400
ITEMS = {
    "left": lambda n: 3 + 3 * n,
    "sum": lambda n: 3 + 3 * ((n + 1) // 2) + n // 2,
    "right": lambda n: 3 + 5 * n,
    "brackets": lambda n: 5 + 5 * n,
    "operators": lambda n: 29 + 146 * n,
    "long": lambda n: 4,
    "twice": lambda n: (3 * n * n + 7 * n + 2) // 2,
}
# How many tokens there are for a count.
LENGTHS = {"json": lambda n: 14 * n + 1, "brackets": lambda n: 2 * n + 1, "operators": lambda n: 15 * n + 1}


def tries_with(operands):
    return (operands + 1) * (operands + 2) * (operands + 3) // 6 + 2


def run(binary, word, count):
    """The microseconds of reading, the peak of memory in bytes, and the number of items."""
    reader, writer = os.pipe()
    words = [binary, word, str(count), "time"]
    child = os.posix_spawn(binary, words, os.environ, file_actions=[(os.POSIX_SPAWN_DUP2, writer, 1)])
    os.close(writer)
    with os.fdopen(reader) as out:
        lines = dict(line.rsplit(" ", 1) for line in out)
    _, status, used = os.wait4(child, 0)
    if status != 0:
        raise SystemExit(f"{word} {count}: status {os.waitstatus_to_exitcode(status)}")
    items = int(lines["items"])
    if word in ITEMS and items != ITEMS[word](count):
        raise SystemExit(f"{word} {count}: {items} items, but {ITEMS[word](count)} are right")
    return int(lines["us"]), used.ru_maxrss * 1024, items


def main():
    top = pathlib.Path(__file__).resolve().parent.parent
    options = argparse.ArgumentParser()
    options.add_argument("--binary", default=str(top / "crates/bench_drivers/out/bench_drivers"))
    options.add_argument("--rounds", type=int, default=5)
    options = options.parse_args()
    for word, counts in COUNTS.items():
        for count in counts:
            runs = [run(options.binary, word, count) for _ in range(options.rounds)]
            took, peak, items = min(runs)
            tokens = LENGTHS.get(word, lambda n: n)(count)
            print(f"{word} {tokens} tokens: {items} items, {took / tokens:.3f} us and {peak / tokens:.1f} bytes a token")
    took, peak, items = min(run(options.binary, "long", 1_000_000) for _ in range(options.rounds))
    print(f"one token of 1000000 places: {items} items, {took / 1000:.1f} ns and {peak / 1_000_000:.1f} bytes a place")
    took, peak, items = min(run(options.binary, "twice", OPERANDS) for _ in range(options.rounds))
    tries = tries_with(OPERANDS)
    print(f"twice {OPERANDS} operands: {items} items, {tries} tries, {1000 * took / tries:.1f} ns a try, {peak} bytes")


main()
