#!/usr/bin/env python3
"""Times building forests of texts like JSON, and takes the greatest memory.

    bench/forest.py [--binary crates/bench_drivers/out/bench_drivers] [--rounds 3]

An object has 14 tokens and 28 nodes, an array in an array 2 tokens and 5 nodes, and so the numbers of nodes are counted by hand. The
time is that of the fastest round without reading, and the memory that of the whole process.

Measured, beside much other work, on one processor of four, in microseconds and bytes a token:

    json 100003 tokens: 1.8 us, 754 bytes        deep 100000 tokens: 4.2 us, 1032 bytes
    json 1000021 tokens: 4.4 us, 690 bytes       deep 400000 tokens: 5.3 us, 920 bytes
"""
import argparse, os, pathlib

ROUNDS = {"json": [7_143, 14_286, 71_430], "deep": [50_000, 100_000, 200_000]}
NODES = {"json": lambda n: 28 * n + 3, "deep": lambda n: 5 * n - 1}


def run(binary, word, count):
    """What the program told, by its words, and the peak of memory in bytes."""
    reader, writer = os.pipe()
    child = os.posix_spawn(binary, [binary, word, str(count), "forest"], os.environ, file_actions=[(os.POSIX_SPAWN_DUP2, writer, 1)])
    os.close(writer)
    with os.fdopen(reader) as out:
        lines = dict(line.rsplit(" ", 1) for line in out)
    _, status, used = os.wait4(child, 0)
    if status != 0:
        raise SystemExit(f"{word} {count}: status {status}")
    return lines, used.ru_maxrss * 1024


def main():
    top = pathlib.Path(__file__).resolve().parent.parent
    options = argparse.ArgumentParser()
    options.add_argument("--binary", default=str(top / "crates/bench_drivers/out/bench_drivers"))
    options.add_argument("--rounds", type=int, default=3)
    options = options.parse_args()
    for word, counts in ROUNDS.items():
        for count in counts:
            told = [run(options.binary, word, count) for _ in range(options.rounds)]
            lines, peak = min(told, key=lambda one: int(one[0]["forest us"]))
            if int(lines["nodes"]) != NODES[word](count):
                raise SystemExit(f"{word} {count}: {lines['nodes'].strip()} nodes")
            place = int(lines["place"])
            print(f"{word} {place} tokens: {int(lines['forest us']) / place:.2f} us and {peak / place:.0f} bytes a token")


main()
