#!/usr/bin/env python3
"""Times pages of job `more` of the built program, one after another, beside job `run`.

    bench/pages.py [--binary crates/slif/out/slif] [--pages 1000] [--size 1000]

Pages of the derivations of a sum with 15 operands, each from the place that the one before told. A page reads the text anew, goes to its place and lists its lines; what
lies before is not listed. So each costs what the first lines of `run` cost, at most 1.1 times as much, the last pages like the first. Every tenth page a `run` of so many of the
first is timed too, and the first pages are compared with its lines. Processor seconds are means.
"""
import argparse, math, pathlib, sys, tempfile

from measuring import BINARY, measure

GRAMMAR = "E ::= E '+' E | '1'\n"
OPERANDS = 15
COMPARED = 5
MOST = 1.1


def mean(numbers):
    return sum(numbers) / len(numbers)


def main():
    options = argparse.ArgumentParser()
    options.add_argument("--binary", default=BINARY)
    options.add_argument("--pages", type=int, default=1000)
    options.add_argument("--size", type=int, default=1000)
    options = options.parse_args()
    every = math.comb(2 * OPERANDS - 2, OPERANDS - 1) // OPERANDS
    after, pages, runs, peak, told, good = "0", [], [], 0, [], True
    with tempfile.TemporaryDirectory() as folder:
        grammar, path = pathlib.Path(folder) / "sum.slif", pathlib.Path(folder) / "input.txt"
        grammar.write_text(GRAMMAR)
        path.write_text("+".join(["1"] * OPERANDS))
        given = ["--grammar", str(grammar), "--input", str(path)]

        def first(count):
            return measure([options.binary, "run", *given, "--first", str(count)])

        for count in range(1, options.pages + 1):
            _, cpu, memory, status, text = measure([options.binary, "more", *given, "--first", str(options.size), "--after", after])
            pages.append(cpu)
            peak = max(peak, memory)
            *lines, last = text.splitlines()
            if count <= COMPARED:
                told += lines
            left = max(0, every - count * options.size)
            right = status == 0 and len(lines) == min(options.size, every - (count - 1) * options.size) and last.startswith("cursor: " if left else "end")
            if not right:
                print(f"page {count}: status {status}, {len(lines)} lines, then {last[:60]}  WRONG")
                return 1
            if not left:
                break
            after = last.removeprefix("cursor: ")
            if count % 10 == 1:
                runs.append(first(options.size)[1])
        good &= "".join(f"{line}\n" for line in told) == first(len(told))[4]
    part = max(1, len(pages) // 10)
    once = mean(runs)
    print(f"{len(pages):,} pages of {options.size:,} of {every:,} derivations; the first {len(told):,} lines are {'those' if good else 'NOT those'} of `run`; {peak:.0f} MB")
    print(f"{'what':28}{'cpu':>10}{'of run':>10}")
    for name, spent in (("run --first", once), ("a page", mean(pages)), ("one of the first tenth", mean(pages[:part])), ("one of the last tenth", mean(pages[-part:]))):
        fast = spent <= MOST * once
        print(f"{name:28}{spent:>10.5f}{spent / once:>10.2f}{'' if fast else '  TOO MUCH'}")
        good &= fast
    return 0 if good else 1


if __name__ == "__main__":
    sys.exit(main())
