#!/usr/bin/env python3
"""Times job `script` of the built program.

    bench/scripts.py [--binary crates/slif/out/slif] [--rounds 3]

Tokens one after another over a left-recursive rule, the longest time as many as a script can have; tokens of as many lengths at one place, after which the longest is
read to its end; reports and lists of derivations between tokens. The least times and the greatest memory are printed, and beside them how many times as long twice as much took
and may take. The lines of the answers are counted, and the last one is looked at.
"""
import argparse, pathlib, sys, tempfile

from measuring import BINARY, best

LEFT = "symbol S\nsymbol a\nrule S S a\nrule S a\nstart S\nprecompute\n"
TOKEN = "alternative a 1\ncomplete\n"
LONGEST = 16_777_216
MOST = (LONGEST - len(LEFT)) // len(TOKEN)


def tokens(count):
    """The script, how many lines its answers have, and the last one."""
    return LEFT + TOKEN * count, 6 + 2 * count, f"place {count}"


def lengths(count):
    return LEFT + "".join(f"alternative a {length}\n" for length in range(1, count + 1)) + "complete\n" * count, 6 + 2 * count, f"place {count}"


def looks(count):
    return LEFT + (TOKEN + "expected\nreport 1\ntrees 0\n") * count, 6 + 7 * count, "trees 0"


# What is read, how much, at most so many seconds and MB for the last, and at most so many times as long for twice as much.
CASES = [
    ("tokens by left recursion", tokens, (MOST // 4, MOST // 2, MOST), 3.0, 600, 2.1),
    ("lengths at one place", lengths, (25_000, 50_000, 100_000), 3.0, 600, 2.1),
    ("looks between tokens", looks, (250, 500, 1000), 3.0, 600, 4.2),
]


def main():
    options = argparse.ArgumentParser()
    options.add_argument("--binary", default=BINARY)
    options.add_argument("--rounds", type=int, default=3)
    options = options.parse_args()
    good = True
    print(f"{'what':28}{'how much':>10}{'bytes':>12}{'seconds':>9}{'cpu':>8}{'MB':>6}")
    with tempfile.TemporaryDirectory() as folder:
        path = pathlib.Path(folder) / "script"
        for name, make, counts, most_seconds, most_memory, most_ratio in CASES:
            before = None
            for count in counts:
                text, lines, last = make(count)
                path.write_text(text)
                ((seconds, cpu, peak, status, told),) = best([[options.binary, "script", "--input", str(path)]], options.rounds)
                right = status == 0 and told.count("\n") == lines and told.endswith(f"{last}\n")
                ratio = cpu / before if before else 0
                fast = seconds <= most_seconds and peak <= most_memory and ratio <= most_ratio
                more = f"  {ratio:.2f} of {most_ratio}" if before else ""
                wrong = ("" if right else "  WRONG") + ("" if fast else "  TOO MUCH")
                print(f"{name:28}{count:>10,}{len(text):>12,}{seconds:>9.3f}{cpu:>8.3f}{peak:>6.0f}{more}{wrong}", flush=True)
                good &= right and fast
                before = cpu
    return 0 if good else 1


if __name__ == "__main__":
    sys.exit(main())
