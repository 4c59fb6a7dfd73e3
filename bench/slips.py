#!/usr/bin/env python3
"""Times job `slip` of the built program.

    bench/slips.py [--binary crates/slif/out/slif] [--rounds 6]

A JSON document in which nothing is supplied is read by `slip` and by `run` in turn; the ratio of the processor times is printed beside what it may be.
Digits with a token supplied after each are read by `slip`; twice as many may take 2.2 times as long. The least times and the greatest memory
are printed. The values are compared or counted.
"""
import argparse, pathlib, sys, tempfile

from measuring import BINARY, ROOT, best, document

DIGITS = ":default ::= action => [values]\nS ::= X+\nX ::= N semi\nN ~ [\\d]\nsemi ~ ';'\n"


def time_of(options, folder, source, text, jobs):
    """What the jobs take over the text, in turn."""
    grammar, path = pathlib.Path(folder) / "g.slif", pathlib.Path(folder) / "input.txt"
    grammar.write_text(source)
    path.write_text(text)
    return best([[options.binary, *job, "--grammar", str(grammar), "--input", str(path)] for job in jobs], options.rounds)


def show(name, result, good, more=""):
    """Prints a row, and answers whether it is as it should be."""
    seconds, cpu, peak, status, _ = result
    good &= status == 0
    print(f"{name:34}{seconds:>9.3f}{cpu:>8.3f}{peak:>6.0f}{more}" + ("" if good else f"  WRONG: status {status}"), flush=True)
    return good


def main():
    options = argparse.ArgumentParser()
    options.add_argument("--binary", default=BINARY)
    options.add_argument("--rounds", type=int, default=6)
    options = options.parse_args()
    print(f"{'what':34}{'seconds':>9}{'cpu':>8}{'MB':>6}")
    good, before = True, None
    with tempfile.TemporaryDirectory() as folder:
        json = (ROOT / "examples/json.slif").read_text()
        text = document(1_000_000)
        run, slip = time_of(options, folder, json, text, (["run"], ["slip", "--give", "':'"]))
        ratio = slip[1] / run[1]
        good &= show("JSON 1 MB, run", run, True)
        good &= show("JSON 1 MB, slip", slip, slip[4] == run[4], f"  {ratio:.2f} of 1.05") and ratio <= 1.05
        for count in (100_000, 200_000, 400_000):
            (result,) = time_of(options, folder, DIGITS, "7" * count, (["slip", "--give", "semi"],))
            right = result[4].count('["7",""]') == count
            good &= show(f"{count:,} digits, a token after each", result, right, f"  {result[1] / before:.2f} of 2.2" if before else "")
            good &= before is None or result[1] / before <= 2.2
            before = result[1]
    return 0 if good else 1


if __name__ == "__main__":
    sys.exit(main())
