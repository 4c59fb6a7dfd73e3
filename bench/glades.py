#!/usr/bin/env python3
"""Times job `glades` of the built program.

    bench/glades.py [--binary crates/slif/out/slif] [--rounds 3]

An ambiguous sum, a JSON document and lists side by side whose border is open are read by `glades` and by `run --first 1` in turn; the ratio of the
processor times is printed beside what it may be. Of the lists of one token the items alone grow with the square of the length, since the second list may
begin anywhere, so they are short. Lists of two tokens have no glade, and chains of nodes as long as a list; twice the tokens may take 2.3 times as long.
The least times and the greatest memory are printed. The lines are counted.
"""
import argparse, pathlib, sys, tempfile

from compare import SUM
from measuring import BINARY, ROOT, best, document

OPEN = "S ::= A B\nA ::= x+\nB ::= x B | x\nx ~ 'x'\n"
SIDES = "S ::= A B\nA ::= x+\nB ::= y+\nx ~ 'x'\ny ~ 'y'\n"


def time_of(options, folder, source, text, jobs):
    """What the jobs take over the text, in turn."""
    grammar, path = pathlib.Path(folder) / "g.slif", pathlib.Path(folder) / "input.txt"
    grammar.write_text(source)
    path.write_text(text)
    return best([[options.binary, *job, "--grammar", str(grammar), "--input", str(path)] for job in jobs], options.rounds)


def show(name, result, count, more=""):
    """Prints a row, and answers whether it is as it should be."""
    seconds, cpu, peak, status, text = result
    lines = text.count("\n")
    good = status == 0 and lines == count
    print(f"{name:34}{lines:>8}{seconds:>9.3f}{cpu:>8.3f}{peak:>6.0f}{more}" + ("" if good else f"  WRONG: status {status}, {count} lines are right"), flush=True)
    return good


def main():
    options = argparse.ArgumentParser()
    options.add_argument("--binary", default=BINARY)
    options.add_argument("--rounds", type=int, default=3)
    options = options.parse_args()
    print(f"{'what':34}{'lines':>8}{'seconds':>9}{'cpu':>8}{'MB':>6}")
    good, before = True, None
    with tempfile.TemporaryDirectory() as folder:
        json = (ROOT / "examples/json.slif").read_text()
        # Each part of the sum of three operands or more is a glade: 398 * 399 / 2.
        for name, source, text, count, most in (
            ("sum of 400 operands", SUM, "+".join("1" * 400), 79_401, 1.5),
            ("JSON 1 MB", json, document(1_000_000), 0, 1.1),
            ("open border, 1,000", OPEN, "x" * 1_000, 1, 1.1),
            ("open border, 2,000", OPEN, "x" * 2_000, 1, 1.1),
        ):
            run, glades = time_of(options, folder, source, text, (["run", "--first", "1"], ["glades"]))
            ratio = glades[1] / run[1]
            good &= show(f"{name}, run --first 1", run, 1)
            good &= show(f"{name}, glades", glades, count, f"  {ratio:.2f} of {most}") and ratio <= most
        for tokens in (20_000, 40_000, 80_000):
            (result,) = time_of(options, folder, SIDES, "x" * (tokens // 2) + "y" * (tokens // 2), (["glades"],))
            good &= show(f"lists side by side, {tokens:,}", result, 0, f"  {result[1] / before:.2f} of 2.3" if before else "")
            good &= before is None or result[1] / before <= 2.3
            before = result[1]
    return 0 if good else 1


if __name__ == "__main__":
    sys.exit(main())
