#!/usr/bin/env python3
"""Times the built program on the ambiguous sum and on a JSON document, with derivations as trees.

    bench/sums.py [--binary crates/slif/out/slif] [--rounds 3]

All derivations of a sum with 11, 12 and 13 operands, the first one of a sum with 100, and that of a document of 100 KB. The number of
derivations of a sum is counted by Catalan's numbers. The least times and the greatest memory are printed.
"""
import argparse, math, pathlib, tempfile

from measuring import BINARY, ROOT, best, document

GRAMMAR = "E ::= E '+' E | '1'\n"


def catalan(n):
    return math.comb(2 * n, n) // (n + 1)


def cases(grammar):
    """The name, the grammar, the input, further words, and the number of lines."""
    for operands in (11, 12, 13):
        yield f"sum of {operands} operands", grammar, "+".join(["1"] * operands), [], catalan(operands - 1)
    yield "sum of 100 operands, the first", grammar, "+".join(["1"] * 100), ["--first", "1"], 1
    yield "JSON of 100 KB", str(ROOT / "examples/json.slif"), document(100_000), [], 1


def main():
    options = argparse.ArgumentParser()
    options.add_argument("--binary", default=BINARY)
    options.add_argument("--rounds", type=int, default=3)
    options = options.parse_args()
    print(f"{'what':34}{'lines':>8}{'bytes':>11}{'seconds':>9}{'cpu':>8}{'MB':>6}")
    with tempfile.TemporaryDirectory() as folder:
        grammar, path = pathlib.Path(folder) / "sum.slif", pathlib.Path(folder) / "input.txt"
        grammar.write_text(GRAMMAR)
        for name, by, text, words, lines in cases(str(grammar)):
            path.write_text(text)
            command = [options.binary, "run", "--grammar", by, "--input", str(path), "--show", "tree", *words]
            seconds, cpu, peak, status, told = best([command], options.rounds)[0]
            if status != 0 or told.count("\n") != lines or len(set(told.splitlines())) != lines:
                raise SystemExit(f"{name}: status {status}, {told.count(chr(10))} lines, but {lines} different ones are right")
            print(f"{name:34}{lines:>8}{len(told.encode()):>11}{seconds:>9.3f}{cpu:>8.3f}{peak:>6.0f}", flush=True)


main()
