#!/usr/bin/env python3
"""Runs slif_lint over the grammars of the repository. Nothing of the toolchain is needed.

    bench/lint.py [--programs FOLDER]

Of examples/*.slif and bench/grammars/*.slif nothing may be told. Of bench/lint.slif each kind of hint has to be told once, with the place of its mistake, as the stored run
of the crate has it.
"""
import argparse, pathlib, subprocess

ROOT = pathlib.Path(__file__).resolve().parent.parent


def run(program, path):
    done = subprocess.run([program, "--grammar", str(path)], stdin=subprocess.DEVNULL, stdout=subprocess.PIPE, stderr=subprocess.STDOUT, timeout=60)
    return done.returncode, done.stdout.decode(errors="replace")


def main():
    options = argparse.ArgumentParser()
    options.add_argument("--programs", type=pathlib.Path)
    options = options.parse_args()
    program = (options.programs / "slif_lint" if options.programs else ROOT / "crates/slif_lint/out/slif_lint").resolve()
    failed = 0
    cases = [(path, (0, "")) for folder in ("examples", "bench/grammars") for path in sorted((ROOT / folder).glob("*.slif"))]
    cases.append((ROOT / "bench/lint.slif", (1, (ROOT / "crates/slif_lint/stdout").read_text())))
    for path, wanted in cases:
        got = run(program, path)
        print(f"{'ok  ' if got == wanted else 'FAIL'} {path.relative_to(ROOT)}")
        if got != wanted:
            failed += 1
            print(f"  wanted {wanted!r}\n  got    {got!r}")
    raise SystemExit(1 if failed else 0)


main()
