#!/usr/bin/env python3
"""Times putting a list of 1,000,000 numbers into a pool and appending its text; at most 100 ms are wanted.

    bench/values.py [--binary crates/bench_drivers/out/bench_drivers]
"""
import argparse, pathlib, subprocess

def main():
    top = pathlib.Path(__file__).resolve().parent.parent
    options = argparse.ArgumentParser()
    options.add_argument("--binary", default=str(top / "crates/bench_drivers/out/bench_drivers"))
    options = options.parse_args()
    times = []
    for _ in range(5):
        done = subprocess.run([options.binary, "values", "1000000", "time"], capture_output=True, text=True, check=True)
        size, took = done.stdout.splitlines()
        times.append(int(took.removeprefix("us ")) // 1000)
    print(f"{size.removeprefix('bytes ')} bytes of text: {min(times)} ms, the best of five times")

main()
