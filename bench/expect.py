#!/usr/bin/env python3
"""Times job `expect` of the built program on JSON documents, beside Marpa::R2 where it is installed.

    bench/expect.py [--binary crates/slif/out/slif]

Documents of 10 KB, 100 KB and 1 MB are read by the grammar in examples/json.slif, three times each by both in turn; the least times and
the greatest memory are printed. Debian has Marpa::R2 as libmarpa-r2-perl.
"""
import argparse, pathlib, tempfile

from measuring import BINARY, HERE, ROOT, best, document, has_marpa


def main():
    options = argparse.ArgumentParser()
    options.add_argument("--binary", default=BINARY)
    options = options.parse_args()
    grammar = str(ROOT / "examples/json.slif")
    marpa = has_marpa()
    print("bytes        slif s    cpu s    MB" + ("      marpa s    cpu s    MB    ratio" if marpa else "    (Marpa::R2 is not installed)"))
    with tempfile.TemporaryDirectory() as folder:
        for size in (10_000, 100_000, 1_000_000):
            path = pathlib.Path(folder) / "document.json"
            path.write_text(document(size))
            commands = [[options.binary, "expect", "--grammar", grammar, "--input", str(path)]]
            if marpa:
                commands.append(["perl", str(HERE / "marpa_read.pl"), grammar, str(path)])
            results = best(commands)
            ours = results[0]
            if ours[3] != 0 or ours[4] != "":
                raise SystemExit(f"expect: status {ours[3]}: {ours[4]}")
            line = f"{path.stat().st_size:9}  {ours[0]:9.3f} {ours[1]:8.3f} {ours[2]:6.0f}"
            if marpa:
                theirs = results[1]
                line += f"    {theirs[0]:9.3f} {theirs[1]:8.3f} {theirs[2]:6.0f}  {ours[1] / theirs[1]:6.2f}"
            print(line)


main()
