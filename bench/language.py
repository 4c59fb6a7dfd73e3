#!/usr/bin/env python3
"""Times the reading of grammar texts of all forms of statements, or makes one.

    bench/language.py [--binary crates/slif/out/slif]      times four sizes up to 1 MiB on the built program
    bench/language.py --out FILE [--bytes 1048576]         makes one text

A text has at most so many bytes, and is less than one block of statements shorter. The program reads it to its end,
looks at all that building refuses, and tells that the rule behind the last one is not there.
"""
import argparse, pathlib, subprocess, sys, tempfile, time

HEAD = """# Every form of statement.
:default ::= action => ::first
lexeme default = latm => 1
:start ::= <rule 0>
:discard ~ white
white ~ [\\s]+
word ~ [\\w]+
"""

BLOCK = """# Block {n}.
<rule {n}> ::= <rule {next}> 'and' ('(') [a-z] (')') action => [name,values] rank => -1
    | word {name} null-ranking => low, action => ::array
    || 'or':i <item {n}>
<item {n}> ::= {name}* separator => comma{n} proper => 1
<empty {n}> ::= action => ::undef
{name} ~ [a-zA-Z[:digit:]\\x{{41}}\\]]+
comma{n} ~ ',' | ';' | 'über{n}'
:lexeme ~ {name} priority => {priority} latm => 0;
"""

def text_of(most):
    parts = [HEAD.encode()]
    size = len(parts[0])
    n = 0
    while True:
        block = BLOCK.format(n=n, next=n + 1, name=f"name{n}", priority=n % 7 - 3).encode()
        if size + len(block) > most:
            return b"".join(parts)
        parts.append(block)
        size += len(block)
        n += 1


def seconds(binary, path):
    best = None
    for _ in range(5):
        begin = time.perf_counter()
        got = subprocess.run([binary, "run", "--grammar", path, "--show", "tree"], stdin=subprocess.DEVNULL, capture_output=True)
        spent = time.perf_counter() - begin
        if got.returncode != 3 or not got.stderr.startswith(b"slif: grammar: no rule for rule "):
            sys.exit(f"answered {got.returncode}: {got.stderr!r}")
        best = spent if best is None else min(best, spent)
    return best


def main():
    root = pathlib.Path(__file__).resolve().parent.parent
    options = argparse.ArgumentParser()
    options.add_argument("--binary", default=str(root / "crates/slif/out/slif"))
    options.add_argument("--out", type=pathlib.Path)
    options.add_argument("--bytes", type=int, default=1 << 20)
    options = options.parse_args()
    if options.out:
        options.out.write_bytes(text_of(options.bytes))
        return
    with tempfile.TemporaryDirectory() as folder:
        path = pathlib.Path(folder) / "g.slif"
        for size in (1 << 17, 1 << 18, 1 << 19, 1 << 20):
            path.write_bytes(text_of(size))
            print(f"{path.stat().st_size} bytes: {seconds(options.binary, str(path)) * 1000:.0f} ms")


main()
