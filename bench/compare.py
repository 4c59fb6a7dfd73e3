#!/usr/bin/env python3
"""Times job `run` of the built program beside Marpa::R2 and bison's GLR parser, where those are installed.

    bench/compare.py [--binary crates/slif/out/slif] [--rounds 3] [--only WORD]

JSON, SQL, Lua, CSV, logs, right and left recursion, alone, over the same tokens and with ranks between them, one long string, languages of many keywords and of many levels, all values of an
ambiguous sum, expressions by an operator table, nested brackets. All read the same files in turn. The least times and the greatest memory are printed, and the ratio of the processor times: less than 1 is faster than
Marpa::R2. The two have to write the same lines, in any order, and as many as there are derivations; bison's parser is a recognizer here. With `--only` those cases are run whose
name has the word. Debian has Marpa::R2 as libmarpa-r2-perl. Where a case has ten times the size of one before it, the growth of the processor time from that to this is printed, of the program and of Marpa::R2.
Languages of 20,000 keywords are read by the program alone: Marpa::R2 takes over two minutes before its first token.
"""
import argparse, pathlib, re, sys, tempfile

import glr, inputs
from measuring import BINARY, HERE, ROOT, best, document, has_marpa

FIRST = ":default ::= action => ::first\n"
RIGHT = FIRST + "L ::= x L | x\nx ~ 'x'\n"
LEFT = FIRST + "L ::= L x | x\nx ~ 'x'\n"
BOTH = FIRST + "S ::= A 'y' | L 'z'\nA ::= A x | x\nL ::= x L | x\nx ~ 'x'\n"
WAITED = FIRST + "S ::= A 'y' | M\nM ::= L | L 'z'\nA ::= A x | x\nL ::= x L | x\nx ~ 'x'\n"
RANKED = FIRST + "A ::= A x rank => 1 | L\nL ::= x L | x\nx ~ 'x'\n"
STATEMENTS = FIRST + """statement ::= exprs ';' | names '=' exprs ';'
exprs ::= expr+ separator => comma
names ::= name comma names | name
expr ::= name
comma ~ ','
name ~ 'n'
"""
SUM = ":default ::= action => ::array\nE ::= E '+' E | N\nN ~ [\\d]\n"
BRACKETS = FIRST + "B ::= ('(') B (')') | 'x'\n"


def expression(size):
    """Sums of products with signs, powers and brackets, of at least so many bytes."""
    parts, length, n = [], 0, 0
    while length < size:
        part = f"-{n % 97} ^ 2 * ({n} - {n % 7}.5 / 3) + (({n % 11} + 1) * 2 - 8 / 4 / 2)"
        parts.append(part)
        length += len(part) + 3
        n += 1
    return " + ".join(parts)


def cases():
    """The name, the grammar, the input, and the number of derivations; and what `--rank` is, if not `rule`."""
    json = (ROOT / "examples/json.slif").read_text()
    operators = (ROOT / "examples/operators.slif").read_text()
    for kilobytes in (10, 100, 1000, 10_000):
        yield f"JSON {kilobytes:,} KB", json, document(1000 * kilobytes), 1
    for name in ("sql", "lua", "log"):
        grammar = (HERE / f"grammars/{name}.slif").read_text()
        for kilobytes in (10, 100, 1000):
            yield f"{name.upper()} {kilobytes:,} KB", grammar, getattr(inputs, name)(1000 * kilobytes), 1
    csv = (ROOT / "examples/csv.slif").read_text()
    for kilobytes in (100, 1000, 10_000):
        yield f"CSV {kilobytes:,} KB", csv, inputs.csv(1000 * kilobytes), 1
    yield "string of 1 MB", json, '["' + "a long text " * 83_333 + '"]', 1
    for length in (1000, 10_000, 100_000):
        yield f"right recursion {length:,}", RIGHT, "x" * length, 1
    for count, tokens in ((100, 1000), (200, 1000), (1000, 1000), (1000, 30_000), (20_000, 1000), (20_000, 10_000)):
        yield f"keywords {count:,}, {tokens:,}", *inputs.keywords(count, tokens), 1
    for count in (20, 40, 80):
        for tokens in (1600, 16_000):
            yield f"levels {count}, {tokens:,}", *inputs.levels(count, tokens), 1
    for length in (50_000, 100_000):
        yield f"both recursions {length:,}, left", BOTH, "x" * length + "y", 1
        yield f"both recursions {length:,}, right", BOTH, "x" * length + "z", 1
        yield f"recursion waited for {length:,}", WAITED, "x" * length + "y", 1
        yield f"names of a statement {length:,}", STATEMENTS, ",".join("n" * length) + ";", 1
    for length in (2000, 4000, 50_000, 100_000):
        yield f"recursion by rank {length:,}", RANKED, "x" * length, 1, "high"
    yield "left recursion 1,000,000", LEFT, "x" * 1_000_000, 1
    yield "sum of 11 operands", SUM, "+".join("12345678901"), 16_796
    yield "sum of 12 operands", SUM, "+".join("123456789012"), 58_786
    yield "operators 100 KB", operators, expression(100_000), 1
    for depth in (1000, 10_000, 100_000):
        yield f"brackets {depth:,}", BRACKETS, "(" * depth + "x" + ")" * depth, 1


def tenth(name):
    """The name of the case of a tenth of the size, which is the last number of a name."""
    return re.sub(r"([0-9,]*[0-9])([^0-9]*)$", lambda m: f"{int(m[1].replace(',', '')) // 10:,}{m[2]}", name)


def growth(times, name):
    """How many times as long each took as for a tenth of the size, where that was timed."""
    before = times.get(tenth(name), [])
    return "".join(f"  x{now / max(then, 0.001):.1f}" for now, then in zip(times[name], before))


def fault_of(results, count):
    """What is wrong with the answers, if anything is."""
    for who, (_, _, _, status, text) in zip(("slif", "Marpa::R2"), results):
        lines = text.count("\n")
        if status != 0 or lines != count:
            return f"{who}: status {status}, {lines} lines, but {count} are right: {text[:200]!r}"
    if len(results) == 2 and sorted(results[0][4].splitlines()) != sorted(results[1][4].splitlines()):
        return "the lines differ"
    return None


def main():
    options = argparse.ArgumentParser()
    options.add_argument("--binary", default=BINARY)
    options.add_argument("--rounds", type=int, default=3)
    options.add_argument("--only", default="")
    options = options.parse_args()
    marpa, bison, bad, times = has_marpa(), glr.has_bison(), 0, {}
    print(f"{'what':29}{'seconds':>9}{'cpu':>8}{'MB':>6}" + (f"{'marpa s':>11}{'cpu':>8}{'MB':>6}{'ratio':>8}" if marpa else "    (Marpa::R2 is not installed)")
          + (f"{'bison s':>11}{'cpu':>8}{'MB':>6}" if bison else "    (bison is not installed)"))
    with tempfile.TemporaryDirectory() as folder:
        grammar, path = pathlib.Path(folder) / "g.slif", pathlib.Path(folder) / "input.txt"
        for name, source, text, count, *rank in cases():
            if options.only not in name:
                continue
            grammar.write_text(source)
            path.write_text(text)
            chosen = ["--rank", *rank] if rank else []
            commands = [[options.binary, "run", "--grammar", str(grammar), "--input", str(path), *chosen]]
            # Marpa::R2 takes over three minutes of 20,000 lexemes, and of a long input that ranks choose from time with the square of its length
            beside = marpa and not name.startswith("keywords 20,000") and not (rank and len(text) > 4000)
            if beside:
                commands.append(["perl", str(HERE / "marpa_run.pl"), str(grammar), str(path), *(["high_rule_only"] if rank else [])])
            results = best(commands, options.rounds)
            has_twin = bison and name.split()[0] in glr.GRAMMARS
            counted = best([[glr.build(name, folder), str(path)]], options.rounds)[0] if has_twin else None
            fault = fault_of(results, count)
            if counted and (counted[3] != 0 or count == 1 and counted[4] != "1\n"):
                fault = f"bison's parser: status {counted[3]}, {counted[4]!r}"
            bad += fault is not None
            times[name] = [result[1] for result in results]
            line = f"{name:29}{results[0][0]:>9.3f}{results[0][1]:>8.3f}{results[0][2]:>6.0f}"
            if beside:
                line += f"{results[1][0]:>11.3f}{results[1][1]:>8.3f}{results[1][2]:>6.0f}{results[0][1] / results[1][1]:>8.2f}"
            if counted:
                line += f"{counted[0]:>11.3f}{counted[1]:>8.3f}{counted[2]:>6.0f}"
            print(line + growth(times, name) + (f"  WRONG: {fault}" if fault else ""), flush=True)
    return 1 if bad else 0


if __name__ == "__main__":
    sys.exit(main())
