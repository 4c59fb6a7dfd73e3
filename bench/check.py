#!/usr/bin/env python3
"""Times job `check` of the built program on large grammars.

    bench/check.py [--binary crates/slif/out/slif]

Three sizes of each kind of grammar: rules of several forms up to 1 MiB, rules in a chain, alternatives of one left side, and the
groups of one statement, of which 361 are within the limit of flat rules and 362 are not. Each check has to answer as it should, and
in less than two seconds of processor time.
"""
import argparse, os, pathlib, subprocess, sys, tempfile, time

LIMIT = 2.0


def many_rules(most):
    """Rules of several forms, each used by the one before, in at most so many bytes."""
    parts, size, n = [":discard ~ white\nwhite ~ [\\s]+\nname ~ [\\w]+\n"], 40, 0
    while True:
        block = (f"r{n} ::= r{n + 1} 'and' r{n + 1} | name 'k{n}' || '(' r{n + 1} ')'\n"
                 f"  | l{n} 'of'\nl{n} ::= name+ separator => c{n} proper => 1\nc{n} ~ ',' 'x{n}'\n")
        last = f"r{n} ::= name\n"
        if size + len(block) + len(last) > most:
            return "".join([*parts, last]), 5 * n + 1
        parts.append(block)
        size += len(block)
        n += 1


def chain(count):
    lines = [f"r{n} ::= r{n + 1} 'a'\n" for n in range(count - 1)]
    return "".join(lines) + f"r{count - 1} ::= 'b'\n", count


def alternatives(count):
    words = [f"'a' n{n % 100} 'b{n}'" for n in range(count)]
    names = "".join(f"n{n} ~ 'n{n}'\n" for n in range(100))
    return "S ::= " + "\n    | ".join(words) + "\n" + names, count


def groups(count):
    return "E ::= 'n'" + "".join(f" || E 'a{i}' E" for i in range(2, count + 1)) + "\n", count


def check(binary, text):
    """The least time and processor time of three runs, the greatest memory, the status and the first line."""
    with tempfile.TemporaryDirectory() as folder:
        path = pathlib.Path(folder) / "g.slif"
        path.write_text(text)
        best, cpu, peak = None, 1e9, 0
        for _ in range(3):
            begin = time.perf_counter()
            with tempfile.TemporaryFile() as told:
                run = subprocess.Popen([binary, "check", "--grammar", str(path)], stdin=subprocess.DEVNULL, stdout=told, stderr=told)
                _, status, used = os.wait4(run.pid, 0)
                spent = time.perf_counter() - begin
                run.returncode = os.waitstatus_to_exitcode(status)
                told.seek(0)
                line = told.readline().decode().rstrip("\n")
            best = min([spent, *([best] if best else [])])
            cpu = min(cpu, used.ru_utime + used.ru_stime)
            peak = max(peak, used.ru_maxrss // 1024)
    return best, cpu, peak, run.returncode, line


def main():
    root = pathlib.Path(__file__).resolve().parent.parent
    options = argparse.ArgumentParser()
    options.add_argument("--binary", default=str(root / "crates/slif/out/slif"))
    binary = options.parse_args().binary
    refusal = "slif: grammar: more than 65536 flat rules"
    rows = [("rules of several forms", many_rules, size, None) for size in (262144, 524288, 1048576)]
    rows += [("rules in a chain", chain, count, None) for count in (5000, 10000, 20000)]
    rows += [("alternatives of one left side", alternatives, count, None) for count in (1250, 2500, 5000)]
    rows += [("groups of one statement", groups, count, None) for count in (90, 180, 361)]
    rows += [("groups of one statement", groups, 362, refusal)]
    bad = 0
    print(f"{'grammar':32}{'size':>9}{'bytes':>9}{'rules':>8}{'seconds':>9}{'cpu':>8}{'MB':>6}  answer")
    for kind, make, size, wanted in rows:
        text, rules = make(size)
        seconds, cpu, peak, status, line = check(binary, text)
        good = (status, line) == (3, wanted) if wanted else status == 0 and line.startswith(f"accepted: {rules} rules, ")
        bad += not good or cpu >= LIMIT
        note = "" if good else "  WRONG" if cpu < LIMIT else "  WRONG, SLOW"
        note = note or ("  SLOW" if cpu >= LIMIT else "")
        print(f"{kind:32}{size:>9}{len(text.encode()):>9}{rules:>8}{seconds:>9.3f}{cpu:>8.3f}{peak:>6}  {line}{note}", flush=True)
    return 1 if bad else 0


sys.exit(main())
