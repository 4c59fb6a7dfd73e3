#!/usr/bin/env python3
"""Hostile use of the built program: cut, deep and long inputs, little stack, little memory, few file descriptors, closed streams.

    bench/hostile.py [--binary crates/slif/out/slif] [--only WORD]

Each case ends with a status from 0 to 5, and never by a signal; where it is known which, that one is asked for. What differs is printed, and the last line counts.
"""
import argparse, os, pathlib, resource, subprocess, sys, tempfile

from measuring import BINARY, ROOT, document

options = argparse.ArgumentParser()
options.add_argument("--binary", default=BINARY)
options.add_argument("--only", default="")
options = options.parse_args()
MIB = 1 << 20
JSON, OPERATORS = str(ROOT / "examples/json.slif"), str(ROOT / "examples/operators.slif")
FIRST = ":default ::= action => ::first\n"
done, faults = 0, []


def run(words, given=b"", limits=(), closed=False):
    """The status, the output and the errors of a run under limits."""

    def begin():
        for kind, most in limits:
            resource.setrlimit(kind, (most, most))
        if closed:
            os.close(0)

    found = subprocess.run([options.binary, *words], input=None if closed else given, stdin=None if not closed else subprocess.DEVNULL,
                           capture_output=True, preexec_fn=begin)
    return found.returncode, found.stdout, found.stderr


def case(name, answer, statuses, out=None, err=None):
    """One case: its status is one of these, and its texts are these where they are told."""
    global done
    done += 1
    status, told, errors = answer
    if status not in statuses or (out is not None and told != out) or (err is not None and errors != err):
        faults.append(name)
        print(f"{name}: status {status}, out {told[:80]!r}, err {errors[:160]!r}")


def cut():
    """Each front of a document and of a grammar text."""
    text = b'{"a": [1, -2.5e3, {"b": null}], "c": "x\\u00e9", "d": true}'
    for length in range(len(text)):
        case(f"front of {length} bytes of JSON", run(["run", "--grammar", JSON], text[:length]), {1}, out=b"")
    grammar = pathlib.Path(OPERATORS).read_bytes()
    with tempfile.TemporaryDirectory() as folder:
        path = os.path.join(folder, "front.slif")
        for length in range(len(grammar)):
            pathlib.Path(path).write_bytes(grammar[:length])
            case(f"front of {length} bytes of the operator grammar", run(["check", "--grammar", path]), {0, 3})


def deep():
    """Deep and long inputs: their value, or that memory ran out."""
    with tempfile.TemporaryDirectory() as folder:
        brackets, tokens = os.path.join(folder, "brackets.slif"), os.path.join(folder, "tokens.slif")
        pathlib.Path(brackets).write_text(FIRST + "B ::= ('(') B (')') | 'x'\n")
        pathlib.Path(tokens).write_text(FIRST + "L ::= x+\nx ~ 'x'\n")
        for depth in (100_000, 1_000_000):
            text = b"(" * depth + b"x" + b")" * depth
            for statistics in ([], ["--stats"]):
                answer = run(["run", "--grammar", brackets, *statistics], text)
                case(f"{depth} brackets {statistics}", answer, {0, 5})
                if answer[0] == 0 and not answer[1].startswith(b'"x"'):
                    case(f"value of {depth} brackets", answer, set())
        answer = run(["run", "--grammar", tokens], b"x" * (16 * MIB))
        case("16 MiB of one-character tokens", answer, {0, 5}, out=b'"x"\n' if answer[0] == 0 else b"")
        case("16 MiB and a byte", run(["run", "--grammar", tokens], b"x" * (16 * MIB + 1)), {1}, out=b"")


def jobs():
    """One run of each job, with its input and its status."""
    text = document(2000).encode()
    yield "run", ["run", "--grammar", JSON, "--stats"], text, 0
    yield "run of a tree", ["run", "--grammar", JSON, "--show", "tree"], text, 0
    yield "check", ["check", "--grammar", OPERATORS], b"", 0
    yield "expect", ["expect", "--grammar", JSON], text[:1000], None
    yield "progress", ["progress", "--at", "3", "--grammar", JSON], text[:1000], None
    yield "work", ["work", "--size", "1000"], b"", 0
    yield "glades", ["glades", "--grammar", str(ROOT / "examples/sum.slif")], b"1+1+1+1+1+1", 0
    yield "script", ["script"], b"symbol S\nsymbol a\nrule S S a\nrule S a\nstart S\nprecompute\n" + b"alternative a 1\ncomplete\n" * 100 + b"report 100\ntrees 1\n", 0
    yield "slip", ["slip", "--grammar", JSON, "--give", "':','}'"], text[:1000], None
    yield "no job", ["nothing"], b"", 2
    yield "stopped", ["run", "--grammar", JSON], b'["a", \x01]', 1


def small():
    """Each job with 64 KB of stack, and with six file descriptors, of which three are free."""
    for name, words, text, status in jobs():
        whole = run(words, text)
        case(name, whole, {status} if status is not None else {0, 1})
        for kind, most in ((resource.RLIMIT_STACK, 64 << 10), (resource.RLIMIT_NOFILE, 6)):
            case(f"{name} with limit {kind} of {most}", run(words, text, [(kind, most)]), {whole[0]}, whole[1], whole[2])


def memory():
    """Each job under limits of its address space, from above the 3 MB that the loader takes: its own answer, or that memory ran out."""
    for name, words, text, _ in jobs():
        whole = run(words, text)
        for step in range(3 * 8 + 1, 40 * 8):
            answer = run(words, text, [(resource.RLIMIT_AS, step * MIB // 8)])
            if answer[0] == 5:
                case(f"{name} in {step / 8} MiB", answer, {5}, err=b"slif: out of memory\n")
            else:
                case(f"{name} in {step / 8} MiB", answer, {whole[0]}, whole[1], whole[2])


def streams():
    """Closed input, words that are no text, and names with line ends and control characters."""
    with tempfile.TemporaryDirectory() as folder:
        star = os.path.join(folder, "star.slif")
        pathlib.Path(star).write_text("S ::= x*\nx ~ 'x'\n")
        case("closed input", run(["run", "--grammar", star], closed=True), {4}, b"", b"slif: read fault\n")
        case("a word that is not UTF-8", run([b"run", b"--grammar", b"\xff"]), {4}, b"", b"slif: read fault\n")
        named = os.path.join(folder, "named.slif")
        pathlib.Path(named).write_text("S ::= [a\x1b\n]\n")
        for job in (["run", "--grammar", named], ["check", "--grammar", named], ["run", "--grammar", "no\x1b\nfile"]):
            answer = run(job, b"z")
            case(f"control characters: {job[0]}", answer, {0, 1, 3, 4})
            if answer[2].count(b"\n") > 1 or b"\x1b" in answer[2]:
                case(f"one line of a message: {job}", answer, set())


for part in (cut, deep, small, memory, streams):
    if options.only in part.__name__:
        part()
        print(f"{part.__name__}: {done} cases so far, {len(faults)} of them differ", flush=True)
sys.exit(1 if faults else 0)
