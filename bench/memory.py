#!/usr/bin/env python3
"""Each request for memory refused in turn: the built program, its own tests, and how many requests were tried.

    bench/memory.py [--binary crates/slif/out/slif] [--only WORD] [--tests]

A run of the program whose request of some number is refused ends with its own answer, or with status 5, the line of want of memory, and a beginning of its
output. The numbers go up until a run asks for less. The requests are refused by a library of a few lines that `cc` makes, which stands before malloc, calloc,
realloc and aligned_alloc. With --tests the tests of `run_tests` are tried too, by `rt try --test --fail-alloc`, over the operator table and the spans
example: that takes long. What differs is printed, and the last line counts.
"""
import argparse, concurrent.futures, os, pathlib, subprocess, sys, tempfile

from measuring import BINARY, ROOT, document

options = argparse.ArgumentParser()
options.add_argument("--binary", default=BINARY)
options.add_argument("--only", default="")
options.add_argument("--tests", action="store_true")
options = options.parse_args()

SHIM = r"""
#include <errno.h>
#include <stddef.h>
#include <stdlib.h>
#include <unistd.h>
static long left = -1;
static int refused(void) {
    if (left < 0) left = atol(getenv("REFUSE"));
    if (left > 0 && --left == 0) { (void)!write(atoi(getenv("TOLD")), "x", 1); errno = ENOMEM; return 1; }
    return 0;
}
extern void *__libc_malloc(size_t), *__libc_calloc(size_t, size_t), *__libc_realloc(void *, size_t), *__libc_memalign(size_t, size_t);
void *malloc(size_t n) { return refused() ? NULL : __libc_malloc(n); }
void *calloc(size_t k, size_t n) { return refused() ? NULL : __libc_calloc(k, n); }
void *realloc(void *p, size_t n) { return refused() ? NULL : __libc_realloc(p, n); }
void *aligned_alloc(size_t a, size_t n) { return refused() ? NULL : __libc_memalign(a, n); }
int posix_memalign(void **p, size_t a, size_t n) { if (refused()) return ENOMEM; *p = __libc_memalign(a, n); return *p ? 0 : ENOMEM; }
"""
LINE = b"slif: out of memory\n"
SCRIPT = b"""symbol S
symbol a
symbol b
rule S a S
rule S
sequence a b plus
precompute
start S
precompute
alternative b 2
alternative b 1
expected
complete
alternative b 1
frob
complete
report 2
trees 9
"""


# a derivation of `1+1+1+1`
PLACE = "t2.r1,1.t1.t2.r1,1.r0,3.t1.t2.r1,1.r0,3.t1.t2.r1,1.r0,3"


def cases():
    """One run of each job, and those of a grammar and an input that are refused."""
    examples = ROOT / "examples"
    spans = "S ::= (x) y action => [start,length,value]\nx ~ 'x'\ny ~ 'y'\n"
    broken = "S ::= x\nx ~ 'x'\n)"
    looping = "S ::= S | 'a'\n"
    json, text = str(examples / "json.slif"), document(100).encode()
    yield "operators", ["run", "--grammar", str(examples / "operators.slif")], (examples / "operators.txt").read_bytes(), None
    yield "spans", ["run", "--grammar", "{}"], b"xy", spans
    yield "sum", ["run", "--grammar", str(examples / "sum.slif"), "--show", "tree", "--stats"], (examples / "sum.txt").read_bytes(), None
    yield "run", ["run", "--grammar", json, "--first", "1"], text, None
    yield "check", ["check", "--grammar", json], b"", None
    yield "expect", ["expect", "--grammar", json], text[:30], None
    yield "progress", ["progress", "--at", "2", "--grammar", json], text, None
    yield "work", ["work", "--size", "3"], b"", None
    yield "glades", ["glades", "--grammar", str(examples / "sum.slif")], b"1+1+1+1", None
    yield "more", ["more", "--grammar", str(examples / "sum.slif"), "--after", "0", "--first", "2"], b"1+1+1+1", None
    yield "more after", ["more", "--grammar", str(examples / "sum.slif"), "--after", PLACE], b"1+1+1+1", None
    yield "script", ["script"], SCRIPT, None
    yield "slip", ["slip", "--grammar", "{}", "--give", "semi"], b"12;3", "S ::= X+\nX ::= N semi\nN ~ [\\d]\nsemi ~ ';'\n"
    yield "usage", ["nothing"], b"", None
    yield "stopped", ["run", "--grammar", json], b"[1, ?]", None
    yield "statement", ["check", "--grammar", "{}"], b"", broken
    yield "cycle", ["check", "--grammar", "{}"], b"", looping


def sweep(name, words, given, grammar, room, shim):
    """Refuses each request of a run; the numbers tried, and what differs."""
    if grammar is not None:
        path = os.path.join(room, name + ".slif")
        pathlib.Path(path).write_text(grammar)
        words = [path if word == "{}" else word for word in words]
    whole = subprocess.run([options.binary, *words], input=given, capture_output=True)
    faults, number = [], 0
    while True:
        number += 1
        read, write = os.pipe()
        answer = subprocess.run([options.binary, *words], input=given, capture_output=True, pass_fds=[write],
                                env={"LD_PRELOAD": shim, "REFUSE": str(number), "TOLD": str(write)})
        os.close(write)
        reached = os.read(read, 1)
        os.close(read)
        same = (answer.returncode, answer.stdout, answer.stderr) == (whole.returncode, whole.stdout, whole.stderr)
        short = answer.returncode == 5 and answer.stderr == LINE and whole.stdout.startswith(answer.stdout)
        if not same and not short:
            faults.append(f"{name}, request {number}: status {answer.returncode}, out {answer.stdout[:80]!r}, err {answer.stderr[:160]!r}")
        if not reached:
            return name, number - 1, faults


def program():
    with tempfile.TemporaryDirectory() as room:
        source, shim = os.path.join(room, "refuse.c"), os.path.join(room, "refuse.so")
        pathlib.Path(source).write_text(SHIM)
        subprocess.run(["cc", "-O1", "-shared", "-fPIC", "-o", shim, source], check=True)
        with concurrent.futures.ThreadPoolExecutor() as lanes:
            chosen = [case for case in cases() if options.only in case[0]]
            for name, tried, faults in lanes.map(lambda case: sweep(*case, room, shim), chosen):
                print("\n".join(faults + [f"{name}: {tried} requests refused, {len(faults)} answers differ"]), flush=True)
                yield tried, len(faults)


def tests():
    ran = subprocess.run(["rt", "try", "--test", "--fail-alloc", "1.."], cwd=ROOT / "crates/run_tests", stdin=subprocess.DEVNULL, capture_output=True, text=True)
    print(ran.stdout[-2000:] + ran.stderr[-2000:])
    return 0 if ran.returncode in (0, 6) else 1


told = list(program())
wrong = sum(fault for _, fault in told) + (tests() if options.tests else 0)
print(f"{sum(tried for tried, _ in told)} requests refused, {wrong} answers differ")
sys.exit(1 if wrong else 0)
