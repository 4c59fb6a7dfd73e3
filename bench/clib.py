#!/usr/bin/env python3
"""Builds the library for C, links it and tests it, and the Python module over it.

    bench/clib.py [--library FILE | --gate] [--rounds N]

FILE is the static library that `rt lib` writes in crates/slif_c; without it that is made first, over what was proved before. `rt ci` proves it and makes
none. With --gate it is made over the libraries that `rt ci` left here in a clean clone: the crate is proved once more, and none below it; where other
libraries stand here, or none, nothing is tested. A C compiler is wanted; valgrind is used where it is there. Tested are: what the object needs and
exports; each call, by clib/test.c, which writes clib/test.out; want of memory at each allocation, by clib/no_memory.c; both under valgrind; the program
of docs/C.md, the scanner there, and the INI reader; a program in C++; the examples in the texts of the Python modules, and clib/scanner.py over them.

With --rounds it measures, in processor time and in turn with the program `slif` where that is built: JSON of 1 MB, a short input read again and
again by one grammar, and JSON of 1 MB folded to objects by Python, beside lark where that is installed.
"""
import argparse, os, pathlib, re, shutil, subprocess, sys, tempfile, textwrap, time

sys.dont_write_bytecode = True
HERE = pathlib.Path(__file__).resolve().parent
ROOT = HERE.parent
EXTRAS = ROOT / "extras"
BUILT = ROOT / "crates/slif_c/out/libslif_c.a"
CC, CXX = os.environ.get("CC", "cc"), os.environ.get("CXX", "c++")
HEAP = {"rattle_alloc", "rattle_dealloc", "rattle_realloc"}
LIBC = {"memcpy", "memmove", "memset"}
INI = "; two servers\n[web]\nhost = example.org  ; the first\nport =\n\n[mail.old]\nmotto = small and fast"
INI_OUT = "web.host=example.org\nweb.port=\nmail.old.motto=small and fast\n"
INI_BAD = "ini:2:6: input stopped at line 2 column 6; found: none; expected: '='\nini: '=' could stand there\n"
SUM_BAD = "sum: input stopped at line 1 column 3; found: none; expected: number\n"
CPP = """#include "slif.h"
#include <cstdio>
int main() {
    slif_grammar grammar = SLIF_NEW;
    slif_parse parse = SLIF_NEW;
    slif_step none;
    std::size_t count = 0;
    slif_grammar_make(&grammar, "E ::= E '+' E | '1'", 19, nullptr, nullptr, 0);
    slif_parse_make(&parse, &grammar, "1+1+1", 5, SLIF_RANK_RULE, 0, 1, nullptr, nullptr, 0, nullptr, 0);
    slif_parse_steps(&parse, 0, 0, &none, 0, &count);
    slif_parse_free(&parse);
    slif_grammar_free(&grammar);
    std::printf("%zu steps\\n", count);
}
"""
failures = []


def tell(what, is_right, why=""):
    print(f"{'ok  ' if is_right else 'FAIL'} {what}" + (f"\n{why}" if why and not is_right else ""), flush=True)
    if not is_right:
        failures.append(what)


def run(words, **more):
    more = {"stdin": subprocess.DEVNULL, **more} if "input" not in more else more
    return subprocess.run([str(word) for word in words], stdout=subprocess.PIPE, stderr=subprocess.PIPE, **{"timeout": 600, **more})


def made_library():
    """The static library, made by the toolchain over what it has kept."""
    done = run(["rt", "lib"], timeout=7200, cwd=ROOT / "crates/slif_c")
    tell("rt lib makes the static library", done.returncode == 0, done.stdout.decode()[-1000:] + done.stderr.decode()[-1000:])
    return BUILT


def uses():
    """What each crate uses, by crates.txt."""
    rows = re.findall(r"^(\w+)[^:\n#]*:(.*)", (ROOT / "crates.txt").read_text(), re.M)
    return {name: words.split() for name, words in rows}


def left_by_gate():
    """The folders of the libraries below, by their crates, where each is as `rt ci` leaves it: without a stamp; else none."""
    used, below, left = uses(), {}, ["slif_c"]
    while left:
        for name in used[left.pop()]:
            if name in used and name not in below:
                below[name] = ROOT / f"crates/{name}/out/rlib"
                left.append(name)
    stand = all((at / f"{name}.rlib/format").exists() and not (at / "stamp").exists() for name, at in below.items())
    return below if stand else {}


def made_over(below):
    """The static library, made over these: the crate alone is proved."""
    kit = pathlib.Path(os.path.realpath(shutil.which("rt"))).parent.parent
    words = ["--crate-name", "slif_c", "src/lib.rt", "--crate-type", "staticlib", "--links", "slif_c=", "--extern", f"std={kit}/rlibs/std.rlib"]
    words += ["-L", f"dependency={kit}/rlibs", "--antt-project", f"{kit}/rattle/logic/antt-project.json", "--logic-built", f"{kit}/logic_built"]
    for name, at in below.items():
        words += ["-L", f"dependency={at}"]
    for name in uses()["slif_c"]:
        words += ["--extern", f"{name}={below.get(name, kit / 'rlibs')}/{name}.rlib"]
    words += ["--jobs", "2", "--toolchain", f"{kit}/toolchain", "--backend", "llvm", "-o", BUILT]
    BUILT.parent.mkdir(exist_ok=True)
    done = run([kit / "bin/rattle", "build", *words], timeout=7200, cwd=ROOT / "crates/slif_c")
    tell("the static library is made over what the gate left", done.returncode == 0, done.stdout.decode()[-1000:] + done.stderr.decode()[-1000:])
    return BUILT


def declared():
    """The calls that the header declares, without those that it defines."""
    return set(re.findall(r"^(?:uint32_t|void) (slif_\w+)\(", (EXTRAS / "c/slif.h").read_text(), re.M))


def names_of(words):
    return [line.split() for line in run(["nm", *words]).stdout.decode().splitlines() if line.strip() and not line.endswith(":")]


def look_at_names(library, shared):
    needed = {parts[-1] for parts in names_of(["-u", library])}
    tell("the static library needs the heap and three calls of C's library", needed <= HEAP | LIBC, str(sorted(needed)))
    exported = {parts[-1] for parts in names_of(["-D", "--defined-only", shared]) if parts[-1] != "slif_"}
    tell("the shared library exports what the header declares", exported == declared(), f"{sorted(exported)} and {sorted(declared())}")


def compiled(at, source, *libraries, of=None):
    made = at / source.stem
    done = run([CC, "-std=gnu11", "-O2", "-Wall", "-Wextra", "-I", EXTRAS / "c", source, *libraries, "-lpthread", "-o", made])
    tell(f"{of or source.relative_to(ROOT)} compiles without a warning", done.returncode == 0 and not done.stderr, done.stderr.decode())
    return made


def passes(what, words, out=None, **more):
    done = run(words, **more)
    right = done.returncode == 0 and (out is None or done.stdout.decode() == out)
    tell(what, right, done.stdout.decode()[-2000:] + done.stderr.decode()[-2000:])


def test_c(at, library):
    test, no_memory = compiled(at, HERE / "clib/test.c", at / "libslif.a"), compiled(at, HERE / "clib/no_memory.c", library)
    out = (HERE / "clib/test.out").read_text()
    passes("each call answers as it should", [test], out)
    passes("want of memory at each allocation", [no_memory])
    if shutil.which("valgrind"):
        words = ["valgrind", "-q", "--error-exitcode=9", "--leak-check=full"]
        passes("valgrind finds nothing in the first", [*words, test], out)
        passes("valgrind finds nothing in the second", [*words, no_memory])
    else:
        print("     (valgrind is not there)")


def test_guide(at):
    """The program that stands in docs/C.md, from its first line to the next of the text."""
    (at / "sum.c").write_text(textwrap.dedent(re.search(r"^    /\* sum.*?(?=^\S)", (ROOT / "docs/C.md").read_text(), re.M | re.S)[0]))
    sum = compiled(at, at / "sum.c", at / "libslif.a", of="the program of docs/C.md")
    passes("the program of docs/C.md adds", [sum, "1+20+3"], "24\n")
    done = run([sum, "1+x"])
    tell("and refuses", (done.returncode, done.stderr.decode()) == (1, SUM_BAD), done.stderr.decode())


def test_scanner_of_guide(at):
    """The second program of docs/C.md, which has a lexer of its own."""
    (at / "ratio.c").write_text(textwrap.dedent(re.search(r"^    /\* ratio.*?(?=^\S|\Z)", (ROOT / "docs/C.md").read_text(), re.M | re.S)[0]))
    ratio = compiled(at, at / "ratio.c", at / "libslif.a", of="the scanner of docs/C.md")
    passes("the scanner of docs/C.md tells a slash from a pattern", [ratio, "a / /b c/ / d"], "((a over /b c/) over d)\n")
    passes("also without spaces", [ratio, "/x//y"], "(/x/ over y)\n")
    for word, told in (("a b", "ratio: unexpected: b\n"), ("a /", "ratio: it is not whole\n")):
        done = run([ratio, word])
        tell(f"and refuses {word!r}", (done.returncode, done.stderr.decode()) == (1, told), done.stderr.decode())


def test_cpp(at):
    """The header is one for C++, too."""
    if not shutil.which(CXX):
        print("     (a compiler of C++ is not there)")
        return
    words = [CXX, "-x", "c++", "-std=c++11", "-Wall", "-Wextra", "-pedantic", "-I", EXTRAS / "c"]
    (at / "cpp.cc").write_text(CPP)
    done = run([*words, at / "cpp.cc", "-x", "none", at / "libslif.a", "-o", at / "cpp"])
    tell("the header is one of C++", done.returncode == 0 and not done.stderr, done.stderr.decode())
    passes("and a program in C++ runs", [at / "cpp"], "10 steps\n")


def test_ini(at):
    ini = compiled(at, EXTRAS / "c/ini.c", at / "libslif.a")
    passes("the INI reader reads", [ini], INI_OUT, input=INI.encode())
    done = run([ini], input=b"[web]\nhost + x\n")
    tell("the INI reader tells a fault", done.returncode == 1 and done.stderr.decode() == INI_BAD, done.stderr.decode())


def python(at, words, **more):
    env = {**os.environ, "SLIF_LIBRARY": str(at / "libslif.so"), "PYTHONDONTWRITEBYTECODE": "1", "PYTHONPATH": str(EXTRAS / "python")}
    return run([sys.executable, *words], cwd=EXTRAS / "python", env=env, **more)


def test_python(at):
    for module in ("slif", "json_reader", "calculator"):
        done = python(at, ["-m", "doctest", f"{module}.py"])
        tell(f"the examples of extras/python/{module}.py", done.returncode == 0, done.stdout.decode()[-2000:] + done.stderr.decode()[-2000:])
    done = python(at, ["-c", "import doctest, sys; sys.exit(doctest.testfile(sys.argv[1], False).failed)", ROOT / "docs/C.md"])
    tell("the example of docs/C.md", done.returncode == 0, done.stdout.decode()[-2000:] + done.stderr.decode()[-2000:])
    done = python(at, [HERE / "clib/scanner.py"])
    tell("scanners, lines and threads in Python", done.returncode == 0 and not done.stdout, done.stdout.decode()[-2000:] + done.stderr.decode()[-2000:])
    done = python(at, ["calculator.py", "2 + 3 * (4 - 1) ** 2"])
    tell("the calculator calculates", done.stdout == b"29\n", done.stderr.decode())
    done = python(at, ["json_reader.py"], input=b'{"a": [1, 2.5, "\\u00e9", []], "b": {}}')
    tell("the JSON reader reads", done.stdout.decode() == "{'a': [1, 2.5, 'é', []], 'b': {}}\n", done.stderr.decode())


def test_install(at):
    """What is installed links, with the words that pkg-config has of it."""
    programs, prefix = at / "programs", at / "prefix"
    programs.mkdir()
    for name in ("slif", "slif_show", "slif_glades", "slif_lint"):
        (programs / name).write_text("")
        (programs / name).chmod(0o755)
    done = run([EXTRAS / "install", "--programs", programs, "--library", at, prefix])
    tell("extras/install puts the library", done.returncode == 0, done.stderr.decode())
    words = [f"-I{prefix}/include", f"-L{prefix}/lib", "-lslif"]
    if shutil.which("pkg-config"):
        env = {**os.environ, "PKG_CONFIG_PATH": f"{prefix}/lib/pkgconfig"}
        words = run(["pkg-config", "--cflags", "--libs", "slif"], env=env).stdout.decode().split()
    done = run([CC, prefix / "share/doc/slif/ini.c", *words, "-o", at / "installed"])
    tell("a program links with what was installed", done.returncode == 0, done.stderr.decode())
    passes("and runs", [at / "installed"], INI_OUT, input=INI.encode(), env={**os.environ, "LD_LIBRARY_PATH": f"{prefix}/lib"})


FOLD = """
import json, pathlib, sys, time, json_reader
text = pathlib.Path(sys.argv[1]).read_text()
begin = time.process_time()
value = json_reader.loads(text)
print(time.process_time() - begin, value == json.loads(text))
"""

LARK = """
import pathlib, sys, time
from lark import Lark, Transformer
text = pathlib.Path(sys.argv[1]).read_text()
class Values(Transformer):
    list, object, pair = list, dict, tuple
    def string(self, parts): return parts[0][1:-1]
    def number(self, parts): return float(parts[0])
    def true(self, _): return True
    def false(self, _): return False
    def null(self, _): return None
parser = Lark(r'''
?value: object | list | string | SIGNED_NUMBER -> number | "true" -> true | "false" -> false | "null" -> null
list: "[" (value ("," value)*)? "]"
object: "{" (pair ("," pair)*)? "}"
pair: string ":" value
string: ESCAPED_STRING
%import common.ESCAPED_STRING
%import common.SIGNED_NUMBER
%import common.WS
%ignore WS
''', start='value', parser='earley')
begin = time.process_time()
Values().transform(parser.parse(text))
print(time.process_time() - begin)
"""


def measure(at, rounds):
    sys.path.insert(0, str(HERE))
    from measuring import BINARY, best, document
    speed = compiled(at, HERE / "clib/speed.c", at / "libslif.a")
    (at / "json.txt").write_text(document(1_000_000))
    (at / "sum.slif").write_text("E ::= E '+' E | '1'\n")
    (at / "sum.txt").write_text("1+1+1")
    grammar = ROOT / "examples/json.slif"
    commands = [[str(speed), str(grammar), str(at / "json.txt"), "1"]]
    if os.path.exists(BINARY):
        commands.append([BINARY, "run", "--grammar", str(grammar), "--input", str(at / "json.txt")])
    for command, (_, used, memory, status, _) in zip(commands, best(commands, rounds)):
        print(f"JSON of 1 MB, {'the library' if command[0] == str(speed) else 'the program'}: {used:.2f} s, {memory:.0f} MB, status {status}")
    made, each, _, _ = run([speed, at / "sum.slif", at / "sum.txt", 50_000]).stdout.split()
    print(f"1+1+1 by one grammar: {1 / float(each):,.0f} a second; the grammar took {1000 * float(made):.2f} ms")
    times = [python(at, ["-c", FOLD, at / "json.txt"]).stdout.decode().split() for _ in range(rounds)]
    print(f"JSON of 1 MB to objects by Python: {min(float(took) for took, _ in times):.2f} s")
    tell("the objects are those of the module json", all(same == "True" for _, same in times))
    done = run([sys.executable, "-c", LARK, at / "json.txt"])
    print(f"the same by lark: {float(done.stdout):.2f} s" if done.returncode == 0 else "lark is not installed")


def main():
    words = argparse.ArgumentParser()
    words.add_argument("--library", type=pathlib.Path)
    words.add_argument("--gate", action="store_true")
    words.add_argument("--rounds", type=int, default=0)
    asked = words.parse_args()
    if not shutil.which(CC):
        print("there is no C compiler: nothing is tested")
        return 0
    below = left_by_gate() if asked.gate else {}
    if asked.gate and not below:
        print("the libraries that `rt ci` leaves are not here: the library for C is not tested")
        return 0
    library = asked.library.resolve() if asked.library else made_over(below) if asked.gate else made_library()
    if failures:
        return 1
    with tempfile.TemporaryDirectory() as room:
        at = pathlib.Path(room)
        done = run([EXTRAS / "c/build", at, library])
        tell("extras/c/build makes both libraries", done.returncode == 0, done.stderr.decode())
        if not failures:
            look_at_names(library, at / "libslif.so.0")
            test_c(at, library)
            test_guide(at)
            test_scanner_of_guide(at)
            test_cpp(at)
            test_ini(at)
            test_python(at)
            test_install(at)
            if asked.rounds:
                measure(at, asked.rounds)
    print(f"{len(failures)} failures")
    return bool(failures)


if __name__ == "__main__":
    sys.exit(main())
