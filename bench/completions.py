#!/usr/bin/env python3
"""Types into a bash in a terminal, and looks at what the completions of extras/slif.bash make of it. Nothing else is needed.

    bench/completions.py [--file extras/slif.bash]

A line of a case is typed up to its key: TAB completes, ALL writes all that could be completed. What then stands on the line has to be as told.
"""
import argparse, os, pathlib, pty, re, select, sys, tempfile, time

ROOT = pathlib.Path(__file__).resolve().parent.parent
FILES = ["sum.slif", "sum.txt", "a table.slif", "check/inner.slif", "run/x", "it's.slif"]
TAB, ALL = "\t", "\x1b*"
CASES = [
    # What is typed, the key, and the line behind it.
    ("slif che", TAB, "slif check "),
    ("slif r", TAB, "slif run "),
    ("slif ", ALL, "slif --after --at check expect --first --give glades --grammar --input more progress --rank run script --show --size slip --stats work"),
    ("slif check ", TAB, "slif check --grammar "),
    ("slif check --grammar s", TAB, "slif check --grammar sum."),
    ("slif check --grammar sum.s", TAB, "slif check --grammar sum.slif "),
    ("slif check --grammar che", TAB, "slif check --grammar check/"),
    ("slif check --grammar check/", TAB, "slif check --grammar check/inner.slif "),
    ("slif check --grammar a", TAB, r"slif check --grammar a\ table.slif "),
    (r"slif check --grammar a\ t", TAB, r"slif check --grammar a\ table.slif "),
    ("slif check --grammar 'a t", TAB, "slif check --grammar 'a table.slif' "),
    ("slif check --grammar i", TAB, r"slif check --grammar it\'s.slif "),
    ("slif check --grammar=sum.s", TAB, "slif check --grammar=sum.slif "),
    ("slif check --grammar=", ALL, r"slif check --grammar=a\ table.slif check it\'s.slif run sum.slif sum.txt"),
    ("slif check --grammar sum.slif ", TAB, "slif check --grammar sum.slif "),
    ("slif run --grammar=sum.slif --ra", TAB, "slif run --grammar=sum.slif --rank "),
    ("slif run --rank=h", TAB, "slif run --rank=high "),
    ("slif run --rank ", ALL, "slif run --rank high none rule"),
    ("slif run --rank=", ALL, "slif run --rank=high none rule"),
    ("slif run --show t", TAB, "slif run --show tree "),
    ("slif run --first ", TAB, "slif run --first "),
    ("slif run --grammar sum.slif --first 2 ", ALL, "slif run --grammar sum.slif --first 2 --input --rank --show --stats"),
    ("slif run --grammar run --s", ALL, "slif run --grammar run --show --stats"),
    ("slif --size 5 ", TAB, "slif --size 5 work "),
    ("slif --grammar run ", ALL, "slif --grammar run --after --at check expect --first --give glades --input more progress --rank run --show slip --stats"),
    ("slif --grammar=run --stats ", ALL, "slif --grammar=run --stats --first --input --rank run --show"),
    ("slif --at 2 --gr", TAB, "slif --at 2 --grammar "),
    ("slif --grammar sum.slif -- c", TAB, "slif --grammar sum.slif -- check "),
    ("slif progress --grammar sum.slif --a", TAB, "slif progress --grammar sum.slif --at "),
    ("slif work ", TAB, "slif work --size "),
    ("slif gl", TAB, "slif glades "),
    ("slif sc", TAB, "slif script "),
    ("slif mo", TAB, "slif more "),
    ("slif sl", TAB, "slif slip "),
    ("slif slip --grammar sum.slif --gi", TAB, "slif slip --grammar sum.slif --give "),
    ("slif slip --grammar sum.slif --give a,b ", ALL, "slif slip --grammar sum.slif --give a,b --first --input --rank --show"),
    ("slif --give a ", ALL, "slif --give a --first --grammar --input --rank --show slip"),
    ("slif more --grammar sum.slif --af", TAB, "slif more --grammar sum.slif --after "),
    ("slif more --grammar sum.slif --after 0 ", ALL, "slif more --grammar sum.slif --after 0 --first --input --rank --show"),
    ("slif --after 0 ", ALL, "slif --after 0 --first --grammar --input more --rank --show"),
    ("slif script ", TAB, "slif script --input "),
    ("slif glades ", ALL, "slif glades --grammar --input"),
    ("slif_show --d", ALL, "slif_show --diff --dot"),
    ("slif_show --j", TAB, "slif_show --json "),
    ("slif_show --json --", TAB, "slif_show --json --"),
    ("slif_show --r", TAB, "slif_show --rules "),
    ("slif_lint --", TAB, "slif_lint --grammar "),
    ("slif_lint --grammar sum.s", TAB, "slif_lint --grammar sum.slif "),
    ("slif_glades --g", TAB, "slif_glades --grammar "),
    ("slif_glades --grammar sum.s", TAB, "slif_glades --grammar sum.slif "),
    ("slif_glades --grammar sum.slif --", ALL, "slif_glades --grammar sum.slif --all --input"),
    ("slif_glades --all --grammar sum.slif --i", TAB, "slif_glades --all --grammar sum.slif --input "),
]


class Terminal:
    def __init__(self, folder):
        pid, self.end = pty.fork()
        if pid == 0:
            os.chdir(folder)
            os.execvpe("bash", ["bash", "--norc", "--noprofile", "-i"], {**os.environ, "TERM": "dumb", "PS1": "$ ", "LC_ALL": "C.UTF-8", "HOME": folder})
        self.pid = pid

    def send(self, text):
        os.write(self.end, text.encode())

    def await_mark(self, mark):
        """What comes up to a mark, which is a pattern with one group."""
        text, until = "", time.time() + 10
        while time.time() < until:
            if select.select([self.end], [], [], 0.1)[0]:
                text += os.read(self.end, 65536).decode(errors="replace")
                found = re.search(mark, text, re.DOTALL)
                if found:
                    return found[1]
        raise SystemExit(f"bash does not answer: {text!r}")

    def line_after(self, typed, key):
        # The line is written between two marks by a key of its own, and then taken back.
        self.send(typed + key + "\x18\x04")
        line = self.await_mark("\x02(.*?)\x03")
        self.send("\x15\x0b")
        return line


def main():
    options = argparse.ArgumentParser()
    options.add_argument("--file", type=pathlib.Path, default=ROOT / "extras/slif.bash")
    options = options.parse_args()
    failed = 0
    with tempfile.TemporaryDirectory() as folder:
        for name in FILES:
            path = pathlib.Path(folder) / name
            path.parent.mkdir(exist_ok=True)
            path.write_text("")
        terminal = Terminal(folder)
        terminal.send("bind 'set bell-style none' 'set enable-bracketed-paste off' 'set completion-query-items 0' 'set page-completions off'; ")
        terminal.send(f". '{options.file.resolve()}'; ")
        terminal.send("""bind -x '"\\C-x\\C-d": printf "\\002%s\\003" "$READLINE_LINE"'; printf '\\002re%s\\003' ady\n""")
        terminal.await_mark("\x02ready\x03.*?([$] )")
        for typed, key, wanted in CASES:
            line = terminal.line_after(typed, key)
            same = line == wanted if key == TAB else sorted(line.split()) == sorted(wanted.split())
            if not same:
                failed += 1
                print(f"{typed!r}, {'TAB' if key == TAB else 'ALL'}\n  wanted {wanted!r}\n  got    {line!r}")
        terminal.send("exit\n")
        os.waitpid(terminal.pid, 0)
    print(f"{len(CASES)} lines typed, {failed} failed")
    return 1 if failed else 0


if __name__ == "__main__":
    sys.exit(main())
