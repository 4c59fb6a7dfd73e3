#!/usr/bin/env python3
"""Runs each example of the README, of docs/LANGUAGE.md, of docs/LIBRARY.md and of the manual pages with the built programs, and compares
what it writes. Nothing of the toolchain is needed.

    bench/examples.py [--programs FOLDER] [--page FILE ..]

FOLDER has the programs `slif` and `slif_show`; without it those are taken that were built here, as crates/slif/out/slif. An example that calls
another program (`slif_glades`, `slif_lint`, `calculator`, `ini_json`) is left out, and counted, where that program is not there.

An indented block whose first line is a comment with a name, as `# sum.slif`, is a file of that name; of one as `# words.script` that line is no
part. Of a manual page the blocks between `.nf` and `.fi` are taken. A line of a block that begins with `$` is a command, and the lines below it are all that it writes, to standard
output or standard error. The files of a page are made in a folder of their own, where the folder examples/ is that of the repository. Of each
examples/NAME.out there has to be a command that names examples/NAME.slif and writes just that.
"""
import argparse, os, pathlib, re, subprocess, sys, tempfile

INDENT = "    "
ROOT = pathlib.Path(__file__).resolve().parent.parent
PAGES = ["README.md", "docs/LANGUAGE.md", "docs/LIBRARY.md", "docs/slif.1", "docs/slif_show.1", "docs/slif_glades.1", "docs/slif_lint.1"]
PROGRAMS = ["slif", "slif_show", "slif_glades", "slif_lint", "calculator", "ini_json"]


def blocks_of(page):
    """The indented blocks, each as the number of its first line and its lines."""
    blocks, last = [], 0
    for number, line in enumerate(page.splitlines(), 1):
        if not line.startswith(INDENT):
            continue
        if number != last + 1 or not blocks:
            blocks.append((number, []))
        blocks[-1][1].append(line[len(INDENT):])
        last = number
    return blocks


def blocks_of_manual(page):
    """The same of a manual page."""
    blocks = []
    for number, line in enumerate(page.splitlines(), 1):
        if line in (".nf", ".fi"):
            is_open = line == ".nf"
            blocks += [(number + 1, [])] if is_open else []
        elif blocks and is_open:
            blocks[-1][1].append(line.replace("\\-", "-").replace("\\(aq", "'").replace("\\e", "\\"))
    return blocks


def commands_of(first, lines):
    """The commands of a block, each with the number of its line and what it should write."""
    commands = []
    for number, line in enumerate(lines, first):
        if line.startswith("$ "):
            commands.append([number, line[2:], ""])
        elif commands:
            commands[-1][2] += line + "\n"
    return commands


def read(path):
    """The files and the commands of a page, in its order. A name that stands for two files is a mistake of the page."""
    files, commands = {}, []
    for first, lines in (blocks_of if path.suffix == ".md" else blocks_of_manual)(path.read_text()):
        named = re.fullmatch(r"# ([\w-]+\.(slif|script))", lines[0])
        if named:
            text = "\n".join(lines[named[2] == "script":]) + "\n"
            if files.setdefault(named[1], text) != text:
                raise SystemExit(f"line {first}: {named[1]} is there twice")
        commands += commands_of(first, lines)
    return files, commands


def run(command, folder, tools):
    env = {**os.environ, "PATH": f"{tools}{os.pathsep}{os.environ['PATH']}"}
    done = subprocess.run(["sh", "-c", command], stdin=subprocess.DEVNULL, stdout=subprocess.PIPE, stderr=subprocess.STDOUT,
                          cwd=folder, env=env, timeout=60)
    return done.stdout.decode(errors="replace")


def outputs_told(commands):
    """What is told of each file examples/NAME.out: whether a command writes it."""
    told = []
    for path in sorted((ROOT / "examples").glob("*.out")):
        name, text = f"examples/{path.stem}.slif", path.read_text()
        told.append((path.name, any(name in command and wanted == text for _, command, wanted in commands)))
    return told


def failures_of(page, files, commands, programs):
    """How many commands of a page write other than it says."""
    failed = 0
    with tempfile.TemporaryDirectory() as folder, tempfile.TemporaryDirectory() as tools:
        for name, path in programs.items():
            os.symlink(path, pathlib.Path(tools) / name)
        os.symlink(ROOT / "examples", pathlib.Path(folder) / "examples")
        for name, text in files.items():
            (pathlib.Path(folder) / name).write_text(text)
        for number, command, wanted in commands:
            got = run(command, folder, tools)
            if got != wanted:
                failed += 1
                print(f"{page}:{number}: {command}\n  wanted {wanted!r}\n  got    {got!r}")
    return failed


def programs_in(folder):
    """The path of each program that is there. The two that every page asks for have to be."""
    paths = {name: (folder / name if folder else ROOT / f"crates/{name}/out/{name}").resolve() for name in PROGRAMS}
    for name in PROGRAMS[:2]:
        if not os.access(paths[name], os.X_OK):
            raise SystemExit(f"there is no program {paths[name]}")
    return {name: path for name, path in paths.items() if os.access(path, os.X_OK)}


def main():
    options = argparse.ArgumentParser()
    options.add_argument("--programs", type=pathlib.Path)
    options.add_argument("--page", type=pathlib.Path, action="append")
    options = options.parse_args()
    programs = programs_in(options.programs)
    missing = [name for name in PROGRAMS if name not in programs]
    grammars, told, failed, left_out = 0, [], 0, 0
    for page in options.page or [ROOT / name for name in PAGES]:
        files, commands = read(page)
        runs = [one for one in commands if not set(missing) & set(re.findall(r"[\w]+", one[1]))]
        failed += failures_of(page.name, files, runs, programs)
        grammars, told, left_out = grammars + len(files), told + runs, left_out + len(commands) - len(runs)
    for name, is_told in outputs_told(told) if not options.page else []:
        if not is_told:
            failed += 1
            print(f"examples/{name}: no command of a page writes this")
    print(f"{grammars} grammars, {len(told)} commands, {failed} failed" + (f", {left_out} left out: no {', '.join(missing)}" if left_out else ""))
    return 1 if failed else 0


if __name__ == "__main__":
    sys.exit(main())
