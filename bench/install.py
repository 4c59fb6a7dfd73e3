#!/usr/bin/env python3
"""Installs into empty folders by extras/install, and looks whether all that should find the files finds them. Nothing of the toolchain is needed.

    bench/install.py [--programs FOLDER]

FOLDER has the programs `slif`, `slif_show`, `slif_glades` and `slif_lint`; without it those that were built here. Tested are the files and their modes, the programs through
PATH, the manual pages through man, the completions through bash, and the kind of a file through Vim (each where that program is installed);
a root before the prefix; that nothing is written where a program is missing; and that the pages and CHANGELOG.md name the same version.
"""
import argparse, json, os, pathlib, re, shutil, subprocess, sys, tempfile

ROOT = pathlib.Path(__file__).resolve().parent.parent
PROGRAMS = ("slif", "slif_show", "slif_glades", "slif_lint")
WANTED = {
    **{f"bin/{name}": 0o755 for name in PROGRAMS},
    **{f"share/man/man1/{name}.1": 0o644 for name in PROGRAMS},
    **{f"share/bash-completion/completions/{name}": 0o644 for name in PROGRAMS},
    **{f"share/vim/vimfiles/{part}/slif.vim": 0o644 for part in ("compiler", "ftdetect", "ftplugin", "syntax")},
    "share/slif/slif.slif": 0o644,
    **{f"share/slif/vscode/{name}": 0o644 for name in ("package.json", "language-configuration.json", "syntaxes/slif.tmLanguage.json")},
    **{f"share/doc/slif/{name}": 0o644 for name in ("LANGUAGE.md", "LICENSE-APACHE", "LICENSE-MIT", "CHANGELOG.md")},
}
failures = []


def tell(what, is_right):
    print(f"{'ok  ' if is_right else 'FAIL'} {what}")
    if not is_right:
        failures.append(what)


def output_of(words, **more):
    done = subprocess.run(words, stdin=subprocess.DEVNULL, stdout=subprocess.PIPE, stderr=subprocess.STDOUT, timeout=60, **more)
    return done.returncode, done.stdout.decode(errors="replace")


def files_below(folder):
    return {str(path.relative_to(folder)): path.stat().st_mode & 0o777 for path in folder.rglob("*") if path.is_file()}


def look_for_files(prefix, home):
    """Whether the programs that a user has find what was installed, with the words that README.md gives."""
    env = {"HOME": str(home), "PATH": f"{prefix}/bin:{os.environ['PATH']}", "TERM": "dumb", "LC_ALL": "C.UTF-8"}
    status, text = output_of(["slif", "work", "--size", "2"], env=env)
    tell("slif runs through PATH", status == 0 and text.startswith("work 2: "))
    for name in PROGRAMS[1:]:
        status, text = output_of([name, "--none"], env=env)
        tell(f"{name} runs through PATH", status == 2 and f"usage: {name} " in text)
    if shutil.which("man"):
        for name in PROGRAMS:
            status, text = output_of(["man", "-w", name], env=env)
            tell(f"man finds {name}", text.strip() == f"{prefix}/share/man/man1/{name}.1")
            status, text = output_of(["man", "--warnings", "-E", "utf8", name], env={**env, "MANWIDTH": "80"})
            tell(f"man shows {name} without a warning", status == 0 and "NAME" in text and "warning" not in text)
    for name in PROGRAMS:
        words = f". {prefix}/share/bash-completion/completions/{name} && complete -p {name}"
        tell(f"bash takes the completions of {name}", output_of(["bash", "--norc", "-c", words], env=env)[1] == f"complete -F _{name} {name}\n")
    if shutil.which("vim"):
        (home / ".vimrc").write_text(f"set nocompatible runtimepath+={prefix}/share/vim/vimfiles\nfiletype plugin on\nsyntax on\n")
        words = "redir! > told | silent echo &filetype b:current_syntax &makeprg | redir END | quit"
        output_of(["vim", "-Es", "-u", f"{home}/.vimrc", "-c", words, "g.slif"], env=env, cwd=home)
        told = (home / "told").read_text().strip() if (home / "told").exists() else ""
        tell("vim knows a grammar by its name", told == "slif slif slif check --grammar %:S")


def main():
    options = argparse.ArgumentParser()
    options.add_argument("--programs", type=pathlib.Path)
    options = options.parse_args()
    given = ["--programs", str(options.programs)] if options.programs else []
    install = str(ROOT / "extras/install")
    with tempfile.TemporaryDirectory() as folder:
        folder = pathlib.Path(folder).resolve()
        prefix, root, home, empty = (folder / name for name in ("prefix", "a root", "home", "empty"))
        home.mkdir()
        empty.mkdir()
        status, text = output_of([install, *given, str(prefix)])
        tell("install ends with 0", status == 0)
        tell("each file is there, with its mode, and no other", files_below(prefix) == WANTED)
        tell("each file is told", sorted(text.splitlines()) == sorted(f"{prefix}/{name}" for name in WANTED))
        look_for_files(prefix, home)
        status, _ = output_of([install, *given, "/usr", str(root)])
        tell("a root stands before the prefix", status == 0 and files_below(root) == {f"usr/{name}": mode for name, mode in WANTED.items()})
        status, text = output_of([install, "--programs", str(empty), str(folder / "none")])
        tell("a missing program is told, and nothing written", status == 1 and "how to build it" in text and not (folder / "none").exists())
        for words in ([], ["--help"], ["a", "b"], ["/a", "b", "c"], ["--programs"], ["--programs", "nowhere", "/a"]):
            tell(f"words that ask for nothing: {words}", output_of([install, *words], cwd=folder)[0] == 2)
    version = re.search(r"^## (\d+\.\d+)", (ROOT / "CHANGELOG.md").read_text(), re.MULTILINE)[1]
    package = json.loads((ROOT / "extras/vscode/package.json").read_text())
    tell(f"the files for VS Code name version {version}", package["version"] == f"{version}.0")
    for page in PROGRAMS:
        head = (ROOT / f"docs/{page}.1").read_text().splitlines()[0]
        tell(f"{page}.1 names version {version}", f'"slif {version}"' in head)
    print(f"{len(failures)} failed")
    return 1 if failures else 0


if __name__ == "__main__":
    sys.exit(main())
