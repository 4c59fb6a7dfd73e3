#!/usr/bin/env python3
"""Tests the files for editors: the colours of the TextMate grammar in extras/vscode and, where Vim is installed, those of extras/vim.

    bench/editors.py

The tests are extras/vscode/tests/slif.test.slif. A line that begins with `#` and has `^` or `<` after blanks tells of the last line above that
does not: the columns under the `^` have the scope that is named, or one that begins with it, and `none` is no scope. `#<~~` tells of the columns
from 0 to the last `~`. Besides, nothing in examples/*.slif may be told as wrong; and Vim's :make has to go to the place of a fault.
"""
import json, pathlib, re, shutil, subprocess, sys, tempfile

ROOT = pathlib.Path(__file__).resolve().parent.parent
VIM = {"comment": "slifComment", "keyword.operator": "slifOperator", "keyword.other.adverb": "slifAdverb", "keyword.control": "slifStatement",
       "support.function": "slifAction", "constant.language": "slifValue", "constant.numeric": "slifNumber", "string.quoted": "slifQuote",
       "string.regexp": "slifClass", "entity.name": "slifRule", "variable.other": "slifName", "invalid": "slifError", "none": ""}
TOLD = re.compile(r"#(<~*| +\^+) ([\w.]+)$")
FAULT = "slif: grammar: bad adverb bless at line 2 column 11"
STOP = "slif: input stopped at line 3 column 2; found: none; expected: a"


def read_tests():
    """The lines of the file, and what is told of them: line, columns, scope."""
    lines, tests = (ROOT / "extras/vscode/tests/slif.test.slif").read_text().splitlines(), []
    last = None
    for number, line in enumerate(lines):
        told = TOLD.match(line)
        if not told:
            last = number
            continue
        marks = told[1]
        columns = range(0, len(marks)) if marks[0] == "<" else range(marks.index("^") + 1, len(marks) + 1)
        tests.append((last, columns, told[2]))
    return lines, tests


def textmate():
    """A function from a line to the scope of each column. Patterns are tried in their order, the first place that matches is taken."""
    rules = json.loads((ROOT / "extras/vscode/syntaxes/slif.tmLanguage.json").read_text())["patterns"]
    compiled = [(re.compile(rule["match"]), rule) for rule in rules]

    def scopes(line):
        out, at = [""] * len(line), 0
        while at < len(line):
            found = [(match.start(), index, match) for index, (pattern, _) in enumerate(compiled) if (match := pattern.search(line, at))]
            if not found:
                break
            _, index, match = min(found, key=lambda one: one[:2])
            rule = compiled[index][1]
            spans = [(0, rule.get("name", ""))] + [(int(n), capture["name"]) for n, capture in rule.get("captures", {}).items()]
            for group, name in spans:
                out[match.start(group):match.end(group)] = [name] * (match.end(group) - match.start(group))
            at = max(match.end(), at + 1)
        return out

    return scopes


def vim(words, folder, *files):
    subprocess.run(["vim", "-Es", "-u", f"{folder}/vimrc", "-c", words, *files], cwd=folder, stdin=subprocess.DEVNULL, stdout=subprocess.DEVNULL,
                   stderr=subprocess.DEVNULL, timeout=60)


def vim_groups(lines, folder):
    """The group of each column of each line, by Vim."""
    (folder / "vimrc").write_text(f"set nocompatible encoding=utf-8 runtimepath+={ROOT}/extras/vim\nfiletype plugin on\nsyntax on\n")
    (folder / "g.slif").write_text("\n".join(lines) + "\n")
    each = "map(range(1, strchars(getline(l))), {_, c -> synIDattr(synID(l, byteidx(getline(l), c - 1) + 1, 0), 'name')})"
    vim(f"call writefile([json_encode(map(range(1, line('$')), {{_, l -> {each}}}))], 'told') | quit!", folder, "g.slif")
    return json.loads((folder / "told").read_text())


def make_places(folder):
    """Where Vim's :make goes for a message about a grammar and one about an input."""
    (folder / "bin").mkdir()
    places = []
    for message in (FAULT, STOP):
        program = folder / "bin/slif"
        program.write_text(f"#!/bin/sh\necho 'accepted: no'\necho '{message}' >&2\nexit 3\n")
        program.chmod(0o755)
        vim(f"let $PATH = '{folder}/bin:' . $PATH | silent make | call writefile([line('.') . ',' . col('.') . ',' . len(getqflist())], 'told') | quit!",
            folder, "g.slif")
        places.append((folder / "told").read_text().strip())
    return places


def main():
    lines, tests = read_tests()
    scopes = textmate()
    failed, looked = [], 0
    for number, columns, wanted in tests:
        looked += 1
        got = {scopes(lines[number])[column] for column in columns}
        if not all(one.startswith(wanted) if wanted != "none" else one == "" for one in got):
            failed.append(f"TextMate: line {number + 1}, columns {columns}: wanted {wanted}, got {sorted(got)}")
    examples = sorted((ROOT / "examples").glob("*.slif")) + sorted((ROOT / "bench/grammars").glob("*.slif"))
    for path in examples:
        looked += 1
        for number, line in enumerate(path.read_text().splitlines(), 1):
            if any(one.startswith("invalid") for one in scopes(line)):
                failed.append(f"TextMate: {path.name}:{number} is told as wrong: {line}")
    if shutil.which("vim"):
        with tempfile.TemporaryDirectory() as folder:
            folder = pathlib.Path(folder)
            groups = vim_groups(lines, folder)
            for number, columns, wanted in tests:
                looked += 1
                got = {groups[number][column].replace("slifWord", "") for column in columns}
                if got != {VIM[wanted]}:
                    failed.append(f"Vim: line {number + 1}, columns {columns}: wanted {VIM[wanted]!r}, got {sorted(got)}")
            for path in examples:
                looked += 1
                text = path.read_text().splitlines()
                for number, row in enumerate(vim_groups(text, folder), 1):
                    if "slifError" in row:
                        failed.append(f"Vim: {path.name}:{number} is told as wrong: {text[number - 1]}")
            (folder / "g.slif").write_text("# a grammar\nS ::= 'a' bless => x\nabcdef\n")
            looked += 2
            places = make_places(folder)
            if places != ["2,11,1", "3,2,1"]:
                failed.append(f"Vim: :make goes to {places}")
    print("\n".join([*failed, f"{looked} looked at, {len(failed)} failed" + ("" if shutil.which("vim") else ", no Vim here")]))
    return 1 if failed else 0


if __name__ == "__main__":
    sys.exit(main())
