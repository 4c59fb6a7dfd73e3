#!/usr/bin/env python3
"""Holds docs/STATEMENT.md against what the theorem of `run` rests on.

    bench/statement.py            fails where the page lacks a definition that it has to have, or has one that the theorem does not rest on
    bench/statement.py --list     prints each file of definitions that the theorem rests on, and its definitions
    bench/statement.py --count    prints how many there are

The theorem is the contract of `run`. What it cites is followed through the imports of the files of definitions, down to the standard library, and so are
the clauses of the traits whose ghost members it cites. A definition is load-bearing where another file cites it: the page names each of these, with
those traits, and with the types and constants of the program that the definitions cite. The others serve the file that they stand in, and may be named.
"""
import argparse, pathlib, re, sys

ROOT = pathlib.Path(__file__).resolve().parent.parent
TOP, CALL = ROOT / "crates/slif_cli/src/top.rt", "pub fn run<"
PAGE = ROOT / "docs/STATEMENT.md"
NAME = r"[^\W\d][\w'-]*"


def imports_of(text):
    """The names that a file brings in: each to the module and the name there, or to a whole module."""
    names, modules = {}, {}
    for module, inside, alias in re.findall(rf"^(?:ghost\s+|pub\s+)*use ([\w.]+?)(?:\.\{{([^}}]*)\}})?(?: as (\w+))?;?$", text, re.M):
        if not inside:
            modules[alias or module.split(".")[-1]] = module
            continue
        for part in inside.split(","):
            words = part.strip().split(" as ")
            names[words[-1].strip()] = (module, words[0].strip())
    return names, modules


class Module:
    """A file of definitions: what it defines, in order, each with its text, and what it brings in."""

    def __init__(self, path):
        self.text = path.read_text()
        self.names, self.modules = imports_of(self.text)
        # (the cases of a type lead to the type)
        self.blocks, self.parts = {}, {}
        inside, current, kind, margins = None, None, None, {}
        for line in self.text.splitlines():
            bare = line.strip()
            if not bare or bare.startswith("--") or re.match(r"(pub )?use ", bare):
                continue
            indent = len(line) - len(line.lstrip())
            if inside is not None and indent <= inside:
                inside = None
            if re.fullmatch(r"(abbrev )?mutual", bare):
                inside = indent
                continue
            begun = re.match(rf"(?:pub )?(abbrev|record|data)(?: pub)? ({NAME}|◌[^ ]+)", bare)
            declared = re.match(rf"(?:pub )?({NAME}) :", bare) if inside is not None and indent == inside + 2 else None
            row = re.match(rf"({NAME})", bare)
            if begun:
                kind, current = begun[1], begun[2]
            elif declared and declared[1] not in self.blocks:
                kind, current = "abbrev", declared[1]
            elif row and kind == "abbrev" and margins.get(row[1]) == indent:
                current = row[1]
            if current:
                margins.setdefault(current, indent)
                self.blocks[current] = self.blocks.get(current, "") + line + "\n"
                case = re.match(rf"({NAME}) :", bare)
                if kind == "data" and case and not begun:
                    self.parts[case[1]] = current


modules = {}


def module(name):
    """The module of a name such as Rattle.run_model.specs.Runs, if it is a file of definitions of this repository."""
    if name not in modules:
        words = name.split(".")
        path = ROOT / "crates" / words[1] / "specs" / ("/".join(words[3:]) + ".antt") if len(words) > 3 and words[2] == "specs" else None
        modules[name] = Module(path) if path and path.is_file() else None
    return modules[name]


def resolve(where, name, seen=()):
    """The module and the definition that a name means in a module, followed through what is brought in and handed on."""
    here = module(where)
    if here is None or (where, name) in seen:
        return None
    if name in here.blocks:
        return where, name
    if here.parts.get(name):
        return where, here.parts[name]
    if name in here.names:
        return resolve_path(*here.names[name], (*seen, (where, name)))
    return None


def resolve_path(path, name, seen=()):
    if module(path):
        return resolve(path, name, seen)
    # (the cases of a type are brought in by its name)
    above, _, kind = path.rpartition(".")
    if module(above):
        return resolve(above, kind, seen)
    return None


def cited(names, mods, text, where):
    """The definitions that a text cites."""
    found = set()
    for word in re.findall(rf"[^\W\d][\w'.-]*|◌[^\s({{\[]+", re.sub(r"--.*|//.*|\"[^\"]*\"", "", text)):
        parts = word.split(".")
        if len(parts) > 1 and parts[0] in mods:
            it = resolve_path(mods[parts[0]], parts[1])
        elif parts[0] in names:
            it = resolve_path(*names[parts[0]])
        else:
            it = resolve(where, parts[0]) if where else None
        if it:
            found.add(it)
    return found


def contract():
    """The text of the call's contract, with its file's."""
    text = TOP.read_text()
    at = text.index(CALL)
    return text[at : text.index("\n{\n", at)], text


def source_of(crate, words):
    """The file of a crate's sources in which something is declared by these words, and the text from there on."""
    for path in sorted((ROOT / "crates" / crate / "src").rglob("*.rt") if crate else ROOT.glob("crates/*/src/**/*.rt")):
        text = path.read_text()
        found = re.search(rf"^pub {words}\b", text, re.M)
        if found:
            return path, text, text[found.start() :]
    return None


def with_supertraits(name):
    """A trait and those that it is a part of: each with its file, that file's text, and its clauses."""
    found = source_of(None, f"trait {name}")
    if found:
        path, text, rest = found
        head = rest[: rest.index("{")]
        yield name, path, text, "" if rest[len(head) :].startswith("{}") else rest[: rest.index("\n}\n")]
        for other in re.findall(r"\w+", head.partition(":")[2]):
            yield from with_supertraits(other)


def traits():
    """The traits whose ghost members the contract cites, or by which it tells parts of the outside apart: each with its file, that file's text, and its clauses."""
    clause, _ = contract()
    seen = set()
    for owner, name in re.findall(r"\b(\w+): (\w+)", clause.split("(")[0]) + [("", name) for name in re.findall(r"dyn (\w+)", clause)]:
        for part, path, text, body in with_supertraits(name):
            members = re.findall(r"ghost (\w+):", body)
            cites = any(re.search(rf"(?<![\w.]){owner + '[.]' if owner else ''}{member}\b", clause) for member in members)
            if (cites or part == name and not body) and part not in seen:
                seen.add(part)
                yield part, path, text, body


def declared(citing):
    """The types and the constants of the program that these definitions cite: each with its file."""
    found = set()
    for name, it in citing:
        here = module(name)
        for word in re.findall(r"[^\W\d][\w'.-]*", re.sub(r"--.*|\"[^\"]*\"", "", here.blocks[it])):
            parts = word.split(".")
            path = ".".join(here.names[parts[0]]) if parts[0] in here.names else here.modules.get(parts[0], "")
            words = path.split(".")
            if "declared" not in words:
                continue
            kind = words[-1] if "TheConstants" in words else next((it for it in words[words.index("declared") + 1 :] if it[0].isupper()), None)
            at = kind and source_of(words[1], rf"(?:struct|enum|const) {kind}")
            if at:
                found.add((str(at[0].relative_to(ROOT)), kind))
    return found


def closure():
    """Each definition that the theorem rests on, with those that cite it."""
    clause, text = contract()
    names, mods = imports_of(text)
    citing, left = {}, [(it, ("", "run")) for it in cited(names, mods, clause, None)]
    for name, path, text, body in traits():
        left += [(it, (str(path), name)) for it in cited(*imports_of(text), body, None)]
    while left:
        it, by = left.pop()
        new = it not in citing
        citing.setdefault(it, set()).add(by)
        if new:
            here = module(it[0])
            left += [(other, it) for other in cited(here.names, here.modules, here.blocks[it[1]], it[0]) if other != it]
    return citing


def short(name):
    words = name.split(".")
    return f"crates/{words[1]}/specs/{'/'.join(words[3:])}.antt"


def main():
    options = argparse.ArgumentParser()
    options.add_argument("--list", action="store_true")
    options.add_argument("--count", action="store_true")
    options = options.parse_args()
    citing = closure()
    bearing = {it for it, by in citing.items() if any(other[0] != it[0] for other in by)}
    if options.count:
        print(f"{len(citing)} definitions in {len({it[0] for it in citing})} files; {len(bearing)} are cited from another file")
        return 0
    if options.list:
        for name in sorted({it[0] for it in citing}):
            own = [it for it in module(name).blocks if (name, it) in citing]
            print(short(name), ":", " ".join(f"*{it}" if (name, it) in bearing else it for it in own))
        return 0
    page, bad, place = PAGE.read_text(), 0, None
    told = set()
    for line in page.splitlines():
        found = re.search(r"`(crates/\w+/(?:specs|src)/[\w/]+\.(?:antt|rt))`", line)
        place = found[1] if found else place
        if line.startswith("- `") and place:
            told |= {(place, name) for name in re.findall(r"`([^`]+)`", line.split(":")[0])}
    beside = declared(citing) | {(str(path.relative_to(ROOT)), name) for name, path, _, _ in traits()}
    wanted = {(short(it[0]), it[1]) for it in bearing} | beside
    there = {(short(it[0]), it[1]) for it in citing} | beside
    for path, name in sorted(wanted - told):
        bad += 1
        print(f"docs/STATEMENT.md lacks {name} of {path}")
    for path, name in sorted(told - there):
        bad += 1
        print(f"docs/STATEMENT.md has {name} of {path}, on which the theorem does not rest")
    print(f"{len(told)} definitions told, {len(wanted)} of them load-bearing; {bad} faults")
    return 1 if bad else 0


if __name__ == "__main__":
    sys.exit(main())
