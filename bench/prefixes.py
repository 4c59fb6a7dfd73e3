#!/usr/bin/env python3
"""Every front of each grammar text is answered as a reader of its own, written here, says.

    bench/prefixes.py [--binary crates/slif/out/slif] [--rows rows.json] [--step N] [GRAMMAR.slif ...]

The reader below is written from docs/LANGUAGE.md and shares nothing with the program. Without files the grammars
of examples/ are taken. `--rows` takes the grammar texts of a file of rows besides; `--step` takes every Nth front.
"""
import argparse, json, pathlib, re, subprocess, sys, tempfile
from concurrent.futures import ThreadPoolExecutor

LINE_ENDS = "\n\x0b\x0c\r\x85\u2028\u2029"
SPACES = " \t\n\x0b\x0c\r\x85\xa0\u1680\u2000\u2001\u2002\u2003\u2004\u2005\u2006\u2007\u2008\u2009\u200a\u2028\u2029\u202f\u205f\u3000"
UNDERIVED = "slif: input ended without a derivation; expected: "
MARKS = ["::=", "~", "|", "||", "=>", "=", "(", ")", "*", "+", ",", ";", "null-ranking"]


def is_word(c):
    return c == "_" or c.isalnum()


def run_end(text, at, test):
    while at < len(text) and test(text[at]):
        at += 1
    return at


def modifier_end(text, at):
    return at + 3 if text.startswith(":ic", at) else at + 2 if text.startswith(":i", at) else at


def bracket_end(text, at):
    """The place behind the closing bracket of one that opens at `at`."""
    i = at + 1
    while i < len(text):
        if text[i] == "\\":
            i += 2
            continue
        posix = re.match(r"\[:[A-Za-z^]+:\]", text[i:])
        if posix:
            i += posix.end()
            continue
        if text[i] == "]":
            return i + 1
        i += 1
    return None


def spellings(text, at):
    c = text[at]
    for mark in MARKS:
        if text.startswith(mark, at):
            yield "Mark", at + len(mark)
    if is_word(c):
        yield "Word", run_end(text, at, is_word)
    if c == "<":
        end = run_end(text, at + 1, lambda d: is_word(d) or d in SPACES)
        if end < len(text) and text[end] == ">" and any(is_word(d) for d in text[at + 1:end]):
            yield "Angle", end + 1
    if c == "'":
        end = run_end(text, at + 1, lambda d: d != "'" and d not in LINE_ENDS)
        if end > at + 1 and end < len(text) and text[end] == "'":
            yield "Quote", modifier_end(text, end + 1)
    if c == "[":
        end = bracket_end(text, at)
        if end is not None:
            yield "Bracket", modifier_end(text, end)
    if c == ":":
        end = run_end(text, at + 1, is_word)
        if end > at + 1:
            yield "Pseudo", end
        if text.startswith("::", at):
            end = run_end(text, at + 2, is_word)
            if end > at + 2:
                yield "Reserved", end
    if c in "+-":
        end = run_end(text, at + 1, lambda d: d in "0123456789")
        if end > at + 1:
            yield "Signed", end


def tokens_of(text):
    """The tokens, and the first bad place or None."""
    tokens, at = [], 0
    while True:
        while at < len(text) and (text[at] in SPACES or text[at] == "#"):
            if text[at] == "#":
                end = text.find("\n", at)
                at = len(text) if end < 0 else end
            else:
                at += 1
        if at == len(text):
            return tokens, None
        found = max(spellings(text, at), key=lambda s: s[1], default=None)
        if found is None:
            return tokens, at
        tokens.append((found[0], text[at:found[1]], at))
        at = found[1]


def is_mark(token, mark):
    return token[0] == "Mark" and token[1] == mark


def pieces_of(tokens):
    pieces = [[]]
    for i, token in enumerate(tokens):
        if is_mark(token, ";"):
            pieces.append([])
            continue
        then = tokens[i + 1:i + 3]
        begins = token[0] == "Pseudo"
        if token[0] in ("Word", "Angle") and then and (is_mark(then[0], "::=") or is_mark(then[0], "~")):
            begins = True
        if token[:2] == ("Word", "lexeme") and len(then) == 2 and then[0][:2] == ("Word", "default") and is_mark(then[1], "="):
            begins = True
        if begins:
            pieces.append([])
        pieces[-1].append(token)
    return [p for p in pieces if p]


LETTER = {"Word": "w", "Angle": "a", "Quote": "q", "Bracket": "b", "Pseudo": "p", "Reserved": "r", "Signed": "s"}
MARK_LETTER = {"::=": ":", "~": "~", "|": "|", "||": "#", "=>": ">", "=": "=", "(": "(", ")": ")", "*": "*", "+": "+",
               ",": ",", ";": ";", "null-ranking": "n"}
ADVERBS = r"(?:,|[wn]>[waqbrs])*"
PART = r"(?:w(?!>)|[aqb])"
ALTERNATIVE = rf"(?:{PART}|\({PART}+\))+{ADVERBS}"
STATEMENT = re.compile(
    rf"w=(?P<lexeme>){ADVERBS}|[wa][:~]{ADVERBS}|[wa][:~][wab][*+]{ADVERBS}"
    rf"|[wa]:{ALTERNATIVE}(?:[|#]{ALTERNATIVE})*|[wa]~{ALTERNATIVE}(?:\|{ALTERNATIVE})*")


def shape(piece):
    return "".join(MARK_LETTER[t[1]] if t[0] == "Mark" else LETTER[t[0]] for t in piece)


def is_statement(piece):
    first, letters = piece[0], shape(piece)
    if first[0] == "Pseudo":
        form = {":start": r"p:[wa]", ":default": rf"p:{ADVERBS}", ":lexeme": rf"p~[wa]{ADVERBS}",
                ":discard": rf"p~[wab]{ADVERBS}"}.get(first[1])
        return form is not None and re.fullmatch(form, letters) is not None
    if letters.startswith("ww=") and first[1] == "lexeme" and piece[1][1] == "default":
        return re.fullmatch(rf"ww={ADVERBS}", letters) is not None
    if letters.startswith("w="):
        return False
    return STATEMENT.fullmatch(letters) is not None


def simple_rules(pieces):
    """The rules, where the statements are rules of words and simple quoted characters alone; else None."""
    rules = []
    for piece in pieces:
        letters = shape(piece)
        if re.fullmatch(r"w:[wq]+(?:\|[wq]+)*", letters) is None:
            return None
        right = [[]]
        for token in piece[2:]:
            if token[0] == "Mark":
                right.append([])
            else:
                right[-1].append(token)
        for parts in right:
            for kind, text, _ in parts:
                if kind == "Quote" and not (len(text) == 3 and "!" <= text[1] <= "~" and text[1] not in "'\"\\$@"):
                    return None
            if len(parts) == 1 and parts[0][0] != "Quote" or len(parts) > 1000:
                return None
            rules.append((piece[0][1], tuple(t[:2] for t in parts)))
    lefts = {left for left, _ in rules}
    plain = {left for left, parts in rules if all(kind == "Quote" for kind, _ in parts)}
    named = {text for _, parts in rules for kind, text in parts if kind == "Word"}
    fits = bool(rules) and named <= lefts and plain == lefts and len(set(rules)) == len(rules) <= 10000
    return rules if fits else None


def first_characters(rules):
    """The quoted characters with which a text of the first left side can begin, sorted. No symbol of simple rules spans nothing."""
    begins, seen, found = [rules[0][0]], set(), set()
    while begins:
        name = begins.pop()
        if name in seen:
            continue
        seen.add(name)
        for left, parts in rules:
            if left == name:
                (found.add if parts[0][0] == "Quote" else begins.append)(parts[0][1])
    return sorted(found)


def place(text, at):
    before = text[:at]
    return f"line {before.count(chr(10)) + 1} column {at - (before.rfind(chr(10)) + 1) + 1}"


def expected(data):
    """The status and the line for the empty input; None where the text has statements of other forms than the simple ones."""
    if len(data) > 1048576:
        return 3, "slif: grammar: longer than 1048576 bytes\n"
    try:
        text = data.decode()
    except UnicodeDecodeError as error:
        return 3, f"slif: grammar: not UTF-8 at byte {error.start}\n"
    tokens, bad = tokens_of(text)
    if bad is not None:
        return 3, f"slif: grammar: bad token at {place(text, bad)}\n"
    pieces = pieces_of(tokens)
    for piece in pieces:
        if not is_statement(piece):
            return 3, f"slif: grammar: bad statement at {place(text, piece[0][2])}\n"
    rules = simple_rules(pieces)
    if rules is not None:
        return 1, f"{UNDERIVED}{', '.join(first_characters(rules))}\n"
    return None


def is_expected(data, got, out):
    """A text that is read has no fault of its tokens or its statements; what its statements say may be refused, or the empty input be
    derived or not."""
    if (got[0] == 0) != (out != b""):
        return False
    wanted = expected(data)
    if wanted is not None:
        return got == wanted
    if got == (0, "") or got[0] == 1 and got[1].startswith(UNDERIVED):
        return True
    reads = ("longer than", "not UTF-8", "bad token at", "bad statement at")
    return got[0] == 3 and got[1].startswith(("slif: grammar: ", "slif: lexical grammar: ")) and not any(
        got[1].startswith("slif: grammar: " + read) for read in reads)


def main():
    root = pathlib.Path(__file__).resolve().parent.parent
    options = argparse.ArgumentParser()
    options.add_argument("--binary", default=str(root / "crates/slif/out/slif"))
    options.add_argument("--rows")
    options.add_argument("--step", type=int, default=1)
    options.add_argument("grammars", nargs="*")
    options = options.parse_args()
    binary = str(pathlib.Path(options.binary).resolve())
    texts = {pathlib.Path(g).read_bytes() for g in options.grammars or sorted((root / "examples").glob("*.slif"))}
    if options.rows:
        for row in json.loads(pathlib.Path(options.rows).read_text())["rows"]:
            if isinstance(row["grammar"], str):
                texts.add(row["grammar"].encode())
    fronts = sorted({t[:n] for t in texts for n in [*range(0, len(t), options.step), len(t)]})

    def answer(front):
        with tempfile.TemporaryDirectory() as folder:
            (pathlib.Path(folder) / "g.slif").write_bytes(front)
            got = subprocess.run([binary, "run", "--grammar", "g.slif", "--show", "tree"], input=b"", capture_output=True, cwd=folder)
            return front, (got.returncode, got.stderr.decode()), got.stdout

    failed = 0
    with ThreadPoolExecutor(4) as pool:
        for front, got, out in pool.map(answer, fronts):
            if not is_expected(front, got, out):
                failed += 1
                if failed <= 10:
                    print(f"{front!r}: {got}, wanted {expected(front)}")
    print(f"{len(fronts) - failed} passed, {failed} failed")
    return 1 if failed else 0


if __name__ == "__main__":
    sys.exit(main())
