"""Texts for the scripts that measure, each made by a seed of its own, so that two runs read the same."""
import random

NAMES = [a + b for a in ("item", "user", "order", "price", "total", "count", "node", "left") for b in ("", "_id", "_name", "s")]


def repeated(size, seed, part, between):
    """Parts until there are so many bytes."""
    rng, parts, length = random.Random(seed), [], 0
    while length < size:
        it = part(rng, len(parts))
        parts.append(it)
        length += len(it) + len(between)
    return between.join(parts)


def sql_term(rng, depth):
    kind = rng.randrange(6 if depth else 3)
    if kind == 0:
        return str(rng.randrange(1000))
    if kind == 1:
        return f"'{rng.choice(NAMES)} {rng.randrange(100)}'"
    if kind == 2:
        return ".".join(rng.choice(NAMES) for _ in range(rng.randrange(1, 3)))
    if kind == 3:
        return f"({sql_term(rng, depth - 1)})"
    if kind == 4:
        return f"{rng.choice(NAMES)}({sql_term(rng, depth - 1)}, {sql_term(rng, depth - 1)})"
    return f"{sql_term(rng, depth - 1)} {rng.choice(['+', '-', '*', '/', '=', '<', '>', 'AND', 'OR'])} {sql_term(rng, depth - 1)}"


def sql_statement(rng, _):
    def names(k):
        return ", ".join(rng.choice(NAMES) for _ in range(k))

    kind = rng.randrange(4)
    if kind == 0:
        return f"INSERT INTO {rng.choice(NAMES)} ({names(3)}) VALUES ({sql_term(rng, 1)}, {sql_term(rng, 1)}, {sql_term(rng, 2)})"
    if kind == 1:
        return f"UPDATE {rng.choice(NAMES)} SET {rng.choice(NAMES)} = {sql_term(rng, 2)} WHERE {sql_term(rng, 2)}"
    return f"SELECT {sql_term(rng, 2)} AS {rng.choice(NAMES)}, {names(2)} FROM {rng.choice(NAMES)} JOIN {rng.choice(NAMES)} ON {sql_term(rng, 2)} WHERE {sql_term(rng, 3)} ORDER BY {names(2)}"


def lua_term(rng, depth):
    kind = rng.randrange(8 if depth else 4)
    if kind == 0:
        return str(rng.randrange(1000))
    if kind == 1:
        return f'"{rng.choice(NAMES)}\\n{rng.randrange(100)}"'
    if kind == 2:
        return rng.choice(["nil", "true", "false"])
    if kind == 3:
        return rng.choice(NAMES)
    if kind == 4:
        return f"{rng.choice(NAMES)}({lua_term(rng, depth - 1)}, {lua_term(rng, depth - 1)})"
    if kind == 5:
        return f"{rng.choice(NAMES)}[{lua_term(rng, depth - 1)}].{rng.choice(NAMES)}"
    if kind == 6:
        return f"{{{rng.choice(NAMES)} = {lua_term(rng, depth - 1)}, {lua_term(rng, depth - 1)}}}"
    return f"{lua_term(rng, depth - 1)} {rng.choice(['+', '-', '*', '/', '..', '<', '==', 'and', 'or'])} {lua_term(rng, depth - 1)}"


def lua_statement(rng, _, depth=2):
    kind = rng.randrange(7 if depth else 3)
    if kind == 0:
        return f"local {rng.choice(NAMES)} = {lua_term(rng, 2)}"
    if kind == 1:
        return f"{rng.choice(NAMES)}.{rng.choice(NAMES)} = {lua_term(rng, 2)}"
    if kind == 2:
        return f"{rng.choice(NAMES)}({lua_term(rng, 2)}) -- {rng.choice(NAMES)}"
    inside = "\n  ".join(lua_statement(rng, 0, depth - 1) for _ in range(2))
    if kind == 3:
        return f"if {lua_term(rng, 2)} then\n  {inside}\nelse\n  {lua_statement(rng, 0, 0)}\nend"
    if kind == 4:
        return f"while {lua_term(rng, 2)} do\n  {inside}\nend"
    if kind == 5:
        return f"for {rng.choice(NAMES)} = 1, {lua_term(rng, 1)} do\n  {inside}\nend"
    return f"function {rng.choice(NAMES)}({rng.choice(NAMES)}, {rng.choice(NAMES)})\n  {inside}\n  return {lua_term(rng, 2)}\nend"


def log_entry(rng, k):
    return (
        f"10.{rng.randrange(256)}.{rng.randrange(256)}.{rng.randrange(256)} - {rng.choice(['ann', 'bob', '-'])} [28/Nov/2026:06:{k % 60:02}:00 +0000] "
        f"\"{rng.choice(['GET', 'POST'])} /{rng.choice(NAMES)}/{rng.randrange(10**6)} HTTP/1.1\" {rng.choice([200, 304, 404])} {rng.randrange(10**5)}"
    )


def csv_row(rng, _):
    def field():
        kind = rng.randrange(4)
        return str(rng.randrange(10**6)) if kind else f'"{rng.choice(NAMES)}, ""{rng.randrange(100)}"""'

    return ",".join(field() for _ in range(8))


def sql(size):
    return repeated(size, 1, sql_statement, ";\n")


def lua(size):
    return repeated(size, 2, lua_statement, "\n")


def log(size):
    return repeated(size, 3, log_entry, "\n")


def csv(size):
    return repeated(size, 4, csv_row, "\n")


def keywords(count, tokens):
    """A language of so many keywords with one prefix, and a text of so many of them."""
    rng = random.Random(5)
    rules = " | ".join(f"'k{n}x'" for n in range(count))
    grammar = f":default ::= action => ::first\nlexeme default = latm => 1\nS ::= K+\nK ::= {rules}\n:discard ~ space\nspace ~ [\\s]+\n"
    return grammar, " ".join(f"k{rng.randrange(count)}x" for _ in range(tokens))


def levels(count, tokens):
    """An operator table of so many levels, and an expression of so many tokens."""
    rng = random.Random(6)
    groups = "".join(f"   || E '{chr(97 + n % 26)}{n}' E\n" for n in range(count))
    grammar = f":default ::= action => ::first\nlexeme default = latm => 1\nE ::= N\n{groups}N ~ [0-9]+\n:discard ~ space\nspace ~ [\\s]+\n"
    parts = ["1"]
    for _ in range(tokens // 2):
        n = rng.randrange(count)
        parts += [f"{chr(97 + n % 26)}{n}", str(rng.randrange(10))]
    return grammar, " ".join(parts)
