"""Scanners of a program's own, lines and threads, by the Python module: calls in each state, tokens that overlap, and a lexer that asks what could
come next. clib.py runs it. It writes nothing; the first answer that is not as it should be ends it."""
import threading

import slif


def refusal(call, *words, **more):
    try:
        call(*words, **more)
    except slif.SlifError as error:
        return str(error)
    return None


def calls_before_their_time():
    scanner = slif.Scanner()
    assert refusal(scanner.precompute) == "no rules"
    sum, one = scanner.symbol("sum"), scanner.symbol("one")
    assert (sum, one, scanner.symbol("sum"), scanner.symbol(b"")) == (0, 1, 0, 2)
    assert refusal(scanner.symbol, b"\xff") == "the name is not UTF-8"
    for call, words in ((scanner.rule, (3, one)), (scanner.rule, (sum, 3)), (scanner.sequence, (sum, 3)), (scanner.start, (3,))):
        assert refusal(call, *words) == "there is no such symbol"
    assert refusal(scanner.sequence, sum, one, separator=3) == "there is no such symbol"
    assert refusal(scanner.rule, sum, *[one] * 1001) == "too many"
    for call, words in ((scanner.alternative, (one,)), (scanner.complete, ()), (scanner.expected, ()), (scanner.restart, ())):
        assert refusal(call, *words) == "not now"
    assert refusal(lambda: list(scanner.derivations())) == "not now"
    assert scanner.rule(sum, one) == 0
    assert refusal(scanner.precompute) == "no start symbol"
    scanner.start(sum)
    assert refusal(scanner.start, sum) == "there is a start"
    scanner.precompute()
    for call, words in ((scanner.symbol, ("sum",)), (scanner.rule, (sum, one)), (scanner.sequence, (sum, one)), (scanner.start, (sum,)), (scanner.precompute, ())):
        assert refusal(call, *words) == "not now"
    assert refusal(scanner.alternative, sum) == "unexpected" and refusal(scanner.alternative, one, 0) == "bad length"
    scanner.alternative(one, 1_048_576)
    assert refusal(scanner.alternative, one, 1_048_576) == "duplicate"
    assert scanner.complete() == 1 and scanner.expected() == [] and list(scanner.derivations()) == []


def all_derivations():
    scanner = slif.Scanner()
    sum, plus, one = (scanner.symbol(name) for name in ("sum", "plus", "one"))
    scanner.rule(sum, sum, plus, sum)
    scanner.rule(sum, one)
    scanner.start(sum)
    scanner.precompute()
    for _ in range(2):
        counts = []
        for place in range(11):
            counts.append(len(list(scanner.derivations())))
            scanner.alternative(plus if place % 2 else one)
            assert scanner.complete() == place + 1
        assert counts == [0, 1, 0, 1, 0, 2, 0, 5, 0, 14, 0]
        scanner.restart()


def lexer_that_asks(text):
    """Slashes divide where one is expected, and else begin a pattern; places count characters."""
    scanner = slif.Scanner()
    ratio, operand, slash, name, pattern = (scanner.symbol(name) for name in ("ratio", "operand", "slash", "name", "pattern"))
    scanner.rule(ratio, ratio, slash, operand)
    for left, part in ((ratio, operand), (operand, name), (operand, pattern)):
        scanner.rule(left, part)
    scanner.start(ratio)
    scanner.precompute()
    at = 0
    while at < len(text):
        token = name if text[at] != "/" else slash if slash in scanner.expected() else pattern
        end = at + 1 if token == slash else text.index("/", at + 1) + 1 if token == pattern else text.find("/", at) % (len(text) + 1)
        scanner.alternative(token, end - at)
        for _ in range(end - at):
            scanner.complete()
        at = end
    (steps,) = scanner.derivations()
    held = []
    for step in steps:
        if step.kind == slif.TOKEN:
            held.append(text[step.start:step.start + step.length])
        else:
            parts = held[len(held) - step.children:]
            held[len(held) - step.children:] = [(parts[0], parts[2]) if step.number == 0 else parts[0]]
    return held.pop()


def lines():
    grammar = slif.Grammar(":default ::= action => [values]\nE ::= E '+' E | '1'\n")
    assert grammar.lines("1+1+1", most=9) == ['[[["1"],"+",["1"]],"+",["1"]]', '[["1"],"+",[["1"],"+",["1"]]]']
    assert grammar.lines("1+1+1", skip=1) == ['[["1"],"+",[["1"],"+",["1"]]]'] and grammar.lines("1+1+1", skip=2) == []
    assert grammar.lines("1", show="tree") == ['["E",1,["\'1\'","1"]]']
    assert refusal(grammar.lines, "1+") == "input ended without a derivation; expected: '1'"


def threads():
    """One object, of which the threads wait for one another, and one for each."""
    grammar, found = slif.Grammar("E ::= E '+' E | '1'"), []
    scanner = slif.Scanner()

    def work(grammar):
        for _ in range(50):
            found.append(sum(1 for _ in grammar.derivations("1+1+1+1")))
            scanner.symbol("one")

    for own in (False, True):
        several = [threading.Thread(target=work, args=(grammar.share() if own else grammar,)) for _ in range(4)]
        for thread in several:
            thread.start()
        for thread in several:
            thread.join()
    assert found == [5] * 400


calls_before_their_time()
all_derivations()
assert lexer_that_asks("a//b c//d") == (("a", "/b c/"), "d") and lexer_that_asks("/x//y") == ("/x/", "y")
lines()
threads()
