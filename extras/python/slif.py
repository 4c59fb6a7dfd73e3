"""Reading by a grammar: the library libslif, through ctypes. Nothing else is needed.

A grammar is made of its text, and reads inputs:

>>> grammar = Grammar('''
... lexeme default = latm => 1
... Sum ::= Number | Sum '+' Number
... Number ~ [0-9]+
... ''')
>>> parse = grammar.parse("1+20+3")
>>> parse.first.tree()
('Sum', ('Sum', ('Sum', '1'), '+', '20'), '+', '3')

A value is made by a class with a method for each symbol that it knows, children before their rule:

>>> class Sums(Fold):
...     def Number(self, text):
...         return int(text)
...     def Sum(self, left, *more):
...         return left + more[1] if more else left
>>> parse.first.fold(Sums())
24

A refusal tells its place and what could stand there:

>>> grammar.parse("1+x")
Traceback (most recent call last):
    ...
slif.InputError: input stopped at line 1 column 3; found: none; expected: Number
>>> try:
...     grammar.parse("1+x")
... except SlifError as error:
...     error.line, error.column, error.expected
(1, 3, ['Number'])

An ambiguous input has several derivations, in the declared order:

>>> twice = Grammar("E ::= E '+' E | '1'")
>>> for derivation in twice.derivations("1+1+1"):
...     print(derivation.tree())
('E', ('E', ('E', '1'), '+', ('E', '1')), '+', ('E', '1'))
('E', ('E', '1'), '+', ('E', ('E', '1'), '+', ('E', '1')))

Objects may go from one thread to another, and threads may use one object: its calls wait for one another. `Grammar.share` is for threads that
read side by side. The shared object is looked for by the name in the variable SLIF_LIBRARY, or else as libslif.so.0, where the system looks for libraries.
"""
from __future__ import annotations

import ctypes
import os
import struct
import threading
from typing import Any, Callable, Iterator, NamedTuple, Optional, Sequence, Union

__all__ = ["Derivation", "Fold", "Grammar", "GrammarError", "InputError", "NULLED", "Parse", "RULE", "ScanError", "Scanner", "SlifError",
           "Step", "TOKEN"]

Text = Union[str, bytes]

TOKEN, NULLED, RULE = 0, 1, 2

_OK, _INPUT, _GRAMMAR, _NO_MEMORY = 0, 1, 3, 5
_RANKS = {"none": 0, "rule": 1, "high": 2}
_SHOWS = {"array": 0, "tree": 1}
_NO_SYMBOL = 2**32 - 1
_REFUSALS = {7: "there is no such symbol", 8: "not now", 9: "the name is not UTF-8", 10: "there is a start", 11: "unexpected",
             12: "duplicate", 13: "bad length", 14: "too many"}
_MESSAGE, _EXPECTED = 4096, 1024
_STEP = struct.Struct("@7I2N")


class _Handle(ctypes.Structure):
    """A handle as C has it, and what keeps it in one call at a time."""

    _fields_ = [("at", ctypes.c_void_p), ("full", ctypes.c_bool)]

    def __init__(self) -> None:
        super().__init__(None, False)
        self.lock = threading.Lock()


class _Fault(ctypes.Structure):
    _fields_ = [("line", ctypes.c_uint32), ("column", ctypes.c_uint32), ("message", ctypes.c_size_t), ("expected", ctypes.c_size_t)]


_u32, _u64, _size, _pointer = ctypes.c_uint32, ctypes.c_uint64, ctypes.c_size_t, ctypes.c_void_p
_CALLS = {
    "slif_grammar_new": [_pointer, _size, _pointer, _pointer, _pointer, _size],
    "slif_grammar_free": [_pointer],
    "slif_grammar_share": [_pointer, _pointer],
    "slif_grammar_counts": [_pointer, _pointer, _pointer],
    "slif_symbol_name": [_pointer, _u32, _pointer, _size, _pointer],
    "slif_rule_left": [_pointer, _u32, _pointer],
    "slif_parse_new": [_pointer, _pointer, _size, _u32, _u64, _u64, _pointer, _pointer, _pointer, _size, _pointer, _size],
    "slif_parse_free": [_pointer],
    "slif_parse_counts": [_pointer, _pointer, _pointer],
    "slif_parse_steps": [_pointer, _u64, _size, _pointer, _size, _pointer],
    "slif_expected": [_pointer, _pointer, _size, _pointer, _size, _pointer, _pointer, _pointer, _size],
    "slif_parse_shown": [_pointer, _pointer, _size, _u32, _u32, _u64, _u64, _pointer, _pointer, _pointer, _size, _pointer, _size],
    "slif_parse_line": [_pointer, _u64, _pointer, _size, _pointer],
    "slif_scan_new": [_pointer],
    "slif_scan_free": [_pointer],
    "slif_scan_symbol": [_pointer, _pointer, _size, _pointer],
    "slif_scan_rule": [_pointer, _u32, _pointer, _size, _pointer],
    "slif_scan_sequence": [_pointer, _u32, _u32, ctypes.c_bool, _u32, ctypes.c_bool, _pointer],
    "slif_scan_start": [_pointer, _u32],
    "slif_scan_precompute": [_pointer, _pointer, _size, _pointer],
    "slif_scan_alternative": [_pointer, _u32, _u32],
    "slif_scan_complete": [_pointer, _pointer],
    "slif_scan_expected": [_pointer, _pointer, _size, _pointer],
    "slif_scan_restart": [_pointer],
    "slif_scan_parse": [_pointer, _u64, _u64, _pointer],
}


def _library() -> ctypes.CDLL:
    library = ctypes.CDLL(os.environ.get("SLIF_LIBRARY", "libslif.so.0"))
    for name, types in _CALLS.items():
        call = getattr(library, name)
        call.argtypes, call.restype = types, None if name.endswith("_free") else _u32
    return library


_lib = _library()
_by = ctypes.byref


def _fitting(types: Sequence[Any], words: Sequence[Any]) -> Sequence[Any]:
    """The words of a call, where each number is one of its type: ctypes would cut it off."""
    for kind, word in zip(types, words):
        if kind in (_u32, _u64, _size) and isinstance(word, int) and not 0 <= word < 1 << 8 * ctypes.sizeof(kind):
            raise OverflowError(f"{word} is not from 0 to {(1 << 8 * ctypes.sizeof(kind)) - 1}")
    return words


def _over(handle: _Handle, call: Any, *words: Any) -> int:
    """Calls the library over a handle, when no other thread does."""
    fitting = _fitting(call.argtypes[1:], words)
    with handle.lock:
        return call(_by(handle), *fitting)


class Step(NamedTuple):
    """A step of a derivation; children stand before their rule. `number` is a symbol where `kind` is TOKEN or NULLED, else a rule, from 0 in
    the order of the grammar's text; `children` says how many of the newest values are the rule's. `start_token` and `end_token` count tokens,
    `start` and `length` characters, `byte` and `bytes` bytes of the input."""

    kind: int
    number: int
    children: int
    start_token: int
    end_token: int
    start: int
    length: int
    byte: int
    bytes: int


class SlifError(Exception):
    """A refusal: its message, its line and column from 1, or None where it has no place, and the names of the lexemes that could come next."""

    def __init__(self, message: str, line: Optional[int] = None, column: Optional[int] = None, expected: Sequence[str] = ()):
        super().__init__(message)
        self.line, self.column, self.expected = line, column, list(expected)


class GrammarError(SlifError):
    """The text is no grammar."""


class InputError(SlifError):
    """The input is not read to its end, or has no derivation."""


class Fold:
    """How a value is made of a derivation. A class of your own has a method for each symbol that it knows, by the symbol's name: that of a
    lexeme takes its text, that of a left side the values of the children. What has no method goes to one of the three below."""

    def rule(self, left: str, number: int, children: list[Any]) -> Any:
        """The value of a rule: its left side and the values of its children."""
        return (left, *children)

    def token(self, name: str, text: str) -> Any:
        """The value of a token: its text."""
        return text

    def nulled(self, name: str) -> Any:
        """The value of a symbol that spans nothing: None."""
        return None


class Derivation:
    """A derivation of an input, by its steps."""

    def __init__(self, grammar: Grammar, data: bytes, raw: ctypes.Array):
        self._grammar, self._data, self._raw = grammar, data, raw

    @property
    def steps(self) -> list[Step]:
        """The steps, children before their rule.

        >>> [step.kind for step in Grammar("E ::= E '+' E | '1'").parse("1+1").first.steps]
        [0, 2, 0, 0, 2, 2]
        """
        return [Step(*step) for step in _STEP.iter_unpack(self._raw)]

    def fold(self, semantics: Fold) -> Any:
        """The value of the derivation. It is made by one walk over the steps, whatever the depth of the tree.

        >>> class Depth(Fold):
        ...     def rule(self, left, number, children):
        ...         return 1 + max(children)
        ...     def token(self, name, text):
        ...         return 0
        >>> Grammar("E ::= E '+' E | '1'").parse("1+1+1").first.fold(Depth())
        3
        """
        names, lefts, data, held = self._grammar.symbols, self._grammar.lefts, self._data, []
        of_symbol = [getattr(semantics, name, None) if name.isidentifier() and name not in _RESERVED else None for name in names]
        of_rule = [of_symbol[left] for left in lefts]
        for kind, number, count, _, _, _, _, byte, size in _STEP.iter_unpack(self._raw):
            if kind == RULE:
                cut = len(held) - count
                children = held[cut:]
                del held[cut:]
                method = of_rule[number]
                held.append(method(*children) if method else semantics.rule(names[lefts[number]], number, children))
            elif kind == TOKEN:
                text = data[byte:byte + size].decode()
                method = of_symbol[number]
                held.append(method(text) if method else semantics.token(names[number], text))
            else:
                held.append(semantics.nulled(names[number]))
        return held.pop()

    def tree(self) -> Any:
        """The derivation as tuples, a left side and its parts; texts for tokens, and None for what spans nothing."""
        return self.fold(Fold())


_RESERVED = {"rule", "token", "nulled"}


class Parse:
    """An input that is read, with some of its derivations; `more` says whether there are more after them."""

    def __init__(self, grammar: Grammar, data: bytes, handle: _Handle):
        self._grammar, self._data, self._handle = grammar, data, handle
        count, more = _u64(), ctypes.c_bool()
        _over(handle, _lib.slif_parse_counts, _by(count), _by(more))
        self._count, self.more = count.value, more.value

    def __len__(self) -> int:
        """How many derivations are kept."""
        return self._count

    def __getitem__(self, k: int) -> Derivation:
        if not 0 <= k < self._count:
            raise IndexError(k)
        total = _size()
        _over(self._handle, _lib.slif_parse_steps, k, 0, _by(_u64()), 0, _by(total))
        raw = ctypes.create_string_buffer(total.value * _STEP.size)
        _over(self._handle, _lib.slif_parse_steps, k, 0, raw, total, _by(total))
        return Derivation(self._grammar, self._data, raw)

    def derivations(self) -> Iterator[Derivation]:
        """Those that are kept."""
        return (self[k] for k in range(self._count))

    def _line(self, k: int) -> str:
        length = _size()
        _over(self._handle, _lib.slif_parse_line, k, _by(_u64()), 0, _by(length))
        line = ctypes.create_string_buffer(length.value + 1)
        _over(self._handle, _lib.slif_parse_line, k, line, length, _by(length))
        return line.raw[:length.value - 1].decode()

    @property
    def first(self) -> Derivation:
        return self[0]

    def __del__(self) -> None:
        _lib.slif_parse_free(_by(self._handle))


class Grammar:
    """A grammar, of its text.

    >>> grammar = Grammar("E ::= E '+' E | '1'")
    >>> grammar.symbols, [grammar.symbols[left] for left in grammar.lefts]
    (['E', "'+'", "'1'"], ['E', 'E'])
    >>> Grammar("E ::= F")
    Traceback (most recent call last):
        ...
    slif.GrammarError: grammar: no rule for F at line 1 column 7
    """

    def __init__(self, text: Text):
        data = _encoded(text)
        self._handle, fault, message = _Handle(), _Fault(), ctypes.create_string_buffer(_MESSAGE)
        answer = _lib.slif_grammar_new(data, len(data), _by(self._handle), _by(fault), message, _MESSAGE)
        self._stop(answer, fault, message, ())
        symbols, rules = _size(), _size()
        _over(self._handle, _lib.slif_grammar_counts, _by(symbols), _by(rules))
        self.symbols: list[str] = [self._name(k) for k in range(symbols.value)]
        self.lefts: list[int] = [self._left(k) for k in range(rules.value)]

    def share(self) -> Grammar:
        """The same grammar by a handle of its own. Calls of several threads over one object wait for one another; those over two do not.

        >>> grammar = Grammar("E ::= E '+' E | '1'")
        >>> def count(grammar, found):
        ...     found.append(sum(1 for _ in grammar.derivations("1+1+1+1")))
        >>> found = []
        >>> threads = [threading.Thread(target=count, args=(grammar.share(), found)) for _ in range(3)]
        >>> for thread in threads:
        ...     thread.start()
        >>> for thread in threads:
        ...     thread.join()
        >>> found
        [5, 5, 5]
        """
        other = Grammar.__new__(Grammar)
        other._handle, other.symbols, other.lefts = _Handle(), self.symbols, self.lefts
        if _over(self._handle, _lib.slif_grammar_share, _by(other._handle)) != _OK:
            raise MemoryError
        return other

    def _name(self, symbol: int) -> str:
        length = _size()
        _over(self._handle, _lib.slif_symbol_name, symbol, _by(_u64()), 0, _by(length))
        name = ctypes.create_string_buffer(length.value + 1)
        _over(self._handle, _lib.slif_symbol_name, symbol, name, length, _by(length))
        return name.raw[:length.value].decode()

    def _left(self, rule: int) -> int:
        left = _u32()
        _over(self._handle, _lib.slif_rule_left, rule, _by(left))
        return left.value

    def _stop(self, answer: int, fault: _Fault, message: ctypes.Array, expected: Sequence[int]) -> None:
        if answer == _OK:
            return
        if answer == _NO_MEMORY:
            raise MemoryError
        text = message.raw[:min(fault.message, _MESSAGE)].decode(errors="ignore")
        line, column = (fault.line, fault.column) if fault.line else (None, None)
        if answer == _GRAMMAR:
            raise GrammarError(text, line, column)
        raise InputError(text, line, column, [self.symbols[k] for k in expected[:min(fault.expected, _EXPECTED)]])

    def parse(self, text: Text, *, rank: str = "rule", skip: int = 0, most: int = 1) -> Parse:
        """Reads a text, and keeps at most `most` of its derivations, after the first `skip`; `rank` is none, rule or high."""
        data = _encoded(text)
        handle, fault, message, expected = _Handle(), _Fault(), ctypes.create_string_buffer(_MESSAGE), (_u32 * _EXPECTED)()
        answer = _over(self._handle, _lib.slif_parse_new, data, len(data), _RANKS[rank], skip, most, _by(handle), _by(fault), message, _MESSAGE, expected, _EXPECTED)
        self._stop(answer, fault, message, expected)
        return Parse(self, data, handle)

    def lines(self, text: Text, *, show: str = "array", rank: str = "rule", skip: int = 0, most: int = 1) -> list[str]:
        """The values of derivations as the program `slif run` writes them: of actions, where `show` is array, or the trees.

        >>> Grammar("E ::= E '+' E | '1'").lines("1+1", show="tree")
        ['["E",0,["E",1,["\\'1\\'","1"]],["\\'+\\'","+"],["E",1,["\\'1\\'","1"]]]']
        """
        data = _encoded(text)
        handle, fault, message, expected = _Handle(), _Fault(), ctypes.create_string_buffer(_MESSAGE), (_u32 * _EXPECTED)()
        answer = _over(self._handle, _lib.slif_parse_shown, data, len(data), _RANKS[rank], _SHOWS[show], skip, most, _by(handle), _by(fault),
                                       message, _MESSAGE, expected, _EXPECTED)
        self._stop(answer, fault, message, expected)
        parse = Parse(self, data, handle)
        return [parse._line(k) for k in range(len(parse))]

    def expected(self, text: Text) -> list[str]:
        """The names of the lexemes that could come after a text, by their bytes: what a line editor could offer. The text need have no
        derivation; where reading stops before its end that is an InputError, whose `expected` are those that could come at that place.

        >>> Grammar("E ::= E '+' E | '(' E ')' | '1'").expected("(1")
        ["')'", "'+'"]
        """
        data, room = _encoded(text), len(self.symbols)
        count, fault, message, symbols = _size(), _Fault(), ctypes.create_string_buffer(_MESSAGE), (_u32 * max(room, 1))()
        answer = _over(self._handle, _lib.slif_expected, data, len(data), symbols, room, _by(count), _by(fault), message, _MESSAGE)
        self._stop(answer, fault, message, symbols)
        return [self.symbols[k] for k in symbols[:count.value]]

    def derivations(self, text: Text, *, rank: str = "rule") -> Iterator[Derivation]:
        """All derivations of a text, one after another. They come in batches, each as large as all before it, and the text is read for each."""
        skip, most = 0, 1
        while True:
            parse = self.parse(text, rank=rank, skip=skip, most=most)
            yield from parse.derivations()
            if not parse.more:
                return
            skip += most
            most = skip

    def __del__(self) -> None:
        if hasattr(self, "_handle"):
            _lib.slif_grammar_free(_by(self._handle))


class ScanError(SlifError):
    """A call of a scanner is refused. All is as it was."""


class Scanner:
    """A grammar that is made call by call and then read by, token by token, by a program that finds the tokens itself. They may be of any
    length, overlap, and begin at one place together. A phrase is one noun here or two, and a long noun ends where two short ones do:

    >>> scanner = Scanner()
    >>> phrase, noun = scanner.symbol("phrase"), scanner.symbol("noun")
    >>> scanner.rule(phrase, noun), scanner.rule(phrase, noun, noun)
    (0, 1)
    >>> scanner.start(phrase)
    >>> scanner.precompute()
    >>> scanner.expected() == [noun]
    True
    >>> scanner.alternative(noun, 1)
    >>> scanner.alternative(noun, 2)
    >>> scanner.complete()
    1
    >>> scanner.alternative(noun, 1)
    >>> scanner.complete()
    2
    >>> for steps in scanner.derivations():
    ...     print([(step.kind, step.number, step.start_token, step.end_token) for step in steps])
    [(0, 1, 0, 2), (2, 0, 0, 2)]
    [(0, 1, 0, 1), (0, 1, 1, 2), (2, 1, 0, 2)]

    A call that is refused changes nothing:

    >>> scanner.alternative(phrase, 1)
    Traceback (most recent call last):
        ...
    slif.ScanError: unexpected
    >>> scanner.alternative(noun, 2 ** 32 + 1)
    Traceback (most recent call last):
        ...
    OverflowError: 4294967297 is not from 0 to 4294967295
    >>> scanner.restart()
    >>> scanner.expected() == [noun]
    True
    """

    def __init__(self) -> None:
        self._handle = _Handle()
        self._symbols = 0
        self._stop(_lib.slif_scan_new(_by(self._handle)))

    def _stop(self, answer: int) -> None:
        if answer == _NO_MEMORY:
            raise MemoryError
        if answer != _OK:
            raise ScanError(_REFUSALS[answer])

    def symbol(self, name: Text) -> int:
        """The number of the symbol with this name, which becomes a new symbol where none has it."""
        data, symbol = _encoded(name), _u32()
        self._stop(_over(self._handle, _lib.slif_scan_symbol, data, len(data), _by(symbol)))
        self._symbols = max(self._symbols, symbol.value + 1)
        return symbol.value

    def rule(self, left: int, *parts: int) -> int:
        """One more rule, and its number."""
        rule = _u32()
        self._stop(_over(self._handle, _lib.slif_scan_rule, left, (_u32 * max(len(parts), 1))(*_fitting([_u32] * len(parts), parts)), len(parts), _by(rule)))
        return rule.value

    def sequence(self, left: int, item: int, *, plus: bool = False, separator: Optional[int] = None, proper: bool = False) -> int:
        """One more rule for items, one at least with `plus`; with `proper` no separator stands last.

        >>> scanner = Scanner()
        >>> items, item, comma = scanner.symbol("items"), scanner.symbol("item"), scanner.symbol("comma")
        >>> scanner.sequence(items, item, plus=True, separator=comma, proper=True)
        0
        """
        rule, between = _u32(), _NO_SYMBOL if separator is None else separator
        self._stop(_over(self._handle, _lib.slif_scan_sequence, left, item, plus, between, proper, _by(rule)))
        return rule.value

    def start(self, symbol: int) -> None:
        """The start, of which there is one."""
        self._stop(_over(self._handle, _lib.slif_scan_start, symbol))

    def precompute(self) -> None:
        """Makes the grammar ready: it is read by from now on, at place 0.

        >>> Scanner().precompute()
        Traceback (most recent call last):
            ...
        slif.GrammarError: no rules
        """
        message, length = ctypes.create_string_buffer(_MESSAGE), _size()
        answer = _over(self._handle, _lib.slif_scan_precompute, message, _MESSAGE, _by(length))
        if answer == _GRAMMAR:
            raise GrammarError(message.raw[:min(length.value, _MESSAGE)].decode(errors="ignore"))
        self._stop(answer)

    def alternative(self, symbol: int, length: int = 1) -> None:
        """Takes a token that begins at the place."""
        self._stop(_over(self._handle, _lib.slif_scan_alternative, symbol, length))

    def complete(self) -> int:
        """Goes to the next place, and tells it."""
        place = _u32()
        self._stop(_over(self._handle, _lib.slif_scan_complete, _by(place)))
        return place.value

    def expected(self) -> list[int]:
        """The terminals that are acceptable at the place, in the order of their numbers."""
        symbols, count = (_u32 * max(self._symbols, 1))(), _size()
        self._stop(_over(self._handle, _lib.slif_scan_expected, symbols, self._symbols, _by(count)))
        return symbols[:count.value]

    def restart(self) -> None:
        """Goes back to place 0, without tokens."""
        self._stop(_over(self._handle, _lib.slif_scan_restart))

    def derivations(self) -> Iterator[list[Step]]:
        """The derivations of the start from place 0 to the place, each by its steps. Leave the scanner alone while they are gone through."""
        skip, most = 0, 1
        while True:
            handle, count, more, total = _Handle(), _u64(), ctypes.c_bool(), _size()
            self._stop(_over(self._handle, _lib.slif_scan_parse, skip, most, _by(handle)))
            _over(handle, _lib.slif_parse_counts, _by(count), _by(more))
            batch = []
            for k in range(count.value):
                _over(handle, _lib.slif_parse_steps, k, 0, _by(_u64()), 0, _by(total))
                raw = ctypes.create_string_buffer(total.value * _STEP.size)
                _over(handle, _lib.slif_parse_steps, k, 0, raw, total, _by(total))
                batch.append([Step(*step) for step in _STEP.iter_unpack(raw)])
            _lib.slif_parse_free(_by(handle))
            yield from batch
            if not more.value:
                return
            skip += most
            most = skip

    @staticmethod
    def fold(steps: Sequence[Step], token: Callable[[int, int, int], Any], rule: Callable[[int, list[Any]], Any],
             nulled: Callable[[int], Any] = lambda symbol: None) -> Any:
        """The value of a derivation: `token` takes a token's symbol and the places where it begins and ends, `rule` a rule's number and the
        values of its children, and `nulled` a symbol that spans nothing.

        >>> scanner = Scanner()
        >>> total, number, plus = (scanner.symbol(name) for name in ("total", "number", "plus"))
        >>> first, more = scanner.rule(total, number), scanner.rule(total, total, plus, number)
        >>> scanner.start(total)
        >>> scanner.precompute()
        >>> words = "1 + 20 + 3".split()
        >>> for word in words:
        ...     scanner.alternative(plus if word == "+" else number)
        ...     _ = scanner.complete()
        >>> def worth(symbol, start, end):
        ...     return int(words[start]) if symbol == number else None
        >>> def add(rule, values):
        ...     return values[0] + values[2] if rule == more else values[0]
        >>> [Scanner.fold(steps, worth, add) for steps in scanner.derivations()]
        [24]
        """
        held: list[Any] = []
        for step in steps:
            if step.kind == RULE:
                cut = len(held) - step.children
                values = held[cut:]
                del held[cut:]
                held.append(rule(step.number, values))
            elif step.kind == TOKEN:
                held.append(token(step.number, step.start_token, step.end_token))
            else:
                held.append(nulled(step.number))
        return held.pop()

    def __del__(self) -> None:
        if hasattr(self, "_handle"):
            _lib.slif_scan_free(_by(self._handle))


def _encoded(text: Text) -> bytes:
    return text.encode() if isinstance(text, str) else bytes(text)
