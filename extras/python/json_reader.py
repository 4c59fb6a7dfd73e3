"""JSON read by a grammar, into what the module `json` reads it into.

    python3 json_reader.py < FILE
"""
import json
import sys
from typing import Any

import slif

GRAMMAR = r"""
lexeme default = latm => 1
value ::= object | array | string | number | true | false | null
object ::= '{' members '}'
members ::= member* separator => comma proper => 1
member ::= string ':' value
array ::= '[' elements ']'
elements ::= value* separator => comma proper => 1
true ~ 'true'
false ~ 'false'
null ~ 'null'
string ~ ["] characters ["]
characters ~ character*
character ~ [^"\\\x{0}-\x{1F}] | '\' escape
escape ~ ["\\/bfnrt] | 'u' hex hex hex hex
hex ~ [0-9a-fA-F]
number ~ int | int frac | int exp | int frac exp
int ~ digits | '-' digits
digits ~ [0-9]+
frac ~ '.' digits
exp ~ e digits | e [+-] digits
e ~ [eE]
comma ~ ','
:discard ~ space
space ~ [ \t\r\n]+
"""


class Values(slif.Fold):
    """Objects, lists, texts and numbers."""

    def string(self, text: str) -> str:
        return json.loads(text) if "\\" in text else text[1:-1]

    def number(self, text: str) -> Any:
        return int(text) if text.lstrip("-").isdigit() else float(text)

    def true(self, text: str) -> bool:
        return True

    def false(self, text: str) -> bool:
        return False

    def null(self, text: str) -> None:
        return None

    def value(self, value: Any) -> Any:
        return value

    def object(self, opened: str, members: list, closed: str) -> dict:
        return dict(members)

    def members(self, *parts: Any) -> list:
        return list(parts[::2])

    def member(self, name: str, colon: str, value: Any) -> tuple:
        return name, value

    def array(self, opened: str, elements: list, closed: str) -> list:
        return elements

    def elements(self, *parts: Any) -> list:
        return list(parts[::2])

    def nulled(self, name: str) -> list:
        return []


grammar = slif.Grammar(GRAMMAR)


def loads(text: slif.Text) -> Any:
    """
    >>> loads('{"a": [1, 2.5, "\\\\u00e9", []], "b": {}, "c": null}')
    {'a': [1, 2.5, 'é', []], 'b': {}, 'c': None}
    """
    return grammar.parse(text).first.fold(Values())


if __name__ == "__main__":
    try:
        print(loads(sys.stdin.buffer.read()))
    except slif.SlifError as error:
        sys.exit(str(error))
