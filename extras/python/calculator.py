"""Arithmetic by a grammar with operators of three levels.

    python3 calculator.py '2 + 3 * (4 - 1) ** 2'
"""
import operator
import sys

import slif

GRAMMAR = r"""
lexeme default = latm => 1
Expression ::= Number
    | '(' Expression ')' assoc => group
   || Expression Power Expression assoc => right
   || Expression Times Expression
   || Expression Plus Expression
Number ~ [0-9]+
Power ~ '**'
Times ~ [*/]
Plus ~ [-+]
:discard ~ space
space ~ [\s]+
"""

OPERATIONS = {"**": operator.pow, "*": operator.mul, "/": operator.truediv, "+": operator.add, "-": operator.sub}


class Arithmetic(slif.Fold):
    def Number(self, text):
        return int(text)

    def Expression(self, *parts):
        if len(parts) == 1:
            return parts[0]
        left, middle, right = parts
        return middle if left == "(" else OPERATIONS[middle](left, right)


grammar = slif.Grammar(GRAMMAR)


def calculate(text):
    """
    >>> calculate("2 + 3 * (4 - 1) ** 2")
    29
    >>> calculate("10 - 4 - 3"), calculate("2 ** 3 ** 2")
    (3, 512)
    """
    return grammar.parse(text).first.fold(Arithmetic())


if __name__ == "__main__":
    try:
        print(calculate(" ".join(sys.argv[1:])))
    except slif.SlifError as error:
        sys.exit(str(error))
