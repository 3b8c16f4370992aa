#!/usr/bin/env python3
"""Random conditions that plain arithmetic makes false, in the form of the table of crates/spx_table.

They are static, but for powers of a variable that are multiplied by 0.

Each is the precondition of a procedure that would overflow without one, so that the procedure is accepted exactly where
the condition is found to be false. reading.py has to say so too.

    tests/random_values.py SEED COUNT              writes so many texts; a seed always gives the same ones
    tests/random_values.py SEED COUNT --expected   writes what the program of crates/spx_table must print on them
"""

import argparse
import random
import sys

from reading import examine
from table import answer, entry, longer

FIRST, LAST = -2**31, 2**31 - 1
# As far as the value of an operation over literals may go here.
FAR = 2**100
TYPED = (("Integer'First", FIRST), ("Integer'Last", LAST), ("Natural'First", 0), ("Positive'First", 1))
RELATIONS = {'=': lambda a, b: a == b, '/=': lambda a, b: a != b, '<': lambda a, b: a < b, '<=': lambda a, b: a <= b,
             '>': lambda a, b: a > b, '>=': lambda a, b: a >= b}
LOGICAL = {'and': lambda a, b: a and b, 'or': lambda a, b: a or b, 'xor': lambda a, b: a != b,
           'and then': lambda a, b: a and b, 'or else': lambda a, b: a or b, '=': lambda a, b: a == b, '/=': lambda a, b: a != b}


def quotient(a, b):
    """Toward zero (Ada 95 RM 4.5.5)."""
    return abs(a) // abs(b) * (1 if (a < 0) == (b < 0) else -1)


OPERATIONS = {'+': lambda a, b: a + b, '-': lambda a, b: a - b, '*': lambda a, b: a * b, '/': quotient,
              'rem': lambda a, b: a - b * quotient(a, b), 'mod': lambda a, b: a % b}


# What a power that is not static has for its base, and for its exponent.
BASES = ('2', '3', '(-7)', '46340', '2147483647', '(-2147483648)', '(2 ** 31 - 1)')
EXPONENTS = ('X', 'X', '(X + 1)', '(2 ** X)', '(abs X)')


class Values:
    """Makes expressions with their values."""

    def __init__(self, seed):
        self.random = random.Random(seed)

    def number(self, depth):
        """An expression, its value, and whether it is of type Integer."""
        if not depth or self.random.random() < 0.1:
            return self.literal()
        kind = self.random.random()
        left = self.number(depth - 1)
        if kind < 0.15:
            word = self.random.choice(('-', 'abs '))
            return self.kept(left, f'({word}{left[0]})', -left[1] if word == '-' else abs(left[1]), left[2])
        if kind < 0.3:
            exponent = self.random.choice((0, 1, 2, 3, 5))
            return self.kept(left, f'({left[0]} ** {exponent})', left[1] ** exponent, left[2])
        right = self.number(depth - 1)
        operator = self.random.choice(tuple(OPERATIONS))
        if right[1] == 0 and operator in ('/', 'rem', 'mod'):
            return left
        if left[2] != right[2] and not (FIRST <= left[1] <= LAST and FIRST <= right[1] <= LAST):
            return left
        value = OPERATIONS[operator](left[1], right[1])
        return self.kept(left, f'({left[0]} {operator} {right[0]})', value, left[2] or right[2])

    def kept(self, operand, text, value, is_typed):
        """The operation, or its operand where its value lies too far out."""
        lies = FIRST <= value <= LAST if is_typed else abs(value) < FAR
        return (text, value, is_typed) if lies else operand

    def literal(self):
        """A number, an attribute, or a power that is multiplied by 0. That meets no other type than Integer, whose values it goes with."""
        if self.random.random() < 0.04:
            return self.random.choice(('(0 * {})', '({} * 0)', '(0 * (-{}))')).replace('{}', self.power()), 0, True
        if self.random.random() < 0.2:
            text, value = self.random.choice(TYPED)
            return text, value, True
        value = self.random.choice((0, 1, 2, 3, 5, 7, 10, 46341, 2**31 - 1, 2**31, self.random.randrange(2**40)))
        text = self.random.choice((str(value), f'16#{value:X}#', f'2#{value:b}#', f'{value}E0', f'{value:_}'))
        return text, value, False

    def power(self):
        """The power of a number with an exponent that is not static."""
        return f'{self.random.choice(BASES)} ** {self.random.choice(EXPONENTS)}'

    def truth(self, depth):
        """A condition, and whether it is true."""
        if not depth or self.random.random() < 0.3:
            return self.relation()
        (left, a), (right, b) = self.truth(depth - 1), self.truth(depth - 1)
        if self.random.random() < 0.2:
            return f'(not {left})', not a
        operator = self.random.choice(tuple(LOGICAL))
        return f'({left} {operator} {right})', LOGICAL[operator](a, b)

    def relation(self):
        """A comparison with a value near it, or a membership test."""
        text, value, _ = self.number(3)
        near = [f'(-{abs(other)})' if other < 0 else str(other) for other in (value - 1, value, value + 1)]
        if not FIRST < value < LAST:
            return f'({text} = {text})', True
        if self.random.random() < 0.25:
            word, low, high = self.random.choice(('in', 'not in')), self.random.randrange(3), self.random.randrange(3)
            return f'({text} {word} {near[low]} .. {near[high]})', (low <= 1 <= high) == (word == 'in')
        operator, at = self.random.choice(tuple(RELATIONS)), self.random.randrange(3)
        return f'({text} {operator} {near[at]})', RELATIONS[operator](value, value - 1 + at)

    def text(self):
        """A procedure whose precondition is false."""
        condition, is_true = self.truth(2)
        pre = f'not {condition}' if is_true else condition
        return longer('X : in out Integer', 'X from X', 'X := X + 1', pre=pre).encode('ascii')


def main():
    parser = argparse.ArgumentParser(description='Writes random conditions that are false.')
    parser.add_argument('seed', type=int)
    parser.add_argument('count', type=int)
    parser.add_argument('--expected', action='store_true', help='write what must be printed on them instead')
    options = parser.parse_args()
    values = Values(options.seed)
    for at in range(1, options.count + 1):
        name, text = f'value_{at}', values.text()
        read = examine(name, text)
        if read.status != 0:
            sys.exit(f'{name}: reading.py says {read.report}\n{text.decode("ascii")}')
        sys.stdout.buffer.write(answer(name, text, read.report, read.status) if options.expected else entry(name, text))


if __name__ == '__main__':
    main()
