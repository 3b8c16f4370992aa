#!/usr/bin/env python3
"""Random texts in the form of the table of crates/spx_table: files of random procedures, and changed ones.

    tests/random_texts.py SEED COUNT              writes so many texts; a seed always gives the same ones
    tests/random_texts.py SEED COUNT --runs       writes so many texts to be run, with random entries, bounds and inputs
    tests/random_texts.py SEED COUNT --lists      writes so many texts whose conditions are to be listed
    tests/random_texts.py SEED COUNT --expected   writes what the program of crates/spx_table must print on them, with the
                                                  same other option
"""

import argparse
import math
import random
import re
import sys
from dataclasses import dataclass, field
from typing import Optional

from reading import ANNOTATION, BOOLEAN, RESERVED, Refused, TooNested, TooManyTokens, answered, imports_of, obeying, trees_of
from table import CASES, INPUTS, Case, answer, can_stand, entry, longer, run_words, with_line_end

VALUES = ("Integer'First", "Integer'Last", "Natural'First", "Positive'Last", '0', '0', '1', '1', '2', '5', '(-1)', '(-7)', '46340',
          '1073741823', '2147483646', '2147483647')
ODD_VALUES = ('X', 'A', 'Inc', 'Integer', 'True', "Boolean'First", '2147483648', '4294967296', '170141183460469231731687303715884105727')
TYPES = ('Integer', 'Natural', 'Positive', 'Boolean')
# Numbers that are taken to the power of a variable, and some that fit 64 bits only.
BASES = ('2', '2', '2', '2', '2', '2', '10', '3', '1', '0', '(-2)', '(-1)', '(1 + 1)', '46340', '2147483647')
WIDE_BASES = ('4294967296', '2147483648', '(2 ** 40)', '9223372036854775807')
FACTORS = ('0', '1', '2', '3', '5', '(-1)', '(-7)', '46340')
PRODUCTS = ('*', '*', '/', '/', 'mod', 'rem')
LOGICAL = ('and', 'or', 'xor', 'and then', 'or else')
RELATIONS = ('=', '/=', '<', '<=', '>', '>=')
FORMALS = (('X',), ('X',), ('A', 'B'), ('X', 'A'), ('A', 'B', 'X'), ('A', 'B', 'X', 'Y'))
LOCALS = ((), (), ('T',), ('T',), ('T', 'U'), ('Last',))
ODD_LOCALS = (('X',), ('Y', 'T'), ('T', 't'), ('Integer',), ('Dec', 'Inc'))
MODES = ('in out ', 'out ', 'in ', '')
NAMES = ('Inc', 'Dec', 'X', 'Y', 'Last')
STATIC_CONDITIONS = ('1 < 2', '2 < 1', "Integer'First < 0", '0 = 1', '-1 >= 0', '2147483648 > 5', 'True', 'False', 'not True', '3 in 1 .. 5',
                     '-1 in Natural', 'True xor False', '7 mod (-3) = -2', '2 ** 5 > 31', "Integer'First rem (-1) = 0", '1 / 2 > 0 or else False')
# A procedure of random parts mostly has no more paths than this, and no more levels of `if`.
MOST_PATHS = 40
MOST_NESTED = 3

# A text as pieces: heads, comments, words and numbers, delimiters, line ends, separators, and other bytes.
PIECE = re.compile(rb'--#|--[^\n]*|[A-Za-z_0-9]+|:=|/=|<=|>=|\*\*|\n|[ \t\r\v\f]+|.', re.DOTALL)
PIECES = tuple(piece.encode('ascii') for piece in (
    'X', 'A', 'B', 'Inc', 'Integer', "Integer'First", "Integer'Last", '0', '1', '2147483647', '2147483648', '1_0', '16#F#', '2E3', '#', 'E', '+', '-',
    '*', '&', ',', ';', ':', ':=', 'in', 'out', 'from', 'derives', 'pre', '--#', '--', '\n', ' ', '\t', '\r', '=', '/=',
    '<', '<=', '>', '>=', 'end', 'is', 'begin', 'procedure', '(', ')', "'", '.', '..', '->', '~', '\n--# ', '_', '#',
    '; B : in Integer', '   X := X + 1;\n', ' + 1 - 1', 'null', '   null;\n', '   T : Integer;\n', 'T', '(X)', '-(',
    '+(', "'First", '(X = X)', 'if', 'then', 'elsif', 'else', 'end if', 'if X > 0 then', 'elsif X < 0 then', 'end if;',
    '   if X > 0 then X := X - 1; end if;\n', '**', '/', 'mod', 'rem', 'abs', 'not', 'and', 'or', 'xor', 'and then', 'or else', 'then', 'else',
    'in', 'not in', 'in 1 .. 5', 'in Natural', 'Boolean', 'Natural', 'Positive', 'True', 'False', 'null from', '& null from X', ' * 2', ' / X',
    ' mod 3', ' ** 2', 'abs (X)', 'not (', ' and X > 0', ' and then X > 0', ' or else X /= 0', 'type', 'subtype', 'constant', 'range', 'range 1 .. 5',
    '   type S is range 0 .. 9;\n', '   type Hue is (Red, Green);\n', '   subtype S is Integer range 1 .. 5;\n', '   C : constant Integer := 5;\n',
    '   C, D : constant := 2;\n', '   V : S;\n', 'C', 'Red', ' + C', ': constant', ':= 5', '(Red)', 'case', 'when', 'others', '=>', '|', 'end case',
    'end case;', 'case X is', 'when 1 =>', 'when others =>', 'when 1 .. 5 | 7 =>', '   case X is when 1 => X := 2; when others => X := 3; end case;\n',
    'Integer (', "Integer'(", "Hue'Succ (", "'Pos", "'Val (1)", ' := 5', '   V : Integer := 5;\n', '<->', ' -> X = X', ' <-> X = X', 'X~', '~',
    'check', 'post', 'assert', '\n--# check X = X;\n', '\n--# assert X = X;\n', '\n--# post X = X;\n', '\n--# check X~ = X;\n', '(X = X -> X = X)',
    'while', 'loop', 'end loop', 'while X > 0 loop', 'end loop;', '   while X > 0 loop X := X - 1; end loop;\n', 'for', 'reverse', 'for I in Integer range 1 .. 5 loop', 'for I in reverse Natural loop',
    '   for I in Integer range 1 .. X loop X := I; end loop;\n', ' I',
    'exit', 'exit;', ' exit when X > 0;', '   loop exit when X > 5; X := X + 1; end loop;\n', ' if X > 5 then exit; end if;',
    'array', 'record', 'of', 'end record', 'array (Integer) of', 'array (Integer) of Boolean', 'record P, Q : Integer; end record', ' P : Integer;', 'end record;',
    '   type L is array (Natural) of Integer;\n', '   type R is record P : Integer; end record;\n', '   P, Q : R;\n', ' P = Q', '   P := Q;\n', 'P',
    '.P', ' (1)', '(X)', '.', 'P.P', 'L (1)', '(1, 2)', '(P => 1)', "'First", "L'Last", '   L (1) := 1;\n', '   P.P := X;\n', '~.P', ' (1) (2)', "'("))
# Bytes that are apt to end a lexeme, a line or a text.
EDGES = b'\0\t\n\v\f\r -#0A_\x80\xa0\xff'

# A word that is a name wherever it is, and the names that one is exchanged for.
NAME = re.compile(rb'[A-Za-z](?:_?[A-Za-z0-9])*')
OTHER_NAMES = tuple(name.encode('ascii') for name in ('X', 'x', 'A', 'B', 'Y', 'T', 'U', 'Inc', 'Dec', 'Integer', 'Natural', 'Positive', 'Boolean', 'True',
                                                       'Small', 'Hue', 'Red', 'C'))

# Names of types, of literals and of constants, and the bounds of types. Any of the last may be a value of a constant.
TYPE_NAMES = ('Small', 'Hue', 'S', 'Low', 'Wide', 'Gear', 'Flag', 'Own')
LITERAL_NAMES = ('Red', 'Green', 'Blue', 'Up', 'Down', 'On', 'Off', 'First')
CONSTANT_NAMES = ('C', 'D', 'N', 'Top', 'Two', 'Least')
# Names of fields, and of variables of array and record types.
FIELD_NAMES = ('Left', 'Right', 'P', 'X', 'A', 'Inc', 'Red')
WHOLE_NAMES = ('P', 'Q', 'R', 'L')
# Steps of names that mostly lead nowhere.
ODD_STEPS = ('.Z', '.P', '.Left', ' (1)', ' (0)', ' (1, 1)', ' (True)', ' (Red)', ' (X => 1)', ' (Z)', "'First", "'Last", "'Pos", "'Length", "'(1)", '~')
BOUNDS = ((0, 10), (0, 9), (1, 5), (-5, 5), (5, 5), (0, 100), (-7, -2), (0, 2**31 - 1), (0, 2**31), (-2**31, 2**31 - 1), (-2**31 - 1, 0), (-2**31, 0),
          (-2**63, 2**63 - 1), (0, 2**63 - 1), (0, 2**40), (2**31, 2**31 + 5))
ODD_BOUNDS = ((1, 0), (0, 2**63), (-2**63 - 1, 0), (10, 5), (2**64, 2**65))
ODD_STATIC = ('1 / 0', "Integer'Last + 1", '2 ** 127', '2147483648', "Natural'Last")
NAMED_VALUES = (0, 1, 2, 2, 3, 5, 10, -1, 31, 100, 2**31 - 1, 2**31, 2**40, 2**100)

# The texts of the table of the grammar that are checked: those whose conditions are made, and those with other findings.
STOPPED = re.compile(r':\d+: (?:L\d|P1) ')
OF_THE_GRAMMAR = tuple(case for case in CASES if case.words is None and case.status < 2 and not STOPPED.search(case.report))
EXAMINED = tuple(case.text for case in OF_THE_GRAMMAR if ' conditions, ' in case.report)
BROKEN = tuple(case.text for case in OF_THE_GRAMMAR if ' conditions, ' not in case.report)


def digits_of(value, base):
    """The digits of a number in a base, in capitals."""
    digits = ''
    while value or not digits:
        value, digit = divmod(value, base)
        digits = '0123456789ABCDEF'[digit] + digits
    return digits


def is_import(formal, sources):
    """Whether an export comes from the formal."""
    return any(formal in found for found in sources.values())


def is_name(piece):
    """Whether a piece is a word that is reserved nowhere."""
    return bool(NAME.fullmatch(piece)) and piece.decode('ascii').lower() not in RESERVED + ANNOTATION


@dataclass(frozen=True)
class Type:
    """A type: its name, that of the type it is made of, and its bounds, if it has any. Those of literals are positions."""
    name: str
    base: str
    low: Optional[int] = None
    high: Optional[int] = None


PREDEFINED = (Type('Integer', 'Integer', -2**31, 2**31 - 1), Type('Natural', 'Integer', 0, 2**31 - 1), Type('Positive', 'Integer', 1, 2**31 - 1),
              Type('Boolean', 'Boolean'))


@dataclass
class Declared:
    """What comes before the statements of a procedure: the declarations as they are written, and what they declare.

    A constant has a name, its base type, and its value; that of a named number is none. An array or record type, or a subtype
    of one, has a name and its base type. A form has the type of the index and that of the elements, or the name of each field with
    its type, by the base type.
    """
    lines: list = field(default_factory=list)
    types: list = field(default_factory=lambda: list(PREDEFINED))
    literals: dict = field(default_factory=dict)
    constants: list = field(default_factory=list)
    composites: list = field(default_factory=list)
    forms: dict = field(default_factory=dict)

    def base_of(self, mark):
        """The base type of a type by its name, if there is one."""
        bases = {found.name: found.base for found in self.types} | dict(self.composites)
        return bases.get(mark)

    def own_types(self):
        """The types that are declared here."""
        return self.types[len(PREDEFINED):]

    def of_base(self, base):
        """The types that are made of one."""
        return [found for found in self.types if found.base == base]


class Declarer:
    """Makes declarations of types, subtypes and constants that mostly fit together."""

    def __init__(self, chance, formals, is_small=False):
        self.random = chance
        self.formals = formals
        self.is_small = is_small
        self.slips = chance.choice((0, 0, 0.03, 0.08))
        self.declared = Declared()
        self.free = {names: list(names) for names in (TYPE_NAMES, LITERAL_NAMES, CONSTANT_NAMES)}

    def run(self):
        """Some declarations."""
        forms = (self.range_type, self.enumeration, self.subtype, self.constant, self.named_numbers, self.composite)
        for _ in range(self.random.choice((1, 2, 3, 3, 4, 5, 6))):
            form = self.random.choices(forms, (28, 20, 22, 22, 8, 8))[0]
            self.declared.lines.append(form())
        return self.declared

    def parts(self):
        """Declarations of some types, and of array and record types over them."""
        forms = [self.random.choice((self.range_type, self.enumeration, self.subtype)) for _ in range(self.random.choice((1, 2, 2)))]
        for form in forms + [self.composite] * self.random.choice((1, 2, 2, 3)):
            self.declared.lines.append(form())
        return self.declared

    def name(self, names):
        """A name that is not there yet, or rarely another one."""
        if self.random.random() < self.slips / 4 or not self.free[names]:
            return self.random.choice(names + self.formals + ('Natural', 'Inc'))
        return self.free[names].pop(self.random.randrange(len(self.free[names])))

    def is_odd(self):
        """Whether something does not fit here. In half of all procedures everything does."""
        return self.random.random() < self.slips

    def odd(self, name):
        """What mostly is no static value of the type that is wanted."""
        variables = self.formals or ('X',)
        literals = tuple(literal for found in self.declared.literals.values() for literal in found) or ('True',)
        attributes = tuple(f"{found.name}'First" for found in self.declared.types)
        kind = self.random.random()
        if kind < 0.5:
            return self.random.choice(('{}', '{}', '{} + 1', '2 ** {}', '5 - 2 ** {}')).replace('{}', self.random.choice(variables))
        if kind < 0.7:
            return self.random.choice(literals + attributes + ('True', '(1 = 1)', '5'))
        return self.random.choice((name, 'Y', 'Integer') if kind < 0.8 else ODD_STATIC)

    def range_type(self):
        """A type of numbers of its own."""
        name = self.name(TYPE_NAMES)
        low, high = self.random.choice(ODD_BOUNDS if self.random.random() < 2 * self.slips else BOUNDS)
        line = f'type {name} is range {self.value(name, low)} .. {self.value(name, high)}'
        self.declared.types.append(Type(name, name, low, high))
        return line

    def enumeration(self):
        """A type of one literal or more."""
        name = self.name(TYPE_NAMES)
        literals = [self.name(LITERAL_NAMES) for _ in range(self.random.choice((1, 2, 2, 3, 3)))]
        self.declared.types.append(Type(name, name, 0, len(literals) - 1))
        self.declared.literals[name] = literals
        return f'type {name} is ({", ".join(literals)})'

    def subtype(self):
        """A type that is made of another one, mostly with a range."""
        name, parent = self.name(TYPE_NAMES), self.random.choice(self.declared.own_types() * 2 + self.declared.types)
        mark = self.random.choice(('X', name, 'Y', 'Inc')) if self.random.random() < self.slips / 2 else parent.name
        is_whole = parent.base == 'Boolean' and not self.is_odd()
        if is_whole or self.random.random() < 0.2:
            self.declared.types.append(Type(name, parent.base, parent.low, parent.high))
            return f'subtype {name} is {mark}'
        low, high = self.within(parent)
        line = f'subtype {name} is {mark} range {self.value(name, low, parent.base)} .. {self.value(name, high, parent.base)}'
        self.declared.types.append(Type(name, parent.base, low, high))
        return line

    def within(self, parent):
        """Bounds within a type, often its own ones, and rarely one that is past them."""
        if parent.low is None:
            return 0, 1
        low, high = min(parent.low, parent.high), max(parent.low, parent.high)
        ends = sorted(self.random.choice((low, high, self.random.randint(low, high), min(high, low + 1))) for _ in range(2))
        if self.random.random() < 2 * self.slips:
            ends = self.random.choice(((ends[1] + 1, ends[0]), (low - 1, high), (low, high + 1), (low, high + 2**32)))
        return ends

    def constant(self):
        """Constants of a type."""
        names = [self.name(CONSTANT_NAMES) for _ in range(self.random.choice((1, 1, 1, 2)))]
        found = self.random.choice(self.declared.own_types() * 2 + self.declared.types)
        low, high = self.within(found)
        value = self.random.choice((low, high))
        line = f'{", ".join(names)} : constant {found.name} := {self.value(names[0], value, found.base)}'
        self.declared.constants += [(name, found.base, value) for name in names]
        return line

    def named_numbers(self):
        """Constants without a type."""
        names = [self.name(CONSTANT_NAMES) for _ in range(self.random.choice((1, 1, 2)))]
        value = self.random.choice(NAMED_VALUES)
        line = f'{", ".join(names)} : constant := {self.value(names[0], value)}'
        self.declared.constants += [(name, None, value) for name in names]
        return line

    def composite(self):
        """An array or a record type, or at times a subtype of one."""
        name = self.name(TYPE_NAMES)
        if self.declared.composites and self.random.random() < 0.25:
            parent, base = self.random.choice(self.declared.composites)
            line = f'subtype {name} is {parent}{" range 0 .. 1" if self.is_odd() else ""}'
        else:
            is_array = self.random.random() < 0.5 and (self.few() or not self.is_small)
            base, (line, form) = name, self.array() if is_array else self.record()
            line = f'type {name} is {line}'
            self.declared.forms[base] = form
        self.declared.composites.append((name, base))
        return line

    def few(self):
        """The types that have an order and few values."""
        return [found for found in self.declared.types if found.base != 'Boolean' and found.low <= found.high <= found.low + 20]

    def array(self):
        """An array over a type that mostly has an order, of any type; mostly over one of few values. In runs it is, since values are made there."""
        few = self.few()
        ordered = few if few and (self.is_small or self.random.random() < 0.7) else [found for found in self.declared.types if found.base != 'Boolean']
        index, element = self.random.choice(ordered), self.mark()
        return f'array ({self.mark() if self.is_odd() and not self.is_small else index.name}) of {element}', (index, element)

    def record(self):
        """A record of some fields, which mostly have names of their own."""
        free = self.random.sample(FIELD_NAMES, len(FIELD_NAMES))
        made = [self.fields(free) for _ in range(self.random.choice((1, 1, 2, 3)))]
        text = ' '.join(f'{", ".join(names)} : {mark};' for names, mark in made)
        return f'record {text} end record', [(name, mark) for names, mark in made for name in names]

    def fields(self, free):
        """Fields of one type, with names that are still free, or rarely other ones."""
        names = [self.random.choice(FIELD_NAMES + ('Integer', 'True')) if self.is_odd() else free.pop() for _ in range(self.random.choice((1, 1, 2)))]
        return names, self.mark()

    def mark(self):
        """The name of a type, mostly of one that is declared here; or rarely another name."""
        if self.is_odd():
            return self.random.choice(('X', 'Y', 'P', 'Red', 'Inc', 'Boolean', "Integer'First") + TYPE_NAMES)
        own = [found.name for found in self.declared.own_types()] + [name for name, _ in self.declared.composites]
        return self.random.choice(own * 2 + [found.name for found in self.declared.types])

    def value(self, name, value, base=None):
        """A value as a static expression of a type, or of any type of numbers; rarely something else."""
        if self.is_odd():
            return self.odd(name)
        return self.random.choice(self.spellings(value, base))

    def spellings(self, value, base):
        """Some expressions of this value."""
        if base == 'Boolean':
            return ['True', 'not True', '1 < 2', 'False', "Integer'Last in Natural"]
        known = [constant for constant, of, found in self.declared.constants if found == value and self.fits(of, base)]
        known += [f"{found.name}'{end}" for found in self.declared.types for end, bound in (('First', found.low), ('Last', found.high))
                  if bound == value and self.fits(found.base, base)]
        if base in self.declared.literals:
            literals = self.declared.literals[base]
            return known * 2 + [literals[value % len(literals)]] * 2
        size = self.random.choice((1, 2, 7))
        return known * 3 + [str(value)] * 4 + [f'{value - size} + {size}', f'{value + size} - {size}', f'({value})']

    def fits(self, of, base):
        """Whether what is of one base type, or a named number, may be where another one is wanted."""
        is_number = of is None or (of not in self.declared.literals and of != 'Boolean')
        return of == base or (is_number and (base is None or of is None) and base not in self.declared.literals)


@dataclass
class Branch:
    """An `if`: its arms, each a condition and statements, and the statements after `else`, if it is there."""
    arms: list
    otherwise: list = None

    def bodies(self):
        """The statements of each arm, and those after `else`, which may be none."""
        return [body for _, body in self.arms] + [self.otherwise or []]


    def tests(self):
        """What chooses among them."""
        return [condition for condition, _ in self.arms]


@dataclass
class Selection(Branch):
    """A `case`: its selector, and in the place of conditions the choices of each alternative; after them `others`, if it is there."""
    selector: str = ''

    def bodies(self):
        """The statements of each alternative."""
        return [body for _, body in self.arms] + ([] if self.otherwise is None else [self.otherwise])

    def tests(self):
        """The selector."""
        return [self.selector]


@dataclass
class Loop(Branch):
    """A `while`, as an arm with its condition and its statements."""


@dataclass
class Count(Branch):
    """A `for`, as an arm with its bounds, or with nothing, and its statements."""
    parameter: str = ''
    mark: str = 'Integer'
    base: str = 'Integer'
    is_reverse: bool = False


@dataclass
class Plain(Branch):
    """A plain loop, as an arm with no condition and its statements."""


@dataclass
class Leave:
    """An exit, with its condition, if it has one."""
    condition: str = ''


@dataclass
class Asserted:
    """An `assert` of a condition."""
    condition: str


def way_out(statement):
    """The condition and the statements of an exit from the loop around a statement, if it is one."""
    if isinstance(statement, Leave):
        return statement.condition, []
    if type(statement) is Branch and len(statement.arms) == 1 and statement.otherwise is None:
        (condition, body), = statement.arms
        if body and body[-1] == Leave():
            return condition, body[:-1]
    return None


# Around the condition of an `assert` or a `check`, which is on a line of its own in the end.
ASSERT, CHECK, END_OF_CHECK = '\3', '\1', '\2'


def checked(text):
    """The text with each `assert` and each `check` on a line of its own."""
    return text.replace(ASSERT, '\n--# assert ').replace(CHECK, '\n--# check ').replace(f'{END_OF_CHECK};', ';\n')


def assignments(statements):
    """The targets and right sides of statements, also of those in arms."""
    for statement in statements:
        if isinstance(statement, Branch):
            for body in statement.bodies():
                yield from assignments(body)
        elif not isinstance(statement, (Leave, Asserted)):
            yield variable_in(statement[0]), statement[1]


def variable_in(target):
    """The variable of a target, which may be a part of it."""
    return re.match(r'\w*', target).group()


def paths(statements):
    """How many ways lead through statements."""
    return math.prod(sum(map(paths, statement.bodies())) for statement in statements if isinstance(statement, Branch))


def levels(statements):
    """How many `if`s are in one another."""
    return max((1 + max(map(levels, statement.bodies())) for statement in statements if isinstance(statement, Branch)),
               default=0)


def sources_after(statements, sources, out=None):
    """The formals that the value of each variable comes from after statements, where these are those before; and the same at each exit
    from the loop around them, with those of its condition, is added to a list.
    """
    for statement in statements:
        way = way_out(statement)
        if way:
            if out is not None:
                out.append((sources_after(way[1], sources), sources_of(way[0], sources)))
        elif isinstance(statement, (Loop, Count, Plain)):
            sources = sources_after_loop(statement, sources)
        elif isinstance(statement, Branch):
            conditions = set().union(*(sources_of(test, sources) for test in statement.tests()))
            changed = {target for target, _ in assignments([statement])}
            ends = [sources_after(body, sources) for body in statement.bodies()]
            sources = joined(ends, conditions, changed)
        elif not isinstance(statement, Asserted):
            target, value = statement
            name = variable_in(target)
            rest = sources_of(target, sources) if name != target else set()
            sources = sources | {name: sources_of(value, sources) | rest}
    return sources


def joined(ways, conditions, changed):
    """On one of several ways; what is changed comes from the conditions too."""
    names = set.intersection(*map(set, ways))
    return {name: set().union(*(way[name] for way in ways)) | (conditions if name in changed else set()) for name in names}


def sources_after_loop(loop, sources):
    """The same after turns: at the head, where a loop may be left there, or at an exit."""
    (test, body), = loop.arms
    is_count = isinstance(loop, Count)
    bounds = sources_of(test, sources) if is_count else set()
    begun = sources | {loop.parameter: bounds} if is_count else sources
    first = begun
    turned = turn_of(loop, begun)
    while any(turned[name] - begun[name] for name in begun):
        begun = {name: begun[name] | turned[name] for name in begun}
        turned = turn_of(loop, begun)
    out = []
    sources_after(body, begun, out)
    conditions = bounds.union(*(read for _, read in out), sources_of(test, begun) if isinstance(loop, Loop) else set())
    ways = [way for way, _ in out]
    if is_count and not test:
        ways.append({name: turn_of(loop, first)[name] | turned[name] for name in begun})
    elif not isinstance(loop, Plain) or not out:
        ways.append(begun)
    found = joined(ways, conditions, {target for target, _ in assignments(body)})
    return {name: found[name] for name in sources if name in found}


def turn_of(loop, sources):
    """The same after one turn, in which a parameter stays what it is."""
    after = sources_after(loop.arms[0][1], sources)
    return after | {loop.parameter: sources[loop.parameter]} if isinstance(loop, Count) else after


def sources_of(value, sources):
    """The formals that what is written comes from."""
    return {source for name in sources if re.search(rf"(?<!')\b{name}\b", value) for source in sources[name]}


class Writer:
    """Makes texts by the numbers of one seed."""

    def __init__(self, seed):
        self.random = random.Random(seed)
        self.types = {}
        self.count_names = 0
        self.bases = {}
        self.declared = Declared()
        self.base = 'Integer'
        self.wholes = {}
        self.ignored = []
        # What a `check` may read, the variables that are both imported and exported, and a condition that is known at the start.
        self.readable = ()
        self.changed_ones = ()
        self.known = 'True'
        # Whether texts are to be run: then arrays have few elements, and parts are in statements that are reached.
        self.is_small = False

    def text(self):
        """A procedure of random parts, such a one or a case of the table with other names, or one with changes."""
        kind = self.random.random()
        if kind < 0.35:
            return self.made()
        if kind < 0.7:
            return self.renamed(self.made() if kind < 0.6 else self.random.choice(EXAMINED + BROKEN))
        return self.changed(self.made() if kind < 0.8 else self.random.choice(EXAMINED + BROKEN))

    def made(self):
        """A file of mostly one procedure."""
        count = self.random.choices((0, 1, 2, 3), (1, 70, 20, 9))[0]
        names = self.random.sample(NAMES, count)
        if self.random.random() < 0.02:
            names += names[:1]
        return ''.join(self.procedure(name) for name in names).encode('ascii')

    def procedure(self, name):
        """A procedure of random parts that mostly fit together, and at times one without formals, or one of few statements."""
        if self.random.random() < 0.25:
            return self.short_procedure(name)
        if self.random.random() < 0.25:
            return self.part_procedure(name)
        formals = self.random.choice(FORMALS) if self.random.random() < 0.96 else ()
        locals_ = self.random.choice(LOCALS if self.random.random() < 0.98 else ODD_LOCALS)
        self.declared = Declarer(self.random, formals, self.is_small).run() if self.random.random() < 0.6 else Declared()
        if self.declared.lines and self.random.random() < 0.7:
            locals_ = self.random.choice((('T',), ('T', 'U'), ('T', 'U', 'V')))
        self.choose_types(formals, locals_)
        statements = self.statements(formals, locals_)
        if formals and self.random.random() < 0.55:
            statements = self.branched(statements, formals, locals_)
        wholes = self.add_wholes(statements, formals)
        sources = self.sources(formals, locals_, statements)
        inputs = [formal for formal in formals if formal not in sources]
        if inputs and self.random.random() < 0.12:
            target = self.random.choice(inputs)
            self.insert(statements, (target, self.right_side(formals, target, target)))
        if self.declared.constants and self.random.random() < 0.12:
            self.insert(statements, self.to_a_constant(formals))
        declared = self.declared.lines + self.declarations(locals_) + wholes
        if self.random.random() < 0.02:
            self.random.shuffle(declared)
        pre = self.precondition_before(formals, sources, statements) if self.random.random() < 0.75 else None
        self.note(formals, locals_, sources, pre)
        return checked(longer(self.params(formals, sources), self.items(formals, sources), *self.spelled(statements),
                              pre=pre, post=self.post(formals), declared=declared, name=name))

    def short_procedure(self, name):
        """A procedure in which variables of declared types decide what a formal is. It mostly keeps all rules."""
        formals, locals_ = ('A', 'X'), self.random.choice((('T',), ('T',), ('T', 'U')))
        self.declared = Declarer(self.random, formals, self.is_small).run()
        self.choose_types(formals, locals_)
        for formal in formals:
            self.types[formal], self.bases[formal] = self.random.choice(('Integer', 'Integer', 'Natural')), 'Integer'
        statements = [statement for local in locals_ for statement in self.uses(local)]
        conditions = [f'{local} {self.relation_of(local)} {self.beside(local)}' for local in locals_]
        bodies = [[('X', self.random.choice(('A', 'A', '0', '1', '5') + self.constants()))] for _ in range(2)]
        if self.random.random() < 0.45 and any(self.base_of(local) != 'Boolean' for local in locals_):
            statements.append(self.selection(bodies[0], ('X',), locals_))
        else:
            statements.append(Branch([(f' {self.random.choice(LOGICAL)} '.join(conditions), bodies[0])], bodies[1]))
        if self.declared.constants and self.random.random() < 0.2:
            self.insert(statements, self.to_a_constant(formals))
        wholes = self.add_wholes(statements, formals)
        sources = self.sources(formals, locals_, statements)
        pre = self.random.choice((None, None, 'A > 0', 'A in 1 .. 100'))
        self.note(formals, locals_, sources, pre)
        return checked(longer(self.params(formals, sources), self.items(formals, sources), *self.spelled(statements), pre=pre,
                              post=self.post(formals), declared=self.declared.lines + self.declarations(locals_) + wholes, name=name))

    def part_procedure(self, name):
        """A procedure whose statements set and read parts, mostly after a loop without an end. It mostly keeps all rules, and its formal B
        comes from all that they set.
        """
        formals, locals_ = ('A', 'X', 'B'), ('T', 'U', 'V', 'W')
        self.declared = Declarer(self.random, formals, self.is_small).parts()
        self.choose_types(formals, locals_)
        for formal, mark in (('A', 'Integer'), ('X', self.random.choice(('Integer', 'Natural'))), ('B', 'Boolean')):
            self.types[formal], self.bases[formal] = mark, 'Boolean' if mark == 'Boolean' else 'Integer'
        names = self.random.sample(WHOLE_NAMES, self.random.choice((2, 3, 3, 4)))
        self.wholes = {whole: self.random.choice(self.declared.composites) for whole in names}
        self.readable = ('A', 'X')
        known = Asserted(self.random.choice(('True', self.part_condition(formals))))
        if self.is_small:
            statements = [known] if self.random.random() < 0.4 else []
        else:
            statements = [Plain([('', [])]), known] if self.random.random() < 0.85 else []
        targets = self.random.sample(locals_, len(locals_))
        for target in targets[:self.random.choice((1, 2, 3, 4))]:
            statements += self.part_statements((target,), (*formals, *locals_))
        statements.append(('B', ' and '.join(['B', 'A = A', 'X = X', *(f'{read} = {read}' for read in (*locals_, *names))])))
        sources = self.sources(formals, locals_, statements)
        pre = self.random.choice((None, None, 'A > 0', 'A in 0 .. 5'))
        self.note(formals, locals_, sources, pre)
        declared = self.declared.lines + self.declarations(locals_) + [f'{whole} : {mark}' for whole, (mark, _) in self.wholes.items()]
        return checked(longer(self.params(formals, sources), self.items(formals, sources), *self.spelled(statements), pre=pre, post=self.post(formals), declared=declared, name=name))

    def add_wholes(self, statements, formals):
        """Declarations of variables of array and record types. At times statements name them, mostly after a loop without an end: as
        nothing gives them a value, flow says of each other read that it is of an unset variable.
        """
        types = self.declared.composites
        names = self.random.sample(WHOLE_NAMES, self.random.choice((1, 2, 2, 3))) if types and self.random.random() < 0.85 else []
        self.wholes = {name: self.random.choice(types) for name in names}
        if names and self.random.random() < 0.6:
            self.wholes = dict.fromkeys(names, self.random.choice(types))
        if names and formals and self.random.random() < 0.5:
            makers = self.random.choices((self.whole_statements, self.part_statements), (25, 75), k=self.random.choice((1, 1, 2, 3)))
            found = [statement for make in makers for statement in make(formals, formals)]
            if self.random.random() < 0.8:
                last = Branch([(' and '.join(f'{name} = {name}' for name in names), [(self.random.choice(formals), self.random.choice(formals))])])
                statements += [Plain([('', [])]), Asserted(self.whole_condition()), *found, *([last] if self.random.random() < 0.8 else [])]
            else:
                self.insert(statements, found[-1])
        return [f'{name} : {mark}{f" := {self.whole_value(base)}" if self.random.random() < 0.02 else ""}' for name, (mark, base) in self.wholes.items()]

    def whole_statements(self, formals, variables):
        """At times an assignment to a variable of an array or record type, and mostly an `if` with a comparison of it with another."""
        name, target = self.random.choice(list(self.wholes)), self.random.choice(formals)
        base = self.wholes[name][1]
        found = [(name, self.whole_value(base))] if self.random.random() < 0.6 else []
        if not found or self.random.random() < 0.9:
            condition = f'{name} {self.random.choice(("=", "/="))} {self.whole_value(base)}' if self.random.random() < 0.8 else self.whole_condition()
            found.append(Branch([(condition, [(target, self.right_side(formals, target, target))])]))
        return found

    def whole_value(self, base):
        """A variable of an array or record type, mostly of this one; or rarely something else."""
        fitting = [name for name, (_, own) in self.wholes.items() if own == base]
        if self.random.random() < 0.03:
            return self.random.choice(ODD_VALUES + tuple(self.wholes))
        name = self.random.choice(fitting or list(self.wholes))
        return self.random.choices((name, f'({name})', f"{self.wholes[name][0]}'({name})"), (80, 8, 12))[0]

    def part_statements(self, targets, variables):
        """An assignment to a part or from one, an `if` with a part in its condition, or a loop over an array."""
        (text, base), target, kind = self.part(variables), self.random.choice(targets), self.random.random()
        if kind < 0.4:
            return [(text, self.value_for(base, variables))]
        if kind < 0.65:
            return [(target, self.from_part(text, base, target, variables))]
        arrays = [name for name, (_, of) in self.wholes.items() if isinstance(self.declared.forms.get(of), tuple)]
        if kind < 0.8 and arrays:
            return [self.over_array(self.random.choice(arrays), variables)]
        return [Branch([(self.part_condition(variables), [(target, self.right_side(variables, target, target))])])]

    def part(self, variables):
        """A part of an array or a record, mostly one that has no parts, and its base type, if that is known; rarely a name that leads nowhere."""
        text = self.random.choice(list(self.wholes))
        base = self.wholes[text][1]
        while base in self.declared.forms and self.random.random() < 0.95:
            form = self.declared.forms[base]
            if self.random.random() < 0.03:
                return text + self.random.choice(ODD_STEPS), None
            if isinstance(form, tuple):
                index, mark = form
                text += f' ({self.over(index.base, self.index, index, variables)})'
            else:
                name, mark = self.random.choice(form)
                text += f'.{name}'
            base = self.declared.base_of(mark)
        return text, base

    def index(self, found, variables):
        """An index of a type: a value of it, or something over a variable."""
        names, kind = self.numbers(variables), self.random.random()
        if kind < 0.02:
            return self.random.choice(ODD_VALUES)
        if not names or kind < 0.5:
            return self.declared_value(found)
        name = self.random.choice(names)
        return name if self.is_literal(found.base) else self.random.choice((name, name, f'{name} + 1', f'{name} mod 3', self.power(variables) or name))

    def value_for(self, base, variables):
        """A value of a base type, at times another part of an array or a record."""
        for _ in range(3):
            text, found = self.part(variables)
            if found == base and self.random.random() < 0.6:
                return text
        if base in self.declared.forms:
            return self.whole_value(base)
        if base == 'Boolean':
            return self.truth(variables, 0)
        return self.over(base or 'Integer', self.number_in, variables)

    def from_part(self, text, base, target, variables):
        """A value for a variable that mostly comes from a part."""
        wanted = self.base_of(target)
        if base is None or base == wanted:
            return self.random.choice((text, text, f'({text})') if wanted == 'Boolean' else (text, text, f'{text} + 1', f'abs {text}'))
        if wanted == 'Boolean' or base == 'Boolean' or base in self.declared.forms:
            return self.part_condition(variables) if wanted == 'Boolean' else self.right_side(variables, target, target)
        return f"{base}'Pos ({text})" if self.is_literal(base) else f'{self.types[target]} ({text})'

    def part_condition(self, variables):
        """A condition over a part, or over an end of an array; rarely of the wrong types."""
        text, base = self.part(variables)
        if base == 'Boolean' and self.random.random() < 0.7:
            return self.random.choice((text, f'not {text}'))
        relations = RELATIONS if base not in self.declared.forms and base != 'Boolean' else RELATIONS[:2]
        condition = f'{text} {self.random.choice(relations)} {self.value_for(base, variables)}'
        arrays = [name for name, (_, of) in self.wholes.items() if isinstance(self.declared.forms.get(of), tuple)]
        if arrays and self.random.random() < 0.2:
            name = self.random.choice(arrays)
            index = self.declared.forms[self.wholes[name][1]][0]
            tested = self.over(index.base, self.number_in, variables)
            condition = f"{tested} in {name}'First .. {name}'Last and then {name} ({tested}) = {name} ({name}'First)"
        return condition

    def over_array(self, name, variables):
        """A loop over the indexes of an array, in which an element is set."""
        index, mark = self.declared.forms[self.wholes[name][1]]
        self.count_names += 1
        parameter = f'{"IJKLM"[self.count_names % 5]}{self.count_names}'
        self.types[parameter], self.bases[parameter] = index.name, index.base
        bounds = self.random.choice((f"{name}'First .. {name}'Last", f"{name}'First .. {name}'Last", ''))
        return Count([(bounds, [(f'{name} ({parameter})', self.value_for(self.declared.base_of(mark), variables))])], None, parameter, index.name, index.base, self.random.random() < 0.3)

    def whole_condition(self):
        """A comparison of two whole values, or rarely something else over them; at times with `not`. Often it is over a part."""
        if self.random.random() < 0.5:
            return self.part_condition(tuple(self.readable))
        base = self.random.choice(list(self.wholes.values()))[1]
        word = self.random.choice(('=', '=', '/=')) if self.random.random() < 0.96 else self.random.choice(RELATIONS + ('+', 'and', 'in', '**'))
        made = f'{self.whole_value(base)} {word} {self.whole_value(base)}'
        return f'not ({made})' if self.random.random() < 0.2 else made

    def uses(self, local):
        """Statements that set a variable, on one way or on two, and at times once more."""
        found = [(local, self.near(local))]
        if self.random.random() < 0.4:
            condition = f'A {self.random.choice(RELATIONS)} {self.random.choice(("0", "1", "100"))}'
            found = [Branch([(condition, found)], [(local, self.near(local))])]
        if self.is_of_numbers(local) and self.random.random() < 0.6:
            operation = self.random.choice(('{} + 1', '{} - 1', '-{}', 'abs {}', '{} * 2', '{} / 2', '{} mod 3', '{} ** 2', '{} * {}', '2 * {} - 1',
                                            '{} ** 62', '2 ** A', '{} + 2 ** A', '2 ** A - {}', '4294967296 * 2 ** A', '3 ** A * {}'))
            found.append((local, operation.replace('{}', local)))
        return found

    def relation_of(self, local):
        """A relation, which truth values have two of."""
        return self.random.choice(RELATIONS if self.base_of(local) != 'Boolean' else RELATIONS[:2])

    def is_of_numbers(self, local):
        """Whether a variable is a number."""
        return self.base_of(local) != 'Boolean' and not self.is_literal(self.base_of(local))

    def near(self, local):
        """A value in the type of a variable, mostly at one of its ends."""
        found = next(found for found in self.declared.types if found.name == self.types[local])
        if found.base == 'Boolean':
            return self.random.choice(('True', 'False', '(A > 0)'))
        value = self.random.choice((found.low, found.high, found.high, self.random.randint(min(found.low, found.high), max(found.low, found.high))))
        if self.is_literal(found.base):
            literals = self.declared.literals[found.base]
            return self.random.choice((literals[value % len(literals)], f"{found.name}'First", f"{found.name}'Last"))
        return f'({value})' if value < 0 else str(value)

    def beside(self, local):
        """A value in the type of a variable, or at times the power of a number, which takes that type."""
        if self.is_of_numbers(local) and self.random.random() < 0.15:
            return self.over(self.base_of(local), self.power, ('A',)) or self.near(local)
        return self.near(local)

    def choose_types(self, formals, locals_):
        """A type for each variable. Those of formals are predefined, but for some."""
        own = self.declared.own_types()
        self.types = {name: self.random.choices(TYPES, (60, 13, 7, 20))[0] for name in formals + locals_}
        chosen = locals_ if self.random.random() < 0.99 else formals
        for name in chosen:
            if own and self.random.random() < 0.8:
                self.types[name] = self.random.choice(own).name
        bases = {found.name: found.base for found in self.declared.types}
        self.bases = {name: bases[mark] for name, mark in self.types.items()}

    def base_of(self, name):
        """The base type of a variable, which is Integer for one that is not there."""
        return self.bases.get(name, 'Integer')

    def over(self, base, make, *arguments):
        """What is made where numbers, and literals, are of this base type."""
        before, self.base = self.base, base
        made = make(*arguments)
        self.base = before
        return made

    def is_literal(self, base):
        """Whether a base type has literals."""
        return base in self.declared.literals

    def to_a_constant(self, formals):
        """An assignment to a constant, mostly of its own type."""
        name, base, _ = self.random.choice(self.declared.constants)
        if base == 'Boolean':
            return name, self.truth(formals, 0)
        return name, self.over(base or 'Integer', self.sum, formals, self.over(base or 'Integer', self.value))

    def precondition_before(self, formals, sources, statements):
        """A precondition. What is declared in the body cannot be seen in it."""
        names = [name for name, _, _ in self.declared.constants] + [found.name for found in self.declared.own_types()] + list(self.types)
        hidden = '|'.join(name for name in names if name not in formals) or 'None'
        integers = (value for target, value in assignments(statements) if self.base_of(target) == 'Integer' and not re.search(rf'\b(?:{hidden})\b', value))
        before = self.declared
        if self.random.random() < 0.98:
            self.declared = Declared()
        made = self.precondition(formals, sources, next(integers, self.value()))
        self.declared = before
        return made

    def note(self, formals, locals_, sources, pre):
        """Keeps what annotations may name. What starts set may mostly be read everywhere."""
        imports = tuple(formal for formal in formals if formal not in sources or is_import(formal, sources))
        self.readable = imports if self.random.random() < 0.7 else imports + tuple(locals_)
        self.changed_ones = tuple(formal for formal in imports if formal in sources)
        self.known = pre or 'True'

    def post(self, formals):
        """Nothing, or a postcondition. What is declared in the body cannot be seen in it."""
        if not formals or self.random.random() < 0.6:
            return None
        before = self.declared
        if self.random.random() < 0.98:
            self.declared = Declared()
        made = self.predicate(formals)
        self.declared = before
        return made

    def predicate(self, names):
        """A condition, one that is known or trivial, or an implication or equivalence of two; with values on entry at times."""
        kind, name = self.random.random(), self.random.choice(names)
        if kind < 0.25:
            made = self.random.choice((f'{name} = {name}', f'{name} = {name}', self.known, 'True'))
        elif kind > 0.9 and self.wholes and self.declared.composites:
            made = self.whole_condition()
        else:
            made = self.truth(names, self.random.choice((0, 0, 1)))
        if self.random.random() < 0.3:
            other = self.truth(names, 0) if self.random.random() < 0.7 else made
            made = f' {self.random.choice(("->", "->", "<->"))} '.join((made, other))
        if self.random.random() < 0.1:
            made = f'({made})'
        return self.with_entry_values(made, names)

    def with_entry_values(self, text, names):
        """Some names with `~`, mostly of variables that are both imported and exported."""
        allowed = names if self.random.random() < 0.03 else self.changed_ones
        for name in allowed:
            pieces = re.split(rf"(?<!')\b({name})\b(?!')", text)
            text = ''.join(piece + '~' if at % 2 and self.random.random() < 0.35 else piece for at, piece in enumerate(pieces))
        return text

    def branched(self, statements, formals, locals_):
        """The statements with some of them in arms, and some more; mostly such that what one arm sets, each sets."""
        if self.random.random() < 0.01:
            return self.many_paths(formals)
        found = list(statements)
        for _ in range(self.random.choice((1, 1, 1, 2, 2, 3))):
            at = self.random.randrange(len(found) + 1)
            after = min(len(found), at + self.random.choice((0, 1, 1, 2)))
            if self.random.random() < 0.4:
                make = self.random.choice((self.loop, self.count, self.plain))
                tried = found[:after] + [make(found[at:after], formals, locals_)] + found[after:]
            else:
                tried = found[:at] + [self.branch(found[at:after], formals, locals_)] + found[after:]
            if paths(tried) <= MOST_PATHS and levels(tried) <= MOST_NESTED:
                found = tried
        return found

    def many_paths(self, formals):
        """Some twelve `if`s in a row, which have 4096 paths."""
        name = self.random.choice(formals)
        return [Branch([(self.truth(formals, 0), [(name, self.right_side((), name, name))])])
                for _ in range(self.random.randrange(11, 15))]

    def branch(self, statements, formals, locals_):
        """An `if` around the statements, which are in one of its arms, or with other values in each."""
        readable = formals + tuple(local for local in locals_ if self.random.random() < 0.3)
        if self.random.random() < 0.3:
            return self.selection(statements, formals, readable)
        count = self.random.choices((1, 2, 3), (60, 30, 10))[0]
        has_else = self.random.random() < 0.6
        bodies = [[self.other(statement, readable) for statement in statements] if self.random.random() < 0.75 else
                  self.some(formals, readable) for _ in range(count + has_else)]
        bodies[self.random.randrange(len(bodies))] = list(statements) or self.some(formals, readable)
        arms = [(self.condition(readable), body) for body in bodies[:count]]
        return Branch(arms, bodies[count] if has_else else None)

    def loop(self, statements, formals, locals_):
        """A `while` in which what the statements before it set is set once more, or some formal."""
        readable = formals + tuple(local for local in locals_ if self.random.random() < 0.2)
        body = [self.other(statement, readable) for statement in statements]
        if not body and self.random.random() < 0.95:
            target = self.random.choice(formals)
            body = [(target, self.right_side(readable, target, target))]
        return Loop([(self.condition(readable), self.with_exits(body, formals, readable, 0.3))])

    def plain(self, statements, formals, locals_):
        """A plain loop, mostly with an exit, in which what the statements before it set is set once more, or some formal."""
        readable = formals + tuple(local for local in locals_ if self.random.random() < 0.2)
        body = [self.other(statement, readable) for statement in statements]
        if not body and self.random.random() < 0.95:
            target = self.random.choice(formals)
            body = [(target, self.right_side(readable, target, target))]
        return Plain([('', self.with_exits(body, formals, readable, 0.93))])

    def with_exits(self, body, formals, readable, share):
        """The statements of a loop with exits among them, in so many cases; rarely with one where none may be."""
        found = list(body)
        while self.random.random() < share:
            share *= 0.35
            condition = self.condition(readable)
            way = Leave(condition) if self.random.random() < 0.55 else Branch([(condition, self.some(formals, readable) + [Leave()])])
            found.insert(self.random.randrange(len(found) + 1), way)
        if self.random.random() < 0.02:
            odd = self.random.choice((Leave(), Branch([(self.condition(readable), [Leave(self.condition(readable))])]), Branch([(self.condition(readable), [Leave()])], self.some(formals, readable))))
            found.insert(self.random.randrange(len(found) + 1), odd)
        return found

    def count(self, statements, formals, locals_):
        """A `for` in which what the statements before it set is set once more, or some formal; often from its parameter."""
        readable = formals + tuple(local for local in locals_ if self.random.random() < 0.2)
        found = self.random.choice([found for found in self.declared.types if found.base != 'Boolean' or self.random.random() < 0.05])
        self.count_names += self.random.random() < 0.9
        parameter = f'{"IJKLM"[self.count_names % 5]}{self.count_names // 5 or ""}'
        if self.random.random() < 0.01:
            parameter = self.random.choice(formals + ('Integer',))
        bounds = '' if self.random.random() < 0.3 else f'{self.end_of(found, readable)} .. {self.end_of(found, readable)}'
        self.types[parameter], self.bases[parameter] = found.name, found.base
        inside = readable + (parameter, parameter)
        body = [self.other(statement, inside) for statement in statements]
        if not body and self.random.random() < 0.95:
            target = self.random.choice(formals)
            body = [(target, parameter if self.base_of(target) == found.base and self.random.random() < 0.5 else self.right_side(inside, target, target))]
        if self.random.random() < 0.01:
            body.append((parameter, parameter))
        return Count([(bounds, self.with_exits(body, formals, inside, 0.3))], None, parameter, found.name, found.base, self.random.random() < 0.4)

    def end_of(self, found, readable):
        """A bound of a range of a type."""
        ends = [f"{found.name}'First", f"{found.name}'Last", *(name for name in readable if self.base_of(name) == found.base)]
        if not self.is_literal(found.base):
            ends += ['0', '1', '5', '-3', str(found.low), str(found.high), self.over(found.base, self.power_or_value, readable)] if found.low is not None else []
        end = self.random.choice(ends if self.random.random() < 0.98 else readable)
        return f'{end} {self.random.choice("+-")} 1' if self.random.random() < 0.1 else end

    def selection(self, statements, formals, readable):
        """A `case` with the statements in one of its alternatives, or with other values in each. It mostly has each value once."""
        selector = self.random.choice([name for name in readable if self.base_of(name) != 'Boolean' or self.random.random() < 0.02] or ['1'])
        mark = self.types.get(selector, 'Integer')
        found = next((found for found in self.declared.types if found.name == mark), PREDEFINED[0])
        if self.random.random() < 0.15 and found.base != 'Boolean':
            fitting = [other for other in self.declared.of_base(found.base)]
            found = self.random.choice(fitting or [found])
            selector = f"{found.name}'({selector})" if self.random.random() < 0.5 else f'{found.name} ({selector})'
        elif self.random.random() < 0.1:
            selector = self.random.choice((f'({selector})', f'{selector} + 1', f'{selector} mod 3'))
        elif found.base == 'Integer' and self.random.random() < 0.1:
            found, selector = PREDEFINED[0], self.power((selector,)) or selector
        choices, has_others = self.choices(found)
        bodies = [[self.other(statement, readable) for statement in statements] if self.random.random() < 0.75 else
                  self.some(formals, readable) for _ in range(len(choices) + has_others)]
        bodies[self.random.randrange(len(bodies))] = list(statements) or self.some(formals, readable)
        return Selection(list(zip(choices, bodies)), bodies[-1] if has_others else None, selector)

    def choices(self, found):
        """Choices for the values of a type: some of them and `others`, or ranges that touch; rarely with one missing or twice."""
        low, high = (0, 1) if found.low is None else (min(found.low, found.high), max(found.low, found.high))
        cuts = sorted({low, *(min(high, max(low, self.random.choice((low + 1, low + 2, 0, 1, 5, high)))) for _ in range(self.random.choice((0, 1, 2, 3))))})
        spans = [(first, after - 1) for first, after in zip(cuts, cuts[1:] + [high + 1])]
        has_others = self.random.random() < 0.5
        if has_others and len(spans) > 1:
            del spans[self.random.randrange(len(spans))]
        if self.random.random() < 0.06:
            first, last = self.random.choice(spans)
            spans.append(self.random.choice(((first, last), (last, first), (last + 1, last + 1), (first, first + 1))))
        if self.random.random() < 0.04 and len(spans) > 1:
            del spans[self.random.randrange(len(spans))]
        self.random.shuffle(spans)
        written = [self.choice(found, *span) for span in spans]
        if len(written) > 2 and self.random.random() < 0.4:
            written[:2] = [' | '.join(written[:2])]
        return written, has_others

    def choice(self, found, first, last):
        """A choice of one value, or a range."""
        if first == last and self.random.random() < 0.8:
            return self.bound(found, first)
        return f'{self.bound(found, first)} .. {self.bound(found, last)}'

    def bound(self, found, value):
        """A bound of a choice, which rarely does not fit."""
        if self.random.random() < 0.01:
            return self.random.choice(ODD_VALUES)
        if found.low is not None and value in (found.low, found.high) and self.random.random() < 0.3:
            return f"{found.name}'{'First' if value == found.low else 'Last'}"
        if self.is_literal(found.base):
            literals = self.declared.literals[found.base]
            return self.random.choice((literals[value % len(literals)], literals[value % len(literals)], f"{found.name}'Val ({value % len(literals)})"))
        if found.base == 'Boolean':
            return self.random.choice(('True', 'False'))
        return str(value)

    def function(self, variables, operand):
        """The operand in a conversion, a qualification or a function of its type, or one of another type in a conversion."""
        mark = self.random.choice(self.declared.of_base(self.base) or self.declared.types).name
        if self.is_literal(self.base):
            integers = self.over('Integer', self.numbers, variables)
            return self.random.choice((f"{mark}'Succ ({operand})", f"{mark}'Pred ({operand})", f"{mark}'({operand})",
                                       f"{mark}'Val ({self.random.choice(integers + ('0', self.over('Integer', self.power, variables) or '0'))})"))
        others = [found for found in self.declared.types if found.base != self.base and (found.base != 'Boolean' or self.random.random() < 0.02)]
        if others and self.random.random() < 0.4:
            other = self.random.choice(others)
            inner = self.random.choice(self.over(other.base, self.numbers, variables) or (operand,))
            if inner == operand:
                return f'{mark} ({operand})'
            return f"{mark} ({other.name}'Pos ({inner}))" if self.is_literal(other.base) else f'{mark} ({inner})'
        operand = self.random.choice((operand, operand, operand, self.power(variables) or operand))
        return self.random.choice((f'{mark} ({operand})', f'{mark} ({operand})', f"{mark}'({operand})"))

    def power(self, variables):
        """A term over the power of a number with a variable in its exponent. It takes the type that it meets.

        Its numbers mostly fit the base type that is wanted. It is empty where there is no variable for an exponent.
        """
        exponents = self.over('Integer', self.numbers, variables)
        if not exponents or (self.base == 'Boolean' or self.is_literal(self.base)) and self.random.random() < 0.98:
            return ''
        name = self.random.choice(exponents)
        exponent = self.random.choice((name, name, name, name, name, name, f'({name} mod 31)', f'({name} + 1)', f'(abs {name})', f'(2 ** {name})', '2'))
        is_wide = any(found.name == self.base and not -2**31 <= found.low <= found.high < 2**31 for found in self.declared.own_types())
        wide = WIDE_BASES if is_wide or self.random.random() < 0.04 else ()
        numbers = tuple(constant for constant, of, value in self.declared.constants if of is None and (is_wide or abs(value) < 2**31))
        power = f'{self.random.choice(BASES + wide * 2 + numbers)} ** {exponent}'
        number = self.random.choice(('1', '2', '5', '46340') + wide + numbers)
        return self.random.choice((power, power, power, power, power, power, f'({power})', f'({power}) ** 2', f'({power} - {number})', f'({number} + {power})', f'{number} * {power}',
                                   f'{power} {self.random.choice(PRODUCTS)} {number}', f'(-{power})', f'abs ({power})', f'({power} + 3 ** {name})'))

    def power_or_value(self, variables):
        """Such a power in half of all cases, if there is one, and else a value."""
        return self.random.choice((self.power(variables), '')) or self.value()

    def other(self, statement, readable):
        """A statement that sets what this one sets, with another value."""
        if isinstance(statement, (Branch, Leave)):
            return statement
        target, _ = statement
        return (target, self.right_side(readable, target, target))

    def some(self, formals, readable):
        """No statement, or one that sets a formal."""
        if self.random.random() < 0.4:
            return []
        target = self.random.choice(formals)
        return [(target, self.right_side(readable, target, target))]

    def condition(self, readable):
        """A truth value, mostly a relation; rarely something else."""
        if self.random.random() < 0.015:
            return self.random.choice(readable + ('Boolean',))
        return self.truth(readable, self.random.choices((0, 1, 2), (60, 30, 10))[0])

    def numbers(self, variables):
        """Those of the variables that are numbers, or literals, of the base type that is wanted; rarely all."""
        is_odd = self.random.random() < 0.004
        return tuple(name for name in variables if is_odd or self.base_of(name) == self.base)

    def truths(self, variables):
        """Those of the variables that are truth values; rarely all."""
        is_odd = self.random.random() < 0.004
        constants = tuple(name for name, base, _ in self.declared.constants if base == 'Boolean')
        return tuple(name for name in variables if is_odd or self.base_of(name) == 'Boolean') + constants

    def number_in(self, variables):
        """A variable that is a number, if there is one, or a value; at times the power of a number."""
        power = self.power(variables) if self.random.random() < 0.03 else ''
        return f'({power})' if power else self.random.choice(self.numbers(variables) * 2 + (self.value(),))

    def truth(self, variables, depth):
        """A truth value over the variables, with logical operators within one another."""
        kind = self.random.random()
        if depth and kind < 0.75:
            return self.logical(variables, depth)
        if kind < 0.06:
            return self.random.choice(STATIC_CONDITIONS)
        others = [name for name in variables if self.base_of(name) not in ('Integer', 'Boolean')]
        if others and self.base == 'Integer' and self.random.random() < 0.6:
            return self.over(self.base_of(self.random.choice(others)), self.truth, variables, depth)
        truths = self.truths(variables)
        if truths and kind < 0.4:
            name = self.random.choice(truths)
            return self.random.choice((name, name, f'not {name}', f'{name} = {self.random.choice(truths + ("True", "False"))}',
                                       f'{name} /= {self.random.choice(truths + ("(1 < 2)",))}'))
        if kind < 0.55:
            return self.membership(variables)
        is_short = self.random.random() < 0.7 or self.is_literal(self.base)
        left = self.number_in(variables) if is_short else self.sum(variables, self.number_in(variables))
        sides = [left, self.random.choice(self.numbers(variables) + (self.value(),) * 5 + (self.power_or_value(variables),))]
        if self.random.random() < 0.2:
            sides.reverse()
        return f' {self.random.choice(RELATIONS)} '.join(sides)

    def logical(self, variables, depth):
        """A chain of one operator, `not` of something, or a short-circuit form that guards what comes after it."""
        kind = self.random.random()
        if kind < 0.15:
            return f'not ({self.truth(variables, depth - 1)})'
        if kind < 0.4 and self.base == 'Integer':
            return self.guard(variables)
        operator = self.random.choice(LOGICAL[:2] if kind < 0.6 else LOGICAL)
        parts = [self.truth(variables, depth - 1) for _ in range(self.random.choice((2, 2, 2, 3)))]
        if self.random.random() < 0.97:
            parts = [f'({part})' if re.search(r'\b(?:and|or|xor)\b', part) else part for part in parts]
        return f' {operator} '.join(parts)

    def guard(self, variables):
        """What a division or a sum needs, and a relation over it after `and then` or `or else`, or after others at times."""
        name, other = self.number_in(variables), self.number_in(variables)
        guard, opposite, value = self.random.choice((
            (f'{name} /= 0', f'{name} = 0', f'{other} {self.random.choice(("/", "mod", "rem"))} {name}'),
            (f'{name} > 0', f'{name} <= 0', f'{other} {self.random.choice(("/", "mod", "rem"))} {name}'),
            (f'{name} in 1 .. 100', f'{name} not in 1 .. 100', f'{other} mod {name}'),
            (f"{name} < Integer'Last", f"{name} >= Integer'Last", f'{name} + 1'),
            (f'{name} >= 0', f'{name} < 0', f'{other} ** {name}'),
            (f"{name} > Integer'First", f"{name} = Integer'First", f'abs {name}')))
        relation = f'{value} {self.random.choice(RELATIONS)} {self.number_in(variables)}'
        if self.random.random() < 0.5:
            return f'{guard} {self.random.choice(("and then", "and then", "and then", "and", "or else"))} {relation}'
        return f'{opposite} {self.random.choice(("or else", "or else", "or else", "or", "and then"))} {relation}'

    def membership(self, variables):
        """A membership test, in a type or in a range."""
        is_short = self.random.random() < 0.8 or self.is_literal(self.base)
        tested = self.number_in(variables) if is_short else self.sum(variables, self.number_in(variables))
        word = self.random.choice(('in', 'in', 'not in'))
        kind = self.random.random()
        if kind < 0.3:
            return f'{tested} {word} {self.type_mark()}'
        ends = ('0', '1', '-5', '5', '100', "Integer'Last") if self.base == 'Integer' else tuple(self.value() for _ in range(3))
        bounds = [self.number_in(variables) if self.random.random() < 0.3 else self.random.choice(ends) for _ in range(2)]
        return f'{tested} {word} {bounds[0]} .. {bounds[1]}'

    def type_mark(self):
        """A type of what is tested, or rarely another one."""
        fitting = self.declared.of_base(self.base) if self.random.random() < 0.98 else []
        return self.random.choice(fitting or self.declared.types).name

    def insert(self, statements, statement):
        """Puts a statement somewhere, also into an arm."""
        inner = [branch for branch in statements if isinstance(branch, Branch)]
        if inner and self.random.random() < 0.6:
            branch = self.random.choice(inner)
            self.insert(self.random.choice([body for _, body in branch.arms] + [branch.otherwise or []]), statement)
        else:
            statements.insert(self.random.randrange(len(statements) + 1), statement)

    def spelled(self, statements):
        """Each statement as it is written, with `null` between them at times, and where there are none."""
        found = [self.spelled_one(statement) for statement in statements] or ['null']
        if Leave() in statements and self.random.random() < 0.9:
            return found
        while self.random.random() < 0.1:
            found.insert(self.random.randrange(len(found) + 1), 'null')
        while self.readable and self.random.random() < 0.12:
            word = ASSERT if self.random.random() < 0.4 else CHECK
            found.insert(self.random.randrange(len(found) + 1), f'{word}{self.predicate(self.readable)}{END_OF_CHECK}')
        return found

    def spelled_one(self, statement):
        """One statement as it is written."""
        if isinstance(statement, Leave):
            return f'exit when {statement.condition}' if statement.condition else 'exit'
        if isinstance(statement, Asserted):
            return f'{ASSERT}{statement.condition}{END_OF_CHECK}'
        if isinstance(statement, Branch):
            return self.spelled_branch(statement)
        return f'{statement[0]} := {statement[1]}'

    def spelled_branch(self, branch):
        """An `if` in one line or in several."""
        gap = self.random.choice((' ', ' ', '\n      '))
        if isinstance(branch, Selection):
            return self.spelled_selection(branch, gap)
        if isinstance(branch, (Loop, Plain)):
            return self.spelled_loop(branch, gap)
        if isinstance(branch, Count):
            return self.spelled_count(branch, gap)
        text = ''
        for word, (condition, body) in zip(['if'] + ['elsif'] * len(branch.arms), branch.arms):
            text += f'{word} {condition} then{gap}' + ''.join(f'{piece};{gap}' for piece in self.spelled(body))
        if branch.otherwise is not None:
            text += f'else{gap}' + ''.join(f'{piece};{gap}' for piece in self.spelled(branch.otherwise))
        return text + 'end if'

    def spelled_loop(self, loop, gap):
        """A `while` or a plain loop, often with an `assert` of its condition or of something else."""
        (condition, body), = loop.arms
        pieces = self.spelled(body)
        if self.readable and self.random.random() < 0.5:
            known = condition if condition and self.random.random() < 0.6 else self.predicate(self.readable)
            pieces.insert(0 if self.random.random() < 0.7 else self.random.randrange(len(pieces) + 1), f'{ASSERT}{known}{END_OF_CHECK}')
        head = f'while {condition} loop' if condition else 'loop'
        return f'{head}{gap}' + ''.join(f'{piece};{gap}' for piece in pieces) + 'end loop'

    def spelled_count(self, loop, gap):
        """A `for`, often with an `assert`, in which the parameter may be named."""
        (bounds, body), = loop.arms
        before = self.readable
        if before:
            self.readable = before + (loop.parameter,)
            self.types[loop.parameter], self.bases[loop.parameter] = loop.mark, loop.base
        pieces = self.spelled(body)
        if self.readable and self.random.random() < 0.5:
            pieces.insert(self.random.randrange(len(pieces) + 1), f'{ASSERT}{self.predicate(self.readable)}{END_OF_CHECK}')
        self.readable = before
        head = f'for {loop.parameter} in {"reverse " if loop.is_reverse else ""}{loop.mark}{f" range {bounds}" if bounds else ""} loop{gap}'
        return head + ''.join(f'{piece};{gap}' for piece in pieces) + 'end loop'

    def spelled_selection(self, branch, gap):
        """A `case`; `others` rarely is not the last choice."""
        alternatives = list(branch.arms) + ([] if branch.otherwise is None else [('others', branch.otherwise)])
        if self.random.random() < 0.02:
            self.random.shuffle(alternatives)
        text = f'case {branch.selector} is{gap}'
        for choices, body in alternatives:
            text += f'when {choices} =>{gap}' + ''.join(f'{piece};{gap}' for piece in self.spelled(body))
        return text + 'end case'

    def initial(self, name):
        """Nothing, or a value with which a variable is declared, mostly one of its type."""
        if self.random.random() < 0.75:
            return ''
        return f' := {self.near(name) if self.random.random() < 0.97 else self.random.choice(ODD_VALUES)}'

    def declarations(self, locals_):
        """A declaration for each local, or one for all, which then mostly have one type."""
        is_one = len({self.types[name] for name in locals_}) == 1 or self.random.random() < 0.05
        if is_one and self.random.random() < 0.5:
            locals_ = (', '.join(locals_),) if locals_ else ()
        return [f'{names} : {self.types.get(names, self.types[names.split(",")[0]])}{self.initial(names.split(",")[0])}' for names in locals_]

    def statements(self, formals, locals_):
        """Targets and right sides. Each local mostly comes from what is before it, and goes to the next target."""
        readable, found = formals, []
        if not formals:
            return found
        for at, local in enumerate(locals_):
            if self.random.random() < 0.93:
                found.append(self.setting(readable, locals_[at - 1] if found else local, local))
            readable += (local,)
        for _ in range(self.random.choice((1, 1, 2, 2, 3, 4))):
            target = self.random.choice(formals + locals_ if self.random.random() < 0.1 else formals)
            is_after_local = found and len(found) == len(locals_)
            found.append(self.setting(readable, locals_[-1] if is_after_local else target, target))
        return found

    def setting(self, variables, usual, target):
        """An assignment, mostly with the usual variable; or where that is of another type, mostly an `if` over it with two."""
        base = self.base_of(usual)
        if base in ('Integer', 'Boolean', self.base_of(target)) or usual not in variables or self.random.random() < 0.05:
            return (target, self.right_side(variables, usual, target))
        condition = f'{usual} {self.random.choice(RELATIONS)} {self.over(base, self.value)}'
        if self.random.random() < 0.4:
            condition = self.over(base, self.truth, (usual,), self.random.choice((0, 1)))
        bodies = [[(target, self.right_side(variables, target, target))] for _ in range(2)]
        return Branch([(condition, bodies[0])], bodies[1] if self.random.random() < 0.9 else None)

    def right_side(self, variables, usual, target):
        """A value of the type of the target, mostly with the usual variable, where it may be read; and rarely another one."""
        base = self.base_of(target)
        is_truth = base == 'Boolean'
        if self.random.random() < 0.01:
            is_truth = not is_truth
        if base not in ('Boolean', 'Integer') and self.random.random() < 0.99:
            return self.over(base, self.of_declared_type, variables, usual)
        if is_truth:
            value = self.truth(variables, self.random.choice((0, 0, 1, 1, 2)))
            is_fit = usual in variables and self.base_of(usual) == 'Boolean' and self.random.random() < 0.5
            return f'({value}) {self.random.choice(LOGICAL)} {usual}' if is_fit else value
        is_usual = usual in self.numbers(variables) and self.random.random() < 0.7
        return self.sum(variables, usual if is_usual else self.number_in(variables))

    def of_declared_type(self, variables, usual):
        """A value of the base type that is wanted, mostly with the usual variable, where it is of that type."""
        is_usual = usual in self.numbers(variables) and self.random.random() < 0.5
        first = usual if is_usual else self.number_in(variables)
        if self.is_literal(self.base) and self.random.random() < 0.97:
            return self.random.choices((first, f'({first})', self.function(variables, first)), (75, 7, 18 if first in variables else 2))[0]
        return first if self.random.random() < 0.4 else self.sum(variables, first)

    def sum(self, variables, first):
        """A sum of mostly few operands, with a sign at times, and of some two hundred levels at times."""
        if self.random.random() < 0.005:
            return self.deep(first)
        count = self.random.choices((1, 2, 3, 4, 6), (25, 45, 20, 7, 3))[0]
        operands = [self.operand(variables, self.random.choice(self.numbers(variables) + (self.value(),) * 3))
                    for _ in range(count - 1)]
        sign = self.random.choice('-+') if self.random.random() < 0.15 else ''
        return (sign + self.operand(variables, first)
                + ''.join(f' {self.random.choice("+-")} {operand}' for operand in operands))

    def operand(self, variables, operand):
        """The operand, a term or a factor that begins with it, or such a sum in parentheses; at times the power of a number."""
        power = self.power(variables) if self.random.random() < 0.025 else ''
        if power:
            return power
        kind = self.random.random()
        if kind < 0.12:
            return f'({self.sum(variables, operand)})'
        if kind > (0.92 if operand in variables else 0.995):
            return self.function(variables, operand)
        if kind < 0.27 and (operand in variables or kind < 0.16):
            factors = [self.random.choice(self.numbers(variables) * 2 + self.constants() + FACTORS) for _ in range(self.random.choice((1, 1, 2)))]
            return operand + ''.join(f' {self.random.choice(PRODUCTS)} {factor}' for factor in factors)
        if 0.27 <= kind < 0.31:
            exponents = ('0', '1', '2') + (('3', '31', '(-1)', self.over('Integer', self.number_in, variables)) if operand in variables else ())
            return f'{operand} ** {self.random.choice(exponents)}'
        return f'abs {operand}' if 0.31 <= kind < 0.35 else operand

    def deep(self, operand):
        """Some two hundred zeros, parentheses, or signs with parentheses."""
        levels = self.random.randrange(198, 203)
        return self.random.choice((operand + ' + 0' * levels, '(' * levels + operand + ')' * levels,
                                   '-(' * (levels // 2) + operand + ')' * (levels // 2), operand + ' * 1' * levels,
                                   'abs (' * (levels // 2) + operand + ')' * (levels // 2)))

    def constants(self):
        """The constants of the base type that is wanted, and the named numbers that mostly fit it."""
        fitting = [name for name, base, value in self.declared.constants if base is None and abs(value) < 2**31 and not self.is_literal(self.base)]
        return tuple(fitting + [name for name, base, _ in self.declared.constants if base == self.base])

    def value(self):
        """An attribute or a number that lies in the base type that is wanted, or a constant of it; or something else at times."""
        kind = self.random.random()
        if kind < 0.02:
            return self.random.choice(ODD_VALUES + tuple(name for name, _, _ in self.declared.constants))
        if self.constants() and self.random.random() < 0.3:
            return self.random.choice(self.constants())
        if self.base not in ('Integer', 'Boolean') and not self.is_literal(self.base) and kind < 0.5:
            return self.random.choice(('0', '1', '1', '2', '3', '(-1)'))
        types = [found for found in self.declared.of_base(self.base) if found not in PREDEFINED]
        if types and (self.base != 'Integer' or kind < 0.2):
            return self.declared_value(self.random.choice(types))
        if kind < 0.03:
            return self.random.choice(ODD_VALUES)
        return self.number(self.random.randrange(2**31)) if kind < 0.2 else self.random.choice(VALUES)

    def declared_value(self, found):
        """An attribute of a type, a literal, or a number at its bounds or near them."""
        if self.is_literal(found.base) and self.random.random() < 0.7:
            return self.random.choice(self.declared.literals[found.base])
        if self.is_literal(found.base) or self.random.random() < 0.4:
            return f"{found.name}'{self.random.choice(('First', 'Last'))}"
        value = self.random.choice((found.low, found.high, found.high, 1, 1, 0, 2, found.high + 1 if self.random.random() < 0.1 else found.low))
        return f'({value})' if value < 0 else str(value)

    def number(self, value):
        """The number of this value: with underscores, in a base, with an exponent, or as its digits; at times spoiled."""
        kind = self.random.random()
        if kind < 0.4:
            return str(value)
        base = self.random.randrange(2, 17) if kind < 0.7 else 10
        exponent = self.random.randrange(4) if self.random.random() < 0.4 else 0
        digits = digits_of(value // base ** exponent, base)
        places = [place for place in range(1, len(digits)) if self.random.random() < 0.15]
        for place in reversed(places):
            digits = digits[:place] + '_' + digits[place:]
        scale = f'{self.random.choice("Ee")}{self.random.choice(("", "+"))}{exponent}' if exponent else ''
        spelled = f'{base}#{digits}#{scale}' if base != 10 or kind > 0.95 else digits + scale
        if self.random.random() < 0.04:
            place = self.random.randrange(1, len(spelled) + 1)
            spelled = spelled[:place] + self.random.choice('_#EG+.19') + spelled[place:]
        return spelled

    def precondition(self, formals, sources, value):
        """A relation between an import, the first right side or a sum, and an operand, in either order; or another condition."""
        names = tuple(formal for formal in formals if is_import(formal, sources) or self.random.random() < 0.15)
        if self.random.random() < 0.45:
            return self.truth(names, self.random.choice((0, 1, 1, 2)))
        left = self.random.choice(self.numbers(names) + (value, self.sum(names, self.value())))
        right = self.random.choice(self.numbers(names) + (self.value(),) * 4 + (self.power_or_value(names),))
        if self.random.random() < 0.02:
            return left
        sides = [left, right]
        if self.random.random() < 0.2:
            sides.reverse()
        relation = f' {self.random.choice(RELATIONS)} '.join(sides)
        return f'({relation})' if self.random.random() < 0.1 else relation

    def sources(self, formals, locals_, statements):
        """The exports, which are the targets and some others, each with the formals that its last value comes from."""
        start = {formal: {formal} for formal in formals} | {local: set() for local in (*locals_, *self.wholes) if local not in formals}
        found = sources_after(statements, start)
        targets = {target for target, _ in assignments(statements) if target in formals}
        used = {source for target in targets for source in found[target]}
        unread = [formal for formal in formals if formal not in targets and formal not in used]
        self.ignored = [formal for formal in unread if self.random.random() < 0.5]
        return {formal: found[formal] for formal in formals
                if formal not in self.ignored and (formal in targets or formal not in used or self.random.random() < 0.3)}

    def params(self, formals, sources):
        """A parameter for each formal, or one for two that have the same mode; none where there are no formals."""
        params = []
        for formal in formals:
            mark = self.mode(formal, sources) + self.types[formal]
            if params and params[-1][1] == mark and self.random.random() < 0.5:
                params[-1][0].append(formal)
            else:
                params.append(([formal], mark))
        return '; '.join(f'{", ".join(names)} : {mark}' for names, mark in params) or None

    def mode(self, formal, sources):
        """Mostly the mode that the exports and imports ask for."""
        if self.random.random() < 0.03:
            return self.random.choice(MODES)
        if formal in sources:
            return 'in out ' if is_import(formal, sources) else 'out '
        return self.random.choice(('in ', ''))

    def items(self, formals, sources):
        """An item for each export, in some order; none where there are no formals, and rarely where there are some."""
        if not formals or self.random.random() < 0.02:
            return None
        items = [f'{export} from {self.imports(export, formals, found)}' for export, found in sources.items()]
        ignored = self.ignored + [formal for formal in formals if self.random.random() < 0.03]
        if ignored:
            items.append('null from ' + ', '.join(ignored))
        if len(ignored) > 1 and self.random.random() < 0.3:
            items[-1:] = ['null from ' + name for name in ignored]
        self.random.shuffle(items)
        return ' & '.join(items)

    def imports(self, export, formals, right_ones):
        """Mostly the right ones, in some order, and `*` at times for the export itself."""
        chosen = sorted(right_ones)
        if self.random.random() < 0.12:
            chosen = [formal for formal in formals if self.random.random() < 0.5]
        self.random.shuffle(chosen)
        if export in chosen and self.random.random() < 0.4:
            chosen.remove(export)
            chosen.insert(0, '*')
        return ', '.join(chosen)

    def renamed(self, text):
        """The text with other names in some places, mostly such as are there already, and with a mode less at times."""
        pieces = PIECE.findall(text)
        places = [at for at, piece in enumerate(pieces) if is_name(piece)]
        own = [pieces[at] for at in places if pieces[at].lower() != b'integer']
        for _ in range(self.random.choice((1, 1, 2, 3)) if own else 0):
            pieces[self.random.choice(places)] = self.random.choice(self.random.choice((own, own, own, OTHER_NAMES)))
        changed = b''.join(pieces)
        if self.random.random() < 0.15:
            changed = changed.replace(self.random.choice((b'in ', b'out ')), b'', 1)
        return changed

    def changed(self, text):
        """The text with up to three changes of its pieces, and at times cut off after one of them."""
        pieces = PIECE.findall(text) or [b'']
        for _ in range(self.random.choice((0, 1, 1, 1, 2, 3))):
            self.change(pieces)
        if self.random.random() < 0.1:
            del pieces[self.random.randrange(len(pieces)) + 1:]
        return b''.join(pieces)

    def change(self, pieces):
        """Takes a piece out, puts one in, puts another in its place, exchanges two, or adds a byte."""
        at = self.random.randrange(len(pieces))
        kind = self.random.random()
        if kind < 0.25:
            pieces[at] = b''
        elif kind < 0.45:
            pieces.insert(at, self.random.choice(PIECES))
        elif kind < 0.65:
            pieces[at] = self.random.choice(PIECES)
        elif kind < 0.8:
            pieces[at] = self.random.choice(pieces)
        elif kind < 0.9:
            other = self.random.randrange(len(pieces))
            pieces[at], pieces[other] = pieces[other], pieces[at]
        else:
            pieces[at] += bytes([self.random.choice(EDGES + bytes([self.random.randrange(256)]))])


# Bounds of runs, and values of inputs: of numbers, which mostly lie in their type, and of truth values.
TURNS = (1, 1, 2, 3, 3, 4, 6, 10, 30, 200, 1000)
SMALL_INPUTS = (-7, -1, 0, 1, 1, 2, 3, 5, 10, 46340)
GREAT_INPUTS = (-2**31, -2**31 + 1, 2**31 - 1, 2**31 - 2, 1073741823)
ODD_INPUTS = ('2147483648', '-2147483649', '170141183460469231731687303715884105728', 'True', 'X', '- 1', '1_0', '16#F#', '1E2', '+1', '(1)', '', '1 -- A', '1 --# A')
ODD_LINES = ('', ' ', 'X', 'Y = 1', 'X := 1', 'A = 1', 'x = 2', '-- X = 1', 'X = 1;', 'null = 1', '?')
# A run seldom gets past a random precondition: of so many inputs the first is taken that does.
TRIES = 8


class Runner:
    """Makes runs of texts by the numbers of one seed."""

    def __init__(self, seed):
        self.random = random.Random(seed)
        self.writer = Writer(seed)
        self.writer.is_small = True

    def case(self, name):
        """A random run of a random text."""
        text = self.text()
        procedures = procedures_of(text)
        called = self.random.choice(procedures) if procedures else None
        words = self.words(name, called.name.text if called else self.random.choice(NAMES))
        for _ in range(TRIES):
            case = Case(name, text, '', 0, words, self.inputs(called, words))
            if not answered(*case.asked()).report.startswith('fault: pre '):
                break
        return case

    def text(self):
        """A text that mostly keeps the static rules."""
        text = self.writer.text()
        while self.random.random() < 0.97 and not procedures_of(text):
            text = self.writer.made()
        return with_line_end(text)

    def words(self, name, entry_name):
        """The words of a run, mostly with inputs."""
        spelled = self.random.choice((entry_name, entry_name, entry_name, entry_name.upper(), entry_name.lower()))
        if self.random.random() < 0.02:
            spelled = self.random.choice(NAMES)
        return run_words(name, spelled, self.random.choice(TURNS), INPUTS if self.random.random() < 0.97 else None)

    def inputs(self, called, words):
        """The second file: a line for each import, in some order, with slips at times."""
        if INPUTS not in words:
            return None
        lines = [f'{self.name(word)} = {self.value(subtype)}' for word, subtype in imports_of(called).items()] if called else ['X = 1']
        if self.random.random() < 0.3:
            self.random.shuffle(lines)
        if self.random.random() < 0.06 and lines:
            self.slip(lines)
        ending = '' if self.random.random() < 0.1 else '\n'
        return INPUTS, ('\n'.join(lines) + ending if lines else '').encode('ascii')

    def name(self, word):
        """A name in small letters or in capitals."""
        return word if self.random.random() < 0.2 else word.upper()

    def value(self, subtype):
        """A value of a type, mostly a small one; rarely another one."""
        if self.random.random() < 0.01:
            return self.random.choice(ODD_INPUTS)
        if subtype.kind is BOOLEAN:
            return self.random.choice(('True', 'False', 'true', 'FALSE'))
        value = self.random.choice(SMALL_INPUTS if self.random.random() < 0.8 else GREAT_INPUTS)
        return str(value if subtype.has(value) or self.random.random() < 0.03 else max(subtype.first, abs(value) % 2**31))

    def slip(self, lines):
        """A line less, twice or changed, or another one."""
        kind, at = self.random.random(), self.random.randrange(len(lines))
        if kind < 0.25:
            del lines[at]
        elif kind < 0.5:
            lines.insert(self.random.randrange(len(lines) + 1), lines[at])
        elif kind < 0.75:
            lines.insert(at, self.random.choice(ODD_LINES))
        else:
            lines[at] = f'{lines[at].split(" ")[0]} = {self.random.choice(ODD_INPUTS)}'


def procedures_of(text):
    """The procedures of a text that keeps the static rules, and else nothing."""
    try:
        return obeying(trees_of(text))
    except (Refused, TooNested, TooManyTokens):
        return []


def random_runs(seed, count):
    """So many runs of texts."""
    runner, made = Runner(seed), 0
    while made < count:
        case = runner.case(f'run_{made + 1}')
        if can_stand(case.text) and can_stand(case.second[1] if case.second else b''):
            made += 1
            yield case


# The bytes that crates/spx_table has room for on one case.
LIST_ROOM = 131072


def random_texts(seed, count):
    """So many texts that can be in a table, each with its name."""
    writer = Writer(seed)
    found = []
    while len(found) < count:
        text = writer.text()
        if can_stand(text):
            found.append((f'text_{len(found) + 1}', text))
    return found


def random_lists(seed, count):
    """The lists of conditions of so many texts, but for those for which the program of the table has no room."""
    for name, text in random_texts(seed, count):
        case = Case(name, with_line_end(text), '', 0, ('conditions', name))
        if len(expected(case)) <= LIST_ROOM:
            yield case


def random_checks(seed, count):
    """So many texts that are checked."""
    for name, text in random_texts(seed, count):
        yield Case(name, text, '', 0)


def expected(case):
    """What must be printed on a case."""
    read = answered(*case.asked())
    return answer(case.name, case.text, read.report, read.status, case.words)


def main():
    parser = argparse.ArgumentParser(description='Writes random texts in the form of the table of crates/spx_table.')
    parser.add_argument('seed', type=int)
    parser.add_argument('count', type=int)
    kinds = parser.add_mutually_exclusive_group()
    kinds.add_argument('--runs', dest='cases', action='store_const', const=random_runs, default=random_checks, help='write texts that are run')
    kinds.add_argument('--lists', dest='cases', action='store_const', const=random_lists, help='write texts whose conditions are listed')
    parser.add_argument('--expected', action='store_true', help='write what must be printed on them instead')
    options = parser.parse_args()
    for case in options.cases(options.seed, options.count):
        sys.stdout.buffer.write(expected(case) if options.expected else entry(case.name, case.text, case.words, case.second))


if __name__ == '__main__':
    main()
