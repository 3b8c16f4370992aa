#!/usr/bin/env python3
"""The table of texts that the program of crates/spx_table asks about, with what is expected of each.

Most are asked about by `check`, some by `conditions`, `run`, or other words. The expectations are decided by the rules of
docs/language.md, case by case, and reading.py must agree with each. The examples of docs/report.md and docs/guide.md are
cases too, each a file of examples/ beside what is printed on it: of an .adb by `check`, and of a .command by its words.

    tests/table.py           writes the table and the expected answers: stdin and stdout of crates/spx_table
    tests/table.py --check   compares them with what is there, and the two documents with the examples, and ends with 1
                             where one differs
"""

import argparse
import re
import sys
from dataclasses import dataclass
from itertools import combinations, product, takewhile
from pathlib import Path
from typing import Optional

from reading import ANNOTATION, RESERVED, USAGE, answered

TOP = Path(__file__).resolve().parent.parent
FOLDER = TOP / 'crates' / 'spx_table'
# The documents with the folders of their examples, and the folder of runs, from which every document may show something.
DOCUMENTS = {TOP / 'docs' / 'report.md': TOP / 'examples' / 'findings',
             TOP / 'docs' / 'guide.md': TOP / 'examples' / 'guide'}
RUNS = TOP / 'examples' / 'runs'


# ---------------------------------------------------------------- cases

@dataclass(frozen=True)
class Case:
    """A text by its name, and what must be answered on it.

    It is asked about by `check NAME`, or by other words, for which there may be a second file, by its name and its bytes.
    """
    name: str
    text: bytes
    report: str
    status: int
    words: Optional[tuple] = None
    second: Optional[tuple] = None

    def asked(self):
        """The words, and the bytes of each file by its name."""
        words = ('check', self.name) if self.words is None else self.words
        return list(words), dict([(self.name, self.text)] + ([self.second] if self.second else []))


def examined(name, text, *rows):
    """No rule is broken. A row has a procedure's name, the number of its conditions, and those that are left.

    Each that is left is the number of an overflow condition, or a number with another kind; they are in order at the `@`s,
    which are taken out.
    """
    marks, spelled_out = marked_places(encoded(text))
    left = [(title, *(found if isinstance(found, tuple) else (found, 'overflow')))
            for title, _, *founds in rows for found in founds]
    assert len(marks) == len(left), name
    lines = [f'{name}:{line}:{column}: V1 unproved: {title}.{number} {kind}'
             for (line, column), (title, number, kind) in zip(marks, left)]
    lines += [f'{title}: {total} conditions, {total - len(numbers)} simplified, 0 scripted, {len(numbers)} open'
              for title, total, *numbers in rows]
    lines.append(f'refused: {len(left)}' if left else 'accepted')
    return Case(name, spelled_out, '\n'.join(lines) + '\n', 1 if left else 0)


# The kinds of conditions, by their first letters.
KINDS = {'d': 'division', 'o': 'overflow', 'r': 'range', 'i': 'index', 'c': 'check'}
LEFT = re.compile(r'<([0-9]+[doric](?:,[0-9]+[doric])*)>')


def left_at(name, text, total, named='Inc'):
    """So many conditions of one procedure. Those that are left are in the text, before what they are on.

    Each is a number and the first letter of its kind: `X := X <1d,2o>/ Y;` for a division and an overflow.
    """
    found = []
    for match in LEFT.finditer(text):
        before = LEFT.sub('', text[:match.start()])
        line, column = before.count('\n') + 1, len(before) - before.rfind('\n')
        found += [(int(each[:-1]), KINDS[each[-1]], line, column) for each in match.group(1).split(',')]
    lines = [f'{name}:{line}:{column}: V1 unproved: {named}.{number} {kind}' for number, kind, line, column in sorted(found)]
    row = f'{named}: {total} conditions, {total - len(found)} simplified, 0 scripted, {len(found)} open'
    return reported(name, LEFT.sub('', text), *lines, row, f'refused: {len(found)}' if found else 'accepted')


def marked_places(text):
    """The line and column of each `@`, and the text without them."""
    pieces = text.split(b'@')
    places = []
    for count in range(1, len(pieces)):
        before = b''.join(pieces[:count])
        places.append((before.count(b'\n') + 1, len(before) - before.rfind(b'\n')))
    return places, b''.join(pieces)


def accepted(name, text, total=2, named='Inc'):
    """So many conditions of the procedure of that name, all of them closed."""
    return examined(name, text, (named, total))


# What is reported of a breach of each rule that has one text. It is spelled here again, so that reading.py is held to it.
TEXTS = {
    'L1': 'bad byte',
    'L2': 'bad number',
    'L3': 'number too wide',
    'P1': 'expected another token',
    'N1': 'name is not declared here',
    'N2': 'declared twice',
    'N3': 'name of another kind',
    'N5': 'end name differs',
    'N10': 'types do not match',
    'N11': 'not static',
    'N12': 'static value out of range',
    'N13': 'bad range',
    'N14': 'wrong arguments',
    'N17': 'choice not given once',
    'N18': 'entry value not allowed',
    'U2': 'target cannot be assigned',
    'U4': 'bad exit',
    'U7': 'bad derives annotation',
    'U8': 'mode disagrees with derives',
    'U11': 'name not allowed in this annotation',
    'F3': 'ineffective',
}


def refused(name, text, *findings):
    """The findings are in order at the `@`s, which are taken out: at two in a row, two at one place.

    Each is a rule that has one text, or a rule and its text.
    """
    marks, spelled_out = marked_places(encoded(text))
    return with_findings(name, spelled_out, marks, findings)


def with_findings(name, text, places, findings):
    """These findings at these places, and nothing else."""
    assert findings and len(places) == len(findings), name
    spelled_out = [f'{finding} {TEXTS[finding]}' if finding in TEXTS else finding for finding in findings]
    lines = [f'{name}:{line}:{column}: {finding}\n' for (line, column), finding in zip(places, spelled_out)]
    return Case(name, text, ''.join(lines) + f'refused: {len(lines)}\n', 1)


def unexpected(name, text, at=None):
    """The token at this place is not allowed there, or the text ends there too early."""
    return stopped(name, text, 'P1', at)


def bad_byte(name, text, at=None):
    """No lexeme and no gap is at this place."""
    return stopped(name, text, 'L1', at)


def bad_number(name, text, at=None):
    """The number at this place is spoiled by what comes after it."""
    return stopped(name, text, 'L2', at)


def too_wide(name, text, at=None):
    """The number at this place is 2**127 or more."""
    return stopped(name, text, 'L3', at)


def stopped(name, text, rule, at):
    """The one finding, at this line and column, or at the one `@`, which is taken out."""
    marks, spelled_out = marked_places(encoded(text))
    return with_findings(name, spelled_out, marks if at is None else marks + [at], (rule,))


def too_nested(name, text):
    """More than 200 levels come before anything else that is wrong."""
    return Case(name, encoded(text), 'limit: nesting, at most 200\n', 6)


def too_large(name, text):
    """A condition has more than 1000000 nodes, and nothing is wrong before the conditions are looked at."""
    return Case(name, encoded(text), 'limit: nodes, at most 1000000\n', 6)


def too_many_variables(name, text):
    """A procedure has more than 4096 variables, and no rule is broken."""
    return Case(name, encoded(text), 'limit: variables, at most 4096\n', 6)


def too_many_paths(name, text):
    """A procedure has more than 4096 paths, and there is no finding on flow."""
    return Case(name, encoded(text), 'limit: paths, at most 4096\n', 6)


def open_in_order(name, text, total, *left):
    """So many conditions of Inc. Each that is left is an overflow condition, by its number and the `@` at which it is.

    The `@`s count from 1. One may be that of several conditions, and they need not be in order.
    """
    marks, spelled_out = marked_places(encoded(text))
    lines = [f'{name}:{marks[mark - 1][0]}:{marks[mark - 1][1]}: V1 unproved: Inc.{number} overflow' for number, mark in left]
    row = f'Inc: {total} conditions, {total - len(left)} simplified, 0 scripted, {len(left)} open'
    return reported(name, spelled_out, *lines, row, f'refused: {len(left)}')


def reported(name, text, *lines):
    """The whole report, line by line."""
    return Case(name, encoded(text), ''.join(line + '\n' for line in lines), 0 if lines[-1] == 'accepted' else 1)


def unproved(name, text, named='Inc', at=None):
    """The first of two conditions is left, at the one `@`; `at` is its line and column."""
    assert at in (None, marked_places(encoded(text))[0][0]), name
    return examined(name, text, (named, 2, 1))


def encoded(text):
    """The bytes of a text."""
    return text.encode('utf-8') if isinstance(text, str) else text


# ---------------------------------------------------------------- the form of the table

# The marks of headers: of a text, of one whose last line has no end, of one with words, and of a second file.
MARKS = ('%%', '%-', '%?', '%+', '%=')


def header(name, text, words=None):
    """`%% NAME`, or `%- NAME` where the last line of the text has no end; or `%? NAME WORD..`, with one space before each word."""
    if words is None:
        return f'{"%%" if is_ended(text) else "%-"} {name}\n'.encode('utf-8')
    assert is_ended(text) and not any(' ' in word or '\n' in word for word in (name, *words)), name
    return (' '.join(('%?', name, *words)) + '\n').encode('utf-8')


def is_ended(text):
    """Whether the last line of a text, if there is one, has its end."""
    return text == b'' or text.endswith(b'\n')


def entry(name, text, words=None, second=None):
    """A text as it is in the table, with the second file."""
    return header(name, text, words) + with_line_end(text) + (second_entry(*second) if second else b'')


def second_entry(name, text):
    """`%+ NAME` and a second file, or `%= NAME` where its last line has no end."""
    return f'{"%+" if is_ended(text) else "%="} {name}\n'.encode('utf-8') + with_line_end(text)


def with_line_end(text):
    """A text with an end of its last line."""
    return text if is_ended(text) else text + b'\n'


def answer(name, text, report, status, words=None):
    """What the program prints on a text."""
    return header(name, text, words) + report.encode('utf-8') + f'status {status}\n'.encode('utf-8')


def can_stand(text):
    """Whether no line of a text looks like a header."""
    marks = tuple(f'{mark} '.encode('ascii') for mark in MARKS)
    return not any(line.startswith(marks) for line in text.split(b'\n'))


# ---------------------------------------------------------------- parts of texts

LAST = "Integer'Last"
FIRST = "Integer'First"
BELOW = "X < Integer'Last"
ABOVE = "X > Integer'First"
WIDEST = '170141183460469231731687303715884105727'
TOO_WIDE = '170141183460469231731687303715884105728'
OUT = {'mode': 'out', 'derives': 'X from '}
AB = {'formals': 'A, B', 'target': 'A'}


def procedure(value='X + 1', pre=None, formals='X', mode='in out', derives='X from X', target='X', name='Inc',
              type_mark='Integer', end='Inc'):
    """The text of a procedure that assigns the value to the target."""
    mode = mode and mode + ' '
    lines = [f'procedure {name} ({formals} : {mode}{type_mark})', f'--# derives {derives};']
    if pre is not None:
        lines.append(f'--# pre {pre};')
    lines += ['is', 'begin', f'   {target} := {value};', f'end {end};' if end else 'end;']
    return '\n'.join(lines) + '\n'


def longer(params, derives, *statements, pre=None, post=None, declared=(), name='Inc'):
    """The text of a procedure with these statements and declarations, each without its semicolon.

    There are no formals, no `derives`, no precondition and no postcondition where they are none.
    """
    lines = [f'procedure {name}' if params is None else f'procedure {name} ({params})']
    lines += [f'--# {word} {text};' for word, text in (('derives', derives), ('pre', pre), ('post', post)) if text is not None]
    lines += ['is'] + [f'   {declaration};' for declaration in declared]
    lines += ['begin'] + [f'   {statement};' for statement in statements] + [f'end {name};']
    return '\n'.join(lines) + '\n'


def cut(value):
    """The text of a procedure up to the end of the value that it assigns."""
    return procedure(value, **OUT).split(';\nend')[0]


def at_derives(text):
    """The text with an `@` at its one word `derives`."""
    before, after = text.split('--# derives')
    return f'{before}--# @derives{after}'


def at_end(text, marks='@'):
    """The text of a procedure with an `@` at its word `end`, or with several of them."""
    before, after = text.rsplit('\nend', 1)
    return f'{before}\n{marks}end{after}'


def short(name, formal='X'):
    """The text of a procedure in which the name is there once, and the formal everywhere else."""
    return (f'procedure {name} ({formal} : in out Integer)\n--# derives {formal} from {formal};\n'
            f'is begin {formal} := {formal}; end;\n')


INC = procedure(pre=BELOW)
INC_BYTES = INC.encode('ascii')
COPY = procedure('X')

# Parameters and relations of `longer`.
X = 'X : in out Integer'
OUT_X = 'X : out Integer'
OUT_XY = 'X, Y : out Integer'
A_TO_X = 'A : in Integer; X : out Integer'
A_TO_XY = 'A : in Integer; X, Y : out Integer'
A_X_TO_Y = 'A : in Integer; X : in out Integer; Y : out Integer'
A_AND_X = 'A : in Integer; X : in out Integer'
IN_OUT_AB = 'A, B : in out Integer'
BOTH = 'A, B from A, B'
SWAP = 'A, B : in out Integer; T : out Integer'
SWAPPED = 'A from B & B, T from A'
X_TO_XY = 'X : in out Integer; Y : out Integer'

# Declarations of locals.
T = ('T : Integer',)
T_AND_U = ('T, U : Integer',)

OTHER_BYTES = {
    'nul': b'\0',
    'backspace': b'\x08',
    'control_z': b'\x1a',
    'unit_separator': b'\x1f',
    'delete': b'\x7f',
    'next_line_of_latin_1': b'\x85',
    'no_break_space_of_latin_1': b'\xa0',
    'no_break_space': '\u00a0'.encode('utf-8'),
    'zero_width_space': '\u200b'.encode('utf-8'),
    'line_separator': '\u2028'.encode('utf-8'),
    'byte_255': b'\xff',
}

# The tokens of a text, each with its label and one that cannot be in its place. A token without a label stays.
TOKENS = (
    ('procedure', 'procedure', 'function'),
    ('name', 'Inc', '1'),
    ('opening_parenthesis', '(', '['),
    ('formal', 'X', 'null'),
    ('colon', ':', ';'),
    ('in', 'in', 'on'),
    ('out', 'out', 'access'),
    ('type', 'Integer', 'Count'),
    ('closing_parenthesis', ')', ';'),
    (None, '\n--#', None),
    ('derives', 'derives', 'depends'),
    ('export', 'X', '*'),
    ('from', 'from', 'form'),
    ('import', 'X', '+'),
    ('semicolon_of_derives', ';', ':'),
    (None, '\n--#', None),
    ('pre', 'pre', 'assert'),
    ('left_of_the_relation', 'X', 'True'),
    ('relation', '<', ':='),
    ('prefix', 'Integer', 'X'),
    ('apostrophe', "'", '.'),
    ('designator', 'Last', 'Length'),
    ('semicolon_of_pre', ';', ','),
    (None, '\n', None),
    ('is', 'is', 'has'),
    (None, '\n', None),
    ('begin', 'begin', 'do'),
    (None, '\n', None),
    ('target', 'X', '1'),
    ('becomes', ':=', '='),
    ('left_operand', 'X', 'null'),
    ('operator', '+', '&'),
    ('right_operand', '1', '1.0'),
    ('semicolon_of_the_statement', ';', ':'),
    (None, '\n', None),
    ('end', 'end', 'begin'),
    ('end_name', 'Inc', 'Dec'),
    ('last_semicolon', ';', '.'),
)



def plain(text):
    """The tokens of a text, which have no label."""
    return tuple((None, token, None) for token in text.split(' '))


# A text with locals, `null`, signs and parentheses.
LOCAL_TOKENS = (
    *plain('procedure Neg ( A : Integer ; X : out Integer ) \n--# derives X from A ; \n--# pre'),
    ('parenthesis_in_pre', '(', '['),
    ('sign_in_pre', '-', '*'),
    ('operand_in_pre', 'A', 'null'),
    ('closing_parenthesis_in_pre', ')', ']'),
    *plain('< 5 ; \n is \n'),
    ('local', 'T', '1'),
    ('comma_of_locals', ',', ';'),
    ('second_local', 'U', 'null'),
    ('colon_of_locals', ':', ':='),
    ('type_of_locals', 'Integer', 'in'),
    ('semicolon_of_locals', ';', ','),
    *plain('\n begin \n'),
    ('null', 'null', 'return'),
    ('semicolon_of_null', ';', ':'),
    *plain('\n T :='),
    ('sign', '-', '*'),
    ('parenthesis', '(', '['),
    ('held_operand', 'A', 'null'),
    ('parenthesis_that_closes', ')', ']'),
    *plain('; \n X :='),
    ('parenthesis_of_a_sum', '(', '<'),
    ('first_held_operand', 'T', '='),
    ('held_operator', '+', '|'),
    ('last_held_operand', '1', 'or'),
    ('parenthesis_that_closes_a_sum', ')', '..'),
    ('operator_behind_parentheses', '-', '&'),
    *plain('1 ; \n end Neg ;'),
)

# A text of the grammar with an attribute in each place of a name, which breaks the rules on names.
ATTRIBUTE_TOKENS = (
    *plain('procedure Att ( A : in Integer'),
    ('apostrophe_of_a_type', "'", ','),
    ('designator_of_a_type', 'Base', 'range'),
    *plain('; X : out Integer ) \n--# derives X'),
    ('apostrophe_of_an_export', "'", '<->'),
    ('designator_of_an_export', 'First', 'own'),
    *plain('from A'),
    ('apostrophe_of_an_import', "'", '->'),
    ('designator_of_an_import', 'Last', 'all'),
    *plain(', X'),
    ('apostrophe_of_a_second_import', "'", ':'),
    ('designator_of_a_second_import', 'First', 'some'),
    *plain('; \n is \n T : Integer'),
    ('apostrophe_of_a_type_of_locals', "'", '+'),
    ('designator_of_a_type_of_locals', 'Base', '1'),
    *plain('; \n begin \n X'),
    ('apostrophe_of_a_target', "'", ';'),
    ('designator_of_a_target', 'First', 'access'),
    *plain(':= A ; \n end ;'),
)

# A text without formals.
SKIP_TOKENS = (
    ('procedure_without_formals', 'procedure', 'package'),
    ('name_without_formals', 'Skip', '1'),
    ('is_without_formals', 'is', 'return'),
    ('begin_without_formals', 'begin', 'do'),
    ('null_without_formals', 'null', 'exit'),
    ('semicolon_of_null_without_formals', ';', ','),
    ('end_without_formals', 'end', 'begin'),
    ('last_semicolon_without_formals', ';', '.'),
)

# A text with an `if` that has all its parts.
IF_TOKENS = (
    *plain('procedure Lim ( A : in Integer ; X : in out Integer ) \n--# derives X from X , A ; \n is \n begin \n'),
    ('if', 'if', 'goto'),
    ('left_of_a_condition', 'A', 'null'),
    ('relation_of_a_condition', '<', ':='),
    ('right_of_a_condition', '0', 'or'),
    ('then', 'then', 'is'),
    ('target_in_an_arm', 'X', '1'),
    ('becomes_in_an_arm', ':=', '='),
    ('value_in_an_arm', '0', 'then'),
    ('semicolon_in_an_arm', ';', ','),
    ('elsif', 'elsif', 'when'),
    ('left_of_a_second_condition', 'A', 'if'),
    ('relation_of_a_second_condition', '>', '=>'),
    ('right_of_a_second_condition', '100', 'elsif'),
    ('second_then', 'then', ';'),
    ('target_in_a_second_arm', 'X', 'end'),
    ('becomes_in_a_second_arm', ':=', ':'),
    ('value_in_a_second_arm', '100', 'else'),
    ('semicolon_in_a_second_arm', ';', 'then'),
    ('else', 'else', 'or'),
    ('target_after_else', 'X', 'elsif'),
    ('becomes_after_else', ':=', '<='),
    ('value_after_else', 'X', 'end'),
    ('semicolon_after_else', ';', 'end'),
    ('end_of_an_if', 'end', 'begin'),
    ('if_after_end', 'if', 'loop'),
    ('semicolon_of_an_if', ';', '.'),
    *plain('\n end Lim ;'),
)

# A text with declarations of types, subtypes and constants.
DECLARED_TOKENS = (
    *plain('procedure Dcl ( X : out Integer ) \n--# derives X from ; \n is \n'),
    ('word_type', 'type', 'new'),
    ('declared_type', 'Small', '1'),
    ('is_of_a_type', 'is', ':'),
    ('range_of_a_type', 'range', 'delta'),
    ('low_bound', '0', 'others'),
    ('dots', '..', ':'),
    ('high_bound', '9', 'null'),
    ('semicolon_of_a_type', ';', ','),
    *plain('\n type Hue is'),
    ('parenthesis_of_literals', '(', '<'),
    ('literal', 'Red', '1'),
    ('comma_of_literals', ',', ';'),
    ('second_literal', 'Green', 'all'),
    ('parenthesis_after_literals', ')', '..'),
    ('semicolon_of_literals', ';', ':'),
    *plain('\n'),
    ('word_subtype', 'subtype', 'body'),
    ('declared_subtype', 'Low', '2'),
    ('is_of_a_subtype', 'is', 'of'),
    ('parent', 'Small', '('),
    ('range_of_a_subtype', 'range', 'in'),
    ('low_bound_of_a_subtype', '0', 'and'),
    ('dots_of_a_subtype', '..', ','),
    ('high_bound_of_a_subtype', '5', ')'),
    ('semicolon_of_a_subtype', ';', '.'),
    *plain('\n'),
    ('constant', 'Top', '9'),
    ('colon_of_a_constant', ':', ';'),
    ('word_constant', 'constant', 'in'),
    ('type_of_a_constant', 'Small', '+'),
    ('becomes_of_a_constant', ':=', '='),
    ('value_of_a_constant', '9', 'is'),
    ('semicolon_of_a_constant', ';', ','),
    *plain('\n'),
    ('named_number', 'Two', '1'),
    ('comma_of_named_numbers', ',', ';'),
    ('second_named_number', 'Three', 'or'),
    *plain(':'),
    ('word_constant_of_numbers', 'constant', 'array'),
    ('becomes_of_named_numbers', ':=', ':'),
    *plain('2 ; \n begin \n X := Two ; \n end Dcl ;'),
)

# A text with an array type.
ARRAY_TOKENS = (
    *plain('procedure Arr ( X : out Integer ) \n--# derives X from ; \n is \n type Row is'),
    ('word_array', 'array', 'access'),
    ('parenthesis_of_an_index', '(', '<'),
    ('index', 'Boolean', '1'),
    ('parenthesis_after_an_index', ')', ','),
    ('of_an_array', 'of', 'in'),
    ('element', 'Integer', 'array'),
    ('semicolon_of_an_array', ';', ':='),
    *plain('\n begin \n X := 1 ; \n end Arr ;'),
)

# A text with a record type.
RECORD_TOKENS = (
    *plain('procedure Rec ( X : out Integer ) \n--# derives X from ; \n is \n type Pair is'),
    ('word_record', 'record', 'tagged'),
    ('field', 'P', '1'),
    ('comma_of_fields', ',', ';'),
    ('second_field', 'Q', 'null'),
    ('colon_of_fields', ':', ':='),
    ('type_of_fields', 'Integer', 'constant'),
    ('semicolon_of_fields', ';', ','),
    ('later_field', 'R', 'case'),
    ('colon_of_a_later_field', ':', ';'),
    ('type_of_a_later_field', 'Boolean', 'array'),
    ('semicolon_of_a_later_field', ';', ':='),
    ('end_of_a_record', 'end', 'begin'),
    ('record_after_end', 'record', 'Pair'),
    ('semicolon_of_a_record', ';', ','),
    *plain('\n begin \n X := 1 ; \n end Rec ;'),
)

# A text with a `case` and a conversion.
CASE_TOKENS = (
    *plain('procedure Cas ( A : in Integer ; X : out Integer ) \n--# derives X from A ; \n is \n begin \n'),
    ('case', 'case', 'goto'),
    ('selector', 'A', 'when'),
    ('is_of_a_case', 'is', ':='),
    *plain('\n'),
    ('when', 'when', 'if'),
    ('choice', '1', 'is'),
    ('bar', '|', ','),
    ('low_choice', '3', '='),
    ('dots_of_a_choice', '..', ':'),
    ('high_choice', '5', 'others'),
    ('arrow', '=>', ':='),
    *plain('X := 1 ; \n'),
    ('second_when', 'when', 'else'),
    ('others', 'others', 'null'),
    ('second_arrow', '=>', ';'),
    *plain('X := Integer'),
    ('parenthesis_of_a_conversion', '(', '['),
    ('operand_of_a_conversion', 'A', ')'),
    ('parenthesis_that_closes_a_conversion', ')', '..'),
    *plain('; \n'),
    ('end_of_a_case', 'end', 'begin'),
    ('case_at_the_end', 'case', 'if'),
    ('semicolon_of_a_case', ';', ':'),
    *plain('\n end Cas ;'),
)

# A text with a `while`.
LOOP_TOKENS = (
    *plain('procedure Cnt ( X : in out Integer ) \n--# derives X from X ; \n is \n begin \n'),
    ('while', 'while', 'when'),
    ('left_of_a_loop_condition', 'X', 'loop'),
    ('relation_of_a_loop_condition', '>', ':='),
    ('right_of_a_loop_condition', '0', ';'),
    ('loop', 'loop', 'then'),
    ('target_in_a_loop', 'X', 'end'),
    ('becomes_in_a_loop', ':=', '='),
    ('value_in_a_loop', '0', 'loop'),
    ('semicolon_in_a_loop', ';', ','),
    ('end_of_a_loop', 'end', 'begin'),
    ('loop_after_end', 'loop', 'while'),
    ('semicolon_of_a_loop', ';', '.'),
    *plain('\n end Cnt ;'),
)

# A text with a `for`.
COUNT_TOKENS = (
    *plain('procedure Cnt ( X : in out Integer ) \n--# derives X from X ; \n is \n begin \n'),
    ('word_for', 'for', 'when'),
    ('loop_parameter', 'I', '1'),
    ('in_after_a_loop_parameter', 'in', 'is'),
    ('reverse', 'reverse', 'range'),
    ('type_of_a_loop_parameter', 'Integer', 'loop'),
    ('range_of_a_loop', 'range', 'of'),
    ('low_bound_of_a_loop', '1', '..'),
    ('dots_of_a_loop', '..', ','),
    ('high_bound_of_a_loop', '5', ')'),
    ('loop_after_bounds', 'loop', 'then'),
    ('target_after_bounds', 'X', 'end'),
    *plain(':= I ; end loop ; \n end Cnt ;'),
)

TOKEN_LISTS = (TOKENS, LOCAL_TOKENS, ATTRIBUTE_TOKENS, SKIP_TOKENS, IF_TOKENS, DECLARED_TOKENS, ARRAY_TOKENS, RECORD_TOKENS, CASE_TOKENS, LOOP_TOKENS,
               COUNT_TOKENS)

# What a text is without a token: which token after it is unexpected, if not the next one; or a finding, and the token
# at which it is; or that it is accepted.
# The name after `end`, and the one after `begin`, are a target and a local where the word is missing.
MISSING = {'in': ('U8', 'import'), 'out': ('U8', 'export'), 'import': ('U8', 'export'),
           'left_operand': ('F2 unused: X from X', 'export'), 'end_name': accepted,
           'begin': 2, 'end': 2, 'parenthesis_in_pre': 3, 'closing_parenthesis_in_pre': 3, 'parenthesis': 2,
           'parenthesis_of_a_sum': 4, 'parenthesis_that_closes_a_sum': 3,
           # the condition begins as a target does; two statements in a row; another `if`
           'if': 2, 'elsif': 2, 'else': lambda name, text: accepted(name, text, 3, named='Lim'), 'end_of_an_if': 2,
           # a name and `is`; a named number
           'word_type': 2, 'word_subtype': 2,
           # a literal in parentheses, and `of`
           'word_array': 4,
           # a variable with a value
           'word_constant': lambda name, text: accepted(name, text, 1, named='Dcl'),
           # a target and `is`; a `case` and `;`
           'case': 2, 'end_of_a_case': 2,
           # the condition begins as a target does; a loop in the loop
           'while': 2, 'word_for': 2, 'end_of_a_loop': 2,
           # the values from the first on
           'reverse': lambda name, text: accepted(name, text, 2, named='Cnt'),
           'type_of_a_constant': lambda name, text: accepted(name, text, 1, named='Dcl'),
           # see `missing_signs`
           'sign': None, 'sign_in_pre': None, 'first_held_operand': None}
# What a text is with a token doubled: which token after the second one is unexpected, if not that one.
DOUBLED = {'parenthesis_in_pre': 6, 'parenthesis': 3, 'parenthesis_of_a_sum': 7,
           'parenthesis_of_a_conversion': 3,
           # a loop in the loop: the name is where the end of the outer one would go on
           'loop': 9, 'loop_after_bounds': 9}
# What a text is with another token instead: which token after it is unexpected, if not itself; or a finding, and the
# token at which it is. `on` is the type where `in` was, and another parameter may come after `;`.
EXCHANGED = {'type': ('N1', 'type'), 'left_of_the_relation': ('N10', 'relation'), 'prefix': ('N3', 'prefix'), 'apostrophe': ('N3', 'prefix'),
             'designator': ('N3', 'prefix'), 'end_name': ('N5', 'end_name'), 'in': 1, 'closing_parenthesis': 1,
           'null_without_formals': ('U4', 'null_without_formals')}
SPOILED = {'opening_parenthesis': bad_byte, 'parenthesis_of_a_conversion': bad_byte, 'parenthesis': bad_byte, 'parenthesis_that_closes': bad_byte,
           'right_operand': bad_number}


def spelled(tokens):
    """The text of tokens, with a space between two of a line, and no empty line."""
    lines = ' '.join(token for _, token, _ in tokens).split('\n')
    return ''.join(line.strip(' ') + '\n' for line in lines if line.strip(' '))


def with_tokens(tokens, at, *instead, shown=0):
    """The text with these tokens in the place of one; an `@` shows the token that comes so many after them."""
    after = list(tokens[at + 1:])
    if shown:
        places = [place for place, (_, token, _) in enumerate(after) if not token.startswith('\n')]
        if shown > len(places):
            return with_tokens(tokens, at, *instead) + '@'
        label, token, other = after[places[shown - 1]]
        after[places[shown - 1]] = (label, '@' + token, other)
    return spelled(tokens[:at] + tuple((None, token, None) for token in instead) + tuple(after))


def at_token(tokens, label):
    """The tokens with an `@` at the one of this label."""
    return tuple((name, '@' + token if name == label else token, other) for name, token, other in tokens)


def form():
    """The form and its options."""
    yield accepted('inc.adb', INC)
    yield unproved('without_precondition.adb', procedure('X @+ 1'), at=(5, 11))
    yield accepted('decrement.adb', procedure('X - 1', pre=ABOVE))
    yield unproved('decrement_without_precondition.adb', procedure('X @- 1'), at=(5, 11))
    yield accepted('no_end_name.adb', procedure(pre=BELOW, end=None))
    yield accepted('mode_out_literal.adb', procedure('5', **OUT), 1)
    yield accepted('mode_out_from_alone.adb', procedure('5', mode='out', derives='X from'), 1)
    yield accepted('mode_out_first.adb', procedure(FIRST, **OUT), 1)
    yield accepted('mode_out_last.adb', procedure(LAST, **OUT), 1)
    yield accepted('mode_out_static_sum.adb', procedure('1 + 2', **OUT), 1)
    yield accepted('mode_out_static_difference.adb', procedure(LAST + ' - 1', **OUT), 1)
    yield accepted('mode_out_precondition_without_variables.adb', procedure('5', pre='0 < 1', **OUT), 1)
    yield refused('mode_in.adb', procedure(mode='in', derives='@X from X', pre=BELOW), 'U8')
    yield refused('mode_unwritten.adb', procedure(mode='', derives='@X from X', pre=BELOW), 'U8')
    yield unexpected('mode_out_in.adb', procedure(mode='out in', pre=BELOW), at=(1, 24))
    yield unexpected('mode_access.adb', procedure(mode='access', pre=BELOW), at=(1, 20))
    yield accepted('copy_of_itself.adb', COPY, 1)
    yield accepted('literal_operand_first.adb', procedure('1 + X', pre=BELOW))
    yield unproved('literal_operand_first_without_precondition.adb', procedure('1 @+ X'), at=(5, 11))
    yield accepted('two_formals.adb', procedure('A', derives='A from A & B from B', **AB), 1)
    yield accepted('two_formals_sum.adb', procedure('A + B', derives='A from A, B & B from B', pre='B = 0', **AB))
    yield unproved('two_formals_sum_without_precondition.adb',
                   procedure('A @+ B', derives='A from A, B & B from B', **AB))
    yield unproved('two_formals_difference.adb',
                   procedure('B @- A', formals='A, B', target='B', derives='A from A & B from A, B'))
    yield accepted('three_formals.adb',
                   procedure('C + 1', formals='A, B, C', target='C', derives='A, B, C from *', pre='C < 0'))
    yield unproved('three_formals_precondition_on_another.adb',
                   procedure('C @+ 1', formals='A, B, C', target='C', derives='A, B, C from *', pre='B < 0'))
    yield accepted('star.adb', procedure(derives='X from *', pre=BELOW))
    yield accepted('star_for_two_exports.adb', procedure('A', derives='A, B from *', **AB), 1)
    yield accepted('star_and_another.adb', procedure('B + A', derives='A from *, B & B from *', pre='A = 0', **AB))
    yield accepted('star_in_the_second_item.adb',
                   procedure('A + B', derives='A from B, A & B from *', pre='0 = B', **AB))
    yield accepted('three_items.adb',
                   procedure('C - A', formals='A, B, C', target='C', derives='A from * & B from B & C from C, A',
                             pre='A = 0'))
    yield accepted('items_in_another_order.adb', procedure('A', derives='B from B & A from A', **AB), 1)
    yield accepted('two_items_of_one_import.adb',
                   procedure('A + B', derives='B from B & A from B, A', pre='B = 0', **AB))
    yield accepted('formal_named_as_the_procedure.adb', procedure('X + 1', pre=BELOW, name='X', end='X'), named='X')
    yield accepted('formal_named_as_the_procedure_in_another_case.adb',
                   procedure('x + 1', pre='x < 0', name='X', formals='x', derives='x from x', target='x', end='X'),
                   named='X')
    yield accepted('formal_named_last.adb',
                   procedure("Last + 1", pre="Last < Integer'Last", formals='Last', derives='Last from Last',
                             target='Last'))
    yield accepted('procedure_named_first.adb',
                   procedure(pre="Integer'First < 0", value='X - 0', name='First', end='First'), named='First')
    yield accepted('procedure_named_as_an_attribute_of_none.adb',
                   procedure('X', name='Size', end='Size'), 1, named='Size')
    yield accepted('long_name.adb', procedure('X', name='N' * 300, end='n' * 300), 1, named='N' * 300)
    yield accepted('name_of_letters_digits_and_underscores.adb',
                   procedure('A1_b2_3C', formals='A1_b2_3C', derives='a1_B2_3c from A1_b2_3C', target='a1_b2_3c',
                             name='P_0', end='p_0'), 1, named='P_0')
    yield accepted('one_letter_names.adb',
                   procedure('b', formals='b', derives='b from b', target='b', name='a', end='a'), 1, named='a')


def relations():
    """Relational operators, in both orders."""
    yield accepted('less.adb', procedure(pre="X < 2147483647"))
    yield accepted('less_mirrored.adb', procedure('X - 1', pre="Integer'First < X"))
    yield unproved('less_wrong_side.adb', procedure('X @- 1', pre=BELOW))
    yield accepted('less_or_equal.adb', procedure(pre='X <= 2147483646'))
    yield accepted('less_or_equal_mirrored.adb', procedure('X - 1', pre='0 <= X'))
    yield unproved('less_or_equal_last.adb', procedure('X @+ 1', pre='X <= ' + LAST))
    yield accepted('greater.adb', procedure('X - 1', pre=ABOVE))
    yield accepted('greater_mirrored.adb', procedure(pre=LAST + ' > X'))
    yield unproved('greater_wrong_side.adb', procedure('X @+ 1', pre=ABOVE))
    yield accepted('greater_or_equal.adb', procedure('X - 1', pre='X >= 0'))
    yield accepted('greater_or_equal_mirrored.adb', procedure(pre='2147483646 >= X'))
    yield unproved('greater_or_equal_first.adb', procedure('X @- 1', pre='X >= ' + FIRST))
    yield accepted('equal.adb', procedure(pre='X = 5'))
    yield accepted('equal_mirrored.adb', procedure(pre='5 = X'))
    yield accepted('equal_closes_a_sum_of_one_variable.adb', procedure('X + X', pre='X = 1073741823'))
    yield unproved('equal_last.adb', procedure('X @+ 1', pre='X = ' + LAST))
    yield unproved('equal_first.adb', procedure('X @- 1', pre=FIRST + ' = X'))
    yield unproved('not_equal_sets_no_bound.adb', procedure('X @+ 1', pre='X /= ' + LAST))
    yield unproved('not_equal_mirrored_sets_no_bound.adb', procedure('X @- 1', pre=FIRST + ' /= X'))
    yield unproved('less_than_a_variable_sets_no_bound.adb',
                   procedure('A @+ 1', pre='A < B', derives='A, B from *', **AB))
    yield unproved('equal_variables_set_no_bound.adb',
                   procedure('A @- B', pre='A = B', derives='A from A, B & B from *', **AB))


def simplifier():
    """What the simplifier knows, and what it does not."""
    yield accepted('plus_zero.adb', procedure('X + 0'))
    yield accepted('zero_plus.adb', procedure('0 + X'))
    yield accepted('minus_zero.adb', procedure('X - 0'))
    yield unproved('zero_minus.adb', procedure('0 @- X'))
    yield accepted('zero_minus_with_precondition.adb', procedure('0 - X', pre=ABOVE))
    yield unproved('variable_minus_itself.adb', procedure('X @- X'))
    yield accepted('variable_minus_itself_with_precondition.adb', procedure('X - X', pre='X >= 0'))
    yield unproved('double.adb', procedure('X @+ X', pre='X >= 0'))
    yield accepted('double_of_first_half.adb', procedure('X + X', pre='X = 0'))
    yield accepted('plus_two_at_its_bound.adb', procedure('X + 2', pre='X < 2147483646'))
    yield unproved('plus_two_past_its_bound.adb', procedure('X @+ 2', pre='X < 2147483647'))
    yield accepted('plus_last_at_its_bound.adb', procedure('X + 2147483647', pre='X < 1'))
    yield unproved('plus_last_past_its_bound.adb', procedure('X @+ 2147483647', pre='X <= 1'))
    yield accepted('minus_last_at_its_bound.adb', procedure('X - 2147483647', pre='X >= 0'))
    yield unproved('minus_last_without_bound.adb', procedure('X @- 2147483647'))
    yield accepted('minus_attribute_last.adb', procedure('X - ' + LAST, pre='X > 0'))
    yield accepted('plus_attribute_first.adb', procedure('X + ' + FIRST, pre='X >= 0'))
    yield unproved('plus_attribute_first_without_bound.adb', procedure('X @+ ' + FIRST))
    yield accepted('minus_attribute_first_at_its_bound.adb', procedure('X - ' + FIRST, pre='X < 0'))
    yield unproved('minus_attribute_first_past_its_bound.adb', procedure('X @- ' + FIRST, pre='X <= 0'))
    yield accepted('last_minus.adb', procedure(LAST + ' - X', pre='X >= 0'))
    yield accepted('first_minus.adb', procedure(FIRST + ' - X', pre='X <= 0'))
    yield unproved('first_minus_past_its_bound.adb', procedure(FIRST + ' @- X', pre='X >= 0'))
    yield accepted('last_plus.adb', procedure(LAST + ' + X', pre='X <= 0'))
    yield accepted('first_plus.adb', procedure(FIRST + ' + X', pre='0 <= X'))
    yield unproved('five_minus.adb', procedure('5 @- X'))
    yield accepted('five_minus_with_precondition.adb', procedure('5 - X', pre='X > 0'))
    yield unproved('a_true_precondition_does_not_help.adb', procedure('X @+ 1', pre='1 = 1'))
    yield unproved('a_comparison_with_itself_does_not_help.adb', procedure('X @+ 1', pre='X = X'))
    yield unproved('less_or_equal_itself_does_not_help.adb', procedure('X @+ 1', pre='X <= X'))
    yield unproved('greater_or_equal_itself_does_not_help.adb', procedure('X @+ 1', pre='X >= X'))
    yield accepted('less_than_itself_is_false.adb', procedure(pre='X < X'))
    yield accepted('greater_than_itself_is_false.adb', procedure(pre='X > x'))
    yield accepted('not_equal_itself_is_false.adb', procedure(pre='X /= X'))
    yield accepted('false_less.adb', procedure(pre='2 < 1'))
    yield accepted('false_less_or_equal.adb', procedure(pre='2 <= 1'))
    yield accepted('false_greater.adb', procedure(pre='1 > 1'))
    yield accepted('false_greater_or_equal.adb', procedure(pre='1 >= 2'))
    yield accepted('false_equal.adb', procedure(pre=FIRST + ' = ' + LAST))
    yield accepted('false_not_equal.adb', procedure(pre='1 /= 01'))
    yield unproved('true_less.adb', procedure('X @+ 1', pre='1 < 2'))
    yield accepted('false_less_of_equals.adb', procedure(pre='1 < 1'))
    yield unproved('true_less_or_equal.adb', procedure('X @+ 1', pre='1 <= 1'))
    yield unproved('true_greater.adb', procedure('X @+ 1', pre='2 > 1'))
    yield unproved('true_not_equal.adb', procedure('X @+ 1', pre='1 /= 2'))
    yield unproved('true_greater_or_equal.adb', procedure('X @+ 1', pre='1 >= 1'))
    yield accepted('bounds_that_exclude_each_other.adb', procedure(pre='X < ' + FIRST))
    yield unproved('bounds_past_the_type.adb', procedure('X @+ 1', pre='X > ' + LAST))
    yield unproved('a_lower_bound_past_the_type.adb', procedure('X @- 1', pre='X < ' + FIRST))
    yield accepted('an_upper_bound_past_the_type.adb', procedure('X - 1', pre='X > ' + LAST))
    yield unproved('an_upper_end_is_one_too_high.adb',
                   procedure('A @+ B', pre='B = 1', derives='A from A, B & B from B', **AB))
    yield accepted('bound_of_the_right_operand.adb',
                   procedure('A - B', pre='B = 0', derives='A from A, B & B from B', **AB))
    yield accepted('copy_needs_a_range_check_alone.adb', procedure('X', pre='1 = 1'), 1)
    yield accepted('static_sum_has_no_overflow_check.adb', procedure('2147483646 + 1', **OUT), 1)


def numbers():
    """Numbers: their form, their width, and where a value must lie in a type."""
    yield accepted('leading_zeros.adb', procedure('X + 0001', pre='X < 0002147483647'))
    yield accepted('sixty_zeros.adb', procedure('X + ' + '0' * 60 + '1', pre=BELOW))
    yield accepted('largest_integer.adb', procedure('2147483647', **OUT), 1)
    yield refused('past_the_largest_integer.adb', procedure('@2147483648', **OUT), 'N12')
    yield accepted('smallest_integer_as_a_difference.adb', procedure('0 - 2147483648', **OUT), 1)
    yield refused('past_the_smallest_integer.adb', procedure('0 @- 2147483649', **OUT), 'N12')
    yield accepted('difference_of_wide_literals.adb', procedure('2147483648 - 1', **OUT), 1)
    yield refused('sum_past_the_largest_integer.adb', procedure('2147483647 @+ 1', **OUT), 'N12')
    yield refused('sum_of_last_and_one.adb', procedure(LAST + ' @+ 1', **OUT), 'N12')
    yield refused('difference_of_first_and_one.adb', procedure(FIRST + ' @- 1', **OUT), 'N12')
    yield accepted('last_and_zero.adb', procedure(LAST + ' + 0', **OUT), 1)
    yield accepted('first_and_last.adb', procedure(FIRST + ' + ' + LAST, **OUT), 1)
    yield refused('last_minus_first.adb', procedure(LAST + ' @- ' + FIRST, **OUT), 'N12')
    yield refused('wide_literal_beside_first.adb', procedure(FIRST + ' + @2147483648', **OUT), 'N12')
    yield refused('wide_literal_before_first.adb', procedure('@2147483648 + ' + FIRST, **OUT), 'N12')
    yield refused('wide_literal_beside_a_variable.adb', procedure('X + @2147483648', pre='X < 0'), 'N12')
    yield refused('wide_literal_before_a_variable.adb', procedure('@2147483648 - X', pre='X > 0'), 'N12')
    yield refused('wide_literal_in_a_comparison_with_a_variable.adb', procedure(pre='X < @2147483648'), 'N12')
    yield refused('wide_literal_in_a_comparison_with_last.adb', procedure(pre=LAST + ' < @2147483648'), 'N12')
    yield accepted('wide_literals_compared.adb', procedure('1', pre='2147483648 > 2147483647', **OUT), 1)
    yield accepted('wide_literals_compared_falsely.adb', procedure(pre='4294967296 < 1'))
    yield accepted('widest_literal.adb', procedure('1', pre=WIDEST + ' > 0', **OUT), 1)
    yield too_wide('past_the_widest_literal.adb', procedure('1', pre=TOO_WIDE + ' > 0', **OUT), at=(3, 9))
    yield too_wide('far_past_the_widest_literal.adb', procedure('1', pre='9' * 100 + ' > 0', **OUT), at=(3, 9))
    yield accepted('difference_of_the_widest_literals.adb', procedure(WIDEST + ' - ' + WIDEST[:-1] + '6', **OUT), 1)
    yield accepted('difference_of_equal_widest_literals.adb', procedure(WIDEST + ' - ' + WIDEST, **OUT), 1)
    yield too_wide('past_the_widest_literal_in_a_difference.adb',
                   procedure(TOO_WIDE + ' - ' + TOO_WIDE, **OUT), at=(5, 9))
    yield refused('sum_past_the_widest_literal.adb', procedure(WIDEST + ' @+ 1', **OUT), 'N12')
    yield refused('widest_literal_assigned.adb', procedure('@' + WIDEST, **OUT), 'N12')
    yield refused('widest_literal_in_a_comparison_with_a_variable.adb', procedure(pre='X < @' + WIDEST), 'N12')
    yield accepted('widest_literal_behind_zeros.adb', procedure('1', pre='000' + WIDEST + ' = ' + WIDEST, **OUT), 1)
    yield from forms_of_numbers()
    yield bad_number('number_with_a_fraction.adb', procedure('X + 1.5', pre='X < 0'), at=(6, 13))
    yield unexpected('number_with_a_point.adb', procedure('X + 1.', pre='X < 0'), at=(6, 14))
    yield bad_number('number_and_letter.adb', procedure('X + 12X', pre='X < 0'), at=(6, 13))
    yield bad_number('number_and_word.adb', procedure('X + 1end', pre='X < 0'), at=(6, 13))
    yield unexpected('number_and_two_points.adb', procedure('1..2', **OUT), at=(5, 10))
    yield bad_number('spoiled_number_in_a_precondition.adb', procedure(pre='X < 1__0'), at=(3, 13))
    yield bad_number('number_and_mark.adb',
                     'procedure Inc (X : in out Integer)\n--# derives X from X; pre X < 1--# 0\n--# ;\nis\nbegin\n'
                     '   X := X + 1#;\nend Inc;\n', at=(6, 13))
    yield accepted('number_before_a_comment.adb', procedure('X + 1-- one more\n   ', pre=BELOW))
    yield accepted('number_before_a_delimiter.adb', procedure('X+1', pre='0>X'))
    yield accepted('number_before_a_line_end.adb', procedure('X + 1\n', pre='X < 0\n--#'))
    yield unexpected('two_numbers.adb', procedure('1 2', **OUT), at=(5, 11))
    yield accepted('minus_sign.adb', procedure('-1', **OUT), 1)
    yield accepted('plus_sign.adb', procedure('+1', **OUT), 1)
    yield unexpected('minus_sign_behind_an_operator.adb', procedure('X + -1', pre=ABOVE), at=(6, 13))


def forms_of_numbers():
    """Underscores, bases and exponents: numbers that are equal, numbers at the ends of their range, and each way to spoil one."""
    for label, number in (('an_underscore', '1_000'), ('underscores', '1_0_0_0'), ('an_exponent', '1E3'), ('a_small_exponent', '1e3'),
                          ('a_signed_exponent', '1E+3'), ('an_exponent_with_zeros', '10E002'), ('an_exponent_with_an_underscore', '1000E0_0'),
                          ('underscores_and_exponent', '1_0E2'), ('base_two', '2#1111_101_000#'), ('base_three', '3#1101001#'),
                          ('base_eight', '8#1_750#'), ('base_ten', '10#1000#'), ('base_twelve', '12#6B4#'), ('base_sixteen', '16#3E8#'),
                          ('small_digits', '16#3e8#'), ('a_base_with_an_underscore', '1_6#3E8#'), ('a_base_with_zeros', '0016#3E8#'),
                          ('base_and_exponent', '16#3E_8#E0'), ('base_two_and_exponent', '2#1111101#E3'),
                          ('base_and_signed_exponent', '10#1#e+3')):
        yield accepted(f'number_with_{label}.adb', procedure(f'X + {number}', pre='X < 0'))
        yield accepted(f'number_with_{label}_is_a_thousand.adb', procedure('1', pre=f'{number} = 1000', **OUT), 1)
        yield refused(f'number_with_{label}_past_the_range.adb', procedure(f'2147482648 @+ {number}', **OUT), 'N12')
        yield accepted(f'number_with_{label}_within_the_range.adb', procedure(f'2147482647 + {number}', **OUT), 1)
    yield accepted('fifteen_sixteens.adb', procedure('1', pre='16#F#E1 = 240', **OUT), 1)
    yield accepted('zero_to_any_exponent.adb', procedure('0E99999999999999999999999999999999999999999', **OUT), 1)
    yield accepted('based_zero_to_any_exponent.adb', procedure('16#0_0#E999_999_999', **OUT), 1)
    # the greatest number of 127 bits in each base, and the next one
    for base, digits, after in (
            (2, '1' * 127, '1' + '0' * 127),
            (3, '101100201022001010121000102002120122110122221010202000122201220121120010200022001',
             '101100201022001010121000102002120122110122221010202000122201220121120010200022002'),
            (4, '1' + '3' * 63, '2' + '0' * 63),
            (5, '3013030220323124042102424341431241221233040112312340402', '3013030220323124042102424341431241221233040112312340403'),
            (6, '11324454543055553250455021551551121442554522203131', '11324454543055553250455021551551121442554522203132'),
            (7, '1406241064412313155000336513424310163013142501', '1406241064412313155000336513424310163013142502'),
            (8, '1' + '7' * 42, '2' + '0' * 42),
            (9, '11321261117012076573587122018656546120261', '11321261117012076573587122018656546120262'),
            (10, WIDEST, TOO_WIDE),
            (11, '555A8020989A11327710815513A946A188726', '555A8020989A11327710815513A946A188727'),
            (12, '2A695925806818735399A37A20A31B3534A7', '2A695925806818735399A37A20A31B3534A8'),
            (13, '2373464C8A3CB25BA2B7C6382B2963BB71A', '2373464C8A3CB25BA2B7C6382B2963BB71B'),
            (14, '27C22D5B9734A1517BB1DC612904A79D71', '27C22D5B9734A1517BB1DC612904A79D72'),
            (15, '3E2480B3404D8BB9BCA3084369BA3E187', '3E2480B3404D8BB9BCA3084369BA3E188'),
            (16, '7' + 'F' * 31, '8' + '0' * 31)):
        yield accepted(f'widest_literal_of_base_{base}.adb', procedure('1', pre=f'{base}#{digits}# = {WIDEST}', **OUT), 1)
        yield too_wide(f'past_the_widest_literal_of_base_{base}.adb', procedure(f'X + @{base}#{after}#', pre='X < 0'))
    yield accepted('widest_power_of_two.adb', procedure('1', pre='2#1#E126 > 1E37', **OUT), 1)
    yield accepted('widest_power_of_ten.adb', procedure('1', pre='1E38 > 2#1#E126', **OUT), 1)
    for label, number in (('two', '2#1#E127'), ('three', '3#1#E81'), ('ten', '1E39'), ('ten_from_two', '2E38'), ('sixteen', '16#1#E32'),
                          ('ten_far', '1E999999999999999999999999999999999999999'), ('two_far', '2#1#E4294967296')):
        yield too_wide(f'power_of_{label}_that_is_too_wide.adb', procedure(f'X + @{number}', pre='X < 0'))
    for label, number in (('two_underscores', '1__0'), ('a_trailing_underscore', '1_'), ('an_underscore_before_a_letter', '1_E3'),
                          ('an_empty_exponent', '1E'), ('a_negative_exponent', '1E-3'), ('a_sign_without_exponent', '1E+'),
                          ('an_underscore_in_front_of_an_exponent', '1E_3'), ('a_trailing_underscore_in_an_exponent', '1E3_'),
                          ('two_exponents', '1E3E3'), ('a_fraction_after_an_exponent', '1E3.5'), ('a_hash', '1#'), ('a_hash_at_its_end', '16#F'),
                          ('no_digits', '16##'), ('a_digit_past_its_base', '2#2#'), ('a_letter_past_its_base', '16#G#'), ('base_zero', '0#0#'),
                          ('base_one', '1#0#'), ('base_seventeen', '17#0#'), ('a_wide_base', '340282366920938463463374607431768211458#0#'),
                          ('two_underscores_in_its_digits', '16#F__F#'), ('an_underscore_before_its_digits', '16#_F#'),
                          ('an_underscore_after_its_digits', '16#F_#'), ('a_space_in_it', '16# F#'), ('a_digit_after_its_hash', '16#F#1'),
                          ('a_letter_after_its_hash', '16#F#F'), ('another_hash', '16#F##'), ('an_exponent_without_digits', '16#F#E'),
                          ('a_point_in_it', '16#F.F#'), ('a_fraction_after_it', '16#F#.5')):
        yield bad_number(f'number_with_{label}.adb', procedure(f'X + {number}', pre='X < 0'), at=(6, 13))
    yield bad_number('bad_number_past_the_widest_in_its_base.adb', procedure('X + @16#8' + '0' * 31 + '##', pre='X < 0'))
    yield unexpected('numbers_with_bases_in_a_row.adb', procedure('16#F# @16#F#', **OUT))
    yield bad_byte('underscore_before_a_number.adb', procedure('X + @_1', pre='X < 0'))
    yield bad_byte('hash_before_a_number.adb', procedure('X + @#1#', pre='X < 0'))


def places():
    """Where a text is stopped, or goes no further."""
    # the end of the text: after its last byte, and in the next line after a line end
    yield unexpected('end_behind_procedure.adb', 'procedure@')
    yield unexpected('end_behind_procedure_and_line_end.adb', 'procedure\n@')
    yield unexpected('end_behind_procedure_and_blanks.adb', 'procedure \t@')
    yield unexpected('end_behind_procedure_and_lines.adb', 'procedure\n\n \r\n  @')
    yield unexpected('end_behind_procedure_and_a_comment.adb', 'procedure -- Inc@')
    yield unexpected('end_behind_procedure_and_a_comment_line.adb', '\tprocedure\n-- Inc\n@')
    yield unexpected('end_behind_procedure_and_an_empty_mark.adb', 'procedure\n--#@')
    yield unexpected('end_behind_a_carriage_return.adb', 'procedure\r@')
    yield unexpected('end_behind_a_comment_of_two_bytes_a_letter.adb', 'procedure -- é@')
    for listed in TOKEN_LISTS:
        for place, (label, _, _) in enumerate(listed[:-1]):
            if label:
                yield unexpected(f'cut_behind_{label}.adb', ' '.join(token for _, token, _ in listed[:place + 1]) + '@')
    # what comes first
    yield unexpected('tabs_in_front.adb', INC.replace('   X :=', '\t\tX\t@='))
    yield unexpected('carriage_returns_in_front.adb', INC.replace('\n', '\r\n').replace('X +', 'X\r@&'))
    yield unexpected('lines_in_front.adb', '\n\v\n\f\n' + INC.replace('is\n', '@;\n'))
    yield bad_byte('bytes_in_front.adb', INC.replace('is\n', '-- é\nis -- é\n').replace('X +', 'X @é'))
    yield bad_number('tabs_before_a_number.adb', INC.replace(' + 1', '\t+\t@1__0'))
    yield too_wide('carriage_return_before_a_number.adb', INC.replace(' + 1', ' +\r\n\r@' + TOO_WIDE))
    # two breaches
    yield unexpected('first_of_two_tokens.adb', INC.replace('is\n', '@;\n').replace('end', 'begin'))
    yield bad_byte('bad_byte_behind_another_token.adb', INC.replace('is\n', ';\n') + '@?')
    yield bad_number('bad_number_behind_another_token.adb', INC.replace('procedure', 'function').replace('1', '@1E'))
    yield too_wide('too_wide_number_behind_another_token.adb', procedure(f'* @{TOO_WIDE}'))
    yield bad_byte('bad_byte_before_a_bad_number.adb', procedure('X @? 1__0'))
    yield bad_number('bad_number_before_a_bad_byte.adb', procedure('X + @1__0 ?'))
    yield bad_number('bad_number_before_one_that_is_too_wide.adb', procedure(f'@1__0 + {TOO_WIDE}'))
    yield too_wide('too_wide_number_before_a_bad_one.adb', procedure(f'@{TOO_WIDE} + 1__0'))
    yield bad_number('bad_number_that_is_too_wide.adb', procedure(f'X + @{TOO_WIDE}_'))
    yield too_wide('too_wide_number_behind_zeros.adb', procedure(f'X + @000{TOO_WIDE}'))
    yield bad_byte('bad_byte_behind_a_breach_of_a_rule.adb', procedure('Y') + '@"')
    yield unexpected('token_behind_a_breach_of_a_rule.adb', procedure('Y') + '@;')
    yield unexpected('token_behind_a_condition_that_is_left.adb', procedure('X + 1') + '@end;')
    # marks and reserved words
    yield unexpected('mark_behind_procedure.adb', 'procedure --# @Inc\n')
    yield unexpected('marked_colon.adb', INC.replace('(X :', '(X\n--# @:\n'))
    yield unexpected('marked_semicolon_of_a_statement.adb', INC.replace('1;', '1 --# @;\n'))
    yield unexpected('unmarked_import.adb', INC.replace('from X;', 'from\n@X\n--# ;'))
    yield unexpected('unmarked_relation.adb', procedure(pre='X\n@<\n--# 5'))
    yield unexpected('reserved_word_for_a_formal.adb', INC.replace('(X', '(@Type'))
    yield unexpected('reserved_word_for_a_second_formal.adb', INC.replace('(X', '(X, @Range'))
    yield unexpected('reserved_word_for_a_type.adb', procedure('X', type_mark='@Range'))
    yield unexpected('reserved_word_for_a_target.adb', procedure('X', target='@Entry'))
    yield unexpected('reserved_word_for_an_operand.adb', procedure('X + @Delta'))
    yield unexpected('annotation_word_for_an_export.adb', procedure('X', derives='X, @Some from X'))
    yield unexpected('annotation_word_for_an_operand.adb', procedure(pre='@Check < 0'))
    yield unexpected('annotation_word_for_a_prefix.adb', procedure(pre="0 < @Own'Last"))


def words():
    """Letters, names and reserved words."""
    yield bad_byte('two_underscores.adb',
                   procedure('X__1', formals='X__1', derives='X__1 from X__1', target='X__1'), at=(1, 17))
    yield bad_byte('trailing_underscore.adb',
                   procedure('X_', formals='X_', derives='X_ from X_', target='X_'), at=(1, 17))
    yield bad_byte('leading_underscore.adb',
                   procedure('_X', formals='_X', derives='_X from _X', target='_X'), at=(1, 16))
    yield bad_byte('underscore_alone.adb', procedure('_', formals='_', derives='_ from _', target='_'), at=(1, 16))
    yield bad_number('digit_before_letters.adb',
                     procedure('1X', formals='1X', derives='1X from 1X', target='1X'), at=(1, 16))
    yield unexpected('hyphen_in_a_name.adb', procedure('X', name='In-c', end='In-c'), at=(1, 11))
    yield unexpected('point_in_a_name.adb', procedure('X', name='P.Inc', end='P.Inc'), at=(1, 12))
    yield refused('selected_type.adb', procedure(type_mark='@Standard.Integer', pre=BELOW), 'N1')
    yield bad_byte('dollar_in_a_name.adb', procedure('X', name='In$c', end='In$c'), at=(1, 13))
    yield accepted('upper_case.adb', INC.upper(), named='INC')
    yield accepted('lower_case.adb', INC.lower(), named='inc')
    yield accepted('mixed_case.adb',
                   "pRoCeDuRe iNc (x : iN oUt iNTEGER)\n--# DeRiVeS X fRoM x;\n--# pRe x < INTEGER'lAsT;\nIs\nbEgIn\n"
                   '   X := x + 1;\neNd InC;\n', named='iNc')
    yield unproved('upper_case_condition.adb', procedure('X @+ 1').upper(), named='INC')
    yield accepted('attribute_first_in_lower_case.adb', procedure('X - 1', pre="X > integer'first"))
    yield accepted('attribute_first_in_upper_case.adb', procedure('X - 1', pre="X > INTEGER'FIRST"))
    yield accepted('attribute_last_in_mixed_case.adb', procedure(pre="X < InTeGeR'lAST"))
    yield accepted('end_name_in_another_case.adb', procedure(pre=BELOW, end='INC'))
    yield accepted('type_in_lower_case.adb', procedure(pre=BELOW, type_mark='integer'))
    yield accepted('formal_in_another_case.adb', procedure('x + 1', pre='x < 0', derives='x from X', target='x'))
    for word in RESERVED:
        yield unexpected(f'reserved_{word}.adb', short('@' + word.capitalize()))
    for word in ANNOTATION:
        shown = word.capitalize()
        yield accepted(f'procedure_named_{word}.adb', short(shown), 1, named=shown)
        yield unexpected(f'formal_named_{word}.adb', short('Inc', shown), at=(2, 13))
    for word in ('interface', 'overriding', 'synchronized', 'invariant', 'hide', 'accepted', 'ends', 'i', 'isis'):
        yield accepted(f'unreserved_{word}.adb', short('Inc', word), 1)


def layout():
    """Lines, separators and places."""
    yield accepted('few_lines.adb',
                   "procedure Inc (X : in out Integer) --# derives X from X; pre X < Integer'Last;\n"
                   'is begin X := X + 1; end Inc;\n')
    yield unproved('few_lines_condition.adb',
                   'procedure Inc (X : in out Integer) --# derives X from X;\nis begin X := X @+ 1; end Inc;\n',
                   at=(2, 17))
    yield accepted('tight.adb',
                   "procedure Inc(X:in out Integer)--#derives X from X;pre X<Integer'Last;\nis begin X:=X+1;end Inc;\n")
    yield unproved('tight_condition.adb',
                   'procedure Inc(X:in out Integer)--#derives X from*;\nis begin X:=X@-1;end Inc;\n', at=(2, 14))
    yield unexpected('one_line.adb',
                     'procedure Inc (X : in out Integer) --# derives X from X; is begin X := X; end Inc;\n', at=(1, 58))
    yield accepted('no_line_end_at_the_end.adb', INC[:-1])
    yield unproved('no_line_end_at_the_end_condition.adb', procedure('X @+ 1')[:-1])
    yield unexpected('no_last_semicolon_and_no_line_end.adb', INC[:-2], at=(7, 8))
    yield accepted('blank_lines.adb', INC.replace('\n', '\n\n\n'))
    yield unproved('blank_lines_condition.adb', '\n\n' + procedure('X @+ 1').replace('\n', '\n\n'), at=(11, 11))
    yield accepted('one_token_a_line.adb',
                   'procedure Inc ( X : in out Integer ) --#derives --#X --#from --#X --#; '
                   "--#pre --#X --#< --#Integer --#' --#Last --#; "
                   'is begin X := X + 1 ; end Inc ;\n'.replace(' ', '\n'))
    yield unproved('one_token_a_line_condition.adb',
                   'procedure Inc ( X : in out Integer ) --#derives --#X --#from --#X --#; '
                   'is begin X := X @+ 1 ; end Inc ;\n'.replace(' ', '\n'), at=(20, 1))
    yield accepted('tabs.adb', INC.replace(' ', '\t'))
    yield unproved('tab_is_one_column.adb', procedure('\tX\t@+\t1').replace('   X', '\tX'), at=(5, 10))
    yield accepted('carriage_returns.adb', INC.replace('\n', '\r\n'))
    yield unproved('carriage_returns_condition.adb', procedure('X @+ 1').replace('\n', '\r\n'), at=(5, 11))
    yield unproved('carriage_returns_are_columns.adb', procedure('X\r\r@+ 1'), at=(5, 12))
    yield unexpected('carriage_returns_alone.adb', INC.replace('\n', '\r'), at=(1, 117))
    yield accepted('vertical_tabs.adb', INC.replace(' ', '\v'))
    yield unproved('vertical_tabs_condition.adb', procedure('X\v@+ 1').replace('begin\n', 'begin\n\v\v'), at=(5, 13))
    yield accepted('form_feeds.adb', '\f' + INC.replace(' ', '\f') + '\f')
    yield unproved('form_feed_is_no_line.adb', '\f' + procedure('X @+\f1').replace('begin', 'begin\f'), at=(5, 11))
    yield unexpected('vertical_tab_ends_no_annotation.adb', INC.replace(';\nis', ';\vis'), at=(3, 27))
    yield unexpected('form_feed_ends_no_annotation.adb', INC.replace(';\nis', ';\fis'), at=(3, 27))
    yield accepted('separators_in_a_row.adb',
                   ' \t\v\f\r\n \r' + INC.replace(' ', ' \t \v\f\r ').replace('-- \t \v\f\r #', '--#') + '\t\r\n \v')
    yield unproved('operator_on_its_own_line.adb', procedure('X\n @+\n 1'), at=(6, 2))
    yield unproved('spaces_before_the_operator.adb', procedure('X' + ' ' * 200 + '@+ 1'), at=(5, 210))
    yield unproved('first_line_is_far_down.adb', '\n' * 120 + procedure('X @+ 1'), at=(125, 11))
    yield unexpected('words_run_together.adb', INC.replace('procedure Inc', 'procedureInc'), at=(1, 1))
    yield unexpected('is_and_begin_run_together.adb', INC.replace('is\nbegin', 'isbegin'), at=(4, 1))
    yield unexpected('in_and_out_run_together.adb', procedure(pre=BELOW, mode='inout'), at=(1, 26))
    yield unexpected('end_and_name_run_together.adb', INC.replace('end Inc', 'endInc'), at=(7, 7))
    yield unexpected('parts_of_becomes.adb', INC.replace(':=', ': ='), at=(6, 6))
    yield unexpected('parts_of_less_or_equal.adb', procedure(pre='X < = 0'), at=(3, 13))
    yield unexpected('parts_of_greater_or_equal.adb', procedure('X - 1', pre='X > = 0'), at=(3, 13))
    yield unexpected('parts_of_not_equal.adb', procedure('X', pre='X / = 0'), at=(3, 13))
    yield unexpected('equal_before_less.adb', procedure(pre='X =< 0'), at=(3, 12))
    yield unexpected('arrow.adb', procedure('X - 1', pre='X => 0'), at=(3, 11))
    yield unexpected('box.adb', procedure('X', pre='X <> 0'), at=(3, 11))
    yield accepted('spaces_around_the_apostrophe.adb', procedure(pre="X < Integer ' Last"))
    yield accepted('line_end_behind_the_apostrophe.adb', procedure("Integer'\nLast", **OUT), 1)
    yield accepted('name_in_a_folder/inc.adb', INC)
    yield unproved('name in words.adb', procedure('X @+ 1'))
    yield unproved('../name', procedure('X @+ 1'))
    yield Case('-x.adb', INC_BYTES, USAGE, 2)


def comments():
    """Comments."""
    yield accepted('comment_first.adb', '-- Adds one.\n' + INC)
    yield unproved('comment_first_condition.adb', '-- Adds one.\n--\n' + procedure('X @+ 1'), at=(7, 11))
    yield accepted('comment_last.adb', INC + '-- The end.\n')
    yield accepted('comment_last_without_line_end.adb', INC + '-- The end.')
    yield accepted('empty_comment_last_without_line_end.adb', INC + '--')
    yield accepted('comments_behind_each_line.adb', ''.join(line + ' -- note\n' for line in INC.splitlines()))
    yield accepted('comments_between_the_lines.adb', ''.join(line + '\n-- note\n' for line in INC.splitlines()))
    yield accepted('comment_between_the_words_of_a_heading.adb', INC.replace('Inc (', 'Inc -- a name\n   ('))
    yield accepted('comment_between_formals.adb',
                   procedure('A', formals='A, -- first\n   B', target='A', derives='A, B from *'), 1)
    yield accepted('comment_in_a_mode.adb', procedure(pre=BELOW, mode='in -- and\n out'))
    yield unproved('comment_before_the_operator.adb', procedure('X -- then\n      @+ 1'), at=(6, 7))
    yield accepted('comment_behind_begin.adb', INC.replace('begin', 'begin--'))
    yield accepted('comment_of_hyphens.adb', '----------------\n' + INC)
    yield accepted('comment_of_three_hyphens.adb', '---\n' + INC)
    yield accepted('comment_with_a_mark_behind_hyphens.adb', '---# derives Y from Z;\n' + INC)
    yield accepted('comment_with_a_mark_behind_four_hyphens.adb', '----# derives Y from Z;\n' + INC)
    yield accepted('comment_with_a_mark_inside.adb', '-- is --# derives Y from Z;\n' + INC)
    yield accepted('comment_with_program_text.adb',
                   INC + '-- procedure Dec (X : in out Integer) is begin X := X - 1; end Dec;\n')
    yield unexpected('comment_hides_the_semicolon.adb', procedure('X--1', pre=BELOW), at=(7, 1))
    yield unexpected('comment_hides_the_end.adb', INC.replace('end Inc;', '-- end Inc;'), at=(8, 1))
    yield accepted('comment_with_a_tab.adb', '--\tnote\twith tabs\n' + INC)
    yield accepted('comment_with_a_carriage_return.adb', '-- note\rprocedure\r\n' + INC)
    yield accepted('comment_with_vertical_tab_and_form_feed.adb', '-- note\vprocedure\fInc\n' + INC)
    yield accepted('comment_with_non_ascii.adb', '-- ä € 🙂\n' + INC)
    yield accepted('comment_with_latin_1.adb', b'-- caf\xe9 \xff\xfe\n' + INC_BYTES)
    yield accepted('comment_with_nul.adb', '-- \0 null\0\n' + INC)
    yield accepted('comment_with_control_bytes.adb', b'-- \x01\x08\x1a\x1b\x7f\x80\x9f\n' + INC_BYTES)
    yield accepted('comment_with_quotes.adb', '-- "a string\' -- \'\n' + INC)
    yield accepted('comment_with_bad_numbers.adb', '-- 1_000 16#F# 1.5 12X ' + '9' * 50 + '\n' + INC)
    yield accepted('comment_in_an_annotation.adb', INC.replace('X from X;', 'X from X; -- itself'))
    yield accepted('comment_in_an_annotation_with_a_mark.adb',
                   INC.replace('X from X;', 'X from X; --# derives Y from Z;'))
    yield accepted('comment_in_an_annotation_with_non_ascii.adb', INC.replace('X from X;', 'X from X; -- é\0'))
    yield accepted('comment_in_the_middle_of_an_annotation.adb',
                   INC.replace('X from X;', 'X -- the export\n--# from -- the import\n--# X;'))
    yield unexpected('comment_hides_the_end_of_an_annotation.adb', INC.replace('X from X;', 'X from X -- ;'), at=(3, 5))
    yield accepted('comment_alone_in_an_annotation_line.adb',
                   INC.replace('is\n', '--# -- what follows is the body\nis\n'))
    yield accepted('comment_right_behind_a_mark.adb', INC.replace('is\n', '--#-- derives Y from Z;\nis\n'))


def marks():
    """Heads of annotation text, and which tokens are marked."""
    yield accepted('mark_without_space.adb', INC.replace('--# ', '--#'))
    yield accepted('mark_and_tab.adb', INC.replace('--# ', '--#\t'))
    yield accepted('indented_marks.adb', INC.replace('--# ', '   \t--#   '))
    yield accepted('empty_marks.adb', ''.join('--#\n' + line + '\n' for line in INC.splitlines()) + '--#\n')
    yield accepted('empty_mark_at_the_end.adb', INC + '--#')
    yield accepted('empty_mark_behind_code.adb', INC.replace('begin\n', 'begin --#\n'))
    yield accepted('empty_mark_in_a_statement.adb', procedure('X --#\n + 1', pre=BELOW))
    yield unproved('empty_mark_in_a_statement_condition.adb', procedure('X --#\n @+ 1'), at=(6, 2))
    yield accepted('derives_on_the_line_of_the_heading.adb', INC.replace(')\n--#', ') --#'))
    yield accepted('derives_on_several_lines.adb', INC.replace('X from X;', '\n--# X\n--#\n--# from\n--# X\n--# ;'))
    yield accepted('derives_lines_with_blank_lines_between.adb',
                   INC.replace('X from X;', 'X\n\n   \n--# from\n\n--# X;'))
    yield accepted('derives_lines_with_comments_between.adb',
                   INC.replace('X from X;', 'X\n-- is derived\n--# from X;'))
    yield accepted('pre_on_several_lines.adb', procedure(pre="X\n--#    <\n--# Integer\n--#'\n--# Last"))
    yield accepted('pre_on_the_line_of_derives.adb', INC.replace(';\n--# pre', '; pre'))
    yield accepted('items_on_several_lines.adb',
                   procedure('A', derives='A\n--#    from * &\n--# B\n--#    from *', **AB), 1)
    yield unexpected('a_line_of_an_annotation_without_mark.adb', INC.replace('X from X;', 'X\n    from X;'), at=(3, 5))
    yield unexpected('unmarked_derives.adb', INC.replace('--# derives', 'derives'), at=(2, 1))
    yield unexpected('unmarked_pre.adb', INC.replace('--# pre', 'pre'), at=(3, 1))
    yield unexpected('unmarked_semicolon.adb', INC.replace('from X;', 'from X\n;'), at=(3, 1))
    yield refused('commented_derives.adb', '@' + INC.replace('--# derives', '-- derives'), 'U7')
    yield accepted('commented_pre.adb', procedure('X', pre='Y < 0').replace('--# pre', '-- pre'), 1)
    yield unproved('commented_pre_does_not_help.adb', procedure('X @+ 1', pre=BELOW).replace('--# pre', '-- pre'))
    yield refused('mark_with_a_space.adb', '@' + INC.replace('--# derives', '-- # derives'), 'U7')
    yield unproved('mark_with_a_space_before_pre.adb', procedure('X @+ 1', pre=BELOW).replace('--# pre', '-- # pre'))
    yield refused('mark_with_a_tab.adb', '@' + INC.replace('--# derives', '--\t# derives'), 'U7')
    yield bad_byte('mark_with_a_space_between_its_hyphens.adb', INC.replace('--# derives', '- -# derives'), at=(2, 4))
    yield bad_byte('mark_with_one_hyphen.adb', INC.replace('--# derives', '-# derives'), at=(2, 2))
    yield refused('mark_with_three_hyphens.adb', '@' + INC.replace('--# derives', '---# derives'), 'U7')
    yield bad_byte('mark_with_two_hashes.adb', INC.replace('--# derives', '--## derives'), at=(2, 4))
    yield refused('mark_twice.adb', '@' + INC.replace('--# derives', '--# --# derives'), 'U7')
    yield bad_byte('hash_alone.adb', INC.replace('--# derives', '# derives'), at=(2, 1))
    yield bad_byte('hash_behind_a_mark.adb', INC + '--# #\n', at=(8, 5))
    yield unexpected('is_in_the_line_of_an_annotation.adb', INC.replace(';\nis', '; is'), at=(3, 27))
    yield unexpected('marked_is.adb', INC.replace('\nis', '\n--# is'), at=(4, 5))
    yield unexpected('marked_begin.adb', INC.replace('\nbegin', '\n--# begin'), at=(5, 5))
    yield unexpected('marked_statement.adb', INC.replace('   X :=', '--# X :='), at=(6, 5))
    yield unexpected('marked_end.adb', INC.replace('end Inc', '--# end Inc'), at=(7, 5))
    yield unexpected('marked_end_name.adb', INC.replace('end Inc', 'end --# Inc\n'), at=(7, 9))
    yield unexpected('marked_heading.adb', '--# ' + INC, at=(1, 5))
    yield unexpected('marked_formal.adb', INC.replace('(X', '(\n--# X\n'), at=(2, 5))
    yield unexpected('marked_operand.adb', procedure('X + --# 1\n', pre=BELOW), at=(6, 17))
    yield unexpected('marked_last_semicolon.adb', INC.replace('Inc;\n', 'Inc --#;\n'), at=(7, 12))
    yield unexpected('mark_in_the_middle_of_code.adb', procedure('X --# + 1;\n', pre=BELOW), at=(6, 15))
    yield unexpected('derives_behind_is.adb',
                     'procedure Inc (X : in out Integer)\nis\n--# derives X from X;\nbegin\n   X := X;\nend Inc;\n',
                     at=(3, 5))
    yield unexpected('derives_behind_begin.adb',
                     'procedure Inc (X : in out Integer)\nis\nbegin\n--# derives X from X;\n   X := X;\nend Inc;\n',
                     at=(4, 5))
    yield unexpected('derives_behind_the_end.adb',
                     'procedure Inc (X : in out Integer)\nis\nbegin\n   X := X;\nend Inc;\n--# derives X from X;\n',
                     at=(6, 5))
    yield unexpected('derives_before_the_heading.adb',
                     '--# derives X from X;\nprocedure Inc (X : in out Integer)\nis\nbegin\n   X := X;\nend Inc;\n',
                     at=(1, 5))
    yield refused('no_derives.adb', '@procedure Inc (X : in out Integer)\nis\nbegin\n   X := X;\nend Inc;\n', 'U7')
    yield unexpected('derives_twice.adb', COPY.replace('is\n', '--# derives X from X;\nis\n'), at=(3, 5))
    yield unexpected('pre_before_derives.adb',
                     'procedure Inc (X : in out Integer)\n--# pre X < 0;\n--# derives X from X;\nis\nbegin\n'
                     '   X := X;\nend Inc;\n', at=(3, 5))
    yield refused('pre_without_derives.adb',
                  '@procedure Inc (X : in out Integer)\n--# pre X < 0;\nis\nbegin\n   X := X;\nend Inc;\n', 'U7')
    yield unexpected('pre_twice.adb', procedure('X', pre='X < 0').replace('is\n', '--# pre X < 0;\nis\n'), at=(4, 5))
    yield unexpected('pre_behind_is.adb', COPY.replace('is\n', 'is\n--# pre X < 0;\n'), at=(4, 5))
    yield unexpected('annotation_behind_the_end.adb', INC + '--# pre X < 0;\n', at=(8, 5))
    yield examined('post.adb', INC.replace('is\n', '--# @post X > 0;\nis\n'), ('Inc', 3, (3, 'post')))
    yield unexpected('global.adb', INC.replace('--# derives', '--# global X;\n--# derives'), at=(2, 5))
    yield examined('check_annotation.adb', INC.replace('begin\n', 'begin\n--# @check X > 0;\n'), ('Inc', 3, (1, 'check')))


def other_bytes():
    """Bytes that begin no lexeme."""
    for name, byte in OTHER_BYTES.items():
        yield bad_byte(f'{name}_before_the_text.adb', b'@' + byte + b'\n' + INC_BYTES)
        if name in ('nul', 'control_z', 'no_break_space'):
            yield bad_byte(f'{name}_in_an_annotation.adb', INC_BYTES.replace(b'X from', b'X@' + byte + b'from'))
            yield bad_byte(f'{name}_in_a_statement.adb', INC_BYTES.replace(b':= X +', b':= X@' + byte + b'+'))
            yield bad_byte(f'{name}_behind_the_text.adb', INC_BYTES + b'@' + byte)
    yield bad_byte('line_separator_for_a_line_end.adb', INC_BYTES.replace(b'\nis', '\u2028is'.encode()), at=(3, 26))
    yield bad_byte('latin_1_in_an_annotation.adb', INC_BYTES.replace(b'X from', b'X\xe9 from'), at=(2, 14))
    yield bad_byte('byte_order_mark.adb', b'\xef\xbb\xbf' + INC_BYTES, at=(1, 1))
    yield bad_byte('accent_in_a_name.adb', procedure('é', formals='é', derives='é from é', target='é'), at=(1, 16))
    yield bad_byte('full_width_digit.adb', procedure('X + １', pre='X < 0'), at=(6, 13))
    yield unexpected('character_literal.adb', procedure("'A'", **OUT), at=(5, 9))
    yield bad_byte('string_literal.adb', procedure('"A"', **OUT), at=(5, 9))


def tokens():
    """Each token of a text missing, doubled, and exchanged for another."""
    yield accepted('form.adb', spelled(TOKENS))
    yield accepted('form_with_locals.adb', spelled(LOCAL_TOKENS), 5, named='Neg')
    yield refused('form_with_attributes.adb', spelled(ATTRIBUTE_TOKENS).replace('in Integer', 'in @Integer'), 'N3')
    yield accepted('form_without_formals.adb', spelled(SKIP_TOKENS), 0, named='Skip')
    yield accepted('form_with_if.adb', spelled(IF_TOKENS), 3, named='Lim')
    yield accepted('form_with_declarations.adb', spelled(DECLARED_TOKENS), 1, named='Dcl')
    for listed in TOKEN_LISTS:
        for at, (label, token, other) in enumerate(listed):
            if label:
                yield from missing(listed, at, label)
                yield doubled(listed, at, label, token)
                yield exchanged(listed, at, label, other)


def missing(listed, at, label):
    """Without the token one after it is unexpected, if the text is not of the grammar still."""
    name, decided = f'missing_{label}.adb', MISSING.get(label, 1)
    if isinstance(decided, int):
        yield unexpected(name, with_tokens(listed, at, shown=decided))
    elif isinstance(decided, tuple):
        finding, shown = decided
        yield refused(name, with_tokens(at_token(listed, shown), at), finding)
    elif decided:
        yield decided(name, with_tokens(listed, at))


def doubled(listed, at, label, token):
    """The second token is unexpected, or one after it."""
    name = f'doubled_{label}.adb'
    if label in DOUBLED:
        return unexpected(name, with_tokens(listed, at, token, token, shown=DOUBLED[label]))
    return unexpected(name, with_tokens(listed, at, token, '@' + token))


def exchanged(listed, at, label, other):
    """Another token is unexpected where it is, if it is one and the text is not of the grammar still."""
    name, decided = f'exchanged_{label}.adb', EXCHANGED.get(label)
    if isinstance(decided, int):
        return unexpected(name, with_tokens(listed, at, other, shown=decided))
    if decided:
        finding, shown = decided
        instead = '@' + other if shown == label else other
        return refused(name, with_tokens(at_token(listed, shown), at, instead), finding)
    return SPOILED.get(label, unexpected)(name, with_tokens(listed, at, '@' + other))


def grammar():
    """Other breaches of the grammar, and texts near to them."""
    yield unexpected('text_behind_the_procedure.adb', INC + 'end\n', at=(8, 1))
    yield unexpected('semicolon_behind_the_procedure.adb', INC + ';\n', at=(8, 1))
    yield unexpected('context_clause.adb', 'with Ada.Text_IO;\n' + INC, at=(1, 1))
    yield unexpected('cut_off.adb', INC[:60], at=(3, 4))
    yield unexpected('cut_off_behind_end.adb', INC[:-5], at=(7, 5))
    yield unexpected('declaration_alone.adb',
                     'procedure Inc (X : in out Integer);\n--# derives X from X;\n', at=(1, 35))
    yield unexpected('function.adb',
                     'function Inc (X : Integer) return Integer\nis\nbegin\n   return X;\nend Inc;\n', at=(1, 1))
    yield refused('no_parameters.adb',
                  COPY.replace(' (X : in out Integer)', '').replace('derives X', 'derives @X'), 'N1')
    yield unexpected('empty_parentheses.adb', COPY.replace('(X : in out Integer)', '()'), at=(1, 16))
    yield unexpected('semicolon_behind_the_parameters.adb', procedure('X', type_mark='Integer;'), at=(1, 35))
    yield unexpected('comma_behind_the_formals.adb', procedure('X', formals='X,'), at=(1, 19))
    yield unexpected('formals_without_comma.adb',
                     procedure('A', formals='A B', target='A', derives='A, B from *'), at=(1, 18))
    yield unexpected('no_formals.adb', procedure('X', formals=''), at=(1, 17))
    yield unexpected('default_value.adb', procedure('X', type_mark='Integer := 0'), at=(1, 35))
    yield refused('type_with_attribute.adb', procedure('X', type_mark="@Integer'Base"), 'N3')
    yield unexpected('no_statement.adb', COPY.replace('   X := X;\n', ''), at=(5, 1))
    yield accepted('null_statement.adb', COPY.replace('X := X', 'null'), 0)
    yield unexpected('empty_statement.adb', COPY.replace('X := X;', ';'), at=(5, 4))
    yield unexpected('call.adb', COPY.replace('X := X', 'Inc (X)'), at=(5, 11))
    yield accepted('if_statement.adb', COPY.replace('X := X;', 'if X > 0 then X := X; end if;'), 1)
    yield accepted('local_variable.adb', COPY.replace('is\n', 'is\n   Y : Integer;\n'), 1)
    yield refused('attribute_for_a_target.adb', procedure('X', target="@Integer'Last"), 'N3')
    yield unexpected('two_targets.adb', procedure('A', formals='A, B', target='A, B', derives='A, B from *'), at=(5, 5))
    yield accepted('product.adb', procedure('X * 2', pre='X = 0'))
    yield examined('power.adb', procedure('X @** 2', pre='X = 0'), ('Inc', 3, 2))
    yield accepted('parentheses.adb', procedure('(X)'), 1)
    yield accepted('parentheses_around_a_number.adb', procedure('X + (1)', pre=BELOW))
    yield unexpected('no_expression.adb', procedure('', **OUT), at=(5, 9))
    yield refused('attribute_of_an_attribute.adb', procedure("@Integer'First'Last", **OUT), 'N3')
    yield unexpected('attribute_of_a_number.adb', procedure("1'First", **OUT), at=(5, 10))
    yield unexpected('reserved_word_for_an_attribute.adb', procedure("Integer'Range", **OUT), at=(5, 17))
    yield unexpected('apostrophe_alone.adb', procedure("Integer'", **OUT), at=(5, 17))
    yield accepted('pre_with_and.adb', procedure('X', pre='X < 5 and X > 0'), 1)
    yield refused('pre_with_not.adb', procedure('X', pre='@not X = 0'), 'N10')
    yield accepted('pre_with_implication.adb', procedure('X', pre='X = 0 -> X = 0'), 1)
    yield accepted('pre_in_parentheses.adb', procedure('X', pre='(X < 5)'), 1)
    yield accepted('pre_with_true.adb', procedure('X', pre='True'), 1)
    yield refused('pre_with_entry_value.adb', procedure('X', pre='@X~ = 0'), 'N18')
    yield unexpected('empty_pre.adb', procedure('X', pre=''), at=(3, 9))
    yield accepted('pre_with_minus_sign.adb', procedure('X - 1', pre='X > -5'))
    yield unexpected('derives_without_from.adb', procedure('X', derives='X'), at=(2, 14))
    yield unexpected('derives_without_export.adb', procedure('X', derives='from X'), at=(2, 13))
    yield unexpected('ampersand_at_the_end.adb', procedure('X', derives='X from X &'), at=(2, 23))
    yield unexpected('two_ampersands.adb', procedure('A', derives='A from A && B from B', **AB), at=(2, 23))
    yield unexpected('items_without_ampersand.adb', procedure('A', derives='A from A B from B', **AB), at=(2, 22))
    yield unexpected('items_with_a_comma.adb', procedure('A', derives='A from A, B from B', **AB), at=(2, 25))
    yield unexpected('and_for_ampersand.adb', procedure('A', derives='A from A and B from B', **AB), at=(2, 22))
    yield unexpected('comma_behind_the_imports.adb', procedure('X', derives='X from X,'), at=(2, 22))
    yield unexpected('comma_behind_the_exports.adb', procedure('X', derives='X, from X'), at=(2, 16))
    yield unexpected('comma_behind_the_star.adb', procedure('X', derives='X from *,'), at=(2, 22))
    yield unexpected('star_behind_an_import.adb', procedure('A', derives='A from B, * & B from *', **AB), at=(2, 23))
    yield unexpected('star_twice.adb', procedure('X', derives='X from *, *'), at=(2, 23))
    yield unexpected('star_doubled.adb', procedure('X', derives='X from **'), at=(2, 20))
    yield unexpected('star_without_comma.adb',
                     procedure('A + B', derives='A from * B & B from *', pre='B = 0', **AB), at=(2, 22))
    yield unexpected('number_for_an_import.adb', procedure('X', derives='X from 1'), at=(2, 20))
    yield refused('attribute_for_an_import.adb', procedure('X', derives="X from @Integer'First"), 'N3')
    yield unexpected('reserved_word_for_an_end_name.adb', procedure('X', end='procedure'), at=(6, 5))
    yield unexpected('two_end_names.adb', procedure('X', end='Inc Inc'), at=(6, 9))


def names():
    """What names denote."""
    yield refused('undeclared_target.adb', procedure('X', target='@Y'), 'N1')
    yield refused('undeclared_left_operand.adb', procedure('@Y + X', pre='X = 0'), 'N1')
    yield refused('undeclared_right_operand.adb', procedure('X + @Y', pre='X = 0'), 'N1')
    yield refused('undeclared_export.adb', procedure('X', derives='X, @Y from X'), 'N1')
    yield refused('undeclared_import.adb', procedure('X', derives='X from X, @Y'), 'N1')
    yield refused('undeclared_in_pre_left.adb', procedure('X', pre='@Y < 0'), 'N1')
    yield refused('undeclared_in_pre_right.adb', procedure('X', pre='0 < @Y'), 'N1')
    yield refused('undeclared_type.adb', procedure('X', type_mark='@Count'), 'N1')
    yield accepted('natural.adb', procedure('X', type_mark='Natural'), 1)
    yield refused('undeclared_prefix.adb', procedure('X', pre="X < @Count'Last"), 'N1')
    yield refused('true_for_an_integer.adb', procedure('@True', **OUT), 'N10')
    yield refused('formal_twice.adb', procedure('X', formals='X, @X'), 'N2')
    yield refused('formal_twice_in_two_cases.adb', procedure('X', formals='X, @x'), 'N2')
    yield refused('formal_twice_apart.adb',
                  procedure('A', formals='A, B, @a', target='A', derives='A, B from *'), 'N2')
    yield refused('integer_for_a_formal.adb',
                  procedure('Integer', formals='@Integer', target='Integer', derives='Integer from Integer'), 'N2')
    yield refused('integer_among_the_formals.adb',
                  procedure('A', formals='A, @INTEGER', target='A', derives='A, INTEGER from *'), 'N2')
    yield refused('integer_for_the_procedure.adb', procedure('X', name='@Integer', end='Integer'), 'N2')
    yield refused('integer_for_the_procedure_in_upper_case.adb', procedure('X', name='@INTEGER', end=None), 'N2')
    yield accepted('name_that_begins_like_integer.adb',
                   procedure('Integers', formals='Integers', target='Integers', derives='Integers from *',
                             name='Integer_2', end='Integer_2'), 1, named='Integer_2')
    yield refused('procedure_for_an_operand.adb', procedure('X + @Inc', pre='X = 0'), 'N3')
    yield refused('procedure_for_a_target.adb', procedure('X', target='@Inc'), 'N3')
    yield refused('procedure_for_an_import.adb', procedure('X', derives='X from X, @Inc'), 'N3')
    yield refused('procedure_for_an_export.adb', procedure('X', derives='X, @Inc from X'), 'N3')
    yield refused('procedure_in_pre.adb', procedure('X', pre='@Inc < 0'), 'N3')
    yield refused('procedure_for_a_type.adb', procedure('X', type_mark='@Inc'), 'N1')
    yield refused('type_for_an_operand.adb', procedure('X + @Integer', pre='X = 0'), 'N3')
    yield refused('type_for_the_value.adb', procedure('@Integer', **OUT), 'N3')
    yield refused('type_for_a_target.adb', procedure('X', target='@Integer'), 'N3')
    yield refused('type_for_an_import.adb', procedure('X', derives='X from X, @Integer'), 'N3')
    yield refused('type_for_an_export.adb', procedure('X', derives='X, @Integer from X'), 'N3')
    yield refused('type_in_pre.adb', procedure('X', pre='X < @Integer'), 'N3')
    yield refused('variable_for_a_type.adb', procedure('X', type_mark='@X'), 'N1')
    yield refused('variable_for_a_type_in_another_case.adb', procedure('X', type_mark='@x'), 'N1')
    yield refused('formal_named_as_the_procedure_for_a_later_type.adb',
                  longer('Inc : in out Integer; Y : in out @Inc', 'Inc, Y from *', 'null'), 'N3')
    yield refused('formal_of_its_own_type_behind_another.adb',
                  longer('X : in out Integer; Y : in out @Y', 'X, Y from *', 'null'), 'N1')
    yield refused('attribute_of_a_variable.adb', procedure("@X'First", **OUT), 'N3')
    yield refused('attribute_of_a_variable_in_pre.adb', procedure('X', pre="X < @X'Last"), 'N3')
    yield refused('formal_named_as_the_procedure_for_a_type.adb',
                  procedure('X', name='X', type_mark='@X', end='X'), 'N1')
    yield refused('attribute_of_a_procedure.adb', procedure("@Inc'First", **OUT), 'N3')
    yield refused('attribute_size.adb', procedure("@Integer'Size", **OUT), 'N3')
    yield refused('attribute_firsts.adb', procedure("@Integer'Firsts", **OUT), 'N3')
    yield refused('attribute_las.adb', procedure("@Integer'Las", **OUT), 'N3')
    yield refused('attribute_named_as_a_formal.adb', procedure("@Integer'X", **OUT), 'N3')
    yield refused('wrong_end_name.adb', procedure(pre=BELOW, end='@Dec'), 'N5')
    yield refused('formal_for_an_end_name.adb', procedure(pre=BELOW, end='@X'), 'N5')
    yield refused('longer_end_name.adb', procedure(pre=BELOW, end='@Inc_1'), 'N5')


def rules():
    """Rules on modes, relations and preconditions."""
    yield refused('mode_in_exported.adb', procedure('5', mode='in', derives='@X from '), 'U8')
    yield refused('mode_out_imported.adb', procedure('X', mode='out', derives='X from @X'), 'U8')
    yield refused('mode_out_imported_by_star.adb', procedure('X', mode='out', derives='@X from *'), 'U8')
    yield refused('mode_in_out_not_imported.adb', procedure('5', derives='@X from '), 'U8')
    yield refused('mode_in_out_not_exported.adb', procedure('A + B', derives='A from A, @B', pre='B = 0', **AB), 'U8')
    yield refused('export_twice_in_one_item.adb', at_derives(procedure('X', derives='X, X from X')), 'U7')
    yield refused('export_twice_in_two_items.adb', at_derives(procedure('X', derives='X from X & X from X')), 'U7')
    yield refused('export_twice_in_two_cases.adb', at_derives(procedure('X', derives='X from X & x from x')), 'U7')
    yield refused('export_twice_of_mode_out.adb',
                  at_derives(procedure('5', mode='out', derives='X from & X from ')), 'U7')
    yield refused('pair_twice.adb', at_derives(procedure('X', derives='X from X, X')), 'U7')
    yield refused('pair_twice_in_two_cases.adb', at_derives(procedure('X', derives='X from X, x')), 'U7')
    yield refused('pair_twice_by_star.adb', at_derives(procedure('X', derives='X from *, X')), 'U7')
    yield refused('pair_twice_by_star_of_two_exports.adb',
                  at_derives(procedure('A', derives='A, B from *, B', **AB)), 'U7')
    yield refused('pair_twice_apart.adb',
                  at_derives(procedure('A + B', derives='A from A, B, A & B from *', pre='B = 0', **AB)), 'U7')
    yield refused('formal_not_in_the_relation.adb', at_derives(procedure('A', derives='A from A', **AB)), 'U7')
    yield refused('formal_of_mode_out_not_in_the_relation.adb',
                  at_derives(procedure('1', mode='out', derives='A from ', **AB)), 'U7')
    yield refused('pre_over_a_formal_of_mode_out.adb', procedure('5', pre='@X > 0', **OUT), 'U11')
    yield refused('pre_over_a_formal_of_mode_out_on_the_right.adb', procedure('5', pre='0 > @X', **OUT), 'U11')
    # one `in out` must be an import, which is reported first
    yield refused('pre_over_a_formal_that_is_not_imported.adb',
                  procedure('B', formals='A, B', target='B', derives='@A, B from B', pre='A > 0'), 'U8')


def flow():
    """Flow."""
    yield refused('flow_missing.adb',
                  procedure('A + B', derives='@A from A & B from B', pre='B = 0', **AB), 'F1 missing: A from B')
    yield refused('flow_missing_from_itself.adb',
                  procedure('A + B', derives='@A from B & @B from A, B', pre='B = 0', **AB),
                  'F1 missing: A from A', 'F2 unused: B from A')
    yield refused('flow_missing_to_a_kept_variable.adb',
                  procedure('A + B', derives='A from A, B & @B from', pre='B = 0', **AB), 'F1 missing: B from B')
    yield refused('flow_unused.adb', procedure('A', derives='@A from A, B & B from B', **AB), 'F2 unused: A from B')
    yield refused('flow_unused_of_an_overwritten_variable.adb',
                  procedure('B', derives='@A from A, B & B from B', **AB), 'F2 unused: A from A')
    yield refused('flow_unused_by_a_literal.adb', procedure('5', derives='@X from X'), 'F2 unused: X from X')
    yield refused('flow_unused_to_a_kept_variable.adb',
                  procedure('A', derives='A from A & @B from A, B', **AB), 'F2 unused: B from A')
    yield refused('flow_crossed.adb', procedure('A', derives='@@A from B & @@B from A', **AB),
                  'F1 missing: A from A', 'F2 unused: A from B', 'F1 missing: B from B', 'F2 unused: B from A')
    yield refused('target_not_exported.adb', procedure('A', derives='B from @A, B', **AB), 'U8')
    yield refused('unset_read.adb', procedure('@X + 1', mode='out', derives='@X from '),
                  'F1 missing: X from X', 'F4 unset: X')
    yield refused('unset_read_of_another.adb',
                  at_end(procedure('@B', mode='out', derives='@A, @B from ', **AB)),
                  'F1 missing: A from B', 'F1 missing: B from B', 'F4 unset: B', 'F4 unset: B')
    yield refused('unset_export.adb', at_end(procedure('1', mode='out', derives='A from & @B from ', **AB)),
                  'F1 missing: B from B', 'F4 unset: B')
    yield accepted('flow_through_a_difference_of_one_variable.adb', procedure('X - X', pre='X = 0'))
    yield accepted('flow_through_plus_zero_of_another.adb',
                   procedure('A + B', derives='A from A, B & B from *', pre='A = 0', **AB))
    yield refused('flow_of_a_formal_that_hides_the_procedure.adb',
                  procedure('Inc', formals='X, Inc', target='X', derives='@@X, Inc from *'),
                  'F1 missing: X from Inc', 'F2 unused: X from X')
    yield accepted('formal_that_hides_the_procedure_among_two.adb',
                   procedure('X + Inc', formals='X, Inc', target='X', derives='X from *, inc & INC from *',
                             pre='INC = 0'))


def chains():
    """Sums of several operands."""
    yield accepted('three_operands.adb', procedure('X + 1 + 1', pre='X < 0'), 3)
    yield accepted('chain_at_its_bound.adb', procedure('X + 1 + 1', pre='X < 2147483646'), 3)
    yield examined('chain_without_precondition.adb', procedure('X @+ 1 @+ 1'), ('Inc', 3, 1, 2))
    yield examined('chain_past_its_bound_at_its_end.adb', procedure('X + 1 @+ 1', pre=BELOW), ('Inc', 3, 2))
    yield examined('chain_that_comes_back.adb', procedure('X @+ 1 - 1'), ('Inc', 3, 1))
    yield examined('chain_that_comes_back_from_below.adb', procedure('X @- 1 + 1'), ('Inc', 3, 1))
    yield accepted('chain_that_comes_back_within_its_bound.adb', procedure('X + 1 - 1', pre=BELOW), 3)
    yield accepted('chain_that_comes_back_from_below_within_its_bound.adb', procedure('X - 1 + 1', pre=ABOVE), 3)
    yield examined('chain_that_comes_back_too_far.adb', procedure('X - 1 @+ 2', pre=ABOVE), ('Inc', 3, 2))
    yield examined('chain_nests_to_the_left.adb', procedure('X @- 1 @- 1'), ('Inc', 3, 1, 2))
    yield accepted('chain_of_differences.adb', procedure('0 - X - 1', pre='X = 0'), 3)
    yield examined('chain_knows_no_opposites.adb', procedure('0 - X @+ X', pre=ABOVE), ('Inc', 3, 2))
    yield examined('chain_of_one_variable.adb', procedure('X @- X @+ X'), ('Inc', 3, 1, 2))
    yield accepted('chain_of_one_variable_with_precondition.adb', procedure('X - X + X', pre='X = 0'), 3)
    yield accepted('chain_of_zeros.adb', procedure('X + 0 + 0'), 3)
    yield accepted('chain_of_zeros_on_both_sides.adb', procedure('0 + X - 0 + 0'), 4)
    yield accepted('chain_of_fifty.adb', procedure('X' + ' + 1' * 50, pre='X <= 2147483597'), 51)
    yield examined('chain_of_fifty_past_its_bound.adb',
                   procedure('X' + ' + 1' * 49 + ' @+ 1', pre='X <= 2147483598'), ('Inc', 51, 50))
    yield examined('chain_of_ten_without_precondition.adb', procedure('X' + ' @+ 1' * 10), ('Inc', 11, *range(1, 11)))
    yield examined('chain_on_several_lines.adb', procedure('X\n + 1\n-- and\n  @+ 1', pre=BELOW), ('Inc', 3, 2))
    yield accepted('chain_without_spaces.adb', procedure('X+1-1+1', pre='X<0'), 4)
    yield accepted('chain_begins_static.adb', procedure('1 + 2 + X', pre='X < 0'))
    yield accepted('chain_begins_static_at_its_bound.adb', procedure('2147483646 + 1 + X', pre='X <= 0'))
    yield examined('chain_begins_static_past_its_bound.adb',
                   procedure('2147483646 + 1 @+ X', pre='X <= 1'), ('Inc', 2, 1))
    yield accepted('chain_begins_with_zeros.adb', procedure('0 + 0 + X'))
    yield accepted('chain_ends_in_literals.adb', procedure('X + 1 + 2', pre='X <= 2147483644'), 3)
    yield examined('chain_ends_in_literals_past_its_bound.adb',
                   procedure('X + 1 @+ 2', pre='X <= 2147483645'), ('Inc', 3, 2))
    yield accepted('chain_with_a_variable_in_the_middle.adb', procedure('1 + X + 2', pre='X < 0'), 3)
    yield accepted('chain_with_last_in_the_middle.adb', procedure('X + 2147483647 + 1', pre='X < 0'), 3)
    yield accepted('chain_of_literals.adb', procedure('1 + 2 + 3', **OUT), 1)
    yield accepted('chain_of_attributes.adb', procedure(f'{LAST} + {FIRST} - {FIRST}', **OUT), 1)
    yield refused('chain_of_literals_past_the_type.adb', procedure('2147483647 - 1 @+ 2', **OUT), 'N12')
    yield accepted('chain_of_literals_past_the_type_and_back.adb', procedure('2147483647 + 1 - 1', **OUT), 1)
    yield accepted('chain_of_literals_past_the_type_and_back_before_a_variable.adb',
                   procedure('2147483647 + 1 - 1 + X', pre='X <= 0'))
    yield refused('chain_of_literals_past_the_type_before_a_variable.adb',
                  procedure('2147483647 @+ 1 + X', pre='X < 0'), 'N12')
    yield refused('chain_past_last_and_back.adb', procedure(LAST + ' @+ 1 - 1', **OUT), 'N12')
    yield refused('chain_past_last_and_back_from_a_literal.adb', procedure(f'1 @+ {LAST} - 1', **OUT), 'N12')
    yield accepted('chain_before_last_and_on.adb', procedure(LAST + ' - 1 + 1', **OUT), 1)
    yield accepted('chain_of_wide_literals_before_first.adb', procedure('2147483648 - 1 + ' + FIRST, **OUT), 1)
    yield refused('chain_of_wide_literals_minus_first.adb', procedure('2147483648 - 1 @- ' + FIRST, **OUT), 'N12')
    yield refused('wide_literal_at_the_end_of_a_chain.adb', procedure('X + 1 + @2147483648', pre='X < 0'), 'N12')
    yield refused('wide_literal_behind_a_difference.adb', procedure('X - X + @2147483648', pre='X = 0'), 'N12')
    yield refused('wide_literal_in_the_middle_of_a_chain.adb', procedure('X + @2147483648 - 1', pre='X < 0'), 'N12')
    yield refused('chain_past_the_widest_literal_and_back.adb', procedure(f'{WIDEST} @+ 1 - {WIDEST}', **OUT), 'N12')
    yield accepted('chain_of_widest_literals.adb', procedure(f'{WIDEST} - {WIDEST} + 5', **OUT), 1)
    yield accepted('chain_down_to_the_lowest_value.adb', procedure(f'0 - {WIDEST} - 1 + {WIDEST}', **OUT), 1)
    yield refused('chain_below_the_lowest_value.adb', procedure(f'0 - {WIDEST} @- 2 + {WIDEST}', **OUT), 'N12')
    yield unexpected('chain_with_an_operator_at_its_end.adb', procedure('X + 1 +', pre='X < 0'), at=(6, 16))
    yield unexpected('chain_with_two_operators.adb', procedure('X + 1 + - 1', pre='X < 0'), at=(6, 17))
    yield accepted('chain_with_parentheses.adb', procedure('X + (1 + 1)', pre='X < 0'))
    yield accepted('chain_with_a_product.adb', procedure('X + 1 * 2', pre='X < 0'))
    yield unexpected('chain_with_a_marked_operand.adb', procedure('X + 1 --# + 1\n', pre='X < 0'), at=(6, 19))


def levels():
    """An operator opens a level over both of its operands, and there are at most 200."""
    yield accepted('two_hundred_levels.adb', procedure('1' + ' + 1' * 200, **OUT), 1)
    yield too_nested('two_hundred_and_one_levels.adb', procedure('1' + ' + 1' * 201, **OUT))
    yield too_nested('two_hundred_and_one_levels_of_a_variable.adb', procedure('X' + ' + 0' * 201))
    yield accepted('two_hundred_levels_under_a_relation.adb', procedure(pre='X' + ' + 0' * 199 + ' < 5'))
    yield too_nested('two_hundred_and_one_levels_under_a_relation.adb', procedure(pre='X' + ' + 0' * 200 + ' < 5'))
    yield accepted('two_hundred_levels_behind_a_relation.adb', procedure(pre='5 > X' + ' - 0' * 199))
    yield too_nested('two_hundred_and_one_levels_behind_a_relation.adb', procedure(pre='5 > X' + ' - 0' * 200))
    yield accepted('two_hundred_levels_on_both_sides.adb', procedure(pre='X' + ' + 0' * 199 + ' < 0' + ' + 0' * 199))
    yield accepted('two_hundred_levels_in_two_statements.adb',
                   longer(OUT_XY, 'X, Y from', 'X := 1' + ' + 1' * 200, 'Y := 1' + ' - 1' * 200), 2)
    yield too_nested('two_hundred_and_one_levels_in_the_second_statement.adb',
                     longer(OUT_XY, 'X, Y from', 'X := 1', 'Y := 1' + ' - 1' * 201))
    yield too_nested('a_thousand_levels.adb', procedure('1' + ' + 1' * 1000, **OUT))
    yield too_nested('two_hundred_and_one_levels_on_both_sides.adb',
                     procedure(pre='X' + ' + 0' * 200 + ' < 0' + ' + 0' * 200))
    yield too_nested('two_hundred_and_one_levels_at_the_end_of_the_text.adb', cut('1' + ' + 1' * 200 + ' +'))
    yield unexpected('two_hundred_levels_at_the_end_of_the_text.adb', cut('1' + ' + 1' * 199 + ' +@'))
    yield unexpected('two_hundred_levels_and_no_operand.adb', procedure('1' + ' + 1' * 199 + ' + @', **OUT))
    yield too_nested('two_hundred_and_one_levels_and_no_operand.adb', procedure('1' + ' + 1' * 200 + ' + ', **OUT))
    yield unexpected('two_hundred_levels_and_another_token.adb', procedure('1' + ' + 1' * 200 + ' @& 1 + 1', **OUT))
    yield too_nested('two_hundred_levels_and_a_product.adb', procedure('1' + ' + 1' * 200 + ' * 1 + 1', **OUT))
    yield unexpected('two_hundred_and_one_levels_behind_another_breach.adb',
                     longer(OUT_XY, 'X, Y from', 'X := 1 @1', 'Y := 1' + ' + 1' * 201))
    yield too_nested('two_hundred_and_one_levels_before_another_breach.adb',
                     longer(OUT_XY, 'X, Y from', 'X := 1' + ' + 1' * 201, 'Y := 1 1'))
    yield too_nested('two_hundred_and_one_levels_before_a_breach_in_one_sum.adb',
                     procedure('1' + ' + 1' * 201 + ' + + 1', **OUT))
    yield bad_byte('two_hundred_and_one_levels_before_a_bad_byte.adb', procedure('1' + ' + 1' * 201, **OUT) + '@#')
    yield too_nested('two_hundred_and_one_levels_and_a_breach_of_a_rule.adb', procedure('Y' + ' + 1' * 201))
    yield too_nested('two_hundred_and_one_levels_in_the_second_procedure.adb',
                     INC + procedure('1' + ' + 1' * 201, name='Same', end='Same', **OUT))
    yield unexpected('two_hundred_levels_and_two_relations.adb',
                     procedure(pre='X' + ' + 0' * 199 + ' < 0' + ' + 0' * 199 + ' @< 0'))


def comparisons():
    """Comparisons as right sides, preconditions that are none, and sums in preconditions."""
    for name, value in {'of_a_variable': 'X @= 1', 'of_literals': '1 @< 2', 'of_sums': 'X + 1 @> X - 1',
                        'of_attributes': f'{FIRST} @/= {LAST}'}.items():
        yield refused(f'comparison_{name}_assigned.adb', procedure(value), 'N10')
        yield refused(f'comparison_{name}_assigned_behind_another_statement.adb',
                      longer(X, 'X from X', 'X := X', 'X := ' + value), 'N10')
    yield unexpected('comparison_of_comparisons_assigned.adb', procedure('X = X @= X'))
    yield unexpected('comparison_of_comparisons_assigned_behind_another_statement.adb',
                     longer(X, 'X from X', 'X := X', 'X := X = X @= X'))
    for name, pre in {'a_name': '@X', 'a_sum': 'X @+ 1', 'a_number': '@1', 'an_attribute': '@' + LAST,
                      'a_static_sum': '1 + 2 @- 3'}.items():
        yield refused(f'pre_of_{name}.adb', procedure('X', pre=pre), 'N10')
    for name, pre in {'two': '0 < X @< 5', 'equal': 'X = X @= X', 'static': '1 < 2 @< 3', 'sums': 'X + 1 < X @< 5 - 1',
                      'three': 'X = X @/= X = X'}.items():
        yield unexpected(f'pre_with_{name}_relations.adb', procedure('X', pre=pre))
    yield unexpected('pre_with_a_relation_at_its_end.adb', procedure('X', pre='X + 1 <'), at=(3, 16))
    yield unexpected('pre_with_a_relation_first.adb', procedure('X', pre='< X + 1'), at=(3, 9))
    yield accepted('pre_with_a_sum.adb', procedure('X', pre='X + 1 < 5'), 1)
    yield accepted('pre_with_a_sum_behind.adb', procedure('X', pre='X < 5 - 1'), 1)
    yield accepted('pre_with_sums_has_no_overflow_check.adb', procedure('X', pre='X + X + X = X - 1 - 1'), 1)
    yield accepted('pre_bounds_a_sum.adb', procedure(pre='X + 1 <= ' + LAST))
    yield accepted('pre_bounds_a_sum_by_less.adb', procedure(pre=f'X + 1 < {LAST}'))
    yield accepted('pre_bounds_a_sum_mirrored.adb', procedure(pre=LAST + ' >= X + 1'))
    yield accepted('pre_bounds_a_chain.adb', procedure('X + 1 + 1', pre='X + 1 <= 2147483646'), 3)
    yield unproved('pre_bounds_another_sum.adb', procedure('X @+ 1', pre='X + 2 <= ' + LAST))
    yield unproved('pre_bounds_a_sum_in_another_order.adb', procedure('X @+ 1', pre='1 + X <= ' + LAST))
    yield unproved('pre_bounds_a_chain_of_the_same_value.adb', procedure('X @+ 1', pre='X + 1 - 1 < 5'))
    yield unproved('pre_bounds_a_sum_by_a_variable.adb', procedure('X @+ 1', pre='X + 1 <= X'))
    yield accepted('pre_with_a_static_sum.adb', procedure(pre='X < 2147483640 + 3 + 4'))
    yield accepted('pre_with_last_minus_one.adb', procedure('X + 2', pre=f'X < {LAST} - 1'))
    yield unproved('pre_with_a_static_sum_past_its_bound.adb', procedure('X @+ 2', pre=f'X <= {LAST} - 1'))
    yield accepted('pre_with_a_static_sum_of_zeros.adb', procedure(pre='X + 0 - 0 < 5'))
    yield accepted('pre_equal_to_a_static_sum.adb', procedure(pre='1 + 1 = X'))
    yield accepted('pre_with_a_universal_difference.adb', procedure(pre='X < 2147483648 - 1'))
    yield refused('pre_with_a_universal_sum.adb', procedure(pre='X < 2147483647 @+ 1'), 'N12')
    yield refused('pre_with_a_sum_past_last.adb', procedure(pre=f'X < {LAST} @+ 1'), 'N12')
    yield refused('pre_with_a_sum_past_last_and_back.adb', procedure(pre=f'X < {LAST} @+ 1 - 1'), 'N12')
    yield refused('pre_with_a_wide_literal_in_a_sum.adb', procedure('X', pre='X + @2147483648 > 0'), 'N12')
    yield accepted('pre_with_universal_sums.adb', procedure('1', pre='2147483647 + 1 > 2147483648 - 1', **OUT), 1)
    yield accepted('pre_with_widest_literals.adb', procedure('1', pre=f'{WIDEST} - 1 < {WIDEST}', **OUT), 1)
    yield refused('pre_past_the_widest_literal.adb', procedure('1', pre=WIDEST + ' @+ 1 > 0', **OUT), 'N12')
    yield accepted('pre_of_static_sums_that_is_false.adb', procedure(pre='1 + 1 > 2'))
    yield unproved('pre_of_static_sums_that_is_true.adb', procedure('X @+ 1', pre='1 + 1 >= 2'))
    yield accepted('pre_of_a_sum_less_than_itself.adb', procedure(pre='X + 1 < X + 1'))
    yield accepted('pre_of_a_sum_unequal_to_itself.adb', procedure(pre='X - 5 /= X - 5'))
    yield unproved('pre_of_a_sum_equal_to_itself.adb', procedure('X @+ 1', pre='X + 1 = X + 1'))
    yield accepted('pre_of_a_sum_that_folds_to_itself.adb', procedure(pre='X + 0 < X'))
    yield unproved('pre_that_is_false_for_no_reason_seen.adb', procedure('X @+ 1', pre='X + 1 < X'))
    yield refused('pre_with_a_sum_over_a_formal_of_mode_out.adb', procedure('5', pre='0 < 1 + @X', **OUT), 'U11')
    yield refused('pre_with_an_undeclared_name_in_a_sum.adb', procedure('X', pre='X + 1 + @Y < 0'), 'N1')
    yield accepted('pre_with_sums_on_several_lines.adb', procedure(pre='X\n--# + 1\n--# <\n--# 5 - 1'))
    yield unexpected('pre_with_an_unmarked_operand.adb', procedure(pre='X\n + 1\n--# < 5'), at=(4, 2))


def parameters():
    """Several parameters, each with its own mode and type."""
    yield accepted('two_parameter_lists.adb',
                   procedure('A', formals='A : in out Integer; B', target='A', derives='A, B from *'), 1)
    yield accepted('in_and_out.adb', longer(A_TO_X, 'X from A', 'X := A'), 1)
    yield accepted('out_and_in.adb', longer('X : out Integer; A : in Integer', 'X from A', 'X := A'), 1)
    yield accepted('unwritten_mode_and_out.adb', longer('A : Integer; X : out Integer', 'X from A', 'X := A'), 1)
    yield accepted('in_and_in_out.adb', longer(A_AND_X, 'X from X, A', 'X := X + A', pre='A = 0'))
    yield unproved('in_and_in_out_without_precondition.adb', longer(A_AND_X, 'X from *, A', 'X := X @+ A'))
    yield unproved('import_alone.adb', longer(A_TO_X, 'X from A', 'X := A @+ 1'))
    yield accepted('import_alone_with_precondition.adb', longer(A_TO_X, 'X from A', 'X := A + 1', pre='A < 0'))
    yield accepted('three_modes.adb',
                   longer('A : in Integer; B : in out Integer; X : out Integer', 'X from A, B & B from *',
                          'X := A + B', pre='B = 0'))
    yield accepted('lists_of_two_modes.adb',
                   longer('A, B : in Integer; X, Y : out Integer', 'X from A & Y from B', 'X := A', 'Y := B'), 2)
    yield accepted('three_imports_of_one_sum.adb',
                   longer('A : in Integer; B : in Integer; C : in Integer; X : out Integer', 'X from A, B, C',
                          'X := A + B + C', pre='A + B = 0'), 3)
    yield examined('three_imports_of_one_sum_without_precondition.adb',
                   longer('A, B, C : Integer; X : out Integer', 'X from C, B, A', 'X := A @+ B @- C'), ('Inc', 3, 1, 2))
    yield accepted('twenty_parameters.adb',
                   longer('; '.join(f'A{n} : in out Integer' for n in range(20)),
                          ', '.join(f'A{n}' for n in range(20)) + ' from *', 'A7 := A7'), 1)
    yield accepted('parameters_on_several_lines.adb',
                   longer('A -- first\n   : in Integer; -- second\n   X\n   : out Integer', 'X from A', 'X := A'), 1)
    yield accepted('second_parameter_named_as_the_procedure.adb',
                   longer('A : in Integer; Inc : out Integer', 'Inc from A', 'Inc := A'), 1)
    yield refused('target_of_mode_in_among_two.adb', longer(A_AND_X, '@A from X', 'A := X'), 'U8')
    yield refused('in_exported_among_two.adb', longer(A_AND_X, '@A, X from *', 'X := X'), 'U8')
    yield refused('in_not_imported_among_two.adb', at_derives(longer(A_TO_X, 'X from', 'X := 1')), 'U7')
    yield refused('out_imported_among_two.adb', longer(A_TO_X, 'X from A, @X', 'X := A'), 'U8')
    yield refused('out_not_exported_among_two.adb',
                  longer(A_TO_X + '; Y : out Integer', 'X from A, @Y', 'X := A'), 'U8')
    yield refused('in_out_not_imported_among_two.adb', longer(A_AND_X, '@X from A', 'X := A'), 'U8')
    yield refused('in_out_not_exported_among_two.adb',
                  longer('A : in out Integer; X : out Integer', 'X from @A', 'X := A'), 'U8')
    yield refused('modes_exchanged.adb', longer('A : out Integer; X : in Integer', '@X from A', 'X := A'), 'U8')
    yield refused('second_type_undeclared.adb', longer('A : in Integer; X : out @Count', 'X from A', 'X := A'), 'N1')
    yield refused('first_type_undeclared.adb', longer('A : in @Count; X : out Integer', 'X from A', 'X := A'), 'N1')
    yield refused('formal_before_for_a_type.adb', longer('A : in Integer; X : out @A', 'X from A', 'X := A'), 'N3')
    yield refused('formal_behind_for_a_type.adb', longer('A : in @X; X : out Integer', 'X from A', 'X := A'), 'N1')
    yield refused('formal_in_two_parameters.adb',
                  longer('X : in Integer; @X : out Integer', 'X from X', 'X := X'), 'N2')
    yield refused('formal_in_two_parameters_in_two_cases.adb',
                  longer('A, b : in out Integer; @B : in out Integer', 'A, B from *', 'A := A'), 'N2')
    yield refused('integer_in_the_second_parameter.adb',
                  longer('A : in Integer; @Integer : out Integer', 'Integer from A', 'Integer := A'), 'N2')
    yield refused('pre_over_one_of_mode_out.adb', longer(A_TO_X, 'X from A', 'X := A', pre='A < @X'), 'U11')
    yield unexpected('semicolon_before_the_parameters.adb', longer('; ' + A_TO_X, 'X from A', 'X := A'), at=(1, 16))
    yield unexpected('semicolon_at_the_end_of_the_parameters.adb',
                     longer(A_TO_X + ';', 'X from A', 'X := A'), at=(1, 48))
    yield unexpected('two_semicolons_between_parameters.adb',
                     longer(A_TO_X.replace(';', ';;'), 'X from A', 'X := A'), at=(1, 31))
    yield unexpected('comma_between_parameters.adb', longer(A_TO_X.replace(';', ','), 'X from A', 'X := A'), at=(1, 30))
    yield unexpected('no_semicolon_between_parameters.adb',
                     longer(A_TO_X.replace(';', ''), 'X from A', 'X := A'), at=(1, 31))
    yield unexpected('parameter_without_type.adb', longer('A; X : out Integer', 'X from A', 'X := A'), at=(1, 17))
    yield unexpected('two_pairs_of_parentheses.adb',
                     longer(A_TO_X.replace(';', ') ('), 'X from A', 'X := A'), at=(1, 32))
    yield unexpected('marked_semicolon_between_parameters.adb',
                     longer(A_TO_X.replace(';', '--#;\n'), 'X from A', 'X := A'), at=(1, 33))


def statements():
    """Several statements: their conditions."""
    increment, decrement = 'X := X + 1', 'X := X - 1'
    yield accepted('two_statements.adb', COPY.replace('X := X;', 'X := X; X := X;'))
    yield accepted('increment_twice.adb', longer(X, 'X from X', increment, increment, pre='X < 0'), 4)
    yield accepted('increment_twice_at_its_bound.adb',
                   longer(X, 'X from X', increment, increment, pre='X < 2147483646'), 4)
    yield examined('increment_twice_past_its_bound.adb',
                   longer(X, 'X from X', increment, 'X := X @+ 1', pre=BELOW), ('Inc', 4, 3))
    yield examined('increment_twice_without_precondition.adb',
                   longer(X, 'X from X', 'X := X @+ 1', 'X := X @+ 1'), ('Inc', 4, 1, 3))
    yield examined('increment_and_decrement.adb', longer(X, 'X from X', 'X := X @+ 1', decrement), ('Inc', 4, 1))
    yield examined('increment_thrice_and_decrement.adb',
                   longer(X, 'X from X', 'X := X @+ 1 @+ 1', 'X := X @+ 1 - 1'), ('Inc', 6, 1, 2, 4))
    yield accepted('increment_ten_times.adb', longer(X, 'X from X', *[increment] * 10, pre='X < 0'), 20)
    yield accepted('hundred_copies.adb', longer(X, 'X from X', *['X := X'] * 100), 100)
    yield accepted('doubled_four_times.adb', longer(X, 'X from X', *['X := X + X'] * 4, pre='X = 1'), 8)
    yield examined('doubled_too_often.adb',
                   longer(X, 'X from X', 'X := X + X', 'X := X @+ X', pre='X = 1073741823'), ('Inc', 4, 3))
    yield accepted('copy_and_increment.adb', longer(A_TO_X, 'X from A', 'X := A', increment, pre='A < 0'), 3)
    yield examined('copy_and_increment_without_precondition.adb',
                   longer(A_TO_X, 'X from A', 'X := A', 'X := X @+ 1'), ('Inc', 3, 2))
    yield examined('same_sum_of_two_statements.adb',
                   longer('X : in out Integer; Y : out Integer', 'X, Y from X', 'Y := X @+ 1', increment),
                   ('Inc', 4, 1))
    yield examined('same_sum_through_a_copy.adb',
                   longer(A_TO_XY, 'X, Y from A', 'X := A', 'Y := A @+ 1', increment),
                   ('Inc', 5, 2))
    yield accepted('literal_and_increment.adb', longer(OUT_X, 'X from', 'X := 5', increment), 3)
    yield examined('last_and_increment.adb', longer(OUT_X, 'X from', 'X := ' + LAST, 'X := X @+ 1'), ('Inc', 3, 2))
    yield accepted('last_and_decrement.adb', longer(OUT_X, 'X from', 'X := ' + LAST, decrement), 3)
    yield examined('first_and_decrement.adb', longer(OUT_X, 'X from', 'X := ' + FIRST, 'X := X @- 1'), ('Inc', 3, 2))
    yield examined('what_was_shown_is_a_fact_though_it_is_false.adb',
                   longer(OUT_X, 'X from', 'X := ' + LAST, 'X := X @+ 1 + 1', 'X := X + X'), ('Inc', 6, 2))
    yield accepted('sum_of_a_literal_with_itself.adb', longer(OUT_XY, 'X, Y from', 'X := 1', 'Y := X + X'), 3)
    yield accepted('literals_and_static_sums.adb', longer(OUT_XY, 'X, Y from', 'X := 1 + 2', f'Y := {LAST} - 3'), 2)
    yield accepted('exchange.adb', longer(SWAP, SWAPPED, 'T := A', 'A := B', 'B := T'), 3)
    yield accepted('exchange_keeps_what_is_known.adb',
                   longer(SWAP, SWAPPED, 'T := A', 'A := B', 'B := T', 'B := B + 1', pre='A < 0'), 5)
    yield examined('exchange_moves_what_is_known.adb',
                   longer(SWAP, SWAPPED, 'T := A', 'A := B', 'B := T', 'A := A @+ 1', pre='A < 0'), ('Inc', 5, 4))
    sums = ('A := A @+ B', 'B := A @- B', 'A := A @- B')
    yield examined('exchange_by_sums.adb', longer(IN_OUT_AB, BOTH, *sums), ('Inc', 6, 1, 3, 5))
    yield examined('exchange_by_sums_of_a_known_sum.adb',
                   longer(IN_OUT_AB, BOTH, 'A := A + B', 'B := A @- B', 'A := A - B', pre='A + B = 5'), ('Inc', 6, 3))
    yield examined('exchange_by_sums_with_zero.adb',
                   longer(IN_OUT_AB, BOTH, 'A := A + B', 'B := A @- B', 'A := A @- B', pre='A = 0'), ('Inc', 6, 3, 5))
    yield examined('exchange_by_sums_with_zero_behind.adb',
                   longer(IN_OUT_AB, BOTH, 'A := A + B', 'B := A - B', 'A := A @- B', pre='B = 0'), ('Inc', 6, 5))
    yield accepted('exchange_by_sums_under_a_false_precondition.adb',
                   longer(IN_OUT_AB, BOTH, 'A := A + B', 'B := A - B', 'A := A - B', pre='A < A'), 6)
    yield refused('exchange_by_sums_has_more_flows.adb',
                  longer(IN_OUT_AB, '@A from B & @B from A', 'A := A + B', 'B := A - B', 'A := A - B'),
                  'F1 missing: A from A', 'F1 missing: B from B')
    yield accepted('comment_between_statements.adb', longer(X, 'X from X', 'X := X; -- once\n   X := X'))
    yield accepted('empty_mark_between_statements.adb', longer(X, 'X from X', 'X := X; --#\n   X := X'))
    yield accepted('annotation_between_statements.adb', longer(X, 'X from X', 'X := X;\n--# check X = X', 'X := X'), 3)
    yield unexpected('no_semicolon_between_statements.adb', COPY.replace('X := X;', 'X := X X := X;'), at=(5, 11))
    yield unexpected('comma_between_statements.adb', COPY.replace('X := X;', 'X := X, X := X;'), at=(5, 10))
    yield unexpected('empty_statement_between.adb', COPY.replace('X := X;', 'X := X;; X := X;'), at=(5, 11))
    yield accepted('null_statement_behind.adb', longer(X, 'X from X', 'X := X', 'null'), 1)
    yield unexpected('assignment_twice_in_one_statement.adb', procedure('X := X'), at=(5, 11))
    yield unexpected('statement_before_begin.adb', COPY.replace('begin', 'X := X;\nbegin'), at=(4, 3))
    yield unexpected('statement_behind_the_end.adb', COPY.replace('end Inc;', 'end Inc;\nX := X;'), at=(7, 1))
    yield unexpected('second_statement_marked.adb', COPY.replace('X := X;', 'X := X;\n--# X := X;\n'), at=(6, 5))
    yield refused('undeclared_name_in_the_second_statement.adb', longer(X, 'X from X', 'X := X', 'X := X + @Y'), 'N1')
    yield refused('type_in_the_second_statement.adb', longer(X, 'X from X', 'X := X', 'X := @Integer'), 'N3')
    yield refused('wide_literal_in_the_second_statement.adb',
                  longer(X, 'X from X', 'X := X', 'X := X - @2147483648'), 'N12')
    yield refused('static_sum_past_the_type_in_the_third_statement.adb',
                  longer(X, 'X from X', 'X := X', 'X := X', f'X := X - {LAST} + {LAST} + @2147483648'), 'N12')
    yield refused('target_of_mode_in_in_the_second_statement.adb',
                  longer(A_TO_X, 'X from A', 'X := A', '@A := X'), 'U2')


def flow_of_statements():
    """Flow through several statements."""
    yield refused('overwritten.adb', longer(OUT_X, 'X from', '@X := 1', 'X := 2'), 'F3')
    yield refused('overwritten_by_an_import.adb', longer(A_TO_X, 'X from A', '@X := 1', 'X := A'), 'F3')
    yield refused('import_overwritten.adb', longer(X, '@X from X', '@X := X', 'X := 1'), 'F2 unused: X from X', 'F3')
    yield accepted('read_and_then_overwritten.adb', longer(OUT_XY, 'X, Y from', 'X := 1', 'Y := X', 'X := 2'), 3)
    yield refused('read_by_what_is_overwritten.adb',
                  longer(A_TO_XY, 'X from & Y from A', '@X := A', '@Y := X', 'Y := A', 'X := 2'), 'F3', 'F3')
    yield refused('overwritten_in_the_middle.adb',
                  longer(A_TO_X, 'X from A', '@X := A', '@X := 1', 'X := A'), 'F3', 'F3')
    yield accepted('back_and_forth.adb',
                   longer(A_TO_XY, 'X, Y from A', 'X := A', 'Y := X', 'X := Y'), 3)
    yield accepted('flow_of_a_difference_through_a_copy.adb',
                   longer(IN_OUT_AB, BOTH, 'B := B - A', 'A := B', pre='A = 0'), 3)
    yield refused('flow_of_a_difference_through_a_copy_missing.adb',
                  longer(IN_OUT_AB, '@A from B & @B from A', 'B := B - A', 'A := B', pre='A = 0'),
                  'F1 missing: A from A', 'F1 missing: B from B')
    yield accepted('out_read_behind_its_assignment.adb',
                   longer(OUT_X, 'X from', 'X := 1', 'X := X + 1', 'X := X - 1'), 5)
    yield refused('out_read_before_its_assignment.adb', longer(OUT_XY, 'X, @Y from', 'Y := @X', 'X := 1'),
                  'F1 missing: Y from X', 'F4 unset: X')
    yield refused('out_read_in_its_first_assignment.adb', longer(OUT_X, 'X from', '@X := @X', 'X := 1'),
                  'F3', 'F4 unset: X')
    yield refused('out_read_in_a_sum_before_its_assignment.adb',
                  longer(A_TO_XY, '@X, @Y from A', 'X := A', 'X := X - @Y', 'Y := X'),
                  'F1 missing: X from Y', 'F1 missing: Y from Y', 'F4 unset: Y')
    yield refused('export_left_unset_behind_two_statements.adb',
                  at_end(longer(OUT_XY, 'X, @Y from', 'X := 1', 'X := X')), 'F1 missing: Y from Y', 'F4 unset: Y')
    yield accepted('exports_set_in_turn.adb', longer(OUT_XY, 'X, Y from', 'X := 1', 'Y := 2'), 2)
    yield accepted('flow_through_another_export.adb',
                   longer(A_TO_XY, 'X, Y from A', 'X := A', 'Y := X'), 2)
    yield refused('flow_through_another_export_missing.adb',
                  longer(A_TO_XY, 'X from A & @Y from', 'X := A', 'Y := X'), 'F1 missing: Y from A')
    yield refused('flow_declared_from_what_it_leads_through.adb',
                  longer(A_X_TO_Y, 'X from A & @@Y from X', 'X := A', 'Y := X'),
                  'F1 missing: Y from A', 'F2 unused: Y from X')
    yield refused('flow_from_an_overwritten_variable.adb',
                  longer(A_X_TO_Y, '@X from A, X & Y from A', 'X := A', 'Y := X'), 'F2 unused: X from X')
    yield accepted('flow_from_before_it_is_overwritten.adb',
                   longer(A_X_TO_Y, 'X from A & Y from X', 'Y := X',
                          'X := A'), 2)
    yield refused('flow_from_before_it_is_overwritten_exchanged.adb',
                  longer(A_X_TO_Y, '@@X from X & @@Y from A', 'Y := X', 'X := A'),
                  'F1 missing: X from A', 'F2 unused: X from X', 'F1 missing: Y from X', 'F2 unused: Y from A')
    yield refused('exchange_declared_the_other_way.adb',
                  longer(SWAP, 'A from B & B from A & @@T from B', 'T := A', 'A := B', 'B := T'),
                  'F1 missing: T from A', 'F2 unused: T from B')
    yield refused('exchange_without_a_third_variable.adb',
                  longer(IN_OUT_AB, 'A from B & @@B from A', 'A := B', 'B := A'),
                  'F1 missing: B from B', 'F2 unused: B from A')
    yield accepted('copy_in_turn.adb',
                   longer('A : out Integer; B : in out Integer', 'A, B from B', 'A := B', 'B := A'), 2)
    yield refused('unused_flow_of_the_second_statement.adb',
                  longer(A_AND_X, '@X from X, A', 'X := X', 'X := X - 0'), 'F2 unused: X from A')
    yield accepted('flow_of_the_second_statement.adb',
                   longer(A_AND_X, 'X from X, A', 'X := X', 'X := X - A', pre='A = 0'), 3)
    yield accepted('flow_of_a_difference_with_itself.adb',
                   longer(A_TO_X, 'X from A', 'X := A', 'X := X - X', pre='A = 0'), 3)
    yield accepted('three_in_a_row.adb',
                   longer('A : in Integer; X, Y, Z : out Integer', 'X, Y, Z from A', 'X := A', 'Y := X', 'Z := Y'), 3)
    yield refused('three_in_a_row_too_early.adb',
                  longer('A : in Integer; X, Y, Z : out Integer', 'X, Y, @@Z from A', 'X := A', 'Z := @Y', 'Y := X'),
                  'F1 missing: Z from Y', 'F2 unused: Z from A', 'F4 unset: Y')
    yield accepted('statements_over_words_in_another_case.adb', longer(A_TO_X, 'x from a', 'x := a', 'X := x'), 2)


def several():
    """Files of several procedures, and of none."""
    decrement = longer(X, 'X from X', 'X := X @- 1', name='Dec')
    same = longer(X, 'X from X', 'X := X', name='Same')
    yield examined('empty.adb', '')
    yield examined('line_end_alone.adb', '\n')
    yield examined('blanks_alone.adb', '  \t\n \r\n\f\n')
    yield examined('comments_alone.adb', '-- procedure Inc\n--\n')
    yield examined('comment_alone_without_line_end.adb', '-- nothing')
    yield examined('marks_alone.adb', '--#\n--#\n')
    yield examined('comment_behind_a_mark_alone.adb', '--# -- nothing\n')
    yield unexpected('semicolon_alone.adb', ';\n', at=(1, 1))
    yield unexpected('name_alone.adb', 'Inc\n', at=(1, 1))
    yield bad_byte('comment_and_a_bad_byte.adb', '-- nothing\n_\n', at=(2, 1))
    yield unexpected('annotation_alone.adb', '--# derives X from X;\n', at=(1, 5))
    yield examined('two_procedures.adb', INC + same, ('Inc', 2), ('Same', 1))
    yield examined('two_procedures_in_another_order.adb', same + INC, ('Same', 1), ('Inc', 2))
    yield examined('two_procedures_in_one_line.adb', INC[:-1] + same, ('Inc', 2), ('Same', 1))
    yield examined('three_procedures.adb', INC + '\n\n' + same + '-- last\n' + procedure('X', name='Z', end=None),
                   ('Inc', 2), ('Same', 1), ('Z', 1))
    yield examined('thirty_procedures.adb', ''.join(short(f'P_{n}') for n in range(30)),
                   *((f'P_{n}', 1) for n in range(30)))
    yield examined('first_procedure_unproved.adb', decrement + INC, ('Dec', 2, 1), ('Inc', 2))
    yield examined('second_procedure_unproved.adb', INC + decrement, ('Inc', 2), ('Dec', 2, 1))
    yield examined('both_procedures_unproved.adb', procedure('X @+ 1') + decrement, ('Inc', 2, 1), ('Dec', 2, 1))
    yield examined('several_conditions_of_two_procedures.adb',
                   longer(X, 'X from X', 'X := X @+ 1', 'X := X @+ 1') + same
                   + longer(A_TO_X, 'X from A', 'X := A @- 1 @- 1', name='Less'),
                   ('Inc', 4, 1, 3), ('Same', 1), ('Less', 3, 1, 2))
    yield examined('facts_of_one_procedure_are_not_those_of_another.adb',
                   INC + procedure('X @+ 1', name='Next', end='Next'), ('Inc', 2), ('Next', 2, 1))
    yield examined('procedures_with_other_formals.adb', INC + longer(A_TO_X, 'X from A', 'X := A', name='Copy'),
                   ('Inc', 2), ('Copy', 1))
    yield examined('formal_named_as_another_procedure.adb', INC + short('Same', 'Inc') + short('Third', 'Same'),
                   ('Inc', 2), ('Same', 1), ('Third', 1))
    yield examined('procedure_named_as_the_formal_of_another.adb', INC + short('X', 'Y'), ('Inc', 2), ('X', 1))
    yield examined('comments_and_marks_between_procedures.adb', INC + '--#\n-- next\n--# -- then\n' + same,
                   ('Inc', 2), ('Same', 1))
    yield refused('two_procedures_of_one_name.adb', INC + INC.replace('Inc', '@Inc', 1), 'N2')
    yield refused('two_procedures_of_one_name_in_two_cases.adb', short('Same') + short('@SAME'), 'N2')
    yield refused('two_procedures_of_one_name_apart.adb', short('A') + short('B') + short('@a'), 'N2')
    yield refused('second_procedure_named_integer.adb', INC + short('@Integer'), 'N2')
    yield bad_byte('second_procedure_breaks_the_lexis.adb', INC + same.replace('X;', 'X_;'), at=(9, 21))
    yield unexpected('second_procedure_breaks_the_grammar.adb', INC + same.replace('begin', ''), at=(12, 6))
    yield refused('second_procedure_breaks_a_rule_on_names.adb', INC + procedure('@Y', name='Same', end='Same'), 'N1')
    yield refused('second_procedure_breaks_a_rule_on_types.adb',
                  INC + procedure('X @= 1', name='Same', end='Same'), 'N10')
    yield refused('second_procedure_breaks_a_static_rule.adb',
                  INC + same.replace('in out', 'in').replace('derives X', 'derives @X'), 'U8')
    yield refused('second_procedure_breaks_its_flow.adb',
                  INC + procedure('1', derives='@X from X', name='Same', end='Same'), 'F2 unused: X from X')
    yield refused('first_procedure_breaks_its_flow.adb', procedure('1', derives='@X from X') + same,
                  'F2 unused: X from X')
    yield refused('broken_and_unproved.adb', procedure('X + 1') + procedure('@Y', name='Same', end='Same'), 'N1')
    yield refused('later_procedure_for_an_operand.adb', procedure('X + @Same', pre='X = 0') + same, 'N1')
    yield refused('earlier_procedure_for_an_operand.adb', same + procedure('@Same'), 'N1')
    yield refused('later_procedure_for_a_type.adb', procedure('X', type_mark='@Same') + same, 'N1')
    yield refused('earlier_procedure_in_a_precondition.adb', same + procedure('X', pre='@Same < 0'), 'N1')
    yield refused('formal_of_an_earlier_procedure.adb', short('Same', 'Y') + procedure('X - @Y'), 'N1')
    yield refused('formal_of_a_later_procedure.adb', procedure('X - @Y') + short('Same', 'Y'), 'N1')
    yield refused('end_names_exchanged.adb',
                  procedure('X', end='@Same') + procedure('X', name='Same', end='Inc'), 'N5')
    yield refused('end_name_of_the_procedure_before.adb', INC + procedure('X', name='Same', end='@Inc'), 'N5')
    yield unexpected('semicolon_between_procedures.adb', INC + ';\n' + same, at=(8, 1))
    yield unexpected('annotation_between_procedures.adb', INC + '--# pre X < 0;\n' + same, at=(8, 5))
    yield unexpected('name_between_procedures.adb', INC + 'Inc\n' + same, at=(8, 1))
    yield unexpected('procedure_in_a_procedure.adb', COPY.replace('begin', same + 'begin'), at=(4, 1))
    yield unexpected('second_procedure_cut_off.adb', INC + same[:-2], at=(13, 9))
    yield unexpected('second_procedure_marked.adb', INC + '--# ' + same, at=(8, 5))


def optional_parts():
    """Each combination of formals, `derives`, a precondition, locals and a name after `end`."""
    for formals, derives, pre, local, end_name in product((True, False), repeat=5):
        parts = {'formals': formals, 'derives': derives, 'pre': pre, 'local': local, 'end_name': end_name}
        name = f'with_{"_".join(part for part, is_there in parts.items() if is_there) or "no_part"}.adb'
        text = longer(X if formals else None, 'X from X' if derives else None, 'null', pre='1 < 2' if pre else None,
                      declared=T if local else ())
        text = text if end_name else text.replace('end Inc', 'end')
        # formals must be in a relation, and what is not declared cannot be in one
        if formals == derives:
            yield accepted(name, text, 0)
        elif formals:
            yield refused(name, '@' + text, 'U7')
        else:
            yield refused(name, text.replace('derives X', 'derives @X'), 'N1')
    yield refused('no_formals_and_pre_over_a_name.adb', longer(None, None, 'null', pre='@X < 1'), 'N1')
    yield refused('no_formals_and_pre_over_a_local.adb', longer(None, None, 'null', pre='@T < 1', declared=T), 'N1')
    yield refused('no_formals_and_pre_that_is_none.adb', longer(None, None, 'null', pre='@1'), 'N10')
    yield refused('no_formals_and_derives_over_a_type.adb', longer(None, '@Integer from', 'null'), 'N3')
    yield refused('no_formals_and_derives_over_the_procedure.adb', longer(None, '@Inc from Inc', 'null'), 'N3')
    yield refused('no_formals_and_derives_over_an_attribute.adb', longer(None, "@Integer'First from", 'null'), 'N3')
    yield refused('no_formals_and_derives_over_a_local.adb', longer(None, '@T from', 'T := 1', declared=T), 'N1')
    yield refused('no_formals_and_a_target.adb', longer(None, None, '@X := 1'), 'N1')
    yield refused('no_formals_and_a_local_that_is_assigned.adb', longer(None, None, '@T := 1', declared=T), 'F3')
    yield refused('formals_of_mode_in_alone.adb', '@' + longer('A : in Integer', None, 'null'), 'U7')
    yield refused('formals_of_mode_out_and_no_derives.adb', '@' + longer(OUT_X, None, 'X := 1'), 'U7')
    yield refused('no_derives_in_the_second_procedure.adb', INC + '@' + longer(X, None, 'X := X', name='Same'), 'U7')
    yield unexpected('no_formals_and_an_opening_parenthesis.adb', 'procedure Inc (@is begin null; end;\n')
    yield unexpected('no_formals_and_a_closing_parenthesis.adb', 'procedure Inc @) is begin null; end;\n')
    yield unexpected('no_formals_and_a_semicolon.adb', 'procedure Inc@; is begin null; end;\n')
    yield unexpected('no_formals_and_empty_parentheses.adb', 'procedure Inc (@) is begin null; end;\n')
    yield unexpected('marked_is_without_formals.adb', 'procedure Inc --# @is\nbegin null; end;\n')
    yield unexpected('derives_behind_pre_without_formals.adb',
                     'procedure Inc\n--# pre 1 < 2;\n--# @derives X from X;\nis begin null; end;\n')


def attributes():
    """An attribute in each place of a name, and where no name of this form may be."""
    for label, (rule, attribute) in {'of_a_type': ('N3', "@Integer'Last"), 'of_a_variable': ('N3', "@X'First"),
                                     'of_the_procedure': ('N3', "@Inc'Last"), 'of_nothing': ('N1', "@Y'First"),
                                     'of_no_name': ('N3', "@Integer'Size")}.items():
        yield refused(f'attribute_{label}_for_a_target.adb', procedure('X', target=attribute), rule)
        hidden = label in ('of_a_variable', 'of_the_procedure')  # in the declaration of the formal itself
        yield refused(f'attribute_{label}_for_a_type.adb', procedure('X', type_mark=attribute), 'N1' if hidden else rule)
        yield refused(f'attribute_{label}_for_a_type_of_locals.adb',
                      longer(X, 'X from X', 'X := X', declared=['T : ' + attribute]), rule)
        yield refused(f'attribute_{label}_for_an_export.adb', procedure('X', derives=f'X, {attribute} from X'), rule)
        yield refused(f'attribute_{label}_for_an_import.adb', procedure('X', derives=f'X from {attribute}, X'), rule)
        yield refused(f'attribute_{label}_behind_the_star.adb', procedure('X', derives=f'X from *, {attribute}'), rule)
    yield unexpected('attribute_for_the_procedure.adb', procedure('X', name="Inc@'First"))
    yield unexpected('attribute_for_a_formal.adb', procedure('X', formals="X@'First"))
    yield unexpected('attribute_for_a_second_formal.adb', procedure('X', formals="X, Y@'First"))
    yield unexpected('attribute_for_a_local.adb', longer(X, 'X from X', 'X := X', declared=["T@'First : Integer"]))
    yield unexpected('attribute_for_a_second_local.adb',
                     longer(X, 'X from X', 'X := X', declared=["T, U@'First : Integer"]))
    yield unexpected('attribute_for_an_end_name.adb', procedure('X', end="Inc@'First"))
    yield refused('attribute_of_an_attribute_for_a_target.adb', procedure('X', target="@Integer'First'Last"), 'N3')
    yield refused('attribute_of_an_attribute_for_a_type.adb', procedure('X', type_mark="@Integer'Base'Base"), 'N3')
    yield refused('attribute_of_an_attribute_for_an_import.adb', procedure('X', derives="X from @X'First'Last"), 'N3')
    yield unexpected('attribute_of_parentheses.adb', procedure("(Integer)@'First", **OUT))
    yield refused('parentheses_behind_an_apostrophe.adb', procedure("Integer'(@First)", **OUT), 'N1')
    yield unexpected('parentheses_for_a_target.adb', COPY.replace('   X', '   @(X)'))
    yield refused('parentheses_behind_a_target.adb', COPY.replace('   X', '   @X (1)'), 'N3')
    yield unexpected('sign_for_a_target.adb', COPY.replace('   X', '   @-X'))
    yield unexpected('marked_apostrophe_in_a_target.adb', procedure('X', target="Integer --# @'\nFirst"))
    yield unexpected('unmarked_apostrophe_in_an_import.adb', procedure('X', derives="X from X\n@'\n--# First"))


def with_local(*declared, first='T := X', last='X := T', pre=None):
    """The text of a procedure with these declarations, through which `X` goes to itself."""
    return longer(X, 'X from X', first, last, pre=pre, declared=declared)


def declared_locals():
    """Declarations of locals, and what names denote with them."""
    yield accepted('local.adb', with_local(*T))
    yield accepted('two_locals.adb', longer(X, 'X from X', 'T := X', 'U := T', 'X := U', declared=T_AND_U), 3)
    yield accepted('two_declarations.adb',
                   longer(X, 'X from X', 'T := X', 'U := T', 'X := U', declared=[*T, 'U : Integer']), 3)
    yield accepted('fifty_locals.adb',
                   longer(X, 'X from X', 'T_0 := X', *(f'T_{n + 1} := T_{n}' for n in range(49)), 'X := T_49',
                          declared=[f'T_{n} : Integer' for n in range(50)]), 51)
    yield accepted('local_in_other_cases.adb', with_local('t : INTEGER'))
    yield accepted('local_on_several_lines.adb', with_local('T -- a local\n :\nInteger\n'))
    yield accepted('empty_mark_between_declarations.adb', with_local('T : Integer', 'U --#\n : Integer'))
    yield accepted('local_that_is_not_used.adb', longer(X, 'X from X', 'X := X', declared=T), 1)
    yield accepted('local_named_as_the_procedure.adb', with_local('Inc : Integer', first='INC := X', last='X := inc'))
    yield accepted('local_named_as_an_attribute.adb', with_local('Last : Integer', first='Last := X', last='X := Last'))
    for word in ANNOTATION:
        yield accepted(f'local_named_{word}.adb', with_local(f'{word} : Integer', first=f'{word} := X',
                                                             last=f'X := {word}'))
    yield examined('local_named_as_another_procedure.adb', with_local(*T) + longer(None, None, 'null', name='T'),
                   ('Inc', 2), ('T', 0))
    yield examined('locals_of_two_procedures.adb',
                   with_local(*T) + longer(X, 'X from X', 'T := X', 'X := T', declared=T, name='Same'),
                   ('Inc', 2), ('Same', 2))
    for name, (rule, *declared) in {'named_as_a_formal': ('N2', 'T, @X : Integer'),
                                    'named_as_a_formal_in_another_case': ('N2', 'T : Integer', '@x : Integer'),
                                    'twice': ('N2', 'T, @T : Integer'),
                                    'twice_in_two_cases': ('N2', 'T, U, @t : Integer'),
                                    'in_two_declarations': ('N2', 'T : Integer', 'U : Integer', '@T : Integer'),
                                    'named_integer': ('N2', 'T : Integer', '@Integer : Integer'),
                                    'named_integer_in_upper_case': ('N2', 'T, @INTEGER : Integer'),
                                    'of_no_type': ('N1', 'T : @Count'), 'of_a_formal': ('N3', 'T : @X'),
                                    'of_the_procedure': ('N3', 'T : @Inc'), 'of_itself': ('N1', 'T : @T'),
                                    'of_the_next_one': ('N1', 'T, U : @U'),
                                    'of_a_local_before': ('N3', 'U : Integer', 'T : @U'),
                                    'of_a_local_behind': ('N1', 'T : @U', 'U : Integer')}.items():
        yield refused(f'local_{name}.adb', with_local(*declared), rule)
    yield refused('local_named_as_the_procedure_for_a_type.adb', with_local('T : Integer', 'Inc : @Inc'), 'N1')
    yield refused('local_of_its_own_name_and_an_outer_one.adb', with_local('Inc, T : @INC'), 'N1')
    yield refused('local_that_hides_the_procedure_for_a_type.adb', with_local('Inc : Integer', 'T : @Inc'), 'N3')
    yield refused('local_for_a_type_of_a_formal.adb',
                  longer('X : in out @T', 'X from X', 'T := X', 'X := T', declared=T), 'N1')
    yield refused('local_for_an_export.adb', longer(X, 'X, @T from X', 'T := X', 'X := T', declared=T), 'N1')
    yield refused('local_for_an_import.adb', longer(X, 'X from X, @T', 'T := X', 'X := T', declared=T), 'N1')
    yield refused('local_in_pre.adb', with_local(*T, pre='@T < 1'), 'N1')
    yield refused('local_that_hides_the_procedure_in_pre.adb',
                  with_local('Inc : Integer', first='Inc := X', last='X := Inc', pre='@Inc < 1'), 'N3')
    yield refused('attribute_of_a_local.adb', longer(OUT_X, 'X from', "X := @T'First", declared=T), 'N3')
    yield refused('local_for_an_end_name.adb', with_local(*T).replace('end Inc', 'end @T'), 'N5')
    yield refused('local_of_an_earlier_procedure.adb',
                  with_local(*T) + longer(X, 'X from X', '@T := X', 'X := T', name='Same'), 'N1')
    yield refused('local_of_a_later_procedure.adb',
                  with_local(first='@T := X') + longer(X, 'X from X', 'T := X', 'X := T', declared=T, name='Same'),
                  'N1')
    for name, declared in {'of_mode_in': 'T : @in Integer', 'of_mode_out': 'T : @out Integer',
                           'with_an_equals_sign': 'T : Integer @= 0', 'that_is_constant': 'T : constant Integer@',
                           'without_type': 'T@', 'with_two_types': 'T : Integer @Integer',
                           'and_a_comma': 'T : Integer@, U : Integer', 'behind_a_comma': '@, T : Integer',
                           'before_a_comma': 'T, @: Integer', 'of_no_name': '@: Integer', 'that_is_missing': '@',
                           'of_a_number': 'T : @1', 'in_parentheses': '@(T : Integer)',
                           'that_is_a_type': 'type T is @new Integer', 'that_is_null': '@null',
                           'that_is_marked': '--# @T : Integer', 'with_a_marked_colon': 'T --# @:\nInteger',
                           'that_begins_marked_text': 'T : Integer --# @'}.items():
        yield unexpected(f'local_{name}.adb', with_local(declared))
    yield unexpected('local_behind_begin.adb', COPY.replace('begin\n', 'begin\n   T @: Integer;\n'))
    yield unexpected('local_behind_a_statement.adb', COPY.replace('end', '   T @: Integer;\nend'))
    yield unexpected('local_before_is.adb', COPY.replace('is\n', '@T : Integer;\nis\n'))
    yield unexpected('procedure_among_the_locals.adb', with_local('T : Integer;\n@procedure Same'))


def flow_of_locals():
    """Flow through locals, which are unset at the start."""
    def body(*statements, params=X, derives='X from X', pre=None):
        return longer(params, derives, *statements, pre=pre, declared=T_AND_U)

    yield accepted('exchange_through_a_local.adb',
                   body('T := A', 'A := B', 'B := T', params=IN_OUT_AB, derives='A from B & B from A'), 3)
    yield accepted('out_through_a_local.adb', body('T := A', 'X := T', params=A_TO_X, derives='X from A'))
    yield accepted('literal_through_a_local.adb', body('T := 5', 'X := T + 1', params=OUT_X, derives='X from'), 3)
    yield accepted('local_that_is_assigned_twice.adb', body('T := X', 'T := T', 'X := T'), 3)
    yield accepted('local_that_is_read_and_then_overwritten.adb', body('T := X', 'X := T', 'T := X', 'X := T'), 4)
    yield accepted('two_exports_from_one_local.adb',
                   body('T := A', 'X := T', 'Y := T', params=A_TO_XY, derives='X, Y from A'), 3)
    yield refused('local_read_unset.adb', body('X := @T + X'), 'F4 unset: T')
    yield refused('local_read_unset_behind_another.adb', body('T := X', 'X := T - @U'), 'F4 unset: U')
    yield refused('local_read_before_its_assignment.adb', body('U := @T', 'T := X', 'X := T - U'), 'F4 unset: T')
    yield refused('local_read_in_its_first_assignment.adb', body('T := @T + X', 'X := T'), 'F4 unset: T')
    yield refused('local_read_unset_behind_a_sign.adb', body('X := -@T + X'), 'F4 unset: T')
    yield refused('local_read_unset_in_parentheses.adb', body('X := X - (@T)'), 'F4 unset: T')
    yield refused('local_that_is_lost.adb', body('@T := X', 'X := X'), 'F3')
    yield refused('local_that_is_overwritten.adb', body('@T := 1', 'T := X', 'X := T'), 'F3')
    yield refused('local_that_is_lost_at_the_end.adb', body('T := X', 'X := T', '@T := X'), 'F3')
    yield refused('local_that_is_read_by_a_lost_one.adb', body('@T := X', '@U := T', 'X := X'), 'F3', 'F3')
    yield refused('locals_that_are_lost_in_turn.adb', body('@T := 1', '@U := T', '@T := U', 'X := X'),
                  'F3', 'F3', 'F3')
    yield refused('import_that_is_kept_in_a_lost_local.adb', body('@T := X', 'X := 1', derives='@X from X'),
                  'F2 unused: X from X', 'F3')
    yield refused('flow_through_a_local_missing.adb',
                  body('T := A', 'B := B + T', params=IN_OUT_AB, derives='A from A & @B from B', pre='A = 0'),
                  'F1 missing: B from A')
    yield refused('flow_through_two_locals_missing.adb',
                  body('T := A', 'U := T', 'B := B - U', params=IN_OUT_AB, derives='A, @B from *', pre='A = 0'),
                  'F1 missing: B from A')
    yield refused('flow_through_a_local_unused.adb',
                  body('T := B', 'B := T', params=IN_OUT_AB, derives='A from A & @B from A, B'),
                  'F2 unused: B from A')
    yield refused('flow_cut_by_a_local.adb', body('@T := X', 'T := 1', 'X := T', derives='@X from X'),
                  'F2 unused: X from X', 'F3')
    yield refused('local_to_a_formal_of_mode_in.adb',
                  body('T := A', 'X := T', '@A := T', params=A_TO_X, derives='X from A'), 'U2')
    yield refused('export_left_unset_beside_a_local.adb',
                  at_end(body('@T := A', params=A_TO_X, derives='@@X from A')),
                  'F1 missing: X from X', 'F2 unused: X from A', 'F3', 'F4 unset: X')


def nulls():
    """`null`, which does nothing."""
    yield accepted('null_first.adb', longer(X, 'X from X', 'null', 'X := X'), 1)
    yield accepted('null_thrice.adb', longer(X, 'X from X', 'null', 'null', 'null'), 0)
    yield accepted('null_in_upper_case.adb', longer(X, 'X from X', 'NULL'), 0)
    yield accepted('null_in_one_line.adb', COPY.replace('X := X;', 'null;X := X;null;'), 1)
    yield accepted('null_on_several_lines.adb', longer(X, 'X from X', 'null -- nothing\n\n --#\n'), 0)
    yield accepted('null_for_two_formals.adb', longer(IN_OUT_AB, 'A, B from *', 'null'), 0)
    yield examined('null_among_increments.adb',
                   longer(X, 'X from X', 'null', 'X := X @+ 1', 'null', 'null', 'X := X @+ 1', 'null'),
                   ('Inc', 4, 1, 3))
    yield refused('null_for_an_exchange.adb', longer(IN_OUT_AB, '@@A from B & @@B from A', 'null'),
                  'F1 missing: A from A', 'F2 unused: A from B', 'F1 missing: B from B', 'F2 unused: B from A')
    yield refused('null_for_a_formal_of_mode_out.adb', at_end(longer(OUT_X, '@X from', 'null')),
                  'F1 missing: X from X', 'F4 unset: X')
    yield refused('null_for_in_and_out.adb', at_end(longer(A_TO_X, '@@X from A', 'null')),
                  'F1 missing: X from X', 'F2 unused: X from A', 'F4 unset: X')
    yield refused('null_for_an_overwritten_variable.adb', longer(X, '@X from', 'null'), 'U8')
    yield refused('null_between_a_value_and_the_one_that_overwrites_it.adb',
                  longer(OUT_X, 'X from', '@X := 1', 'null', 'X := 2'), 'F3')
    yield unexpected('null_for_a_value.adb', procedure('@null', **OUT))
    yield unexpected('null_for_a_target.adb', COPY.replace('   X :=', '   null @:='))
    yield unexpected('null_and_a_name.adb', longer(X, 'X from X', 'null @X'))
    yield unexpected('null_and_a_number.adb', longer(X, 'X from X', 'null @1'))
    yield unexpected('null_twice_in_one_statement.adb', longer(X, 'X from X', 'null @null'))
    yield unexpected('null_with_an_attribute.adb', longer(X, 'X from X', "null@'First"))
    yield unexpected('null_in_parentheses.adb', longer(X, 'X from X', '@(null)'))
    yield unexpected('null_without_semicolon.adb', COPY.replace('   X := X;\n', '   null\n@'))
    yield unexpected('null_and_two_semicolons.adb', longer(X, 'X from X', 'null;@'))
    yield unexpected('null_that_is_marked.adb', COPY.replace('   X := X;', '--# @null;'))
    yield unexpected('null_for_an_import.adb', procedure('X', derives='X from @null'))
    yield unexpected('null_for_a_precondition.adb', procedure('X', pre='@null'))
    yield unexpected('null_behind_is.adb', COPY.replace('is\n', 'is @null;\n'))
    yield unexpected('null_behind_the_end.adb', COPY + '@null;\n')


def missing_signs():
    """The text with locals without one of its signs, which leaves conditions open, or without an operand."""
    whole = spelled(LOCAL_TOKENS)
    # -A may be 2147483648, and so may be what is after: -A + 1
    yield examined('missing_sign_in_pre.adb',
                   whole.replace('( - A )', '( A )').replace(':= -', ':= @-').replace('T +', 'T @+'),
                   ('Neg', 5, 1, 3))
    # nothing bounds A, which T is, from above
    yield examined('missing_sign.adb', whole.replace(':= - (', ':= (').replace('T +', 'T @+'), ('Neg', 4, 2))
    # a sign is left, and T is lost
    yield refused('missing_first_held_operand.adb',
                  whole.replace('derives X', 'derives @X').replace('T :=', '@T :=').replace('T + 1', '+ 1'),
                  'F2 unused: X from A', 'F3')


def signs_of_numbers():
    """Static values after signs and in parentheses."""
    for name, value in {'minus_of_the_widest_integer': '-2147483647', 'minus_of_a_wide_literal': '-2147483648',
                        'minus_of_a_wide_literal_in_parentheses': '-(2147483648)',
                        'minus_of_a_wide_sum': '-(2147483647 + 1)', 'minus_of_a_minus': '-(-2147483647)',
                        'plus_of_a_literal': '+2147483647', 'plus_of_a_minus': '+(-2147483648)',
                        'minus_of_zero': '-0', 'minus_before_a_sum': '-2147483649 + 1',
                        'minus_before_a_difference': '-2147483647 - 1', 'minus_of_last': '-' + LAST,
                        'minus_of_last_and_one': f'-{LAST} - 1', 'plus_of_first': '+' + FIRST,
                        'minus_of_a_sum_over_first': f'-({FIRST} + 1)', 'minus_of_an_attribute': f'-({LAST})',
                        'difference_in_parentheses': '2147483648 - (1)', 'right_sum_in_parentheses': '1 - (1 - 1)',
                        'parentheses_around_all': f'({LAST})', 'many_parentheses': '(((((1)))))',
                        'minus_of_the_widest_literal': f'-{WIDEST} + {WIDEST}',
                        'minus_down_to_the_lowest_value': f'-{WIDEST} - 1 + {WIDEST}',
                        'literals_that_nest_to_the_right': f'{WIDEST} - ({WIDEST} - 1)'}.items():
        yield accepted(f'static_{name}.adb', procedure(value, **OUT), 1)
    for name, value in {'minus_past_the_smallest_integer': '@-2147483649', 'minus_of_first': '@-' + FIRST,
                        'minus_of_first_in_parentheses': f'@-({FIRST})', 'minus_of_first_and_one': f'@-{FIRST} - 1',
                        'minus_of_last_and_two': f'-{LAST} @- 2', 'plus_past_the_largest_integer': '@+2147483648',
                        'wide_literal_in_parentheses': '@(2147483648)', 'minus_of_a_minus': '@-(-2147483648)',
                        'minus_of_the_widest_literal': '@-' + WIDEST,
                        'minus_below_the_lowest_value': f'-{WIDEST} @- 2 + {WIDEST}',
                        'minus_of_the_lowest_value': f'@-(-{WIDEST} - 1) - {WIDEST}',
                        'sum_past_last_in_parentheses': f'({LAST} @+ 1) - 1',
                        'sum_past_last_behind': f'1 - ({LAST} @+ 1)',
                        'wide_literal_in_parentheses_beside_last': f'{LAST} - @(2147483648)'}.items():
        yield refused(f'past_its_type_{name}.adb', procedure(value, **OUT), 'N12')


def signs_and_types():
    """What is no Integer and what is no condition, and what is read after a sign and in parentheses."""
    for name, (rule, value) in {'a_comparison': ('N10', '@(X = 1)'),
                                'a_comparison_in_more_parentheses': ('N10', '@((X < X))'),
                                'minus_of_a_comparison': ('N10', '@-(X = 1)'),
                                'plus_of_a_comparison': ('N10', '@+(X = 1)'),
                                'minus_of_a_static_comparison': ('N10', '@-(1 = 1) + X'),
                                'a_comparison_on_the_left': ('N10', '(X = 1) @+ X'),
                                'a_comparison_on_the_right': ('N10', 'X @- (X = 1)'),
                                'a_comparison_beside_a_literal': ('N10', '(X = X) @+ 1'),
                                'a_wide_literal_on_the_right': ('N12', 'X + @(2147483648)'),
                                'a_wide_sum_on_the_right': ('N12', 'X - @(2147483647 + 1)'),
                                'a_wide_minus_on_the_left': ('N12', '@-2147483649 + X'),
                                'a_minus_of_first_on_the_left': ('N12', f'@-{FIRST} + X'),
                                'an_undeclared_name': ('N1', '-(X - (@Y))'), 'a_type': ('N3', '-@Integer'),
                                'the_procedure': ('N3', '(@Inc)')}.items():
        yield refused(f'value_with_{name}.adb', procedure(value, pre='X = 0'), rule)
    for name, (rule, pre) in {'a_comparison_of_a_comparison': ('N10', '(X = X) @= X'),
                              'a_comparison_with_a_comparison': ('N10', 'X @< (X = X)'),
                              'two_comparisons': ('N10', '(X = X) @< (X = X)'),
                              'two_static_comparisons': ('N10', '(1 = 1) @<= (2 = 2)'),
                              'a_comparison_in_a_sum': ('N10', '(X = X) @+ 1 > 0'),
                              'minus_of_a_comparison': ('N10', '@-(X < 5)'),
                              'plus_of_a_comparison': ('N10', '@+(X < 5)'), 'a_name_in_parentheses': ('N10', '@(X)'),
                              'minus_of_a_name': ('N10', '@-X'), 'a_sum_in_parentheses': ('N10', '@(X + 1)'),
                              'a_wide_minus': ('N12', 'X > @-2147483649'),
                              'minus_below_a_wide_literal': ('N12', '-X < @2147483648'),
                              'minus_of_first': ('N12', f'X > @-{FIRST}'),
                              'an_undeclared_name_in_parentheses': ('N1', '(@Y) < 5'),
                              'an_undeclared_name_behind_a_sign': ('N1', 'X < -@Y')}.items():
        yield refused(f'pre_of_{name}.adb', procedure('X', pre=pre), rule)
    yield refused('pre_with_a_sign_over_a_formal_of_mode_out.adb', procedure('5', pre='0 < -(@X)', **OUT), 'U11')
    for name, pre in {'minus_of_a_wide_literal': 'X > -2147483648', 'parentheses': '(X > 0)',
                      'many_parentheses': '(((X)) > (0))', 'parentheses_around_each': '(X) > (0)',
                      'a_minus_on_the_left': '-5 < X', 'a_sum_behind_a_minus': 'X >= -5 + 3',
                      'a_plus_on_both_sides': '+X > +0', 'a_minus_of_parentheses': 'X > -(1 + 1)',
                      'parentheses_on_the_right': 'X > 5 - (3 - 1)'}.items():
        yield accepted(f'decrement_with_pre_of_{name}.adb', procedure('X - 1', pre=pre))
    yield refused('flow_behind_a_sign_missing.adb',
                  procedure('-B + A', derives='@A from A & B from B', pre='B = 0', **AB), 'F1 missing: A from B')
    yield refused('flow_in_parentheses_missing.adb',
                  procedure('A - (B)', derives='@A from A & B from B', pre='B = 0', **AB), 'F1 missing: A from B')
    yield accepted('flow_behind_a_sign.adb', longer(A_TO_X, 'X from A', 'X := -A', pre='A = 0'))
    yield accepted('flow_of_nothing_behind_a_sign.adb', longer(OUT_X, 'X from', f'X := -({LAST})'), 1)


def signs_and_syntax():
    """Where signs and parentheses cannot be, or are not closed."""
    yield unexpected('value_with_two_hyphens.adb', procedure('--X').replace('end', '@end'))
    yield accepted('tight_locals.adb',
                   'procedure Inc(X:in out Integer)--#derives X from X;pre(X)>-5;\n'
                   'is T,U:Integer;begin null;T:=-(X);X:=-T;end Inc;\n', 4)
    yield accepted('one_token_a_line_without_formals.adb', spelled(SKIP_TOKENS).replace(' ', '\n'), 0, named='Skip')
    yield accepted('parentheses_on_several_lines.adb', procedure('(\nX\n-- one more\n+\n1\n)', pre=BELOW))
    yield accepted('pre_in_parentheses_on_several_lines.adb', procedure(pre="(\n--# X\n\n--# < -\n--# 5\n--# )"))
    yield accepted('parenthesis_right_behind_a_mark.adb', procedure(pre='\n--#(X<0)'))
    # each lexeme is maximal: `->` and `<->` are one in annotation text only
    yield accepted('less_and_a_minus.adb', procedure(pre='X<-5'))
    yield accepted('greater_and_a_minus.adb', procedure('X-1', pre='X>-5'))
    yield accepted('greater_or_equal_and_a_minus.adb', procedure('X-1', pre='X>=-(5)'))
    yield accepted('equal_and_a_plus.adb', procedure('X-1', pre='X=+5'))
    yield refused('minus_and_greater_in_pre.adb', procedure('X', pre='5@->X'), 'N10')
    yield refused('less_minus_and_greater_in_pre.adb', procedure('X', pre='X@<->5'), 'N10')
    yield unexpected('minus_and_greater_in_code.adb', procedure('X-@>X'))
    yield unexpected('star_in_parentheses.adb', procedure('X', derives='X from @(*)'))
    yield unexpected('import_in_parentheses.adb', procedure('X', derives='X from @(X)'))
    yield unexpected('export_in_parentheses.adb', procedure('X', derives='@(X) from X'))
    yield unexpected('import_behind_a_sign.adb', procedure('X', derives='X from @-X'))
    yield unexpected('type_in_parentheses.adb', procedure('X', type_mark='@(Integer)'))
    yield unexpected('formal_in_more_parentheses.adb', procedure('X', formals='@(X)'))
    yield unexpected('end_name_in_parentheses.adb', procedure('X', end='@(Inc)'))
    for name, value in {'a_sign_behind_a_sign': '- @-X', 'a_sign_behind_an_operator': 'X - @-X',
                        'a_plus_behind_a_minus': 'X - @+X', 'a_sign_behind_a_sum': 'X + X + @-1', 'a_sign_alone': '-@',
                        'a_sign_before_an_operator': '-@= X', 'no_operand_in_parentheses': '(@)',
                        'a_sign_alone_in_parentheses': '(-@)', 'two_operands_in_parentheses': '(X @X)',
                        'a_comma_in_parentheses': '(X@, X)', 'an_open_parenthesis': '(X@',
                        'two_open_parentheses': '((X)@', 'a_closed_parenthesis': 'X@)',
                        'two_closed_parentheses': '(X)@)',
                        'parentheses_behind_a_number': '1 @(X)', 'parentheses_behind_parentheses': '(X) @(X)',
                        'a_name_behind_parentheses': '(X) @X', 'a_becomes_in_parentheses': '(X @:= X)',
                        'a_semicolon_in_parentheses': '(X@; )', 'two_relations_in_parentheses': '(X = X @= X)',
                        'a_relation_behind_two': '(X = X) = X @= X',
                        'a_marked_parenthesis': '--# @(\nX)', 'a_marked_sign': '--# @-\nX'}.items():
        yield unexpected(f'value_with_{name}.adb', procedure(value))
    yield unproved('value_with_abs.adb', procedure('@abs X'))
    yield refused('value_with_not.adb', procedure('@not (X)'), 'N10')
    yield open_in_order('value_with_a_product_behind_a_sign.adb', procedure('@-X @* X'), 3, (1, 2), (2, 1))
    for name, pre in {'a_sign_behind_a_sign': '- @-X < 1', 'a_sign_behind_an_operator': 'X + @-1 < 1',
                      'an_open_parenthesis': '(X < 1@', 'a_closed_parenthesis': 'X < 1@)',
                      'no_condition_in_parentheses': '(@)', 'two_relations_in_parentheses': '(X < 1 @< 1)',
                      'a_relation_behind_two': '(X < 1) = X @< 1', 'a_semicolon_in_parentheses': '(X < 1@; )',
                      'an_unmarked_parenthesis': '\n@(\n--# X < 1)',
                      'an_unmarked_closing_parenthesis': '(X < 1\n@)\n--# '}.items():
        yield unexpected(f'pre_with_{name}.adb', procedure('X', pre=pre))


def nested(count, value='1', opening='('):
    """The value in so many parentheses, with what comes before each."""
    return opening * count + value + ')' * count


def levels_of_parentheses():
    """Parentheses and signs open a level each, as operators do."""
    yield accepted('two_hundred_parentheses.adb', procedure(nested(200), **OUT), 1)
    yield too_nested('two_hundred_and_one_parentheses.adb', procedure(nested(201), **OUT))
    yield accepted('two_hundred_parentheses_of_a_variable.adb', procedure(nested(200, 'X')), 1)
    yield too_nested('two_hundred_and_one_parentheses_of_a_variable.adb', procedure(nested(201, 'X')))
    yield accepted('hundred_signs_before_parentheses.adb', procedure(nested(100, opening='-('), **OUT), 1)
    yield accepted('hundred_signs_of_a_variable.adb', procedure(nested(100, 'X', '-('), pre=ABOVE), 101)
    yield accepted('hundred_plus_signs_of_a_variable.adb', procedure(nested(100, 'X', '+(')), 1)
    yield too_nested('two_hundred_and_one_levels_at_a_sign.adb', procedure(nested(100, '-1', '-('), **OUT))
    yield too_nested('two_hundred_and_one_levels_at_a_parenthesis.adb', procedure(nested(100, '(1)', '-('), **OUT))
    yield too_nested('two_hundred_and_one_levels_at_an_operator.adb', procedure(nested(100, '1 + 1', '-('), **OUT))
    yield accepted('two_hundred_levels_at_a_sign.adb', procedure(nested(199, '-1'), **OUT), 1)
    yield too_nested('sign_in_two_hundred_parentheses.adb', procedure(nested(200, '-1'), **OUT))
    yield too_nested('plus_in_two_hundred_parentheses.adb', procedure(nested(200, '+1'), **OUT))
    yield accepted('two_hundred_levels_at_an_operator.adb', procedure(nested(199, '1 + 1'), **OUT), 1)
    yield too_nested('operator_in_two_hundred_parentheses.adb', procedure(nested(200, '1 + 1'), **OUT))
    yield accepted('two_hundred_levels_behind_a_sign.adb', procedure('-' + nested(199), **OUT), 1)
    yield too_nested('two_hundred_parentheses_behind_a_sign.adb', procedure('-' + nested(200), **OUT))


def mixed_levels():
    """Levels of parentheses beside operators, signs and relations."""
    yield accepted('sum_behind_a_sign_of_two_hundred_levels.adb', procedure('-1' + ' + 1' * 199, **OUT), 1)
    yield too_nested('sum_behind_a_sign_of_two_hundred_and_one_levels.adb', procedure('-1' + ' + 1' * 200, **OUT))
    yield accepted('operator_behind_parentheses_at_level_two_hundred.adb', procedure(nested(199) + ' + 1', **OUT), 1)
    yield too_nested('operator_behind_two_hundred_parentheses.adb', procedure(nested(200) + ' + 1', **OUT))
    yield accepted('parentheses_behind_an_operator_at_level_two_hundred.adb', procedure('1 + ' + nested(199), **OUT), 1)
    yield too_nested('two_hundred_parentheses_behind_an_operator.adb', procedure('1 + ' + nested(200), **OUT))
    yield accepted('parentheses_on_both_sides_at_level_two_hundred.adb',
                   procedure(f'{nested(199)} - {nested(199)}', **OUT), 1)
    # each operator is over the parentheses of its right operand, and the first one so makes two levels
    yield accepted('sum_of_parentheses_of_two_hundred_levels.adb', procedure('1' + ' + (1)' * 199, **OUT), 1)
    yield too_nested('sum_of_parentheses_of_two_hundred_and_one_levels.adb', procedure('1' + ' + (1)' * 200, **OUT))
    # the last operand's parentheses are under one operator only
    yield accepted('sum_and_parentheses_of_two_hundred_levels.adb', procedure('1' + ' + 1' * 199 + ' + (1)', **OUT), 1)
    yield accepted('sum_beside_parentheses_of_two_hundred_levels.adb',
                   procedure('1' + ' + 1' * 100 + ' + ' + nested(199), **OUT), 1)
    yield accepted('sums_that_nest_to_the_right.adb', procedure(nested(100, '1', '1 + ('), **OUT), 1)
    yield too_nested('sums_that_nest_to_the_right_too_deep.adb', procedure(nested(100, '1 + 1', '1 + ('), **OUT))
    yield too_nested('parentheses_that_nest_to_the_right_too_deep.adb', procedure(nested(100, '(1)', '1 - ('), **OUT))
    yield accepted('relation_in_parentheses_at_level_two_hundred.adb', procedure('X', pre=nested(199, 'X < 5')), 1)
    yield too_nested('relation_in_two_hundred_parentheses.adb', procedure('X', pre=nested(200, 'X < 5')))
    yield accepted('relation_behind_parentheses_at_level_two_hundred.adb',
                   procedure('X', pre=nested(199, 'X') + ' < 5'), 1)
    yield too_nested('relation_behind_two_hundred_parentheses.adb', procedure('X', pre=nested(200, 'X') + ' < 5'))
    yield accepted('parentheses_behind_a_relation_at_level_two_hundred.adb',
                   procedure('X', pre='5 > ' + nested(199, 'X')), 1)
    yield too_nested('two_hundred_parentheses_behind_a_relation.adb', procedure('X', pre='5 > ' + nested(200, 'X')))
    yield accepted('sign_behind_a_relation_at_level_two_hundred.adb',
                   procedure('X', pre='5 > -X' + ' + 0' * 198), 1)
    yield too_nested('sign_behind_a_relation_at_two_hundred_and_one_levels.adb',
                     procedure('X', pre='5 > -X' + ' + 0' * 199))
    yield accepted('sign_before_a_relation_at_level_two_hundred.adb',
                   procedure('X', pre='-X' + ' + 0' * 198 + ' < 5'), 1)
    yield too_nested('sign_before_a_relation_at_two_hundred_and_one_levels.adb',
                     procedure('X', pre='-X' + ' + 0' * 199 + ' < 5'))
    yield refused('relation_of_a_relation_at_level_two_hundred.adb',
                  procedure('X', pre=nested(197, '(X = X) @= X')), 'N10')
    yield too_nested('relation_of_a_relation_at_two_hundred_and_one_levels.adb',
                     procedure('X', pre=nested(198, '(X = X) = X')))
    yield accepted('two_hundred_parentheses_in_two_statements.adb',
                   longer(OUT_XY, 'X, Y from', f'X := {nested(200)}', f'Y := {nested(200)}'), 2)


def limit_or_breach():
    """Of the limit and a breach of syntax, whichever comes first in the text."""
    yield unexpected('two_hundred_parentheses_at_the_end_of_the_text.adb', cut('(' * 200 + '@'))
    yield too_nested('two_hundred_and_one_parentheses_at_the_end_of_the_text.adb', cut('(' * 201))
    yield too_nested('two_hundred_parentheses_and_a_sign_at_the_end_of_the_text.adb', cut('(' * 200 + '-'))
    yield unexpected('two_hundred_parentheses_and_a_number_at_the_end_of_the_text.adb', cut('(' * 200 + '1@'))
    yield unexpected('two_hundred_parentheses_and_no_operand.adb', procedure('(' * 200 + '@)', **OUT))
    yield too_nested('two_hundred_and_one_parentheses_and_no_operand.adb', procedure('(' * 201 + ')', **OUT))
    yield unexpected('two_hundred_parentheses_and_another_token.adb', procedure(nested(200, '@* 1'), **OUT))
    yield unexpected('two_hundred_parentheses_and_two_numbers.adb', procedure(nested(200, '1 @1'), **OUT))
    yield unexpected('two_hundred_parentheses_and_one_not_closed.adb', procedure('((' + nested(198) + ')@', **OUT))
    yield unexpected('two_hundred_parentheses_and_one_closed_more.adb', procedure(nested(200) + '@)', **OUT))
    yield unexpected('two_hundred_parentheses_and_a_number_behind.adb', procedure(nested(200) + ' @1 + 1', **OUT))
    yield unexpected('sign_behind_two_hundred_operators.adb', procedure('1' + ' + 1' * 199 + ' + @-1', **OUT))
    yield too_nested('sign_behind_two_hundred_and_one_operators.adb', procedure('1' + ' + 1' * 200 + ' + -1', **OUT))
    yield unexpected('two_signs_at_level_two_hundred.adb', procedure(nested(199, '- @-1'), **OUT))
    yield unexpected('two_hundred_and_one_parentheses_behind_a_breach.adb', procedure('1 @1 + ' + nested(201), **OUT))
    yield too_nested('two_hundred_and_one_parentheses_before_a_breach.adb', procedure(nested(201) + ' 1', **OUT))
    yield unexpected('two_hundred_and_one_parentheses_for_a_target.adb',
                     COPY.replace('   X', '   @' + nested(201, 'X')))
    yield too_nested('two_hundred_and_one_parentheses_behind_a_name.adb', procedure('X ' + nested(201), **OUT))
    yield unexpected('two_relations_in_two_hundred_levels.adb', procedure('X', pre=nested(199, 'X = X @= X')))
    yield bad_byte('two_hundred_and_one_parentheses_before_a_bad_byte.adb', procedure(nested(201), **OUT) + '@?')
    yield refused('two_hundred_parentheses_of_an_undeclared_name.adb', procedure(nested(200, '@Y')), 'N1')
    yield too_nested('two_hundred_and_one_parentheses_of_an_undeclared_name.adb', procedure(nested(201, 'Y')))
    yield too_nested('two_hundred_and_one_parentheses_in_the_second_procedure.adb',
                     INC + procedure(nested(201), name='Same', end='Same', **OUT))
    yield too_nested('two_hundred_and_one_parentheses_in_pre.adb', procedure('1 1', pre=nested(201, 'X < 5')))
    yield unexpected('two_hundred_and_one_parentheses_behind_a_breach_in_pre.adb',
                     procedure(nested(201), pre='X @X'))


def examples():
    """The examples of the documents, and the runs."""
    for folder in DOCUMENTS.values():
        for text, report in examples_in(folder):
            name = text.relative_to(TOP).as_posix()
            printed = report.read_text(encoding='utf-8')
            yield Case(name, text.read_bytes(), printed, status_of(printed))
    for folder in (*DOCUMENTS.values(), RUNS):
        for words, (text, *inputs), report in commands_in(folder):
            printed = report.read_text(encoding='utf-8')
            second = [(name, (TOP / name).read_bytes()) for name in inputs]
            yield Case(text, (TOP / text).read_bytes(), printed, status_of(printed), words, second[0] if second else None)


def status_of(printed):
    """The status that comes with what is printed of an example."""
    for word, status in (('limit: ', 6), ('fault: ', 7), ('not ended ', 8)):
        if printed.startswith(word):
            return status
    return 1 if printed.splitlines()[-1].startswith('refused: ') else 0


def examples_in(folder):
    """The file of each example, and the one with what is printed on it."""
    return [(text, text.with_suffix('.report')) for text in sorted(folder.glob('*.adb'))]


def commands_in(folder):
    """The words of each command, the files that they name, and the file with what is printed."""
    for command in sorted(folder.glob('*.command')):
        words = tuple(command.read_text(encoding='utf-8').split())
        inputs = [after for before, after in zip(words, words[1:]) if before == '--inputs']
        yield words, [words[-1], *inputs], command.with_suffix('.report')


def documented():
    """The worked examples of docs/language.md with their changes, and another one of examples/."""
    yield accepted('ex.adb',
                   longer('X, Y : in out Integer', 'X from Y & Y from X', 'T := X', 'X := Y', 'Y := T', declared=T,
                          name='Exchange'), 3, named='Exchange')
    limit = ('procedure Limit (A : in Integer; X : out Integer)\n--# derives @X from A;\nis\nbegin\n   if A < 0 then\n'
             '      X := 0;\n   elsif A > 100 then\n      X := 100;\n   else\n      X := A;\n   end if;\nend Limit;\n')
    yield accepted('limit.adb', limit.replace('@', ''), 3, named='Limit')
    yield refused('limit_without_else.adb', at_end(limit.replace('   else\n      X := A;\n', '')),
                  'F1 missing: X from X', 'F4 unset: X')
    yield refused('limit_with_an_arm_that_does_nothing.adb', at_end(limit.replace('X := 100', 'null')),
                  'F1 missing: X from X', 'F4 unset: X')
    for name, total, named in (('swap', 4, 'Swap'), ('clamp', 8, 'Clamp'), ('blend', 9, 'Blend'), ('level', 6, 'Raise_By'), ('signal', 4, 'Signal')):
        yield accepted(f'{name}.adb', (TOP / 'examples' / f'{name}.adb').read_text(encoding='utf-8'), total, named=named)
    for name, total, named in (('share', 6, 'Share'), ('grow', 1, 'Grow')):
        yield accepted(f'{name}.adb', (RUNS / f'{name}.adb').read_text(encoding='utf-8'), total, named=named)
    share = (TOP / 'examples' / 'guard.adb').read_text(encoding='utf-8')
    yield accepted('guard.adb', share, 1, named='Share')
    yield left_at('guard_by_and.adb', share.replace('and then Whole', 'and Whole <1d>').replace('<1d> ', '<1d>'), 1, named='Share')
    yield from worked_types()
    yield from worked_loops()
    yield from worked_programs()
    yield from control_programs()
    yield bad_number('inc_with_a_bad_number.adb', procedure('X + 1_', pre=BELOW), at=(6, 13))
    yield unexpected('inc_with_two_operators.adb', procedure('X + * 1', pre=BELOW), at=(6, 13))
    yield unexpected('inc_without_end.adb', INC.replace('end Inc;\n', ''), at=(7, 1))
    yield refused('inc_with_an_undeclared_name.adb', procedure('@Y + 1', pre=BELOW), 'N1')
    yield refused('inc_with_two_formals_of_one_name.adb', procedure(formals='X, @x', pre=BELOW), 'N2')
    yield refused('inc_of_the_procedure.adb', procedure('@Inc', pre=BELOW), 'N3')
    yield refused('inc_with_another_end_name.adb', procedure(end='@Dec', pre=BELOW), 'N5')
    yield refused('inc_with_a_comparison.adb', procedure('X @= 1', pre=BELOW), 'N10')
    yield refused('inc_past_last.adb', procedure(LAST + ' @+ 1', pre=BELOW), 'N12')
    yield refused('inc_of_mode_in.adb', procedure(mode='in', derives='@X from X', pre=BELOW), 'U8')
    yield refused('inc_with_an_import_twice.adb', at_derives(procedure(derives='X from X, X', pre=BELOW)), 'U7')
    yield refused('inc_of_mode_out.adb', procedure(mode='out', derives='X from @X', pre=BELOW), 'U8')
    yield refused('inc_of_mode_out_without_imports.adb',
                  procedure(mode='out', derives='X from ', pre='@' + BELOW), 'U11')
    yield refused('inc_of_mode_out_without_imports_and_pre.adb',
                  procedure('@X + 1', mode='out', derives='@X from '), 'F1 missing: X from X', 'F4 unset: X')
    yield refused('inc_that_sets_one.adb', procedure('1', derives='@X from X', pre=BELOW), 'F2 unused: X from X')
    yield refused('inc_that_sets_one_behind_its_sum.adb',
                  longer(X, '@X from X', '@X := X + 1', 'X := 1', pre=BELOW), 'F2 unused: X from X', 'F3')


# Lines of whole reports that several procedures have.
CLOSED_2 = 'Inc: 2 conditions, 2 simplified, 0 scripted, 0 open'
CLOSED_3 = 'Inc: 3 conditions, 3 simplified, 0 scripted, 0 open'
ONE_OF_2 = 'Inc: 2 conditions, 1 simplified, 0 scripted, 1 open'
ONE_OF_3 = 'Inc: 3 conditions, 2 simplified, 0 scripted, 1 open'
TWO_OF_3 = 'Inc: 3 conditions, 1 simplified, 0 scripted, 2 open'
ONE_OF_4 = 'Inc: 4 conditions, 3 simplified, 0 scripted, 1 open'
TWO_OF_4 = 'Inc: 4 conditions, 2 simplified, 0 scripted, 2 open'


def worked_types():
    """The worked examples of declared types, and each without a guard."""
    for name, named, total, guard, instead, left in (
            ('lights', 'Next_Phase', 20, "      if Now < Amber then\n         Now := Light'Succ (Now);\n      else\n         Now := Red;\n      end if;\n",
             "      Now := Light'Succ (<3r>Now);\n", 14),
            ('percent', 'Add_Percent', 11, "   if Now + More <= Percent'Last then\n      Sum := Now + More;\n   end if;\n", '   Sum := Now <6r>+ More;\n', 8),
            ('units', 'Travel', 11, '   if Way > Most then\n      Way := Most;\n   end if;\n   Metres := Integer (Way);\n', '   Metres := Integer (<7r>Way);\n', 8)):
        text = (TOP / 'examples' / f'{name}.adb').read_text(encoding='utf-8')
        assert guard in text, name
        yield accepted(f'{name}.adb', text, total, named=named)
        yield left_at(f'{name}_without_a_guard.adb', text.replace(guard, instead), left, named=named)


def left_in(name, text, named, total, **left):
    """So many conditions of one procedure. Those that are left are given by number and kind, each with what is in the text from its place on."""
    lines = []
    for condition, piece in left.items():
        kind, number = condition.split('_')
        before = text[:text.index(piece)]
        lines.append(f'{name}:{before.count(chr(10)) + 1}:{len(before) - before.rfind(chr(10))}: V1 unproved: {named}.{number} {kind}')
    row = f'{named}: {total} conditions, {total - len(left)} simplified, 0 scripted, {len(left)} open'
    return reported(name, text, *lines, row, f'refused: {len(left)}')


def worked_loops():
    """The worked examples of loops, and each without its assertion."""
    texts = {name: (TOP / 'examples' / f'{name}.adb').read_text(encoding='utf-8') 
             for name in ('count_down', 'integer_root', 'divide', 'sum_to', 'squares', 'pressure_bands', 'square_search', 'settle', 'locate', 'hold')}
    without = {name: re.sub('.*--# assert.*\n', '', text) for name, text in texts.items()}
    yield accepted('count_down.adb', texts['count_down'], 6, named='Count_Down')
    yield left_in('count_down_without_its_assertion.adb', without['count_down'], 'Count_Down', 4, range_3='- 1;')
    yield accepted('integer_root.adb', texts['integer_root'], 13, named='Integer_Root')
    yield left_in('integer_root_without_its_assertion.adb', without['integer_root'], 'Integer_Root', 11, overflow_6='+ 1;', post_11='post Root')
    yield left_in('divide.adb', texts['divide'], 'Divide', 10, overflow_5='+ 1;', range_8='- Divisor;', assert_9='assert Dividend', post_10='post Dividend')
    yield left_in('divide_without_its_assertion.adb', without['divide'], 'Divide', 8, overflow_4='+ 1;', range_7='- Divisor;', post_8='post Dividend')
    yield left_in('sum_to.adb', texts['sum_to'], 'Sum_To', 10, overflow_7='+ Number;', assert_9='assert 2', post_10='post 2')
    yield left_in('squares.adb', texts['squares'], 'Square_Of', 14, overflow_11='+ (2 * Root - 1);', assert_13='assert Square', post_14='post Square')
    yield accepted('pressure_bands.adb', texts['pressure_bands'], 171, named='Pressure_Bands')
    yield accepted('square_search.adb', texts['square_search'], 7, named='Square_Search')
    yield accepted('settle.adb', texts['settle'], 5, named='Settle')
    yield accepted('locate.adb', texts['locate'], 21, named='Locate')
    yield accepted('hold.adb', texts['hold'], 8, named='Hold')
    yield accepted('hold_without_its_assertion.adb', without['hold'], 4, named='Hold')


# The rule on leap years, from the years that are multiples of 4 and from those of 400.
RULE_FROM_4 = """   if Year mod 4 /= 0 then
      Leap := False;
   elsif Year mod 100 /= 0 then
      Leap := True;
   else
      Leap := Year mod 400 = 0;
"""
RULE_FROM_400 = """   if Year mod 400 = 0 then
      Leap := True;
   elsif Year mod 100 = 0 then
      Leap := False;
   else
      Leap := Year mod 4 = 0;
"""


# The guard that keeps a cursor within its array.
RING_GUARD = """   if Cursor < Samples'Last then
      Next := Cursor + 1;
   else
      Next := Samples'First;
   end if;
"""


def worked_programs():
    """The worked examples from control software, and each with a change."""
    for name, named, total, piece, instead, fewer, left in (
            ('controller', 'Regulate', 38, '   elsif Integral < -500 then\n      Integral := -500;\n', '', 27, {'post_24': 'post Integral', 'post_26': 'post Integral', 'post_27': 'post Integral'}),
            ('square_root', 'Square_Root', 14, '      exit when Tried >= 46_340;\n', '', 12, {'range_9': '+ 1;'}),
            ('debounce', 'Debounce', 7, 'Count < 4 then', 'Count < 5 then', 7, {'post_5': 'post Count'}),
            ('checksum', 'Checksum', 16, '(Low + Number mod 255) mod 255;', 'Low + Number mod 255;', 15, {'range_8': '+ Number'}),
            ('leap_year', 'Leap_Year', 15, RULE_FROM_4, RULE_FROM_400, 15, {'post_3': 'post (Leap'}),
            ('door', 'Door', 35, ' and not Blocked', '', 35, {'post_19': 'post State'}),
            ('ring_cursor', 'Advance', 7, RING_GUARD, '   Next := Cursor + 1;\n', 4, {'range_2': '+ 1;'}),
            ('histogram_bin', 'Bin_Of', 11, "   elsif Chosen > Counts'Last then\n      Chosen := Counts'Last;\n", '', 8, {'post_8': 'post Bin'})):
        text = (TOP / 'examples' / f'{name}.adb').read_text(encoding='utf-8')
        assert piece in text, name
        yield accepted(f'{name}.adb', text, total, named=named)
        yield left_in(f'{name}_with_a_change.adb', text.replace(piece, instead), named, fewer, **left)


def control_programs():
    """Six procedures of the kind that control software has. Each assignment of a number has a condition on its range, each path one on the promise."""
    for name, named, total in (
            # a sum and a difference, each with its overflow and range, and five paths
            ('saturating_counter', 'Saturating_Counter', 4 + 5),
            # three paths
            ('hysteresis', 'Hysteresis', 3),
            # a range and a promise on each of six paths
            ('middle_of_three', 'Middle_Of_Three', 6 + 6),
            # three assignments and five paths
            ('mode_switch', 'Mode_Switch', 3 + 5),
            # 0, a sum, and three paths by two
            ('watchdog', 'Watchdog', 1 + 2 + 3 * 2),
            # two sums, two bounds, three paths to the assertion; then seven operations, of which the two quotients have two, a range, two bounds, and three paths
            ('pid_step', 'Pid_Step', 4 + 2 + 3 + 9 + 1 + 2 + 3 + 3)):
        yield accepted(f'{name}.adb', (TOP / 'examples' / f'{name}.adb').read_text(encoding='utf-8'), total, named=named)


def assigned(value, pre=None):
    """The text of a procedure that assigns the value to its one formal, of mode `in out`."""
    return longer(X, 'X from X', f'X := {value}', pre=pre)


def programs_of_one_sum():
    """Whole reports on one assignment; Integer is L = 2147483647 at the highest, and -L - 1 at the lowest."""
    # -X is L + 1 where X is -L - 1
    yield reported('minus.adb', assigned('-X'),
                   'minus.adb:5:9: V1 unproved: Inc.1 overflow', ONE_OF_2, 'refused: 1')
    # X is -L at the lowest, so that -X is L at the highest
    yield reported('minus_above_the_lowest.adb', assigned('-X', pre=ABOVE), CLOSED_2, 'accepted')
    yield reported('minus_that_just_fits.adb', assigned('-X', pre='X >= -2147483647'), CLOSED_2, 'accepted')
    yield reported('minus_that_just_does_not_fit.adb', assigned('-X', pre='X >= -2147483648'),
                   'minus_that_just_does_not_fit.adb:6:9: V1 unproved: Inc.1 overflow', ONE_OF_2, 'refused: 1')
    # the precondition bounds the term -X itself
    yield reported('minus_bounded_itself.adb', assigned('-X', pre='-X <= 2147483647'), CLOSED_2, 'accepted')
    # 0 - X is another term than -X, and a bound on one says nothing of the other
    yield reported('minus_bounded_as_a_difference.adb', assigned('-X', pre='0 - X <= 2147483647'),
                   'minus_bounded_as_a_difference.adb:6:9: V1 unproved: Inc.1 overflow', ONE_OF_2, 'refused: 1')
    yield reported('difference_bounded_as_a_minus.adb', assigned('0 - X', pre='-X <= 2147483647'),
                   'difference_bounded_as_a_minus.adb:6:11: V1 unproved: Inc.1 overflow', ONE_OF_2, 'refused: 1')
    # a bound on -X says nothing of X, though it keeps X above -5
    yield reported('minus_bounds_no_operand.adb', assigned('X - 1', pre='-X < 5'),
                   'minus_bounds_no_operand.adb:6:11: V1 unproved: Inc.1 overflow', ONE_OF_2, 'refused: 1')
    # the inner sign comes first; what is shown of it, -L .. L, closes the outer one
    yield reported('minus_of_a_minus.adb', assigned('-(-X)'),
                   'minus_of_a_minus.adb:5:11: V1 unproved: Inc.1 overflow', ONE_OF_3, 'refused: 1')
    # the same of a hundred: the innermost is in column 9 + 2 * 99
    yield reported('minus_of_a_hundred.adb', assigned('-(' * 100 + 'X' + ')' * 100),
                   'minus_of_a_hundred.adb:5:207: V1 unproved: Inc.1 overflow',
                   'Inc: 101 conditions, 100 simplified, 0 scripted, 1 open', 'refused: 1')
    # X + 1 may be L + 1; after that it lies in -L .. L, and so does its minus
    yield reported('minus_of_a_sum.adb', assigned('-(X + 1)'),
                   'minus_of_a_sum.adb:5:13: V1 unproved: Inc.1 overflow', ONE_OF_3, 'refused: 1')
    # X - 1 may be -L - 2; after that it may be -L - 1 still, whose minus is too high; the operand comes first
    yield reported('minus_of_a_difference.adb', assigned('-(X - 1)'),
                   'minus_of_a_difference.adb:5:13: V1 unproved: Inc.1 overflow',
                   'minus_of_a_difference.adb:5:9: V1 unproved: Inc.2 overflow', TWO_OF_3, 'refused: 2')
    # X is -L at the lowest: X - 1 fits, but its minus does not
    yield reported('minus_of_a_difference_above_the_lowest.adb', assigned('-(X - 1)', pre=ABOVE),
                   'minus_of_a_difference_above_the_lowest.adb:6:9: V1 unproved: Inc.2 overflow', ONE_OF_3,
                   'refused: 1')
    # X - 1 is -L at the lowest
    yield reported('minus_of_a_difference_that_just_fits.adb', assigned('-(X - 1)', pre='X > -2147483647'),
                   CLOSED_3, 'accepted')
    # X + 1 may be L + 1; after that it lies in -L .. L, and 1 less is -L - 1 at the lowest
    yield reported('sum_and_back.adb', assigned('(X + 1) - 1'),
                   'sum_and_back.adb:5:12: V1 unproved: Inc.1 overflow', ONE_OF_3, 'refused: 1')
    yield reported('sum_and_back_below_last.adb', assigned('(X + 1) - 1', pre=BELOW), CLOSED_3, 'accepted')
    yield reported('difference_and_on.adb', assigned('(X - 1) + 1'),
                   'difference_and_on.adb:5:12: V1 unproved: Inc.1 overflow', ONE_OF_3, 'refused: 1')
    # 1 - X is 1 - L at the lowest, and may be L + 2; after that 1 less it lies in 1 - L .. L
    yield reported('difference_of_a_difference.adb', assigned('1 - (1 - X)'),
                   'difference_of_a_difference.adb:5:16: V1 unproved: Inc.1 overflow', ONE_OF_3, 'refused: 1')
    # the left sum, the right one, and then their difference, which none of them bounds
    yield reported('difference_of_two_sums.adb', assigned('(X + 1) - (X - 1)'),
                   'difference_of_two_sums.adb:5:12: V1 unproved: Inc.1 overflow',
                   'difference_of_two_sums.adb:5:22: V1 unproved: Inc.2 overflow',
                   'difference_of_two_sums.adb:5:17: V1 unproved: Inc.3 overflow',
                   'Inc: 4 conditions, 1 simplified, 0 scripted, 3 open', 'refused: 3')
    # parentheses have no check, and the range check at the first of them is closed by what was shown
    yield reported('sum_in_parentheses.adb', assigned('((X + 1))'),
                   'sum_in_parentheses.adb:5:13: V1 unproved: Inc.1 overflow', ONE_OF_2, 'refused: 1')
    # a plus has no check, so that the range check is the only one
    yield reported('plus.adb', assigned('+X'), 'Inc: 1 conditions, 1 simplified, 0 scripted, 0 open', 'accepted')
    yield reported('plus_before_a_sum.adb', assigned('+X + 1'),
                   'plus_before_a_sum.adb:5:12: V1 unproved: Inc.1 overflow', ONE_OF_2, 'refused: 1')
    # the sign is over X only: -X, and then 1 more, which may be L + 1 still
    yield reported('minus_before_a_sum.adb', assigned('-X + 1'),
                   'minus_before_a_sum.adb:5:9: V1 unproved: Inc.1 overflow',
                   'minus_before_a_sum.adb:5:12: V1 unproved: Inc.2 overflow', TWO_OF_3, 'refused: 2')
    yield reported('minus_of_what_is_above_zero.adb', assigned('-X + 1', pre='X > 0'), CLOSED_3, 'accepted')
    # -X lies in -L .. L after its check: 1 less just fits, and 2 less do not
    yield reported('minus_and_one_less.adb', assigned('-X - 1'),
                   'minus_and_one_less.adb:5:9: V1 unproved: Inc.1 overflow', ONE_OF_3, 'refused: 1')
    yield reported('minus_and_two_less.adb', assigned('-X - 2'),
                   'minus_and_two_less.adb:5:9: V1 unproved: Inc.1 overflow',
                   'minus_and_two_less.adb:5:12: V1 unproved: Inc.2 overflow', TWO_OF_3, 'refused: 2')
    # -1 - L is the lowest value
    yield reported('difference_that_just_fits.adb', assigned('X - 2147483647', pre='X >= -1'), CLOSED_2, 'accepted')
    yield reported('difference_that_just_does_not_fit.adb', assigned('X - 2147483647', pre='X >= -2'),
                   'difference_that_just_does_not_fit.adb:6:11: V1 unproved: Inc.1 overflow', ONE_OF_2, 'refused: 1')
    # what is static in parentheses is one number
    yield reported('static_sum_that_just_fits.adb', assigned('X + (2147483647 - 1)', pre='X <= 1'),
                   CLOSED_2, 'accepted')
    yield reported('static_sum_that_just_does_not_fit.adb', assigned('X + (2147483647 - 1)', pre='X <= 2'),
                   'static_sum_that_just_does_not_fit.adb:6:11: V1 unproved: Inc.1 overflow', ONE_OF_2, 'refused: 1')
    yield reported('static_minus_that_just_fits.adb', assigned('X + (-5)', pre='X >= -2147483643'),
                   CLOSED_2, 'accepted')
    yield reported('static_minus_that_just_does_not_fit.adb', assigned('X + (-5)', pre='X >= -2147483644'),
                   'static_minus_that_just_does_not_fit.adb:6:11: V1 unproved: Inc.1 overflow', ONE_OF_2, 'refused: 1')
    # X - 1 lies in 0 .. L - 1, or else in -1 .. L - 1
    yield reported('difference_from_last_that_just_fits.adb', assigned(LAST + ' - (X - 1)', pre='X > 0'),
                   CLOSED_3, 'accepted')
    yield reported('difference_from_last_that_just_does_not_fit.adb', assigned(LAST + ' - (X - 1)', pre='X >= 0'),
                   'difference_from_last_that_just_does_not_fit.adb:6:22: V1 unproved: Inc.2 overflow', ONE_OF_3,
                   'refused: 1')


def programs_with_pre():
    """Whole reports on preconditions with signs and parentheses."""
    # (X + 1) is the term X + 1
    yield reported('pre_on_a_sum_in_parentheses.adb', assigned('X + 1', pre='(X + 1) <= 2147483647'),
                   CLOSED_2, 'accepted')
    yield reported('pre_in_parentheses_bounds.adb', assigned('X + 1', pre='((X) < (2147483647))'),
                   CLOSED_2, 'accepted')
    # 2147483646 + 1 fits, and 2147483647 + 1 does not
    yield reported('pre_with_two_minuses.adb', assigned('X + 1', pre='X <= -(-2147483646)'), CLOSED_2, 'accepted')
    yield reported('pre_with_two_minuses_past_the_bound.adb', assigned('X + 1', pre='X <= -(-2147483647)'),
                   'pre_with_two_minuses_past_the_bound.adb:6:11: V1 unproved: Inc.1 overflow', ONE_OF_2, 'refused: 1')
    # a false precondition closes all
    yield reported('pre_of_a_minus_that_is_false.adb', assigned('X + X + X', pre='-1 > 1'), CLOSED_3, 'accepted')
    # (X) and X are one term, which is not less than itself
    yield reported('pre_of_parentheses_that_is_false.adb', assigned('-(X + X)', pre='(X) < +X'),
                   CLOSED_3, 'accepted')
    # -X and -(X) are one term, and that they are equal helps nothing
    yield reported('pre_of_a_minus_that_is_true.adb', assigned('-X', pre='-X = -(X)'),
                   'pre_of_a_minus_that_is_true.adb:6:9: V1 unproved: Inc.1 overflow', ONE_OF_2, 'refused: 1')
    # A is -5, and 5 + -5 fits
    yield reported('pre_equal_to_a_minus.adb', longer(A_TO_X, 'X from A', 'X := -(A) + A', pre='A = -5'),
                   CLOSED_3, 'accepted')


def programs_of_several_sums():
    """Whole reports on several variables, statements and procedures."""
    # the right operand's difference comes before the sum; neither is bounded
    yield reported('right_operand_first.adb',
                   longer('A, B : in Integer; X : in out Integer', 'X from *, A, B', 'X := X + (A - B)'),
                   'right_operand_first.adb:5:16: V1 unproved: Inc.1 overflow',
                   'right_operand_first.adb:5:11: V1 unproved: Inc.2 overflow', TWO_OF_3, 'refused: 2')
    yield reported('difference_with_a_minus.adb',
                   longer('A, B : in Integer; X : out Integer', 'X from A, B', 'X := A - (-B)'),
                   'difference_with_a_minus.adb:5:14: V1 unproved: Inc.1 overflow',
                   'difference_with_a_minus.adb:5:11: V1 unproved: Inc.2 overflow', TWO_OF_3, 'refused: 2')
    # (X + 1), +X + 1 and X + 1 are one term, of which the first statement shows what the second needs
    yield reported('sum_in_parentheses_and_sum.adb', longer(X_TO_XY, 'X, Y from X', 'Y := (X + 1)', 'X := X + 1'),
                   'sum_in_parentheses_and_sum.adb:5:12: V1 unproved: Inc.1 overflow', ONE_OF_4, 'refused: 1')
    yield reported('sum_with_a_plus_and_sum.adb', longer(X_TO_XY, 'X, Y from X', 'Y := +X + 1', 'X := X + 1'),
                   'sum_with_a_plus_and_sum.adb:5:12: V1 unproved: Inc.1 overflow', ONE_OF_4, 'refused: 1')
    # 1 + X is another term
    yield reported('sum_in_another_order.adb', longer(X_TO_XY, 'X, Y from X', 'Y := X + 1', 'X := 1 + X'),
                   'sum_in_another_order.adb:5:11: V1 unproved: Inc.1 overflow',
                   'sum_in_another_order.adb:6:11: V1 unproved: Inc.3 overflow', TWO_OF_4, 'refused: 2')
    yield reported('minus_twice.adb', longer(X_TO_XY, 'X, Y from X', 'Y := -X', 'X := -(X)'),
                   'minus_twice.adb:5:9: V1 unproved: Inc.1 overflow', ONE_OF_4, 'refused: 1')
    # 0 - X is another term than -X
    yield reported('minus_and_difference.adb', longer(X_TO_XY, 'X, Y from X', 'Y := -X', 'X := 0 - X'),
                   'minus_and_difference.adb:5:9: V1 unproved: Inc.1 overflow',
                   'minus_and_difference.adb:6:11: V1 unproved: Inc.3 overflow', TWO_OF_4, 'refused: 2')
    # null changes no value: X + 1 is shown, and 1 less fits
    yield reported('null_between.adb', longer(X, 'X from X', 'X := X + 1', 'null', 'X := X - 1'),
                   'null_between.adb:5:11: V1 unproved: Inc.1 overflow', ONE_OF_4, 'refused: 1')
    yield reported('null_alone.adb', longer(X, 'X from *', 'null'),
                   'Inc: 0 conditions, 0 simplified, 0 scripted, 0 open', 'accepted')
    # a procedure without formals has no conditions
    yield reported('skip.adb', longer(None, None, 'null', name='Skip'),
                   'Skip: 0 conditions, 0 simplified, 0 scripted, 0 open', 'accepted')
    # the third begins in line 14
    yield reported('skip_rest_and_minus.adb',
                   longer(None, None, 'null', name='Skip')
                   + longer(None, None, 'null', 'null', pre='-1 < (1)', declared=T, name='Rest') + procedure('-X'),
                   'skip_rest_and_minus.adb:18:9: V1 unproved: Inc.1 overflow',
                   'Skip: 0 conditions, 0 simplified, 0 scripted, 0 open',
                   'Rest: 0 conditions, 0 simplified, 0 scripted, 0 open', ONE_OF_2, 'refused: 1')
    # the second begins in line 7, and the others are closed
    yield reported('one_of_three.adb',
                   longer(X, 'X from X', 'X := (X)', name='Same') + longer(X, 'X from X', 'X := -X', name='Neg') + INC,
                   'one_of_three.adb:11:9: V1 unproved: Neg.1 overflow',
                   'Same: 1 conditions, 1 simplified, 0 scripted, 0 open',
                   'Neg: 2 conditions, 1 simplified, 0 scripted, 1 open', CLOSED_2, 'refused: 1')


def programs_with_locals():
    """Whole reports on locals that carry values."""
    # L - 1 is a number
    yield reported('local_of_last.adb', longer(OUT_X, 'X from', 'T := 2147483647', 'X := T - 1', declared=T),
                   CLOSED_3, 'accepted')
    # L + 1 does not fit, which makes a fact that is false, and closes the range check
    yield reported('local_past_last.adb', longer(OUT_X, 'X from', 'T := 2147483647', 'X := T + 1', declared=T),
                   'local_past_last.adb:7:11: V1 unproved: Inc.2 overflow', ONE_OF_3, 'refused: 1')
    # L, -L, -L - 1 and then L + 1
    to_the_lowest = ('T := 2147483647', 'U := -T', 'V := U - 1', 'X := -V')
    yield reported('locals_to_the_lowest.adb', longer(OUT_X, 'X from', *to_the_lowest, declared=['T, U, V : Integer']),
                   'locals_to_the_lowest.adb:9:9: V1 unproved: Inc.6 overflow',
                   'Inc: 7 conditions, 6 simplified, 0 scripted, 1 open', 'refused: 1')
    # after a fact that is false all is closed
    yield reported('locals_past_the_lowest.adb',
                   longer(OUT_X, 'X from', *to_the_lowest, 'X := X + X', declared=['T, U, V : Integer']),
                   'locals_past_the_lowest.adb:9:9: V1 unproved: Inc.6 overflow',
                   'Inc: 9 conditions, 8 simplified, 0 scripted, 1 open', 'refused: 1')
    # T is X - 1 and at most L - 1, so that T + 1 fits
    yield reported('local_of_a_difference.adb', longer(X, 'X from X', 'T := X - 1', 'X := T + 1', declared=T),
                   'local_of_a_difference.adb:6:11: V1 unproved: Inc.1 overflow', ONE_OF_4, 'refused: 1')
    # U is -(-X), closed by what was shown of -X; then two range checks
    yield reported('locals_in_a_row.adb',
                   longer(X, 'X from X', 'T := -X', 'U := -T', 'X := U', declared=T_AND_U),
                   'locals_in_a_row.adb:6:9: V1 unproved: Inc.1 overflow',
                   'Inc: 5 conditions, 4 simplified, 0 scripted, 1 open', 'refused: 1')
    # A - B may be -L - 1, whose minus does not fit
    yield reported('local_of_a_difference_of_two.adb',
                   longer('A, B : in Integer; X : out Integer', 'X from A, B', 'T := A - B', 'X := -T', declared=T),
                   'local_of_a_difference_of_two.adb:6:11: V1 unproved: Inc.1 overflow',
                   'local_of_a_difference_of_two.adb:7:9: V1 unproved: Inc.3 overflow', TWO_OF_4, 'refused: 2')
    # T is X - 1 and later 1 less; Y keeps the first of these
    yield reported('local_of_two_values.adb',
                   longer(X_TO_XY, 'X, Y from X', 'T := X - 1', 'Y := T', 'T := T - 1', 'X := T', declared=T),
                   'local_of_two_values.adb:6:11: V1 unproved: Inc.1 overflow',
                   'local_of_two_values.adb:8:11: V1 unproved: Inc.4 overflow',
                   'Inc: 6 conditions, 4 simplified, 0 scripted, 2 open', 'refused: 2')
    # what was shown of X + 1 is a fact for the local's sum too
    yield reported('local_of_a_sum_that_was_shown.adb',
                   longer(X_TO_XY, 'X, Y from X', 'T := X', 'Y := T + 1', 'X := (X + 1)', declared=T),
                   'local_of_a_sum_that_was_shown.adb:7:11: V1 unproved: Inc.2 overflow',
                   'Inc: 5 conditions, 4 simplified, 0 scripted, 1 open', 'refused: 1')


# A text that keeps every rule, with its parts.
KEPT = '''procedure {name} ({formals} : {mode} Integer; B : in out {type}; X : out Integer)
--# {derives} {export} from {first} & X from {third}{item};
--# pre {left} < {right};
is
   T{local} : Integer;
begin
   {target} := B{sum};
   T := {value};
   B := T{comparison};
{last}end {end};
'''
PARTS = {'name': 'Mix', 'formals': 'A', 'mode': 'in', 'type': 'Integer', 'derives': 'derives', 'export': 'B',
         'first': 'A', 'third': 'B', 'item': '', 'left': 'A', 'right': '5', 'local': '', 'target': 'X', 'sum': '',
         'value': 'A', 'comparison': '', 'last': '', 'end': 'Mix'}

# What breaks a rule in it: its finding, and the parts that it changes. They are in the order of the work, and of the
# walk, so that of two of them the first one is reported.
SLIPS = {
    'integer_for_the_name': ('N2', {'name': '@Integer', 'end': 'Integer'}),
    'a_formal_twice': ('N2', {'formals': 'A, @A'}),
    'no_type_of_a_formal': ('N1', {'type': '@Count'}),
    'the_procedure_for_an_export': ('N3', {'export': '@Mix'}),
    'a_local_for_an_import': ('N1', {'third': '@T'}),
    'a_comparison_in_pre': ('N10', {'left': '(A = B) @+ A'}),
    'a_local_twice': ('N2', {'local': ', @B'}),
    'a_wide_number_in_a_sum': ('N12', {'sum': ' - @2147483648'}),
    'a_type_for_a_value': ('N3', {'value': '@Integer'}),
    'a_comparison_for_a_value': ('N10', {'comparison': ' @= A'}),
    'another_end_name': ('N5', {'end': '@Dec'}),
    'an_export_twice': ('U7', {'derives': '@derives', 'item': ' & B from A'}),
    'an_import_of_mode_out': ('U8', {'mode': 'out', 'first': '@A'}),
    'pre_over_an_output': ('U11', {'right': '@X'}),
    'an_input_for_a_target': ('U2', {'target': '@A'}),
    'a_lost_value': ('F3', {'last': '   @T := X;\n'}),
}


def slipped(slip, later=None):
    """The text with one slip or two; the `@` is that of the first."""
    parts = PARTS | {part: text.replace('@', '') for part, text in (later or {}).items()} | slip
    return KEPT.format(**parts)


def breaches_in_order():
    """Each rule broken by itself, with a breach that is looked at later, and so with one that is looked at earlier.

    Two slips that change one part cannot come together.
    """
    unproved_sum = {'sum': ' @+ 1'}
    yield accepted('no_slip.adb', KEPT.format(**PARTS), 3, named='Mix')
    yield examined('unproved_sum.adb', slipped(unproved_sum), ('Mix', 4, 1))
    for name, (rule, slip) in SLIPS.items():
        yield refused(f'{name}.adb', slipped(slip), rule)
    later_ones = SLIPS | {'an_unproved_sum': (None, unproved_sum)}
    for (name, (rule, slip)), (later, (_, later_slip)) in combinations(later_ones.items(), 2):
        if not slip.keys() & later_slip.keys():
            yield refused(f'{name}_and_{later}.adb', slipped(slip, later_slip), rule)


def breaches_in_expressions():
    """The left operand comes first, then the right one, then the operator, and last what the place asks for."""
    for name, (rule, value) in {
            'both_operands_undeclared': ('N1', '@Y + Z'),
            'undeclared_and_a_comparison': ('N1', '(X = X) + @Y'),
            'undeclared_in_a_comparison_and_a_sum_of_it': ('N1', '(X = @Y) + 1'),
            'undeclared_behind_a_wide_number': ('N1', '2147483648 + @Y'),
            'undeclared_behind_a_sum_with_a_wide_number': ('N12', 'X + @2147483648 - Y'),
            'undeclared_behind_a_sum_past_last': ('N12', f'{LAST} @+ 1 - Y'),
            'undeclared_behind_a_comparison_in_a_sum': ('N10', '(X = X) @+ 1 - Y'),
            'undeclared_in_parentheses_behind_a_type': ('N3', '@Integer + (Y)'),
            'undeclared_behind_a_sign_of_a_comparison': ('N1', '-(X = @Y)'),
            'undeclared_behind_the_sign_of_a_comparison': ('N10', '@-(X = X) + Y'),
            'undeclared_behind_the_sign_of_first': ('N12', f'@-{FIRST} + Y'),
            'comparison_and_a_wide_number': ('N10', '(X = X) @+ 2147483648'),
            'wide_number_and_a_comparison': ('N10', '2147483648 @+ (X = X)'),
            'wide_number_and_a_sum_past_last': ('N12', f'@2147483648 + {LAST}'),
            'sum_past_last_and_a_wide_number': ('N12', f'{LAST} @+ 1 + 2147483648'),
            'wide_number_in_a_comparison_assigned': ('N12', 'X = @2147483648'),
            'wide_number_before_a_relation_assigned': ('N12', '@2147483648 = X'),
            'wide_numbers_compared_and_assigned': ('N10', '2147483648 @= 2147483648'),
            'sum_past_the_widest_compared_and_assigned': ('N12', f'{WIDEST} @+ 1 = 1'),
            'sign_in_a_sum_past_its_type': ('N12', f'1 - (@-{FIRST})'),
            'attribute_of_nothing_that_is_none': ('N1', "@Y'Size"),
            'attribute_of_a_formal_that_is_none': ('N3', "@X'Size"),
            'attribute_that_is_none_in_a_sum_past_last': ('N3', f"{LAST} + @Integer'Size"),
            }.items():
        yield refused(f'{name}.adb', procedure(value), rule)
    for name, (rule, pre) in {
            'undeclared_and_no_condition': ('N1', 'X + @Y'), 'wide_number_and_no_condition': ('N12', 'X + @2147483648'),
            'comparison_in_a_sum_and_no_condition': ('N10', '(X = X) @+ 1'),
            'sign_of_a_comparison_and_no_condition': ('N10', '@-(X = X) + 1'),
            'undeclared_on_both_sides': ('N1', '@Y < Z'), 'type_and_undeclared': ('N3', '@Inc < Y'),
            'wide_number_beside_undeclared': ('N1', '2147483648 < @Y'),
            'comparison_beside_undeclared': ('N1', '(X = X) < @Y')}.items():
        yield refused(f'pre_with_{name}.adb', procedure('X', pre=pre), rule)
    yield refused('target_and_value_undeclared.adb', procedure('Z', target='@Y'), 'N1')
    yield refused('target_of_another_kind_and_a_wide_number.adb', procedure('2147483648', target='@Inc'), 'N3')
    yield refused('input_for_a_target_and_a_wide_number.adb', longer(A_TO_X, 'X from A', 'A := @2147483648'), 'N12')
    yield refused('target_of_an_attribute_of_nothing_and_a_value.adb', procedure('Z', target="@Y'First"), 'N1')
    yield refused('type_of_two_formals_that_is_one.adb', procedure('X', formals='X, Y', type_mark='@Y'), 'N1')
    yield refused('type_undeclared_and_a_formal_twice.adb',
                  longer('A : @Count; A : Integer', 'A from A', 'null'), 'N1')
    yield refused('formal_twice_and_its_type_undeclared.adb', longer('A, @A : Natural', 'A from A', 'null'), 'N2')
    yield refused('import_undeclared_and_an_export_of_the_next_item.adb',
                  procedure('A', derives='A from @Y & Z from B', **AB), 'N1')
    yield refused('export_of_another_kind_before_an_import_undeclared.adb',
                  procedure('A', derives='A, @Inc from Y & B from B', **AB), 'N3')
    yield refused('name_in_a_local_and_in_a_statement.adb', with_local('T : @Y', last='X := Z'), 'N1')


def rules_in_order():
    """The rules on variables: U7, U8 at the names of each item, U11 and U2, one procedure after another."""
    yield refused('two_inputs_for_exports.adb',
                  longer('A, B : in Integer; X : out Integer', '@A from & B from & X from', 'X := 1'), 'U8')
    yield refused('input_exported_and_output_imported.adb', longer(A_TO_X, '@A from X', 'X := A'), 'U8')
    yield refused('output_imported_before_an_input_exported.adb',
                  longer('A : in Integer; X, Y : out Integer', 'X from @Y & A from', 'X := 1'), 'U8')
    yield refused('imports_in_another_order.adb',
                  longer('A : in Integer; X, Y, Z : out Integer', 'X from A, @Z, Y', 'X := A'), 'U8')
    yield refused('output_with_a_star_and_an_output_imported.adb', longer(OUT_XY, '@X from *, Y', 'X := 1'), 'U8')
    yield refused('star_over_an_input.adb', longer(A_AND_X, 'X, @A from *', 'X := X'), 'U8')
    yield refused('star_over_an_output_in_the_second_item.adb',
                  longer(A_TO_XY, 'X from A & @Y from *', 'X := A'), 'U8')
    yield refused('in_out_imported_alone_by_a_second_item.adb',
                  longer('A, B : in out Integer; X : out Integer', 'A from A & X from A, @B', 'X := A'), 'U8')
    yield refused('in_out_exported_alone_before_an_output_imported.adb',
                  longer('A : in out Integer; X, Y : out Integer', '@A from & Y from X', 'A := 1'), 'U8')
    yield refused('pre_over_two_outputs.adb', longer(OUT_XY, 'X, Y from', 'X := 1', pre='1 < @Y + X'), 'U11')
    yield refused('pre_over_an_input_and_an_output.adb', longer(A_TO_X, 'X from A', 'X := A', pre='A < @X'), 'U11')
    yield refused('two_inputs_for_targets.adb',
                  longer('A, B : in Integer; X : out Integer', 'X from A, B', 'X := A', '@B := A', 'A := B'), 'U2')
    yield refused('input_for_a_target_read_unset.adb', longer(A_TO_X, 'X from A', '@A := X', 'X := A'), 'U2')
    # U7 is at the word, whatever is wrong after it
    for name, derives in {'missing_and_twice': 'A from B, B', 'twice_apart': 'A from A & B from B & A from B',
                          'twice_by_a_star': 'A from A & B from *, B', 'twice_in_two_ways': 'A, A from B, B'}.items():
        yield refused(f'relation_{name}.adb', at_derives(procedure('A', derives=derives, **AB)), 'U7')
    yield refused('derives_on_a_line_of_its_own.adb',
                  procedure('X', derives='X from X, X').replace('--# derives', '--#\n --#  @derives'), 'U7')
    yield refused('procedure_in_a_column_of_its_own.adb', '\n\t @' + longer(OUT_X, None, 'X := 1'), 'U7')


def renamed(text):
    """The text of a procedure of the name `Dec`."""
    return text.replace('Inc', 'Dec')


# A procedure that breaks a rule, by what it breaks: the phase, the finding and the text.
BROKEN = {
    'name': (0, 'N1', procedure('@Y')),
    'type': (0, 'N10', procedure('X @= 1')),
    'relation': (1, 'U7', at_derives(procedure('X', derives='X from X, X'))),
    'target': (1, 'U2', longer(A_TO_X, 'X from A', 'X := A', '@A := X')),
    'flow': (2, 'F2 unused: X from X', procedure('1', derives='@X from X')),
}


def procedures_in_order():
    """Breaches of two procedures: that of the earlier phase is reported, and in one phase that of the first procedure."""
    for name, other in product(BROKEN, repeat=2):
        (phase, finding, text), (other_phase, other_finding, other_text) = BROKEN[name], BROKEN[other]
        if phase == other_phase == 2:
            yield refused(f'{name}_and_then_{other}.adb', text + renamed(other_text), finding, other_finding)
        elif phase <= other_phase:
            yield refused(f'{name}_and_then_{other}.adb', text + renamed(other_text).replace('@', ''), finding)
        else:
            yield refused(f'{name}_and_then_{other}.adb', text.replace('@', '') + renamed(other_text), other_finding)
    for name, (_, finding, text) in BROKEN.items():
        yield refused(f'unproved_and_then_{name}.adb', procedure('X + 1') + renamed(text), finding)
        yield refused(f'{name}_and_then_unproved.adb', text + renamed(procedure('X + 1')), finding)
    _, unused, flowing = BROKEN['flow']
    yield refused('flow_of_a_procedure_of_no_formals_behind_another.adb',
                  flowing + longer(None, None, '@T := 1', declared=T, name='Skip'), unused, 'F3')
    yield refused('flow_of_three.adb',
                  flowing + renamed(flowing) + at_end(longer(OUT_X, '@X from', 'null', name='Last')),
                  unused, unused, 'F1 missing: X from X', 'F4 unset: X')
    yield refused('flow_of_the_second_of_three.adb', INC + renamed(flowing) + short('Same'), unused)


def headings_in_order():
    """The headings of all procedures come before all else."""
    yield refused('undeclared_before_a_name_twice.adb', procedure('Y') + INC.replace('Inc', '@Inc', 1), 'N2')
    yield refused('undeclared_before_a_procedure_named_integer.adb', procedure('Y') + short('@Integer', 'Y'), 'N2')
    yield refused('formal_twice_before_a_name_twice.adb',
                  procedure('X', formals='X, X') + short('A') + short('@iNC'), 'N2')
    yield refused('name_thrice.adb', short('A') + short('@A') + short('a'), 'N2')
    yield refused('integer_for_a_name_twice.adb', short('@Integer') + short('Integer'), 'N2')
    yield refused('name_twice_and_then_integer_for_a_name.adb', short('A') + short('@A') + short('Integer'), 'N2')


def flow_findings_in_order():
    """All findings on flow, by place, then by rule, then by text."""
    abc = 'A, B, C : in Integer; X, Y : out Integer'
    yield refused('missing_from_two.adb', longer(abc, '@@X from A & Y from B, C', 'X := C - B + A', 'Y := B - C'),
                  'F1 missing: X from B', 'F1 missing: X from C')
    yield refused('unused_from_two.adb', longer(abc, '@@X from C, A, B & Y from A, C', 'X := B', 'Y := A - C'),
                  'F2 unused: X from A', 'F2 unused: X from C')
    yield refused('missing_and_unused_from_several.adb',
                  longer(abc, '@@@@X from C, B & Y from A, B', 'X := A', 'X := X - @Y', 'Y := A - B'),
                  'F1 missing: X from A', 'F1 missing: X from Y', 'F2 unused: X from B', 'F2 unused: X from C',
                  'F4 unset: Y')
    # by bytes: what ends comes first, then digits, capitals, the underscore, small letters
    yield refused('missing_from_names_in_the_order_of_bytes.adb',
                  longer('a, B, B_1, B1, BA : in Integer; X, Y : out Integer',
                         '@@@@@X from & Y from a, B, B_1, B1, BA', 'X := a + B + B_1 + B1 + BA', 'Y := X'),
                  'F1 missing: X from B', 'F1 missing: X from B1', 'F1 missing: X from BA', 'F1 missing: X from B_1',
                  'F1 missing: X from a')
    yield refused('unset_at_the_end_in_the_order_of_bytes.adb',
                  at_end(longer('c, B, A1, A_1, A : out Integer', '@c, @A_1, @A1, @B, @A from', 'null'), '@@@@@'),
                  'F1 missing: c from c', 'F1 missing: A_1 from A_1', 'F1 missing: A1 from A1', 'F1 missing: B from B',
                  'F1 missing: A from A', 'F4 unset: A', 'F4 unset: A1', 'F4 unset: A_1', 'F4 unset: B', 'F4 unset: c')
    yield from flow_of_names_in_cases()
    yield from flow_in_company()
    # places are numbers, and no texts
    yield refused('lost_in_ten_lines.adb', longer(OUT_X, 'X from', *['@X := 1'] * 10, 'X := 2'), *['F3'] * 10)
    yield refused('lost_in_one_line.adb', longer(OUT_X, 'X from', '@X := 1; @X := 2; @X := 3; X := 4'), *['F3'] * 3)
    yield refused('unset_in_one_line.adb', longer(OUT_XY, '@X, Y from', 'X := @Y + @Y - @Y', 'Y := 1'),
                  'F1 missing: X from Y', *['F4 unset: Y'] * 3)
    yield refused('lost_behind_tabs_and_lines.adb',
                  '\n\n' + longer(OUT_X, 'X from', '\t\t@X := 1;\r\n@X := 2', 'X := 3'), 'F3', 'F3')
    yield refused('relation_on_several_lines.adb',
                  longer(IN_OUT_AB, '\n--# @@A\n--# from B &\n--#\n--#   @@B from\n--# A', 'null'),
                  'F1 missing: A from A', 'F2 unused: A from B', 'F1 missing: B from B', 'F2 unused: B from A')
    yield refused('exports_of_one_item.adb', longer(IN_OUT_AB, '@A, @@B from A, B', 'A := A - A', 'B := 1'),
                  'F2 unused: A from B', 'F2 unused: B from A', 'F2 unused: B from B')


def flow_of_names_in_cases():
    """Findings on flow spell names as they are declared."""
    aa_to_xx = 'Aa : in out Integer; xX : out Integer'
    yield refused('missing_of_names_in_another_case.adb', longer(aa_to_xx, 'AA from aA & @xx from', 'XX := aa'),
                  'F1 missing: xX from Aa')
    yield refused('unused_of_names_in_another_case.adb', longer(aa_to_xx, 'AA from aA & @xx from AA', 'XX := 1'),
                  'F2 unused: xX from Aa')
    yield refused('unset_of_names_in_another_case.adb',
                  at_end(longer('xX : out Integer', '@XX from', '@Tt := @tt + @TT', declared=['tT : Integer'])),
                  'F1 missing: xX from xX', 'F3', 'F4 unset: tT', 'F4 unset: tT', 'F4 unset: xX')
    yield refused('unset_formal_named_as_the_procedure.adb',
                  longer('iNC : out Integer', '@Inc from', 'INC := @inc'), 'F1 missing: iNC from iNC', 'F4 unset: iNC')


def flow_in_company():
    """Each two of the findings on flow in one procedure."""
    yield refused('missing_and_unused_at_two_places.adb',
                  longer(A_TO_XY, '@X from & @Y from A', 'X := A', 'Y := 1'),
                  'F1 missing: X from A', 'F2 unused: Y from A')
    yield refused('unused_and_missing_at_two_places.adb',
                  longer(A_TO_XY, '@Y from A & @X from', 'X := A', 'Y := 1'),
                  'F2 unused: Y from A', 'F1 missing: X from A')
    yield refused('missing_and_lost.adb', longer(A_TO_XY, '@X from & Y from A', '@X := 1', 'X := A', 'Y := A'),
                  'F1 missing: X from A', 'F3')
    yield refused('missing_and_unset.adb',
                  longer(A_TO_XY, '@X from & Y from A', 'X := A - @T', 'Y := A', declared=T),
                  'F1 missing: X from A', 'F4 unset: T')
    yield refused('unused_and_lost.adb', longer(A_TO_X, '@X from A', '@X := A', 'X := 1'), 'F2 unused: X from A', 'F3')
    yield refused('unused_and_unset.adb', longer(A_TO_X, '@X from A', 'X := @T', declared=T),
                  'F2 unused: X from A', 'F4 unset: T')
    yield refused('lost_and_unset.adb', longer(A_TO_X, 'X from A', '@T := @T', 'X := A', declared=T),
                  'F3', 'F4 unset: T')
    yield refused('unset_and_then_lost.adb', longer(A_TO_X, 'X from A', 'X := A - @T', '@T := X', declared=T),
                  'F4 unset: T', 'F3')
    yield refused('lost_and_left_unset.adb', at_end(longer(A_TO_XY, 'X, @@Y from A', '@X := 1', 'X := A')),
                  'F1 missing: Y from Y', 'F2 unused: Y from A', 'F3', 'F4 unset: Y')
    yield refused('two_read_unset_and_two_left_unset.adb',
                  at_end(longer(OUT_XY, '@X, @Y from', '@T := @Y - @X', declared=T), '@@'),
                  'F1 missing: X from X', 'F1 missing: Y from Y', 'F3', 'F4 unset: Y', 'F4 unset: X', 'F4 unset: X',
                  'F4 unset: Y')


def doublings(times, *more, name='Inc'):
    """A procedure that doubles X so many times, and does more."""
    return longer('X : in out Integer', 'X from X', *['X := X + X'] * times, *more, pre='X = 0', name=name)


def increments(zeros):
    """A procedure with 704 increments, whose last condition has 999695 nodes, and two for each zero.

    After n increments the value has 2 n + 1 nodes. The last condition has as its hypotheses two facts on the type of X, of 3
    nodes each, the precondition, of 3 and two for each zero, and two facts of 2 n + 3 nodes for each n from 1 to 704; and two
    goals of 1411 nodes. Without zeros that is 6 + 3 + 2 * (704 * 705 + 3 * 704) + 2 * 1411 = 999695.
    """
    return longer('X : in out Integer', 'X from X', *['X := X + 1'] * 704, pre='X' + ' + 0' * zeros + ' <= 1000000')


def doublings_and_increments(pre):
    """A procedure with 19 statements, each of which doubles X or adds 1 to it; its last condition has 999818 nodes, and those of pre.

    A value of s nodes becomes one of 2 s + 1 or of s + 2. The last condition has two facts of 3 nodes on the type of X, two of
    s + 2 for each value, and two goals of as many as the last two facts.
    """
    steps = {'d': 'X := X + X', 'i': 'X := X + 1'}
    return longer('X : in out Integer', 'X from X', *[steps[step] for step in 'ddiddddidddiddddddd'], pre=pre)


def nodes_of_conditions():
    """Conditions of 999999, 1000000 and 1000001 nodes, and where the limit comes among the other answers."""
    yield reported('conditions_of_1000000_nodes.adb', doublings_and_increments('-X' + ' + X' * 89 + ' = 0'),
                   *[f'conditions_of_1000000_nodes.adb:{line}:11: V1 unproved: Inc.{2 * line - 11} overflow'
                     for line in range(6, 25)],
                   'Inc: 38 conditions, 19 simplified, 0 scripted, 19 open', 'refused: 19')
    yield too_large('conditions_of_1000001_nodes_by_doubling.adb', doublings_and_increments('X' + ' + X' * 90 + ' = 0'))
    yield accepted('conditions_of_999999_nodes.adb', increments(152), 1408)
    yield too_large('conditions_of_1000001_nodes.adb', increments(153))
    yield accepted('sixteen_doublings.adb', doublings(16), 32)
    yield too_large('seventeen_doublings.adb', doublings(17))
    yield too_large('twenty_doublings.adb', doublings(20))
    yield too_large('twenty_doublings_and_an_unproved_sum.adb', doublings(20, 'X := X + 1'))
    yield too_large('unproved_before_twenty_doublings.adb', procedure('X + 1') + doublings(20, name='Same'))
    yield too_large('twenty_doublings_before_unproved.adb', doublings(20) + renamed(procedure('X + 1')))
    yield refused('flow_before_twenty_doublings.adb',
                  longer('A : in Integer; X : in out Integer', '@X from X, A', *['X := X + X'] * 20), 'F2 unused: X from A')


def many(count, *statements, formals=None, derives=None, name='Inc'):
    """The text of a procedure with so many locals, L1, L2 and so on."""
    declared = f'{", ".join(f"L{n}" for n in range(1, count + 1))} : Integer'
    return longer(formals, derives, *statements or ['null'], declared=[declared], name=name)


def numbers_of_variables():
    """Procedures with 4096 and 4097 variables, and where the limit comes among the other answers."""
    formals, relation = 'X : in out Integer', 'X from X'
    yield accepted('locals_4096.adb', many(4096), 0)
    yield too_many_variables('locals_4097.adb', many(4097))
    yield accepted('formal_and_locals_4096.adb', many(4095, formals=formals, derives=relation), 0)
    yield too_many_variables('formal_and_locals_4097.adb', many(4096, formals=formals, derives=relation))
    yield accepted('last_of_4096_variables.adb', many(4095, 'L4095 := X', 'X := L4095', formals=formals, derives=relation))
    yield refused('last_of_4096_variables_is_unset.adb', many(4095, 'X := @L4095', formals=formals, derives='@X from X'),
                  'F2 unused: X from X', 'F4 unset: L4095')
    yield too_many_variables('locals_4097_in_the_second.adb', procedure() + many(4097, name='Same'))
    yield too_many_variables('flow_before_locals_4097.adb', procedure('1') + many(4097, name='Same'))
    yield too_many_variables('locals_4097_before_flow.adb', many(4097, name='Same') + procedure('1'))
    yield too_many_variables('flow_in_locals_4097.adb', many(4097, 'L1 := 1'))
    yield refused('rule_after_locals_4097.adb', many(4097, name='Same') + at_derives(procedure(derives='X from X, X')), 'U7')
    yield refused('name_after_locals_4097.adb', many(4097, name='Same') + procedure('@Y'), 'N1')
    yield too_many_variables('twenty_doublings_and_locals_4097.adb', doublings(20) + many(4097, name='Same'))


# ---------------------------------------------------------------- branches

AB_TO_X = 'A, B : in Integer; X : out Integer'
ABC_TO_X = 'A, B, C : in Integer; X : out Integer'
AB_AND_XY = 'A, B : in Integer; X, Y : in out Integer'
X_AND_Y = 'X : in Integer; Y : in out Integer'

# A condition that is false, so that after `else` a step stays in Integer: which fact that is, the relation, the same the other
# way round, its right side, and the step.
OPPOSITES = (
    ('at_least_0', '<', '>', '0', '- 1'),
    ('at_least_100', '<', '>', '100', '- 1'),
    ('above_0', '<=', '>=', '0', '- 1'),
    ('at_most_0', '>', '<', '0', '+ 1'),
    ('at_most_100', '>', '<', '100', '+ 1'),
    ('below_0', '>=', '<=', '0', '+ 1'),
    ('last', '/=', '/=', LAST, '- 1'),
    ('first', '/=', '/=', FIRST, '+ 1'),
)


def conditional(*statements, pre=None):
    """The text of a procedure with a formal X that is imported and exported."""
    return longer(X, 'X from X', *statements, pre=pre)


def branches():
    """Procedures with `if` that keep all rules and flow as they say: a condition for each check on each way to it."""
    yield accepted('greater_of_two.adb', longer(AB_TO_X, 'X from A, B', 'if A > B then X := A; else X := B; end if'), 2)
    yield accepted('limited_to_a_range.adb',
                   longer(A_TO_X, 'X from A', 'if A < 0 then X := 0; elsif A > 100 then X := 100; else X := A; end if'), 3)
    yield accepted('limited_to_a_range_of_formals.adb',
                   longer('Low, High, A : in Integer; X : out Integer', 'X from Low, High, A',
                          'if A < Low then X := Low; elsif A > High then X := High; else X := A; end if'), 3)
    yield accepted('limited_by_an_if_after_else.adb',
                   longer(A_TO_X, 'X from A',
                          'if A < 0 then X := 0; else if A > 100 then X := 100; else X := A; end if; end if'), 3)
    yield accepted('sign_of_a_number.adb',
                   longer(A_TO_X, 'X from A', 'if A > 0 then X := 1; elsif A < 0 then X := -1; else X := 0; end if'), 3)
    yield accepted('two_in_order.adb',
                   longer('X, Y : in out Integer', 'X, Y from X, Y', 'if X > Y then T := X; X := Y; Y := T; end if',
                          declared=T), 3)
    # X := A; X := B; and X := C after each of two ways
    yield accepted('greatest_of_three.adb',
                   longer(ABC_TO_X, 'X from A, B, C', 'X := A', 'if B > X then X := B; end if',
                          'if C > X then X := C; end if'), 4)
    yield accepted('greatest_of_three_by_nested_ifs.adb',
                   longer(ABC_TO_X, 'X from A, B, C',
                          'if A > B then if A > C then X := A; else X := C; end if; '
                          'elsif B > C then X := B; else X := C; end if'), 4)
    yield accepted('counter_that_starts_again.adb',
                   conditional("if X < Integer'Last then X := X + 1; else X := Integer'First; end if"), 3)
    yield accepted('count_with_a_condition.adb', conditional('if X < 100 then X := X + 1; end if'))
    yield unproved('count_without_a_condition.adb', conditional('X := X @+ 1'))
    yield accepted('absolute_value.adb',
                   longer(A_TO_X, 'X from A', 'if A < 0 then X := -A; else X := A; end if', pre="A > Integer'First"), 3)
    yield examined('absolute_value_without_precondition.adb',
                   longer(A_TO_X, 'X from A', 'if A < 0 then X := @-A; else X := A; end if'), ('Inc', 3, 1))
    # Last - A; X := Last; A + B and X := A + B; X := 0. That A + B is at most Last is known of no variable.
    yield examined('sum_that_stops_at_last.adb',
                   longer(AB_TO_X, 'X from A, B',
                          "if A > 0 then if B > Integer'Last - A then X := Integer'Last; else X := A @+ B; end if; "
                          'else X := 0; end if'), ('Inc', 5, 3))
    yield accepted('arms_with_null.adb', conditional('if X > 0 then null; X := X; null; else null; end if'), 1)
    yield accepted('condition_in_parentheses.adb', conditional('if ((X < 100)) then X := X + 1; end if'))
    yield accepted('words_of_an_if_in_other_cases.adb',
                   longer(A_TO_X, 'X from A', 'IF A < 0 THEN X := 0; Elsif A > 9 Then X := 9; eLSE X := A; END iF'), 3)
    yield accepted('if_on_several_lines.adb', conditional('if\n X\n<\n100 -- so far\nthen X := X + 1;\nend -- of\n\nif\n'))
    yield examined('two_procedures_with_if.adb',
                   conditional('if X < 100 then X := X + 1; end if')
                   + longer(A_TO_X, 'X from A', 'if A < 0 then X := 0; else X := A @+ 1; end if', name='Dec'),
                   ('Inc', 2), ('Dec', 3, 2))


def facts_of_arms():
    """A condition is a fact in its arm, and its opposite is one after it."""
    yield accepted('bound_for_each_arm.adb', conditional('if X < 100 then X := X + 1; else X := X - 1; end if'), 4)
    yield examined('no_bound_in_the_arm.adb',
                   conditional('if X >= 0 then X := X @+ 1; else X := X + 1; end if'), ('Inc', 4, 1))
    yield examined('no_bound_after_else.adb',
                   conditional('if X < 0 then X := X + 1; else X := X @+ 1; end if'), ('Inc', 4, 3))
    yield examined('no_bound_in_each_arm.adb',
                   conditional('if X >= 0 then X := X @+ 1; else X := X @- 1; end if'), ('Inc', 4, 1, 3))
    for label, relation, mirrored, value, step in OPPOSITES:
        yield accepted(f'else_where_{label}.adb',
                       conditional(f'if X {relation} {value} then null; else X := X {step}; end if'))
        yield accepted(f'else_where_{label}_mirrored.adb',
                       conditional(f'if {value} {mirrored} X then null; else X := X {step}; end if'))
    yield examined('not_equal_is_no_bound_after_else.adb',
                   conditional(f'if X = {LAST} then null; else X := X @+ 1; end if'), ('Inc', 2, 1))
    yield accepted('equal_is_a_bound_in_the_arm.adb', conditional('if X = 5 then X := X + 1; end if'))
    # X < 0, X in 0 .. 99, X >= 100
    yield examined('elsif_has_the_opposite_of_the_first.adb',
                   conditional('if X < 0 then X := X + 1; elsif X < 100 then X := X - 1; else X := X @+ 1; end if'),
                   ('Inc', 6, 5))
    yield accepted('else_has_the_opposites_of_all.adb',
                   conditional('if X > 100 then X := 100; elsif X < -100 then X := 0; elsif X = 0 then null; '
                               'else X := X + 1; X := X - 2; end if'), 6)
    yield accepted('facts_of_an_arm_in_a_nested_one.adb',
                   conditional('if X > 0 then if X < 100 then X := X + 1; X := X - 3; else X := X - 3; end if; end if'), 6)
    # Y := 1, 1 + X, Y := 1 + X where X < 100; Y := 2, 2 + X, Y := 2 + X where X >= 100
    yield examined('facts_of_an_arm_after_the_if.adb',
                   longer('X : in Integer; Y : out Integer', 'Y from X', 'if X < 100 then Y := 1; else Y := 2; end if',
                          'Y := Y @+ X'), ('Inc', 6, 5))


def static_conditions():
    """A static condition is a literal, and after a false fact everything is proved."""
    yield accepted('arm_that_is_never_run.adb', conditional('if 1 > 2 then X := X + 1; end if'))
    yield accepted('else_that_is_never_run.adb', conditional('if 1 < 2 then null; else X := X + 1; end if'))
    yield examined('arm_that_is_always_run.adb', conditional('if 1 < 2 then X := X @+ 1; end if'), ('Inc', 2, 1))
    yield examined('else_that_is_always_run.adb',
                   conditional('if 2 < 1 then null; else X := X @+ 1; end if'), ('Inc', 2, 1))
    yield accepted('arm_after_one_that_is_always_run.adb',
                   conditional("if Integer'First < 0 then null; elsif X > 0 then X := X + 1; else X := X - 1; end if"), 4)
    # X := 0, 0 + 1, X := 0 + 1 where the condition is true; X + 1 and X := X + 1 where it is false
    yield examined('after_an_arm_that_is_never_run.adb',
                   conditional('if 1 > 2 then X := 0; end if', 'X := X @+ 1'), ('Inc', 5, 4))
    yield accepted('after_an_arm_that_is_always_run.adb', conditional('if 1 < 2 then X := 0; end if', 'X := X + 1'), 5)
    yield accepted('arm_of_a_number_unequal_to_itself.adb', conditional('if X /= X then X := X + 1; end if'))
    yield accepted('else_of_a_number_equal_to_itself.adb', conditional('if X = X then null; else X := X + 1; end if'))
    yield accepted('wide_static_condition.adb', conditional(f'if {WIDEST} - 1 < 0 then X := X + 1; end if'))
    yield refused('static_condition_out_of_range.adb', conditional("if Integer'Last @+ 1 > 0 then X := 0; end if"), 'N12')


def checks_of_conditions():
    """The checks of a condition come before it, and what they show is a fact after it too."""
    yield examined('sum_in_a_condition.adb', conditional('if X @+ 1 > 0 then X := 0; end if'), ('Inc', 2, 1))
    yield accepted('sum_in_a_condition_with_precondition.adb', conditional('if X + 1 > 0 then X := 0; end if', pre=BELOW))
    yield accepted('sum_of_a_condition_again.adb',
                   conditional('if X + 1 <= 100 then X := X + 1; else X := X + 1; end if', pre=BELOW), 5)
    # the first condition is left, and what it was to show is known in each arm
    yield examined('sum_of_a_condition_again_without_precondition.adb',
                   conditional('if X @+ 1 <= 100 then X := X + 1; else X := X + 1; end if'), ('Inc', 5, 1))
    yield examined('sign_in_a_condition.adb', conditional('if @-X > 5 then X := 0; end if'), ('Inc', 2, 1))
    yield examined('several_sums_in_a_condition.adb',
                   conditional('if X @+ 1 > (X @- 1) then X := 0; end if'), ('Inc', 3, 1, 2))
    # X := 0 in the first arm; then X - 1 where X <= 0
    yield examined('sum_in_the_condition_of_elsif.adb',
                   conditional('if X > 0 then X := 0; elsif X @- 1 < 0 then X := 1; end if'), ('Inc', 3, 2))
    yield accepted('sum_in_the_condition_of_elsif_that_is_bounded.adb',
                   conditional('if X > 0 then X := 0; elsif X + 1 < 0 then X := 1; end if'), 3)
    yield examined('sum_in_the_condition_of_a_nested_if.adb',
                   conditional('if X > 0 then if X @+ 1 > 5 then X := 0; end if; elsif X + 1 > 0 then X := 1; end if'),
                   ('Inc', 4, 1))


def order_of_conditions():
    """What follows an `if` is walked after each arm, the first arm first; and each check is one condition for what begins alike."""
    # A > 0: X + 1, X := X + 1; A < 0 after that: X + 1 - 1, X := X + 1 - 1; A <= 0 and A < 0: X - 1, X := X - 1
    yield open_in_order('two_ifs.adb',
                        longer(A_AND_X, 'X from X, A', 'if A > 0 then X := X @+ 1; end if',
                               'if A < 0 then X := X @- 1; end if'), 6, (1, 1), (5, 2))
    # the last statement comes first, in the walk of the arm that does nothing
    yield open_in_order('statement_after_an_if.adb',
                        conditional('if X > 0 then null; else X := X @- 1; end if', 'X := X @+ 5'), 6, (1, 2), (3, 1))
    yield open_in_order('statement_after_an_if_left_twice.adb',
                        longer(A_AND_X, 'X from X, A', 'if A > 0 then null; else X := X @+ 1; end if', 'X := X @+ 5'),
                        6, (1, 2), (3, 1), (5, 2))
    yield open_in_order('statement_before_an_if_once.adb',
                        longer(A_AND_X, 'X from X, A', 'X := X @+ 1', 'if A > 0 then X := X @+ 1; end if', 'X := X @- 5'),
                        8, (1, 1), (3, 2), (5, 3), (7, 3))
    yield open_in_order('condition_of_a_second_if.adb',
                        longer(A_AND_X, 'X from X, A', 'if A > 0 then X := 1; end if', 'if X @+ 1 > A then X := 0; end if'),
                        # X := 1, 1 + 1, X := 0; X + 1, X := 0
                        5, (4, 1))
    yield open_in_order('statement_after_three_arms.adb',
                        longer(AB_AND_XY, 'X from X, A, B & Y from Y, X, A, B',
                               'if A > 0 then null; elsif B > 0 then X := 0; else X := 5; end if', 'Y := Y @+ X'),
                        # Y + X, Y := Y + X; X := 0, Y + 0, ..; X := 5, Y + 5, ..
                        8, (1, 1), (7, 1))
    yield open_in_order('statement_after_an_inner_if.adb',
                        longer(A_AND_X, 'X from X, A',
                               'if A > 0 then if A > 5 then X := 1; end if; X := X @+ 2; end if', 'X := X @- 3'),
                        # X := 1, 1 + 2, .., 1 + 2 - 3, ..; X + 2, .., X + 2 - 3, ..; X - 3, ..
                        11, (6, 1), (8, 2), (10, 2))


def flow_of_branches():
    """A condition comes to all that its arms set; without `else` what was there before comes too."""
    yield refused('condition_that_is_not_declared.adb',
                  longer(A_TO_XY, '@X from & Y from A', 'Y := A', 'if A > 0 then X := 1; else X := 0; end if'),
                  'F1 missing: X from A')
    yield refused('condition_of_elsif_that_is_not_declared.adb',
                  longer('A, B : in Integer; X, Y : out Integer', '@X from A & Y from B', 'Y := B',
                         'if A > 0 then X := 1; elsif B > 0 then X := 2; else X := 3; end if'), 'F1 missing: X from B')
    yield refused('first_condition_comes_to_the_arm_of_elsif.adb',
                  longer(AB_AND_XY, '@X from X, B & Y from Y, A',
                         'if A > 0 then Y := 1; elsif B > 0 then X := 1; end if'), 'F1 missing: X from A')
    yield accepted('condition_of_elsif_comes_to_no_arm_before_it.adb',
                   longer(AB_AND_XY, 'X from X, A, B & Y from Y, A',
                          'if A > 0 then Y := 1; elsif B > 0 then X := 1; end if'))
    yield refused('condition_of_elsif_is_declared_for_an_arm_before_it.adb',
                  longer(AB_AND_XY, 'X from X, A, B & @Y from Y, A, B',
                         'if A > 0 then Y := 1; elsif B > 0 then X := 1; end if'), 'F2 unused: Y from B')
    yield refused('condition_comes_to_nothing_after_the_if.adb',
                  longer(A_TO_XY, 'X from A & @Y from A', 'if A > 0 then X := 1; else X := 2; end if', 'Y := 3'),
                  'F2 unused: Y from A')
    yield accepted('condition_comes_on_through_what_an_arm_sets.adb',
                   longer(A_TO_X, 'X from A', 'T := 0', 'if A > 0 then T := 1; end if', 'X := T', declared=T), 4)
    yield accepted('condition_of_an_outer_if_comes_to_an_inner_arm.adb',
                   longer(AB_AND_XY, 'X from X, A, B & Y from Y',
                          'if A > 0 then null; if B > 0 then X := 1; end if; null; end if'), 1)
    yield refused('condition_of_an_inner_if_is_not_declared.adb',
                  longer(AB_AND_XY, '@X from X, A & Y from Y, B', 'if B > 0 then Y := 1; end if',
                         'if A > 0 then if B > 0 then X := 1; end if; end if'), 'F1 missing: X from B')
    yield refused('static_condition_brings_no_flow.adb',
                  longer(A_TO_X, '@X from A', 'if 1 < 2 then X := 1; else X := 0; end if'), 'F2 unused: X from A')
    yield refused('value_kept_where_there_is_no_else.adb',
                  longer(A_X_TO_Y, '@X from A & Y from X', 'Y := X', 'if A > 0 then X := 1; end if'),
                  'F1 missing: X from X')
    yield refused('value_not_kept_where_each_arm_sets_it.adb',
                  longer(A_AND_X, '@X from A, X', 'if A > 0 then X := 1; else X := A; end if'), 'F2 unused: X from X')
    yield accepted('value_kept_where_one_arm_does_nothing.adb',
                   longer(A_AND_X, 'X from A, X', 'if A > 0 then X := 1; else null; end if'), 1)
    yield refused('flow_of_each_arm.adb',
                  longer('A, B, C : in Integer; X, Y : out Integer', '@X from A & Y from B, C', 'Y := B + C',
                         'if 0 < 1 then X := A; else X := B; end if'), 'F1 missing: X from B')


def ineffective_branches():
    """A condition that decides nothing is ineffective, at its word; and so is a value that is lost in all arms."""
    yield refused('condition_that_decides_nothing.adb',
                  longer(A_TO_X, 'X from A', '@if A > 0 then null; end if', 'X := A'), 'F3')
    yield refused('condition_of_elsif_that_decides_nothing.adb',
                  longer(A_AND_X, 'X from X, A', 'if A > 0 then X := 1; @elsif A < 0 then null; end if'), 'F3')
    yield refused('conditions_that_decide_nothing.adb',
                  longer(A_AND_X, 'X from X, A',
                         '@if A > 0 then null; @elsif A < 0 then null; @elsif A = 0 then null; else null; end if',
                         'X := X - A'), 'F3', 'F3', 'F3')
    yield accepted('condition_that_decides_only_by_elsif.adb',
                   longer(A_AND_X, 'X from X, A', 'if A > 0 then null; elsif A < 0 then X := 1; end if'), 1)
    yield accepted('condition_that_decides_only_by_else.adb',
                   longer(A_AND_X, 'X from X, A', 'if A > 0 then null; else X := 1; end if'), 1)
    yield refused('static_condition_that_decides_nothing.adb',
                  longer(A_TO_X, 'X from A', '@if 1 < 2 then null; end if', 'X := A'), 'F3')
    yield refused('condition_over_lost_values.adb',
                  longer(A_TO_X, 'X from A', '@if A > 0 then @T := 1; end if', 'X := A', declared=T), 'F3', 'F3')
    yield refused('condition_over_values_that_are_overwritten.adb',
                  longer(A_TO_X, 'X from A', '@if A > 0 then @X := 1; else @X := 2; end if', 'X := A'), 'F3', 'F3', 'F3')
    yield refused('inner_condition_that_decides_nothing.adb',
                  longer(A_AND_X, 'X from X, A', 'if A > 0 then X := 1; @if A > 5 then null; end if; end if'), 'F3')
    yield refused('conditions_of_nested_ifs_that_decide_nothing.adb',
                  longer(A_TO_X, 'X from A', '@if A > 0 then @if A > 5 then null; end if; end if', 'X := A'), 'F3', 'F3')
    yield refused('value_overwritten_in_both_arms.adb',
                  longer(A_TO_X, 'X from A', '@X := 1', 'if A > 0 then X := 2; else X := A; end if'), 'F3')
    yield refused('value_overwritten_in_three_arms.adb',
                  longer(A_TO_X, 'X from A', '@X := 1',
                         'if A > 0 then X := 2; elsif A < 0 then X := 3; else X := A; end if'), 'F3')
    yield accepted('value_overwritten_in_one_arm.adb',
                   longer(A_TO_X, 'X from A', 'X := 1', 'if A > 0 then X := A; end if'))
    yield accepted('value_read_by_a_condition.adb',
                   longer(A_TO_X, 'X from A', 'T := A', 'if T > 0 then X := 2; else X := 0; end if', declared=T), 3)
    yield refused('value_read_by_a_condition_that_decides_nothing.adb',
                  longer(A_TO_X, 'X from A', '@T := A', '@if T > 0 then null; end if', 'X := A', declared=T), 'F3', 'F3')
    yield accepted('value_read_in_one_arm.adb',
                   longer(A_TO_X, 'X from A', 'T := A', 'if A > 0 then X := T; else X := 0; end if', declared=T), 3)
    yield refused('value_lost_inside_an_arm.adb',
                  longer(A_AND_X, 'X from X, A', 'if A > 0 then @X := 1; X := A; end if'), 'F3')


def unset_in_branches():
    """After an `if` a variable is set where each way through it sets it."""
    yield refused('export_set_in_one_arm.adb',
                  at_end(longer(A_TO_X, '@X from A', 'if A > 0 then X := A; end if')),
                  'F1 missing: X from X', 'F4 unset: X')
    yield refused('export_set_in_all_arms_but_one.adb',
                  at_end(longer(A_TO_X, '@X from A', 'if A > 9 then X := A; elsif A > 0 then null; else X := 0; end if')),
                  'F1 missing: X from X', 'F4 unset: X')
    yield refused('local_set_in_one_arm.adb',
                  longer(A_TO_X, 'X from A', 'if A > 0 then T := A; end if', 'X := @T', declared=T), 'F4 unset: T')
    yield refused('local_set_after_else_only.adb',
                  longer(A_TO_X, 'X from A', 'if A > 0 then null; else T := A; end if', 'X := @T', declared=T), 'F4 unset: T')
    yield accepted('local_set_in_both_arms.adb',
                   longer(A_TO_X, 'X from A', 'if A > 0 then T := A; else T := 0; end if', 'X := T', declared=T), 4)
    yield accepted('local_set_in_three_arms.adb',
                   longer(A_TO_X, 'X from A', 'if A > 0 then T := 1; elsif A < 0 then T := 2; else T := A; end if', 'X := T',
                          declared=T), 6)
    yield refused('local_set_in_two_arms_without_else.adb',
                  longer(A_TO_X, 'X from A', 'if A > 0 then T := 1; elsif A <= 0 then T := 2; end if', 'X := @T', declared=T),
                  'F4 unset: T')
    # the value of a condition does not count
    yield refused('local_set_in_an_arm_that_is_always_run.adb',
                  longer(A_TO_X, 'X from A', 'if 1 < 2 then T := A; end if', 'X := @T', declared=T), 'F4 unset: T')
    yield refused('local_set_and_read_under_one_condition.adb',
                  longer(A_TO_X, 'X from A', 'X := 0', 'if A > 0 then T := A; end if', 'if A > 0 then X := @T; end if',
                         declared=T), 'F4 unset: T')
    yield refused('local_set_in_an_inner_arm.adb',
                  longer(A_TO_X, 'X from A', 'if A > 0 then if A > 5 then T := 1; end if; else T := A; end if', 'X := @T',
                         declared=T), 'F4 unset: T')
    yield accepted('local_set_and_read_in_an_arm.adb',
                   longer(A_TO_X, 'X from A', 'if A > 0 then T := A; X := T; else X := 0; end if', declared=T), 3)
    yield refused('local_set_in_an_arm_and_read_in_another.adb',
                  longer(A_TO_X, 'X from A', 'if A > 0 then T := A; X := T; else X := @T; end if', declared=T), 'F4 unset: T')
    yield refused('unset_in_a_condition.adb',
                  longer(A_TO_X, 'X from A', 'if @T > 0 then X := A; else X := 0; end if', declared=T), 'F4 unset: T')
    yield refused('unset_in_the_condition_of_elsif.adb',
                  longer(A_TO_X, 'X from A', 'if A > 0 then T := 1; X := T; elsif A > @T then X := 1; else X := 0; end if',
                         declared=T), 'F4 unset: T')
    yield refused('unset_in_a_condition_and_in_each_arm.adb',
                  longer(A_TO_X, 'X from A', 'if A > @T then X := @T; else X := @T + @T; end if', declared=T),
                  *['F4 unset: T'] * 4)
    yield refused('unset_and_ineffective_condition.adb',
                  longer(A_TO_X, 'X from A', '@if @T > 0 then null; end if', 'X := A', declared=T), 'F3', 'F4 unset: T')


def rules_of_branches():
    """The rules on names, types and variables, in the order of the text."""
    yield refused('undeclared_in_a_condition.adb', conditional('if @Z > 0 then Y := 1; end if'), 'N1')
    yield refused('undeclared_in_an_arm.adb', conditional('if X > 0 then @Y := 1; elsif Z > 0 then null; end if'), 'N1')
    yield refused('undeclared_in_the_condition_of_elsif.adb',
                  conditional('if X > 0 then null; elsif X > @Z then Y := 0; else Y := 1; end if'), 'N1')
    yield refused('undeclared_after_else.adb', conditional('if X > 0 then null; else X := @Y; end if', 'X := Z'), 'N1')
    yield refused('undeclared_after_an_if.adb', conditional('if X > 0 then X := 1; end if', 'X := @Z'), 'N1')
    yield refused('undeclared_before_an_if.adb', conditional('X := @Z', 'if X then X := 1; end if'), 'N1')
    yield refused('procedure_in_a_condition.adb', conditional('if @Inc > 0 then X := 1; end if'), 'N3')
    yield refused('condition_that_is_a_variable.adb', conditional('if @X then Y := 1; end if'), 'N10')
    yield refused('condition_that_is_a_number.adb', conditional('if @1 then X := 1; end if'), 'N10')
    yield refused('condition_that_is_an_attribute.adb', conditional("if @Integer'First then X := 1; end if"), 'N10')
    yield refused('condition_that_is_a_sum.adb', conditional('if X @+ 1 then X := 1; end if'), 'N10')
    yield refused('condition_that_is_a_sign.adb', conditional('if @-X then X := 1; end if'), 'N10')
    yield refused('condition_that_is_a_variable_in_parentheses.adb', conditional('if @(X) then X := 1; end if'), 'N10')
    yield refused('condition_of_elsif_that_is_a_variable.adb',
                  conditional('if X > 0 then X := 1; elsif @X then Y := 1; end if'), 'N10')
    yield accepted('condition_that_compares_conditions.adb', conditional('if (X = 0) = (X = 1) then X := 1; end if'), 1)
    yield refused('wide_number_in_a_condition.adb', conditional('if X < @2147483648 then X := 1; end if'), 'N12')
    yield refused('comparison_assigned_in_an_arm.adb', conditional('if X < 5 then X := X @< 5; end if'), 'N10')
    yield refused('wide_number_assigned_after_else.adb',
                  conditional('if X < 5 then X := 0; else X := @2147483648; end if'), 'N12')
    yield refused('end_name_after_an_if.adb',
                  conditional('if X < 5 then X := 0; end if').replace('end Inc', 'end @Dec'), 'N5')
    yield refused('target_of_mode_in_in_an_arm.adb',
                  longer(A_TO_X, 'X from A', 'if A > 0 then X := 1; @A := 2; else A := 3; end if'), 'U2')
    yield refused('target_of_mode_in_in_the_arm_of_elsif.adb',
                  longer(A_TO_X, 'X from A', 'if A > 0 then X := 1; elsif A < 0 then @A := 2; end if'), 'U2')
    yield refused('target_of_mode_in_after_else.adb',
                  longer(A_TO_X, 'X from A', 'if A > 0 then X := 1; else if A < 0 then null; else @A := 0; end if; end if',
                         'A := 5'), 'U2')
    yield refused('target_of_mode_in_before_an_if.adb',
                  longer(A_TO_X, 'X from A', '@A := 5', 'if A > 0 then A := 1; end if'), 'U2')
    yield refused('undeclared_after_a_target_of_mode_in.adb',
                  longer(A_TO_X, 'X from A', 'if A > 0 then A := 1; X := 0; else X := @Y; end if'), 'N1')
    yield refused('relation_before_a_target_in_an_arm.adb',
                  at_derives(longer(A_TO_X, 'X from', 'if A > 0 then A := 1; end if')), 'U7')


def syntax_of_branches():
    """Texts near to an `if`. Its parts without a token, with one twice, and with another are among `tokens`."""
    yield unexpected('arm_without_statements.adb', conditional('if X < 0 then @end if'))
    yield unexpected('arm_without_statements_before_elsif.adb', conditional('if X < 0 then @elsif X > 1 then null; end if'))
    yield unexpected('arm_without_statements_before_else.adb', conditional('if X < 0 then @else null; end if'))
    yield unexpected('else_without_statements.adb', conditional('if X < 0 then null; else @end if'))
    yield unexpected('two_else.adb', conditional('if X < 0 then null; else null; @else null; end if'))
    yield unexpected('elsif_after_else.adb', conditional('if X < 0 then null; else null; @elsif X > 0 then null; end if'))
    yield unexpected('elsif_without_if.adb', conditional('null', '@elsif X > 0 then null'))
    yield unexpected('else_without_if.adb', conditional('null', '@else null'))
    yield unexpected('end_if_without_if.adb', conditional('null', 'end @if'))
    yield unexpected('elseif_in_one_word.adb', conditional('if X < 0 then null; elseif @X > 0 then null; end if'))
    yield unexpected('endif_in_one_word.adb', conditional('if X < 0 then null; endif@'))
    yield unexpected('else_if_with_one_end.adb',
                     conditional('if X < 0 then null; else if X > 0 then null; end if').replace('end Inc', 'end @Inc'))
    yield unexpected('if_without_end.adb', conditional('if X < 0 then null').replace('end Inc', 'end @Inc'))
    yield unexpected('if_that_ends_with_a_name.adb', conditional('if X < 0 then null; end @Inc'))
    yield unexpected('name_after_end_if.adb', conditional('if X < 0 then null; end if @X'))
    yield unexpected('condition_with_two_relations.adb', conditional('if X < 0 @= 1 then null; end if'))
    yield accepted('condition_with_and.adb', conditional('if X < 0 and X > -5 then X := 0; end if'), 1)
    yield refused('condition_with_not.adb', conditional('if @not X < 0 then null; end if'), 'N10')
    yield unexpected('condition_with_a_semicolon.adb', conditional('if X < 0@; then null; end if'))
    yield unexpected('assignment_for_a_condition.adb', conditional('if X @:= 0 then null; end if'))
    yield unexpected('if_in_an_expression.adb', conditional('X := @if X < 0 then 1 else 2'))
    yield unexpected('if_among_declarations.adb', INC.replace('is\n', 'is\n@if X < 0 then null; end if;\n'))
    yield unexpected('if_for_a_local.adb', INC.replace('is\n', 'is\n@if : Integer;\n'))
    yield unexpected('elsif_for_a_formal.adb', longer('@elsif : in out Integer', 'X from X', 'null'))
    yield unexpected('marked_if.adb', conditional('null;\n--# @if X < 0\nthen null; end if'))
    yield unexpected('marked_then.adb', conditional('if X < 0 --# @then\nnull; end if'))
    yield unexpected('marked_condition.adb', conditional('if --# @X < 0\nthen null; end if'))
    yield unexpected('marked_end_if.adb', conditional('if X < 0 then null; --# @end if'))
    yield unexpected('pre_in_an_arm.adb', conditional('if X < 0 then\n--# @pre X < 0;\nnull; end if'))
    yield refused('case_in_an_arm.adb', conditional('if X < 0 then @case X is when 1 => null; end case; end if'), 'N17')


def nested_ifs(count, condition='X > 0', innermost=None, statement='X := 0'):
    """So many `if`s, each in the one before, with this condition; the innermost one may have another, and holds the statement."""
    outer = f'if {condition} then ' * (count - 1)
    return f'{outer}if {innermost or condition} then {statement}' + '; end if' * count


def levels_of_branches():
    """An `if` opens one level over its conditions and its statements; `elsif` and `else` open none."""
    yield accepted('nested_ifs_199.adb', conditional(nested_ifs(199)), 1)
    yield accepted('nested_ifs_199_and_a_sum.adb', conditional(nested_ifs(199, statement='X := X + 0')))
    yield too_nested('nested_ifs_199_and_a_sum_of_two_levels.adb', conditional(nested_ifs(199, statement='X := X + 0 + 0')))
    yield too_nested('nested_ifs_200_and_a_relation.adb', conditional(nested_ifs(200)))
    yield refused('nested_ifs_200.adb', conditional('if @X then ' + nested_ifs(199, 'X') + '; end if'), 'N10')
    yield refused('nested_ifs_200_and_one_relation_less.adb', conditional(nested_ifs(200, innermost='@X')), 'N10')
    yield too_nested('nested_ifs_201.adb', conditional(nested_ifs(201, 'X')))
    yield too_nested('nested_ifs_200_and_a_sum.adb', conditional(nested_ifs(200, 'X', statement='X := X + 0')))
    yield too_nested('nested_ifs_200_and_parentheses.adb', conditional(nested_ifs(200, 'X', statement='X := (X)')))
    yield too_nested('nested_ifs_200_and_parentheses_in_a_condition.adb', conditional(nested_ifs(200, 'X', '(X)')))
    yield too_nested('nested_ifs_200_and_a_sign_in_a_condition.adb', conditional(nested_ifs(200, 'X', '-X')))
    yield accepted('nested_ifs_in_elsif.adb',
                   conditional('if X < 0 then null; elsif X > 9 then ' + nested_ifs(198) + '; end if'), 1)
    yield accepted('nested_ifs_after_else.adb', conditional('if X < 0 then null; else ' + nested_ifs(198) + '; end if'), 1)
    yield too_nested('nested_ifs_in_elsif_and_a_relation.adb',
                     conditional('if X < 0 then null; elsif X > 9 then ' + nested_ifs(199) + '; end if'))
    yield too_nested('relation_of_elsif_in_nested_ifs_200.adb',
                     conditional(nested_ifs(200, 'X', statement='null; elsif X > 0 then null')))
    yield accepted('else_if_199.adb', conditional('if X > 0 then X := 1; else ' * 199 + 'null' + '; end if' * 199), 199)
    yield too_nested('else_if_200.adb', conditional('if X > 0 then X := 1; else ' * 200 + 'null' + '; end if' * 200))
    yield accepted('elsif_300.adb', conditional('if X = 0 then null; ' + 'elsif X > 0 then X := 1; ' * 300 + 'end if'), 300)
    yield accepted('ifs_in_a_row_do_not_nest.adb',
                   conditional('if X > 0 then ' + 'if X > 0 then null; X := 1; end if; ' * 3 + 'end if'), 7)
    # the `if` and the relation, and 198 levels in it
    yield accepted('condition_of_199_levels.adb', conditional(f'if {"(" * 198}X{")" * 198} > 0 then X := 0; end if'), 1)
    yield too_nested('condition_of_200_levels.adb', conditional(f'if {"(" * 199}X{")" * 199} > 0 then X := 0; end if'))
    yield accepted('condition_with_a_sum_of_198_levels.adb', conditional(f'if X{" + 0" * 198} > 0 then X := 0; end if'), 199)
    yield too_nested('condition_with_a_sum_of_199_levels.adb', conditional(f'if X{" + 0" * 199} > 0 then X := 0; end if'))
    # whichever comes first in the text
    yield unexpected('token_before_nested_ifs_201.adb', conditional('null; @else', nested_ifs(201, 'X')))
    yield too_nested('nested_ifs_201_before_a_token.adb', conditional(nested_ifs(201, 'X'), 'else'))
    yield unexpected('if_in_an_expression_in_nested_ifs_200.adb', conditional(nested_ifs(200, 'X', statement='X := @if X')))
    yield bad_byte('bad_byte_after_nested_ifs_201.adb', conditional(nested_ifs(201, 'X'), '@?'))


def ifs(count, condition='X > 0'):
    """So many `if`s in a row, each with an arm that sets Y."""
    return [f'if {condition} then Y := 1; end if'] * count


def with_ifs(*statements, name='Inc'):
    """The text of a procedure with an import X and an import and export Y, which comes from both."""
    return longer(X_AND_Y, 'Y from Y, X', *statements, name=name)


def numbers_of_paths():
    """Procedures with 4096 paths and more, and where the limit comes among the other answers.

    Of n `if`s in a row with one arm, which sets a variable, the last one is met on 2 ** (n - 1) ways, and all have 2 ** n - 1
    conditions.
    """
    thirteen = with_ifs(*ifs(13), name='Same')
    yield accepted('ifs_12.adb', with_ifs(*ifs(12)), 4095)
    yield too_many_paths('ifs_13.adb', with_ifs(*ifs(13)))
    yield too_many_paths('ifs_200.adb', with_ifs(*ifs(200)))
    yield too_many_paths('static_ifs_13.adb', longer('Y : in out Integer', 'Y from Y', *ifs(13, '1 < 2')))
    # 1023 conditions, and three after each of 1024 ways
    four = 'if X > 5 then Y := 1; elsif X > 0 then Y := 2; elsif X < 0 then Y := 3; end if'
    yield accepted('ifs_10_and_one_of_four_ways.adb', with_ifs(*ifs(10), four), 4095)
    yield too_many_paths('ifs_11_and_one_of_four_ways.adb', with_ifs(*ifs(11), four))
    yield accepted('one_of_four_ways_and_ifs_10.adb', with_ifs(four, *ifs(10)), 3 + 4 * 1023)
    yield too_many_paths('ifs_11_and_one_of_three_ways.adb',
                         with_ifs(*ifs(11), 'if X > 5 then Y := 1; elsif X > 0 then Y := 2; end if'))
    # ways add up over the arms of an `if`
    eleven, twelve = '; '.join(ifs(11)), '; '.join(ifs(12))
    yield accepted('ifs_11_in_each_of_two_arms.adb',
                   with_ifs(f'if X > 9 then {eleven}; else {eleven}; end if'), 2 * 2047)
    yield too_many_paths('ifs_12_in_an_arm.adb', with_ifs(f'if X > 9 then {twelve}; end if'))
    yield too_many_paths('ifs_12_after_else.adb', with_ifs(f'if X > 9 then null; else {twelve}; end if'))
    yield accepted('nested_ifs_without_else_199.adb', with_ifs(nested_ifs(199, statement='Y := 1')), 1)
    yield accepted('arms_500.adb', with_ifs('if X = 0 then Y := 0; ' + 'elsif X = 1 then Y := 1; ' * 499 + 'end if'), 500)
    yield too_many_paths('arms_4096_without_else.adb',
                         with_ifs('if X = 0 then Y := 0; ' + 'elsif X = 1 then Y := 1; ' * 4095 + 'end if'))
    # after flow, and before all conditions; in the order of the procedures, and before the nodes of the same one
    yield refused('flow_after_ifs_13.adb', with_ifs(*ifs(13), '@if X > 0 then null; end if'), 'F3')
    yield refused('flow_in_a_procedure_after_ifs_13.adb',
                  thirteen + at_derives(procedure('1')).replace('@derives X', 'derives @X'), 'F2 unused: X from X')
    yield too_many_paths('unproved_before_ifs_13.adb', procedure('X + 1') + thirteen)
    yield too_many_paths('ifs_13_before_unproved.adb', thirteen + procedure('X + 1'))
    yield too_many_paths('ifs_13_before_twenty_doublings.adb', thirteen + doublings(20))
    yield too_large('twenty_doublings_before_ifs_13.adb', doublings(20) + thirteen)
    yield too_many_paths('twenty_doublings_and_ifs_13.adb', doublings(20, *['if X > 0 then X := 1; end if'] * 13))
    yield too_large('twenty_doublings_and_ifs_12.adb', doublings(20, *['if X > 0 then X := 1; end if'] * 12))
    yield too_many_variables('ifs_13_before_locals_4097.adb', thirteen + many(4097))
    yield too_many_variables('locals_4097_before_ifs_13.adb', many(4097) + thirteen)


def doublings_and_increments_in(before, pre):
    """The procedure of `doublings_and_increments` with its statements in an `if`, after these words; an `@` at each operator."""
    steps = {'d': 'X := X @+ X', 'i': 'X := X @+ 1'}
    inner = '; '.join(steps[step] for step in 'ddiddddidddiddddddd')
    return conditional(f'{before} {inner}; end if', pre=pre)


def nodes_of_branches():
    """Of how many nodes the conditions in an arm are: 999818, those of the precondition, and those of the new fact.

    A fact that is the same term as an earlier one, as here on the type of X, adds nothing. `X >= 0` has three nodes, and
    `not (X < 0)` has four. The sums are all left: nothing bounds them from above.
    """
    left = range(1, 39, 2)
    minus, plus = '-X' + ' + X' * 87, 'X' + ' + X' * 88
    for name, before, fitting, larger in (
            ('known', "if X >= Integer'First then", minus + ' + X + X', plus + ' + X + X'),
            ('new', 'if X >= 0 then', plus, minus + ' + X'),
            ('opposite', 'if X < 0 then null; else', minus, plus)):
        yield examined(f'{name}_condition_of_1000000_nodes.adb',
                       doublings_and_increments_in(before, f'{fitting} = 0'), ('Inc', 38, *left))
        yield too_large(f'{name}_condition_of_1000001_nodes.adb',
                        doublings_and_increments_in(before, f'{larger} = 0').replace('@', ''))


# ---------------------------------------------------------------- operators, truth values, natural and positive numbers

READ = {'A': 'Integer', 'B': 'Integer', 'F': 'Boolean', 'G': 'Boolean', 'N': 'Natural', 'P': 'Positive'}


def over(body, of='Integer', pre=None, statements=None):
    """The text of a procedure that sets X, of this type, to a value; or by statements, which the value is then a part of.

    It has a formal for each name that it reads, of the type that `READ` gives it. X comes from all of them that the body
    reads; `null from` has those that only the precondition does.
    """
    names = [name for name in READ if re.search(rf'\b{name}\b', f'{body} {pre}')]
    used = [name for name in names if re.search(rf'\b{name}\b', body)]
    ignored = [name for name in names if name not in used]
    params = '; '.join([f'{name} : in {READ[name]}' for name in names] + [f'X : out {of}'])
    derives = f'X from {", ".join(used)}' + (f' & null from {", ".join(ignored)}' if ignored else '')
    return longer(params, derives, *(statements or [f'X := {body}']), pre=pre)


def tested(condition, pre=None):
    """The text of a procedure that sets X to 1 where a condition is true, and else to 0: two conditions more."""
    return over(condition, pre=pre, statements=[f'if {condition} then X := 1; else X := 0; end if'])


def computed(left, right, expression):
    """The text of a procedure in which A and B have these values, and X + 1 is closed where what is stated is false.

    There are two conditions of the two values, then those of the expression, and two of X + 1.
    """
    statements = [f'A := {left}', f'B := {right}', f'if {expression} then X := X + 1; end if']
    return longer(X, 'X from X', *statements, declared=['A, B : Integer'])


CHOOSE = '''procedure Choose (B : in Boolean; Y : out Integer)
--# derives Y from & null from B;
is
begin
   if B then
      Y := 1;
   else
      Y := 2;
   end if;
end Choose;
'''
PART = '''procedure Part (B : in Boolean; Y : out Integer)
--# derives Y from B;
is
   T : Integer;
begin
   if B then
      T := 1;
   end if;
   Y := T;
end Part;
'''
SIGNS = '''procedure Signs (A, B : in Integer; Q, R, M : out Integer)
--# derives Q, R, M from A, B;
--# pre B /= 0;
is
begin
   Q := A / B;
   R := A rem B;
   M := A mod B;
end Signs;
'''


PICK = """procedure Pick (Y : out Integer)
--# derives Y from ;
is
   subtype Two is Integer range 1 .. 2;
   type Pair is array (Two) of Integer;
   A : Pair;
begin
   @A (1) := 5;
   Y := A (2);
end Pick;
"""


def worked_texts():
    """Five texts of several lines, and what is one token away from them."""
    yield refused('choose.adb', CHOOSE.replace('derives Y', 'derives @Y'), 'F1 missing: Y from B')
    yield accepted('choose_by_its_import.adb', CHOOSE.replace('from & null', ''), 2, named='Choose')
    yield refused('part.adb', PART.replace(':= T', ':= @T'), 'F4 unset: T')
    yield accepted('part_with_else.adb', PART.replace('1;', '1; else T := 2;'), 4, named='Part')
    yield left_at('signs.adb', SIGNS.replace('A / B', 'A <2o>/ B'), 7, named='Signs')
    yield left_at('signs_without_precondition.adb',
                  SIGNS.replace('--# pre B /= 0;\n', '').replace('A / B', 'A <1d,2o>/ B'), 7, named='Signs')
    yield left_at('signs_of_what_is_not_the_least.adb', SIGNS.replace('/= 0;', "/= 0 and A > Integer'First;"), 7, named='Signs')
    yield unexpected('choose_by_two_operators.adb', CHOOSE.replace('if B then', 'if A and B @or C then'))
    yield bad_byte('inc_by_two_underscores.adb', procedure('X@__1', pre=BELOW))
    # An array that is assigned part by part is unset at its first part, and nothing else of it is said.
    yield refused('pick.adb', PICK, 'F4 unset: A')
    yield refused('pick_with_each_element.adb', PICK.replace('@A (1) := 5', '@A (1) := 0;\n   A (2) := 0;\n   A (1) := 5'), 'F4 unset: A')
    yield refused('pick_with_an_index_outside.adb', PICK.replace('@A (1) := 5', '@A (1) := 0;\n   A (2) := 0;\n   A (3) := 5'), 'F4 unset: A')


# The quotient, the remainder and the modulus of two numbers.
DIVIDED = {(7, 3): (2, 1, 1), (-7, 3): (-2, -1, 2), (7, -3): (-2, 1, -2), (-7, -3): (2, -1, -1),
           (6, 3): (2, 0, 0), (-6, 3): (-2, 0, 0), (6, -3): (-2, 0, 0), (-6, -3): (2, 0, 0),
           (1, 3): (0, 1, 1), (-1, 3): (0, -1, 2), (1, -3): (0, 1, -2), (-1, -3): (0, -1, -1), (0, -3): (0, 0, 0)}


def typed(number):
    """A static Integer of this value."""
    return f"({number} + 0 * Integer'Last)"


def values_of_divisions():
    """`/` toward zero, `rem` with the sign of the dividend, `mod` with that of the divisor: in numbers, in Integer, in terms."""
    for (left, right), values in DIVIDED.items():
        for operator, value in zip(('/', 'rem', 'mod'), values):
            name = f'{left}_{operator.replace("/", "by")}_{right}'.replace('-', 'minus_')
            yield accepted(f'{name}.adb', procedure(pre=f'({left}) {operator} ({right}) /= {value}'))
            yield unproved(f'{name}_in_integer.adb', procedure('X @+ 1', pre=f'{typed(left)} {operator} {typed(right)} = {value}'))
            yield accepted(f'{name}_in_terms.adb', computed(left, right, f'A {operator} B /= {value}'), 6 if operator == '/' else 5)


def values_of_operators():
    """The values of the other operators, each stated to be different, which is false and closes all."""
    for name, expression, value in (
            ('product', '(-6) * 7', -42), ('product_with_zero', f'0 * {LAST}', 0), ('power', '2 ** 10', 1024),
            ('power_of_a_negative', '(-2) ** 3', -8), ('even_power_of_a_negative', '(-3) ** 2', 9), ('power_zero', '5 ** 0', 1),
            ('power_zero_of_zero', '0 ** 0', 1), ('power_one', '(-5) ** 1', -5), ('power_of_zero', '0 ** 2147483647', 0),
            ('power_of_one', '1 ** 2147483647', 1), ('odd_power_of_minus_one', '(-1) ** 2147483647', -1),
            ('even_power_of_minus_one', '(-1) ** 2147483646', 1), ('abs', 'abs (-7)', 7), ('abs_of_a_positive', 'abs 7', 7),
            ('abs_of_zero', 'abs 0', 0), ('sign_over_a_term', '-7 mod 3', -1), ('sign_over_a_quotient', '-7 / 2 * 2', -6),
            ('sign_over_a_power', '-2 ** 2', -4), ('left_nested_products', '100 / 10 / 5', 2),
            ('products_before_sums', '2 + 3 * 4 - 10 / 5', 12), ('powers_before_products', '2 * 3 ** 2', 18),
            ('abs_before_a_product', '2 * abs (-3) * 2', 12), ('wide_power', '2 ** 126 / 2 ** 124', 4),
            ('natural_first', "Natural'First", 0), ('positive_first', "Positive'First", 1),
            ('natural_last', "Natural'Last", 2147483647), ('positive_last', "POSITIVE'LAST", 2147483647)):
        yield accepted(f'value_of_{name}.adb', procedure(pre=f'{expression} /= {value}'))
    for name, condition in {
            'not': 'not True', 'not_of_a_comparison': 'not (1 < 2)', 'and': 'True and False', 'or': 'False or False',
            'xor': 'True xor True', 'xor_of_false': 'False xor False', 'and_then': 'True and then False',
            'and_then_of_false': 'False and then True', 'or_else': 'False or else False', 'equal': 'True = False',
            'not_equal': 'True /= True', 'equal_comparisons': '(1 < 2) = (2 < 1)', 'three': 'True and True and False',
            'three_xor': 'True xor True xor False', 'not_before_and': 'not False and False', 'not_before_equal': 'not True = True',
            'in': '6 in 1 .. 5', 'in_below': '0 in 1 .. 5', 'not_in': '5 not in 1 .. 5', 'not_in_low': '1 not in 1 .. 5',
            'in_an_empty_range': '3 in 5 .. 1', 'in_natural': '-1 in Natural', 'in_positive': '0 in Positive',
            'not_in_integer': '5 not in Integer', 'not_in_natural': '0 not in Natural',
            'in_wide': '5000000000 not in 1 .. 5000000000'}.items():
        yield accepted(f'false_value_of_{name}.adb', procedure(pre=condition))
        yield unproved(f'true_value_of_{name}.adb', procedure('X @+ 1', pre=f'not ({condition})'))


def ends_of_static_operators():
    """Static operations at the ends of 128 bits and of Integer: the last that is kept, and the first that breaks N12."""
    least, widest = f'(-{WIDEST} - 1)', WIDEST
    for name, kept, broken in (
            ('product', f'{widest} * 1', f'{widest} @* 2'), ('product_of_the_least', f'{least} * 1', f'{least} @* (-1)'),
            ('quotient_of_the_least', f'{least} / 1', f'{least} @/ (-1)'), ('abs', f'abs (-{widest})', f'@abs {least}'),
            ('power_of_two', '2 ** 126', '2 @** 127'), ('power_of_minus_two', '(-2) ** 127', '(-2) @** 128'),
            ('power_of_ten', '10 ** 38', '10 @** 39'), ('far_power', '1 ** 2147483647', '2 @** 2147483647'),
            ('far_power_of_minus_two', '(-1) ** 2147483647', '(-2) @** 2147483647'),
            ('negative_exponent', '2 ** 0', '2 @** (-1)'), ('negative_exponent_of_one', '1 ** 0', '1 @** (-1)'),
            ('quotient_by_zero', '0 / 1', '1 @/ 0'), ('rem_by_zero', '0 rem 1', '1 @rem 0'), ('mod_by_zero', '0 mod 1', '1 @mod 0'),
            ('zero_by_zero', '0 / 1', '0 @/ 0'), ('innermost_quotient', '1 + 1 / 1', '1 + 1 @/ 0'),
            ('innermost_of_two', '1 / 1 / 1', '1 @/ 0 / 0'), ('divisor_that_fails', '1 / (1 / 1)', '1 / (1 @/ 0)'),
            ('divisor_that_is_zero', '1 / (1 / 1)', '1 @/ (1 / 2)'), ('sign_over_a_quotient', '-1 / 1', '-1 @/ 0'),
            ('rem_of_the_least', f'{least} rem (-1)', f'{least} @rem (1 - 1)'),
            ('mod_of_the_least', f'{least} mod (-1)', f'{least} @mod (1 - 1)')):
        yield accepted(f'static_{name}_at_the_ends_of_128_bits.adb', procedure('0', pre=f'{kept} = 0', **OUT), 1)
        yield refused(f'static_{name}_past_the_ends_of_128_bits.adb', procedure('0', pre=f'{broken} = 0', **OUT), 'N12')
    for name, kept, broken in (
            ('product', f'{LAST} * (-1)', f'{FIRST} @* (-1)'), ('product_by_two', '1073741823 * ' + typed(2), '1073741824 @* ' + typed(2)),
            ('least_product_by_two', '(-1073741824) * ' + typed(2), '(-1073741825) @* ' + typed(2)),
            ('quotient', f'{LAST} / (-1)', f'{FIRST} @/ (-1)'), ('quotient_by_one', f'{FIRST} / 1', f'{FIRST} @/ 0'),
            ('rem', f'{FIRST} rem (-1)', f'{FIRST} @rem 0'), ('mod', f'{FIRST} mod (-1)', f'{FIRST} @mod 0'),
            ('abs', f'abs ({FIRST} + 1)', f'@abs {FIRST}'), ('minus', f'-({FIRST} + 1)', f'@-{FIRST}'),
            ('power_of_two', typed(2) + ' ** 30', typed(2) + ' @** 31'),
            ('power_of_minus_two', typed(-2) + ' ** 31', typed(-2) + ' @** 32'),
            ('power_of_last', f'{LAST} ** 1', f'{LAST} @** 2'), ('power_of_first', f'{FIRST} ** 1', f'{FIRST} @** 2'),
            ('typed_exponent', '2 ** ' + typed(30) + ' + 0 * ' + LAST, typed(2) + ' @** ' + typed(31)),
            ('negative_exponent', typed(2) + ' ** 0', typed(2) + ' @** (-1)'),
            ('wide_left_operand', f'2147483647 / {LAST}', f'@2147483648 / {LAST}'),
            ('wide_right_operand', f'{LAST} mod 2147483647', f'{LAST} mod @2147483648'),
            ('wide_exponent', '1 ** 2147483647', '1 ** @2147483648'), ('low_exponent', typed(1) + ' ** 0', typed(1) + ' ** @(-2147483649)'),
            ('wide_value', '1073741824 * 2 - 1', '1073741824 @* 2'), ('wide_quotient', '(-2147483647) / (-1)', '(-2147483648) @/ (-1)'),
            ('wide_abs', 'abs (-2147483647)', '@abs (-2147483648)'), ('wide_power', '2 ** 31 - 1', '2 @** 31')):
        yield accepted(f'static_{name}_at_the_ends_of_integer.adb', procedure(kept, **OUT), 1)
        yield refused(f'static_{name}_past_the_ends_of_integer.adb', procedure(broken, **OUT), 'N12')


def meeting_a_type():
    """A universal operand meets Integer beside one, in a power that is not static, in a membership test, and nowhere else."""
    for name, value in {'product': 'A * @2147483648', 'quotient': '@2147483648 / A', 'rem': 'A rem @(-2147483649)',
                        'mod': '-@2147483649 mod A', 'left_of_a_power': '@2147483648 ** A', 'exponent': 'A ** @2147483648',
                        'power_with_a_sum': '@2147483648 ** (A + 1)'}.items():
        yield refused(f'wide_number_in_a_{name}.adb', over(value), 'N12')
    for name, condition in {'tested': '@2147483648 in 0 .. A', 'low': 'A in @-2147483649 .. 0', 'high': 'A in 0 .. @2147483648',
                            'tested_and_high': '@2147483648 in A .. 2147483648', 'tested_in_integer': '@2147483648 in Integer',
                            'tested_not_in_natural': '@(2 ** 31) not in Natural', 'low_of_two': '5 not in @2147483648 .. A',
                            'tested_beside_last': f'@2147483648 in 0 .. {LAST}', 'equal': 'A = 2 @** 31',
                            'sum_in_integer': '2147483647 @+ 1 in Integer'}.items():
        yield refused(f'wide_number_{name}.adb', procedure('X', pre=condition.replace('A', 'X')), 'N12')
    yield accepted('wide_numbers_that_meet_no_type.adb', procedure('X', pre='2147483648 in 2147483647 .. 2 ** 40'), 1)
    yield accepted('wide_number_in_a_static_power.adb', procedure('2147483648 ** 2 / 2 ** 40', **OUT), 1)
    yield accepted('least_number_in_a_membership_test.adb', procedure('X', pre='-2147483648 in Positive or X > 0'), 1)
    yield left_at('number_to_the_power_of_a_variable.adb', over('2147483647 <2o>** <1r>A'), 3)
    yield left_at('number_to_the_power_of_a_natural.adb', over('2 <2o>** N'), 3)


def run_time_ends():
    """Operations on variables: which checks there are, in their order, and which are left with and without bounds."""
    for name, value, total, pre in (
            ('product', 'A <1o>* B', 2, None), ('product_within', 'A * B', 2, 'A in -46340 .. 46340 and B in -46340 .. 46340'),
            ('product_past', 'A <1o>* B', 2, 'A in -46341 .. 46341 and B in -46341 .. 46341'),
            ('product_below', 'A <1o>* B', 2, 'A in 1 .. 46341 and B in -46341 .. -1'),
            ('product_by_two', 'A * 2', 2, 'A in -1073741824 .. 1073741823'),
            ('product_by_two_past', 'A <1o>* 2', 2, 'A in 0 .. 1073741824'),
            ('product_by_minus_one', 'A <1o>* (-1)', 2, None), ('product_by_one', 'A * 1', 2, None), ('product_of_one', '1 * A', 2, None),
            ('product_by_zero', 'A * 0', 2, None), ('product_of_zero', '0 * A', 2, None), ('square', 'A * A', 2, 'A = 46340'),
            ('quotient', 'A <1d,2o>/ B', 3, None), ('quotient_by_two', 'A <2o>/ 2', 3, None),
            ('quotient_by_what_is_not_zero', 'A <2o>/ B', 3, 'B /= 0'),
            ('quotient_of_what_is_not_the_least', 'A / B', 3, f'A > {FIRST} and B /= 0'),
            ('quotient_by_what_zero_is_not', 'A <1d>/ B', 3, f'A > {FIRST} and 0 /= B'),
            ('quotient_of_the_least', 'A <2o>/ B', 3, f'A = {FIRST} and B = -1'),
            ('quotient_by_minus_one', 'A <2o>/ (-1)', 3, None), ('quotient_by_a_positive', 'N / P', 3, None),
            ('quotient_by_a_natural', 'N <1d>/ N', 3, None),
            ('quotient_by_zero', 'A <1d>/ 0', 3, None), ('quotient_of_zero', '0 <1d>/ A', 3, None),
            ('quotient_by_a_negative', 'A / B', 3, 'B < 0 and A > 0'),
            ('rem', 'A <1d>rem B', 2, None), ('rem_by_a_positive', 'A rem P', 2, None), ('rem_by_zero', 'A <1d>rem 0', 2, None),
            ('rem_of_the_least', 'A rem (-1)', 2, None),
            ('mod', 'A <1d>mod B', 2, None), ('mod_by_a_positive', 'A mod P', 2, None), ('mod_by_zero', 'A <1d>mod 0', 2, None),
            ('mod_by_minus_one', 'A mod (-1)', 2, None),
            ('divisor_below_one', 'A <1d>mod B', 2, 'B < 1'), ('divisor_below_zero', 'A mod B', 2, 'B < 0'),
            ('divisor_above_zero', 'A rem B', 2, '0 < B'),
            ('power', 'A <2o>** <1r>B', 3, None), ('power_two', 'A <2o>** 2', 3, 'A in 0 .. 2'), ('power_zero', 'A <2o>** 0', 3, None),
            ('power_one', 'A <2o>** 1', 3, None),
            ('power_of_a_natural', 'A <2o>** N', 3, None), ('power_below_zero', 'A ** <1r>(-1)', 3, None),
            ('power_in_parentheses', 'A <3o>** <2r>(A <1o>+ 1)', 4, None),
            ('power_of_a_sum', '(A <1o>+ 1) <3o>** <2r>B', 4, None), ('power_of_one', '1 <2o>** <1r>A', 3, None),
            ('power_of_zero', '0 <2o>** N', 3, None),
            ('abs', '<1o>abs A', 2, None), ('abs_of_a_natural', 'abs N', 2, None),
            ('abs_of_a_negative', 'abs A', 2, f'A < 0 and A > {FIRST}'),
            ('abs_of_the_least', '<1o>abs A', 2, f'A = {FIRST}'), ('abs_of_what_is_not_the_least', 'abs A', 2, f'{FIRST} < A'),
            ('abs_in_parentheses', 'abs (A <1o>+ 1)', 3, 'A > 0'),
            ('minus_of_a_natural', '-N', 2, None), ('minus_of_a_product', '<2o>-A <1o>* B', 3, None),
            ('minus_of_a_mod', '-A mod P', 3, None)):
        yield left_at(f'run_time_{name}.adb', over(value, pre=pre), total)
    # the checks of the left operand, of the right one, and then of the operation
    yield left_at('checks_from_left_to_right.adb', over('(A <1o>+ 1) <4d>/ (B <3o>* <2o>abs A)'), 6)
    yield left_at('checks_of_a_chain_of_quotients.adb', over('A <1d,2o>/ B <3d,4o>/ A'), 5)
    yield left_at('checks_of_a_chain_of_products.adb', over('A <1o>* B <2o>* A'), 3)
    # what was shown is a fact from there on
    yield left_at('divisor_that_was_shown.adb', over('A <1d>/ B + A rem B - A mod B', pre="A in -5 .. 5 and B > -5 and B < 5"), 7)
    for operator, left, right, total, marked in (
            ('/', FIRST, -1, 5, 'A <4o>/ B'), ('/', LAST, -1, 5, 'A / B'), ('/', 1, 0, 5, 'A <3d>/ B'), ('mod', 1, 0, 4, 'A <3d>mod B'),
            ('rem', FIRST, -1, 4, 'A rem B'), ('mod', FIRST, -1, 4, 'A mod B'), ('*', FIRST, -1, 4, 'A <3o>* B'),
            ('*', 65536, -32768, 4, 'A * B'),
            ('*', 65536, 32768, 4, 'A <3o>* B'), ('**', 2, 30, 5, 'A ** B'), ('**', 2, 31, 5, 'A <4o>** B'), ('**', -2, 31, 5, 'A ** B'),
            ('**', 2, -1, 5, 'A ** <3r>B'), ('**', 2, 0, 5, 'A ** B'), ('**', 2, 1, 5, 'A ** B'), ('**', -2, 127, 5, 'A <4o>** B'),
            ('**', 2, 127, 5, 'A <4o>** B'), ('**', 0, 0, 5, 'A ** B'), ('**', 1, LAST, 5, 'A ** B'),
            ('abs', FIRST, 0, 5, '<3o>abs A + B')):
        name = f'known_{OPERATOR_NAMES[operator]}_of_{left}_and_{right}'.replace('-', 'minus_').replace("'", '_')
        yield left_at(f'{name}.adb',
                      longer(OUT_X, 'X from', f'A := {left}', f'B := {right}', f'X := {marked}', declared=['A, B : Integer']), total)


OPERATOR_NAMES = {'/': 'quotient', 'mod': 'mod', 'rem': 'rem', '*': 'product', '**': 'power', 'abs': 'abs'}


def intervals_of_operators():
    """What the simplifier knows of an operation: its ends are pinned by the last number that can be added, and the first that cannot."""
    five, small = 'A in -5 .. 3', 'A in -5 .. 3 and B in 1 .. 9'
    for name, value, checks, pre, low, high in (
            ('product', 'A * B', 1, 'A in -5 .. 3 and B in -7 .. 2', -21, 35),
            ('product_of_negatives', 'A * B', 1, 'A in -5 .. -3 and B in -7 .. -2', 6, 35),
            ('product_by_a_negative', 'A * (-3)', 1, 'A in -5 .. 2', -6, 15), ('square', 'A * A', 1, five, -15, 25),
            ('product_by_zero', 'A * 0', 1, None, 0, 0),
            ('quotient', 'A / B', 2, small, -5, 5), ('quotient_by_a_number', 'A / 2', 2, 'A in 4 .. 9', -9, 9),
            ('rem', 'A rem B', 1, small, -5, 3),
            ('rem_of_a_positive', 'A rem B', 1, 'A in 2 .. 9 and B /= 0', 0, 9), ('rem_by_a_number', 'A rem 3', 1, 'A in -5 .. 9', -2, 2),
            ('rem_by_a_negative', 'A rem (-3)', 1, 'A in -5 .. 9', -2, 2),
            ('rem_by_a_greater_number', 'A rem 100', 1, 'A in -5 .. 9', -5, 9),
            ('rem_of_a_positive_by_a_number', 'A rem 3', 1, 'A in 1 .. 9', 0, 2), ('rem_by_one', 'A rem 1', 1, None, 0, 0),
            ('mod', 'A mod B', 1, 'B in -4 .. 6 and B /= 0', -3, 5),
            ('mod_by_a_positive', 'A mod B', 1, 'B in 1 .. 6', 0, 5), ('mod_by_a_negative', 'A mod B', 1, 'B in -6 .. -1', -5, 0),
            ('mod_by_a_number', 'A mod 7', 1, None, 0, 6),
            ('mod_by_a_negative_number', 'A mod (-7)', 1, None, -6, 0), ('mod_of_a_small_number', 'A mod 7', 1, 'A in 1 .. 2', 0, 6),
            ('abs', 'abs A', 1, five, 0, 5),
            ('abs_of_a_negative', 'abs A', 1, 'A in -5 .. -2', 2, 5), ('abs_of_a_positive', 'abs A', 1, 'A in 2 .. 5', 2, 5),
            ('minus', '-A', 1, five, -3, 5),
            ('minus_of_a_product', '-A * 2', 2, five, -6, 10), ('natural', 'N', 0, 'N <= 9', 0, 9), ('positive', 'P', 0, 'P <= 9', 1, 9)):
        for end, sign, added in (('high', '+', 2147483647 - high), ('low', '-', low + 2147483648)):
            # what is past Integer is added in two steps
            steps, last = ('', added) if added < 2147483647 else (f' {sign} 2147483647', added - 2147483647)
            number = checks + (2 if steps else 1)
            yield accepted(f'{end}_end_of_{name}.adb', over(f'{value}{steps} {sign} {last}', pre=pre), number + 1)
            yield left_at(f'past_the_{end}_end_of_{name}.adb', over(f'{value}{steps} <{number}o>{sign} {last + 1}', pre=pre), number + 1)


def guards():
    """Short-circuit forms that guard a check, and the same with operators that evaluate both sides."""
    above = 'A >= 0'
    for name, condition, total, pre in (
            ('quotient', 'B /= 0 and then A / B > 0', 4, above), ('quotient_by_and', 'B /= 0 and A <1d>/ B > 0', 4, above),
            ('quotient_without_bounds', 'B /= 0 and then A <2o>/ B > 0', 4, None),
            ('quotient_by_or_else', 'B = 0 or else A / B > 0', 4, above),
            ('quotient_by_or', 'B = 0 or A <1d>/ B > 0', 4, above), ('quotient_by_xor', '(B = 0) xor (A <1d>/ B > 0)', 4, above),
            ('mod', 'B /= 0 and then A mod B = 0', 3, None), ('mod_by_and', 'B /= 0 and A <1d>mod B = 0', 3, None),
            ('rem', 'B = 0 or else A rem B = 0', 3, None), ('rem_by_or', 'B = 0 or A <1d>rem B = 0', 3, None),
            ('positive', 'B > 0 and then A mod B = 0', 3, None), ('negative', '0 > B and then A mod B = 0', 3, None),
            ('range', 'B in 1 .. 5 and then A mod B = 0', 3, None), ('type', 'B in Positive and then A mod B = 0', 3, None),
            ('type_with_zero', 'B in Natural and then A <1d>mod B = 0', 3, None),
            ('not_in_a_type', 'B not in Positive or else A mod B = 0', 3, None),
            ('not_zero', 'not (B = 0) and then A mod B = 0', 3, None),
            ('not_in_a_range', 'B not in 0 .. 0 and then A <1d>mod B = 0', 3, None),
            ('not_not_zero', 'not (B /= 0) or else A mod B = 0', 3, None), ('other', 'A /= 0 and then A <1d>mod B = 0', 3, None),
            ('same_with_the_other_form', 'B /= 0 or else A <1d>mod B = 0', 3, None),
            ('zero_with_the_other_form', 'B = 0 and then A <1d>mod B = 0', 3, None),
            ('late', 'A <1d>mod B = 0 and then B /= 0', 3, None), ('sum', f'A < {LAST} and then A + 1 > B', 3, None),
            ('sum_by_and', f'A < {LAST} and A <1o>+ 1 > B', 3, None), ('sum_by_or_else', f'A >= {LAST} or else A + 1 > B', 3, None),
            ('sum_by_equality', f'A = {LAST} or else A <1o>+ 1 > B', 3, None), ('minus', f'A /= {FIRST} and then <1o>-A > B', 3, None),
            ('minus_by_a_comparison', f'A > {FIRST} and then -A > B', 3, None), ('abs', f'A > {FIRST} and then abs A > B', 3, None),
            ('product', 'A in -9 .. 9 and then A * 2 > B', 3, None), ('product_by_and', 'A in -9 .. 9 and A <1o>* 2 > B', 3, None),
            ('exponent', 'B >= 0 and then A <2o>** B > 0', 4, None), ('exponent_by_and', 'B >= 0 and A <2o>** <1r>B > 0', 4, None),
            ('nested', 'B /= 0 and then (A >= 0 and then A / B > 0)', 4, None),
            ('chain', 'B /= 0 and then A >= 0 and then A / B > 0', 4, None),
            ('chain_of_or_else', 'B = 0 or else A < 0 or else A <1d,2o>/ B > 0', 4, None),
            ('nested_or_else', 'B = 0 or else (A < 0 or else A / B > 0)', 4, None),
            ('or_else_in_and_then', 'B /= 0 and then (A < 0 or else A / B > 0)', 4, None),
            ('and_then_in_or_else', 'B = 0 or else (A >= 0 and then A / B > 0)', 4, None),
            ('and_in_the_left_side', '(B /= 0 and A >= 0) and then A / B > 0', 4, None),
            ('or_in_the_left_side', '(B /= 0 or A >= 0) and then A <1d>mod B > 0', 3, None),
            ('middle', 'B /= 0 and then A mod B = 0 and then B <2d>mod A > 0', 4, None),
            ('under_not', 'not (B = 0 or else A mod B = 0)', 3, None), ('under_a_comparison', '(B /= 0 and then A mod B = 0) = F', 3, None),
            ('beside_and', '(B /= 0 and then A mod B = 0) and A <2d>rem B = 0', 4, None),
            ('in_the_left_side', '(B /= 0 and then A mod B = 0) and then A rem B = 0', 4, None),
            ('true', 'True and then A <1d>mod B = 0', 3, None), ('false', 'False and then A mod B = 0', 3, None),
            ('true_or_else', 'True or else A mod B = 0', 3, None),
            ('false_or_else', 'False or else A <1d>mod B = 0', 3, None), ('variable', 'F and then A <1d>mod B = 0', 3, None),
            ('both_sides', 'A <1o>+ 1 > 0 and then B <2o>+ 1 > 0', 4, None), ('membership', 'A > 0 and then B in 0 .. A - 1', 3, None),
            ('membership_without_it', 'A > 0 and B in 0 .. A <1o>- 1', 3, None),
            ('membership_test_of_sums', 'A <1o>+ 1 in B <2o>- 1 .. <3o>-B', 5, None)):
        yield left_at(f'guard_of_{name}.adb', tested(condition, pre), total)
    yield left_at('guarded_value.adb', over('B /= 0 and then A mod B = 0', of='Boolean'), 1)
    yield left_at('unguarded_value.adb', over('B /= 0 and A <1d>mod B = 0', of='Boolean'), 1)
    # an implication that was shown is one fact, from which its right side is not known, but which is known itself
    yield left_at('guarded_check_twice.adb', over('A / B', statements=[
        'if B /= 0 and then A <2o>/ B > 0 then X := 1; elsif B /= 0 and then A / B < 0 then X := 2; else X := A <7d,8o>/ B; end if']), 9)
    yield left_at('guarded_check_in_its_arm.adb', over('A / B', statements=[
        'if B /= 0 and then A <2o>/ B > 0 then X := A <4o>/ B; else X := 0; end if']), 6)
    yield refused('static_fault_in_a_right_side.adb', tested('F and then 1 @/ 0 = 1'), 'N12')
    yield refused('static_fault_that_is_not_needed.adb', tested('False and then 1 @/ 0 = 1'), 'N12')
    yield refused('unset_in_a_right_side.adb',
                  longer(X, 'X from X', 'if X > 0 and then @T > 0 then X := 1; end if', declared=T), 'F4 unset: T')
    yield refused('unset_in_a_membership_test.adb',
                  longer(X, 'X from X', 'if @T in @U .. @T then X := X; end if', declared=T_AND_U),
                  'F4 unset: T', 'F4 unset: U', 'F4 unset: T')
    yield refused('flow_from_a_right_side.adb', tested('F or else A = 1').replace('X from A, F', '@X from F & null from A'),
                  'F1 missing: X from A')
    yield refused('flow_from_a_bound.adb', tested('A in 0 .. B').replace('X from A, B', '@X from A & null from B'), 'F1 missing: X from B')
    yield refused('flow_from_what_is_tested.adb', tested('A in Natural').replace('X from A', '@X from & null from A'),
                  'F1 missing: X from A')


OPERATORS = ('and', 'or', 'xor', 'and then', 'or else')


def mixed_chains():
    """Each pair of logical operators without parentheses: P1 at the second one, or where it cannot be the first one any more."""
    for first, second in product(OPERATORS, OPERATORS):
        name = f'{first}_before_{second}'.replace(' ', '_')
        if first == second:
            yield accepted(f'{name}.adb', tested(f'F {first} G {second} F'), 2)
            yield accepted(f'{name}_and_once_more.adb', tested(f'F {first} G {second} F {first} A > 0'), 2)
            continue
        # the first word of the second operator goes on where it is that of the first one
        after = {('and', 'and then'): 'and @then F', ('or', 'or else'): 'or @else F',
                 ('and then', 'and'): 'and @F', ('or else', 'or'): 'or @F'}.get((first, second), f'@{second} F')
        yield unexpected(f'{name}.adb', tested(f'F {first} G ').replace(f'F {first} G ', f'F {first} G {after}'))
        yield unexpected(f'{name}_after_two.adb', tested(f'F {first} G ').replace(f'F {first} G ', f'F {first} G {first} G {after}'))
        yield accepted(f'{name}_in_parentheses.adb', tested(f'(F {first} G) {second} F'), 2)
    for name, condition in {'two_relations_beside_and': 'A = 1 and B = 1 @= F', 'and_then_at_its_end': 'F and then @',
                            'or_else_at_its_end': 'F or else @', 'two_and': 'F and @and G', 'then_without_and': 'F and then @then G',
                            'else_without_or': 'F or else @else G',
                            'not_not': 'not @not F', 'abs_abs': 'abs @abs A > 0', 'not_of_a_power': 'not A @** B',
                            'abs_of_a_power': 'abs A @** B = 0',
                            'two_powers': 'A ** B @** A = 0', 'power_of_a_sign': 'A ** @-B = 0', 'product_of_a_sign': 'A * @-B = 0',
                            'abs_of_a_sign': 'abs @-A = 0',
                            'not_after_a_relation': 'F = @and G', 'mod_alone': '@mod A = 0', 'two_products': 'A * @/ B = 0'}.items():
        yield unexpected(f'syntax_of_{name}.adb', tested(condition).replace('@ then', '@then'))
    yield unexpected('syntax_of_and_at_its_end.adb', tested('F and').replace('X := 1', 'X @:= 1'))
    for name, condition in {'not_on_the_right_of_a_relation': 'F = not G', 'abs_after_a_product': 'N in 0 .. 5 * abs (-1)',
            'not_before_a_relation': 'not F = G',
                            'xor_of_relations': 'A > 0 xor B > 0', 'and_of_membership_tests': 'A in 1 .. 5 and B not in 1 .. 5',
                            'power_of_parentheses': 'N in 0 .. (2) ** (3)'}.items():
        yield accepted(f'syntax_of_{name}.adb', tested(condition), 2)


def membership_tests():
    """The two forms of a membership test, with `not` and without, and what goes on after `in`."""
    for name, pre in {'range': 'A in 1 .. 5', 'type': f'A in Integer and A < {LAST}', 'range_of_sums': 'A in 1 + 1 .. 2 * 3 - 1',
            'range_of_signs': 'A in -5 .. +5',
                      'range_of_parentheses': '(A) in (1) .. (5)', 'range_of_attributes': "A in Positive'First .. Natural'Last - 1",
                      'range_of_variables': 'A in B .. 5',
                      'empty_range': 'A in 5 .. 1', 'range_and_not': "not (A not in 1 .. 5) and A = 3",
                      'other_type': 'A not in Integer and (A in Positive) = True and A in 1 .. 1'}.items():
        yield accepted(f'precondition_by_a_{name}.adb', over('A + 1', pre=pre))
    for name, pre in {'not_in_a_range': 'A not in 1 .. 5', 'lower_bound': 'A in Positive', 'not_not_in': 'not (A not in 1 .. 5)',
            'not_in_the_rest': f'A not in 5 .. {LAST}',
                      'membership_that_is_compared': '(A in 1 .. 5) = True', 'bound_that_is_no_literal': 'A in 1 .. B',
                      'or': 'A in 1 .. 5 or A in 1 .. 5', 'sum': 'A + 0 * 1 in B .. B'}.items():
        yield left_at(f'no_precondition_by_{name}.adb', over('A <1o>+ 1', pre=pre), 2)
    for name, condition in {'type_in_parentheses': 'A in (Positive) @', 'type_and_a_sum': 'A in Positive + 1 @',
            'type_and_a_power': 'A in Positive ** 2 @',
                            'one_number': 'A in 1 @', 'no_upper_bound': 'A in 1 .. @', 'no_lower_bound': 'A in @.. 5', 'nothing': 'A in @',
                            'not_and_no_in': 'A not @Positive',
                            'not_and_nothing': 'A not @', 'two_in': 'A in 1 .. 5 @in 1 .. 5',
                            'in_after_a_type': 'A in Positive @in Positive', 'in_after_a_relation': 'A = 1 @in 1 .. 5',
                            'relation_after_a_range': 'A in 1 .. 5 @= F', 'relation_after_a_type': 'A in Positive @= F',
                            'two_ranges': 'A in 1 .. 5 @.. 6', 'range_of_a_type': 'A in Positive @range',
                            'range_in_parentheses': 'A in (1 @.. 5)',
                            'not_before_in': 'not @in 1 .. 5', 'not_not_in': 'A not @not in 1 .. 5',
                            'in_and_not': 'A in not B @', 'logical_operator_after_one_number': 'A in 1 @and F',
                            'bar': 'A in 1 .. 2 @| 4 .. 5'}.items():
        yield unexpected(f'membership_test_with_{name}.adb', tested(condition).replace('@ then', '@then'))
    for name, (rule, condition) in {
            'a_variable_for_a_type': ('N3', 'A in @B'), 'an_attribute_for_a_type': ('N3', "A in @Positive'First"),
            'an_attribute_of_an_attribute': ('N3', "A in @Positive'First'Last"),
            'a_truth_value_for_a_type': ('N3', 'A in @True'),
            'the_procedure_for_a_type': ('N3', 'A in @Inc'), 'nothing_for_a_type': ('N1', 'A in @Count'),
            'an_attribute_of_nothing': ('N1', "A in @Count'First"),
            'a_type_for_a_bound': ('N3', 'A in @Positive .. 5'), 'a_type_for_a_high_bound': ('N3', 'A in 1 .. @Positive'),
            'boolean_for_a_type': ('N10', 'A in @Boolean'),
            'boolean_for_the_type_of_a_truth_value': ('N10', 'F in @Boolean'), 'boolean_after_not_in': ('N10', 'F not in @BOOLEAN'),
            'a_truth_value_in_a_range': ('N10', 'F @in 1 .. 5'),
            'a_truth_value_in_a_type': ('N10', 'F @in Integer'), 'a_truth_value_not_in_a_type': ('N10', 'F @not in Natural'),
            'a_truth_value_not_in_a_range': ('N10', 'True @not in 1 .. 2'),
            'a_truth_value_for_a_low_bound': ('N10', 'A @in F .. 5'), 'a_truth_value_for_a_high_bound': ('N10', 'A @not in 1 .. False'),
            'a_range_of_truth_values': ('N10', 'F @in False .. True'),
            'not_over_a_number': ('N10', '@not A in 1 .. 5'), 'not_in_a_bound': ('N10', 'A in 1 .. @not B'),
            'a_comparison_in_a_bound': ('N10', 'A @in 1 .. (B = 1)'),
            'a_wrong_tested_one_before_a_type': ('N10', '(A @+ F) in Count'), 'a_wrong_type_before_a_truth_value': ('N1', 'F in @Count'),
            'a_wrong_low_bound_before_a_high_one': ('N1', 'F in @Y .. Z'), 'a_sum_of_a_test': ('N10', '(A in 1 .. 5) @+ 1 = 2')}.items():
        yield refused(f'membership_test_of_{name}.adb', tested(condition), rule)


EVERYWHERE = ('Integer', 'Natural', 'Positive', 'Boolean', 'True', 'False')


def predefined_names():
    """What is declared everywhere cannot be declared again, and is there only where it is asked for."""
    for word in EVERYWHERE[1:]:
        small, mark = word.lower(), {'True': 'N3', 'False': 'N3'}.get(word)
        yield refused(f'procedure_named_{small}.adb', procedure('X', name='@' + word, end=None), 'N2')
        yield refused(f'formal_named_{small}.adb', procedure('X', formals=f'X, @{word.upper()}', derives='X from X'), 'N2')
        yield refused(f'local_named_{small}.adb', with_local(f'T, @{small} : Integer'), 'N2')
        yield refused(f'{small}_for_a_target.adb', procedure('X', target='@' + word), 'N3')
        yield refused(f'{small}_for_an_export.adb', procedure('X', derives=f'X, @{word} from X'), 'N3')
        yield refused(f'{small}_for_an_import.adb', procedure('X', derives=f'X from X, @{word}'), 'N3')
        yield refused(f'{small}_in_null_from.adb', procedure('X', derives=f'X from X & null from @{word}'), 'N3')
        if mark:
            yield refused(f'{small}_for_a_type.adb', procedure('X', type_mark='@' + word), 'N3')
            yield refused(f'{small}_for_a_type_of_locals.adb', with_local(f'T : @{word}'), 'N3')
            yield refused(f'{small}_for_a_prefix.adb', procedure(f"@{word}'First", **OUT), 'N3')
            yield refused(f'{small}_in_a_sum.adb', procedure(f'X @+ {word}'), 'N10')
        else:
            yield refused(f'{small}_for_an_operand.adb', procedure(f'X + @{word}'), 'N3')
            yield refused(f'{small}_for_a_condition.adb', conditional(f'if @{word} then X := 1; end if'), 'N3')
    yield refused('first_of_boolean.adb', procedure("@Boolean'First", **OUT), 'N3')
    yield refused('last_of_boolean_for_a_truth_value.adb', over("@Boolean'Last", of='Boolean'), 'N3')
    yield refused('size_of_natural.adb', procedure("@Natural'Size", **OUT), 'N3')
    yield refused('declaration_of_natural_before_its_type.adb', longer('@Natural : in Count', None, 'null'), 'N2')


def types_of_operands():
    """N10 at each operator where an operand has another type, and at what does not fit its context."""
    for operator in ('+', '-', '*', '/', 'mod', 'rem', '**'):
        name = {'+': 'sum', '-': 'difference'}.get(operator) or OPERATOR_NAMES[operator]
        yield refused(f'truth_value_on_the_left_of_a_{name}.adb', over(f'F @{operator} A'), 'N10')
        yield refused(f'truth_value_on_the_right_of_a_{name}.adb', over(f'A @{operator} F'), 'N10')
        yield refused(f'static_truth_value_in_a_{name}.adb', over(f'2 @{operator} True'), 'N10')
    for operator in ('<', '<=', '>', '>='):
        name = {'<': 'less', '<=': 'less_or_equal', '>': 'greater', '>=': 'greater_or_equal'}[operator]
        yield refused(f'truth_values_with_{name}.adb', tested(f'F @{operator} G'), 'N10')
        yield refused(f'truth_value_and_number_with_{name}.adb', tested(f'A @{operator} G'), 'N10')
        yield refused(f'static_truth_values_with_{name}.adb', tested(f'False @{operator} True'), 'N10')
    for operator in ('=', '/='):
        name = {'=': 'equal', '/=': 'not_equal'}[operator]
        yield accepted(f'truth_values_with_{name}.adb', tested(f'F {operator} G'), 2)
        yield accepted(f'truth_value_and_comparison_with_{name}.adb', tested(f'F {operator} (A < B)'), 2)
        yield refused(f'truth_value_and_number_with_{name}.adb', tested(f'F @{operator} A'), 'N10')
        yield refused(f'number_and_truth_value_with_{name}.adb', tested(f'1 @{operator} True'), 'N10')
    for operator in OPERATORS:
        name = operator.replace(' ', '_')
        yield refused(f'number_on_the_left_of_{name}.adb', tested(f'A @{operator} F'), 'N10')
        yield refused(f'number_on_the_right_of_{name}.adb', tested(f'F @{operator} 1'), 'N10')
        yield refused(f'number_at_the_end_of_a_chain_of_{name}.adb', tested(f'F {operator} G @{operator} A'), 'N10')
        yield refused(f'number_in_the_middle_of_a_chain_of_{name}.adb', tested(f'F @{operator} A {operator} G'), 'N10')
    for name, (rule, text) in {
            'not_of_a_number': ('N10', tested('@not A')), 'not_of_a_literal': ('N10', tested('@not 1')),
            'abs_of_a_truth_value': ('N10', over('@abs F')),
            'minus_of_a_truth_value': ('N10', over('@-F')), 'number_for_a_truth_value': ('N10', over('@1', of='Boolean')),
            'sum_for_a_truth_value': ('N10', over('A @+ 1', of='Boolean')),
            'truth_value_for_a_number': ('N10', over('@F')), 'and_for_a_number': ('N10', over('F @and G')),
            'not_for_a_number': ('N10', over('@not F')), 'test_for_a_number': ('N10', over('A @in Natural')),
            'truth_value_for_a_natural': ('N10', over('@True', of='Natural')), 'natural_for_a_condition': ('N10', tested('@N')),
            'product_for_a_condition': ('N10', tested('A @* B')),
            'parentheses_for_a_truth_value': ('N10', over('@(A)', of='Boolean')),
            'mod_for_a_precondition': ('N10', over('A', pre='A @mod 2')),
            'abs_for_a_precondition': ('N10', over('A', pre='@abs A')), 'left_before_the_operator': ('N1', tested('@Y and 1')),
            'right_before_the_operator': ('N1', tested('1 and @Y')),
            'right_of_a_short_circuit_form_before_it': ('N12', tested('1 and then 1 @/ 0 = 0')),
            'operator_before_a_wide_operand': ('N10', tested('A @< F or A < 2147483648'))}.items():
        yield refused(f'types_of_{name}.adb', text, rule)


def truth_values():
    """Objects of the type Boolean: what is known of them, and what the simplifier does with them."""
    yield accepted('copy_of_a_truth_value.adb', over('F', of='Boolean'), 0)
    yield accepted('truth_value_that_is_static.adb', over('True', of='Boolean'), 0)
    yield accepted('comparison_for_a_truth_value.adb', over('A < B', of='Boolean'), 0)
    yield accepted('operators_for_a_truth_value.adb', over('(F and G) or (not F xor G) or A in Natural', of='Boolean'), 0)
    yield left_at('sum_in_a_truth_value.adb', over('A <1o>+ 1 > B', of='Boolean'), 1)
    yield accepted('truth_value_through_a_local.adb',
                   longer('F : in Boolean; X : out Boolean', 'X from F', 'T := F xor True', 'X := not T', declared=['T : Boolean']), 0)
    yield accepted('flip.adb', longer('B : in Boolean; X : in out Boolean', 'X from X, B', *['if B then X := not X; end if'] * 6), 0)
    for name, pre in {'itself_unequal': 'F /= F', 'itself_xor': 'F xor F', 'not_equal_to_itself': 'not (F = F)', 'false': 'False',
            'and_false': 'F and False', 'false_and_then': 'False and then F',
                      'not_or_true': 'not (F or True)', 'not_true_or_else': 'not (True or else F)', 'not_or_not': 'not (F or not F)',
                      'not_or_else_not': 'not (F or else (not F))',
                      'not_not_false': 'not (not False)', 'unequal_literals': 'True xor True',
                      'double_not_of_itself': 'not (not (F /= F))', 'conjunction_in_parentheses': f'F and (G and A < {LAST})',
                      'conjunction_of_and_then': f'A < {LAST} and then F', 'not_of_a_comparison': f'not (A >= {LAST})',
                      'not_not_of_a_comparison': f'not (not (A < {LAST}))',
                      'not_of_equal_sums': 'not (A + 0 = A)', 'or_false': f'A < {LAST} or False', 'false_or': f'False or else A < {LAST}',
                      'true_and': f'True and A < {LAST}'}.items():
        yield accepted(f'known_by_{name}.adb', over('A + 1', pre=pre))
    for name, pre in {'itself_equal': 'F = F', 'and_not': 'F and not F', 'not_and_not': 'not (F and G)', 'or': f'A < {LAST} or F',
            'not_or_other_order': 'not (not F or F)',
                      'not_or_of_a_comparison': 'not (A < 0 or not (A < 0))', 'equal_to_false': 'F = False and F',
                      'xor': f'(A < {LAST}) xor False', 'not_of_unequal': 'not (F /= G) and F /= G',
                      'equal_to_true': f'(A < {LAST}) = True', 'true': 'True', 'not_false': 'not False',
                      'not_not_a_conjunction': f'not (not (A < {LAST} and F))', 'or_of_equals': f'A < {LAST} or A < {LAST}'}.items():
        yield left_at(f'not_known_by_{name}.adb', over('A <1o>+ 1', pre=pre), 2)
    # in an arm, and after it
    for name, condition, arm, rest in (
            ('conjunction', f'F and A < {LAST}', 'A + 1', 'A <3o>+ 1'), ('disjunction', f'F or A = {LAST}', 'A <1o>+ 1', 'A <3o>+ 1'),
            ('and_then', f'A < {LAST} and then F', 'A + 1', 'A <3o>+ 1'), ('membership_test', 'A in 0 .. 5', 'A + 1', 'A <3o>+ 1'),
            ('no_membership_test', 'A not in 0 .. 5', 'A <1o>+ 1', 'A <3o>+ 1'),
            ('not', f'not (A = {LAST} or F)', 'A <1o>+ 1', 'A <3o>+ 1'),
            ('comparison', f'A < {LAST}', 'A + 1', 'A <3o>+ 1'), ('not_of_a_comparison', f'not (A < {LAST})', 'A <1o>+ 1', 'A + 1')):
        yield left_at(f'arm_of_a_{name}.adb',
                      over(f'{condition} {arm}', statements=[f'if {condition} then X := {arm}; else X := {rest}; end if']), 4)
    yield left_at('truth_value_that_keeps_a_comparison.adb',
                  longer('A : in Integer; X : out Integer', 'X from A', f'T := A < {LAST}',
                         'if T then X := A + 1; else X := A <3o>+ 1; end if', declared=['T : Boolean']), 4)
    # a Boolean variable is one fact: the conjunction that was assigned to it is not split
    yield left_at('truth_value_that_keeps_a_conjunction.adb',
                  longer('A : in Integer; X : out Integer', 'X from A', 'T := A in 1 .. 5',
                         'if T then X := A <1o>+ 1; else X := A <3o>+ 1; end if', declared=['T : Boolean']), 4)


def natural_and_positive():
    """Natural and Positive at their ends: their facts, the range checks of what is assigned, and overflow of Integer."""
    for name, of, value, total, pre in (
            ('natural_zero', 'Natural', '0', 1, None), ('natural_last', 'Natural', LAST, 1, None),
            ('natural_below', 'Natural', '<1r>-1', 1, None),
            ('natural_far_below', 'Natural', f'<1r>{FIRST}', 1, None),
            ('natural_first_and_one_less', 'Natural', "Natural'First <1r>- 1", 1, None),
            ('positive_one', 'Positive', '1', 1, None), ('positive_zero', 'Positive', '<1r>0', 1, None),
            ('positive_first', 'Positive', "Positive'First", 1, None),
            ('positive_of_natural_first', 'Positive', "<1r>Natural'First", 1, None), ('natural_of_integer', 'Natural', '<1r>A', 1, None),
            ('natural_of_positive', 'Natural', 'P', 1, None),
            ('positive_of_natural', 'Positive', '<1r>N', 1, None), ('positive_of_natural_that_is_not_zero', 'Positive', 'N', 1, 'N > 0'),
            ('positive_of_unequal_natural', 'Positive', '<1r>N', 1, 'N /= 0'),
            ('integer_of_natural', 'Integer', 'N', 1, None), ('natural_more', 'Natural', 'N <1o>+ 1', 2, None),
            ('natural_less', 'Natural', 'N <2r>- 1', 2, None),
            ('positive_less', 'Positive', 'P <2r>- 1', 2, None), ('natural_of_positive_less', 'Natural', 'P - 1', 2, None),
            ('natural_in_parentheses', 'Natural', '<2r>(N - 1)', 2, None),
            ('natural_less_and_more', 'Natural', 'N - 1 + 1', 3, None), ('natural_difference', 'Natural', 'N <2r>- P', 2, None),
            ('natural_of_abs', 'Natural', 'abs A', 2, f'A > {FIRST}'),
            ('natural_of_mod', 'Natural', 'A mod P', 2, None), ('natural_of_rem', 'Natural', 'A <2r>rem P', 2, None),
            ('natural_of_natural_rem', 'Natural', 'N rem P', 2, None),
            ('positive_of_mod', 'Positive', 'A <2r>mod P', 2, None), ('natural_of_a_quotient', 'Natural', 'N <3r>/ P', 3, None),
            ('natural_of_minus', 'Natural', '<2r>-N', 2, None),
            ('natural_of_a_type', 'Natural', 'A', 1, 'A in Natural'), ('positive_of_a_type', 'Positive', 'A', 1, 'A in Positive'),
            ('natural_of_what_is_in_no_type', 'Natural', '<1r>A', 1, 'A not in Positive')):
        yield left_at(f'{name}.adb', over(value, of=of, pre=pre), total)
    yield left_at('natural_that_is_counted_down.adb',
                  longer('N : in out Natural', 'N from N', 'N := N <2r>- 1', 'N := N <4r>- 1'), 4)
    yield left_at('natural_local.adb', longer(X, 'X from X', 'T := <1r>X', 'X := T - 1', declared=['T : Natural']), 3)
    yield left_at('natural_that_is_no_import.adb',
                  longer('X : out Natural; A : in Integer', 'X from & null from A', 'X := 0', pre='A > 0'), 1)
    yield left_at('natural_that_is_set_in_arms.adb',
                  longer('A : in Integer; X : out Natural', 'X from A', 'if A >= 0 then X := A; else X := <2o>-A; end if'), 3)
    yield refused('natural_last_and_one.adb', procedure("Natural'Last @+ 1", **OUT), 'N12')
    yield refused('wide_number_for_a_natural.adb', over('@2147483648', of='Natural'), 'N12')
    yield refused('low_number_for_a_positive.adb', over('@-2147483649', of='Positive'), 'N12')


def null_from():
    """`null from`: what it says of modes, of preconditions and of flow."""
    params = 'A, B : in Integer; X : out Integer'
    for name, derives in {'second_item': 'X from A & null from B', 'first_item': 'null from B & X from A',
            'two_items': 'null from B & X from A & null from A',
                          'name_in_a_pair': 'X from A & null from B, A', 'other_cases': 'X from a & NULL FROM b',
                          'other_order': 'null from A, B & X from A'}.items():
        yield accepted(f'null_from_as_{name}.adb', longer(params, derives, 'X := A'), 1)
    yield accepted('null_from_alone.adb', longer('A, B : in Integer', 'null from A, B', 'null'), 0)
    yield accepted('null_from_and_star.adb', longer(X, 'X from * & null from X', 'X := X'), 1)
    yield accepted('null_from_for_in_out.adb', longer(X, 'X from & null from X', 'X := 1'), 1)
    yield accepted('null_from_makes_an_import_of_pre.adb', longer(X, 'X from & null from X', 'X := 1', pre='X > 0'), 1)
    yield accepted('null_from_for_what_is_read_and_lost.adb',
                   longer('A : in Integer; F : in Boolean; X : out Integer', 'X from A, F & null from A',
                          'if F then X := A; else X := 0; end if'), 2)
    for name, derives in {'twice': 'X from A & null from B, B', 'twice_in_two_cases': 'X from A & null from B, b',
            'in_two_items': 'X from A & null from B & null from B',
                          'in_items_apart': 'null from B & X from A & null from A, b', 'without_the_other': 'X from A & null from A',
                          'only': 'null from A, B',
                          'pair_twice_beside_it': 'X from A, A & null from B',
                          'export_twice_beside_it': 'X from A & X from & null from B'}.items():
        yield refused(f'null_from_{name}.adb', at_derives(longer(params, derives, 'X := A')), 'U7')
    for name, text in {'of_mode_out': longer('A : in Integer; X : out Integer', 'X from A & null from @X', 'X := A'),
                       'of_mode_out_first': longer('A : in Integer; X : out Integer', 'null from @X & X from A', 'X := A'),
                       'of_in_out_that_is_not_exported': longer('A, X : in out Integer', 'A from A & null from @X', 'null'),
                       'of_in_that_is_exported': longer('A : in Integer', '@A from & null from A', 'null'),
                       'of_mode_out_by_star_before_it': longer('A : in Integer; X : out Integer', '@X from * & null from A, X',
                                                               'X := A')}.items():
        yield refused(f'null_from_{name}.adb', text, 'U8')
    yield refused('null_from_of_another_and_pre.adb',
                  longer('A : in Integer; X : out Integer', 'X from & null from A', 'X := 1', pre='A > @X'), 'U11')
    for name, (rule, derives) in {'undeclared': ('N1', 'X from A & null from B, @Y'), 'type': ('N3', 'X from A & null from @Integer'),
            'procedure': ('N3', 'null from @Inc & X from A, B'),
                                  'attribute': ('N3', "X from A & null from @Integer'First")}.items():
        yield refused(f'null_from_of_an_{name}_name.adb', longer(params, derives, 'X := A'), rule)
    for name, derives in {'nothing': 'null from @', 'star': 'null from @*', 'no_from': 'null @B', 'null_and_a_name': 'null@, X from A',
            'a_name_and_null': 'X, @null from A', 'comma': 'null from A, @',
                          'star_after_a_name': 'null from A, @*', 'null_for_an_import': 'X from @null', 'number': 'null from @1',
                          'parentheses': 'null from @(A)', 'no_ampersand': 'X from A @null from B'}.items():
        yield unexpected(f'null_from_with_{name}.adb', longer(params, derives, 'X := A'))
    yield unexpected('null_from_unmarked.adb', longer(params, 'X from A &\n@null from B', 'X := A'))
    yield refused('null_from_and_a_flow.adb', longer(params, '@X from A & null from B', 'X := B - A'), 'F1 missing: X from B')
    yield refused('null_from_and_an_unused_pair.adb', longer(params, '@X from A, B & null from B', 'X := A'), 'F2 unused: X from B')
    yield refused('null_from_and_a_lost_value.adb',
                  longer(params, 'X from A & null from B', '@T := B', 'X := A', declared=T), 'F3')
    yield refused('null_from_and_a_condition.adb', longer(params, 'X from A & null from B', 'X := A', '@if B > 0 then null; end if'), 'F3')
    yield refused('null_from_and_an_unset_local.adb',
                  longer(params, 'X from A & null from B', 'X := A - @T', declared=T), 'F4 unset: T')


def levels_of_operators():
    """Each operator opens a level at its first token, and there are at most 200."""
    def closed(text, opening, closing, count):
        return opening * count + text + closing * count

    for name, inner, after in (('product', '1', ' * 1'), ('quotient', '1', ' / 1'), ('mod', '1', ' mod 2'), ('rem', '1', ' rem 2')):
        yield accepted(f'chain_of_200_of_{name}.adb', procedure(inner + after * 200, **OUT), 1)
        yield too_nested(f'chain_of_201_of_{name}.adb', procedure(inner + after * 201, **OUT))
    for operator in OPERATORS:
        name = operator.replace(' ', '_')
        yield accepted(f'chain_of_200_of_{name}.adb', tested('F' + f' {operator} F' * 199), 2)
        yield too_nested(f'chain_of_201_of_{name}.adb', tested('F' + f' {operator} F' * 200))
        # the level is opened at the first word, whatever comes after it
        yield too_nested(f'chain_of_201_of_{name}_at_its_first_word.adb',
                         tested('F' + f' {operator} F' * 199).replace(' then X', f' {operator.split()[0]} ; X', 1))
    yield accepted('nested_not_of_200_levels.adb', over(closed('F', 'not (', ')', 100), of='Boolean'), 0)
    yield too_nested('nested_not_of_201_levels.adb', over(closed('not F', 'not (', ')', 100), of='Boolean'))
    yield accepted('nested_abs_of_200_levels.adb', over(closed('1', 'abs (', ')', 100)), 1)
    yield too_nested('nested_abs_of_201_levels.adb', over(closed('abs 1', 'abs (', ')', 100)))
    yield accepted('nested_power_of_200_levels.adb', over(closed('1', '(', ' ** 1)', 100)), 1)
    yield too_nested('nested_power_of_201_levels.adb', over(closed('1', '(', ' ** 1)', 100) + ' ** 1'))
    for name, test in (('type', 'in Natural'), ('range', 'in 1 .. 5'), ('no_type', 'not in Natural')):
        yield accepted(f'test_in_a_{name}_of_200_levels.adb', over(closed('A', '(', ')', 199) + ' ' + test, of='Boolean'), 0)
        yield too_nested(f'test_in_a_{name}_of_201_levels.adb', over(closed('A', '(', ')', 200) + ' ' + test, of='Boolean'))
    yield too_nested('test_of_201_levels_at_not.adb', over(closed('A', '(', ')', 200) + ' not ;', of='Boolean'))
    yield unexpected('test_of_200_levels_and_another_token.adb', over(closed('A', '(', ')', 199) + ' not @;', of='Boolean'))
    yield accepted('high_bound_of_200_levels.adb', over('A in 1 .. ' + closed('5', '(', ')', 199), of='Boolean'), 0)
    yield too_nested('high_bound_of_201_levels.adb', over('A in 1 .. ' + closed('5', '(', ')', 200), of='Boolean'))
    yield too_nested('low_bound_of_201_levels.adb', over('A in ' + closed('5', '(', ')', 200) + ' .. 6', of='Boolean'))
    yield too_nested('exponent_of_201_levels.adb', over('A ** ' + closed('5', '(', ')', 200)))
    yield too_nested('operand_of_abs_of_201_levels.adb', over('abs ' + closed('A', '(', ')', 200)))
    yield accepted('term_after_a_sign_of_200_levels.adb', over('-1' + ' * 1' * 199), 1)
    yield too_nested('term_after_a_sign_of_201_levels.adb', over('-1' + ' * 1' * 200))


def sum_of_nodes(count):
    """A relation of so many nodes: sums of X, with a minus where the number is even."""
    return f'X{" + X" * ((count - 3) // 2)} = 0' if count % 2 else f'-X{" + X" * ((count - 4) // 2)} = 0'


def nodes_of_operators():
    """As in `nodes_of_branches`, where the facts that a condition brings have so many nodes, and checks are before the arm."""
    for name, condition, nodes, checks in (
            ('conjunction', 'X >= 0 and X /= 5', 3 + 3, 0), ('and_then', 'X >= 0 and then X /= 5', 3 + 3, 0),
            ('disjunction', 'X >= 0 or X /= 5', 7, 0),
            ('xor', 'X >= 0 xor X /= 5', 7, 0), ('not', 'not (X >= 0 and X /= 5)', 8, 0), ('test_in_a_range', 'X in 0 .. X', 3 + 3, 0),
            ('test_in_a_type', 'X in Natural', 3, 0), ('no_test', 'X not in 0 .. 5', 8, 0), ('division', 'X mod 2 >= 0', 3 + 5, 1),
            ('guarded_division', 'X = 0 or else X mod 2 >= 0', 8 + 9, 1), ('truth_value', 'True', 1, 0),
            ('static_conjunction', 'X >= 0 and 1 < 2', 3 + 1, 0)):
        fitting, larger = sum_of_nodes(182 - nodes), sum_of_nodes(183 - nodes)
        left = [number + checks for number in range(1, 39, 2)]
        yield examined(f'{name}_of_1000000_nodes.adb', doublings_and_increments_in(f'if {condition} then', fitting),
                       ('Inc', 38 + checks, *left))
        yield too_large(f'{name}_of_1000001_nodes.adb', doublings_and_increments_in(f'if {condition} then', larger).replace('@', ''))


# ---------------------------------------------------------------- types, subtypes and constants

SMALL = 'type Small is range 0 .. 10'
BIG = 'type Big is range -2 ** 40 .. 2 ** 40'
LONG = 'type Long is range -2 ** 63 .. 2 ** 63 - 1'
HUE = 'type Hue is (Red, Yellow, Green, Blue)'
WARM = f'{HUE}; subtype Warm is Hue range Red .. Yellow'
FORMALS = 'A : in Integer; B : in Boolean; X : in out Integer'
FROM_ALL = 'X from X, A, B'


def declaring(declared, *statements, params=FORMALS, derives=FROM_ALL, pre=None):
    """The text of a procedure with these declarations, which are in one line. X comes from A and B, or by these statements."""
    return longer(params, derives, *(statements or ['if B then X := A; end if']), pre=pre, declared=[declared])


def declared_well(name, declared):
    """The declarations break no rule. There is one condition, on the statement."""
    return accepted(name, declaring(declared), 1)


def deciding(declared, *statements, by, params=OUT_X, derives='X from'):
    """The text of a procedure in which, after these statements, X is 1 where something is true, and else 0: two conditions more."""
    return longer(params, derives, *statements, f'if {by} then X := 1; else X := 0; end if', declared=[declared])


def falsified(declared, condition):
    """The text of a procedure in which X + 1 is closed where this is false. It has two conditions."""
    return longer(X, 'X from X', f'if {condition} then X := X + 1; end if', declared=[declared])


def ranges_of_types():
    """`type T is range L .. U`: T comes first, then L, then U, and last both together."""
    for name, bounds in {
            'all_of_integer_by_numbers': '-2147483648 .. 2147483647', 'past_integer': '0 .. 2147483648',
            'below_integer': '-2147483649 .. 0', 'all_of_64_bits': '-2 ** 63 .. 2 ** 63 - 1',
            'two_types': "Natural'First .. 2 ** 40"}.items():
        yield declared_well(f'type_by_{name}.adb', f'type T is range {bounds}')
    yield declared_well('type_by_bounds_of_two_others.adb', f"{SMALL}; {LONG}; type T is range Small'First .. Long'Last")
    for name, (rule, bounds) in {
            'bounds_in_the_other_order': ('N13', '@1 .. 0'), 'a_sum_past_the_last': ('N13', '1 @+ 1 .. 1'),
            'one_past_64_bits': ('N13', '@0 .. 2 ** 63'), 'one_below_64_bits': ('N13', '@-9223372036854775809 .. 0'),
            'the_widest': ('N13', f'@0 .. {WIDEST}'), 'a_truth_value': ('N10', '@True .. 5'), 'a_comparison': ('N10', '@(1 = 1) .. 5'),
            'a_last_boolean_variable': ('N10', '0 .. @B'), 'a_variable': ('N11', '@A .. 5'), 'a_last_variable': ('N11', '0 .. @A'),
            'a_sum_of_a_variable': ('N11', 'A @+ 1 .. 5'), 'a_product_of_zero': ('N11', '0 .. A @* 0'),
            'abs_of_a_variable': ('N11', '@abs A .. 5'), 'a_static_sum_past_its_type': ('N12', f'0 .. {LAST} @+ 1'),
            'a_number_past_128_bits': ('N12', '0 .. 2 @** 127'), 'a_wide_number_beside_a_variable': ('N12', 'A + @2147483648 .. 5'),
            'a_type': ('N3', '@Integer .. 5'), 'an_attribute_that_is_none': ('N3', "0 .. @Integer'Size"),
            # the first bound comes first, and both together last
            'a_variable_and_no_name': ('N11', '@A .. Y'), 'a_great_number_and_a_variable': ('N11', '2 ** 64 .. @A'),
            'a_comparison_of_variables': ('N10', '@(A = A) .. 5')}.items():
        yield refused(f'type_by_{name}.adb', declaring(f'type T is range {bounds}'), rule)
    for name, (rule, declared) in {
            'a_literal': ('N10', f'{HUE}; type T is range @Red .. 5'),
            'a_local_of_another_type': ('N11', f'{SMALL}; V : Small; type T is range @V .. 5')}.items():
        yield refused(f'type_by_{name}.adb', declaring(declared), rule)


def names_of_declarations():
    """N2 at each name that is there already, and what is hidden in a declaration or by it."""
    forms = {
        'type': 'type @{} is range Y .. 5', 'enumeration': 'type @{} is (Up, Up)', 'literal': 'type T is (Up, @{})',
        'subtype': 'subtype @{} is Y',
        'constant': '@{} : constant Y := 1', 'second_constant': 'C, @{} : constant Y := 1', 'named_number': '@{} : constant := Y',
        'second_named_number': 'C, @{} : constant := Y'}
    others = {'v': 'V : Integer', 'Small': SMALL, 'yellow': HUE, 'top': 'Top : constant := 1'}
    for (name, declared), (word, other) in zip(forms.items(), 2 * tuple(others.items())):
        everywhere = name in ('type', 'literal', 'second_constant', 'named_number')
        yield refused(f'{name}_named_before.adb', declaring(declared.format('Natural' if everywhere else 'a')), 'N2')
        yield refused(f'{name}_named_{word}_after_it.adb', declaring(f'{other}; {declared.format(word)}'), 'N2')
    for name, declared in {
            'variable_named_as_a_literal': f'{HUE}; V, @Blue : Integer',
            'variable_named_as_a_constant': 'C : constant := 1; @C : Integer', 'literal_named_as_its_type': 'type T is (Red, @T)',
            'literal_twice': 'type T is (Red, Green, @RED)'}.items():
        yield refused(f'{name}.adb', declaring(declared), 'N2')
    for name, declared in {
            'subtype_of_itself': 'subtype S is @S', 'constant_of_itself': 'C : constant Integer := @C',
            'subtype_of_the_hidden_procedure': 'subtype Inc is @Inc', 'constant_of_its_own_type': 'C : constant @C := 1',
            'constant_of_the_next_one': 'C, D : constant Integer := @D', 'named_number_of_the_hidden_procedure': 'Inc : constant := @Inc',
            'type_of_a_later_declaration': f'V : @Small; {SMALL}'}.items():
        yield refused(f'{name}.adb', declaring(declared), 'N1')
    # what a declaration of the procedure's name hides
    for name, declared, statement, total in (
            ('type', 'type Inc is range 0 .. 5; V : Inc', 'V := 3', 3),
            ('subtype', 'subtype Inc is Integer range 0 .. 5; V : Inc', "V := Inc'Last", 3),
            ('literal', 'type T is (Skip, Inc); V : T', 'V := Inc', 3),
            ('constant', 'Inc : constant Integer := 3; V : Integer', 'V := Inc', 3),
            ('named_number', 'Inc : constant := 3; V : Integer', 'V := Inc + inc', 3),
            ('enumeration', 'type Inc is (Red, Green); V : Inc', "V := Inc'First", 3)):
        decided = {'literal': 'Inc', 'enumeration': 'Green'}.get(name, '1')
        yield accepted(f'procedure_hidden_by_a_{name}.adb', deciding(declared, statement, by=f'V = {decided}'), total)
    for name, (rule, declared, statement) in {
            'type': ('N3', 'type Inc is range 0 .. 5', 'X := @Inc'), 'literal': ('N10', 'type T is (Inc)', 'X := @Inc'),
            'constant': ('U2', 'Inc : constant Integer := 3', '@Inc := X')}.items():
        yield refused(f'procedure_hidden_by_a_{name}_and_a_slip.adb', longer(X, 'X from X', statement, declared=[declared]), rule)
    # annotations do not see what is declared in the body, and neither does another procedure
    for name, (rule, declared, pre) in {
            'type': ('N1', SMALL, "X < @Small'Last"), 'constant': ('N1', 'C : constant Integer := 5', 'X < @C'),
            'literal': ('N1', HUE, '@Red = Red'), 'constant_that_hides_the_procedure': ('N3', 'Inc : constant Integer := 5', 'X < @Inc'),
            'type_of_a_test': ('N1', SMALL, 'X in @Small')}.items():
        yield refused(f'declared_{name}_in_pre.adb', longer(X, 'X from X', 'X := 1', pre=pre, declared=[declared]), rule)
    yield refused('constant_in_derives.adb', longer(X, 'X from X, @C', 'X := 1', declared=['C : constant := 1']), 'N1')
    yield refused('local_type_of_a_formal.adb', longer('X : in out @Small', 'X from X', 'X := 1', declared=[SMALL]), 'N1')
    yield refused('type_of_another_procedure.adb',
                  longer(X, 'X from X', 'X := X', declared=[SMALL]) + longer(None, None, 'null', declared=['V : @Small'], name='Same'), 'N1')
    yield examined('declarations_of_two_procedures.adb',
                   longer(X, 'X from X', 'X := X', declared=[WARM]) + longer(None, None, 'null', declared=[WARM], name='Red'),
                   ('Inc', 1), ('Red', 0))
    for word in ('own', 'check', 'some'):
        yield declared_well(f'type_named_{word}.adb', f'type {word} is range 0 .. 5; V : {word}')


def declared_subtypes():
    """`subtype S is P range L .. U`: S comes first, then P, L and U, and last both bounds together."""
    for name, declared in {
            'integer': 'subtype S is Integer', 'boolean': 'subtype S is Boolean; V : S',
            'all_of_a_type': f'{SMALL}; subtype S is Small range 0 .. 10',
            'a_subtype': f'{WARM}; subtype S is Warm range Yellow .. Yellow',
            'literals': f'{HUE}; subtype S is Hue range Yellow .. Green',
            'a_subtype_of_a_boolean_subtype': 'subtype S is Boolean; subtype R is S; C : constant R := True'}.items():
        yield declared_well(f'subtype_of_{name}.adb', declared)
    for name, (rule, declared) in {
            'a_variable': ('N3', 'subtype S is @A'), 'a_literal': ('N3', f'{HUE}; subtype S is @Red'),
            'an_attribute': ('N3', "subtype S is @Integer'First"),
            'a_boolean_subtype_with_a_range': ('N10', 'subtype R is Boolean; subtype S is @R range False .. True'),
            'integer_by_a_truth_value': ('N10', 'subtype S is Integer range @True .. 5'),
            'integer_by_another_type': ('N10', f"{SMALL}; subtype S is Integer range @Small'First .. 5"),
            'literals_by_a_number': ('N10', f'{HUE}; subtype S is Hue range @0 .. Blue'),
            'literals_by_other_ones': ('N10', f'{HUE}; type T is (Up, Down); subtype S is Hue range Red .. @Down'),
            'integer_by_a_variable': ('N11', 'subtype S is Integer range @A .. 5'),
            'a_type_by_its_variable': ('N11', f'{SMALL}; V : Small; subtype S is Small range @V .. 5'),
            'integer_past_its_base_range': ('N12', 'subtype S is Integer range 0 .. @2147483648'),
            'a_type_past_its_base_range': ('N12', f'{SMALL}; subtype S is Small range 0 .. 2 @** 40'),
            'a_long_type_past_its_base_range': ('N12', f'{LONG}; subtype S is Long range 0 .. 2 @** 63'),
            'bounds_in_the_other_order': ('N13', 'subtype S is Integer range @5 .. 4'),
            'literals_in_the_other_order': ('N13', f'{HUE}; subtype S is Hue range @Blue .. Green'),
            'a_type_past_its_last': ('N13', f'{SMALL}; subtype S is Small range @0 .. 11'),
            'a_subtype_past_its_last': ('N13', f'{WARM}; subtype S is Warm range @Red .. Green'),
            'a_subtype_below_its_first': ('N13', f'{SMALL}; subtype R is Small range 2 .. 5; subtype S is R range 1 @+ 0 .. 5'),
            # the parent comes first, then the first bound, the last one, and both together
            'no_name_by_no_name': ('N1', 'subtype S is Integer range @Y .. Z'),
            'a_variable_by_no_name': ('N11', 'subtype S is Integer range @A .. Y'),
            'a_great_number_by_no_name': ('N12', 'subtype S is Integer range @2147483648 .. Y'),
            'low_number_and_a_great_one': ('N12', 'subtype S is Natural range -1 .. @2147483648')}.items():
        yield refused(f'subtype_of_{name}.adb', declaring(declared), rule)


def declared_constants():
    """`C, D : constant T := E`, and named numbers, which have no type mark."""
    for name, declared in {
            'integer': 'C : constant Integer := 5', 'boolean': 'C : constant Boolean := 1 < 2',
            'a_subtype': f'{WARM}; C : constant Warm := Yellow',
            'several_names': 'C, D, E : constant Integer := 1; F : constant Integer := C + D + E'}.items():
        yield declared_well(f'constant_of_{name}.adb', declared)
    for name, (rule, declared) in {
            'a_variable_for_its_type': ('N3', 'C : constant @A := Y'),
            'an_attribute_for_its_type': ('N3', "C : constant @Integer'First := 1"),
            'a_literal_for_its_type': ('N3', f'{HUE}; C : constant @Red := Red'),
            'a_truth_value': ('N10', 'C : constant Integer := @True'), 'a_comparison': ('N10', 'C : constant Integer := 1 @= 1'),
            'another_type': ('N10', f"{SMALL}; C : constant Integer := @Small'Last"),
            'a_number_for_a_literal': ('N10', f'{HUE}; C : constant Hue := @0'),
            'a_typed_constant_of_another_type': ('N10', f'{SMALL}; C : constant Integer := 1; D : constant Small := @C'),
            'a_variable': ('N11', 'C : constant Integer := @A'), 'a_test_of_a_variable': ('N11', 'C : constant Boolean := A @in Integer'),
            'a_form_that_a_variable_does_not_decide': ('N11', 'C : constant Boolean := False @and then B'),
            'a_positive_zero': ('N12', 'C, D : constant Positive := @0'),
            'a_value_past_its_type': ('N12', f'{SMALL}; C : constant Small := @11'),
            'a_sum_past_its_type': ('N12', f"{SMALL}; C : constant Small := Small'Last @+ 1"),
            'a_literal_past_its_subtype': ('N12', f'{WARM}; C : constant Warm := @Green'),
            'a_fault_that_is_not_needed': ('N12', 'C : constant Boolean := True or else 1 @/ 0 = 1'),
            'a_boolean_variable_for_a_number': ('N10', 'C : constant Natural := @B')}.items():
        yield refused(f'constant_of_{name}.adb', declaring(declared), rule)
    for name, declared in {
            'sum': 'C : constant := 2 ** 100 + 1', 'several_names': 'C, D : constant := 1; E : constant := C + D',
            'sum_past_integer': f"C : constant := {LAST}; D : constant := C + 1; type T is range 0 .. D",
            'least_number': f'C : constant := -{WIDEST} - 1'}.items():
        yield declared_well(f'named_number_by_a_{name}.adb', declared)
    for name, (rule, declared) in {
            'truth_value': ('N10', 'C : constant := @True'), 'literal': ('N10', f'{HUE}; C : constant := @Red'),
            'variable': ('N11', 'C : constant := @A'), 'power_of_a_variable': ('N11', 'C : constant := 2 @** A'),
            'no_name': ('N1', 'C : constant := @Y'), 'sum_past_128_bits': ('N12', f'C : constant := {WIDEST} @+ 1'),
            'wide_number_beside_a_constant': ('N12', 'C : constant Integer := 1; D : constant := C + @2147483648')}.items():
        yield refused(f'named_number_by_a_{name}.adb', declaring(declared), rule)


def assigned_constants():
    """Targets that are constants break U2, after the rules on names; literals and types break N3."""
    types = (f'{SMALL}; {HUE}; C : constant Integer := 1; N : constant := 2; S : constant Small := 3; H : constant Hue := Red; '
             'F : constant Boolean := True')

    def body(*statements):
        return declaring(types, *statements)

    for name, statement in {
            'constant': '@C := 5', 'constant_to_a_variable': '@C := A + 1', 'constant_past_its_type': '@S := 11',
            'named_number': '@N := 5', 'named_number_to_a_wide_one': '@N := 2 ** 100', 'truth_constant': '@F := X > A',
            'constant_after_else': 'if B then X := A; else @N := 1; end if', 'constant_before_a_formal': '@C := 1; A := 1',
            'formal_before_a_constant': '@A := 1; C := 1'}.items():
        yield refused(f'assignment_to_a_{name}.adb', body(statement), 'U2')
    for name, (rule, statement) in {
            'literal': ('N3', '@Red := Red'), 'type': ('N3', '@Small := 1'), 'attribute_of_a_constant': ('N3', "@C'First := 1"),
            'constant_of_a_truth_value': ('N10', 'C := @True'), 'constant_of_another_type': ('N10', 'C := @S'),
            'constant_past_integer': ('N12', 'C := @2147483648'), 'small_constant_past_its_base_range': ('N12', 'S := 2 @** 31'),
            'named_number_of_an_integer': ('N10', 'N := @C'), 'named_number_of_an_attribute': ('N10', "N := @Integer'Last"),
            'named_number_of_a_truth_value': ('N10', 'N := 1 @= 1'), 'named_number_past_128_bits': ('N12', 'N := 2 @** 127'),
            'literal_constant_of_a_number': ('N10', 'H := @0'), 'truth_constant_of_a_number': ('N10', 'F := @1'),
            'constant_and_a_later_name': ('N1', 'C := 1; X := @Y')}.items():
        yield refused(f'assignment_to_a_{name}_and_a_slip.adb', body(statement), rule)
    constant = ['C : constant Integer := 1']
    yield refused('assignment_to_a_constant_and_a_lost_value.adb',
                  longer(X, 'X from X', 'V := 1', '@C := 1', declared=[*constant, 'V : Integer']), 'U2')
    yield refused('assignment_to_a_constant_after_u7.adb', at_derives(longer(X, 'X from X, X', 'C := 1', declared=constant)), 'U7')
    yield refused('assignment_to_a_constant_after_u8.adb', longer('X : in Integer', '@X from', 'C := 1', declared=constant), 'U8')
    yield refused('assignment_to_a_constant_after_u11.adb', longer(OUT_X, 'X from', 'C := 1', pre='@X > 0', declared=constant), 'U11')
    yield refused('assignment_to_a_constant_and_a_later_procedure.adb',
                  longer(X, 'X from X', '@C := 1', declared=constant) + renamed(procedure('1')), 'U2')
    yield refused('assignment_to_a_constant_and_a_name_in_a_later_procedure.adb',
                  longer(X, 'X from X', 'C := 1', declared=constant) + renamed(procedure('@Y')), 'N1')


def matching_types():
    """Types match where their base types are one; universal numbers fit types of numbers, within their base range."""
    types = (f'{SMALL}; {LONG}; subtype Low is Small range 1 .. 5; type Same is range 0 .. 10; Big : constant := 2 ** 40; '
             'V : Small; W : Low; L : Long; O : Same')

    def body(*statements):
        return declaring(types, *statements)

    for name, (rule, statement) in {
            'a_type_and_integer': ('N10', 'X := @V'), 'integer_and_a_type': ('N10', 'V := @X'), 'two_types': ('N10', 'V := @O'),
            'a_sum': ('N10', 'V := V @+ X'), 'a_mod': ('N10', 'V := V @mod O'),
            'a_comparison_of_two_types': ('N10', 'if V @= O then X := A; end if'),
            'a_test_in_a_type': ('N10', 'if X @in Small then X := A; end if'),
            'a_test_in_another_type': ('N10', 'if V @not in Same then X := A; end if'),
            'a_test_in_a_range_of_two': ('N10', "if 1 @in Small'First .. Integer'Last then X := A; end if"),
            'an_exponent': ('N10', 'V := V @** V'), 'a_static_exponent': ('N10', "V := V @** Small'First"),
            'a_power_of_an_integer': ('N10', 'V := X @** 2'),
            # within the base range
            'a_number_past_the_long_base_range': ('N12', 'L := @9223372036854775808'),
            'a_number_beside_a_type': ('N12', 'V := V + @2147483648'),
            'a_number_before_a_long_type': ('N12', 'L := @9223372036854775808 - L'),
            'a_number_tested': ('N12', 'if @2147483648 in Small then X := A; end if'),
            'a_bound_of_a_test': ('N12', 'if V in 0 .. @2147483648 then X := A; end if'),
            'a_static_sum': ('N12', "V := Small'Last @+ 2147483638"), 'an_exponent_past_integer': ('N12', 'L := L ** @2147483648'),
            'a_static_long_sum': ('N12', "L := Long'Last @+ 1")}.items():
        yield refused(f'types_and_{name}.adb', body(statement), rule)
    # the left operand, the right one, and then the operator
    for name, (rule, statement) in {
            'a_type_for_its_target': ('N12', 'X := V + @2147483648'),
            'a_tested_number': ('N10', 'if 2147483648 @in V .. X then X := A; end if'),
            'a_test_in_no_type': ('N3', 'if V in @V then X := A; end if'),
            'a_test_in_a_constant': ('N3', 'if V in @Big then X := A; end if')}.items():
        yield refused(f'order_of_types_and_{name}.adb', body(statement), rule)
    for name, statement, by, total in (
            ('a_subtype', 'V := 3; W := V', 'W = V', 4), ('the_type_of_a_subtype', 'W := 1; V := W', 'V + W > 1', 5),
            ('universal_numbers', 'V := 5; L := 2147483648', 'V > 2 and L > 2147483647', 4),
            ('a_power', 'V := 3; V := V ** 2 - 1', 'V = 8', 7), ('a_range_of_subtypes', 'V := 2', "V in Low'First .. Small'Last", 3),
            ('a_named_number', 'L := Big', 'L = Big', 3), ('a_long_value_tested', 'V := 1', '2147483648 in Long and V = 1', 3)):
        yield accepted(f'types_match_by_{name}.adb', deciding(types, statement, by=by), total)
    yield accepted('types_match_by_a_boolean_subtype.adb',
                   deciding('subtype Flag is Boolean; F : Flag; G : Boolean', 'G := True; F := G', by='F and not (G = F)'), 2)


def enumerations():
    """Literals and variables of enumeration types: what takes them, and what does not."""
    types = f'{WARM}; type Gear is (Up, Down); V, W : Hue; S : Warm; G : Gear; F : Boolean'

    def body(statement):
        return declaring(types, statement)

    for name, condition in {
            'order_and_a_number': 'V @< 1', 'equality_and_a_number': 'V @= 0', 'order_of_two_types': 'V @>= Down',
            'equality_with_a_truth_value': 'B @= V', 'not': '@not V', 'test_in_numbers': 'V @in Natural', 'test_of_a_number': '1 @in Hue',
            'range_of_two_types': 'V @in Red .. Up', 'range_up_to_a_number': 'V @in Red .. 3'}.items():
        yield refused(f'literals_in_{name}.adb', body(f'if {condition} then X := A; end if'), 'N10')
    for name, (rule, statement) in {
            'sum': ('N10', 'V := V @+ 1'), 'mod': ('N10', 'V := V @mod W'), 'power': ('N10', 'V := V @** 2'),
            'minus': ('N10', 'V := @-V'), 'value_of_a_number': ('N10', 'X := @V'), 'number_for_a_value': ('N10', 'V := @1'),
            'literal_of_another_type': ('N10', 'V := @Up'), 'value_for_a_truth_value': ('N10', 'F := @Red'),
            'fault_beside_a_literal': ('N12', 'V := Red + 1 @/ 0'), 'attribute_that_is_none': ('N3', "V := @Hue'Size"), 'attribute_without_argument': ('N14', "V := @Hue'Succ"),
            'attribute_of_a_literal': ('N3', "V := @Red'Last"), 'literal_for_a_type': ('N3', 'if V in @Red then X := A; end if'),
            'no_literal': ('N1', 'V := @Pink')}.items():
        yield refused(f'literals_and_{name}.adb', body(statement), rule)
    for name, statement, by, total in (
            ('in_order', 'V := Yellow', "V < Blue and V >= Red and V > Red and V <= Hue'Last", 3),
            ('tested_in_a_subtype', 'V := Green', 'V not in Warm', 3),
            ('tested_in_a_range_of_a_subtype', 'V := Blue', "V in Warm'First .. Warm'Last", 3),
            ('tested_in_a_range_of_a_variable', 'V := Green; W := Red', 'V in W .. Blue', 4),
            ('of_a_subtype', 'S := Red; V := S', 'V = S', 4), ('compared_for_a_truth_value', 'F := Red < Blue', 'F', 2),
            ('of_two_types', 'V := Red; G := Down', 'V = Red and G > Up', 4)):
        yield accepted(f'literals_{name}.adb', deciding(types, statement, by=by), total)
    yield accepted('literal_of_one_type.adb', deciding('type One is (Only); V : One', "V := One'Last", by='V = Only'), 3)


VALUES = (f'{SMALL}; type Wide is range -5 .. 2 ** 40; {WARM}; subtype Cool is Hue range Green .. Blue; '
          'subtype Low is Small range 2 .. 5; subtype Lower is Low range 2 .. 3; subtype Same is Low; subtype Flag is Boolean; '
          "subtype Few is Integer range -3 .. 3; Top : constant Low := 5; Half, Other : constant := Low'Last / 2; "
          'On : constant Boolean := Half = 2; Off : constant Flag := not On; Best : constant Warm := Yellow; '
          'Neg : constant Wide := -5; Last : constant Integer := Half ** 31 - 1')


def values_of_declarations():
    """What is static has its exact value: each of these is false, so that a sum after it is never reached."""
    for name, condition in {
            'last_of_a_type': "Small'Last /= 10", 'last_of_a_long_type': "Wide'Last /= 1099511627776",
            'first_of_a_subtype': "Low'First /= 2", 'last_of_a_subtype': "Low'Last /= 5",
            'last_of_a_subtype_of_a_subtype': "Lower'Last /= 3", 'last_literal': "Hue'Last /= Blue",
            'first_literal_of_a_subtype': "Cool'First /= Green", 'last_literal_of_a_subtype': "Warm'Last /= Yellow",
            'literals_not_in_order': 'Red >= Yellow', 'literal_in_a_range': 'Red in Green .. Blue',
            'literal_in_an_empty_range': 'Blue in Blue .. Green', 'literal_in_a_subtype': 'Green in Warm',
            'constant_literal': 'Best /= Yellow', 'constant': 'Top /= 5', 'named_number': 'Half /= 2',
            'power_of_named_numbers': 'Half ** Other /= 4', 'last_integer': f'Last /= {LAST}', 'truth_constant': 'not On',
            'mod_below_zero': 'Neg mod 3 /= 1', 'power_below_zero': 'Neg ** 3 /= -125', 'number_in_a_subtype': '6 in Low',
            'attribute_in_its_type': "Low'First not in Small"}.items():
        yield accepted(f'value_of_{name}.adb', falsified(VALUES, condition), 2)
    for name, condition in {
            'last_of_a_type': "Small'Last = 10", 'literal_in_order': 'Red < Yellow', 'constant': 'Top = 5', 'truth_constant': 'On',
            'literal_in_a_subtype': 'Red in Warm', 'last_literal_of_a_subtype': "Warm'Last = Yellow"}.items():
        yield examined(f'true_value_of_{name}.adb', falsified(VALUES, condition).replace('X + 1', 'X @+ 1'), ('Inc', 2, 1))


def conditions_of_types():
    """Overflow is looked at by the base range of the type, and what is assigned by the range of the target."""
    short, long = 'type T is range 0 .. 2147483647; V, W : T', 'type T is range 0 .. 2147483648; V, W : T'
    low, lower = 'type T is range -2147483648 .. 0; V, W : T', 'type T is range -2147483649 .. 0; V, W : T'
    longest, one = 'type T is range -2 ** 63 .. 2 ** 63 - 1; V, W : T', 'type T is range 5 .. 5; V : T'
    few = 'type T is range 0 .. 10; subtype S is T range 2 .. 5; C : constant T := 10; V : T; W : S'
    for name, declared, statement, total in (
            ('sum_past_its_type', few, 'V := 10; V := V <3r>+ 1', 5), ('sum_past_integer', short, 'V := 2147483647; V := V <2o>+ 1', 5),
            ('sum_past_integer_of_a_long_type', long, 'V := 2147483647; V := V + 1', 5),
            ('sum_past_a_long_type', long, 'V := 2147483648; V := V <3r>+ 1', 5),
            ('sum_past_64_bits', longest, "V := T'Last; V := V <2o>+ 1", 5),
            ('difference_below_integer', low, "V := T'First; V := V <2o>- 1", 5),
            ('difference_below_integer_of_a_long_type', lower, 'V := -2147483648; V := V - 1', 5),
            ('difference_below_64_bits', longest, "V := T'First; V := V <2o>- 1", 5),
            ('minus_of_the_least', low, "V := T'First; V := <2o>-V", 5),
            ('minus_of_the_least_integer_of_a_long_type', lower, 'V := -2147483648; V := <3r>-V', 5),
            ('minus_of_the_least_of_64_bits', longest, "V := T'First; V := <2o>-V", 5),
            ('abs_of_the_least_of_64_bits', longest, "V := T'First; V := <2o>abs V", 5),
            ('product_past_a_long_type', long, 'V := 46341; V := V <3r>* V', 5),
            ('product_past_64_bits', longest, 'V := 3037000500; V := V <2o>* V', 5),
            ('product_within_64_bits', longest, 'V := 3037000499; V := V * V', 5),
            ('quotient_past_a_long_type', lower, 'V := -2147483648; W := -1; V := V <5r>/ W', 7),
            ('power_past_integer', short, 'V := 2; V := V <3o>** 31', 6), ('power_past_64_bits', longest, 'V := 2; V := V <3o>** 63', 6),
            ('power_within_64_bits', longest, 'V := 2; V := V ** 62', 6),
            ('power_of_a_negative_number', longest, 'V := -2; V := V ** 63', 6), ('number_past_its_type', few, 'V := <1r>11', 3),
            ('static_sum_past_its_type', few, "V := T'Last <1r>+ 1", 3), ('constant_past_its_type', few, 'V := C <1r>+ 1', 3),
            ('one_value_and_one_more', one, 'V := <1r>6', 3), ('one_value_more', one, 'V := 5; V := V <3r>+ 1', 5),
            ('one_value_more_and_less', one, 'V := 5; V := V + 1 - 1', 6), ('subtype_at_its_last', few, 'V := 5; W := V', 4),
            ('subtype_past_its_last', few, 'V := 6; W := <2r>V', 4), ('type_of_a_subtype', few, 'W := 2; V := W', 4)):
        by = 'V > 0 and W > 0' if 'W :=' in statement else 'V > 0'
        yield left_at(f'{name}_of_a_type.adb', deciding(declared, statement, by=by), total)
    for name, by in {'guarded': 'V /= 0 and then 10 / V > 2', 'guarded_by_a_subtype': 'V in S and then 10 / V > 2',
                     'unguarded': '10 <2d>/ V > 2'}.items():
        yield left_at(f'quotient_{name}_of_a_type.adb', deciding(few, 'V := 0', by=by), 5)



def powers_of_types():
    """What is known of a value that is not static: the bounds of its type, and of its base range."""
    def power(bounds, value, *more, by='V > 0'):
        declared = f'type T is range {bounds}; C : constant T := 2; subtype S is T range 3 .. 5; V, W : T'
        return deciding(declared, f'V := {value}', *more, by=by, params='N : in Natural; X : out Integer', derives='X from N')

    last_digit = 'C <2o>** N mod 10'
    for name, bounds, value, total in (
            ('mod_within_its_type', '0 .. 9', last_digit, 6), ('mod_past_its_type', '0 .. 8', 'C <2o>** N <4r>mod 10', 6),
            ('mod_below_its_type', '1 .. 9', 'C <2o>** N <4r>mod 10', 6), ('of_integer', '-2147483648 .. 2147483647', 'C <2o>** N', 5),
            ('of_64_bits', '-2 ** 63 .. 2 ** 63 - 1', 'C <2o>** N', 5),
            ('of_a_long_type', '-2147483648 .. 2147483648', 'C <2o,3r>** N', 5),
            ('less_of_64_bits', '-2 ** 63 .. 2 ** 63 - 1', 'C <2o>** N <3o>- 1', 6),
            ('quotient_past_its_type', '-2 ** 62 .. 2 ** 62', 'C <2o>** N <4o,5r>/ 2', 7),
            ('rem_below_its_type', '-3 .. 5', 'C <2o>** N <4r>rem 5', 6)):
        yield left_at(f'power_{name}.adb', power(bounds, value), total)
    for name, bounds, more, by, total in (
            ('one_more_past', '0 .. 9', 'W := V <6r>+ 1', 'W > 0', 8),
            ('one_more_below_a_bound', '0 .. 9', 'if V < 9 then W := V + 1; else W := 0; end if', 'W > 3', 11),
            ('one_more_up_to_a_bound', '0 .. 9', 'if V <= 9 then W := V <6r>+ 1; else W := 0; end if', 'W > 3', 11),
            ('less_in_a_subtype', '0 .. 9', 'if V in S then W := V - 3; else W := 0; end if', 'W > 0', 11),
            ('less_in_a_wider_range', '0 .. 9', 'if V in 2 .. 5 then W := V <6r>- 3; else W := 0; end if', 'W > 0', 11),
            ('less_where_it_is_in_no_subtype', '0 .. 9', 'if V not in S then W := V <6r>- 3; else W := 0; end if', 'W > 0', 11)):
        yield left_at(f'digit_{name}.adb', power(bounds, last_digit, more, by=by), total)


# Types of 32 and of 64 bits, subtypes and constants of them, and named numbers: M is one past 32 bits, and P one past 64.
POWERS = (f'{SMALL}; {BIG}; {LONG}; {HUE}; subtype Low is Small range 1 .. 5; subtype Near is Big range 0 .. 100; '
          'K : constant := 2; M : constant := 2 ** 31; P : constant := 2 ** 63; C : constant Integer := 3; D : constant Big := 5; '
          'V, U : Big; N : Near; S : Small; L : Low; H : Hue; F : Boolean')
# The ends of 64 bits, and what is one past them.
FAR, LEAST = '9223372036854775807', '(-9223372036854775808)'
TOO_FAR, TOO_LOW = '9223372036854775808', '(-9223372036854775809)'
LONG_ENDS = (-9223372036854775808, 9223372036854775807)


def powered(*statements, declared=''):
    """The text of a procedure with these statements over the types of `POWERS`, and with a declaration after them."""
    return declaring(f'{POWERS}; {declared}' if declared else POWERS, *statements)


def powers_kept(what, cases):
    """Statements that keep all rules on names and types, so that the first breach is in the statement after them."""
    for name, statement in cases.items():
        yield refused(f'power_{what}_{name}.adb', powered(statement, 'X := @Y'), 'N1')


def powers_refused(what, cases):
    """Statements that break a rule."""
    for name, (rule, statement) in cases.items():
        yield refused(f'power_{what}_{name}.adb', powered(statement), rule)


def universal_powers_of_right_sides():
    """The power of a number takes the type of the target, with all that is around it. N12 is at a number that does not fit it."""
    yield from powers_kept('for', {
        'a_long_type': 'V := 2 ** A', 'a_long_type_from_its_last': f'V := {FAR} ** A', 'a_long_type_from_its_first': f'V := {LEAST} ** A',
        'a_long_subtype': 'N := 4294967296 ** A', 'a_short_type': 'S := 2 ** A', 'a_short_type_from_its_last': 'S := 2147483647 ** A',
        'a_short_type_from_its_first': 'S := (-2147483648) ** A', 'a_short_subtype': 'L := 2147483647 ** A', 'an_integer': 'X := 2 ** A',
        'an_integer_from_its_last': 'X := 2147483647 ** A', 'an_integer_from_its_first': 'X := (-2147483648) ** A',
        'a_product': 'V := 4294967296 * 2 ** A', 'a_product_from_the_left': 'V := 2 ** A * 4294967296', 'a_sum': 'V := 1 + 2 ** A',
        'a_difference': 'V := 2 ** A - 1', 'a_quotient': 'V := 4294967296 / 2 ** A', 'a_mod': 'V := 2 ** A mod 4294967297',
        'a_rem': 'V := 2 ** A rem 4294967297', 'a_sign': 'V := -4294967296 ** A', 'a_sign_over_parentheses': 'V := -(4294967296 ** A)',
        'a_plus': 'V := +4294967296 ** A', 'an_abs': 'V := abs (4294967296 ** A)', 'parentheses': 'V := ((4294967296 ** A))',
        'two_powers': 'V := 4294967296 ** A + 4294967297 ** X', 'a_product_of_powers': 'V := 4294967296 ** A * 3 ** X',
        'a_power_of_a_power': 'V := (4294967296 ** A) ** 2', 'a_power_of_a_power_that_varies': 'V := (4294967296 ** A) ** X',
        'a_named_number': 'V := M ** A', 'a_named_number_that_fits_less_one': 'V := (P - 1) ** A', 'a_sum_of_numbers': 'V := (1 + 1) ** A',
        'a_static_power': 'V := (2 ** C) ** A', 'a_long_static_power': 'V := 2 ** 62 * 2 ** A', 'a_difference_that_fits': f'V := {TOO_FAR} - 1 + 2 ** A',
        'a_product_that_fits_an_integer': 'X := 1073741824 * 2 - 1 + 2 ** A', 'a_sum_of_many': 'V := 1 + 2 ** A - 3 * (4 + 5 ** X) / K'})
    yield from powers_refused('for', {
        'a_long_type_past_its_last': ('N12', f'V := @{TOO_FAR} ** A'), 'a_long_type_below_its_first': ('N12', f'V := @{TOO_LOW} ** A'),
        'a_long_subtype_past_its_last': ('N12', f'N := @{TOO_FAR} ** A'), 'a_short_type_past_its_last': ('N12', 'S := @2147483648 ** A'),
        'a_short_type_below_its_first': ('N12', 'S := @(-2147483649) ** A'), 'a_short_subtype_past_its_last': ('N12', 'L := @2147483648 ** A'),
        'an_integer_past_its_last': ('N12', 'X := @2147483648 ** A'), 'an_integer_below_its_first': ('N12', 'X := @(-2147483649) ** A'),
        'a_product_past_integer': ('N12', 'X := @4294967296 * 2 ** A'), 'a_product_past_integer_on_the_right': ('N12', 'X := 2 ** A * @4294967296'),
        'a_product_past_64_bits': ('N12', f'V := @{TOO_FAR} * 2 ** A'), 'a_sum_past_64_bits': ('N12', f'V := 2 ** A + @{TOO_FAR}'),
        'a_divisor_past_64_bits': ('N12', f'V := 2 ** A / @{TOO_FAR}'), 'a_divisor_past_integer': ('N12', 'X := 2 ** A mod @2147483648'),
        'a_sign_past_64_bits': ('N12', f'V := -@{TOO_FAR} ** A'), 'a_sign_past_integer': ('N12', 'X := -@2147483648 ** A'),
        'a_plus_past_64_bits': ('N12', f'V := +@{TOO_FAR} ** A'), 'an_abs_past_64_bits': ('N12', f'V := abs (@{TOO_FAR} ** A)'),
        'parentheses_past_64_bits': ('N12', f'V := ((@{TOO_FAR} ** A))'), 'a_number_in_parentheses_past_64_bits': ('N12', f'V := @(({TOO_FAR})) ** A'),
        'a_named_number_past_64_bits': ('N12', 'V := @P ** A'), 'a_named_number_past_integer': ('N12', 'X := @M ** A'),
        'a_named_number_in_a_product': ('N12', 'S := 2 ** A * @M'), 'a_sum_of_numbers_past_64_bits': ('N12', 'V := @(P + 0) ** A'),
        'a_sum_beside_it_past_64_bits': ('N12', f'V := {FAR} @+ 1 + 2 ** A'), 'a_sum_beside_it_past_integer': ('N12', 'X := 2147483647 @+ 1 + 2 ** A'),
        'an_abs_of_a_number_past_integer': ('N12', 'X := @abs (-2147483648) * 2 ** A'), 'a_static_power_past_64_bits': ('N12', 'V := 2 ** A * 2 @** 63'),
        'a_static_power_past_integer': ('N12', 'X := 2 ** A * 2 @** 31'), 'a_power_of_a_power_past_64_bits': ('N12', f'V := (@{TOO_FAR} ** A) ** 2'),
        'an_inner_sum_past_64_bits': ('N12', f'V := 2 ** A * (3 ** X + @{TOO_FAR})'), 'the_first_of_two': ('N12', f'V := @{TOO_FAR} ** A + 9223372036854775809 ** A'),
        'the_widest_number': ('N12', f'V := 2 ** A + @{WIDEST}'),
        # no type of numbers
        'a_truth_value': ('N10', 'F := 2 @** A'), 'a_truth_value_and_a_wide_number': ('N10', f'F := {TOO_FAR} @** A'), 'a_literal': ('N10', 'H := 2 @** A'),
        'a_literal_by_a_sign': ('N10', 'H := @-2 ** A'), 'a_literal_in_parentheses': ('N10', f'H := @({TOO_FAR} ** A)'), 'a_literal_by_a_sum': ('N10', 'H := 2 ** A @+ 2147483648'),
        # what breaks a rule inside comes first
        'a_static_fault': ('N12', f'V := {TOO_FAR} ** A + 1 @/ 0'), 'a_number_past_128_bits': ('N12', f'V := {TOO_FAR} ** A + 2 @** 127'),
        'an_operand_of_another_type': ('N10', f'V := {TOO_FAR} ** A + X @** V'), 'no_name': ('N1', f'V := {TOO_FAR} ** A * @Y'),
        # constants as targets
        'a_constant': ('U2', '@C := 2 ** A'), 'a_long_constant': ('U2', '@D := 4294967296 ** A'), 'a_constant_past_integer': ('N12', 'C := @2147483648 ** A'),
        'a_long_constant_past_64_bits': ('N12', f'D := @{TOO_FAR} ** A'), 'a_named_number_as_a_target': ('U2', '@K := 2 ** A'),
        'a_named_number_as_a_target_and_a_wide_number': ('U2', f'@K := {TOO_FAR} ** A')})


def universal_powers_beside_operands():
    """The power of a number takes the type of the operand beside it, on either side."""
    for operator in ('+', '-', '*', '/', 'mod', 'rem'):
        name = {'+': 'sum', '-': 'difference'}.get(operator) or OPERATOR_NAMES[operator]
        yield from powers_kept(f'beside_a_{name}', {
            'of_a_long_type': f'V := V {operator} {FAR} ** A', 'before_one_of_a_long_type': f'V := {LEAST} ** A {operator} V',
            'of_an_integer': f'X := X {operator} 2147483647 ** A', 'before_one_of_an_integer': f'X := (-2147483648) ** A {operator} X'})
        yield from powers_refused(f'beside_a_{name}', {
            'past_64_bits': ('N12', f'V := V {operator} @{TOO_FAR} ** A'), 'past_64_bits_on_the_left': ('N12', f'V := @{TOO_FAR} ** A {operator} V'),
            'below_64_bits': ('N12', f'V := V {operator} @{TOO_LOW} ** A'), 'past_integer': ('N12', f'X := X {operator} @2147483648 ** A'),
            'past_integer_on_the_left': ('N12', f'X := @2147483648 ** A {operator} X'), 'past_a_short_type': ('N12', f'S := S {operator} @2147483648 ** A'),
            'below_a_short_type': ('N12', f'S := @(-2147483649) ** A {operator} S'), 'of_an_integer_for_another_type': ('N10', f'V := 2 ** A @{operator} X'),
            'after_an_integer_for_another_type': ('N10', f'V := X @{operator} 2 ** A'), 'of_a_truth_value': ('N10', f'X := 2147483648 ** A @{operator} F'),
            'after_a_literal': ('N10', f'X := H @{operator} 2147483648 ** A')})
    yield from powers_kept('beside', {
        'a_constant': 'V := D * 4294967296 ** A', 'an_attribute': "V := Big'Last - 4294967296 ** A", 'a_conversion': 'V := Big (X) + 4294967296 ** A',
        'a_qualification': "V := 4294967296 ** A - Big'(5)", 'a_sum': 'V := V + 1 - 4294967296 ** A', 'a_sum_of_powers': 'V := V * (4294967296 ** A + 3 ** X)',
        'a_sum_of_three': 'V := 4294967296 ** A + 4294967297 + V', 'a_sum_of_numbers_that_fits': 'X := 2147483648 - 1 + 2 ** A + X',
        'a_power': 'V := V ** A + 4294967296 ** A', 'a_position': "X := Hue'Pos (H) + 2 ** A"})
    yield from powers_refused('beside', {
        'a_constant_past_64_bits': ('N12', f'V := D * @{TOO_FAR} ** A'), 'an_integer_constant': ('N12', 'V := C + @2147483648 ** A'),
        'a_sum_of_powers_past_64_bits': ('N12', f'V := V * (2 ** A + @{TOO_FAR} ** A)'), 'a_sum_of_three_past_integer': ('N12', 'X := 2 ** A + @2147483648 + X'),
        'a_sum_of_numbers_past_integer': ('N12', 'X := @2147483648 + 2 ** A + X'), 'a_position_past_integer': ('N12', "X := Hue'Pos (H) + @2147483648 ** A"),
        'a_position_for_another_type': ('N10', "V := Hue'Pos (H) @+ 2 ** A"), 'an_integer_and_then_another_type': ('N10', 'V := 2 ** A + X @+ V'),
        'a_sum_and_then_another_type': ('N10', 'V := 2 ** A + V @- S'), 'another_type_and_a_wide_number': ('N12', 'V := @2147483648 ** A + X'),
        'an_operand_and_a_later_name': ('N12', 'X := X + @2147483648 ** A - Y'), 'an_undeclared_name': ('N1', 'X := 2147483648 ** A + @Y')})


def universal_powers_in_relations():
    """The power of a number takes the type of the other operand of a comparison. Beside a number it is an Integer, and so is that number."""
    for operator in ('=', '/=', '<', '<=', '>', '>='):
        name = {'=': 'equal', '/=': 'not_equal', '<': 'less', '<=': 'less_or_equal', '>': 'greater', '>=': 'greater_or_equal'}[operator]
        yield from powers_kept(f'with_{name}', {
            'after_a_long_type': f'F := V {operator} {FAR} ** A', 'before_a_long_type': f'F := {LEAST} ** A {operator} V',
            'after_an_integer': f'F := X {operator} 2147483647 ** A', 'before_an_integer': f'F := (-2147483648) ** A {operator} X',
            'before_a_number': f'F := 2 ** A {operator} 2147483647', 'after_a_number': f'F := -2147483648 {operator} 2 ** A',
            'before_a_power': f'F := 2147483647 ** A {operator} (-2147483648) ** A'})
        yield from powers_refused(f'with_{name}', {
            'past_64_bits': ('N12', f'F := V {operator} @{TOO_FAR} ** A'), 'past_64_bits_on_the_left': ('N12', f'F := @{TOO_FAR} ** A {operator} V'),
            'past_integer': ('N12', f'F := X {operator} @2147483648 ** A'), 'past_integer_on_the_left': ('N12', f'F := @2147483648 ** A {operator} X'),
            'before_a_number_past_integer': ('N12', f'F := 2 ** A {operator} @2147483648'), 'after_a_number_below_integer': ('N12', f'F := @-2147483649 {operator} 2 ** A'),
            'a_number_past_integer': ('N12', f'F := @2147483648 ** A {operator} 5'), 'a_number_past_integer_on_the_right': ('N12', f'F := 5 {operator} @2147483648 ** A'),
            'before_a_power_past_integer': ('N12', f'F := 2 ** A {operator} @2147483648 ** A'), 'two_past_integer': ('N12', f'F := @2147483648 ** A {operator} 2147483649 ** A'),
            'a_truth_value': ('N10', f'F := 2147483648 ** A @{operator} F'), 'a_literal': ('N10', f'F := H @{operator} 2147483648 ** A')})
    yield from powers_kept('in_a_comparison', {
        'with_a_constant': 'F := D = 4294967296 ** A', 'with_an_attribute': "F := Big'Last >= 4294967296 ** A", 'with_a_sum': 'F := 4294967296 ** A <= V + 1',
        'with_a_conversion': 'F := 4294967296 * 2 ** A = Big (X)', 'of_a_sum': 'F := 4294967296 ** A + 4294967297 > V',
        'in_parentheses': 'F := (4294967296 ** A) > V', 'under_an_if': 'if 4294967296 ** A > V then null; end if',
        'under_an_elsif': 'if B then null; elsif V < 4294967296 ** A then null; end if', 'under_a_while': 'while V < 4294967296 ** A loop null; end loop',
        'under_an_exit': 'loop exit when V < 4294967296 ** A; end loop', 'under_and': 'F := 4294967296 ** A > V and 2 ** A > X',
        'under_and_then': 'F := V > 0 and then V < 4294967296 ** A', 'under_or_else': 'F := X < 2 ** A or else 4294967296 ** A = V',
        'under_not': 'F := not (4294967296 ** A = V)', 'under_xor': 'F := 2 ** A > 5 xor 4294967296 ** A > V',
        'of_comparisons': 'F := (2 ** A > X) = (4294967296 ** A > V)'})
    yield from powers_refused('that_breaks_a_comparison', {
        'with_a_named_number_past_integer': ('N12', 'F := 2 ** A > @M'), 'with_a_static_power_past_integer': ('N12', 'F := 2 ** A > 2 @** 31'),
        'with_a_sum_past_integer': ('N12', 'F := 2 ** A + @2147483648 > 5'), 'of_two_types': ('N10', 'F := 2 ** A + X @> V'),
        'under_and': ('N12', 'F := 4294967296 ** A > V and X > @4294967296 ** A'), 'under_and_then': ('N12', 'F := 2 ** A > 5 and then 2 ** A < @4294967296'),
        'under_or': ('N12', 'F := @4294967296 ** A > X or 4294967296 ** A > V'), 'of_comparisons': ('N12', 'F := (4294967296 ** A > V) = (@4294967296 ** A > X)'),
        'under_an_if': ('N12', 'if 2 ** A > @4294967296 then null; end if'), 'under_a_while': ('N12', f'while V < @{TOO_FAR} ** A loop null; end loop'),
        'for_an_operand_of_and': ('N10', 'F := 2147483648 ** A @and F'), 'for_an_operand_of_or_else': ('N10', 'F := F @or else 2147483648 ** A'),
        'for_an_operand_of_not': ('N10', 'F := @not (2147483648 ** A)'), 'with_an_undeclared_name': ('N1', 'F := 2147483648 ** A > @Y')})


def universal_powers_in_tests():
    """In a membership test the power of a number takes the type that is named, or the first that one of the three has."""
    yield from powers_kept('tested', {
        'in_a_long_type': f'F := {FAR} ** A in Big', 'not_in_a_long_subtype': f'F := {LEAST} ** A not in Near', 'in_integer': 'F := 2147483647 ** A in Integer',
        'not_in_natural': 'F := (-2147483648) ** A not in Natural', 'in_a_short_subtype': 'F := 2147483647 ** A in Low',
        'before_a_low_bound': 'F := 4294967296 ** A in V .. 4294967296', 'before_a_high_bound': 'F := 4294967296 ** A in 4294967296 .. V',
        'for_a_low_bound': 'F := V in 4294967296 ** A .. 4294967296', 'for_a_high_bound': 'F := V in 4294967296 .. 4294967296 ** A',
        'for_a_low_bound_before_a_type': 'F := 4294967296 in 4294967296 ** A .. V', 'for_a_high_bound_after_a_type': 'F := 4294967296 in V .. 4294967296 ** A',
        'for_all_but_one': 'F := 4294967296 ** A not in 4294967297 ** A .. V', 'among_numbers': 'F := 2 ** A in -2147483648 .. 2147483647',
        'for_a_low_bound_among_numbers': 'F := 5 in 2147483647 ** A .. 2147483647', 'for_a_high_bound_among_numbers': 'F := 2147483647 in 0 .. 2147483647 ** A',
        'three_times': 'F := 2 ** A in 3 ** A .. 4 ** A'})
    yield from powers_refused('tested', {
        'in_a_long_type_past_64_bits': ('N12', f'F := @{TOO_FAR} ** A in Big'), 'in_a_long_subtype_below_64_bits': ('N12', f'F := @{TOO_LOW} ** A not in Near'),
        'in_integer_past_it': ('N12', 'F := @2147483648 ** A in Integer'), 'in_natural_past_integer': ('N12', 'F := @2147483648 ** A not in Natural'),
        'in_a_short_type_past_integer': ('N12', 'F := @2147483648 ** A in Small'), 'in_literals': ('N10', 'F := 2147483648 ** A @in Hue'),
        'in_no_literals': ('N10', 'F := 2147483648 ** A @not in Hue'), 'in_truth_values': ('N10', 'F := 2147483648 ** A in @Boolean'),
        'in_nothing': ('N1', 'F := 2147483648 ** A in @Y'), 'before_a_low_bound_past_64_bits': ('N12', f'F := @{TOO_FAR} ** A in V .. U'),
        'before_a_high_bound_past_integer': ('N12', 'F := @2147483648 ** A in 0 .. X'), 'beside_a_low_bound_past_integer': ('N12', 'F := 2 ** A in @2147483648 .. X'),
        'for_a_low_bound_past_64_bits': ('N12', f'F := V in @{TOO_FAR} ** A .. 5'), 'for_a_high_bound_past_64_bits': ('N12', f'F := V not in 0 .. @{TOO_FAR} ** A'),
        'for_a_low_bound_past_integer': ('N12', 'F := X in @2147483648 ** A .. 5'), 'for_a_low_bound_before_a_type_past_64_bits': ('N12', f'F := 5 in @{TOO_FAR} ** A .. V'),
        'for_a_high_bound_after_a_type_past_64_bits': ('N12', f'F := 5 in V .. @{TOO_FAR} ** A'), 'for_two_bounds': ('N12', 'F := X in @2147483648 ** A .. 2147483649 ** A'),
        'among_numbers_past_integer': ('N12', 'F := @2147483648 ** A in 0 .. 5'), 'before_a_number_past_integer': ('N12', 'F := 2 ** A in 0 .. @2147483648'),
        'after_a_number_past_integer': ('N12', 'F := @2147483648 in 2 ** A .. 3'), 'after_a_bound_past_integer': ('N12', 'F := 0 in @2147483648 .. 2 ** A'),
        'for_a_high_bound_past_integer': ('N12', 'F := 0 in 2 ** A .. @2147483648 ** A'), 'among_literals': ('N10', 'F := 2147483648 ** A @in Red .. Blue'),
        'among_truth_values': ('N10', 'F := 2147483648 ** A @in F .. B'), 'among_two_types': ('N10', 'F := 2147483648 ** A @in V .. X'),
        'beside_an_undeclared_name': ('N1', f'F := {TOO_FAR} ** A in V .. @Y')})


def universal_powers_of_bounds():
    """As a bound of a `for` the power of a number takes its base type. In a conversion or a qualification it takes that of the name."""
    def counted(bounds):
        return f'for I in {bounds} loop null; end loop'

    yield from powers_kept('of', {
        'a_low_bound': counted(f'Big range {LEAST} ** A .. V'), 'a_high_bound': counted(f'reverse Big range 0 .. {FAR} ** A'),
        'two_bounds': counted('Near range 4294967296 ** A .. 4294967297 ** A'), 'integer_bounds': counted('Natural range 2147483647 ** A .. (-2147483648) ** A'),
        'a_long_conversion': f'V := Big ({FAR} ** A)', 'a_conversion_to_a_long_subtype': f'V := Near ({LEAST} ** A)', 'a_conversion': 'X := Integer (2147483647 ** A)',
        'a_conversion_to_a_short_type': 'S := Small ((-2147483648) ** A)', 'a_conversion_of_a_sum': 'V := Big (4294967296 + 2 ** A)',
        'a_conversion_of_a_conversion': 'V := Big (Integer (2 ** A))', 'a_long_qualification': f"V := Big'({FAR} ** A)", 'a_subtype_qualification': f"V := Near'({LEAST} ** A)",
        'a_qualification': "X := Natural'(2147483647 ** A)", 'val': "H := Hue'Val (2147483647 ** A)", 'val_of_a_sum': "H := Hue'Val (1 + 2 ** A)"})
    yield from powers_refused('of', {
        'a_low_bound_past_64_bits': ('N12', counted(f'Big range @{TOO_FAR} ** A .. 5')), 'a_high_bound_past_64_bits': ('N12', counted(f'Near range 0 .. @{TOO_FAR} ** A')),
        'a_low_bound_past_integer': ('N12', counted('Integer range @2147483648 ** A .. 5')), 'a_high_bound_past_integer': ('N12', counted('reverse Natural range 0 .. @2147483648 ** A')),
        'a_bound_past_a_short_type': ('N12', counted('Small range 0 .. @2147483648 ** A')), 'a_low_bound_of_literals': ('N10', counted('Hue range 2147483648 @** A .. Blue')),
        'a_high_bound_of_literals': ('N10', counted('Hue range Red .. @-2147483648 ** A')), 'a_bound_before_a_name': ('N12', counted('Integer range @2147483648 ** A .. Y')),
        'a_bound_after_a_bound': ('N10', counted('Big range X @+ 2 ** A .. 4294967296 ** A')), 'a_bound_of_truth_values': ('N10', counted('@Boolean range 2 ** A .. True')),
        'a_long_conversion_past_64_bits': ('N12', f'V := Big (@{TOO_FAR} ** A)'), 'a_conversion_below_64_bits': ('N12', f'V := Near (@{TOO_LOW} ** A)'),
        'a_conversion_past_integer': ('N12', 'X := Integer (@2147483648 ** A)'), 'a_conversion_past_a_short_type': ('N12', 'S := Small (@2147483648 ** A)'),
        'a_sum_in_a_conversion_past_integer': ('N12', 'V := Big (Integer (2 ** A + @2147483648))'), 'a_conversion_for_another_type': ('N10', 'V := @Small (2 ** A)'),
        'a_conversion_to_a_truth_value': ('N10', 'F := @Boolean (2 ** A)'), 'a_conversion_to_a_literal': ('N10', 'H := @Hue (2147483648 ** A)'),
        'a_long_qualification_past_64_bits': ('N12', f"V := Big'(@{TOO_FAR} ** A)"), 'a_subtype_qualification_below_64_bits': ('N12', f"V := Near'(@{TOO_LOW} ** A)"),
        'a_qualification_past_integer': ('N12', "X := Natural'(@2147483648 ** A)"), 'a_qualification_by_literals': ('N10', "H := Hue'(2147483648 @** A)"),
        'a_qualification_by_truth_values': ('N10', "F := Boolean'(2147483648 @** A)"), 'val_past_integer': ('N12', "H := Hue'Val (@2147483648 ** A)"),
        'val_of_a_sum_past_integer': ('N12', "H := Hue'Val (2 ** A + @2147483648)"), 'pos': ('N10', "X := Hue'Pos (2 @** A)"), 'succ': ('N10', "H := Hue'Succ (2 @** A)"),
        'pred': ('N10', "H := Hue'Pred (@-2 ** A)"), 'pos_past_integer': ('N12', "X := Hue'Pos (@2147483648 ** A)"), 'succ_past_integer': ('N12', "H := Hue'Succ (@2147483648 ** A)")})


def universal_powers_that_meet_nothing():
    """The power of a number is an Integer as an exponent, as a selector, as a condition, and where it meets nothing else."""
    yield from powers_kept('by_itself', {
        'as_an_exponent': 'V := V ** (2147483647 ** A)', 'as_an_exponent_of_a_number': 'V := 4294967296 ** (2147483647 ** A)',
        'as_an_exponent_of_an_exponent': 'V := 4294967296 ** (2 ** (2 ** A))', 'as_an_exponent_below_zero': 'V := 2 ** (-2 ** A)',
        'as_a_selector': 'case 2 ** A is when 0 => null; when others => null; end case', 'as_a_selector_from_its_last': 'case 2147483647 ** A is when 1 .. 5 => null; when others => null; end case',
        'as_a_selector_with_all_choices': "case 2 ** A is when Integer'First .. -1 => null; when 0 .. 2147483647 => null; end case",
        'as_a_selector_with_a_typed_choice': 'case 2 ** A + 1 is when C => null; when others => null; end case'})
    yield from powers_refused('by_itself', {
        'as_an_exponent_past_integer': ('N12', 'V := V ** (@2147483648 ** A)'), 'as_an_exponent_of_a_number_past_integer': ('N12', 'V := 2 ** (@2147483648 ** A)'),
        'as_an_exponent_after_its_base': ('N12', f'V := @{TOO_FAR} ** (2147483648 ** A)'), 'as_an_exponent_by_a_sum': ('N12', 'V := 2 ** (@4294967296 - 2 ** A)'),
        'with_a_wide_exponent': ('N12', f'V := ({TOO_FAR} ** A) ** @2147483648'), 'with_an_exponent_of_another_type': ('N10', 'V := 2 @** V'),
        'with_a_truth_value_for_an_exponent': ('N10', f'V := {TOO_FAR} @** F'), 'with_a_literal_for_an_exponent': ('N10', 'V := (2 ** A) @** H'),
        'with_a_sum_of_another_type': ('N10', 'V := 2 @** (V + 4294967296 ** A)'), 'as_an_exponent_of_a_truth_value': ('N10', 'V := F @** (2 ** A)'),
        'as_a_selector_past_integer': ('N12', 'case @2147483648 ** A is when others => null; end case'), 'as_a_selector_by_a_sum': ('N12', 'case 2 ** A + @2147483648 is when others => null; end case'),
        'as_a_selector_that_lacks_choices': ('N17', '@case 2 ** A is when 0 .. 2147483647 => null; end case'), 'as_a_selector_past_integer_that_lacks_choices': ('N12', 'case @2147483648 ** A is when 0 => null; end case'),
        'as_a_selector_with_a_wide_choice': ('N12', 'case 2 ** A is when @2147483648 => null; when others => null; end case'), 'as_a_selector_with_another_type': ('N10', 'case 2 ** A is when @D => null; when others => null; end case'),
        'as_a_condition': ('N10', 'if 2 @** A then null; end if'), 'as_a_condition_of_an_elsif': ('N10', 'if B then null; elsif @-2 ** A then null; end if'),
        'as_a_condition_of_a_while': ('N10', 'while @(2 ** A) loop null; end loop'), 'as_a_condition_of_an_exit': ('N10', 'loop exit when 1 @+ 2 ** A; end loop'),
        'as_a_condition_past_integer': ('N12', 'if @2147483648 ** A then null; end if'), 'as_a_check': ('N10', '\n--# check 2 @** A;\nnull'),
        'as_an_assertion': ('N10', '\n--# assert @abs (2 ** A);\nnull')})


def universal_powers_that_should_be_static():
    """Where a static value is needed, the power of a variable breaks N11, whatever its numbers are. What is in it takes its types as elsewhere."""
    for name, (rule, declared) in {
            'a_low_bound': ('N11', 'type Q is range 2 @** A .. 5'), 'a_high_bound': ('N11', f'type Q is range 0 .. {TOO_FAR} @** A'), 'a_bound_with_a_sign': ('N11', 'type Q is range @-2 ** A .. 5'),
            'a_bound_in_parentheses': ('N11', 'type Q is range @(2 ** A) .. 5'), 'a_low_bound_of_a_subtype': ('N11', 'subtype Q is Integer range 2147483648 @** A .. 5'),
            'a_high_bound_of_a_subtype': ('N11', f'subtype Q is Big range 0 .. {TOO_FAR} @** A'), 'a_bound_of_literals': ('N10', 'subtype Q is Hue range 2 @** A .. Blue'),
            'a_constant': ('N11', 'Q : constant Integer := 2147483648 @** A'), 'a_long_constant': ('N11', f'Q : constant Big := {TOO_FAR} @+ 2 ** A'), 'a_named_number': ('N11', f'Q : constant := {TOO_FAR} @** A'),
            'a_truth_constant': ('N10', 'Q : constant Boolean := 2 @** A'), 'a_literal_constant': ('N10', 'Q : constant Hue := 2 @** A'), 'an_initial_value': ('N11', 'Q : Integer := 2147483648 @** A'),
            'a_long_initial_value': ('N11', f'Q : Near := {TOO_FAR} @** A'), 'an_initial_literal': ('N10', 'Q : Hue := 2 @** A'), 'an_initial_truth_value': ('N10', 'Q : Boolean := @-2 ** A'),
            'an_initial_conversion': ('N11', 'Q : Big := @Big (4294967296 ** A)'), 'an_initial_comparison': ('N11', 'Q : Boolean := D @> 4294967296 ** A'),
            'an_initial_sum': ('N11', 'Q : Big := D @+ 4294967296 ** A'), 'an_initial_sum_past_64_bits': ('N12', f'Q : Big := D + @{TOO_FAR} ** A'),
            'a_constant_with_a_variable': ('N12', 'Q : constant Integer := A + @2147483648 ** A'), 'a_named_number_with_a_constant': ('N11', 'Q : constant := D @+ 4294967296 ** A'),
            'a_named_number_with_a_wide_number': ('N12', f'Q : constant := D + @{TOO_FAR} ** A'), 'a_constant_by_a_comparison': ('N12', 'Q : constant Boolean := 2 ** A > @2147483648'),
            'a_named_number_by_an_exponent': ('N12', 'Q : constant := 2 ** (@2147483648 ** A)'), 'a_named_number_by_a_wide_exponent': ('N11', f'Q : constant := {TOO_FAR} @** (2147483647 ** A)'),
            'a_constant_by_a_conversion': ('N12', 'Q : constant Integer := Integer (@2147483648 ** A)'), 'a_bound_by_a_conversion': ('N11', 'type Q is range 0 .. @Integer (2 ** A)'),
            'a_bound_by_a_sum': ('N12', f'type Q is range 0 .. V + @{TOO_FAR} ** A')}.items():
        yield refused(f'power_that_is_not_static_for_{name}.adb', powered('null', declared=declared), rule)
    for name, (rule, selector, choice) in {
            'choice': ('N11', 'X', '2147483648 @** A'), 'long_choice': ('N11', 'V', f'{TOO_FAR} @** A'), 'high_choice': ('N11', 'X', '1 .. @-2 ** A'), 'choice_of_literals': ('N10', 'H', '2 @** A'),
            'choice_for_a_number': ('N11', '5', '2 @** A'), 'choice_for_a_power': ('N11', '2 ** A', '2147483648 @** A'), 'choice_by_a_sum': ('N12', 'X', 'X + @2147483648 ** A'),
            'choice_by_a_long_sum': ('N11', 'V', 'D @+ 4294967296 ** A'), 'choice_by_a_comparison': ('N10', 'X', '@(2 ** A > 5)'),
            'choice_by_an_exponent': ('N12', 'X', '2 ** (@2147483648 ** A)')}.items():
        yield refused(f'power_that_is_not_static_for_a_{name}.adb', powered(f'case {selector} is when {choice} => null; when others => null; end case'), rule)


def universal_powers_in_annotations():
    """In an annotation the power of a number meets its types as elsewhere."""
    for name, (rule, pre) in {
            'a_precondition': ('N12', '2 ** A > @2147483648'), 'a_precondition_with_a_sum': ('N12', 'X < @2147483648 ** A + 1'), 'a_precondition_that_is_a_number': ('N10', '2 @** A'),
            'a_test_in_a_precondition': ('N12', 'A in 0 .. @2147483648 ** A'), 'an_implication_in_a_precondition': ('N12', 'A > 0 -> @2147483648 ** A > X')}.items():
        yield refused(f'power_in_{name}.adb', declaring(POWERS, 'X := A', pre=pre), rule)
    yield refused('power_in_a_postcondition.adb', ending('X = @2147483648 ** X', 'X := X'), 'N12')
    yield refused('power_of_a_value_on_entry.adb', ending('X > 2 ** X~ and 2 ** X~ > @2147483648', 'X := X'), 'N12')
    yield from powers_kept('stated', {
        'in_a_check': f'\n--# check V = {FAR} ** A;\nnull', 'in_an_assertion': f'\n--# assert {LEAST} ** A in V .. U;\nnull',
        'in_an_implication': '\n--# check 4294967296 ** A > V -> 2 ** A > X;\nnull', 'with_a_value_on_entry': '\n--# check 2 ** X~ >= X~;\nnull'})
    yield from powers_refused('stated', {
        'in_a_check_past_64_bits': ('N12', f'\n--# check V = @{TOO_FAR} ** A;\nnull'), 'in_an_assertion_past_integer': ('N12', '\n--# assert 2 ** A < @2147483648;\nnull'),
        'in_an_equivalence': ('N12', '\n--# check 4294967296 ** A > V <-> @4294967296 ** A > X;\nnull')})
    # nothing is asked of it there
    yield accepted('power_in_pre_and_post.adb', longer(A_TO_X, 'X from A', 'X := A', pre='2 ** A > 5', post='2 ** A > 5'), 2)
    yield accepted('power_in_a_check_and_an_assertion.adb', longer(A_TO_X, 'X from A', 'X := A', '--# check 2 ** A = 2 ** A', '--# assert 2 ** A = 2 ** A and X = A', '--# check X = A'), 4)
    yield accepted('static_power_beside_a_long_type.adb', longer(A_TO_X, 'X from A', 'V := 4294967296', '--# check V = 65536 ** 2 and 65536 ** K = 4294967296', 'if V > 0 then X := A; else X := 0; end if',
                                                          declared=['type Big is range 0 .. 2 ** 40; V : Big; K : constant Integer := 2']), 4)


def checks_of_universal_powers():
    """Overflow is looked at by the base range of the type that the power of a number takes."""
    declared = f'{BIG}; {LONG}; V, U : Big; W : Long; N, T : Integer; F : Boolean'

    def known(exponent, *statements, by):
        return deciding(declared, f'N := {exponent}', *statements, by=by)

    for name, exponent, statement, by, total in (
            ('within_its_type', 40, 'V := 2 ** N', 'V > 0', 6), ('past_its_type', 41, 'V := 2 <4r>** N', 'V > 0', 6), ('below_its_type', 41, 'V := (-2) <4r>** N', 'V > 0', 6),
            ('past_64_bits', 63, 'V := 2 <3o>** N', 'V > 0', 6), ('within_64_bits', 62, 'W := 2 ** N', 'W > 0', 6), ('past_all_of_64_bits', 63, 'W := 2 <3o>** N', 'W > 0', 6),
            ('at_the_first_of_64_bits', 63, 'W := (-2) ** N', 'W < 0', 6), ('minus_the_first_of_64_bits', 63, 'W := <4o>-((-2) ** N)', 'W < 0', 7), ('abs_of_the_first_of_64_bits', 63, 'W := <4o>abs ((-2) ** N)', 'W < 0', 7),
            ('one_less_than_the_first', 63, 'W := (-2) ** N <4o>- 1', 'W < 0', 7), ('quotient_of_the_first', 63, 'W := (-2) ** N <5o>/ (-1)', 'W < 0', 8),
            ('within_integer', 30, 'T := 2 ** N', 'T > 0', 6), ('past_integer', 31, 'T := 2 <3o>** N', 'T > 0', 6), ('sum_past_integer', 30, 'T := 2 ** N <6o>+ 2 ** N', 'T > 0', 9),
            ('sum_within_64_bits', 40, 'W := 2 ** N + 2 ** N', 'W > 0', 9), ('product_within_64_bits', 30, 'W := 4294967296 * 2 ** N', 'W > 0', 7), ('product_past_64_bits', 31, 'W := 4294967296 <4o>* 2 ** N', 'W > 0', 7),
            ('exponent_below_zero', -1, 'V := 2 ** <2r>N', 'V > 0', 6), ('zero_to_a_great_power', 2147483647, 'V := 0 ** N', 'V = 0', 6),
            ('power_of_a_power', 6, 'W := (2 ** N) <5o>** 11', 'W > 0', 8), ('power_of_a_power_within', 6, 'W := (2 ** N) ** 10', 'W > 0', 8),
            ('power_in_an_exponent', 5, 'W := 2 ** (2 ** N)', 'W > 0', 8), ('power_in_an_exponent_past_64_bits', 6, 'W := 2 <5o>** (2 ** N)', 'W > 0', 8),
            ('exponent_past_integer', 31, 'W := 1 ** (2 <3o>** N)', 'W > 0', 8),
            ('conversion', 40, 'V := Big (2 ** N)', 'V > 0', 7), ('conversion_past_its_type', 41, 'V := Big (2 <4r>** N)', 'V > 0', 7), ('conversion_past_64_bits', 63, 'V := Big (2 <3o>** N)', 'V > 0', 7),
            ('conversion_past_integer', 31, 'T := Integer (2 <3o>** N)', 'T > 0', 7), ('qualification_past_its_type', 41, "V := Big'(2 <4r>** N)", 'V > 0', 7)):
        yield left_at(f'universal_power_{name}.adb', known(exponent, statement, by=by), total)
    for name, exponent, by, total in (
            ('compared', 62, '2 ** N > U', 6), ('compared_from_the_right', 62, 'U < 2 ** N', 6), ('compared_past_64_bits', 63, '2 <4o>** N > U', 6), ('compared_with_a_number', 30, '2 ** N > 5 and U > 5', 6),
            ('compared_with_a_number_past_integer', 31, '2 <4o>** N > 5 and U > 5', 6), ('compared_with_a_power', 31, '1 ** N = 2 <6o>** N and U > 5', 8), ('tested_in_a_long_type', 62, '2 ** N in Big and U > 5', 6),
            ('tested_in_integer', 31, '2 <4o>** N in Integer and U > 5', 6), ('tested_in_a_long_range', 62, '2 ** N in U .. 5', 6), ('tested_among_numbers', 31, '2 <4o>** N in 0 .. 5 and U > 5', 6),
            ('for_a_low_bound', 62, 'U in 2 ** N .. 5', 6), ('for_a_high_bound', 63, 'U in 0 .. 2 <4o>** N', 6), ('beside_a_long_type', 61, 'U + 2 ** N > 5', 7),
            ('beside_a_long_type_past_64_bits', 63, 'U + 2 <4o>** N > 5', 7), ('beside_an_integer', 31, '2 <4o>** N + N > 5 and U > 5', 7)):
        yield left_at(f'universal_power_{name}.adb', known(exponent, 'U := 7', by=by), total)
    guarded = longer('A : in Integer; X : out Boolean', 'X from A', 'V := 7', 'X := A in 0 .. 39 and then 2 <3o>** A > V', declared=['type Big is range 0 .. 2 ** 40; V : Big'])
    yield left_at('universal_power_guarded.adb', guarded, 3)


def conditions_of_enumerations():
    """What is assigned to a variable of an enumeration type lies in its range, by the positions of the literals."""
    declared, params, relation = f'{WARM}; V : Hue; S : Warm', 'B : in Boolean; X : out Integer', 'X from B'
    for name, statement, by, total in (
            ('subtype_at_its_last', 'V := Yellow; S := V', 'S = V', 4), ('subtype_past_its_last', 'V := Green; S := <2r>V', 'S = V', 4),
            ('literal_past_its_subtype', 'S := <1r>Green', 'S = Red', 3),
            ('attribute_past_its_subtype', "S := <1r>Hue'Last", 'S = Red', 3), ('type_of_a_subtype', 'S := Yellow; V := S', 'V = S', 4)):
        yield left_at(f'{name}_of_literals.adb', deciding(declared, statement, by=by), total)
    chosen = 'if B then V := Red; else V := Green; end if'
    yield left_at('subtype_on_one_of_two_paths_of_literals.adb',
                  deciding(declared, chosen, 'S := <6r>V', by='S = Red', params=params, derives=relation), 8)
    for name, condition, is_left in (
            ('subtype', 'V in Warm', False), ('range', "V in Red .. Warm'Last", False), ('order', 'V <= Yellow', False),
            ('inequality', 'V /= Green', False), ('wider_order', 'V <= Green', True), ('no_subtype', 'V not in Warm', True)):
        statement = f'if {condition} then S := {"<9r>" if is_left else ""}V; else S := Red; end if'
        yield left_at(f'guard_by_{name}_of_literals.adb',
                      deciding(declared, chosen, statement, by='S = Red', params=params, derives=relation), 14)


def flow_of_types():
    """Variables of declared types have flows as others do; constants and literals have none."""
    declared = f'{SMALL}; {HUE}; Top : constant Small := 5; V, W : Small; Shade : Hue'

    def body(*statements, derives='X from A'):
        return longer(A_TO_X, derives, *statements, declared=[declared])

    by_top = 'if V > Top then X := A; else X := 0; end if'
    for name, statements in {
            'literal': ('@Shade := Red', 'X := A'), 'constant': ('@V := Top', 'X := A'),
            'number_through_a_local': ('@V := 5', '@W := V', 'X := A'),
            'condition_of_constants': ('X := A', '@if Top > 3 then null; end if'),
            'literal_in_an_arm': ('@if A > 0 then @Shade := Red; end if', 'X := A')}.items():
        yield refused(f'lost_{name}_of_a_type.adb', body(*statements), *['F3'] * sum(statement.count('@') for statement in statements))
    for name, (variable, *statements) in {
            'condition': ('V', 'if @V > Top then X := A; else X := 0; end if'),
            'test': ('V', 'if @V in Small then X := A; else X := 0; end if'),
            'literals': ('Shade', 'if @shade = Red then X := A; else X := 0; end if'),
            'one_way': ('V', 'if A > 0 then V := 5; end if', 'if @V > Top then X := A; else X := 0; end if')}.items():
        yield refused(f'unset_{name}_of_a_type.adb', body(*statements), f'F4 unset: {variable}')
    yield accepted('set_on_each_way_of_a_type.adb', body('if A > 0 then V := 5; else V := 6; end if', by_top), 6)
    yield accepted('constant_that_is_read_first.adb', body('if Top > 3 then X := A; else X := 0; end if'), 2)
    chosen, decided = 'if A > 0 then Shade := Red; else Shade := Blue; end if', 'if Shade = Red then X := 1; else X := 2; end if'
    yield accepted('flow_through_literals.adb', body(chosen, decided), 6)
    yield refused('missing_flow_through_literals.adb', body(chosen, decided, derives='@X from & null from A'), 'F1 missing: X from A')
    yield refused('unused_flow_by_a_constant.adb',
                  body('if Top > 3 then X := 1; else X := 2; end if', derives='@X from A'), 'F2 unused: X from A')
    yield refused('unused_flow_by_a_literal.adb', body('Shade := Red', decided, derives='@X from A'), 'F2 unused: X from A')
    numbers = f'{", ".join(f"L{n}" for n in range(1, 4097))} : Integer'
    yield accepted('types_and_constants_beside_4096_variables.adb',
                   longer(None, None, 'null', declared=[WARM, SMALL, 'C, D : constant := 1', numbers]), 0)
    yield too_many_variables('types_beside_4097_variables.adb', longer(None, None, 'null', declared=[SMALL, numbers, 'V : Small']))


def levels_of_declarations():
    """Bounds and values of constants open levels as other expressions do, each from its own beginning."""
    for name, declared in {
            'low_bound_of_a_type': 'type T is range {} .. 5', 'high_bound_of_a_type': 'type T is range 1 .. {}',
            'low_bound_of_a_subtype': 'subtype S is Integer range {} .. 5',
            'high_bound_of_a_subtype': 'subtype S is Integer range 1 .. {}', 'constant': 'C : constant Integer := {}',
            'named_number': 'C : constant := {}'}.items():
        yield declared_well(f'{name}_of_200_levels.adb', declared.format(nested(200)))
        yield too_nested(f'{name}_of_201_levels.adb', declaring(declared.format(nested(201))))
    yield declared_well('sum_of_200_levels_for_a_bound.adb', 'type T is range 0 .. 1' + ' + 1' * 200)
    yield too_nested('sum_of_201_levels_for_a_bound.adb', declaring('type T is range 0 .. 1' + ' + 1' * 201))
    yield declared_well('relation_of_200_levels_for_a_constant.adb', f'C : constant Boolean := {nested(199)} = 1')
    yield too_nested('relation_of_201_levels_for_a_constant.adb', declaring(f'C : constant Boolean := {nested(200)} = 1'))
    # no relation goes on in a bound, whatever its levels
    yield unexpected('relation_after_200_levels_in_a_bound.adb', declaring(f'type T is range {nested(200)} @= 1 .. 5'))
    yield unexpected('parentheses_for_literals.adb', declaring('type T is (@' + '(' * 201 + 'Red'))
    yield too_nested('levels_in_a_bound_before_another_slip.adb', declaring(f'type T is range {nested(201)} 5 .. 6'))


def syntax_of_declarations():
    """Tokens with which no declaration goes on."""
    for name, declared in {
            'type_of_a_name': 'type T is @Integer', 'type_of_a_box': 'type T is range @<>', 'type_of_a_type': 'type T is range Natural@',
            'type_of_a_relation': 'type T is range 1 @< 2 .. 3', 'type_of_a_conjunction': 'type T is range True @and True .. 3',
            'literals_that_are_missing': 'type T is (@)', 'literals_with_a_bar': 'type T is (Red @| Green)',
            'literals_of_an_attribute': "type T is (Red@'First)", 'literals_with_a_value': 'type T is (Red @=> 1)',
            'subtype_with_a_value': 'subtype S is Integer @:= 1', 'subtype_with_a_named_range': 'subtype S is Integer range Natural@',
            'constant_without_value': 'C : constant Integer@', 'constant_with_a_range': 'C : constant Integer @range 1 .. 5 := 1',
            'constant_without_its_word': 'C @:= 5', 'constant_word_first': '@constant C : Integer := 5',
            'constant_of_a_range': 'C : constant Integer := 1 @.. 5', 'variable_with_a_range': 'V : Integer @range 1 .. 5',
            'marked_type': '--# @type T is range 1 .. 5', 'marked_range': 'type T is --# @range\n1 .. 5',
            'marked_literal': 'type T is ( --# @Red\n)', 'marked_constant': 'C : --# @constant\nInteger := 1'}.items():
        yield unexpected(f'{name}.adb', declaring(declared))
    yield unexpected('type_after_begin.adb', COPY.replace('   X', '   @type T is range 1 .. 5;\n   X'))
    yield unexpected('subtype_after_a_statement.adb', COPY.replace('end', '   @subtype S is Integer;\nend'))
    yield unexpected('constant_after_begin.adb', COPY.replace('   X', '   C @: constant := 1;\n   X'))
    yield unexpected('type_before_is.adb', COPY.replace('is\n', '@type T is range 1 .. 5;\nis\n'))
    yield unexpected('type_at_the_end_of_the_text.adb', COPY.split('begin')[0] + '   type T is range 1 ..\n@')
    yield refused('not_in_a_bound.adb', declaring('type T is range @not True .. 5'), 'N10')
    yield refused('not_of_a_number_in_a_bound.adb', declaring('type T is range @not 1 .. 5'), 'N10')
    yield declared_well('declarations_on_several_lines.adb',
                        'type T\nis -- a type\n range 1\n..\n5;\ntype U is (Red,\n\tGreen\n);\nsubtype S is\nT\nrange 2 .. 3;\n'
                        'C,\nD : constant\n:= 1')
    yield declared_well('declarations_in_other_cases.adb',
                        "TYPE t IS RANGE 1 .. 5; SubType S Is T Range T'First .. 3; c : CONSTANT s := 2; V : T")


def syntax_of_arrays():
    """Tokens with which no array type goes on: it has one index, which is a name, and is declared by a name of its own."""
    for name, declared in {
            'array_of_two_indexes': 'type T is array (Boolean@, Boolean) of Integer', 'array_of_bounds': 'type T is array (@1 .. 5) of Integer',
            'array_of_bounds_by_names': 'type T is array (A @.. A) of Integer', 'array_of_a_range': 'type T is array (Integer @range 1 .. 5) of Integer',
            'array_of_a_box': 'type T is array (Integer @range <>) of Integer', 'array_of_a_range_of_a_type': "type T is array (Boolean'@Range) of Integer",
            'array_of_an_index_in_parentheses': 'type T is array (@(Boolean)) of Integer',
            'array_of_an_array': 'type T is array (Boolean) of @array (Boolean) of Integer',
            'array_of_a_record': 'type T is array (Boolean) of @record P : Integer; end record',
            'array_of_a_range_of_elements': 'type T is array (Boolean) of Integer @range 1 .. 5',
            'array_of_aliased_elements': 'type T is array (Boolean) of @aliased Integer', 'array_of_a_number': 'type T is array (Boolean) of @5',
            'array_of_elements_in_parentheses': 'type T is array (Boolean) of @(Integer)',
            'array_with_a_value': 'type T is array (Boolean) of Integer @:= 1', 'array_word_first': '@array T (Boolean) of Integer',
            'variable_of_an_array': 'V : @array (Boolean) of Integer', 'constant_of_an_array': 'C : constant @array (Boolean) of Integer := 1',
            'subtype_of_a_written_array': 'subtype S is @array (Boolean) of Integer',
            'variable_with_an_index': 'V : Integer (1 @.. 5)', 'subtype_with_an_index': 'subtype S is Integer (1 @.. 5)',
            'marked_array': 'type T is --# @array\n(Boolean) of Integer', 'marked_index': 'type T is array ( --# @Boolean\n) of Integer',
            'marked_of': 'type T is array (Boolean) --# @of\nInteger', 'marked_element': 'type T is array (Boolean) of --# @Integer\n'}.items():
        yield unexpected(f'{name}.adb', declaring(declared))
    yield unexpected('formal_of_an_array.adb', declaring('V : Integer', params='A : in @array (Boolean) of Integer; X : in out Integer'))
    yield unexpected('parentheses_for_an_index.adb', declaring('type T is array (@' + '(' * 201 + 'Red'))
    yield unexpected('array_at_the_end_of_the_text.adb', COPY.split('begin')[0] + '   type T is array (Boolean) of\n@')


def syntax_of_records():
    """Tokens with which no record type goes on: it has one field or more, each of a type by its name and without a value."""
    for name, declared in {
            'record_without_fields': 'type T is record @end record', 'record_of_null': 'type T is record @null; end record',
            'null_record': 'type T is @null record', 'record_of_a_semicolon': 'type T is record @; P : Integer; end record',
            'record_of_a_type': 'type T is record @type U is range 1 .. 5; end record',
            'record_of_fields_in_parentheses': 'type T is record @(P : Integer); end record',
            'field_with_a_value': 'type T is record P : Integer @:= 1; end record', 'field_with_a_range': 'type T is record P : Integer @range 1 .. 5; end record',
            'field_with_an_index': 'type T is record P : Integer (1 @.. 5); end record', 'field_with_a_mode': 'type T is record P : @in Integer; end record',
            'aliased_field': 'type T is record P : @aliased Integer; end record',
            'field_of_an_array': 'type T is record P : @array (Boolean) of Integer; end record',
            'field_of_a_record': 'type T is record P : @record Q : Integer; end record; end record',
            'field_of_an_attribute': "type T is record P@'First : Integer; end record", 'fields_with_a_bar': 'type T is record P @| Q : Integer; end record',
            'variant_of_a_record': 'type T is record P : Boolean; @case P is when True => Q : Integer; end case; end record',
            'discriminant_of_a_record': 'type T @(P : Boolean) is record Q : Integer; end record',
            'limited_record': 'type T is @limited record P : Integer; end record', 'record_with_an_end_name': 'type T is record P : Integer; end record @T',
            'record_with_a_value': 'type T is record P : Integer; end record @:= 1', 'record_word_first': '@record T is P : Integer; end record',
            'variable_of_a_record': 'V : @record P : Integer; end record', 'constant_of_a_record': 'C : constant @record P : Integer; end record := 1',
            'subtype_of_a_written_record': 'subtype S is @record P : Integer; end record',
            'marked_record': 'type T is --# @record\nP : Integer; end record', 'marked_field': 'type T is record --# @P\n: Integer; end record',
            'marked_later_field': 'type T is record P : Integer; --# @Q : Boolean;\nend record',
            'marked_end_of_a_record': 'type T is record P : Integer; --# @end\nrecord'}.items():
        yield unexpected(f'{name}.adb', declaring(declared))
    yield unexpected('record_without_its_end.adb', declaring('type T is record P : Integer').replace('begin', '@begin'))
    yield unexpected('formal_of_a_record.adb', declaring('V : Integer', params='A : in @record P : Integer; end record; X : in out Integer'))
    yield unexpected('record_at_the_end_of_the_text.adb', COPY.split('begin')[0] + '   type T is record P : Integer;\n@')


# A text with declarations of all forms that keeps every rule, with its parts, as in `KEPT`.
KEPT_TYPES = '''procedure Mix (A : in {formal}; B : in Boolean; X : out Integer)
--# {derives} X from A, B{item};
--# pre {pre};
is
   type {type} is range {low} .. {high};
   type Hue is (Red, {literal});
   subtype {subtype} is {parent} range {first} .. {last};
   {constants} : constant {mark} := {value};
   {numbers} : constant := {number};
   V : {local};
begin
   {target} := {right};
   if B and V < Top then X := A{sum}; else X := Two; end if;
{lost}end {end};
'''
TYPE_PARTS = {'formal': 'Integer', 'derives': 'derives', 'item': '', 'pre': 'A < 9', 'type': 'Small', 'low': '0', 'high': '10',
              'literal': 'Green', 'subtype': 'Low', 'parent': 'Small', 'first': '1', 'last': '5', 'constants': 'Top', 'mark': 'Small',
              'value': '9', 'numbers': 'Two', 'number': '2', 'local': 'Low', 'target': 'V', 'right': '3', 'sum': '', 'lost': '',
              'end': 'Mix'}
# As in `SLIPS`, in the order in which the rules are looked at.
TYPE_SLIPS = {
    'no_type_of_a_formal': ('N1', {'formal': '@Count'}), 'a_sum_in_pre': ('N10', {'pre': 'A @+ 1'}),
    'a_formal_for_a_type': ('N2', {'type': '@A'}), 'a_truth_value_for_a_bound': ('N10', {'low': '@True'}),
    'a_variable_for_a_bound': ('N11', {'low': '@A'}), 'no_name_for_a_bound': ('N1', {'high': '@Y'}),
    'bounds_that_are_none': ('N13', {'low': '@11'}), 'a_literal_twice': ('N2', {'literal': '@Red'}),
    'a_type_for_a_subtype': ('N2', {'subtype': '@Hue'}), 'a_variable_for_a_parent': ('N3', {'parent': '@A'}),
    'boolean_for_a_parent': ('N10', {'parent': '@Boolean'}),
    'an_integer_for_a_bound': ('N10', {'first': "@Integer'First"}), 'a_wide_bound': ('N12', {'last': '@2147483648'}),
    'bounds_past_the_parent': ('N13', {'first': '@6'}),
    'a_constant_twice': ('N2', {'constants': 'Top, @Low'}), 'a_literal_for_a_type_mark': ('N3', {'mark': '@Red'}),
    'a_literal_for_a_constant': ('N10', {'value': '@Red'}),
    'a_variable_for_a_constant': ('N11', {'mark': 'Integer', 'value': '@A'}), 'a_constant_past_its_type': ('N12', {'value': '@11'}),
    'a_number_of_itself': ('N1', {'number': '@Two'}),
    'a_truth_value_for_a_number': ('N10', {'number': '@True'}), 'a_variable_for_a_number': ('N11', {'number': '@A'}),
    'no_type_of_a_local': ('N1', {'local': '@Medium'}), 'a_literal_for_a_target': ('N3', {'target': '@Green'}),
    'an_integer_for_a_value': ('N10', {'right': "@Integer'Last"}), 'a_wide_number_for_a_value': ('N12', {'right': '@2147483648'}),
    'a_sum_of_two_types': ('N10', {'sum': ' @+ Top'}), 'an_end_name_of_a_type': ('N5', {'end': '@Hue'}),
    'an_import_twice_beside_types': ('U7', {'derives': '@derives', 'item': ' & null from A, A'}),
    'a_constant_for_a_target': ('U2', {'target': '@Top'}), 'a_lost_number': ('F3', {'lost': '   @V := 4;\n'}),
    'an_unproved_difference': (None, {'sum': ' @- 1'})}


def types_with(slip, later=None):
    """The text with one slip or two; the `@` is that of the first."""
    parts = TYPE_PARTS | {part: text.replace('@', '') for part, text in (later or {}).items()} | slip
    return KEPT_TYPES.format(**parts)


def breaches_of_declarations():
    """Each rule of declarations is broken, with the next slip that can be beside it, and at times with a later one."""
    yield accepted('no_slip_of_types.adb', KEPT_TYPES.format(**TYPE_PARTS), 3, named='Mix')
    yield examined('unproved_difference_of_types.adb', types_with(TYPE_SLIPS['an_unproved_difference'][1]), ('Mix', 4, 2))
    slips = tuple(TYPE_SLIPS.items())
    for at, (name, (rule, slip)) in enumerate(slips[:-1]):
        beside = [(other, parts) for other, (_, parts) in slips[at + 1:] if not slip.keys() & parts.keys()]
        for other, parts in beside[:1] + (beside[4:5] if at % 2 else []):
            yield refused(f'{name}_before_{other}.adb', types_with(slip, parts), rule)


# ---------------------------------------------------------------- array and record types

LIST = 'type List is array (Small) of Integer'
PAIR = 'type Pair is record Left, Right : Integer; end record'
PARTED = (f'{SMALL}; {LIST}; {PAIR}; type Other is array (Small) of Integer; type Like is record Left, Right : Integer; end record; '
          'subtype Same is Pair; L, K : List; P, Q : Pair; S : Same; O : Other; R : Like')


def parted(*statements):
    """The text of a procedure with variables of array and record types, and these statements first."""
    return declaring(PARTED, *statements, 'if B then X := A; end if')


def array_types():
    """`type T is array (I) of E`: T comes first, then I, and then E. T is hidden in both."""
    for name, declared in {
            'a_type': f'{SMALL}; {LIST}; V, W : List', 'integer': 'type T is array (Integer) of Boolean', 'positive': 'type T is array (Positive) of Natural; V : T',
            'literals': f'{HUE}; type T is array (Hue) of Hue', 'a_subtype_of_literals': f'{WARM}; type T is array (Warm) of Integer',
            'a_type_and_arrays': f'{SMALL}; {LIST}; type T is array (Small) of List', 'a_type_and_records': f'{PAIR}; type T is array (Natural) of Pair; V : T',
            'a_type_and_truth_values': 'subtype Flag is Boolean; type T is array (Integer) of Flag', 'a_type_of_other_case': 'TYPE t IS ARRAY (natural) OF INTEGER; V : T'}.items():
        yield declared_well(f'array_by_{name}.adb', declared)
    for name, (rule, declared) in {
            'boolean': ('N10', 'type T is array (@Boolean) of Integer'), 'a_boolean_subtype': ('N10', 'subtype S is Boolean; type T is array (@S) of Integer'),
            'an_array': ('N10', f'{SMALL}; {LIST}; type T is array (@List) of Integer'), 'a_record': ('N10', f'{PAIR}; type T is array (@Pair) of Integer'),
            'a_subtype_of_a_record': ('N10', f'{PAIR}; subtype S is Pair; type T is array (@S) of Integer'),
            'a_variable': ('N3', 'type T is array (@A) of Integer'), 'a_literal': ('N3', f'{HUE}; type T is array (@Red) of Integer'),
            'the_procedure': ('N3', 'type T is array (@Inc) of Integer'), 'an_attribute': ('N3', "type T is array (@Integer'Last) of Integer"),
            'no_name': ('N1', 'type T is array (@Y) of Integer'), 'itself': ('N1', 'type T is array (@T) of Integer'),
            'a_later_type': ('N1', 'type T is array (@U) of Integer; type U is range 1 .. 5')}.items():
        yield refused(f'array_by_{name}.adb', declaring(declared), rule)
    for name, (rule, declared) in {
            'a_variable': ('N3', 'type T is array (Integer) of @A'), 'a_constant': ('N3', 'C : constant := 5; type T is array (Integer) of @C'),
            'an_attribute': ('N3', "type T is array (Integer) of @Integer'First"), 'no_name': ('N1', 'type T is array (Integer) of @Y'),
            'itself': ('N1', 'type T is array (Integer) of @T'), 'the_hidden_procedure': ('N1', 'type Inc is array (Integer) of @Inc'),
            # the name comes first, then the index
            'no_name_by_boolean': ('N10', 'type T is array (@Boolean) of Y'), 'no_name_by_no_name': ('N1', 'type T is array (@Y) of Z'),
            'no_name_for_a_formal': ('N2', 'type @A is array (Boolean) of Y'), 'integer_for_integer': ('N2', 'type @Integer is array (Natural) of Boolean'),
            'integer_for_a_type': ('N2', f'{SMALL}; type @Small is array (Natural) of Integer')}.items():
        yield refused(f'array_of_{name}.adb', declaring(declared), rule)


def record_types():
    """`type T is record P, Q : E; end record`: T comes first, then the fields in order, of each its names and then its type.

    Fields are in a scope of their own, inside that of the procedure. T is hidden there, and P and Q are hidden in E.
    """
    for name, declared in {
            'one_field': 'type R is record P : Integer; end record', 'several_fields': 'type R is record P, Q : Integer; F : Boolean; N : Natural; end record; V, W : R',
            'a_record': f'{PAIR}; type R is record P : Pair; end record', 'an_array': f'{SMALL}; {LIST}; type R is record P, Q : List; end record',
            'a_field_named_as_itself': 'type R is record R : Integer; end record; V : R', 'a_field_named_as_the_procedure': 'type R is record Inc : Integer; end record',
            'a_field_named_as_a_formal': 'type R is record A : Integer; end record', 'a_field_named_as_a_local': 'V : Integer; type R is record V : Boolean; end record; W : R',
            'a_field_named_as_a_type': f'{SMALL}; type R is record Small : Integer; end record; V : Small', 'a_field_named_as_a_literal': f'{HUE}; type R is record Red : Hue; end record',
            'fields_named_as_those_of_another': f'{PAIR}; type R is record Left : Boolean; Right : Pair; end record',
            'a_field_named_as_a_later_local': 'type R is record P : Integer; end record; P : R', 'a_field_named_as_a_later_type': 'type R is record T : Integer; end record; type T is range 1 .. 5; V : T',
            'fields_in_other_cases': 'TYPE r IS RECORD p : INTEGER; END RECORD; V : R', 'fields_on_several_lines': 'type R is record -- fields\nP,\nQ\n: Integer\n;\nend\nrecord'}.items():
        yield declared_well(f'record_of_{name}.adb', declared)
    for name, (rule, fields) in {
            'a_field_twice': ('N2', 'P, @P : Integer;'), 'a_field_twice_in_other_cases': ('N2', 'P, @p : Integer;'), 'a_field_again': ('N2', 'P : Integer; Q, @P : Boolean;'),
            'a_field_again_of_one_type': ('N2', 'P : Integer; @P : Integer;'), 'a_field_in_another_case': ('N2', 'P : Integer; @boolean : Integer;'),
            **{f'a_field_{word.lower()}': ('N2', f'P : Integer; @{word} : Integer;') for word in ('Integer', 'Natural', 'Positive', 'Boolean', 'True', 'False')},
            'itself': ('N1', 'P : @R;'), 'its_own_field': ('N1', 'P : @P;'), 'its_other_field': ('N1', 'P, Q : @P;'), 'its_hidden_name_as_a_field': ('N1', 'R : @R;'),
            'no_name': ('N1', 'P : @Y;'), 'no_name_after_a_field': ('N1', 'P : Integer; Q : @Y;'), 'a_later_field': ('N1', 'P : @Q; Q : Integer;'), 'a_later_type': ('N1', 'P : @T;'),
            'an_earlier_field': ('N3', 'P : Integer; Q : @P;'), 'an_earlier_field_of_its_name': ('N3', 'R : Integer; Q : @R;'), 'a_variable': ('N3', 'P : @A;'),
            'the_procedure': ('N3', 'P : @Inc;'), 'a_truth_value': ('N3', 'P : @True;'), 'an_attribute': ('N3', "P : @Integer'First;"),
            # the names of fields come before their type, and all of them before the next fields
            'a_field_twice_and_no_name': ('N2', 'P, @P : Y;'), 'no_name_and_a_field_twice': ('N1', 'P : @Y; P : Integer;')}.items():
        yield refused(f'record_of_{name}.adb', declaring(f'type R is record {fields} end record; type T is range 1 .. 5'), rule)
    for name, (rule, declared) in {
            'a_hidden_type': ('N3', f'{SMALL}; type R is record Small : Integer; P : @Small; end record'),
            'a_hidden_type_in_its_own_field': ('N1', f'{SMALL}; type R is record Small : @Small; end record'),
            'a_local_for_a_type': ('N3', 'V : Integer; type R is record P : @V; end record'), 'a_field_of_another': ('N1', f'{PAIR}; type R is record P : @Left; end record'),
            'a_formal': ('N2', 'type @A is record P : Y; end record'), 'boolean': ('N2', 'type @Boolean is record P : Integer; end record'),
            'another': ('N2', f'{PAIR}; type @Pair is record P : Integer; end record'), 'a_field_for_a_local': ('N1', f'{PAIR}; V : @Left')}.items():
        yield refused(f'record_for_{name}.adb', declaring(declared), rule)
    yield refused('field_for_a_value.adb', parted('X := @Left'), 'N1')
    yield refused('field_for_a_target.adb', parted('@Left := X'), 'N1')


def uses_of_composites():
    """Where a composite type or value may be: in declarations, `=` and `/=`, assignments and qualifications. In no other place."""
    for name, declared in {
            'an_array': f'{SMALL}; {LIST}; subtype S is List; V : S', 'a_record': f'{PAIR}; subtype S is Pair; V, W : S',
            'a_subtype_of_a_record': f'{PAIR}; subtype S is Pair; subtype T is S; V : T'}.items():
        yield declared_well(f'subtype_of_{name}.adb', declared)
    for name, (rule, declared) in {
            'range_of_an_array': ('N10', f'{SMALL}; {LIST}; subtype S is @List range 1 .. 5'), 'range_of_a_record': ('N10', f'{PAIR}; subtype S is @Pair range 1 .. Y'),
            'constant': ('N11', f'{PAIR}; P : Pair; C : constant Pair := @P'), 'constant_of_a_subtype': ('N11', f'{PAIR}; subtype S is Pair; P : Pair; C : constant S := @P'),
            'constant_of_a_number': ('N10', f'{PAIR}; C : constant Pair := @1'), 'constant_of_an_array': ('N10', f'{SMALL}; {LIST}; L : List; {PAIR}; C : constant Pair := @L'),
            'constant_of_itself': ('N1', f'{PAIR}; C : constant Pair := @C'), 'named_number': ('N10', f'{PAIR}; P : Pair; C : constant := @P'),
            'integer_constant': ('N10', f'{PAIR}; P : Pair; C : constant Integer := @P'), 'initial_value': ('N11', f'{PAIR}; P : Pair; Q : Pair := @P'),
            'initial_value_in_parentheses': ('N11', f'{PAIR}; P : Pair; Q : Pair := @(P)'), 'initial_value_of_a_number': ('N10', f'{PAIR}; P : Pair := @5'),
            'initial_value_of_a_literal': ('N10', f'{PAIR}; P : Pair := @True'), 'initial_number': ('N10', f'{PAIR}; P : Pair; V : Integer := @P'),
            'bound_of_a_type': ('N10', f'{PAIR}; P : Pair; type T is range 1 .. @P'), 'bound_of_a_subtype': ('N10', f'{PAIR}; P : Pair; subtype S is Integer range @P .. 5')}.items():
        yield refused(f'composite_{name}.adb', declaring(declared), rule)
    for operator in ('<', '<=', '>', '>=', '+', '-', '*', '/', 'mod', 'rem', '**', 'and', 'or', 'xor', 'and then', 'or else'):
        named = operator.replace(' ', '_').translate(str.maketrans({'<': 'L', '>': 'G', '=': 'E', '+': 'plus', '-': 'minus', '*': 'times', '/': 'by'}))
        yield refused(f'composites_and_{named}.adb', parted(f'if P @{operator} Q then X := 0; end if'), 'N10')
    for name, condition in {
            'equality_of_two_types': 'P @= L', 'inequality_of_two_types': 'P @/= L', 'equality_of_like_arrays': 'L @= O', 'equality_of_like_records': 'P @= R',
            'equality_with_a_number': 'P @= 1', 'equality_of_a_number': '1 @/= P', 'equality_with_an_integer': 'P @= A', 'equality_with_a_truth_value': 'B @= P',
            'not': '@not P', 'minus': '@-P = Q', 'plus': '@+P = Q', 'abs': '@abs P = Q', 'test_in_its_type': 'P in @Pair', 'test_not_in_its_type': 'L not in @List',
            'test_in_its_subtype': 'P in @Same', 'test_of_a_number': 'A in @Pair', 'test_in_numbers': 'P @in Small', 'test_not_in_a_range': 'P @not in Q .. Q', 'test_in_a_range': 'A @in P .. Q',
            'condition': '@P', 'conversion_to_a_record': '@Pair (P) = Q', 'conversion_to_an_array': '@List (K) = L', 'conversion_of_a_record': 'Small (@P) = 1',
            'qualification_of_an_array': "Pair'(@L) = P", 'qualification_of_a_like_record': "Pair'(@R) = P", 'qualification_of_a_number': "Pair'(@1) = P",
            'qualification_for_integer': "Integer'(@P) = 1"}.items():
        yield refused(f'composite_{name}.adb', parted(f'if {condition} then X := 0; end if'), 'N10')
    for name, statement in {
            'of_a_record_to_an_array': 'L := @P', 'of_a_like_array': 'L := @O', 'of_a_like_record': 'P := @R', 'of_a_number': 'P := @1', 'of_a_truth_value': 'P := @True',
            'of_an_integer': 'P := @A', 'of_a_comparison': 'P := @(P = Q)', 'to_an_integer': 'X := @P'}.items():
        yield refused(f'composite_assignment_{name}.adb', parted(statement), 'N10')
    for name, (rule, statement) in {
            'first': ('N3', "X := @Pair'First"), 'last': ('N10', "X := @List'Last"), 'pos': ('N3', "X := @Pair'Pos (P)"), 'succ': ('N3', "P := @Same'Succ (P)"),
            'selector': ('N10', 'case @P is when others => null; end case'), 'selector_in_parentheses': ('N10', 'case @(L) is when 1 => null; when others => null; end case'),
            'choice': ('N10', 'case X is when @P => null; when others => null; end case'), 'loop': ('N10', 'for I in @Pair loop null; end loop'),
            'loop_over_a_range': ('N10', 'for I in @List range 1 .. 5 loop null; end loop'), 'bound_of_a_loop': ('N10', 'for I in Integer range 1 .. @P loop null; end loop'),
            'exit': ('N10', 'loop exit when @P; end loop'), 'while': ('N10', 'while @L loop null; end loop'), 'check': ('N10', '--# check @P'), 'implication': ('N10', '--# check P @-> Q'),
            'equivalence': ('N10', '--# check P @<-> Q'), 'value_on_entry': ('N18', '--# check @P~ = P'), 'type_for_a_value': ('N3', 'P := @Pair'), 'target': ('N3', '@Pair := P')}.items():
        yield refused(f'composite_{name}.adb', parted(statement), rule)


def flow_of_composites():
    """A whole value is read and assigned as others are. Nothing gives one to a variable before it is read."""
    for name, text, *findings in (
            ('assignment', parted('@P := @Q'), 'F3', 'F4 unset: Q'), ('assignment_of_itself', parted('@L := @L'), 'F3', 'F4 unset: L'),
            ('assignment_to_a_subtype', parted('@S := @P'), 'F3', 'F4 unset: P'), ('assignment_of_a_subtype', parted('@P := (@S)'), 'F3', 'F4 unset: S'),
            ('qualification', parted("@P := Pair'(@Q)"), 'F3', 'F4 unset: Q'), ('equality', parted('if @P = @Q then X := 0; end if'), 'F4 unset: P', 'F4 unset: Q'),
            ('inequality_of_arrays', parted('if @L /= @K then X := 0; end if'), 'F4 unset: L', 'F4 unset: K'),
            ('equality_of_a_subtype', parted('if @P = @S then X := 0; end if'), 'F4 unset: P', 'F4 unset: S'),
            ('equality_after_an_assignment', parted('P := @Q', 'if P = @S then X := 0; end if'), 'F4 unset: Q', 'F4 unset: S'),
            ('check', parted('--# check @P = @Q'), 'F4 unset: P', 'F4 unset: Q'), ('truth_value_of_an_equality', parted('@F := @P = @Q').replace('R : Like', 'R : Like; F : Boolean'), 'F3', 'F4 unset: P', 'F4 unset: Q')):
        yield refused(f'flow_of_a_composite_{name}.adb', text, *findings)


# A text with statements that are never reached, since a loop without an exit comes before them. So flow has nothing to say of their reads.
ENDLESS = 'loop null; end loop'


def conditions_of_composites():
    """After a cut each variable lies in its type, by the name of its first subtype. An assignment of a whole value is not checked.

    `not` of an equality is no inequality, as it is for numbers.
    """
    pairs = f'{PAIR}; subtype Same is Pair; P : Pair; Q : Same'
    facts = [*lies('X'), 'P in Pair', 'Q in Pair', *lies('X~')]
    yield listed('composite_in_a_list.adb', longer(X, 'X from X', ENDLESS, '--# assert P = Q', 'P := Q', '--# @check P = Q', 'if P = Q then X := @0; end if', declared=[pairs]),
                 (1, 'check', [*facts, 'P = Q'], ['Q = Q']), (2, 'range', [*facts, 'P = Q', 'Q = Q'], lies('0')))
    yield listed('array_in_a_list.adb', longer(X, 'X from X', '--# @assert X = X', 'if X > 5 then X := @1; end if', declared=[f'{SMALL}; type LIST is array (Small) of Integer; L, K : list; V : Small']),
                 (1, 'assert', lies('X~'), ['X~ = X~']), (2, 'range', [*lies('X'), 'L in LIST', 'K in LIST', *lies('V', 0, 10), *lies('X~'), 'X = X', 'X > 5'], lies('1')))
    yield listed('composites_in_terms_of_a_list.adb',
                 longer(X, 'X from X', ENDLESS, '--# assert not (P = Q) and P /= Q', "P := Same'(P)", '--# @check (P = Q) or not (P = Q)', 'if P = Q then X := @0; end if',
                        declared=[pairs]), (1, 'check', [*facts, 'not (P = Q)', 'P /= Q'], ['(P = Q) or (not (P = Q))']),
                 (2, 'range', [*facts, 'not (P = Q)', 'P /= Q', '(P = Q) or (not (P = Q))', 'P = Q'], lies('0')))
    for name, known, condition, is_left in (
            ('equality_of_one_value', 'True', 'P = P and not (P /= P)', False), ('equality', 'P = Q', 'P = Q', False), ('inequality', 'P /= Q', 'P /= Q', False),
            ('negated_equality', 'not (P = Q)', 'not (P = Q)', False), ('equality_or_not', 'True', 'P = Q or else not (P = Q)', False),
            ('inequality_by_a_negation', 'not (P = Q)', 'P /= Q', True), ('negation_by_an_inequality', 'P /= Q', 'not (P = Q)', True), ('equality_in_the_other_order', 'P = Q', 'Q = P', True)):
        text = longer(X, 'X from X', ENDLESS, f'--# assert {known}', f'--# {"@" if is_left else ""}check {condition}', declared=[pairs])
        yield examined(f'composite_{name}_of_a_check.adb', text, ('Inc', 1, *([(1, 'check')] if is_left else [])))


def runs_of_composites():
    """A run reads no composite value, since none is set. In an annotation each variable counts as the first value of its type."""
    declared = [f'{SMALL}; {LIST}; {PAIR}; L, K : List; P, Q : Pair']
    yield faulted('run_of_a_whole_assignment.adb', longer(OUT_X, 'X from', 'X := 1', 'P := @Q', declared=declared), '', 'unset')
    yield faulted('run_of_an_equality_of_arrays.adb', longer(OUT_X, 'X from', 'X := 1', 'if @L = K then X := 2; end if', declared=declared), '', 'unset')
    yield ended('run_beside_composites.adb', longer(OUT_X, 'X from', 'X := 1', 'if X > 1 then P := Q; end if', declared=declared), '', 'X = 1')
    yield ended('unset_composites_in_annotations.adb', longer(OUT_X, 'X from', '--# check P = Q and L = K and not (P /= Q)', 'X := 1', declared=declared), '', 'X = 1')
    yield faulted('unset_composites_that_differ.adb', longer(OUT_X, 'X from', '--# @check L /= K', 'X := 1', declared=declared), '', 'check')


# ---------------------------------------------------------------- names of parts

DUO = 'subtype Two is Integer range 1 .. 2; type Duo is array (Two) of Integer'
GRID = (f'{DUO}; type Step is range 0 .. 9; type Hue is (Red, Green, Blue); type Point is record At_X, At_Y : Step; On : Boolean; end record; '
        'type Table is array (Hue) of Duo; type Frame is record Rows : Table; Mark : Point; end record; type Frames is array (Step) of Frame; '
        'L, K : Duo; P, Q : Point; T : Table; F : Frame; G : Frames; H : Hue; S : Step; N : Integer; C : constant Integer := 1')


def of_grid(*statements):
    """The text of a procedure with variables of array and record types inside each other, and these statements first."""
    return declaring(GRID, *statements, 'if B then X := A; end if')


def syntax_of_parts():
    """Each step of a name has all its parts. Arguments are all with formals or all without, and are expressions."""
    for name, value in {
            'no_argument': 'L (@)', 'a_comma_first': 'L (@, 1)', 'a_comma_last': 'L (1, @)', 'two_numbers': 'L (1 @2)', 'an_open_parenthesis': 'L (1@', 'no_field': 'P.@',
            'a_number_for_a_field': 'P.@1', 'a_parenthesis_for_a_field': 'P.@(1)', 'an_apostrophe_for_a_field': "P.@'First", 'a_reserved_field': 'P.@all', 'two_points': 'P@..On', 'two_points_apart': 'P. @.On',
            'no_field_of_an_element': 'L (1).@', 'a_point_for_a_designator': "L'@.F", 'two_operands_of_a_qualification': "Duo'(1@, 2)", 'a_formal_in_a_qualification': "Duo'(F @=> 1)",
            'a_range': 'L (1 @.. 2)', 'others': 'L (@others => 1)', 'a_formal_after_an_argument': 'L (1, F @=> 2)', 'an_argument_after_a_formal': 'L (F => 1, @2)',
            'a_name_after_a_formal': 'L (F => 1, F@)', 'a_sum_after_a_formal': 'L (F => 1, F @+ 1)', 'a_part_for_a_formal': 'L (F.F @=> 1)', 'nothing_after_an_arrow': 'L (F => @)',
            'two_formals': 'L (F @| G => 1)', 'a_number_for_a_formal': 'L (1 @=> 1)', 'a_number_after_an_element': 'L (1) @2', 'a_statement': 'L (X @:= 1)',
            'a_marked_parenthesis': 'L --# @(\n1)', 'a_marked_argument': 'L ( --# @1\n)', 'a_marked_point': 'P --# @.\nOn', 'a_marked_comma': 'L (1 --# @,\n2)',
            'a_marked_arrow': 'L (F --# @=>\n1)'}.items():
        yield unexpected(f'part_with_{name}.adb', of_grid(f'X := {value}'))
    for name, statement in {
            'nothing': 'L (1) := @', 'a_relation': 'L (1) @= 1', 'a_sum': 'P.On @+ 1 := 1', 'a_procedure': 'L (1)@', 'a_procedure_without_arguments': 'P.On@', 'a_comma': 'L (1)@, L (2) := 1',
            'brackets': 'L (1 @.. 2) := L'}.items():
        yield unexpected(f'target_with_{name}.adb', of_grid(statement))
    yield bad_byte('target_on_entry.adb', of_grid('L@~ (1) := 1'))
    yield bad_byte('part_in_brackets.adb', of_grid('X := L @[1]'))
    yield unexpected('implication_for_an_index.adb', of_grid('--# check L (B @-> B) = 1'))
    yield unexpected('equivalence_for_an_index.adb', of_grid('--# check L (1, B @<-> B) = 1'))
    yield unexpected('parenthesis_that_is_not_marked.adb', of_grid('--# check L\n@(1) = 1'))
    yield unexpected('point_without_a_field_in_derives.adb', procedure('X', derives='X. @from X'))
    yield unexpected('open_parenthesis_in_derives.adb', procedure('X', derives='X (1 @from X'))
    yield unexpected('name_of_parts_at_the_end_of_the_text.adb', of_grid('X := F.Rows (Red').rsplit('(Red', 1)[0] + '(Red) (1)\n@')
    # What is no name has no steps.
    for name, value in {'a_number': '1@.F', 'parentheses': '(P)@.On', 'parentheses_and_an_index': '(L) @(1)'}.items():
        yield unexpected(f'part_of_{name}.adb', of_grid(f'X := {value}'))


def levels_of_parts():
    """Parentheses in a name open a level over what they hold. A name itself opens none, however many steps it has."""
    yield refused('index_of_200_levels.adb', of_grid('X := @' + 'X (' * 200 + '1' + ')' * 200), 'N3')
    yield too_nested('index_of_201_levels.adb', of_grid('X := ' + 'X (' * 201 + '1' + ')' * 201))
    yield refused('target_of_200_levels.adb', of_grid('@X (' + nested(199) + ') := 1'), 'N3')
    yield too_nested('target_of_201_levels.adb', of_grid('X (' + nested(200) + ') := 1'))
    for name, step in {'elements': ' (1)', 'fields': '.F', 'attributes': "'F", 'qualifications': "'(1)"}.items():
        yield refused(f'name_of_2000_{name}.adb', of_grid(f'X := @X{step * 2000}'), 'N3')
        yield refused(f'target_of_2000_{name}.adb', of_grid(f'@X{step * 2000} := 1'), 'N3')
    yield refused('name_of_2000_values_on_entry.adb', of_grid(f'--# check @X{"~" * 2000} = 1'), 'N3')
    yield refused('element_under_199_parentheses.adb', of_grid(f'X := {nested(199, "@X (1)")}'), 'N3')
    yield too_nested('element_under_200_parentheses.adb', of_grid(f'X := {nested(200, "X (1)")}'))
    yield refused('field_under_200_parentheses.adb', of_grid(f'X := {nested(200, "@X.F")}'), 'N3')
    yield refused('element_after_199_operators.adb', of_grid('X := @X (1)' + ' + 1' * 199), 'N3')
    yield too_nested('element_after_200_operators.adb', of_grid('X := X (1)' + ' + 1' * 200))
    yield refused('index_under_199_operators.adb', of_grid('X := @X (1' + ' + 1' * 199 + ')'), 'N3')
    yield too_nested('index_under_200_operators.adb', of_grid('X := X (1' + ' + 1' * 200 + ')'))
    yield too_nested('second_index_of_201_levels.adb', of_grid(f'X := X (1) (2, {nested(200)})'))
    yield refused('type_of_a_variable_of_200_levels.adb', declaring(f'V : @Integer ({nested(199)})'), 'N3')
    yield too_nested('type_of_a_variable_of_201_levels.adb', declaring(f'V : Integer ({nested(200)})'))
    yield refused('export_of_200_levels.adb', procedure('X', derives=f'@X ({nested(199)}) from X'), 'N3')
    yield too_nested('import_of_201_levels.adb', procedure('X', derives=f'X from X ({nested(200)})'))
    ifs = 'if True then ' * 200
    yield refused('field_for_a_target_in_200_ifs.adb', of_grid(f'{ifs}@X.F := 1; {"end if; " * 199}end if'), 'N3')
    yield too_nested('element_for_a_target_in_200_ifs.adb', of_grid(f'{ifs}X (1) := 1; {"end if; " * 199}end if'))
    yield refused('type_of_a_loop_in_199_levels.adb', of_grid(f'for I in @X ({nested(198)}) loop null; end loop'), 'N3')
    yield too_nested('type_of_a_loop_in_200_levels.adb', of_grid(f'for I in X ({nested(199)}) loop null; end loop'))
    # The type of a membership test is one level under it.
    yield refused('tested_type_of_200_levels.adb', of_grid(f'if A in @X ({nested(197)}) then null; end if'), 'N3')
    yield too_nested('tested_type_of_201_levels.adb', of_grid(f'if A in X ({nested(198)}) then null; end if'))
    yield too_nested('operator_after_a_deep_type.adb', of_grid(f'if A in X ({nested(197)}) and B then null; end if'))


def rules_of_parts():
    """What a step means is decided by what comes before it. A name that leads nowhere breaks one rule, at its first identifier."""
    for name, value in {
            'no_field': 'P.Z', 'no_field_of_a_field': 'F.Mark.Z', 'a_field_of_the_inner_record': 'F.On', 'a_field_of_the_outer_record': 'F.Mark.Rows', 'no_field_of_an_element': 'G (S).Z',
            'a_variable_for_a_field': 'P.X', 'a_type_for_a_field': 'P.Step', 'a_step_after_no_field': 'P.Z.On', 'an_index_after_no_field': 'F.Z (Red)', 'an_attribute_of_no_field': "F.Z'First",
            'nothing': 'Y.Z', 'an_element_of_nothing': 'Y (1)', 'two_indexes_of_nothing': 'Y (1, 2)', 'two_steps_of_nothing': "Y (1)'First"}.items():
        yield refused(f'n1_of_{name}.adb', of_grid(f'X := @{value}'), 'N1')
        if name in ('no_field', 'a_field_of_the_inner_record', 'no_field_of_an_element', 'nothing'):
            yield refused(f'n1_of_{name}_for_a_target.adb', of_grid(f'@{value} := 1'), 'N1')
    for name, value in {
            'a_field_of_an_integer': 'X.On', 'an_element_of_an_integer': 'X (1)', 'two_indexes_of_an_integer': 'X (1, 2)', 'a_field_of_an_array': 'L.On', 'an_element_of_a_record': 'P (1)',
            'an_element_of_an_element': 'L (1) (1)', 'a_field_of_an_element': 'L (1).On', 'an_element_of_a_field': 'P.At_X (1)', 'a_field_of_a_truth_value': 'P.On.On', 'a_field_of_a_row': 'T (Red).On',
            'a_field_of_a_literal': 'Red.On', 'an_element_of_a_literal': 'Red (1)', 'an_element_of_a_constant': 'C (1)', 'a_field_of_a_constant': 'C.On', 'an_element_of_the_procedure': 'Inc (1)',
            'a_field_of_the_procedure': 'Inc.X', 'a_field_of_a_type': 'Point.On', 'an_element_of_a_conversion': 'Integer (1) (1)', 'a_field_of_a_conversion': 'Step (1).On'}.items():
        yield refused(f'n3_of_{name}.adb', of_grid(f'X := @{value}'), 'N3')
        if name in ('an_element_of_an_integer', 'a_field_of_an_array', 'an_element_of_an_element', 'an_element_of_a_literal', 'a_field_of_a_constant', 'a_field_of_a_type'):
            yield refused(f'n3_of_{name}_for_a_target.adb', of_grid(f'@{value} := 1'), 'N3')
    for name, value in {
            'first_of_an_integer': "X'First", 'first_of_a_record': "P'First", 'first_of_a_truth_value': "P.On'First", 'first_of_an_element': "L (1)'First", 'pos_of_an_array': "L'Pos",
            'length_of_an_array': "L'Length", 'first_of_first': "L'First'First", 'first_with_an_index': "L'First (1)", 'a_qualified_variable': "L'(1)", 'a_qualified_part': "P.On'(B)",
            'a_qualified_number': "X'(1)", 'succ_of_an_element': "H'Succ (H)", 'pos_of_an_array_type': "Duo'Pos", 'first_with_an_operand_of_an_array_type': "Duo'First (1)",
            'first_of_a_record_type': "Point'First", 'pos_of_an_array_type_with_an_operand': "Table'Pos (H)", 'two_operands_of_no_function': "Step'Pos (1, 2)",
            'a_field_of_first': "L'First.On", 'a_value_of_a_type_for_an_element': "Duo'(L) (1)", 'a_field_of_a_qualification': "Point'(P).On"}.items():
        yield refused(f'n3_of_{name}.adb', of_grid(f'X := @{value}'), 'N3')
    for name, target in {'a_type': 'Duo', 'a_literal': 'Red', 'the_procedure': 'Inc', 'an_attribute': "L'First", 'an_attribute_of_a_row': "T (Red)'Last", 'an_attribute_of_an_integer': "X'First",
                         'a_qualification': "Duo'(L)", 'a_conversion': 'Integer (X)'}.items():
        yield refused(f'n3_of_{name}_as_a_target.adb', of_grid(f'@{target} := 1'), 'N3')
    for name, value in {'two_indexes': 'L (1, 2)', 'a_formal': 'L (Two => 1)', 'two_formals': 'L (F => 1, G => 2)', 'two_indexes_of_a_table': 'T (Red, 1)', 'two_indexes_of_a_row': 'T (Red) (1, 2)',
                        'two_indexes_of_a_field': 'F.Rows (Red, 1)', 'a_formal_of_a_row': 'G (S).Rows (H => Red) (1)'}.items():
        yield refused(f'n14_of_{name}.adb', of_grid(f'X := @{value}'), 'N14')
        if name in ('two_indexes', 'a_formal', 'two_indexes_of_a_row'):
            yield refused(f'n14_of_{name}_for_a_target.adb', of_grid(f'@{value} := 1'), 'N14')
    for name, value in {'two_operands_of_an_array_type': 'Duo (1, 2)', 'two_operands_of_a_record_type': 'Point (1, 2)', 'two_operands_of_pos': "Hue'Pos (Red, Red)", 'a_formal_of_pos': "Hue'Pos (H => Red)",
                        'two_operands_of_first': "Step'First (1, 2)"}.items():
        yield refused(f'n14_of_{name}.adb', of_grid(f'X := @{value}'), 'N14')
    yield refused('n3_of_an_element_of_a_loop_parameter.adb', of_grid('for I in Two loop @I (1) := 1; end loop'), 'N3')
    yield refused('n3_of_an_element_of_a_formal_that_is_read_only.adb', of_grid('@A (1) := 1'), 'N3')
    yield refused('n10_of_a_conversion_to_an_array.adb', of_grid('L := @Duo (L)'), 'N10')
    yield refused('n10_of_a_conversion_to_a_record.adb', of_grid('P := @Point (P)'), 'N10')
    # In a heading there are no parts, and nothing follows what derives names.
    for name, derives in {'a_field_of_an_export': '@X.F from X', 'an_element_of_an_export': '@X (1) from X', 'a_field_of_an_import': 'X from @X.F', 'an_element_of_an_import': 'X from @X (Y)',
                          'an_ignored_element': 'X from & null from @X (1)'}.items():
        yield refused(f'n3_of_{name}.adb', procedure('X', derives=derives), 'N3')
    yield refused('n1_of_an_export.adb', procedure('X', derives='@Y.F from X'), 'N1')
    yield refused('n3_of_an_element_in_a_precondition.adb', procedure('X', pre='@X (1) > 0'), 'N3')
    yield refused('n3_of_a_field_in_a_postcondition.adb', longer(X, 'X from X', 'X := X', post='@X~.F > 0'), 'N3')
    yield refused('n3_of_the_type_of_a_formal.adb', procedure('X', type_mark='@Integer (1)'), 'N3')


def indexes_of_parts():
    """An index is of the type of the index of its array, and a universal one lies in its base range. Parts have their declared types."""
    for name, value in {
            'a_truth_value': 'L (@B)', 'a_literal': 'L (@Red)', 'another_type': 'L (@S)', 'a_comparison': 'L (X @= 1)', 'an_array': 'L (@L)', 'a_record': 'G (@P).Mark.At_X', 'an_integer': 'G (@X).Mark.At_X',
            'a_number_for_a_literal': 'T (@1) (1)', 'an_attribute': "T (@L'First) (1)", 'a_literal_for_the_inner_index': 'T (Red) (@Red)', 'a_part': 'L (@P.On)', 'an_element_of_another_type': 'G (@L (1)).Mark.At_X',
            'a_power_for_a_literal': 'T (2 @** X) (1)', 'parentheses': 'L (@(B))'}.items():
        yield refused(f'index_of_{name}.adb', of_grid(f'X := {value}'), 'N10')
        if name in ('a_truth_value', 'an_integer', 'a_literal_for_the_inner_index', 'a_power_for_a_literal'):
            yield refused(f'index_of_{name}_in_a_target.adb', of_grid(f'{value} := 1'), 'N10')
    for name, statement in {
            'a_number_from_a_truth_value': 'L (1) := @B', 'a_truth_value_from_a_number': 'P.On := @1', 'a_row_from_a_table': 'T (Red) := @T', 'a_row_from_an_element': 'T (Red) := @L (1)',
            'a_field_from_another_record': 'F.Mark := @L', 'a_variable_from_a_field': 'X := @P.On', 'a_variable_from_another_type': 'X := @P.At_X', 'a_variable_from_a_row': 'X := @T (Red)',
            'a_literal_from_an_element': 'H := @L (1)', 'a_field_of_another_type': 'P.At_X := @X', 'an_attribute_of_another_type': "X := @T'First", 'an_attribute_for_a_literal': "H := @L'First",
            'a_condition': 'if @L (1) then null; end if', 'a_sum': 'X := P.On @+ 1', 'a_comparison': 'P.On := L (1) @= P.At_X', 'a_comparison_of_rows': 'P.On := T (Red) @= T', 'an_order_of_rows': 'P.On := T (Red) @< T (Blue)',
            'a_selector': 'case @T (Red) is when others => null; end case', 'a_bound': 'for I in Step range @L (1) .. 5 loop null; end loop'}.items():
        yield refused(f'type_of_{name}.adb', of_grid(statement), 'N10')
    for name, value in {
            'a_wide_number': 'L (@2147483648)', 'a_number_below': 'L (@-2147483649)', 'a_universal_sum': 'L (2147483647 @+ 1)', 'a_number_of_another_range': 'G (@4294967296).Mark.At_X',
            'a_quotient': 'L (1 @/ 0)', 'a_sum_of_attributes': "L (Integer'Last @+ L'First)", 'a_part_of_a_power': 'L (@2147483648 * 2 ** X)', 'the_inner_index': 'T (Red) (@2147483648)'}.items():
        yield refused(f'static_index_of_{name}.adb', of_grid(f'X := {value}'), 'N12')
        if name in ('a_wide_number', 'a_part_of_a_power', 'the_inner_index'):
            yield refused(f'static_index_of_{name}_in_a_target.adb', of_grid(f'{value} := 1'), 'N12')
    yield refused('static_value_for_a_part.adb', of_grid('P.At_X := @4294967296'), 'N12')
    # What is not static: parts, and in a declaration the attributes of variables and of parts.
    for name, (rule, declared) in {
            'an_element': ('N11', f'{DUO}; L : Duo; V : Integer := @L (1)'), 'a_field': ('N11', 'type R is record On : Boolean; end record; P : R; V : Boolean := @P.On'),
            'first_for_a_constant': ('N11', f"{DUO}; L : Duo; V : constant Integer := @L'First"), 'first_for_a_named_number': ('N11', f"{DUO}; L : Duo; V : constant := @L'First"),
            'last_for_a_bound': ('N11', f"{DUO}; L : Duo; type V is range 0 .. @L'Last"), 'last_for_a_bound_of_a_subtype': ('N11', f"{DUO}; L : Duo; subtype V is Integer range 1 .. @L'Last"),
            'a_sum_with_last': ('N11', f"{DUO}; L : Duo; V : Integer := L'Last @+ 1"), 'a_row': ('N11', f"{DUO}; type Rows is array (Two) of Duo; R : Rows; V : Integer := @R (1)'Last"),
            'first_of_another_type': ('N10', f"{DUO}; L : Duo; V : Boolean := @L'First"), 'an_index_of_a_part': ('N10', f"{DUO}; type Rows is array (Two) of Duo; R : Rows; V : Integer := R (@B)'Last")}.items():
        yield refused(f'declaration_with_{name}.adb', declaring(declared), rule)
    for name, declared in {
            'the_last_of_an_array_type': f"{DUO}; V : Integer := Duo'Last; C : constant Integer := Duo'First; N : constant := Duo'Last + 1; subtype U is Integer range Duo'First .. Duo'Last; type W is range 0 .. Duo'Last",
            'the_first_of_a_subtype': f"{DUO}; subtype Same is Duo; V : Integer := Same'First", 'the_first_literal': f"{HUE}; type Table is array (Hue) of Integer; V : Hue := Table'First"}.items():
        yield declared_well(f'declaration_with_{name}.adb', declared)
    yield refused('static_quotient_of_an_attribute.adb', of_grid("X := L'First @/ 0"), 'N12')
    yield refused('static_sum_of_an_attribute.adb', of_grid("X := 2147483647 @+ L'Last"), 'N12')
    # Values on entry: variables of the body have none.
    for name, value in {'an_element': 'L~ (1) = 1', 'a_field': 'P~.On', 'a_row': 'T~ (Red) = L', 'an_attribute': "L~'First = 1", 'an_index_of_another_type': 'L~ (B) = 1'}.items():
        yield refused(f'value_on_entry_of_{name}.adb', of_grid(f'--# check @{value}'), 'N18')
    for name, value in {'no_field': 'P~.Z', 'an_element_of_an_integer': 'X~ (1) = 1', 'a_field_of_an_integer': 'X~.On', 'first_of_an_integer': "X~'First = 1", 'an_element_before_it': 'L (1)~ = 1',
                        'a_field_before_it': 'P.On~', 'it': 'P~~.On', 'a_field_of_an_array': 'L~.On'}.items():
        yield refused(f'value_on_entry_with_{name}.adb', of_grid(f'--# check @{value}'), 'N1' if name == 'no_field' else 'N3')
    yield refused('value_on_entry_of_two_indexes.adb', of_grid('--# check @L~ (1, 2) = 1'), 'N14')


def parts_in_order():
    """At a name its own rules come first, then its indexes in order, each with N10 and N12; of an assignment the target comes first."""
    for name, (rule, statement) in {
            'a_step_before_an_index': ('N3', 'X := @L (Y).On'), 'no_field_before_an_index': ('N1', 'X := @G (B).Z'), 'two_indexes_before_what_they_name': ('N14', 'X := @L (Y, Z)'),
            'an_index_before_the_next_one': ('N10', 'X := T (@B) (Y)'), 'an_undeclared_index_before_the_next_one': ('N1', 'X := T (@Y) (B)'), 'a_wide_index_before_the_next_one': ('N12', 'X := G (@4294967296).Rows (Y) (1)'),
            'the_last_index': ('N10', 'X := T (Red) (@B)'), 'an_index_in_an_index': ('N10', 'X := L (L (@B)) + Y'), 'an_index_before_its_own_type': ('N1', 'X := T (L (@Y)) (1)'), 'an_index_after_what_is_in_it': ('N10', 'X := T (@L (1)) (Y)'),
            'an_index_before_the_right_operand': ('N10', 'X := L (@B) + Y'), 'the_left_operand_before_an_index': ('N1', 'X := @Y + L (B)'), 'an_operand_before_an_operator': ('N1', 'X := L (@Y) + B'),
            'a_target_before_its_index': ('N3', '@X (Y) := Z'), 'an_index_of_a_target_before_the_right_side': ('N10', 'L (@B) := Y'), 'an_undeclared_index_before_the_right_side': ('N1', 'L (@Y) := Z'),
            'the_type_of_a_part_after_its_indexes': ('N10', 'T (Red) (@B) := B'), 'a_right_side_after_the_target': ('N10', 'T (Red) (1) := @B'), 'two_indexes_before_the_right_side': ('N14', '@L (1, Y) := Z'),
            'a_wide_index_before_the_right_side': ('N12', 'L (@2147483648) := Y'), 'a_power_in_a_target_before_the_right_side': ('N12', 'L (@2147483648 * 2 ** X) := Y'),
            'a_part_of_a_power_before_the_right_operand': ('N12', 'X := L (@2147483648 * 2 ** X) + Y'), 'a_part_of_a_power_before_one_of_an_index': ('N12', 'X := @2147483649 * 2 ** X + L (2147483648 * 2 ** X)'),
            'an_index_before_an_attribute': ('N1', "X := T (@Y)'First"), 'a_part_of_a_power_before_an_attribute': ('N12', "X := F.Rows (Hue'Val (@2147483648 * 2 ** X))'First + Y"),
            'a_part_of_a_power_in_a_choice': ('N12', "case X is when T (Hue'Val (@2147483648 * 2 ** X))'First => null; when others => null; end case"), 'a_later_statement': ('N1', 'L (1) := 1; X := @Y')}.items():
        yield refused(f'order_of_{name}.adb', of_grid(statement), rule)
    yield refused('type_of_a_case_over_a_field.adb', of_grid('@case P.At_X is when 0 .. 8 => null; end case'), 'N17')
    yield refused('type_of_a_case_over_an_element.adb', of_grid('@case L (1) is when 1 .. 2 => null; end case'), 'N17')
    yield refused('type_of_a_case_over_an_attribute.adb', of_grid("@case T'First is when Red => null; end case"), 'N17')
    yield refused('choice_of_an_element.adb', of_grid('case X is when @L (1) => null; when others => null; end case'), 'N11')
    yield refused('choice_of_an_attribute_twice.adb', of_grid("@case X is when 1 | L'First => null; when others => null; end case"), 'N17')
    yield refused('rule_n_before_a_part_that_is_read.adb', of_grid('L (1) := 1; X := @Y'), 'N1')
    yield refused('exit_in_the_wrong_place_after_a_part.adb', of_grid('L (1) := 1; @exit when B'), 'U4')


def flow_of_parts():
    """A part reads the variable and its indexes. An assignment to a part reads the indexes, the right side, and the variable, at its name."""
    def over(*statements, derives='X from A', declared=f'{DUO}; L, K : Duo; N : Integer; {PAIR}; P : Pair'):
        return longer(A_TO_X, derives, *statements, declared=[declared])
    yield refused('assignment_to_an_unset_array.adb', over('@L (1) := A', 'X := L (1)'), 'F4 unset: L')
    yield refused('assignments_to_an_unset_array.adb', over('@L (1) := A', 'L (2) := A', 'X := L (1)'), 'F4 unset: L')
    yield refused('assignment_to_an_unset_record.adb', over('@P.Left := A', 'X := P.Right'), 'F4 unset: P')
    yield refused('element_of_an_unset_array.adb', over('X := @L (1) + A'), 'F4 unset: L')
    yield refused('field_of_an_unset_record.adb', over('X := @P.Left + A'), 'F4 unset: P')
    yield refused('element_of_itself.adb', over('@L (1) := @L (1) + A', 'X := L (2)'), 'F4 unset: L', 'F4 unset: L')
    yield refused('unset_index.adb', over('X := @L (@N) + A'), 'F4 unset: L', 'F4 unset: N')
    yield refused('unset_index_of_a_target.adb', over('@L (@N) := A', 'X := L (1)'), 'F4 unset: L', 'F4 unset: N')
    yield refused('whole_from_an_unset_array.adb', over('L := @K', 'L (1) := A', 'X := L (1)'), 'F4 unset: K')
    # Elements of one array are one variable, and so are the fields of a record; a part that is assigned leaves the rest.
    yield refused('flow_between_elements.adb', over('@L (1) := A', 'L (2) := 0', 'X := L (2)'), 'F4 unset: L')
    yield refused('flow_between_fields.adb', over('@P.Left := A', 'P.Left := 0', 'X := P.Right'), 'F4 unset: P')
    yield refused('flow_from_an_index.adb', over('X := @L (A)'), 'F4 unset: L')
    yield refused('flow_from_the_index_of_a_target.adb', over('@L (A) := 1', 'X := L (1)'), 'F4 unset: L')
    yield refused('undeclared_flow_from_an_index.adb', over('X := @L (A)', derives='X from & null from A').replace('derives X', 'derives @X'), 'F1 missing: X from A', 'F4 unset: L')
    yield refused('undeclared_flow_from_the_index_of_a_target.adb', over('@L (A) := 1', 'X := L (1)', derives='X from & null from A').replace('derives X', 'derives @X'), 'F1 missing: X from A', 'F4 unset: L')
    yield refused('undeclared_flow_through_another_element.adb', over('@L (1) := A', 'L (1) := 0', 'X := L (1)', derives='X from & null from A').replace('derives X', 'derives @X'), 'F1 missing: X from A', 'F4 unset: L')
    yield refused('no_flow_past_a_whole_assignment.adb', over('@@L (1) := A', 'L := @K', 'X := L (1)').replace('derives X', 'derives @X'), 'F2 unused: X from A', 'F3', 'F4 unset: L', 'F4 unset: K')
    yield refused('lost_element.adb', over('@@L (1) := A', 'X := A'), 'F3', 'F4 unset: L')
    yield refused('lost_elements.adb', over('@@L (1) := A', '@L (2) := L (1)', 'X := A'), 'F3', 'F4 unset: L', 'F3')
    yield refused('lost_field.adb', over('X := A', '@@P.Left := X'), 'F3', 'F4 unset: P')
    yield refused('element_in_a_condition.adb', over('if @L (1) > 0 then X := A; else X := 0; end if'), 'F4 unset: L')
    yield refused('element_in_a_selector.adb', over('case @L (A) is when 1 => X := 1; when others => X := 0; end case'), 'F4 unset: L')
    yield refused('element_in_a_bound.adb', over('X := 0', 'for I in Integer range 1 .. @L (A) loop X := I; end loop'), 'F4 unset: L')
    yield refused('element_in_a_check.adb', over('--# check @L (@N) = 1', 'X := A'), 'F4 unset: L', 'F4 unset: N')
    yield refused('elements_in_a_loop.adb', over('for I in Two loop @L (I) := A; end loop', 'X := L (1)'), 'F4 unset: L')
    yield refused('elements_in_a_loop_with_bounds.adb', over('for I in Two range 1 .. 2 loop @L (I) := A; end loop', 'X := @L (1)'), 'F4 unset: L', 'F4 unset: L')
    yield refused('elements_in_one_arm.adb', over('if A > 0 then @L (1) := A; end if', 'X := @L (1)'), 'F4 unset: L', 'F4 unset: L')
    yield refused('elements_in_both_arms.adb', over('if A > 0 then @L (1) := A; else @L (2) := A; end if', 'X := L (1)'), 'F4 unset: L', 'F4 unset: L')
    # Attributes read nothing, neither the array nor an index before them.
    yield accepted('no_flow_from_an_attribute.adb', over("X := L'Last * 0 + A"), 2)
    rows = f'{DUO}; type Rows is array (Integer) of Duo; R : Rows; N : Integer'
    yield accepted('no_flow_from_the_index_before_an_attribute.adb', over("X := R (N)'Last", derives='X from & null from A', declared=rows), 1)
    yield refused('unused_index_before_an_attribute.adb', over("X := R (A)'Last", derives='@X from A', declared=rows), 'F2 unused: X from A')


def attributes_of_arrays():
    """`A'First` and `A'Last` of array types, of variables and of parts: the ends of the index, static but in a declaration."""
    text = longer(OUT_X, 'X from', "if T'First = Red and F.Rows'Last = Blue then X := L'First + Duo'Last + T (H)'Last + F.Rows (Blue)'First + Integer (G'Last); else X := 0; end if", declared=[GRID])
    yield accepted('ends_of_arrays.adb', text, 2)
    yield accepted('choices_by_ends.adb', longer(A_TO_X, 'X from A', "case A is when L'First => X := 10; when L'First + 1 .. L'Last => X := 20; when others => X := 30; end case", declared=[GRID]), 3)
    yield accepted('loop_by_ends.adb', longer(A_TO_X, 'X from A', 'X := 0', "for I in Integer range L'First .. L'Last loop\n--# assert X in 0 .. 2;\nif A = I then X := I; end if; end loop", declared=[GRID]), 6)
    yield ended('run_of_ends_of_arrays.adb', declaring(GRID, "X := L'First + 10 * L'Last", "X := X + 100 * Hue'Pos (T'Last) + 1000 * Integer (Frames'Last) + 10000 * F.Rows (Red)'Last", 'if B then X := A; end if'),
                'A = 1, B = False, X = 0', 'X = 29221')
    yield ended('run_past_an_index_of_an_attribute.adb', declaring(GRID, "X := T (Hue'Val (A))'Last", 'if B then X := A; end if'), 'A = 99, B = False, X = 0', 'X = 2')
    yield ended('run_of_a_loop_over_an_array.adb', declaring(GRID, 'X := 0', "for I in Integer range L'First .. L'Last loop X := 10 * X + I; end loop", 'if B then X := A; end if'), 'A = 1, B = False, X = 0', 'X = 12')
    yield ended('run_of_choices_by_ends.adb', declaring(GRID, "case A is when L'First => X := 10; when L'Last => X := 20; when others => X := 30; end case", 'if B then X := A; end if'), 'A = 2, B = False, X = 0', 'X = 20')
    yield listed('ends_in_a_list.adb', longer(A_TO_X, 'X from A', "if A in L'First .. L'Last and A > Duo'First then X := @A; else X := @L'Last; end if", declared=[f'{DUO}; L : Duo']),
                 (1, 'range', [*lies('A'), *lies('A', 1, 2), 'A > 1'], lies('A')), (2, 'range', [*lies('A'), 'not (((A >= 1) and (A <= 2)) and (A > 1))'], lies('2')))


# Conditions on parts are made after a loop without an end, where flow says nothing of what is unset. There each array and record lies in its type.
def after_cut(*statements, declared=f'{DUO}; L : Duo', known='True', seen='L = L'):
    """The text of a procedure with statements that are never reached, after an `assert`. Then Z comes from all that they may set."""
    return longer('X : in Integer; Z : in out Boolean', 'Z from Z, X', ENDLESS, f'--# assert {known}', *statements, f'Z := Z and X = V and {seen}', declared=[f'{declared}; V : Integer'])


def conditions_of_parts():
    """Checks of indexes, terms of parts, and the fact that a variable lies in its type after a part of it is assigned."""
    facts = [*lies('X'), 'L in Duo', *lies('V'), 'true']
    index = ['X >= 1', 'X <= 2']
    yield listed('element_in_a_list.adb', after_cut('V := @L (@X)'), (2, 'index', facts, index), (1, 'range', [*facts, *index], lies('L[X]')))
    yield listed('static_index_in_a_list.adb', after_cut('V := @L (@3)'), (2, 'index', facts, ['3 >= 1', '3 <= 2']), (1, 'range', [*facts, '3 >= 1', '3 <= 2'], lies('L[3]')))
    new = 'L[X => 5]'
    yield listed('assigned_element_in_a_list.adb', after_cut('L (@X) := @5', 'V := @L (@2)'), (1, 'index', facts, index), (2, 'range', [*facts, *index], lies('5')),
                 (4, 'index', [*facts, *index, *lies('5'), f'{new} in Duo'], ['2 >= 1', '2 <= 2']), (3, 'range', [*facts, *index, *lies('5'), f'{new} in Duo', '2 >= 1', '2 <= 2'], lies(f'{new}[2]')))
    # The indexes of a target are evaluated before the right side, and this before its range check.
    sums = ['(X + 1) >= 1', '(X + 1) <= 2']
    known = [*facts, *lies('(X + 1)'), *sums, *index, 'X /= 0']
    yield listed('order_of_checks_of_a_target.adb', after_cut('L (X @@+ 1) := L (@X) @@@/ X'), (1, 'overflow', facts, lies('(X + 1)')), (2, 'index', [*facts, *lies('(X + 1)')], sums),
                 (3, 'index', [*facts, *lies('(X + 1)'), *sums], index), (4, 'division', known[:-1], ['X /= 0']), (5, 'overflow', known, lies('(L[X] / X)')),
                 (6, 'range', [*known, *lies('(L[X] / X)')], lies('(L[X] / X)')))
    points = 'type Step is range 0 .. 9; type Point is record At_X, At_Y : Step; On : Boolean; end record; P : Point; S : Step'
    facts = [*lies('X'), 'P in Point', *lies('S', 0, 9), *lies('V'), 'true']
    first, second = 'P[At_Y => S]', 'P[At_Y => S][On => true]'
    yield listed('fields_in_a_list.adb', after_cut('P.AT_Y := @S', 'P.On := True', 'if not P.On or P.At_X < 5 then S := @P.At_Y; end if', declared=points, seen='P = P and S = S'),
                 (1, 'range', facts, lies('S', 0, 9)), (2, 'range', [*facts, f'{first} in Point', f'{second} in Point', f'(not {second}.On) or ({second}.At_X < 5)'], lies(f'{second}.At_Y', 0, 9)))
    frames = f'{DUO}; {HUES}; type Table is array (Hue) of Duo; type Frame is record Rows : Table; N : Integer; end record; F : Frame'
    facts = [*lies('X'), 'F in Frame', *lies('V'), 'true']
    checks = [*lies('1', 0, 2), *index]
    new = 'F[Rows => F.Rows[1 => F.Rows[1][X => X]]]'
    after = [*facts, *checks, f'{new} in Frame', *lies('2', 0, 2)]
    yield listed('nested_parts_in_a_list.adb', after_cut('F.Rows (@Green) (@X) := @X', 'V := @F.Rows (@Blue) (@2)', declared=frames, seen='F = F'),
                 (1, 'index', facts, lies('1', 0, 2)), (2, 'index', [*facts, *lies('1', 0, 2)], index), (3, 'range', [*facts, *checks], lies('X')),
                 (5, 'index', after[:-2], lies('2', 0, 2)), (6, 'index', after, ['2 >= 1', '2 <= 2']), (4, 'range', [*after, '2 >= 1'], lies(f'{new}.Rows[2][2]')))
    facts = [*lies('X'), 'L in Duo', *lies('V'), 'true']
    test = '((X >= 1) and (X <= 2))'
    yield listed('guarded_index_in_a_list.adb', after_cut('if X in 1 .. 2 and then L (@X) > 0 then V := @1; end if'),
                 (1, 'index', facts, [f'{test} -> {test}']), (2, 'range', [*facts, f'{test} -> {test}', *index, 'L[X] > 0'], lies('1')))
    # An annotation has no checks, and an attribute none before it. A bound that reads an array has a name.
    facts = [*lies('X'), 'L in Duo', *lies('V'), 'L[X / 0] = 1']
    yield listed('annotations_of_parts_in_a_list.adb', after_cut('--# @check L (X) = L (X + 1)', "--# @check L'Last = 2", known='L (X / 0) = 1'),
                 (1, 'check', facts, ['L[X] = L[X + 1]']), (2, 'check', [*facts, 'L[X] = L[X + 1]'], ['true']))
    facts = [*lies('X'), 'L in Duo', *lies('V'), 'true']
    yield listed('bounds_by_parts_in_a_list.adb', after_cut("for I in Two range @L (@1) .. L'Last loop V := @I; end loop"),
                 (2, 'index', facts, ['1 >= 1', '1 <= 2']), (1, 'range', [*facts, '1 >= 1', '1 <= 2'], ['(L[1] <= 2) -> ((L[1] >= 1) and (2 <= 2))']),
                 (3, 'range', [*facts[:-1], *lies('I', 1, 2), 'I >= I!first', 'true'], lies('I')))
    wide = 'type Long is range -2 ** 63 .. 2 ** 63 - 1; type Wide is array (Long) of Integer; W : Wide'
    facts = [*lies('X'), 'W in Wide', *lies('V'), 'true']
    power = ['X >= 0', *lies('(2 ** X)', *LONG_ENDS)]
    yield listed('power_for_an_index_in_a_list.adb', after_cut('V := @W (2 @@** @X)', declared=wide, seen='W = W'), (4, 'range', facts, ['X >= 0']),
                 (2, 'overflow', [*facts, 'X >= 0'], lies('(2 ** X)', *LONG_ENDS)), (3, 'index', [*facts, *power], lies('(2 ** X)', *LONG_ENDS)), (1, 'range', [*facts, *power], lies('W[2 ** X]')))


def parts_that_close():
    """What the simplifier makes of parts: elements at literals, fields, and the bounds of parts of what lies in its type."""
    rows = ('type Step is range 0 .. 9; type Row is array (Step) of Step; subtype Two is Integer range 1 .. 2; type Point is record At_X : Step; By : Two; end record; '
            'type Points is array (Step) of Point; R : Row; P : Point; Ps : Points; S, U : Step')
    by_rows = {'declared': rows, 'seen': 'R = R and P = P and Ps = Ps and S = U'}
    duo = {'declared': f'{DUO}; L, K : Duo', 'seen': 'L = K'}
    def closed(name, total, *statements, **more):
        return accepted(f'{name}.adb', after_cut(*statements, **(duo | more)), total)
    def left(name, total, *statements, **more):
        return left_at(f'{name}.adb', after_cut(*statements, **(duo | more)), total)
    yield closed('index_at_both_ends', 8, 'V := L (1)', 'if V > 0 then V := L (2); end if', 'L (1) := V')
    yield closed('index_of_a_target_at_both_ends', 4, 'L (1) := 0', 'L (2) := 0')
    yield left('index_above', 2, 'V := L (<1i>3)')
    yield left('index_below', 2, 'V := L (<1i>0)')
    yield left('index_of_a_target_above', 2, 'L (<1i>3) := 0')
    yield left('index_of_a_target_below', 2, 'L (<1i>0) := 0')
    # The false fact closes what follows, as in a text whose array has a value.
    yield left('index_past_the_end_of_two', 4, 'L (<1i>3) := 5', 'V := L (2)')
    yield left('variable_for_an_index', 2, 'V := L (<1i>X)')
    yield left('variable_for_an_index_of_a_target', 2, 'L (<1i>X) := X')
    yield closed('guarded_index', 2, 'if X in 1 .. 2 then V := L (X); end if')
    yield closed('guarded_index_of_a_target', 2, "if X >= L'First and X <= L'Last then L (X) := X; end if")
    yield left('index_with_one_guard', 2, 'if X >= 1 then V := L (<1i>X); end if')
    yield closed('index_after_and_then', 2, 'if X in 1 .. 2 and then L (X) > 0 then V := 1; end if')
    yield left('index_after_and', 2, 'if X in 1 .. 2 and L (<1i>X) > 0 then V := 1; end if')
    yield closed('index_after_or_else', 2, 'if X not in 1 .. 2 or else L (X) > 0 then V := 1; end if')
    yield closed('element_in_its_type', 2, 'S := R (S)', **by_rows)
    yield closed('element_at_an_element', 3, 'S := R (R (S))', **by_rows)
    yield closed('field_in_its_type', 1, 'S := P.At_X', **by_rows)
    yield closed('fields_of_elements_in_their_types', 4, 'S := Ps (S).At_X', 'V := Ps (S).By', **by_rows)
    yield left('sum_of_an_element', 3, 'S := R (S) <3r>+ 1', **by_rows)
    yield closed('case_over_a_field', 2, 'case P.By is when 1 => V := 1; when 2 => V := 2; end case', **by_rows)
    yield closed('element_after_an_assignment', 4, 'R (S) := 5', 'U := R (0)', **by_rows)
    yield closed('fields_after_an_assignment', 3, 'P.At_X := S', 'V := P.By', 'U := P.At_X', **by_rows)
    yield closed('whole_after_an_assignment', 3, 'P := Ps (S)', 'U := P.At_X', 'V := P.By', **by_rows)
    yield closed('row_that_was_assigned', 3, 'Ps (S) := P', 'Ps (0) := Ps (S)', **by_rows)
    yield closed('element_that_was_assigned', 3, 'L (1) := 5', '--# check L (1) = 5')
    yield closed('element_that_was_assigned_before_another', 5, 'L (1) := 5', 'L (2) := 6', '--# check L (1) = 5')
    yield left('element_that_was_assigned_at_a_variable', 3, 'if X in 1 .. 2 then L (X) := 5;\n--# <3c>check L (X) = 5;\nend if')
    yield left('element_that_was_assigned_before_a_variable', 5, 'if X in 1 .. 2 then L (1) := 5; L (X) := 6;\n--# <5c>check L (1) = 5;\nend if')
    yield closed('other_element_after_an_assignment', 3, 'L (1) := 5', '--# check L (2) = 7', known='L (2) = 7')
    yield closed('field_that_was_assigned', 2, 'P.At_X := 5', '--# check P.At_X = 5', **by_rows)
    yield closed('other_field_after_an_assignment', 2, 'P.At_X := 5', '--# check P.By = 2', known='P.By = 2', **by_rows)
    yield closed('field_of_an_element_that_was_assigned', 3, 'Ps (3).At_X := 5', '--# check Ps (3).At_X = 5 and Ps (4).By = 2', known='Ps (4).By = 2', **by_rows)
    yield closed('part_assigned_to_itself', 4, 'L (1) := L (1)', '--# check L (1) = 7', known='L (1) = 7')
    yield left('arrays_with_one_element_assigned', 3, 'L (1) := 5', '--# <3c>check L = K', known='L = K')
    yield closed('not_a_comparison_of_elements', 3, 'if not (L (1) > 5) then\n--# check L (1) <= 5;\nV := 0; end if')
    yield left('not_a_comparison_of_rows', 1, '--# <1c>check L /= K', known='not (L = K)')
    yield closed('loop_over_the_ends', 3, "for I in Integer range L'First .. L'Last loop L (I) := I; end loop")
    yield left('loop_past_the_ends', 3, "for I in Integer range L'First .. L'Last + 1 loop L (<2i>I) := I; end loop")
    yield closed('loop_over_the_index_type', 2, 'for I in Two loop L (I) := I; end loop')
    yield closed('invariant_on_an_element', 7, 'for I in Integer range 1 .. 9 loop\n--# assert L (1) = 5;\nL (2) := I; end loop', '--# check L (1) = 5', known='L (1) = 5')
    yield closed('bounds_of_fields_in_a_check', 1, '--# check P.At_X <= 9 and P.By >= 1', **by_rows)
    yield left('bound_of_an_element_in_a_check', 1, '--# <1c>check R (S) <= 8', **by_rows)
    # An index in an annotation is not checked, and the element has its type's bounds wherever it is.
    yield closed('element_in_an_annotation', 1, '--# check L (X) >= -2147483648')


def nodes_of_parts():
    """A new part of a part has the whole once for each step: with n nodes before, `F.Rows (Red) (1) := 1` gives F 3 n + 10 nodes. So after k of them it has
    6 * 3 ** k - 5, and each of them leaves a fact with one more.
    """
    frames = f'{DUO}; {HUES}; type Table is array (Hue) of Duo; type Frame is record Rows : Table; N : Integer; end record; F : Frame'
    for count in (10, 11):
        text = after_cut(*['F.Rows (Red) (1) := 1'] * count, '--# check True', declared=frames, seen='F = F')
        yield accepted('nodes_of_10_parts.adb', text, 31) if count == 10 else too_large('nodes_of_11_parts.adb', text)


def runs_of_parts():
    """No run sets an array or a record. Indexes and right sides are evaluated before the variable is read for a new part of it."""
    def run(*statements):
        return longer(X, 'X from X', *statements, declared=[GRID])
    for name, statement, x, kind in (
            ('element', 'X := @L (1)', 1, 'unset'), ('field', 'if @P.On then X := 1; end if', 1, 'unset'), ('element_before_its_index', 'X := @L (X / 0)', 1, 'unset'),
            ('assigned_element', '@L (1) := 1', 1, 'unset'), ('assigned_field', '@P.On := True', 1, 'unset'), ('assigned_part', '@F.Rows (Red) (X) := X', 2, 'unset'),
            ('index_of_a_target', 'L (X @/ 0) := 1', 1, 'division'), ('index_of_a_target_above', 'L (@X) := 1', 3, 'index'), ('index_of_a_target_below', 'L (@X) := 1', 0, 'index'),
            ('static_index_of_a_target', 'L (@3) := 1', 3, 'index'), ('index_before_the_right_side', 'L (@X) := 1 / (X - X)', 3, 'index'), ('right_side_before_the_array', 'L (X) := X @/ (X - X)', 1, 'division'),
            ('first_index_before_the_second', "F.Rows (Hue'Val (@X)) (X / (X - X)) := 1", 3, 'range'), ('second_index', 'F.Rows (Red) (@X) := X / 0', 3, 'index'),
            ('unset_index', 'L (@N) := 1', 1, 'unset'), ('range_of_a_part', 'P.At_X := Step (X) @+ 5', 6, 'range'), ('part_in_its_range', '@P.At_X := Step (X) + 3', 6, 'unset'),
            ('element_of_itself', 'L (1) := @L (2)', 1, 'unset'), ('element_at_an_element', 'L (@L (1)) := 1', 1, 'unset')):
        yield faulted(f'run_with_{name}.adb', run(statement), f'X = {x}', kind)
    # In an annotation an unset array or record has first values, and an element that is not there is a first value too.
    first = -2147483648
    yield ended('run_with_first_values.adb', run(f'--# check L (1) = {first} and L (X) = {first} and L (X / 0) = {first} and P.At_X = 0 and not P.On and T (Green) (2) = {first} and G (9).Mark = P and T (Red) = L',
                                                 '--# check L = K and P = Q and F.Rows = T and F.Mark.At_Y = S', 'X := 1'), 'X = 99', 'X = 1')
    yield faulted('run_with_other_values.adb', run('--# @check L (X) = 0', 'X := 1'), 'X = 99', 'check')
    declared = 'subtype Five is Integer range 5 .. 7; type Fives is array (Five) of Five; type Pair is record Low, High : Five; end record; type Pairs is array (Five) of Pair; V : Fives; W : Pairs'
    yield ended('run_with_first_values_of_subtypes.adb', longer(X, 'X from X', '--# check V (5) = 5 and V (0) = 5 and W (X).High = 5 and W (6) = W (7)', "X := V'Last", declared=[declared]), 'X = 1', 'X = 7')
    yield too_wide_in_run('bits_of_an_index.adb', run('--# check L (X ** 200) < 0', 'X := 1'), 'X = 2')
    yield ended('bits_of_a_small_index.adb', run('--# check L (X ** 100) < 0', 'X := 1'), 'X = 2', 'X = 1')
    yield ended('run_past_parts.adb', run('if X > 5 then L (X) := L (X + 1); end if'), 'X = 5', 'X = 5')


def elements_of_runs():
    """The elements of all arrays in the types of the variables count, set or not, at every depth. They are counted before the run."""
    def list_of(last, more='', name='List', element='Integer'):
        return f'subtype Of_{name} is Integer range 1 .. {last}; type {name} is array (Of_{name}) of {element}{more}'
    def run(*declared, **more):
        return longer(X, 'X from X', 'X := 1', declared=list(declared), **more)
    def fits(name, *declared):
        return ended(f'elements_of_{name}.adb', run(*declared), 'X = 0', 'X = 1')
    def passes(name, *declared):
        return too_many_in_run(f'too_many_elements_of_{name}.adb', run(*declared), 'X = 0')
    million = 1000000
    yield fits('a_list', list_of(million, '; L : List'))
    yield passes('a_list', list_of(million + 1, '; L : List'))
    yield fits('a_type', list_of(million + 1))
    yield passes('integers', 'type List is array (Integer) of Integer; L : List')
    wide = 'type Long is range -2 ** 63 .. 2 ** 63 - 1'
    yield passes('a_wide_index', f'{wide}; type Wide is array (Long) of Integer; L : Wide')
    yield passes('arrays_of_a_wide_index', f'{wide}; type Wide is array (Long) of Integer; type Wider is array (Long) of Wide; L : Wider')
    yield fits('two_lists', list_of(million // 2, '; L, K : List'))
    yield passes('two_lists', list_of(million // 2, '; L, K : List'), list_of(1, '; M : One', 'One'))
    yield fits('rows', list_of(999), list_of(1000, '; R : Rows', 'Rows', 'List'))
    yield passes('rows', list_of(1000), list_of(1000, '; R : Rows', 'Rows', 'List'))
    yield fits('one_row', list_of(million - 1), list_of(1, '; R : Rows', 'Rows', 'List'))
    yield passes('one_row', list_of(million), list_of(1, '; R : Rows', 'Rows', 'List'))
    two = 'type Two is record P, Q : List; N : Integer; end record; R : Two'
    yield fits('fields', list_of(million // 2), two)
    yield passes('fields', list_of(million // 2 + 1), two)
    yield fits('literals', 'type Hue is (Red, Green, Blue)', 'type Table is array (Hue) of Integer; T : Table', list_of(million - 3, '; L : List'))
    yield passes('literals', 'type Hue is (Red, Green, Blue)', 'type Table is array (Hue) of Integer; T : Table', list_of(million - 2, '; L : List'))
    yield passes('a_subtype', list_of(million + 1), 'subtype Same is List; L : Same')
    doubled = [f'type T{at} is record P, Q : T{at - 1}; end record' for at in range(1, 31)]
    yield fits('records_that_double', 'type T0 is record N : Integer; end record', *doubled, 'V : T30')
    yield passes('records_that_double', list_of(1, name='T0'), *doubled, 'V : T30')
    # What is wrong with the inputs comes first, and the precondition and its bits come after.
    many = list_of(million + 1, '; L : List')
    yield run_on('elements_and_inputs.adb', run(many), 'X = True', ['in.txt:1:1: I3 value is not of the type', 'refused: 1'], 1)
    yield too_many_in_run('elements_before_the_precondition.adb', run(many, pre='X > 5'), 'X = 0')
    yield too_many_in_run('elements_before_bits.adb', run(many, pre='X ** 200 > 5'), 'X = 2')
    yield run_on('elements_of_another_procedure.adb', run(many) + short('Two', 'Y'), 'Y = 1', ['Y = 1'], 0, entry='Two')


# ---------------------------------------------------------------- functions of types

MAPPED = (f'{SMALL}; {LONG}; {WARM}; type Gear is (Up, Down); subtype Low is Small range 1 .. 5; subtype Flag is Boolean; '
          'V : Small; W : Low; L : Long; H, K : Hue; S : Warm; F : Boolean')


def mapping(*statements, by='A > 0', pre=None):
    """The text of a procedure with these statements, and then X is 1 where something is true, and else 0."""
    return longer(A_TO_X, 'X from A', *statements, f'if {by} then X := 1; else X := 0; end if', declared=[MAPPED], pre=pre)


def functions_of_types():
    """Conversions, qualifications, and functions of enumeration types: what they take, and what a static result may be."""
    for name, (rule, statement) in {
            'conversion_to_nothing': ('N1', 'X := @Count (A)'), 'conversion_to_a_variable': ('N3', 'X := @V (A)'),
            'conversion_to_a_literal': ('N3', 'X := @Red (A)'), 'conversion_to_the_procedure': ('N3', 'X := @Inc (A)'),
            'conversion_to_boolean': ('N10', 'F := @Boolean (A > 0)'), 'conversion_to_a_boolean_subtype': ('N10', 'F := @Flag (A > 0)'),
            'conversion_to_literals': ('N10', 'H := @Hue (H)'), 'conversion_of_a_literal': ('N10', 'V := Small (@Red)'),
            'conversion_of_a_truth_value': ('N10', 'V := Small (@True)'),
            'conversion_of_a_relation': ('N10', 'V := Small (A @= A)'), 'conversion_of_nothing': ('N1', 'V := Small (@Y)'),
            'conversion_past_its_type': ('N12', 'V := @Small (11)'), 'conversion_below_its_type': ('N12', 'V := @Small (-1)'),
            'conversion_past_its_subtype': ('N12', 'W := @Low (6)'), 'conversion_below_its_subtype': ('N12', 'W := @Low (0)'),
            'conversion_of_a_wide_number': ('N12', 'V := @Small (2 ** 100)'),
            'conversion_of_a_number_past_128_bits': ('N12', 'V := Small (2 @** 127)'),
            'conversion_of_a_long_constant': ('N12', "X := @Integer (Long'Last)"),
            'conversion_for_another_type': ('N10', 'X := @Small (A)'), 'conversion_of_the_type_itself': ('N10', 'V := @Integer (V)'),
            'qualification_of_an_integer': ('N10', "H := Hue'(@A)"), 'qualification_of_another_type': ('N10', "H := Hue'(@Up)"),
            'qualification_of_a_number': ('N10', "F := Boolean'(@A)"), 'qualification_of_another_number': ('N10', "V := Small'(@A)"),
            'qualification_past_its_subtype': ('N12', "H := @Warm'(Green)"), 'qualification_past_its_type': ('N12', "V := @Small'(11)"),
            'qualification_past_its_base_range': ('N12', "V := Small'(@2147483648)"), 'qualification_by_nothing': ('N1', "X := @Y'(A)"),
            'qualification_by_a_variable': ('N3', "X := @V'(A)"), 'qualification_for_another_type': ('N10', "X := @Small'(5)"),
            'first_with_an_argument': ('N14', "X := @Integer'First (A)"), 'last_with_an_argument': ('N14', "H := @Hue'Last (H)"),
            'succ_without_argument': ('N14', "H := @Hue'Succ"), 'pos_without_argument': ('N14', "X := @Hue'Pos"),
            'val_without_argument': ('N14', "H := @Hue'Val"), 'pred_without_argument': ('N14', "H := @Hue'Pred"),
            'pos_of_a_number_type': ('N3', "X := @Small'Pos (V)"), 'pos_of_boolean': ('N3', "X := @Boolean'Pos (F)"),
            'succ_of_integer': ('N3', "X := @Integer'Succ (A)"), 'succ_of_integer_without_argument': ('N3', "X := @Integer'Succ"),
            'no_attribute_with_an_argument': ('N3', "X := @Hue'Size (H)"), 'succ_of_a_variable': ('N3', "V := @V'Succ (V)"),
            'succ_of_nothing': ('N1', "V := @Y'Succ (V)"), 'succ_of_an_integer_value': ('N10', "H := Hue'Succ (@A)"),
            'succ_of_another_literal': ('N10', "H := Hue'Succ (@Up)"), 'pos_of_a_number': ('N10', "X := Hue'Pos (@1)"),
            'val_of_a_literal': ('N10', "H := Hue'Val (@Red)"), 'val_of_a_truth_value': ('N10', "H := Hue'Val (@F)"),
            'val_past_its_type': ('N12', "H := @Hue'Val (4)"), 'val_below_its_type': ('N12', "H := @Hue'Val (-1)"),
            'val_of_a_wide_number': ('N12', "H := @Hue'Val (2 ** 64)"), 'succ_of_the_last': ('N12', "H := @Hue'Succ (Blue)"),
            'pred_of_the_first': ('N12', "H := @Hue'Pred (Red)"), 'pos_for_another_type': ('N10', "V := @Hue'Pos (H)"),
            'val_for_another_type': ('N10', "X := @Hue'Val (A)"), 'sum_of_a_conversion': ('N10', 'V := Small (A) @+ A'),
            # a type comes before its operand
            'conversion_to_literals_of_nothing': ('N10', 'H := @Hue (Y)'), 'first_of_nothing_with_an_argument': ('N14', "X := @Hue'First (Y)"),
            'qualification_of_nothing': ('N1', "H := Hue'(@Y)"), 'fault_in_an_operand': ('N12', 'V := Small (1 @/ 0)')}.items():
        yield refused(f'function_{name}.adb', mapping(statement), rule)
    for name, condition in {
            'pos': "Hue'Pos (Green) /= 2", 'pos_of_the_first': "Hue'Pos (Hue'First) /= 0", 'pos_in_a_sum': "Hue'Pos (Blue) + 1 /= 4",
            'val': "Hue'Val (1) /= Yellow", 'val_of_zero': "Hue'Val (0) /= Red", 'val_of_the_last': "Hue'Val (3) /= Blue",
            'succ': "Hue'Succ (Red) /= Yellow", 'pred': "Hue'Pred (Blue) /= Green", 'succ_by_a_subtype': "Warm'Succ (Yellow) /= Green",
            'pred_by_a_subtype': "Cool'Pred (Green) /= Yellow", 'val_by_a_subtype': "Warm'Val (3) /= Blue",
            'pos_by_a_subtype': "Cool'Pos (Green) /= 2", 'conversion': 'Small (5) + 1 /= 6', 'conversion_to_integer': "Integer (Small'Last) /= 10",
            'conversion_of_a_constant': 'Integer (Neg) /= -5', 'qualification_of_a_truth': "Boolean'(False)",
            'qualification': "Low'(3) = 4", 'qualification_of_a_literal': "Warm'(Red) > Red", 'other_cases': "hue'POS (red) /= 0",
            'functions_of_functions': "Hue'Val (Hue'Pos (Hue'Succ (Red)) + 1) /= Green", 'conversion_at_its_first': 'Low (2) /= 2',
            'conversion_at_its_last': 'Low (5) /= 5', 'qualification_in_parentheses': "(Low'((3))) /= 3"}.items():
        yield accepted(f'value_of_a_function_{name}.adb', falsified(VALUES, condition), 2)


def conditions_of_functions():
    """What comes before parentheses asks of its operand that the result lies in its bounds, and nothing is asked of `Pos`."""
    two = "H := Hue'Val (A)"
    for name, statement, by, pre, total in (
            ('conversion', 'V := Small (<1r>A)', 'V > 3', None, 4), ('conversion_within', 'V := Small (A)', 'V > 3', 'A in 0 .. 10', 4),
            ('conversion_past', 'V := Small (<1r>A)', 'V > 3', 'A in 0 .. 11', 4),
            ('conversion_below', 'V := Small (<1r>A)', 'V > 3', 'A in -1 .. 10', 4),
            ('subtype_within', 'W := Low (A)', 'W > 3', 'A in 1 .. 5', 4), ('subtype_below', 'W := Low (<1r>A)', 'W > 3', 'A in 0 .. 5', 4),
            ('subtype_past', 'W := Low (<1r>A)', 'W > 3', 'A in 1 .. 6', 4),
            ('subtype_for_its_type', 'V := Low (<1r>A)', 'V > 3', 'A in 0 .. 10', 4),
            ('type_for_its_subtype', 'W := <2r>Small (A)', 'W > 3', 'A in 0 .. 10', 4), ('long_conversion', 'L := Long (A)', 'L > 3', None, 4),
            ('conversion_back', 'L := Long (A); X := Integer (L)', 'X > 3', None, 6),
            ('conversion_of_a_long_sum', 'L := Long (A) + Long (A); V := Small (<5r>L)', 'V > 3', None, 8),
            ('conversion_of_a_sum', 'V := Small (A <1o,2r>+ 1)', 'V > 3', None, 5),
            ('conversion_of_a_sum_within', 'V := Small (A + 1)', 'V > 3', 'A in 0 .. 9', 5),
            ('qualification', "V := 5; V := Low'(V)", 'V > A_MORE', None, 5), ('qualification_past', "V := 6; V := Low'(<2r>V)", 'V > A_MORE', None, 5),
            ('qualification_below', "V := 0; V := Low'(<2r>V)", 'V > A_MORE', None, 5),
            ('qualification_of_a_truth_value', "F := Boolean'(A > 0)", "Boolean'(F)", None, 2),
            ('val', "H := Hue'Val (<1r>A)", 'H = Red', None, 4), ('val_within', two, 'H = Red', 'A in 0 .. 3', 4),
            ('val_past', "H := Hue'Val (<1r>A)", 'H = Red', 'A in 0 .. 4', 4),
            ('val_below', "H := Hue'Val (<1r>A)", 'H = Red', 'A in -1 .. 3', 4),
            ('val_by_a_subtype', "H := Warm'Val (A)", 'H = Red', 'A in 0 .. 3', 4),
            ('val_for_a_subtype', "S := <2r>Hue'Val (A)", 'S = Red', 'A in 0 .. 3', 4),
            ('succ', f"{two}; K := Hue'Succ (<3r>H)", 'K = Red', 'A in 0 .. 3', 6),
            ('succ_within', f"{two}; K := Hue'Succ (H)", 'K = Red', 'A in 0 .. 2', 6),
            ('succ_by_a_subtype', f"{two}; K := Warm'Succ (H)", 'K = Red', 'A in 0 .. 2', 6),
            ('succ_below', "H := Hue'Val (<1r>A); K := Hue'Succ (H)", 'K = Red', 'A > -5 and A < 3', 6),
            ('pred', f"{two}; K := Hue'Pred (<3r>H)", 'K = Red', 'A in 0 .. 3', 6),
            ('pred_within', f"{two}; K := Hue'Pred (H)", 'K = Red', 'A in 1 .. 3', 6),
            ('pos', f"{two}; V := Small (Hue'Pos (H))", 'V > 1', 'A in 0 .. 3', 6),
            ('pos_alone', two, "Hue'Pos (H) > 1", 'A in 0 .. 3', 4), ('pos_in_a_sum', two, "Hue'Pos (H) + 1 > 1", 'A in 0 .. 3', 5),
            ('precondition', 'V := Small (<1r>A)', 'V > 3', 'Natural (A) > 3', 4),
            ('qualified_precondition', 'V := Small (A)', 'V > 3', "Boolean'(A in 0 .. 10)", 4)):
        yield left_at(f'checked_{name}.adb', mapping(statement, by=by.replace('A_MORE', '3 or A > 3'), pre=pre), total)
    for name, by, total in (
            ('range', 'A in 0 .. 10 and then Small (A) > 3', 3), ('half_a_range', 'A >= 0 and then Small (<1r>A) > 3', 3),
            ('two_sides', 'A < 0 or else (A > 10 or else Small (A) > 3)', 3), ('one_side', 'A < 0 or else Small (<1r>A) > 3', 3),
            ('no_short_circuit', 'A in 0 .. 10 and Small (<1r>A) > 3', 3)):
        yield left_at(f'conversion_guarded_by_{name}.adb', mapping(by=by), total)
    for name, condition, statement, other, total in (
            ('conjunction', 'A >= 0 and A <= 10', 'V := Small (A)', 'V := 0', 7),
            ('qualified_conjunction', "Boolean'(A >= 0 and A <= 10)", 'V := Small (A)', 'V := 0', 7),
            ('qualified_test', "Boolean'(A in 0 .. 10)", 'V := Small (A)', 'V := 0', 7),
            ('disjunction', 'A >= 0 or A <= 10', 'V := Small (<1r>A)', 'V := 0', 7),
            ('converted_range', 'A in 0 .. 10 and then Small (A) in 1 .. 5', 'W := Low (A); V := W', 'W := 1; V := W', 10)):
        yield left_at(f'conversion_after_{name}.adb', mapping(f'if {condition} then {statement}; else {other}; end if', by='V > 3'), total)
    for name, condition, mark, total in (('less', 'H < Blue', '', 9), ('no_more', 'H <= Green', '', 9), ('unequal', 'H /= Blue', '<3r>', 9),
                                         ('equal', 'H = Green', '', 9), ('a_subtype', 'H in Warm', '', 9)):
        yield left_at(f'succ_guarded_by_{name}.adb',
                      mapping(two, f"if {condition} then K := Hue'Succ ({mark}H); else K := Red; end if", by='K = Red', pre='A in 0 .. 3'), total)


def flow_of_functions():
    """A function reads what its operand reads, and a type is no variable."""
    yield refused('missing_flow_through_a_conversion.adb', longer(A_TO_X, '@X from & null from A', 'X := Integer (A)'), 'F1 missing: X from A')
    yield refused('unset_operand_of_a_conversion.adb', longer(OUT_X, 'X from', 'X := Integer (@T)', declared=T), 'F4 unset: T')
    yield refused('unset_operand_of_succ.adb', mapping("K := Hue'Succ (@H)", by='K = Red').replace('X from A', 'X from & null from A'), 'F4 unset: H')
    yield refused('export_in_a_converted_precondition.adb', longer(OUT_X, 'X from', 'X := 1', pre='Integer (@X) > 0'), 'U11')
    yield refused('constant_through_a_function.adb', longer(A_TO_X, '@X from A', 'X := Integer (5)'), 'F2 unused: X from A')


def syntax_of_functions():
    """Tokens with which no function and its operand goes on, and the levels that it opens."""
    for name, value in {'no_operand': 'Integer (@)', 'two_operands_and_a_formal': 'Integer (A, A @=> A)', 'named_operand_and_another': 'Integer (A => 1, A@)',
                        'open_parenthesis': 'Integer (A@', 'no_designator': "Integer'@", 'number_for_a_designator': "Integer'@5",
                        'qualification_without_operand': "Integer'(@)", 'range_for_an_operand': 'Integer (1 @.. 5)',
                        'two_apostrophes': "Integer'@'(A)", 'reserved_designator': "Integer'@range (A)"}.items():
        yield unexpected(f'function_with_{name}.adb', longer(A_TO_X, 'X from A', f'X := {value}'))
    yield unexpected('function_with_a_marked_parenthesis.adb', longer(A_TO_X, 'X from A', 'X := Integer --# @(\nA)'))
    for name, (rule, value) in {'two_operands': ('N14', '@Integer (A, A)'), 'a_named_operand': ('N14', '@Integer (A => 1)'),
                                'a_designator_after_parentheses': ('N3', "@Integer (A)'First"), 'an_attribute_of_an_attribute': ('N3', "@Integer'First'Last")}.items():
        yield refused(f'function_with_{name}.adb', longer(A_TO_X, 'X from A', f'X := {value}'), rule)
    yield refused('function_for_a_target.adb', longer(A_TO_X, 'X from A', '@Integer (X) := A'), 'N3')
    yield refused('function_for_a_type.adb', longer(A_TO_X, 'X from A', 'X := A', declared=['T : @Integer (5)']), 'N3')
    yield refused('function_for_an_import.adb', longer(A_TO_X, 'X from @Integer (A)', 'X := A'), 'N3')
    yield refused('function_for_a_tested_type.adb', longer(A_TO_X, 'X from A', 'if A in @Small (A) then X := A; else X := 0; end if'), 'N1')
    yield accepted('function_for_a_tested_bound.adb', longer(A_TO_X, 'X from A', 'if A in Integer (0) .. 5 then X := A; else X := 0; end if'), 2)
    yield accepted('function_of_200_levels.adb', longer(A_TO_X, 'X from A', f'X := Integer ({nested(199, "A")})'), 2)
    yield too_nested('function_of_201_levels.adb', longer(A_TO_X, 'X from A', f'X := Integer ({nested(200, "A")})'))
    yield accepted('functions_of_200_levels.adb', longer(A_TO_X, 'X from A', 'X := ' + 'Integer (' * 200 + 'A' + ')' * 200), 201)
    yield too_nested('functions_of_201_levels.adb', longer(A_TO_X, 'X from A', 'X := ' + "Integer'(" * 201 + 'A' + ')' * 201))


# ---------------------------------------------------------------- initial values

def initial_values():
    """A local that is declared with a value starts with it: the value is static, and lies in the type."""
    def body(declared, statement='X := A'):
        return longer(A_TO_X, 'X from A', statement, declared=[f'{WARM}; {SMALL}; subtype Low is Small range 2 .. 5', declared])

    for name, (rule, declared) in {
            'past_its_type': ('N12', 'V : Small := @11'), 'below_its_type': ('N12', 'V : Small := @-1'),
            'past_its_subtype': ('N12', 'V : Low := @6'), 'below_its_subtype': ('N12', 'V : Low := @1'),
            'past_integer': ('N12', 'V : Integer := @2147483648'), 'sum_past_integer': ('N12', 'V : Integer := 2147483647 @+ 1'),
            'static_sum_past_its_type': ('N12', "V : Integer := Integer'Last @+ 1"), 'division_by_zero': ('N12', 'V : Integer := 1 @/ 0'),
            'literal_past_its_subtype': ('N12', 'V : Warm := @Green'), 'of_another_type': ('N10', 'V : Small := @True'),
            'literal_for_a_number': ('N10', 'V : Small := @Red'), 'number_for_a_literal': ('N10', 'V : Hue := @1'),
            'number_for_a_truth_value': ('N10', 'V : Boolean := @0'), 'constant_of_another_type': ('N10', 'V : Small := @Low2'),
            'formal': ('N11', 'V : Integer := @A'), 'sum_with_a_formal': ('N11', 'V : Integer := A @+ 1'),
            'formal_of_another_type': ('N10', 'V : Small := @A'), 'itself': ('N1', 'V : Integer := @V'),
            'one_declared_with_it': ('N1', 'V, W : Integer := @W'), 'another_local': ('N11', 'V : Integer := 5; W : Integer := @V'),
            'later_constant': ('N1', 'V : Integer := @C; C : constant Integer := 5'), 'type': ('N3', 'V : Integer := @Integer'),
            'name_twice': ('N2', 'V, @V : Integer := A'), 'no_type': ('N1', 'V : @Count := A'),
            'conversion_past_its_type': ('N12', 'V : Small := @Small (11)')}.items():
        if name == 'constant_of_another_type':
            declared = 'Low2 : constant Integer := 2; ' + declared
        yield refused(f'initial_value_{name}.adb', body(declared), rule)
    for name, declared, statement, total in (
            ('number', 'V : Integer := 5', 'X := A mod V', 2), ('at_its_first', 'V : Small := 0', 'X := A', 1),
            ('at_its_last', 'V : Small := 10', 'X := A', 1), ('at_the_last_of_a_subtype', 'V : Low := 5', 'X := A', 1),
            ('at_the_first_of_a_subtype', 'V : Low := 2', 'X := A', 1), ('literal', 'V : Warm := Yellow', 'if V = Red then X := A; else X := 0; end if', 2),
            ('truth_value', 'V : Boolean := True', 'if V then X := A; else X := 0; end if', 2),
            ('constant', 'C : constant Integer := 2; V : Integer := C ** 3', 'X := A mod V', 2),
            ('attribute', "V : Low := Low'Last", 'X := A mod Integer (V)', 3), ('of_two', 'V, W : Integer := 5', 'X := V + W', 2),
            ('that_is_overwritten', 'V : Integer := 5', 'V := A; X := V', 2), ('on_one_way', 'V : Integer := 5', 'if A > 0 then V := A; end if; X := V', 3),
            ('that_is_read_first', 'V : Integer := 5', 'X := V; if A > 0 then X := 1; end if', 2),
            ('of_a_longer_sum', 'V : Integer := 2147483646', 'X := V + 1; X := X + A * 0', 5)):
        derives = 'X from & null from A' if name == 'of_two' else 'X from A'
        text = body(declared, statement).replace('X from A', derives)
        yield (left_at if name == 'of_a_longer_sum' else accepted)(f'initial_{name}.adb', text, total)
    yield left_at('initial_zero_as_a_divisor.adb', body('V : Integer := 0', 'X := A <1d>mod V'), 2)
    yield left_at('initial_last_and_one_more.adb', body("V : Integer := Integer'Last", 'X := V <1o>+ 1').replace('X from A', 'X from & null from A'), 2)
    yield refused('initial_value_that_flows_nowhere.adb', body('V : Integer := 5', 'X := V').replace('derives X', 'derives @X'), 'F2 unused: X from A')
    yield refused('initial_value_beside_a_lost_one.adb', body('V : Integer := 5', '@V := A; X := A'), 'F3')
    yield refused('initial_value_beside_an_unset_one.adb', body('V : Integer := 5; W : Integer', 'X := A + V + @W'), 'F4 unset: W')
    yield refused('initial_value_of_an_earlier_procedure.adb',
                  body('V : Integer := 5') + longer(A_TO_X, 'X from A', 'X := A + @V', declared=['V : Integer'], name='Same'), 'F4 unset: V')
    yield refused('initialized_local_in_pre.adb', longer(A_TO_X, 'X from A', 'X := A', declared=['V : Integer := 5'], pre='@V > 0'), 'N1')
    for name, declared in {'no_value': 'V : Integer :=@', 'a_comma_after_it': 'V : Integer := 5@, W : Integer', 'no_type': 'V @:= 5',
                           'two_values': 'V : Integer := 5 @:= 6', 'a_range_for_it': 'V : Integer := 1 @.. 5', 'a_mark': 'V : Integer --# @:= 5'}.items():
        yield unexpected(f'initial_value_with_{name}.adb', body(declared))
    yield accepted('initial_value_of_200_levels.adb', body(f'V : Integer := {nested(200)}'), 1)
    yield too_nested('initial_value_of_201_levels.adb', body(f'V : Integer := {nested(201)}'))
    numbers = ', '.join(f'L{n}' for n in range(1, 4097))
    yield accepted('initial_values_of_4096_variables.adb', longer(None, None, 'null', declared=[f'{numbers} : Integer := 5']), 0)
    yield too_many_variables('initial_values_of_4097_variables.adb', longer(None, None, 'null', declared=[f'{numbers}, M : Integer := 5']))


# ---------------------------------------------------------------- case statements

def selecting(*alternatives, selector='A', declared='', pre=None, before=(), after=()):
    """The text of a procedure with one `case`."""
    return longer(A_TO_X, 'X from A', *before, f'case {selector} is {" ".join(alternatives)} end case', *after,
                  declared=[f'{MAPPED}{declared}'], pre=pre)


def values_of_choices():
    """N17 is at `case` where a value has no alternative, or two, or `others` is not last; which values, the selector says."""
    starts = {'V': ('V := 3',), 'W': ('W := 3',), 'H': ('H := Red',), 'S': ('S := Red',), 'L': ('L := 3',), '(V)': ('V := 3',), '(S)': ('S := Red',),
              'V + 1': ('V := 3',)}
    whole = ('Red', 'Yellow', 'Green', 'Blue')
    good = {
        'others': ('A', 'others'), 'a_number_and_others': ('A', '1', 'others'), 'all_of_a_type': ('V', '0 .. 10'),
        'all_of_a_type_one_by_one': ('V', *map(str, range(11))), 'ranges_that_touch': ('V', '0 .. 4', '5 .. 10'),
        'choices_out_of_order': ('V', '7 .. 10', '0', '2 .. 6', '1'), 'several_choices': ('V', '0 | 10 | 3 .. 5', '1 .. 2 | 6 .. 9'),
        'an_empty_range': ('V', '5 .. 4', '0 .. 10'), 'empty_ranges_in_one_another': ('V', '9 .. 0 | 8 .. 1', '0 .. 10'),
        'others_for_nothing': ('V', '0 .. 10', 'others'), 'a_subtype': ('W', '1 .. 5'), 'past_a_subtype': ('W', '0 .. 10'),
        'past_a_subtype_in_parts': ('W', '-5 .. 2', '3', '4 .. 2000'), 'all_of_integer': ('A', "Integer'First .. -1", "0 .. Integer'Last"),
        'attributes': ('V', "Small'First .. Small'Last - 1", "Small'Last"), 'constants': ('V', 'Zero .. Ten'),
        'literals': ('H', *whole), 'literals_in_ranges': ('H', 'Red .. Yellow', 'Green .. Blue'), 'literals_in_one': ('H', ' | '.join(whole)),
        'literals_and_others': ('H', 'Green', 'others'), 'literals_of_a_subtype': ('S', 'Red', 'Yellow'), 'a_conversion': ('Low (3)', '1 .. 5'),
        'a_qualification': ("Low'(3)", '1 .. 5'), 'a_qualified_literal': ("Warm'(Red)", 'Red', 'Yellow'), 'a_constant': ('Three', '1 .. 5'),
        'a_literal': ('Red', *whole), 'a_function': ("Warm'Succ (Red)", *whole), 'a_number': ('5', '5', 'others'),
        'a_sum_and_others': ('V + 1', '0 .. 10', 'others'), 'a_modulus': ('A mod 3', "Integer'First .. -1", "0 .. Integer'Last"), 'a_long_type': ('L', "Long'First .. -1", '0', "1 .. Long'Last"),
        'functions_for_choices': ('H', "Hue'Val (0) .. Hue'Succ (Red)", "Hue'Pred (Blue)", 'Blue'), 'a_selector_in_parentheses': ('(V)', '0 .. 10', 'others')}
    declared = '; Zero : constant Small := 0; Ten, More : constant := 10; Three : constant Low := 3'
    for name, (selector, *choices) in good.items():
        alternatives = [f'when {choice} => X := {at} + A;' for at, choice in enumerate(choices)]
        before = starts.get(selector, ())
        text = selecting(*alternatives, selector=selector, declared=declared, before=before, pre='A in 0 .. 10')
        yield accepted(f'choices_{name}.adb', text, len(before) + 2 * len(choices) + (name in ('a_sum_and_others', 'a_modulus')))
    bad = {
        'last_missing': ('V', '0 .. 9'), 'first_missing': ('V', '1 .. 10'), 'one_missing': ('V', '0 .. 4', '6 .. 10'),
        'one_missing_of_many': ('V', '0 .. 2', '8 .. 10', '3', '5 .. 7'), 'all_but_one': ('A', "Integer'First .. -1", "1 .. Integer'Last"),
        'last_integer_missing': ('A', "Integer'First .. Integer'Last - 1"), 'first_integer_missing': ('A', "Integer'First + 1 .. Integer'Last"),
        'none_but_one': ('A', '1'), 'value_twice': ('V', '0 .. 10', '3'), 'value_twice_in_one': ('V', '3 | 3', 'others'),
        'value_twice_beside_others': ('V', '3', '2', '3', 'others'), 'ranges_that_overlap': ('V', '0 .. 5', '5 .. 10'),
        'range_in_a_range': ('V', '0 .. 10', '4 .. 6'), 'range_around_a_range': ('V', '4 .. 6', '0 .. 10'),
        'value_twice_past_a_subtype': ('W', '1 .. 5', '7', '7'), 'others_first': ('V', 'others', '3'), 'others_twice': ('V', '3', 'others', 'others'),
        'others_in_the_middle': ('V', '3', 'others', '4'), 'literal_missing': ('H', 'Red', 'Yellow', 'Blue'), 'last_literal_missing': ('H', 'Red .. Green'),
        'literal_twice': ('H', 'Red .. Green', 'Green', 'Blue'), 'literal_of_a_subtype_missing': ('S', 'Yellow .. Blue'),
        'subtype_in_parentheses': ('(S)', 'Red', 'Yellow'), 'sum_of_a_type': ('V + 1', '0 .. 11'), 'type_of_a_conversion': ('Small (3)', '1 .. 5'),
        'type_of_a_qualification': ("Small'(3)", '1 .. 5'), 'function_of_a_subtype': ("Warm'Succ (Red)", 'Red', 'Yellow'),
        'universal_number': ('5', '5'), 'all_but_128_bits': ('5', "-2 ** 126 .. 2 ** 126"), 'empty_range_alone': ('V', '5 .. 4'),
        'long_type': ('L', "Long'First .. Long'Last - 1"), 'base_range_of_a_conversion': ('(Low (3))', '1 .. 5')}
    for name, (selector, *choices) in bad.items():
        alternatives = [f'when {choice} => X := {at} + A;' for at, choice in enumerate(choices)]
        text = selecting(*alternatives, selector=selector, before=starts.get(selector, ()), pre='A in 0 .. 10')
        yield refused(f'choices_with_{name}.adb', text.replace('case ', '@case ', 1), 'N17')


def rules_of_choices():
    """N17 comes first, but not where the selector or a choice breaks a rule; then these, and the statements, in the order of the text."""
    for name, (rule, selector, *alternatives) in {
            'boolean_selector': ('N10', '@F', 'when True => X := 1; when False => X := 2;'), 'relation_for_a_selector': ('N10', 'A @= 1', 'when others => X := A;'),
            'no_selector': ('N1', '@Y', 'when others => X := A;'), 'type_for_a_selector': ('N3', '@Small', 'when others => X := A;'),
            'choice_of_another_type': ('N10', 'A', 'when @Red => X := 1; when others => X := 2;'),
            'truth_value_for_a_choice': ('N10', 'A', 'when @True => X := 1; when others => X := 2;'),
            'number_for_a_literal': ('N10', 'H', 'when @1 => X := 1; when others => X := 2;'),
            'choice_of_another_number_type': ('N10', 'A', "when @Small'Last => X := 1; when others => X := 2;"),
            'typed_choice_of_a_number': ('N10', '5', "when @Integer'Last => X := 1; when others => X := 2;"),
            'variable_for_a_choice': ('N11', 'A', 'when @A => X := 1; when others => X := 2;'),
            'sum_with_a_variable': ('N11', 'A', 'when 1 | A @+ 1 => X := 1; when others => X := 2;'),
            'high_variable': ('N11', 'A', 'when 1 .. @A => X := 1; when others => X := 2;'),
            'high_of_another_type': ('N10', 'A', 'when 1 .. @Blue => X := 1; when others => X := 2;'),
            'wide_choice': ('N12', 'A', 'when @2147483648 => X := 1; when others => X := 2;'),
            'wide_high_choice': ('N12', 'A', 'when 1 .. @2 ** 31 => X := 1; when others => X := 2;'.replace('@2 **', '2 @**')),
            'static_fault_in_a_choice': ('N12', 'A', 'when 1 @/ 0 => X := 1; when others => X := 2;'),
            'no_choice_of_the_name': ('N1', 'A', 'when @Y => X := 1; when others => X := 2;'),
            'type_for_a_choice': ('N3', 'A', 'when @Natural => X := 1; when others => X := 2;'),
            'statement_of_another_type': ('N10', 'A', 'when 1 => X := @True; when others => X := 2;'),
            'target_that_is_none': ('N1', 'A', 'when 1 => X := 1; when others => @Y := 2;'),
            # a breach in a part comes before missing values, and statements come between choices
            'missing_values_and_a_variable': ('N11', 'A', 'when @A => X := 1;'), 'missing_values_and_no_selector': ('N1', '@Y', 'when 1 => X := 1;'),
            'statement_before_a_choice': ('N10', 'A', 'when 1 => X := @True; when Y => X := 1; when others => X := 2;'),
            'choice_before_a_statement': ('N1', 'A', 'when @Y => X := True; when others => X := 2;'),
            'value_twice_and_a_later_variable': ('N11', 'A', 'when 1 | 1 => X := 1; when @A => X := 3; when others => X := 2;'),
            'constant_for_a_target': ('U2', 'A', 'when 1 => X := 1; when others => @Three := 2;'),
            'formal_for_a_target': ('U2', 'A', 'when 1 => @A := 1; when others => X := 2;')}.items():
        yield refused(f'case_with_{name}.adb', selecting(*alternatives, selector=selector, declared='; Three : constant Integer := 3'), rule)
    for name, text in {
            'no_selector': selecting('when others => X := 1; when 1 => X := A;', selector='Y'),
            'a_variable': selecting('when others => X := 1; when A => X := A;'),
            'a_statement_that_fails': selecting('when 1 | 1 => X := Y; when others => X := A;')}.items():
        yield refused(f'choices_before_{name}.adb', text.replace('case ', '@case ', 1), 'N17')
    yield refused('breach_before_a_case.adb', selecting('when 1 => X := A;', before=('X := @Y',)), 'N1')
    yield refused('breach_after_a_case.adb', selecting('when others => X := A;', after=('X := @Y',)), 'N1')
    yield refused('case_in_a_case.adb', selecting('when 1 => @case A is when 1 => X := 1; end case; when others => X := 2;'), 'N17')


def conditions_of_cases():
    """What each alternative knows of the selector; checks of the selector come once, before all of them."""
    for name, alternatives, total in (
            ('value', 'when 5 => X := A + 1; when others => X := 0;', 3), ('range', 'when 1 .. 5 => X := A + 1; when others => X := 0;', 3),
            ('two_values', 'when 5 | 6 => X := A <1o>+ 1; when others => X := 0;', 3),
            ('others_after_a_value', 'when 0 => X := 0; when others => X := 10 mod A;', 3),
            ('others_after_another_value', 'when 1 => X := 0; when others => X := 10 <2d>mod A;', 3),
            ('others_after_two_values', 'when 1 | 0 => X := 0; when others => X := 10 <2d>mod A;', 3),
            ('others_after_two_alternatives', 'when 1 => X := 0; when 0 => X := 1; when others => X := 10 mod A;', 4),
            ('others_after_a_range', "when 5 .. Integer'Last => X := 0; when others => X := A <2o>+ 1;", 3),
            ('others_alone', 'when others => X := A <1o>+ 1;', 2), ('last_without_others', "when Integer'First .. 4 => X := A + 1; when 5 .. Integer'Last => X := A - 1;", 4),
            ('last_that_is_too_large', "when Integer'First .. 4 => X := A + 1; when 5 .. Integer'Last => X := A <3o>+ 1;", 4),
            ('empty_range', "when 5 .. 4 => X := A + 1; when others => X := A <3o>+ 1;", 4),
            ('earlier_alternative', 'when 1 .. 5 => X := 0; when 6 => X := A + 1; when 7 .. 8 => X := A - 1; when others => X := 0;', 6),
            ('null', 'when 1 => null; X := 1; when others => X := A;', 2)):
        yield left_at(f'case_knows_{name}.adb', selecting(alternatives), total)
    yield left_at('case_over_a_sum.adb', selecting('when 1 => X := 1; when 2 => X := 2; when others => X := 3;', selector='A <1o>+ 1'), 4)
    yield left_at('case_over_a_conversion.adb', selecting('when 1 .. 2 => X := A; when 3 .. 5 => X := 2;', selector='Low (<1r>A)'), 3)
    yield left_at('case_over_a_conversion_within.adb', selecting('when 1 .. 2 => X := A; when 3 .. 5 => X := 2;', selector='Low (A)', pre='A in 1 .. 5'), 3)
    succ = "when Red .. Green => K := Hue'Succ (H); when Blue => K := Red;"
    yield left_at('case_over_literals.adb', selecting(succ, selector='H', before=("H := Hue'Val (A)",), after=('if K = Red then X := 1; else X := 0; end if',), pre='A in 0 .. 3'), 9)
    past = "when Red .. Blue => K := Hue'Succ (<3r>H);"
    yield left_at('case_over_all_literals.adb', selecting(past, selector='H', before=("H := Hue'Val (A)",), after=('if K = Red then X := 1; else X := 0; end if',), pre='A in 0 .. 3'), 6)
    yield left_at('case_then_a_sum.adb', selecting('when 1 => X := 1; when others => X := 2;', after=('X := X + A * 0',)), 8)
    yield left_at('case_that_changes_its_selector.adb',
                  longer(X, 'X from X', "case X is when 0 .. 5 => X := X + 1; X := X + 1; when others => X := 0; end case", 'X := X + 1'), 9)
    yield left_at('case_in_an_if.adb', longer(A_TO_X, 'X from A', 'if A > 0 then case A is when 1 => X := A + 1; when others => X := A - 1; end case; else X := 0; end if'), 5)
    yield left_at('if_in_a_case.adb', selecting('when 0 .. 10 => if A > 5 then X := A - 5; else X := A + 5; end if; when others => X := 0;'), 5)
    yield left_at('case_in_an_alternative.adb', selecting('when 0 .. 10 => case A is when 0 .. 5 => X := A + 1; when others => X := A - 6; end case; when others => X := 0;'), 5)
    yield left_at('case_over_a_number.adb', longer(A_TO_X, 'X from A', 'case 3 is when 3 => X := A; when others => X := A + 1; end case'), 3)
    for many, text in ((64, accepted), (65, None)):
        alternatives = ' '.join(f'when {at} => X := {at};' for at in range(1, many)) + ' when others => X := 0;'
        found = longer(A_TO_X, 'X from A', f'case A is {alternatives} end case', f'case X is {alternatives} end case')
        if text:
            yield accepted('cases_with_4096_paths.adb', found, 64 + 4096)
        else:
            yield Case('cases_with_4225_paths.adb', encoded(found), 'limit: paths, at most 4096\n', 6)


def flow_of_cases():
    """What a selector reads comes to all that an alternative sets; a finding on it is at `case`."""
    yield refused('missing_flow_by_a_selector.adb',
                  longer(A_TO_X, '@X from & null from A', 'case A is when 1 => X := 1; when others => X := 2; end case'), 'F1 missing: X from A')
    yield refused('missing_flow_by_the_selector_of_one_alternative.adb',
                  longer(A_TO_X, '@X from & null from A', 'case A is when others => X := 1; end case'), 'F1 missing: X from A')
    yield refused('unused_flow_through_a_case.adb',
                  longer('A, B : in Integer; X : out Integer', '@X from A, B', 'case A is when 1 => X := 1; when others => X := 2; end case'), 'F2 unused: X from B')
    yield refused('selector_of_nothing.adb', longer(A_TO_X, 'X from A', '@case A is when 1 => null; when others => null; end case', 'X := A'), 'F3')
    yield refused('selector_of_what_is_lost.adb',
                  longer(A_TO_X, 'X from A', '@case A is when 1 => @T := 1; when others => null; end case', 'X := A', declared=T), 'F3', 'F3')
    yield refused('selector_of_what_is_overwritten.adb',
                  longer(A_TO_X, 'X from A', '@case A is when 1 => @X := 1; when others => @X := 2; end case', 'X := A'), 'F3', 'F3', 'F3')
    yield refused('unset_selector.adb', longer(A_TO_X, 'X from & null from A', 'case @T is when 1 => X := 1; when others => X := 2; end case', declared=T), 'F4 unset: T')
    yield refused('unset_in_one_alternative.adb',
                  longer(A_TO_X, 'X from A', 'case A is when 1 => T := 1; when 2 => null; when others => T := 2; end case', 'X := @T', declared=T), 'F4 unset: T')
    yield refused('unset_export_after_a_case.adb',
                  longer(A_TO_X, '@X from A', 'case A is when 1 => X := 1; when others => null; end case').replace('end Inc', '@end Inc'),
                  'F1 missing: X from X', 'F4 unset: X')
    yield refused('read_in_a_later_alternative.adb',
                  longer(A_TO_X, 'X from A', 'case A is when 1 => T := 1; X := T; when others => X := @T; end case', declared=T), 'F4 unset: T')
    yield accepted('set_in_each_alternative.adb',
                   longer(A_TO_X, 'X from A', 'case A is when 1 => T := 1; when 2 | 3 => T := 3; when others => T := 2; end case', 'X := T', declared=T), 6)
    yield accepted('flow_through_two_alternatives.adb',
                   longer('A, B, C : in Integer; X : out Integer', 'X from A, B, C', 'case A is when 1 => X := B; when others => X := C; end case'), 2)
    yield accepted('kept_in_one_alternative.adb', longer('A : in Integer; X : in out Integer', 'X from X, A', 'case A is when 1 => X := 1; when others => null; end case'), 1)
    yield refused('kept_value_that_is_not_declared.adb',
                  longer(A_AND_X, '@X from A & null from X', 'case A is when 1 => X := 1; when others => null; end case'), 'F1 missing: X from X')


def syntax_of_cases():
    """Tokens with which no `case` goes on, and the levels that it opens."""
    for name, statement in {
            'no_alternative': 'case A is @end case', 'statement_for_an_alternative': 'case A is @null; end case', 'no_statement': 'case A is when 1 => @end case',
            'no_statement_before_when': 'case A is when 1 => @when others => X := A; end case', 'colon_after_a_choice': 'case A is when 1 @: X := A; end case',
            'comma_between_choices': 'case A is when 1@, 2 => X := A; end case', 'bar_after_others': 'case A is when others @| 1 => X := A; end case',
            'others_among_choices': 'case A is when 1 | @others => X := A; end case', 'relation_for_a_choice': 'case A is when A @> 1 => X := A; end case',
            'condition_for_a_choice': 'case A is when 1 @and 2 => X := A; end case', 'named_range': 'case A is when 1 .. 5 @.. 6 => X := A; end case',
            'type_with_a_range': 'case A is when Integer @range 1 .. 5 => X := A; end case', 'box': 'case A is when @<> => X := A; end case',
            'end_if': 'case A is when others => X := A; end @if', 'name_after_the_end': 'case A is when others => X := A; end case @A',
            'then_for_is': 'case A @then when others => X := A; end case', 'else': 'case A is when 1 => X := A; @else X := 1; end case',
            'elsif': 'case A is when 1 => X := A; @elsif A > 1 then X := 1; end case', 'two_selectors': 'case A@, A is when others => X := A; end case'}.items():
        yield unexpected(f'case_with_{name}.adb', longer(A_TO_X, 'X from A', statement))
    for name, statement in {'a_marked_case': '--# @case A is', 'a_marked_when': 'case A is\n--# @when 1', 'a_marked_choice': 'case A is when --# @1',
                            'a_marked_end': 'case A is when others => X := A;\n--# @end case'}.items():
        yield unexpected(f'{name}.adb', longer(A_TO_X, 'X from A', statement))
    yield unexpected('case_among_declarations.adb', longer(A_TO_X, 'X from A', 'X := A', declared=['@case A is when others => null; end case']))
    yield unexpected('case_in_an_expression.adb', longer(A_TO_X, 'X from A', 'X := @case A is when others => A'))
    yield unexpected('when_without_a_case.adb', longer(A_TO_X, 'X from A', '@when 1 => X := A'))
    yield accepted('case_on_several_lines.adb', longer(A_TO_X, 'X from A', 'case\nA -- a selector\nis\nWhen 1\n|\n2 ..\n3\n=>\nX := 1; WHEN Others => X := A; end\nCASE'), 2)
    others = 'when others => X := A; end case'
    yield accepted('selector_of_200_levels.adb', longer(A_TO_X, 'X from A', f'case {nested(199, "A")} is {others}'), 1)
    yield too_nested('selector_of_201_levels.adb', longer(A_TO_X, 'X from A', f'case {nested(200, "A")} is {others}'))
    yield accepted('choice_of_200_levels.adb', longer(A_TO_X, 'X from A', f'case A is when {nested(199)} => X := 1; {others}'), 2)
    yield too_nested('choice_of_201_levels.adb', longer(A_TO_X, 'X from A', f'case A is when {nested(200)} => X := 1; {others}'))
    yield too_nested('high_choice_of_201_levels.adb', longer(A_TO_X, 'X from A', f'case A is when 1 .. {nested(200)} => X := 1; {others}'))
    yield accepted('cases_of_200_levels.adb', longer(A_TO_X, 'X from A', 'case A is when others => ' * 200 + 'X := A; ' + 'end case; ' * 199 + 'end case'), 1)
    yield too_nested('cases_of_201_levels.adb', longer(A_TO_X, 'X from A', 'case A is when others => ' * 201 + 'X := A; ' + 'end case; ' * 200 + 'end case'))
    yield accepted('cases_in_a_row.adb',
                   longer(A_TO_X, 'X from A', 'case A is when 1 => X := 1; when others => X := A; end case', 'case X is when others => X := X + 0; end case'), 6)
    yield too_nested('assigned_value_in_200_cases.adb', longer(A_TO_X, 'X from A', 'case A is when others => ' * 200 + 'X := (A); ' + 'end case; ' * 199 + 'end case'))


# ---------------------------------------------------------------- annotations among statements, and postconditions

TRUTHS = 'A, B : in Boolean; X : in out Boolean'


def checking(condition, *statements, pre=None, post=None, params=X, derives='X from X', declared=()):
    """The text of a procedure with statements, and a `check` after them."""
    return longer(params, derives, *statements, f'--# check {condition}', pre=pre, post=post, declared=declared)


def ending(post, *statements, pre=None, params=X, derives='X from X', declared=()):
    """The text of a procedure with a postcondition."""
    return longer(params, derives, *statements, pre=pre, post=post, declared=declared)


def places_of_checks():
    """Where a `check` may be, and how it is written."""
    yield accepted('check_alone.adb', longer(None, None, '--# check True'), 1)
    yield accepted('check_first.adb', longer(X, 'X from X', '--# check X = X', 'X := X'), 2)
    yield accepted('check_last.adb', checking('X = X', 'X := X'), 2)
    yield accepted('checks_in_a_row.adb', checking('X = X', 'X := X', '--# check X <= X', '--# check X >= X'), 4)
    yield accepted('check_in_arms.adb', longer(X, 'X from X', 'if X > 0 then\n--# check X > 0;\nX := X; else\n--# check X <= 0;\nX := X; end if'), 4)
    yield accepted('check_in_alternatives.adb',
                   longer(A_TO_X, 'X from A', 'case A is when 1 =>\n--# check A = 1;\nX := 1; when others =>\n--# check not (A = 1);\nX := A; end case'), 4)
    yield accepted('check_on_several_lines.adb', longer(X, 'X from X', 'X := X', '--# CHECK X\n  --#   = -- a comment\n  --#\n--# X'), 2)
    yield accepted('check_on_a_line_of_code.adb', longer(X, 'X from X', 'X := X; --# check X = X'), 2)
    yield accepted('check_as_a_name_in_code.adb', longer(OUT_X, 'X from', 'check := 1', 'X := check', declared=['check : Integer']), 2)


def syntax_of_checks():
    """Tokens with which no `check` and no postcondition goes on."""
    for name, statement in {
            'check_in_code': 'check @X > 0', 'check_without_a_condition': '--# check @', 'two_conditions_of_a_check': '--# check X > 0@, X < 5',
            'assignment_in_a_check': '--# check X @:= 1', 'pre_among_statements': '--# @pre X > 0',
            'post_among_statements': '--# @post X > 0', 'name_before_check': '--# @X check X > 0', 'unmarked_condition': '--# check\n@X > 0',
            'condition_half_marked': '--# check X >\n@0', 'null_marked': '--# @null', 'assignment_marked': '--# @X := 1'}.items():
        yield unexpected(f'{name}.adb', longer(X, 'X from X', 'X := X', statement))
    yield unexpected('check_with_an_unmarked_semicolon.adb', longer(X, 'X from X', 'X := X', '--# check X > 0\n@'))
    yield unexpected('check_without_a_semicolon.adb', longer(X, 'X from X', 'X := X;\n--# check X > 0\n@X := X'))
    yield unexpected('check_among_declarations.adb', longer(X, 'X from X', 'X := X', declared=['--# @check X > 0']))
    yield unexpected('no_statement_after_begin.adb', 'procedure P is begin @end P;\n')
    heading = 'procedure Inc (X : in out Integer)\n--# derives X from X;\n'
    body = 'is\nbegin\n   X := X;\nend Inc;\n'
    yield unexpected('post_before_pre.adb', heading + '--# post X = X;\n--# @pre X = X;\n' + body)
    yield unexpected('two_posts.adb', heading + '--# post X = X;\n--# @post X = X;\n' + body)
    yield unexpected('post_after_is.adb', heading + 'is\n--# @post X = X;\nbegin\n   X := X;\nend Inc;\n')
    yield unexpected('post_before_derives.adb', 'procedure Inc (X : in out Integer)\n--# post X = X;\n--# @derives X from X;\n' + body)
    yield unexpected('post_without_a_condition.adb', heading + '--# post @;\n' + body)
    yield unexpected('post_without_a_semicolon.adb', heading + '--# post X = X\n@' + body)
    yield unexpected('unmarked_post.adb', heading + '@post X = X;\n' + body)
    yield accepted('post_alone.adb', 'procedure P\n--# post True;\nis begin null; end P;\n', 1, 'P')
    yield accepted('post_as_a_name_in_code.adb', longer(OUT_X, 'X from', 'post := 1', 'X := post', declared=['post : Integer']), 2)


def syntax_of_predicates():
    """Implications, equivalences and values on entry, and tokens with which they do not go on."""
    well = {'implication': 'A -> B', 'equivalence': 'A <-> B', 'implication_of_chains': 'A and B -> A or B', 'implication_of_relations': 'A = B -> A /= B',
            'implication_of_negations': 'not A -> not B', 'implication_on_the_left': '(A -> B) -> A', 'implication_on_the_right': 'A -> (B -> A)',
            'equivalence_in_a_chain': '(A <-> B) and (B -> A)', 'implication_under_not': 'not (A -> B)', 'implication_in_parentheses': '((A -> B))',
            'values_on_entry': 'X~ -> X', 'value_on_entry_under_not': 'not X~', 'value_on_entry_in_parentheses': '(X~)', 'spaced_value_on_entry': 'X ~ = X',
            'short_circuit_and_implication': 'A and then B -> A or else B', 'parenthesized_operand': "Boolean'((A -> B))"}
    # What follows from its own left side is closed.
    closed = ('implication_of_chains', 'implication_on_the_right', 'short_circuit_and_implication')
    for name, condition in well.items():
        mark, row = ('', ('Inc', 1)) if name in closed else ('@', ('Inc', 1, 1))
        for word, text in (('check', longer(TRUTHS, 'X from X, A, B', 'X := X and A and B', f'--# {mark}check {condition}')),
                           ('post', longer(TRUTHS, f'X from X, A, B;\n--# {mark}post {condition}', 'X := X and A and B'))):
            yield examined(f'{name}_in_{word}.adb', text, (*row[:2], *((number, word) for number in row[2:])))
    spoiled = {'two_implications': 'A -> B @-> A', 'two_equivalences': 'A <-> B @<-> A', 'equivalence_after_an_implication': 'A -> B @<-> A',
               'no_left_side': '@-> B', 'no_right_side': 'A -> @', 'implication_after_not': 'not @-> B', 'arrow_for_an_implication': 'A @=> B',
               'implication_in_a_conversion': 'Boolean (A @-> B)', 'implication_in_a_qualification': "Boolean'(A @-> B)",
               'value_on_entry_of_parentheses': '(X)@~', 'value_on_entry_of_a_number': '5@~ = 5',
               'tilde_before_a_name': '@~X', 'brackets': 'A @[B]'}
    for name, condition in spoiled.items():
        yield unexpected(f'{name}_in_check.adb', longer(TRUTHS, 'X from X, A, B', 'X := X and A and B', f'--# check {condition}'))
    nowhere = {'two_tildes': '@X~~', 'attribute_of_a_value_on_entry': "@X~'First = 1", 'value_on_entry_of_an_attribute': "@Integer'First~ = 1",
               'operand_of_a_value_on_entry': '@X~ (A)', 'value_on_entry_of_a_function': "@Boolean'(A)~", 'value_on_entry_as_a_type': 'X in @X~'}
    for name, condition in nowhere.items():
        yield refused(f'{name}_in_check.adb', longer(TRUTHS, 'X from X, A, B', 'X := X and A and B', f'--# check {condition}'), 'N3')
    yield unexpected('implication_in_code.adb', longer(TRUTHS, 'X from X, A, B', 'if A -@> B then X := X; end if'))
    yield bad_byte('value_on_entry_in_code.adb', longer(X, 'X from X', 'X := X@~ + 1'))
    yield refused('value_on_entry_in_derives.adb', procedure('X', derives='@X~ from X'), 'N3')
    yield refused('import_on_entry_in_derives.adb', procedure('X', derives='X from @X~'), 'N3')
    yield accepted('predicate_of_200_levels.adb', checking(f'{nested(199, "True")} -> True', 'X := X'), 2)
    yield too_nested('predicate_of_201_levels.adb', checking(f'{nested(200, "True")} -> True', 'X := X'))
    yield too_nested('right_side_of_201_levels.adb', checking(f'True -> {nested(200, "True")}', 'X := X'))
    yield accepted('post_of_200_levels.adb', ending(nested(200, 'True'), 'X := X'), 2)
    yield too_nested('post_of_201_levels.adb', ending(nested(201, 'True'), 'X := X'))
    yield accepted('check_in_200_ifs.adb', longer(X, 'X from X', 'if True then ' * 200 + 'X := X;\n--# check True;\n' + 'end if; ' * 199 + 'end if'), 2)
    yield too_nested('check_with_a_level_in_200_ifs.adb', longer(X, 'X from X', 'if True then ' * 200 + 'X := X;\n--# check (True);\n' + 'end if; ' * 199 + 'end if'))


# A text with all that annotations among statements and postconditions are made of, token by token.
PIECES = ('procedure', 'Inc', '(', 'X', ':', 'in', 'out', 'Integer', ')', '\n--#', 'derives', 'X', 'from', 'X', ';', '\n--#', 'pre', 'X', '>', '5', '->', 'X', '>', '6', ';',
          '\n--#', 'post', '(', 'X', '=', 'X', '~', '<->', 'X', '=', 'X', ')', '->', 'True', ';', '\nis', 'begin', '\n--#', 'check', 'X', '~', '=', 'X', '->', 'True', ';',
          '\nX', ':=', 'X', ';', '\nif', 'X', '>', '0', 'then', 'X', ':=', 'X', ';', '\n--#', 'check', 'X', '=', '0', 'or', 'True', ';', '\nend', 'if', ';',
          '\nwhile', 'X', '>', '0', 'loop', '\n--#', 'assert', 'X', '>', '0', ';', '\nX', ':=', 'X', ';', '\nend', 'loop', ';',
          '\n--#', 'assert', 'X', '=', 'X', 'or', 'True', ';', '\nend', ';', '\n')


def cut_and_spoiled():
    """The text that is cut before each of its tokens ends too early. With `abort` before one it is stopped there."""
    whole = ' '.join(PIECES)
    yield accepted('pieces.adb', whole, 12)
    for at, piece in enumerate(PIECES[:-1]):
        before = ' '.join(PIECES[:at])
        if piece != '\n--#':
            if at:
                yield unexpected(f'pieces_up_to_{at}.adb', before + '@')
            lead = piece[:1] if piece.startswith('\n') else ''
            yield unexpected(f'abort_before_{at}.adb', f'{before} {lead}@abort {" ".join((piece[len(lead):],) + PIECES[at + 1:])}')


def rules_of_predicates():
    """Which values on entry may be named where, and what annotations must be."""
    with_a = {'params': A_TO_X, 'derives': 'X from A'}
    both = {'params': 'A : in Integer; X : in out Integer', 'derives': 'X from A, X'}
    for name, condition, others, *rules in (
            ('import_on_entry', '@A~ = A', with_a, 'N18'), ('export_on_entry', '@X~ = X', with_a, 'N18'),
            ('second_value_on_entry', 'X~ = @A~', both, 'N18'),
            ('undeclared_on_entry', '@Y~ = X', both, 'N1'), ('type_on_entry', '@Integer~ = X', both, 'N3'), ('literal_on_entry', '@True~', both, 'N3'),
            ('procedure_on_entry', '@Inc~ = X', both, 'N3'), ('value_on_entry_before_an_undeclared', '@A~ = Y', both, 'N18'),
            ('undeclared_before_a_value_on_entry', '@Y = A~', both, 'N1'), ('number_for_a_predicate', '@X', both, 'N10'),
            ('sum_for_a_predicate', 'X @+ 1', both, 'N10'), ('value_on_entry_for_a_predicate', '@X~', both, 'N10'),
            ('implication_from_a_number', 'X @-> True', both, 'N10'), ('implication_to_a_number', 'True @-> X', both, 'N10'),
            ('equivalence_of_numbers', 'X~ @<-> X', both, 'N10'), ('static_fault', '1 @/ 0 = X', both, 'N12'),
            ('wide_number_for_a_value_on_entry', 'X~ = @2147483648', both, 'N12'), ('value_on_entry_of_another_type', 'X~ @= True', both, 'N10')):
        yield refused(f'{name}_in_check.adb', checking(condition, 'X := A', **others), *rules)
        yield refused(f'{name}_in_post.adb', ending(condition, 'X := A', **others), *rules)
        # A precondition names no value on entry.
        in_pre = (condition.replace('@', '').replace('X~', '@X~'), 'N18') if 'X~' in condition else (condition, *rules)
        yield refused(f'{name}_in_pre.adb', longer(others['params'], others['derives'], 'X := A', pre=in_pre[0]), *in_pre[1:])
    yield refused('local_on_entry.adb', checking('@V~ = 1', 'V := 1', 'X := V', params=OUT_X, derives='X from', declared=['V : Integer']), 'N18')
    yield refused('initialized_on_entry.adb', checking('@V~ = 1', 'X := V', params=OUT_X, derives='X from', declared=['V : Integer := 1']), 'N18')
    yield refused('constant_on_entry.adb', checking('@C~ = 1', 'X := C', params=OUT_X, derives='X from', declared=['C : constant Integer := 1']), 'N3')
    yield refused('local_in_post.adb', ending('@V = 1', 'V := 1', 'X := V', params=OUT_X, derives='X from', declared=['V : Integer']), 'N1')
    yield accepted('export_that_starred_imports_on_entry.adb', checking('X~ = X~', 'X := X', derives='X from *'), 2)
    yield accepted('ignored_import_on_entry.adb', ending('X~ = X~', 'X := 0', derives='X from & null from X'), 2)
    yield accepted('import_of_another_item_on_entry.adb', ending('X~ = X~', 'Y := X', 'X := 0', params='X : in out Integer; Y : out Integer', derives='Y from X & X from'), 3)
    yield accepted('static_predicates.adb', checking('(1 < 2 -> True) and (2 < 1 <-> False)', 'X := X', post='True and then 1 = 1'), 3)
    yield refused('breach_in_pre_before_post.adb', longer(X, 'X from X', 'X := X', pre='@Y = 0', post='Z = 0'), 'N1')
    yield refused('breach_in_post_before_declarations.adb', longer(X, 'X from X', 'X := X', post='@Z = 0', declared=['V : Y']), 'N1')
    yield refused('breach_in_a_declaration_before_check.adb', longer(X, 'X from X', '--# check Z', 'X := X', declared=['V : @Y']), 'N1')
    yield refused('breaches_in_statements_in_order.adb', longer(X, 'X from X', '--# check @Z', 'X := Y'), 'N1')
    yield refused('u11_before_u2.adb', longer(A_TO_X, 'X from A', 'X := A', 'A := 1', pre='@X = 0'), 'U11')
    yield refused('check_before_a_bad_target.adb', longer(A_TO_X, 'X from A', '--# check A = A', 'X := A', '@A := 1'), 'U2')


def flow_of_checks():
    """A `check` reads, and nothing flows from it."""
    yield refused('local_unset_in_a_check.adb', checking('@V = 1', 'X := X', declared=['V : Integer']), 'F4 unset: V')
    yield refused('export_unset_in_a_check.adb', longer(OUT_X, 'X from', '--# check @X = 1', 'X := 1'), 'F4 unset: X')
    yield refused('unset_twice_in_a_check.adb', checking('@V = 1 and @V = 2', 'X := X', declared=['V : Integer']), 'F4 unset: V', 'F4 unset: V')
    yield refused('unset_where_it_need_not_be_read.adb', checking('X = X or else @V = 1', 'X := X', declared=['V : Integer']), 'F4 unset: V')
    yield refused('set_in_one_arm_before_a_check.adb', longer(X, 'X from X', '@if X > 0 then @V := X; end if', '--# check @V = 1', 'X := X', declared=['V : Integer']), 'F3', 'F3', 'F4 unset: V')
    yield refused('unset_in_a_check_of_an_arm.adb', longer(X, 'X from X', 'if X > 0 then\n--# check @V = 1;\nX := X; end if', declared=['V : Integer']), 'F4 unset: V')
    yield accepted('set_before_a_check.adb', longer(X, 'X from X', 'V := X', '--# check V = X', 'X := V', declared=['V : Integer']), 3)
    yield accepted('initialized_before_a_check.adb', checking('V = 1', 'X := X', declared=['V : Integer := 1']), 2)
    yield refused('value_for_a_check_only.adb', longer(X, 'X from X', '@V := X', '--# check V = X', 'X := X', declared=['V : Integer']), 'F3')
    yield refused('import_for_a_check_only.adb', longer('A : in Integer; X : in out Integer', '@X from X, A', '--# check A = A', 'X := X'), 'F2 unused: X from A')
    yield accepted('ignored_import_in_a_check.adb', longer('A : in Integer; X : in out Integer', 'X from X & null from A', '--# check A = A', 'X := X'), 2)
    yield refused('if_around_a_check_only.adb', longer(X, 'X from X', '@if X > 0 then\n--# check X > 0;\nend if', 'X := X'), 'F3')
    yield refused('post_sets_nothing.adb', at_end(longer(OUT_X, '@X from', 'null', post='X = X')), 'F1 missing: X from X', 'F4 unset: X')


def conditions_of_annotations():
    """What there is to show of a `check` and of a postcondition, and what is known after a `check`."""
    yield examined('false_check.adb', longer(X, 'X from X', '--# @check X > 0', 'X := X'), ('Inc', 2, (1, 'check')))
    yield accepted('check_that_a_precondition_says.adb', checking('X > 0', 'X := X', pre='X > 0'), 2)
    yield accepted('check_of_what_was_assigned.adb', longer(A_TO_X, 'X from A', 'X := A', '--# check X = A'), 2)
    yield examined('check_before_an_assignment.adb', longer(A_TO_X, 'X from A', '--# @check A = 1', 'X := A', '--# check X = 1'), ('Inc', 3, (1, 'check')))
    yield examined('sum_after_a_check.adb', longer(X, 'X from X', '--# @check X < 100', 'X := X + 1'), ('Inc', 3, (1, 'check')))
    yield examined('sum_before_a_check.adb', longer(X, 'X from X', 'X := X @+ 1', '--# @check X < 100'), ('Inc', 3, 1, (3, 'check')))
    yield examined('contradiction_after_a_check.adb', longer(X, 'X from X', '--# @check False', 'X := X + 1'), ('Inc', 3, (1, 'check')))
    yield examined('two_goals_of_a_check.adb', longer(X, 'X from X', '--# @check X > 0 and X < 10', 'X := X + 1'), ('Inc', 3, (1, 'check')))
    yield accepted('two_goals_that_are_known.adb', checking('X > 0 and X < 10', 'X := X', pre='X < 10 and X > 0'), 2)
    yield accepted('one_goal_of_two_is_a_disjunction.adb', checking('X > 0 or X < 10', 'X := X', pre='X > 5'), 2)
    yield accepted('implication_with_its_right_side.adb', checking('X < 3 -> X > 0', 'X := X', pre='X > 0'), 2)
    yield accepted('implication_with_its_left_side.adb', checking('X > 4 -> X > 0', 'X := X'), 2)
    yield accepted('implication_of_itself.adb', checking('(X > 0 and X < 5) -> X < 5', 'X := X'), 2)
    yield accepted('implication_that_is_known.adb', checking('X > 0 -> X < 9', 'X := X', pre='X > 0 -> X < 9'), 2)
    yield examined('implication_that_is_not_used.adb', longer(X, 'X from X', '--# @check X < 9', 'X := X', pre='X > 0 and (X > 0 -> X < 9)'), ('Inc', 2, (1, 'check')))
    yield accepted('equivalence_with_true.adb', checking('(X > 0) <-> True', 'X := X', pre='X > 0'), 2)
    yield accepted('equivalence_with_false.adb', checking('False <-> (X > 0)', 'X := X', pre='X < 1'), 2)
    yield accepted('equivalence_that_is_known.adb', checking('A <-> B', 'X := X', pre='A <-> B', params=TRUTHS, derives='X from X & null from A, B'), 1)
    yield examined('equivalence_the_other_way.adb', longer(TRUTHS, 'X from X & null from A, B', '--# @check B <-> A', 'X := X', pre='A <-> B'), ('Inc', 1, (1, 'check')))
    yield accepted('check_of_a_literal.adb', checking('V = 5 and V > 4', 'X := X', declared=['V : Integer := 5']), 2)
    yield accepted('positive_after_a_check.adb', longer('A : in Integer; X : out Positive', 'X from A', '--# check A > 0', 'X := A', pre='A > 0'), 2)
    yield examined('checks_of_a_check_are_none.adb', longer(A_TO_X, 'X from A', '--# @check A / 0 = 0', 'X := A').replace('A / 0', 'A / (A - A)'), ('Inc', 2, (1, 'check')))
    yield accepted('sum_in_a_check_has_no_bound.adb', checking('X + 1 > X - 1 or True', 'X := X'), 2)
    yield examined('range_before_and_after.adb', longer(X, 'X from X', '--# @check X < 100', 'X := X + 1', '--# check X <= 100'), ('Inc', 4, (1, 'check')))
    # Postconditions.
    yield accepted('post_of_an_increment.adb', ending('X = X~ + 1', 'X := X + 1', pre="X < Integer'Last"), 3)
    yield examined('post_that_is_false.adb', ending('X = X~', 'X := X + 1', pre="X < Integer'Last").replace('post', '@post'), ('Inc', 3, (3, 'post')))
    yield accepted('post_of_an_exchange.adb', ending('X = Y~ and Y = X~', 'T := X', 'X := Y', 'Y := T', params='X, Y : in out Integer', derives='X from Y & Y from X', declared=['T : Integer']), 4)
    yield examined('post_of_half_an_exchange.adb',
                   ending('X = Y~ and Y = X~', 'X := Y', 'Y := X', params='X, Y : in out Integer', derives='X from Y & Y from Y & null from X').replace('post', '@post'), ('Inc', 3, (3, 'post')))
    yield accepted('post_of_two_paths.adb', ending('X >= 0', 'if A < 0 then X := 0; else X := A; end if', params=A_TO_X, derives='X from A'), 4)
    yield examined('post_of_one_path.adb', ending('X >= 0', 'if A < 1 then X := A; else X := 0; end if', params=A_TO_X, derives='X from A').replace('post', '@post'), ('Inc', 4, (2, 'post')))
    yield examined('post_of_both_paths.adb', ending('X > 5', 'if A < 1 then X := A; else X := 0; end if', params=A_TO_X, derives='X from A').replace('post', '@@post'), ('Inc', 4, (2, 'post'), (4, 'post')))
    yield accepted('post_of_alternatives.adb',
                   ending('X >= 0 and X <= 2', 'case A is when 1 => X := 0; when 2 | 3 => X := 1; when others => X := 2; end case', params=A_TO_X, derives='X from A'), 6)
    yield accepted('post_of_an_import.adb', ending('A > 0 -> X > 0', 'X := A', params=A_TO_X, derives='X from A'), 2)
    yield accepted('post_after_a_check.adb', checking('X = 7', 'X := 7', post='X = 7', params=OUT_X, derives='X from'), 3)
    yield accepted('post_that_says_nothing.adb', ending('True', 'X := X'), 2)
    yield examined('post_of_values_on_entry_only.adb', ending('X~ > 0', 'X := X').replace('post', '@post'), ('Inc', 2, (2, 'post')))
    yield accepted('value_on_entry_after_two_assignments.adb', checking('X = X~ and X~ = X', 'Y := X', 'X := Y', declared=['Y : Integer']), 3)
    yield accepted('value_on_entry_in_a_later_check.adb', longer(X, 'X from X', '--# check X = X~', 'X := X + 1', '--# check X = X~ + 1', pre='X < 10'), 4)
    yield examined('value_on_entry_is_not_the_present_one.adb', longer(X, 'X from X', 'X := X + 1', '--# @check X = X~', pre='X < 10'), ('Inc', 3, (3, 'check')))
    yield examined('truth_value_on_entry.adb', ending('X <-> X~', 'X := X', params='X : in out Boolean').replace('post', '@post'), ('Inc', 1, (1, 'post')))
    yield accepted('equal_truth_values.adb', ending('X = X~', 'X := X', params='X : in out Boolean'), 1)
    yield accepted('implied_truth_value.adb', ending('X~ -> X', 'X := X', params='X : in out Boolean'), 1)
    hue = 'type Hue is (Red, Green)'
    yield accepted('check_over_literals.adb', longer(OUT_X, 'X from', 'H := Green', '--# check H = Green and H > Red', "X := Hue'Pos (H)", declared=[hue, 'H : Hue']), 3)
    yield examined('twelve_ifs_and_a_post.adb', ending('True', *['if A > 0 then X := A; end if'] * 12, params='A : in Integer; X : in out Integer', derives='X from X, A'), ('Inc', 8191))


def asserting(condition, *statements, pre=None, post=None, params=X, derives='X from X', declared=()):
    """The text of a procedure with an `assert`, and statements after it."""
    return longer(params, derives, f'--# assert {condition}', *statements, pre=pre, post=post, declared=declared)


def places_of_assertions():
    """Where an `assert` may be, how it is written, and tokens with which none goes on."""
    yield accepted('assert_alone.adb', longer(None, None, '--# assert True'), 1)
    yield accepted('assert_first.adb', asserting('X = X', 'X := X'), 2)
    yield accepted('assert_last.adb', longer(X, 'X from X', 'X := X', '--# assert X = X'), 2)
    yield accepted('asserts_in_a_row.adb', longer(X, 'X from X', 'X := X', '--# assert X <= X', '--# assert X >= X'), 3)
    yield accepted('assert_in_arms.adb', longer(X, 'X from X', 'if X > 0 then\n--# assert X > 0;\nX := X; else\n--# assert X <= 0;\nX := X; end if'), 4)
    yield accepted('assert_in_alternatives.adb',
                   longer(A_TO_X, 'X from A', 'case A is when 1 =>\n--# assert A = 1;\nX := 1; when others =>\n--# assert not (A = 1);\nX := A; end case'), 4)
    yield accepted('assert_on_several_lines.adb', longer(X, 'X from X', 'X := X', '--# ASSERT X\n  --#   = -- a comment\n  --#\n--# X'), 2)
    yield accepted('assert_as_a_name_in_code.adb', longer(OUT_X, 'X from', 'assert := 1', 'X := assert', declared=['assert : Integer']), 2)
    for name, statement in {
            'assert_in_code': 'assert @X > 0', 'assert_without_a_condition': '--# assert @', 'two_conditions_of_an_assert': '--# assert X > 0@, X < 5',
            'assignment_in_an_assert': '--# assert X @:= 1', 'name_before_assert': '--# @X assert X > 0', 'unmarked_condition_of_an_assert': '--# assert\n@X > 0',
            'two_implications_in_an_assert': '--# assert X > 0 -> X > 0 @-> X > 0', 'check_after_assert': '--# assert @check X > 0'}.items():
        yield unexpected(f'{name}.adb', longer(X, 'X from X', 'X := X', statement))
    yield unexpected('assert_with_an_unmarked_semicolon.adb', longer(X, 'X from X', 'X := X', '--# assert X > 0\n@'))
    yield unexpected('assert_among_declarations.adb', longer(X, 'X from X', 'X := X', declared=['--# @assert X > 0']))
    yield accepted('assertion_of_200_levels.adb', asserting(nested(200, 'True'), 'X := X'), 2)
    yield too_nested('assertion_of_201_levels.adb', asserting(nested(201, 'True'), 'X := X'))


def rules_of_assertions():
    """The rules and the flow of an `assert` are those of a `check`."""
    yield refused('number_for_an_assertion.adb', asserting('@X', 'X := X'), 'N10')
    yield refused('undeclared_in_an_assertion.adb', asserting('@Y = X', 'X := X'), 'N1')
    yield refused('import_on_entry_in_an_assertion.adb', asserting('@A~ = A', 'X := A', params=A_TO_X, derives='X from A'), 'N18')
    yield refused('static_fault_in_an_assertion.adb', asserting('1 @/ 0 = X', 'X := X'), 'N12')
    yield refused('local_unset_in_an_assertion.adb', asserting('@V = 1', 'X := X', declared=['V : Integer']), 'F4 unset: V')
    yield refused('value_for_an_assertion_only.adb', longer(X, 'X from X', '@V := X', '--# assert V = X', 'X := X', declared=['V : Integer']), 'F3')
    yield refused('import_for_an_assertion_only.adb', longer('A : in Integer; X : in out Integer', '@X from X, A', '--# assert A = A', 'X := X'), 'F2 unused: X from A')


def facts_after_cuts():
    """After an `assert`, of what may have changed only what it says is known; types, and the precondition of the values on entry, are too."""
    yield examined('false_assertion.adb', longer(X, 'X from X', '--# @assert X > 0', 'X := X'), ('Inc', 2, (1, 'assert')))
    yield examined('assertion_of_false.adb', longer(X, 'X from X', '--# @assert False', 'X := X + 1'), ('Inc', 3, (1, 'assert')))
    yield examined('two_goals_of_an_assertion.adb', longer(X, 'X from X', '--# @assert X > 0 and X < 10', 'X := X + 1'), ('Inc', 3, (1, 'assert')))
    yield examined('precondition_on_an_export_is_lost.adb', asserting('True', 'X := X @+ 1', pre='X < 100'), ('Inc', 3, 2))
    yield accepted('precondition_that_is_asserted.adb', asserting('X < 100', 'X := X + 1', pre='X < 100'), 3)
    yield accepted('precondition_on_an_import_stays.adb', asserting('True', 'X := A', pre='A > 0', params='A : in Integer; X : out Positive', derives='X from A'), 2)
    yield examined('value_before_an_assertion_is_lost.adb', longer(OUT_X, 'X from', 'X := 1', '--# assert True', 'X := X @+ 1'), ('Inc', 4, 3))
    yield accepted('value_that_is_asserted.adb', longer(OUT_X, 'X from', 'X := 1', '--# assert X = 1', 'X := X + 1'), 4)
    yield accepted('value_of_a_local_that_is_asserted.adb', longer(OUT_X, 'X from', 'V := 1', '--# assert V = 1', 'X := V + 1', declared=['V : Integer']), 4)
    yield examined('initial_value_is_lost.adb', asserting('True', 'X := V @+ 1', params=OUT_X, derives='X from', declared=['V : Integer := 1']), ('Inc', 3, 2))
    yield accepted('constant_stays.adb', asserting('True', 'X := C + 1', params=OUT_X, derives='X from', declared=['C : constant Integer := 1']), 2)
    yield examined('fact_of_a_condition_is_lost.adb', longer(X, 'X from X', 'if X > 0 then\n--# assert True;\n--# @check X > 0;\nX := X; end if'), ('Inc', 3, (2, 'check')))
    yield examined('fact_of_a_check_is_lost.adb', longer(X, 'X from X', '--# @check X > 0', '--# assert True', '--# @check X > 0', 'X := X'), ('Inc', 4, (1, 'check'), (3, 'check')))
    yield examined('check_after_an_assertion.adb', longer(X, 'X from X', '--# assert True', '--# @check X < 100', 'X := X + 1'), ('Inc', 4, (2, 'check')))
    yield accepted('type_of_a_local.adb', longer('X : out Natural', 'X from', 'V := 1', '--# assert True', 'X := V', declared=['V : Natural']), 3)
    yield accepted('type_of_an_output.adb', longer('X : out Natural', 'X from', 'X := 1', '--# assert True', 'X := X'), 3)
    yield accepted('type_of_a_value_on_entry.adb', asserting('True', 'X := X', post='X~ >= 0', params='X : in out Natural'), 3)
    yield accepted('type_of_an_unset_local.adb', longer('X : out Natural', 'X from', '--# assert True', 'V := 1', 'X := V', declared=['V : Natural']), 3)
    yield accepted('precondition_of_values_on_entry.adb', asserting('True', 'X := X', pre='X > 0', post='X~ > 0'), 3)
    yield examined('precondition_is_not_of_present_values.adb', asserting('True', 'X := X', pre='X > 0', post='X > 0').replace('post', '@post'), ('Inc', 3, (3, 'post')))
    yield accepted('post_that_is_asserted.adb', longer(X, 'X from X', 'X := X', '--# assert X = X~', post='X = X~'), 3)
    yield examined('equal_names_are_not_replaced.adb',
                   asserting("X = X~ and X < Integer'Last", 'X := X + 1', pre="X < Integer'Last", post='X = X~ + 1').replace('post', '@post'), ('Inc', 4, (4, 'post')))
    yield accepted('cuts_one_after_another.adb', longer(OUT_X, 'X from', 'X := 1', '--# assert X = 1', 'X := X + 1', '--# assert X = 2', 'X := X + 1'), 7)
    yield accepted('assertion_over_literals.adb',
                   longer(OUT_X, 'X from', 'H := Green', '--# assert H = Green', '--# check H >= Red', "X := Hue'Pos (H)", declared=['type Hue is (Red, Green)', 'H : Hue']), 4)
    yield accepted('truth_value_that_is_asserted.adb', longer(TRUTHS, 'X from A & null from B, X', 'X := A', '--# assert X = A', '--# check X = A', post='X = A'), 3)


def order_of_cuts():
    """The conditions from the start come first, then those from each cut in the order of the text."""
    yield examined('assert_in_one_arm.adb', longer(A_TO_X, 'X from A', 'if A > 0 then\n--# assert A > 0;\nX := A; else X := 0; end if', '--# @check X > 0'), ('Inc', 5, (3, 'check')))
    yield examined('check_on_two_paths.adb', longer(A_TO_X, 'X from A', 'if A > 0 then\n--# assert True;\nX := A; else X := 0; end if', '--# @@check X > 0'),
                   ('Inc', 5, (3, 'check'), (5, 'check')))
    yield examined('assert_after_arms.adb', longer(A_TO_X, 'X from A', 'if A > 0 then X := A; else X := 0; end if', '--# @assert X > 0', 'X := X'), ('Inc', 5, (4, 'assert')))
    yield examined('cuts_in_both_arms.adb',
                   longer(A_TO_X, 'X from A', 'if A > 0 then\n--# assert True;\nX := A @+ 1; else\n--# assert True;\nX := A @- 1; end if'), ('Inc', 6, 3, 5))
    yield accepted('eleven_ifs_before_and_after_a_cut.adb',
                   longer('A : in Integer; X : in out Integer', 'X from X, A', *['if A > 0 then X := A; end if'] * 11, '--# assert True', *['if A > 0 then X := A; end if'] * 11), 6142)
    yield too_many_paths('twelve_ifs_before_a_cut_and_one_after.adb',
                     longer('A : in Integer; X : in out Integer', 'X from X, A', *['if A > 0 then X := A; end if'] * 12, '--# assert True', 'if A > 0 then X := A; end if'))


# ---------------------------------------------------------------- loops

def looping(condition, *statements, asserted=None):
    """A `while` with these statements, after an `assert` where there is one."""
    first = '' if asserted is None else f'\n--# assert {asserted};\n'
    return f'while {condition} loop {first}{"; ".join(statements)}; end loop'


def nested_loops(count):
    """A procedure with so many loops in one another."""
    return longer(X, 'X from X', 'while True loop ' * count + 'X := X; ' + 'end loop; ' * (count - 1) + 'end loop')


def syntax_of_loops():
    """Where a `while` may be, tokens with which none goes on, and the levels that it opens."""
    yield accepted('loop_alone.adb', longer(X, 'X from X', looping('X > 0', 'X := 0')), 1)
    yield accepted('loops_in_a_row.adb', longer(X, 'X from X', looping('X > 0', 'X := 0'), looping('X < 0', 'X := 1')), 2)
    yield accepted('loop_in_an_arm.adb', longer(X, 'X from X', f'if X > 5 then {looping("X > 0", "X := 0")}; end if'), 1)
    yield accepted('loop_in_an_alternative.adb',
                   longer(A_AND_X, 'X from X, A', f'case A is when 1 => {looping("X > 0", "X := 0")}; when others => null; end case'), 1)
    yield accepted('loop_in_a_loop.adb', longer(X, 'X from X', looping('X > 0', looping('X > 5', 'X := 5'), 'X := X')), 3)
    yield accepted('loop_on_several_lines.adb', longer(X, 'X from X', 'WHILE\nX -- a condition\n> 0\nLoop\nX := 0;\nEND\nLOOP'), 1)
    for name, statement in {
            'no_condition': 'while @loop X := 0; end loop', 'no_statement': 'while X > 0 loop @end loop', 'assignment_for_a_condition': 'while X @:= 0 loop X := 0; end loop',
            'two_conditions': 'while X > 0@, X < 5 loop X := 0; end loop', 'then': 'while X > 0 @then X := 0; end loop', 'do': 'while X > 0 @do X := 0; end loop',
            'no_word_loop': 'while X > 0 @X := 0; end loop', 'end_while': 'while X > 0 loop X := 0; end @while', 'end_if': 'while X > 0 loop X := 0; end @if',
            'end_alone': 'while X > 0 loop X := 0; end @', 'name_at_the_end': 'while X > 0 loop X := 0; end loop @X', 'else': 'while X > 0 loop X := 0; @else X := 1; end loop',
            'elsif': 'while X > 0 loop X := 0; @elsif X > 1 then X := 1; end loop', 'return': 'while X > 0 loop @return; end loop', 'begin': 'while X > 0 @begin X := 0; end loop',
            'is': 'while X > 0 @is loop X := 0; end loop', 'semicolon_after_the_condition': 'while X > 0@; loop X := 0; end loop', 'label': 'L @: while X > 0 loop X := 0; end loop L',
            'arrow': 'while X > 0 @=> X := 0; end loop', 'for': 'for I in @1 .. 5 loop X := 0; end loop', 'until': 'while X > 0 loop X := 0; @until X = 0; end loop',
            'condition_for_a_statement': 'while X > 0 loop X @> 0; end loop', 'implication': 'while X > 0 -@> X > 5 loop X := 0; end loop'}.items():
        yield unexpected(f'while_with_{name}.adb', longer(X, 'X from X', statement))
    for name, statement in {'a_marked_while': '--# @while X > 0 loop', 'a_marked_loop': 'while X > 0\n--# @loop\nX := 0; end loop',
                            'a_marked_condition_of_a_loop': 'while\n--# @X > 0\nloop X := 0; end loop', 'a_marked_end_of_a_loop': 'while X > 0 loop X := 0;\n--# @end loop'}.items():
        yield unexpected(f'{name}.adb', longer(X, 'X from X', statement))
    yield bad_byte('value_on_entry_in_a_loop_condition.adb', longer(X, 'X from X', 'while X@~ > 0 loop X := 0; end loop'))
    yield unexpected('loop_among_declarations.adb', longer(X, 'X from X', 'X := X', declared=['@while X > 0 loop X := 0; end loop']))
    yield unexpected('loop_in_an_expression.adb', longer(X, 'X from X', 'X := @while X > 0 loop 0 end loop'))
    yield accepted('loop_condition_of_200_levels.adb', longer(X, 'X from X', looping(nested(198, 'X > 0'), 'X := 0')), 1)
    yield too_nested('loop_condition_of_201_levels.adb', longer(X, 'X from X', looping(nested(199, 'X > 0'), 'X := 0')))
    yield too_nested('value_with_a_level_in_200_loops.adb', longer(X, 'X from X', 'while X > 0 loop ' * 200 + 'X := (0); ' + 'end loop; ' * 199 + 'end loop'))
    yield too_nested('loops_and_cases_of_201_levels.adb',
                     longer(A_TO_X, 'X from A', 'X := A', 'while True loop case A is when others => ' * 100 + 'while True loop null; end loop; ' + 'end case; end loop; ' * 99 + 'end case; end loop'))


def rules_of_loops():
    """The condition of a loop is Boolean, and it comes before the statements."""
    yield refused('number_for_a_loop_condition.adb', longer(X, 'X from X', looping('@X', 'X := 0')), 'N10')
    yield refused('sum_for_a_loop_condition.adb', longer(X, 'X from X', looping('X @+ 1', 'X := 0')), 'N10')
    yield refused('undeclared_in_a_loop_condition.adb', longer(X, 'X from X', looping('@Y > 0', 'X := 0')), 'N1')
    yield refused('type_in_a_loop_condition.adb', longer(X, 'X from X', looping('@Integer > 0', 'X := 0')), 'N3')
    yield refused('static_fault_in_a_loop_condition.adb', longer(X, 'X from X', looping('X > 1 @/ 0', 'X := 0')), 'N12')
    yield refused('loop_condition_before_its_statements.adb', longer(X, 'X from X', looping('@Y > 0', 'X := Z')), 'N1')
    yield refused('statement_of_a_loop_that_fails.adb', longer(X, 'X from X', looping('X > 0', 'X := @Z')), 'N1')
    yield refused('statement_after_a_loop_that_fails.adb', longer(X, 'X from X', looping('X > 0', 'X := 0'), 'X := @Z'), 'N1')
    yield refused('truth_value_in_a_loop.adb', longer(X, 'X from X', looping('X > 0', 'X := @True')), 'N10')
    yield refused('input_assigned_in_a_loop.adb', longer(A_TO_X, 'X from A', 'X := A', looping('X > 0', '@A := 0')), 'U2')
    yield refused('constant_assigned_in_a_loop.adb', longer(X, 'X from X', looping('X > 0', '@C := 0'), declared=['C : constant Integer := 1']), 'U2')
    yield refused('case_in_a_loop_that_misses_values.adb', longer(X, 'X from X', looping('X > 0', '@case X is when 1 => X := 0; end case')), 'N17')
    yield refused('import_on_entry_in_a_loop.adb', longer(A_AND_X, 'X from X, A', looping('X > 0', 'X := A', asserted='@A~ = A')), 'N18')


def flow_of_loops():
    """A loop has any number of turns, and none too. What its condition reads comes to all that its statements set."""
    A_XY, A_XYZ, AB_XY = 'A : in Integer; X, Y : in out Integer', 'A : in Integer; X, Y, Z : in out Integer', 'A, B : in Integer; X, Y : in out Integer'
    three_turns = looping('A > 0', 'Z := Y', 'Y := X', 'X := A')
    yield accepted('flow_through_three_turns.adb', longer(A_XYZ, 'X from X, A & Y from Y, X, A & Z from Z, Y, X, A', three_turns), 3)
    yield accepted('flow_through_two_turns.adb', longer(A_XY, 'X from X, A & Y from Y, X, A', looping('A > 0', 'Y := X', 'X := A')), 2)
    yield refused('missing_flow_through_two_turns.adb', longer(A_XYZ, 'X from X, A & Y from Y, X, A & @Z from Z, Y, A', three_turns), 'F1 missing: Z from X')
    yield refused('missing_flow_of_a_loop_condition.adb', longer(A_AND_X, '@X from X & null from A', looping('A > 0', 'X := 0')), 'F1 missing: X from A')
    yield accepted('flow_of_a_loop_condition_alone.adb',
                   longer(A_XYZ, 'X from X, A & Y from Y, A & Z from Z', looping('A > 0', 'X := 0', 'Y := 1'), 'Z := Z'), 4)
    yield refused('flow_of_a_loop_condition_past_its_targets.adb',
                  longer(A_XY, 'X from X, A & @Y from Y, A', looping('A > 0', 'X := 0'), 'Y := Y'), 'F2 unused: Y from A')
    yield accepted('loop_condition_over_what_the_loop_sets.adb', longer(A_XY, 'X from X, A & Y from Y, X, A', looping('X > 0', 'Y := 1', 'X := A')), 2)
    yield accepted('condition_of_a_loop_inside.adb', longer(AB_XY, 'X from X, A, B & Y from Y, A', looping('A > 0', looping('B > 0', 'X := 0'), 'Y := 1')), 3)
    yield refused('missing_flow_of_a_loop_condition_outside.adb',
                  longer('A, B : in Integer; X : in out Integer', '@X from X, B & null from A', looping('A > 0', looping('B > 0', 'X := 0'))), 'F1 missing: X from A')
    yield refused('missing_flow_round_both_loops.adb',
                  longer(AB_XY, 'X from X, A, B, Y & @@Y from Y, B', looping('B > 0', looping('Y > 0', 'X := A'), 'Y := X')),
                  'F1 missing: Y from A', 'F1 missing: Y from X')
    yield accepted('exchange_in_a_loop.adb', longer(A_XY, 'X, Y from X, Y, A', looping('A > 0', 'T := X', 'X := Y', 'Y := T'), declared=T), 3)
    yield refused('no_export_in_a_loop.adb', longer(A_AND_X, 'X from X & null from A', '@' + looping('A > 0', '@T := 1'), 'X := X', declared=T), 'F3', 'F3')
    yield refused('loop_over_nothing.adb', longer(A_AND_X, 'X from X & null from A', '@' + looping('A > 0', 'null'), 'X := X'), 'F3')
    yield refused('loop_over_what_is_overwritten.adb', longer(A_TO_X, 'X from A', '@X := A', '@' + looping('X > 0', '@X := 0'), 'X := A'), 'F3', 'F3', 'F3')
    yield refused('loop_inside_over_what_is_overwritten.adb', longer(X, 'X from X', looping('X > 0', '@' + looping('X > 5', '@X := 5'), 'X := 0')), 'F3', 'F3')
    yield accepted('value_for_the_next_turn.adb', longer(A_AND_X, 'X from X, A', 'T := A', looping('A > 0', 'X := T', 'T := 1'), declared=T), 3)
    yield accepted('value_for_the_next_condition.adb', longer(X, 'X from X', 'T := 1', looping('T > 0', 'X := 5', 'T := 0'), declared=T), 3)
    yield refused('value_for_no_turn.adb', longer(A_AND_X, 'X from X, A', looping('A > 0', '@T := 1', 'T := A', 'X := T'), declared=T), 'F3')
    yield accepted('endless_loop.adb', longer(X, 'X from X', looping('True', 'X := 0')), 1)
    yield accepted('loop_without_a_turn.adb', longer(X, 'X from X', looping('False', 'X := 0')), 1)


def unset_in_loops():
    """The first turn has what is set before the loop, and after the loop there may have been no turn."""
    yield refused('set_in_a_loop_only.adb', longer(A_TO_X, 'X from A', looping('A > 0', 'T := A'), 'X := @T', declared=T), 'F4 unset: T')
    yield refused('export_set_in_a_loop_only.adb', longer(A_TO_X, '@X from A', looping('A > 0', 'X := A')).replace('end Inc', '@end Inc'), 'F1 missing: X from X', 'F4 unset: X')
    yield refused('set_in_an_endless_loop_only.adb', longer(A_TO_X, 'X from A', looping('True', 'T := A'), 'X := @T', declared=T), 'F4 unset: T')
    yield refused('set_in_a_later_turn.adb', longer(A_AND_X, 'X from X, A', looping('A > 0', 'X := @T', 'T := A'), declared=T), 'F4 unset: T')
    yield accepted('set_earlier_in_the_turn.adb', longer(A_AND_X, 'X from X, A', looping('A > 0', 'T := A', 'X := T'), declared=T), 2)
    yield refused('loop_condition_that_is_unset.adb', longer(X, 'X from X', looping('@T > 0', 'T := X', 'X := 0'), declared=T), 'F4 unset: T')
    yield refused('unset_in_an_inner_loop.adb', longer(A_AND_X, 'X from X, A', looping('A > 0', looping('X > 0', 'X := @T'), 'T := A'), declared=T), 'F4 unset: T')
    yield accepted('set_for_an_inner_loop.adb', longer(A_AND_X, 'X from X, A', looping('A > 0', 'T := A', looping('X > 0', 'X := T')), declared=T), 2)
    yield refused('unset_in_an_assertion_of_a_loop.adb', longer(A_AND_X, 'X from X, A', looping('A > 0', 'T := A', 'X := T', asserted='@T = A'), declared=T), 'F4 unset: T')
    yield refused('unset_twice_in_a_loop.adb', longer(A_AND_X, 'X from X, A', looping('@T > A', 'X := @T', 'T := A'), declared=T), 'F4 unset: T', 'F4 unset: T')


def conditions_of_loops():
    """Before the statements of a loop without an `assert` of its own is a cut, after which not even its condition is known."""
    yield left_at('loop_without_assertion.adb', longer(X, 'X from X', looping('X > 0', 'X := X <1o>- 1')), 2)
    yield left_at('loop_with_its_condition_asserted.adb', longer(X, 'X from X', looping('X > 0', 'X := X - 1', asserted='X > 0')), 4)
    yield left_at('loop_with_true_asserted.adb', longer(X, 'X from X', looping('X > 0', 'X := X <2o>- 1', asserted='True')), 4)
    yield left_at('loop_over_a_type.adb', longer('X : in out Natural', 'X from X', looping('X > 0', 'X := X <2r>- 1')), 2)
    yield left_at('loop_over_a_type_with_its_condition_asserted.adb', longer('X : in out Natural', 'X from X', looping('X > 0', 'X := X - 1', asserted='X > 0')), 4)
    yield accepted('after_a_loop_its_condition_is_false.adb', longer(X, 'X from X', looping('X > 0', 'X := 0'), 'X := X + 1'), 5)
    yield accepted('after_a_loop_with_an_assertion.adb', longer(X, 'X from X', looping('X > 0', 'X := 0', asserted='True'), '--# check X <= 0', 'X := X'), 7)
    yield examined('after_a_loop_nothing_else_is_known.adb', longer(X, 'X from X', looping('X > 0', 'X := 0'), '--# @check X = 0', 'X := X'), ('Inc', 5, (1, 'check')))
    yield examined('fact_before_a_loop.adb', longer(A_AND_X, 'X from X, A', looping('A > 0', 'X := 0'), '--# @check X > 5', 'X := X', pre='X > 5'), ('Inc', 5, (4, 'check')))
    yield examined('checks_in_a_loop.adb', longer(X, 'X from X', looping('X > 0', 'X := 5', '\n--# check X = 5', '\n--# @check X = 1', '\nX := X - 5')), ('Inc', 5, (3, 'check')))
    yield left_at('checks_of_a_loop_condition.adb', longer(X, 'X from X', looping('X <1o>- 1 > 0', 'X := 0', asserted='True')), 5)
    yield left_at('checks_of_a_loop_condition_without_assertion.adb', longer(X, 'X from X', looping('X <1o>- 1 > 0', 'X := 0')), 3)
    yield accepted('short_circuit_in_a_loop_condition.adb', longer(X, 'X from X', looping('X > 0 and then X - 1 > 0', 'X := 0')), 3)
    yield accepted('parts_of_a_loop_condition.adb', longer(X, 'X from X', looping('X > 0 and X < 100', 'X := X + 1', asserted='X > 0 and X < 100')), 4)
    yield accepted('assertion_in_the_middle_of_a_turn.adb', longer(X, 'X from X', looping('True', 'X := 5', '\n--# assert X = 5', '\nX := X + 1')), 6)
    yield examined('assertion_that_is_lost.adb', longer(OUT_X, 'X from', 'X := 1', looping('True', 'X := 2', asserted='X = 1').replace('assert', '@assert')), ('Inc', 4, (4, 'assert')))
    yield examined('assertion_that_is_not_true_at_first.adb', longer(X, 'X from X', looping('True', 'X := 1', asserted='X = 1').replace('assert', '@assert')), ('Inc', 3, (1, 'assert')))
    yield examined('assertion_in_an_arm_of_a_loop.adb',
                   longer(X, 'X from X', looping('X > 0', 'if X > 5 then\n--# assert X > 5;\nX := 0; else X := X @- 1; end if')), ('Inc', 4, 2))
    inner = looping('X > 0', 'X := X - 1', asserted='X > 0')
    yield accepted('assertion_of_a_loop_inside.adb', longer(A_AND_X, 'X from X, A', looping('A > 0', inner, 'X := X + 1')), 8)
    yield accepted('assertions_of_both_loops.adb', longer(A_AND_X, 'X from X, A', looping('A > 0', inner, 'X := X + 1', asserted='A > 0')), 11)
    yield accepted('loops_one_after_another.adb', longer(X, 'X from X', looping('X > 9', 'X := 9'), looping('X < 5', 'X := X + 1', asserted='X < 5')), 6)
    yield accepted('postcondition_after_a_loop.adb', longer(X, 'X from X', looping('X > 0', 'X := 0'), post='X <= 0'), 3)
    yield accepted('postcondition_past_a_loop.adb', longer(A_AND_X, 'X from X, A', looping('A > 0', 'X := 0'), pre='X = 0', post='X = 0'), 3)
    yield accepted('value_on_entry_in_a_loop.adb', longer(A_AND_X, 'X from X, A', looping('A > 0', 'X := X', asserted='X = X~'), post='X = X~'), 5)
    yield examined('value_on_entry_that_is_not_asserted.adb',
                   longer(A_AND_X, 'X from X, A', looping('A > 0', 'X := X', asserted='True'), post='X = X~').replace('post', '@post'), ('Inc', 5, (5, 'post')))


def paths_of_loops():
    """Paths go to the cut in a loop, and past the loop; and from that cut on to where they come to it again, and past the loop."""
    ifs = ['if A > 0 then X := A; end if']
    yield accepted('ten_ifs_in_a_loop.adb', longer(A_AND_X, 'X from X, A', looping('A > 0', *ifs * 10)), 1023)
    yield too_many_paths('eleven_ifs_in_a_loop.adb', longer(A_AND_X, 'X from X, A', looping('A > 0', *ifs * 11)))
    yield too_many_paths('eleven_ifs_after_an_assertion.adb', longer(A_AND_X, 'X from X, A', looping('A > 0', *ifs * 11, asserted='True')))
    yield too_many_paths('eleven_ifs_before_an_assertion.adb', longer(A_AND_X, 'X from X, A', looping('A > 0', *ifs * 11, '\n--# assert True', '\nnull')))
    cases = [f'case A is {" ".join(f"when {at} => {target} := {at};" for at in range(1, many))} when others => {target} := 0; end case' for many, target in ((23, 'X'), (89, 'Y'))]
    yield accepted('loop_with_4096_paths.adb',
                   longer('A : in Integer; X, Y : in out Integer', 'X from X, A & Y from Y, A', looping('A > 0', *cases, asserted='True')), 1 + 23 + 23 * 89 + 23 * 89)
    yield accepted('loops_of_88_levels.adb', nested_loops(88), 1)
    yield too_many_paths('loops_of_89_levels.adb', nested_loops(89))
    yield too_many_paths('loops_of_200_levels.adb', nested_loops(200))
    yield too_nested('loops_of_201_levels.adb', nested_loops(201))


# ---------------------------------------------------------------- loops over a parameter

TO_THREE = 'subtype Small is Integer range 1 .. 3'
HUES = 'type Hue is (Red, Green, Blue)'


def counting(head, *statements, asserted=None):
    """A `for` with these statements, and an `assert` after them where there is one."""
    last = '' if asserted is None else f'\n--# assert {asserted};\n'
    return f'for {head} loop {"; ".join(statements)};{last} end loop'


def syntax_of_counts():
    """Where a `for` may be, tokens with which none goes on, and the levels that it opens."""
    five = 'I in Integer range 1 .. 5'
    yield accepted('for_alone.adb', longer(X, 'X from X', counting(five, 'X := I')), 2)
    yield accepted('for_in_reverse.adb', longer(X, 'X from X', counting('I in reverse Integer range 1 .. 5', 'X := I')), 2)
    yield accepted('for_over_a_subtype.adb', longer(OUT_X, 'X from', counting('I in Small', 'X := I'), declared=[TO_THREE]), 1)
    yield accepted('for_over_a_subtype_in_reverse.adb', longer(OUT_X, 'X from', counting('I in reverse Small', 'X := I'), declared=[TO_THREE]), 1)
    yield accepted('fors_in_a_row.adb', longer(X, 'X from X', counting(five, 'X := I'), counting(five, 'X := I')), 5)
    yield accepted('for_in_a_for.adb', longer(X, 'X from X', counting(five, counting('J in Integer range 1 .. 2', 'X := J'))), 3)
    yield accepted('for_in_a_while.adb', longer(X, 'X from X', looping('X > 0', counting(five, 'X := I'))), 2)
    yield accepted('while_in_a_for.adb', longer(X, 'X from X', counting(five, looping('X > 0', 'X := I'))), 2)
    yield accepted('for_in_an_arm.adb', longer(X, 'X from X', f'if X > 5 then {counting(five, "X := I")}; end if'), 2)
    yield accepted('for_on_several_lines.adb', longer(X, 'X from X', 'FOR\nI -- a parameter\nIN\nReverse\nInteger\nRange 1\n.. 5\nLoop\nX := i;\nEND\nLOOP'), 2)
    yield accepted('sums_for_bounds.adb', longer(X, 'X from X', counting('I in Integer range 1 + 1 .. 10 - 2 * 2', 'X := I')), 2)
    for name, statement in {
            'no_parameter': 'for @in Integer loop X := 0; end loop', 'number_for_a_parameter': 'for @1 in Integer loop X := 0; end loop',
            'two_parameters': 'for I@, J in Integer loop X := 0; end loop', 'colon': 'for I @: Integer loop X := 0; end loop', 'of': 'for I @of Integer loop X := 0; end loop',
            'no_type': 'for I in @range 1 .. 5 loop X := 0; end loop', 'bounds_for_a_type': 'for I in @(1 .. 5) loop X := 0; end loop',
            'reverse_twice': 'for I in reverse @reverse Integer loop X := 0; end loop', 'reverse_before_in': 'for I @reverse in Integer loop X := 0; end loop',
            'reverse_first': 'for @reverse I in Integer loop X := 0; end loop', 'reverse_after_the_type': 'for I in Integer @reverse loop X := 0; end loop',
            'no_bounds': 'for I in Integer range @loop X := 0; end loop', 'one_bound': 'for I in Integer range 1 @loop X := 0; end loop',
            'no_high_bound': 'for I in Integer range 1 .. @loop X := 0; end loop', 'no_low_bound': 'for I in Integer range @.. 5 loop X := 0; end loop',
            'three_bounds': 'for I in Integer range 1 .. 5 @.. 9 loop X := 0; end loop', 'relation_in_a_bound': 'for I in Integer range 1 .. 5 @> 2 loop X := 0; end loop',
            'bounds_without_range': 'for I in Integer @1 .. 5 loop X := 0; end loop', 'range_attribute': "for I in Integer'@Range loop X := 0; end loop",
            'no_loop': 'for I in Integer @X := 0; end loop', 'do': 'for I in Integer @do X := 0; end loop', 'statements_missing': 'for I in Integer loop @end loop',
            'end_for': 'for I in Integer loop X := 0; end @for', 'name_at_the_end': 'for I in Integer loop X := 0; end loop @I', 'step': 'for I in Integer range 1 .. 5 @by 2 loop X := 0; end loop',
            'while_after_bounds': 'for I in Integer range 1 .. 5 @while X > 0 loop X := 0; end loop'}.items():
        yield unexpected(f'for_with_{name}.adb', longer(X, 'X from X', statement))
    yield unexpected('a_marked_for.adb', longer(X, 'X from X', '--# @for I in Integer loop'))
    yield unexpected('marked_bounds.adb', longer(X, 'X from X', 'for I in Integer\n--# @range 1 .. 5\nloop X := 0; end loop'))
    yield unexpected('for_among_declarations.adb', longer(X, 'X from X', 'X := X', declared=['@for I in Integer loop X := 0; end loop']))
    yield accepted('bounds_of_200_levels.adb', longer(X, 'X from X', 'if X > 0 then ' * 198 + counting('I in Integer range (1) .. 5', 'X := I') + '; end if' * 198), 2)
    yield too_nested('bounds_of_201_levels.adb', longer(X, 'X from X', 'if X > 0 then ' * 199 + counting('I in Integer range (1) .. 5', 'X := I') + '; end if' * 199))
    yield too_nested('for_of_201_levels.adb', longer(X, 'X from X', 'if X > 0 then ' * 200 + counting('I in Integer', 'X := I') + '; end if' * 200))


def rules_of_counts():
    """A parameter is a name of the statements of its loop only, and is not assigned; bounds are of its type, which has an order."""
    def refused_in(name, statement, *rules, params=X, derives='X from X', declared=()):
        return refused(f'{name}.adb', longer(params, derives, statement, declared=declared), *rules)

    yield refused_in('parameter_named_as_a_formal', counting('@X in Integer', 'X := 0'), 'N2')
    yield refused_in('parameter_named_as_a_local', counting('@t in Integer', 'X := 0'), 'N2', declared=T)
    yield refused_in('parameter_named_as_a_type', counting('@Small in Small', 'X := 0'), 'N2', declared=[TO_THREE])
    yield refused_in('parameter_named_as_a_predefined_type', counting('@Integer in Integer', 'X := 0'), 'N2')
    yield refused_in('parameter_named_as_a_predefined_literal', counting('@true in Integer', 'X := 0'), 'N2')
    yield refused_in('parameter_named_as_one_outside', counting('I in Integer range 1 .. 2', counting('@I in Integer range 1 .. 2', 'X := 0')), 'N2')
    yield accepted('parameters_of_one_name.adb', longer(X, 'X from X', counting('I in Integer range 1 .. 2', counting('J in Integer range 1 .. 2', 'X := J'), counting('J in Integer range 1 .. 2', 'X := J'))), 6)
    yield accepted('parameter_named_as_the_procedure.adb', longer(X, 'X from X', counting('Inc in Integer range 1 .. 2', 'X := Inc')), 2)
    yield refused_in('parameter_after_its_loop', counting('I in Integer range 1 .. 2', 'X := I') + '; X := @I', 'N1')
    yield refused_in('parameter_in_its_own_bounds', counting('I in Integer range 1 .. @I', 'X := I'), 'N1')
    yield refused_in('parameter_in_its_own_low_bound', counting('Inc in Integer range @Inc .. 2', 'X := 0'), 'N1')
    yield refused_in('parameter_for_its_own_type', counting('I in @I', 'X := I'), 'N1')
    yield refused_in('parameter_outside_in_bounds_beside', counting('I in Integer range 1 .. 2', 'X := I') + '; ' + counting('J in Integer range 1 .. @I', 'X := J'), 'N1')
    yield refused_in('variable_for_the_type_of_a_parameter', counting('I in @X', 'X := I'), 'N3')
    yield refused_in('literal_for_a_type', counting('I in @True', 'X := I'), 'N3')
    yield refused_in('attribute_for_a_type', counting("I in @Integer'First", 'X := I'), 'N3')
    yield refused_in('for_over_truth_values', counting('I in @Boolean', 'X := 0'), 'N10')
    yield refused_in('for_over_a_range_of_truth_values', counting('I in @Boolean range False .. True', 'X := 0'), 'N10')
    yield refused_in('low_bound_of_another_type', counting('I in Integer range @True .. 5', 'X := I'), 'N10')
    yield refused_in('high_bound_of_another_type', counting('I in Integer range 1 .. @Red', 'X := I'), 'N10', declared=[HUES])
    yield refused_in('number_for_a_literal', counting('I in Hue range Red .. @2', 'X := 0'), 'N10', declared=[HUES])
    yield refused_in('wide_bound', counting('I in Integer range 1 .. @2147483648', 'X := I'), 'N12')
    yield refused_in('static_fault_in_a_bound', counting('I in Integer range 1 @/ 0 .. 5', 'X := I'), 'N12')
    yield refused_in('parameter_assigned', counting('I in Integer range 1 .. 2', '@I := 1', 'X := I'), 'U2')
    yield refused_in('parameter_outside_assigned', counting('I in Integer range 1 .. 2', counting('J in Integer range 1 .. 2', '@I := J', 'X := I')), 'U2')
    yield refused_in('parameter_assigned_under_an_if', counting('I in Integer range 1 .. 2', 'if X > 0 then @i := 1; end if', 'X := I'), 'U2')
    yield refused_in('parameter_on_entry', counting('I in Integer range 1 .. 2', 'X := I', asserted='@I~ = 1'), 'N18')
    yield refused_in('truth_value_for_a_parameter', counting('I in Integer range 1 .. 2', 'X := I', asserted='I @= True'), 'N10')
    yield refused_in('parameter_named_twice_before_its_type', counting('@X in Y', 'X := 0'), 'N2')
    yield refused_in('type_before_bounds', counting('I in @Y range Z .. X', 'X := 0'), 'N1')
    yield refused_in('type_without_an_order_before_bounds', counting('I in @Boolean range Z .. X', 'X := 0'), 'N10')
    yield refused_in('low_bound_before_high_bound', counting('I in Integer range @Z .. Y', 'X := 0'), 'N1')
    yield refused_in('bounds_before_statements', counting('I in Integer range 1 .. @Z', 'X := Y'), 'N1')
    yield refused_in('statements_of_a_for', counting('I in Integer range 1 .. 2', 'X := @Y'), 'N1')
    yield refused_in('choices_over_a_parameter', counting('I in Small', '@case I is when 1 .. 2 => X := 0; end case'), 'N17', declared=[TO_THREE])
    yield accepted('all_choices_over_a_parameter.adb', longer(OUT_X, 'X from', counting('I in Small', 'case I is when 1 .. 2 => X := 0; when 3 => X := I; end case'), declared=[TO_THREE]), 2)
    yield accepted('for_over_literals.adb', longer(OUT_X, 'X from', counting('H in Hue', "X := Hue'Pos (H)"), declared=[HUES]), 1)
    yield accepted('for_over_a_range_of_literals.adb', longer(X, 'X from X', counting('H in reverse Hue range Red .. Green', "X := Hue'Pos (H)"), declared=[HUES]), 2)
    yield accepted('constant_for_a_bound.adb', longer(X, 'X from X', counting('I in Integer range 1 .. C', 'X := I'), declared=['C : constant Integer := 5']), 2)


def flow_of_counts():
    """What bounds read comes to all that the statements set, by the parameter and by the number of turns."""
    A_XY, A_XYZ = 'A : in Integer; X, Y : in out Integer', 'A : in Integer; X, Y, Z : in out Integer'
    to_a, small = 'I in Integer range 1 .. A', 'I in Small'
    yield accepted('flow_of_bounds.adb', longer(A_AND_X, 'X from X, A', counting(to_a, 'X := 0')), 2)
    yield accepted('flow_of_a_low_bound.adb', longer(A_AND_X, 'X from X, A', counting('I in Integer range A .. 5', 'X := 0')), 2)
    yield refused('missing_flow_of_bounds.adb', longer(A_AND_X, '@X from X & null from A', counting(to_a, 'X := 0')), 'F1 missing: X from A')
    yield refused('flow_of_bounds_past_the_targets.adb', longer(A_XY, 'X from X, A & @Y from Y, A', counting(to_a, 'X := I'), 'Y := Y'), 'F2 unused: Y from A')
    yield accepted('flow_of_a_parameter.adb', longer(A_XY, 'X from X, A & Y from Y', counting(to_a, 'X := I'), 'Y := Y'), 4)
    yield accepted('flow_through_turns.adb', longer(A_XYZ, 'X from X, A & Y from Y, X, A & Z from Z, Y, X, A', counting(to_a, 'Z := Y', 'Y := X', 'X := I')), 4)
    yield refused('missing_flow_through_turns.adb', longer(A_XYZ, 'X from X, A & Y from Y, X, A & @Z from Z, Y, A', counting(to_a, 'Z := Y', 'Y := X', 'X := I')), 'F1 missing: Z from X')
    yield accepted('flow_through_a_turn_at_least.adb', longer('X, Y : in out Integer', 'X from & Y from X & null from Y', counting(small, 'Y := X', 'X := I'), declared=[TO_THREE]), 2)
    yield refused('flow_past_a_turn_at_least.adb', longer(X, '@X from X', counting(small, 'X := I'), declared=[TO_THREE]), 'F2 unused: X from X')
    yield refused('flow_past_no_turn.adb', longer(X, '@X from & null from X', counting('I in Small range 1 .. 3', 'X := I'), declared=[TO_THREE]), 'F1 missing: X from X')
    yield accepted('bounds_are_read_once.adb', longer(A_XY, 'X from X, Y & Y from Y, A', counting('I in Integer range 1 .. Y', 'X := 0', 'Y := A')), 3)
    yield refused('flow_of_bounds_that_change.adb', longer(A_XY, '@X from X, Y, A & Y from Y, A', counting('I in Integer range 1 .. Y', 'X := 0', 'Y := A')), 'F2 unused: X from A')
    yield accepted('parameter_outside_in_bounds.adb', longer(A_AND_X, 'X from X, A', counting(to_a, counting('J in Integer range 1 .. I', 'X := J'))), 3)
    yield refused('missing_flow_of_a_parameter_outside.adb', longer(A_AND_X, '@X from X & null from A', counting(to_a, counting('J in Integer range 1 .. I', 'X := J'))), 'F1 missing: X from A')
    yield refused('no_export_in_a_for.adb', longer(A_AND_X, 'X from X & null from A', '@' + counting(to_a, '@T := 1'), 'X := X', declared=T), 'F3', 'F3')
    yield refused('literal_bounds_for_no_export.adb', longer(X, 'X from X', '@' + counting('I in Integer range 1 .. 5', '@T := 1'), 'X := X', declared=T), 'F3', 'F3')
    yield refused('no_bounds_for_no_export.adb', longer(X, 'X from X', counting(small, '@T := 1'), 'X := X', declared=[TO_THREE, *T]), 'F3')
    yield refused('for_over_nothing.adb', longer(X, 'X from X', '@' + counting('I in Integer range 1 .. 5', 'null'), 'X := X'), 'F3')
    yield accepted('for_over_nothing_without_bounds.adb', longer(X, 'X from X', counting(small, 'null'), 'X := X', declared=[TO_THREE]), 1)
    yield refused('for_that_sets_what_is_overwritten.adb', longer(OUT_X, 'X from', '@X := 1', counting(small, 'X := I'), declared=[TO_THREE]), 'F3')
    yield accepted('for_that_may_leave_what_is_set.adb', longer(OUT_X, 'X from', 'X := 1', counting('I in Integer range 1 .. 5', 'X := I')), 3)
    yield accepted('value_for_the_next_turn_of_a_for.adb', longer(X, 'X from X', 'T := X', counting('I in Integer range 1 .. 5', 'X := T', 'T := I'), declared=T), 4)
    yield refused('value_for_no_turn_of_a_for.adb', longer(A_AND_X, 'X from X, A', counting(to_a, '@T := 1', 'T := A', 'X := T'), declared=T), 'F3')


def unset_in_counts():
    """A loop over a whole type has a turn; another need not. The parameter is set in its loop."""
    to_a, small = 'I in Integer range 1 .. A', 'I in Small'
    yield refused('set_in_a_for_only.adb', longer(A_TO_X, 'X from A', counting(to_a, 'T := I'), 'X := @T', declared=T), 'F4 unset: T')
    yield refused('set_for_literal_bounds_only.adb', longer(OUT_X, 'X from', counting('I in Integer range 1 .. 5', 'T := I'), 'X := @T', declared=T), 'F4 unset: T')
    yield accepted('set_in_a_for_over_a_subtype.adb', longer(OUT_X, 'X from', counting(small, 'T := I'), 'X := T', declared=[TO_THREE, *T]), 2)
    yield refused('set_on_one_way_of_a_for.adb', longer(A_TO_X, 'X from A', counting(small, 'if A > 0 then T := I; end if'), 'X := @T', declared=[TO_THREE, *T]), 'F4 unset: T')
    yield refused('set_in_a_later_turn_of_a_for.adb', longer(OUT_X, 'X from', counting(small, 'X := @T', 'T := I'), declared=[TO_THREE, *T]), 'F4 unset: T')
    yield refused('bound_that_is_unset.adb', longer(X, 'X from X', counting('I in Integer range @T .. 5', 'T := I', 'X := T'), declared=T), 'F4 unset: T')
    yield refused('bounds_that_are_unset.adb', longer(X, 'X from X', counting('I in Integer range @T .. @T', 'X := I'), declared=T), 'F4 unset: T', 'F4 unset: T')
    yield refused('unset_in_an_assertion_of_a_for.adb', longer(OUT_X, 'X from', counting(small, 'X := I', asserted='@T = I'), declared=[TO_THREE, *T]), 'F4 unset: T')
    yield accepted('set_by_a_for_inside.adb', longer(OUT_X, 'X from', counting(small, counting('J in Small', 'T := J')), 'X := T', declared=[TO_THREE, *T]), 2)
    yield refused('set_by_a_for_that_may_have_no_turn.adb', longer(OUT_X, 'X from', counting(small, counting('J in Small range 1 .. I', 'T := J')), 'X := @T', declared=[TO_THREE, *T]), 'F4 unset: T')


def conditions_of_counts():
    """Bounds are evaluated once; where there is a value they lie in the type; the parameter lies between them in each turn."""
    to_a, small = 'I in Integer range 1 .. A', 'I in Small'
    yield left_at('sum_in_a_for.adb', longer(A_AND_X, 'X from X, A', counting(to_a, 'X := X <2o>+ I')), 3)
    yield left_at('checks_of_bounds.adb', longer(A_AND_X, 'X from X, A', counting('I in Integer range A <1o>- 1 .. A <2o>+ 1', 'X := I')), 4)
    yield left_at('bound_past_the_type.adb', longer(A_AND_X, 'X from X, A', counting('I in Small range <1r>1 .. A', 'X := I'), declared=[TO_THREE]), 2)
    yield left_at('bound_before_the_type.adb', longer(A_AND_X, 'X from X, A', counting('I in Small range <1r>A .. 3', 'X := I'), declared=[TO_THREE]), 2)
    yield left_at('literal_bounds_past_the_type.adb', longer(X, 'X from X', counting('I in Small range <1r>1 .. 4', 'X := I'), declared=[TO_THREE]), 2)
    yield accepted('bounds_without_a_value.adb', longer(X, 'X from X', counting('I in Small range 9 .. 8', 'X := I'), declared=[TO_THREE]), 2)
    yield accepted('bound_in_the_type.adb', longer(A_AND_X, 'X from X, A', counting('I in Small range 1 .. A', 'X := I'), pre='A <= 3', declared=[TO_THREE]), 2)
    yield accepted('type_of_a_parameter.adb', longer('X : in out Positive', 'X from X', counting(small, 'X := I'), declared=[TO_THREE]).replace('X from X', 'X from & null from X'), 1)
    yield accepted('parameter_between_its_bounds.adb', longer(A_AND_X, 'X from X, A', counting(to_a, '\n--# check 1 <= I and I <= A', '\nX := I')), 3)
    yield accepted('parameter_between_bounds_in_reverse.adb', longer(A_AND_X, 'X from X, A', counting('I in reverse Integer range 1 .. A', '\n--# check 1 <= I and I <= A', '\nX := I')), 3)
    yield examined('local_bound_is_lost.adb', longer(A_AND_X, 'X from X, A', 'T := A', counting('I in Integer range 1 .. T', '\n--# @check I <= T', '\nX := I'), declared=T), ('Inc', 4, (3, 'check')))
    yield examined('export_for_a_bound_is_lost.adb', longer(X, 'X from X', counting('I in Integer range 1 .. X', '\n--# @check I <= X', '\nX := I')), ('Inc', 3, (2, 'check')))
    yield accepted('sum_for_a_bound_stays.adb', longer(A_AND_X, 'X from X, A', counting('I in Integer range 1 .. A - 1', '\n--# check I <= A - 1', '\nX := I'), pre='A > 0'), 4)
    yield accepted('low_bound_of_a_local.adb', longer(A_AND_X, 'X from X, A', 'T := 1', counting('I in Integer range T .. A', 'X := I'), declared=T), 3)
    yield examined('value_before_a_for_is_lost.adb', longer(X, 'X from', 'X := 1', counting('I in Integer range 1 .. 5', '\n--# @check X = 1', '\nX := I')).replace('X from', 'X from & null from X'), ('Inc', 4, (3, 'check')))
    # The assertion is after the statements: the start, a turn from it on, and what follows the loop.
    yield accepted('assertion_of_a_for.adb', longer(X, 'X from X', counting('I in Integer range 1 .. 5', 'X := I', asserted='X = I')), 5)
    yield accepted('assertion_of_a_for_in_reverse.adb', longer(X, 'X from X', counting('I in reverse Integer range 1 .. 5', 'X := I', asserted='X = I')), 5)
    yield accepted('next_value_of_a_for.adb', longer(X, 'X from X', counting('I in Integer range 1 .. 5', '\n--# check I <= 5', '\nX := I', asserted='I >= 1')), 7)
    yield accepted('next_value_of_a_for_in_reverse.adb', longer(X, 'X from X', counting('I in reverse Integer range 1 .. 5', '\n--# check I >= 1', '\nX := I', asserted='I <= 5')), 7)
    yield examined('first_value_of_a_for.adb', longer(OUT_X, 'X from', counting(small, '\n--# @check I = 1', '\n--# assert True', '\nX := 0'), declared=[TO_THREE]), ('Inc', 5, (4, 'check')))
    yield examined('first_value_of_a_for_in_reverse.adb', longer(OUT_X, 'X from', counting('I in reverse Small', '\n--# @check I = 3', '\n--# assert True', '\nX := 0'), declared=[TO_THREE]), ('Inc', 5, (4, 'check')))
    yield examined('after_a_for.adb', longer(OUT_X, 'X from', counting(small, 'X := I', asserted='X = 1 or True'), '--# @check X = 3', declared=[TO_THREE]), ('Inc', 5, (5, 'check')))
    yield accepted('past_a_for.adb', longer(A_AND_X, 'X from X, A', counting(to_a, 'X := 0', asserted='X = 0'), pre='X = 0', post='X = 0'), 7)
    yield examined('past_a_for_that_has_no_turn.adb', longer(A_AND_X, 'X from X, A', counting(to_a, 'X := 0', asserted='X = 0'), post='X = 0').replace('post', '@post'), ('Inc', 7, (4, 'post')))
    yield accepted('for_over_a_subtype_has_a_turn.adb', longer(OUT_X, 'X from', counting(small, 'X := 0', asserted='X = 0'), post='X = 0', declared=[TO_THREE]), 5)
    yield accepted('facts_of_the_loop_outside.adb', longer(A_AND_X, 'X from X, A', counting(to_a, counting('J in Integer range 1 .. 5', '\n--# check 1 <= I and I <= A and J <= 5', '\nX := J'))), 4)
    yield examined('bound_of_a_parameter_outside_is_lost.adb', longer(A_AND_X, 'X from X, A', counting(to_a, counting('J in Integer range 1 .. I', '\n--# @check J <= I', '\nX := J'))), ('Inc', 4, (3, 'check')))
    yield accepted('for_over_literals_has_its_values.adb', longer(OUT_X, 'X from', counting('H in Hue', '\n--# check H >= Red and H <= Blue', "\nX := Hue'Pos (H)"), declared=[HUES]), 2)


def paths_of_counts():
    """A `for` with bounds has the paths of a `while`; one over a whole type none past it."""
    ifs = ['if A > 0 then X := A; end if']
    yield accepted('ten_ifs_in_a_for.adb', longer(A_AND_X, 'X from X, A', counting('I in Integer range 1 .. 5', *ifs * 10)), 1024)
    yield too_many_paths('eleven_ifs_in_a_for.adb', longer(A_AND_X, 'X from X, A', counting('I in Integer range 1 .. 5', *ifs * 11)))
    yield accepted('ten_ifs_in_a_for_over_a_subtype.adb', longer(A_AND_X, 'X from X, A', counting('I in Small', *ifs * 10), declared=[TO_THREE]), 1023)
    yield too_many_paths('eleven_ifs_in_a_for_over_a_subtype.adb', longer(A_AND_X, 'X from X, A', counting('I in Small', *ifs * 11), declared=[TO_THREE]))


# ---------------------------------------------------------------- exits

def plain(*statements):
    """A plain loop over these statements."""
    return f'loop {"; ".join(statements)}; end loop'


def leaving(condition, *statements):
    """An `if` that leaves the loop around it after these statements."""
    return f'if {condition} then {"; ".join([*statements, "exit"])}; end if'


def syntax_of_exits():
    """Where plain loops and exits may be, tokens with which none goes on, and the levels that they open."""
    yield accepted('plain_loop.adb', longer(X, 'X from X', plain('exit when X > 5', 'X := 0')), 1)
    yield accepted('exit_in_an_arm.adb', longer(X, 'X from X', plain(leaving('X > 5'), 'X := 0')), 1)
    yield accepted('exit_after_statements_of_an_arm.adb', longer(X, 'X from X', plain(leaving('X > 5', 'X := 1'), 'X := 0')), 2)
    yield accepted('exit_in_a_while.adb', longer(X, 'X from X', looping('X > 0', 'exit when X > 5', 'X := 0')), 1)
    yield accepted('exit_in_a_for.adb', longer(X, 'X from X', counting('I in Integer range 1 .. 5', 'exit when X > 5', 'X := I')), 2)
    yield accepted('exits_of_both_loops.adb', longer(X, 'X from X', plain('exit when X > 9', plain('exit when X > 5', 'X := 6'), 'X := X')), 2)
    yield accepted('plain_loop_on_several_lines.adb', longer(X, 'X from X', 'LOOP\nEXIT -- leave\nWHEN\nX > 5;\nX := 0;\nEND\nLoop'), 1)
    for name, statement in {
            'no_semicolon': 'loop exit when X > 5 @X := 0; end loop', 'no_condition': 'loop exit when @; X := 0; end loop', 'a_label': 'loop exit @L when X > 5; X := 0; end loop',
            'if': 'loop exit @if X > 5; X := 0; end loop', 'a_condition_alone': 'loop exit @X > 5; X := 0; end loop', 'two_conditions': 'loop exit when X > 5 @when X > 6; X := 0; end loop',
            'an_assignment': 'loop exit when X @:= 5; X := 0; end loop', 'an_implication': 'loop exit when X > 0 -@> X > 5; X := 0; end loop', 'loop': 'loop exit @loop; X := 0; end loop',
            'its_condition_first': 'loop @when X > 5 exit; X := 0; end loop', 'a_parenthesis': 'loop exit @(X > 5); X := 0; end loop'}.items():
        yield unexpected(f'exit_with_{name}.adb', longer(X, 'X from X', statement))
    for name, statement in {
            'no_statement': 'loop @end loop', 'end_alone': 'loop exit when X > 5; end @', 'end_if': 'loop exit when X > 5; end @if', 'name_at_the_end': 'loop exit when X > 5; end loop @X',
            'word_loop_twice': 'loop loop exit when X > 5; end loop; @', 'semicolon': 'loop @; exit when X > 5; end loop', 'else': 'loop exit when X > 5; @else null; end loop'}.items():
        yield unexpected(f'plain_loop_with_{name}.adb', longer(X, 'X from X', statement))
    for name, statement in {'a_marked_plain_loop': '--# @loop', 'a_marked_exit': 'loop\n--# @exit when X > 5;\nX := 0; end loop', 'a_marked_when_of_an_exit': 'loop exit\n--# @when X > 5;\nX := 0; end loop'}.items():
        yield unexpected(f'{name}.adb', longer(X, 'X from X', statement))
    yield bad_byte('value_on_entry_in_an_exit.adb', longer(X, 'X from X', 'loop exit when X@~ > 5; X := 0; end loop'))
    yield unexpected('exit_among_declarations.adb', longer(X, 'X from X', 'X := X', declared=['@exit']))
    yield unexpected('plain_loop_among_declarations.adb', longer(X, 'X from X', 'X := X', declared=['@loop null; end loop']))
    yield accepted('condition_of_an_exit_of_200_levels.adb', longer(X, 'X from X', plain(f'exit when {nested(198, "X > 5")}', 'X := 0')), 1)
    yield too_nested('condition_of_an_exit_of_201_levels.adb', longer(X, 'X from X', plain(f'exit when {nested(199, "X > 5")}', 'X := 0')))
    yield accepted('plain_loops_of_200_levels.adb', longer(X, 'X from X', 'loop ' * 200 + 'exit when True; X := X; ' + 'end loop; exit when True; ' * 199 + 'end loop'), 1)
    yield too_nested('value_with_a_level_in_200_plain_loops.adb', longer(X, 'X from X', 'loop ' * 200 + 'X := (0); ' + 'end loop; ' * 199 + 'end loop'))


def rules_of_exits():
    """The condition of an exit is Boolean; an exit is in one of two forms."""
    yield refused('number_for_the_condition_of_an_exit.adb', longer(X, 'X from X', plain('exit when @X', 'X := 0')), 'N10')
    yield refused('undeclared_in_the_condition_of_an_exit.adb', longer(X, 'X from X', plain('exit when @Y > 0', 'X := Z')), 'N1')
    yield refused('type_in_the_condition_of_an_exit.adb', longer(X, 'X from X', plain('exit when @Integer > 0', 'X := 0')), 'N3')
    yield refused('static_fault_in_the_condition_of_an_exit.adb', longer(X, 'X from X', plain('exit when X > 1 @/ 0', 'X := 0')), 'N12')
    yield refused('statement_of_a_plain_loop_that_fails.adb', longer(X, 'X from X', plain('exit when X > 0', 'X := @Z')), 'N1')
    yield refused('case_in_a_plain_loop_that_misses_values.adb', longer(X, 'X from X', plain('exit when X > 0', '@case X is when 1 => X := 0; end case')), 'N17')
    for name, statement in {
            'exit_outside_loops': '@exit', 'exit_when_outside_loops': '@exit when X > 0', 'exit_in_an_arm_outside_loops': 'if X > 0 then @exit; end if', 'exit_after_a_loop': 'while X > 0 loop X := 0; end loop; @exit when X > 0',
            'exit_without_condition_in_a_loop': 'loop X := 0; @exit; end loop', 'exit_without_condition_in_a_while': 'while X > 0 loop X := 0; @exit; end loop',
            'exit_when_in_an_arm': 'loop if X > 0 then @exit when X > 5; end if; X := 0; end loop', 'exit_in_an_if_with_else': 'loop if X > 0 then X := 0; @exit; else X := 1; end if; end loop',
            'exit_after_else': 'loop if X > 0 then X := 0; else @exit; end if; end loop', 'exit_in_an_if_with_elsif': 'loop if X > 0 then @exit; elsif X < 0 then X := 0; end if; end loop',
            'exit_after_elsif': 'loop if X > 0 then X := 0; elsif X < 0 then @exit; end if; end loop', 'exit_that_is_not_last': 'loop if X > 0 then @exit; X := 0; end if; end loop',
            'two_exits_in_an_arm': 'loop if X > 0 then @exit; exit; end if; X := 0; end loop', 'exit_in_an_alternative': 'loop case X is when 1 => @exit; when others => X := 0; end case; end loop',
            'exit_when_in_an_alternative': 'loop case X is when 1 => @exit when X > 0; when others => X := 0; end case; end loop',
            'exit_in_an_inner_if': 'loop if X > 0 then if X > 5 then @exit; end if; end if; X := 0; end loop', 'exit_when_before_the_exit_of_an_arm': 'loop if X > 0 then @exit when X > 5; exit; end if; X := 0; end loop'}.items():
        yield refused(f'{name}.adb', longer(X, 'X from X', statement), 'U4')
    yield accepted('exit_in_a_loop_in_an_arm.adb', longer(X, 'X from X', f'if X > 0 then {plain(leaving("X > 5"), "X := 6")}; end if'), 1)
    yield accepted('exit_in_a_loop_in_an_alternative.adb', longer(A_AND_X, 'X from X, A', f'case A is when 1 => {plain("exit when X > 5", "X := 6")}; when others => null; end case'), 1)
    yield refused('exit_past_the_end_of_an_inner_loop.adb', longer(X, 'X from X', plain(f'if X > 0 then {plain("exit when X > 5", "X := 6")}; @exit when X > 7; end if', 'exit when X > 8')), 'U4')
    yield refused('target_before_a_bad_exit.adb', longer(A_TO_X, 'X from A', 'X := A', plain('@A := 0', 'exit')), 'U2')
    yield refused('bad_exit_before_a_target.adb', longer(A_TO_X, 'X from A', 'X := A', plain('@exit', 'A := 0')), 'U4')
    yield refused('relation_before_a_bad_exit.adb', longer(A_TO_X, '@A from X', 'X := A', plain('exit')), 'U8')
    yield refused('name_before_a_bad_exit.adb', longer(X, 'X from X', plain('exit'), 'X := @Y'), 'N1')
    yield refused('bad_exit_before_a_flow.adb', longer(A_AND_X, 'X from X & null from A', plain('X := A', '@exit')), 'U4')


def flow_of_exits():
    """What the condition of an exit reads comes to all that the loop sets; a plain loop that has an exit is left nowhere else."""
    AB_X, AB_N, ABXY = 'A, B : in Integer; X : in out Integer', 'A, B : in Boolean; N : out Integer', 'A, B : in Integer; X, Y : in out Integer'
    A_XY = 'A : in Integer; X, Y : in out Integer'
    seek = 'procedure Seek (A, B : in Boolean; N : out Integer)\n--# derives @N from A & null from B;\nis\nbegin\n   N := 0;\n   loop\n      exit when A;\n      N := N + 1;\n      exit when B;\n      N := N + 1;\n   end loop;\nend Seek;\n'
    yield refused('seek.adb', seek, 'F1 missing: N from B')
    yield left_at('seek_with_both.adb', longer(AB_N, 'N from A, B', 'N := 0', plain('exit when A', 'N := N <2o>+ 1', 'exit when B', 'N := N <4o>+ 1')), 5)
    yield refused('missing_flow_of_an_exit.adb', longer(A_AND_X, '@X from X & null from A', plain('exit when A > 0', 'X := 0')), 'F1 missing: X from A')
    yield refused('missing_flow_of_an_exit_in_an_arm.adb', longer(A_AND_X, '@X from X & null from A', plain(leaving('A > 0'), 'X := 0')), 'F1 missing: X from A')
    yield accepted('flow_of_statements_before_an_exit.adb', longer('A, B : in Integer; X : out Integer', 'X from A, B', plain(leaving('A > 0', 'X := B'), 'null')), 1)
    yield refused('missing_flow_of_statements_before_an_exit.adb', longer('A, B : in Integer; X : out Integer', '@X from A & null from B', plain(leaving('A > 0', 'X := B'), 'null')), 'F1 missing: X from B')
    yield refused('overwritten_before_its_exit.adb', longer('A, B : in Integer; X : out Integer', 'X from A, B', plain(leaving('A > 0', 'X := B'), '@X := 0')), 'F3')
    yield refused('plain_loop_is_not_left_at_its_head.adb', longer(A_AND_X, '@X from X, A', plain('X := A', 'exit when A > 0')), 'F2 unused: X from X')
    yield accepted('while_may_be_left_at_its_head.adb', longer(A_AND_X, 'X from X, A', looping('A > 0', 'X := A', 'exit when A > 5')), 1)
    yield accepted('exit_after_some_turns.adb', longer(A_XY, 'X from X, A & Y from Y, X, A', plain('exit when A > 0', 'Y := X', 'X := A')), 2)
    yield refused('missing_flow_through_a_turn_and_an_exit.adb', longer(A_XY, 'X from X, A & @Y from Y, A', plain('exit when A > 0', 'Y := X', 'X := A')), 'F1 missing: Y from X')
    yield accepted('exit_of_a_loop_inside.adb', longer(ABXY, 'X from X, A, B & Y from Y, A', plain('exit when A > 0', plain('exit when B > 0', 'X := A'), 'Y := 1')), 2)
    yield refused('exit_of_a_loop_inside_past_its_targets.adb', longer(ABXY, 'X from X, A, B & @Y from Y, A, B', plain('exit when A > 0', plain('exit when B > 0', 'X := A'), 'Y := 1')), 'F2 unused: Y from B')
    yield accepted('while_with_the_flow_of_an_exit.adb', longer(AB_X, 'X from X, A, B', looping('A > 0', 'exit when B > 0', 'X := 0')), 1)
    yield accepted('for_over_a_subtype_with_an_exit.adb', longer(A_AND_X, 'X from X, A', counting('I in Small', 'exit when A > 0', 'X := I'), declared=[TO_THREE]), 1)
    yield accepted('exit_over_a_parameter_and_a_bound.adb', longer(AB_X, 'X from X, A, B', counting('I in Integer range 1 .. A', 'exit when I > B', 'X := I')), 2)
    yield refused('flow_of_a_bound_to_an_exit.adb', longer(AB_X, '@X from X, B & null from A', counting('I in Integer range 1 .. A', 'exit when I > B', 'X := I')), 'F1 missing: X from A')
    yield accepted('value_for_an_exit.adb', longer(A_AND_X, 'X from X, A', 'T := A', plain('exit when T > 0', 'X := 0'), declared=T), 2)
    yield accepted('value_for_the_next_exit.adb', longer(A_AND_X, 'X from X, A', 'T := 0', plain('exit when T > 0', 'X := 0', 'T := A'), declared=T), 3)
    yield refused('exit_of_a_loop_over_nothing.adb', longer(X, 'X from X', plain('@exit when X > 0', 'null'), 'X := X'), 'F3')
    yield refused('exit_in_an_arm_of_a_loop_over_nothing.adb', longer(X, 'X from X', plain('@' + leaving('X > 0'), 'null'), 'X := X'), 'F3')
    yield refused('value_that_is_lost_at_an_exit.adb', longer(X, 'X from X', plain(leaving('X > 0', '@T := 1'), 'X := 1'), declared=T), 'F3')
    yield accepted('loop_without_exit.adb', longer(X, 'X from X', plain('X := X')), 1)
    yield refused('missing_flow_of_a_loop_without_exit.adb', longer(A_TO_X, '@X from A', plain('X := A')), 'F1 missing: X from X')


def unset_at_exits():
    """After a loop is set what is set at each of its exits; after a loop that no way leaves nothing is unset."""
    yield accepted('set_before_an_exit.adb', longer(A_TO_X, 'X from A', plain('X := A', 'exit when A > 0')), 1)
    yield refused('unset_at_an_exit.adb', longer('A, B : in Integer; X : out Integer', '@X from A, B', plain('exit when A > 0', 'X := B')).replace('end Inc', '@end Inc'), 'F1 missing: X from X', 'F4 unset: X')
    yield accepted('local_set_before_an_exit.adb', longer(A_TO_X, 'X from A', plain('T := A', 'exit when A > 0'), 'X := T', declared=T), 2)
    yield refused('local_set_after_an_exit.adb', longer(A_TO_X, 'X from A', plain('exit when A > 0', 'T := A'), 'X := @T', declared=T), 'F4 unset: T')
    yield accepted('local_set_in_the_arm_of_an_exit.adb', longer(A_TO_X, 'X from A', plain(leaving('A > 0', 'T := 1'), 'null'), 'X := T', declared=T), 2)
    yield refused('local_set_at_one_exit_of_two.adb', longer(A_TO_X, 'X from A', plain(leaving('A > 0', 'T := 1'), 'exit when A < 0'), 'X := @T', declared=T), 'F4 unset: T')
    yield accepted('local_set_at_both_exits.adb', longer(A_TO_X, 'X from A', plain(leaving('A > 0', 'T := 1'), 'T := 2', 'exit when A < 0'), 'X := T', declared=T), 4)
    yield refused('local_set_in_a_while_before_its_exit.adb', longer(A_TO_X, 'X from A', looping('A > 0', 'T := A', 'exit when A > 5'), 'X := @T', declared=T), 'F4 unset: T')
    yield refused('local_set_in_a_for_after_its_exit.adb', longer(A_TO_X, 'X from A', counting('I in Small', 'exit when A > 0', 'T := I'), 'X := @T', declared=[TO_THREE, *T]), 'F4 unset: T')
    yield accepted('local_set_in_a_for_before_its_exit.adb', longer(A_TO_X, 'X from A', counting('I in Small', 'T := I', 'exit when A > 0'), 'X := T', declared=[TO_THREE, *T]), 3)
    yield refused('unset_in_the_condition_of_an_exit.adb', longer(X, 'X from X', plain('exit when @T > 0', 'T := X', 'X := 0'), declared=T), 'F4 unset: T')
    yield refused('unset_in_a_plain_loop.adb', longer(OUT_X, '@X from', plain('X := @T'), declared=T), 'F1 missing: X from X', 'F4 unset: T')
    yield refused('export_behind_a_loop_that_is_not_left.adb', longer(OUT_X, '@X from', plain('null')), 'F1 missing: X from X')
    yield accepted('read_behind_a_loop_that_is_not_left.adb', longer(OUT_X, 'X from', plain('null'), 'X := T', declared=T), 0)
    yield refused('read_before_a_loop_that_is_not_left.adb', longer(OUT_X, 'X from', 'X := @T', plain('null'), declared=T), 'F4 unset: T')
    yield accepted('loop_that_is_not_left_in_an_arm.adb', longer(A_TO_X, 'X from A', f'if A > 0 then {plain("null")}; else T := A; end if', 'X := T', declared=T), 2)


def conditions_of_exits():
    """The condition of an exit is false past it and true after the loop; at `exit when` what goes on comes first."""
    left = plain('exit when X > 5', 'X := 0')
    yield accepted('fact_of_an_exit.adb', longer(X, 'X from X', left, '--# check X > 5', 'X := X'), 3)
    yield accepted('fact_past_an_exit.adb', longer(X, 'X from X', plain('exit when X > 5', 'X := X + 1')), 2)
    yield left_at('exit_of_the_other_condition.adb', longer(X, 'X from X', plain('exit when X <= 5', 'X := X <1o>+ 1')), 2)
    yield accepted('fact_past_an_exit_in_an_arm.adb', longer(X, 'X from X', plain(leaving('X > 5'), 'X := X + 1')), 2)
    yield examined('order_at_exit_when.adb', longer(X, 'X from X', left, '--# @check X = 0', 'X := X'), ('Inc', 3, (2, 'check')))
    yield examined('order_at_an_exit_in_an_arm.adb', longer(X, 'X from X', plain(leaving('X > 5'), 'X := 0'), '--# @check X = 0', 'X := X'), ('Inc', 3, (1, 'check')))
    yield accepted('statements_before_an_exit.adb', longer(X, 'X from X', plain(leaving('X > 5', 'X := 1'), 'X := 0'), '--# check X = 1', 'X := X'), 4)
    yield accepted('assertion_before_an_exit.adb', longer(X, 'X from X', 'loop\n--# assert X >= 0;\nexit when X > 5; X := X + 1; end loop', pre='X >= 0'), 4)
    yield accepted('assertion_after_an_exit.adb', longer(X, 'X from X', 'loop exit when X > 5;\n--# assert X <= 5;\nX := X + 1; end loop', '--# check X > 5', 'X := X'), 8)
    yield left_at('checks_of_the_condition_of_an_exit.adb', longer(X, 'X from X', plain('exit when X <1o>- 1 > 0', 'X := 0')), 2)
    yield examined('exit_of_a_for.adb', longer(A_AND_X, 'X from X, A', counting('I in Integer range 1 .. A', 'exit when X > 5', 'X := 0'), '--# @@check X > 5', 'X := X'), ('Inc', 8, (2, 'check'), (5, 'check')))
    yield accepted('exit_of_the_loop_inside_only.adb', longer(X, 'X from X', 'loop exit when X > 9; loop exit when X > 5; X := 6; end loop;\n--# check X > 5;\nX := X; end loop'), 3)
    yield examined('fact_before_a_plain_loop_is_lost.adb', longer(A_AND_X, 'X from X, A', plain('exit when A > 0', 'X := 0'), '--# @check X > 5', 'X := X', pre='X > 5'), ('Inc', 3, (2, 'check')))
    yield accepted('plain_loop_with_no_way_behind_it.adb', longer(X, 'X from X', plain('X := X'), '--# check X = 0', 'X := X'), 1)
    yield accepted('half_a_turn.adb', longer(X, 'X from X', plain('X := X', 'exit when X > 4', 'X := 5'), '--# check X > 4', 'X := X'), 4)


def paths_of_exits():
    """An exit has a path out of the loop, and one on where it has a condition; a plain loop has no other path after it."""
    ifs = ['if A > 0 then X := A; end if']
    yield accepted('ten_ifs_before_an_exit.adb', longer(A_AND_X, 'X from X, A', plain(*ifs * 10, 'exit when A > 0')), 1023)
    yield too_many_paths('eleven_ifs_before_an_exit.adb', longer(A_AND_X, 'X from X, A', plain(*ifs * 11, 'exit when A > 0')))
    yield accepted('eleven_ifs_after_an_exit.adb', longer(A_AND_X, 'X from X, A', plain('exit when A > 0', 'X := A'), *ifs * 11), 2048)
    yield too_many_paths('twelve_ifs_after_an_exit.adb', longer(A_AND_X, 'X from X, A', plain('exit when A > 0', 'X := A'), *ifs * 12))
    yield accepted('twenty_ifs_behind_a_loop_that_is_not_left.adb', longer(A_AND_X, 'X from X, A', plain('X := A'), *ifs * 20), 1)


# ---------------------------------------------------------------- runs

INPUTS = 'in.txt'


def run_words(name, entry='Inc', turns=None, inputs=None):
    """The words of a run."""
    return ('run', '--entry', entry, *(() if turns is None else ('--turns', str(turns))), *(() if inputs is None else ('--inputs', inputs)), name)


def run_on(name, text, inputs, lines, status, entry='Inc', turns=None):
    """What is printed where the entry is run with these inputs, as `A = 1, B = 2`; without a file of inputs where there are none."""
    second = (INPUTS, inputs.replace(', ', '\n').encode('utf-8') + b'\n') if inputs else None
    return Case(name, encoded(text), ''.join(line + '\n' for line in lines), status, run_words(name, entry, turns, INPUTS if inputs else None), second)


def ended(name, text, inputs, *exports, **more):
    """The run ends with these exports, as `X = 1`."""
    return run_on(name, text, inputs, exports, 0, **more)


def faulted(name, text, inputs, kind, **more):
    """A check of this kind fails at the one `@`, which is taken out."""
    ((line, column),), spelled_out = marked_places(encoded(text))
    return run_on(name, spelled_out, inputs, [f'fault: {kind} at {name}:{line}:{column}'], 7, **more)


def not_ended(name, text, inputs, turns, **more):
    """The run does not end within so many turns."""
    return run_on(name, text, inputs, [f'not ended within {turns} turns'], 8, turns=turns, **more)


def too_wide_in_run(name, text, inputs, **more):
    """An annotation that the run comes to computes a number that 128 bits do not hold."""
    return run_on(name, text, inputs, ['limit: bits, at most 128'], 6, **more)


def too_many_in_run(name, text, inputs, **more):
    """The variables of the entry have more array elements than those of a run may have."""
    return run_on(name, text, inputs, ['limit: elements, at most 1000000'], 6, **more)


SIGNS_TEXT = """procedure Signs (A, B : in Integer; Q, R, M : out Integer)
--# derives Q, R, M from A, B;
--# pre B /= 0;
is
begin
   Q := A / B;
   R := A rem B;
   M := A mod B;
end Signs;
"""
SEEK_TEXT = """procedure Seek (A, B : in Boolean; N : out Integer)
--# derives N from A & null from B;
is
begin
   N := 0;
   loop
      exit when A;
      N := N + 1;
      exit when B;
      N := N + 1;
   end loop;
end Seek;
"""


def worked_runs():
    """Divisions with signs, and loops that are left or not."""
    # The quotient goes toward zero, `rem` has the sign of A, `mod` that of B (RM 4.5.5).
    for label, a, b, q, r, m in (('signs', -7, 3, -2, -1, 2), ('signs_of_a_negative_divisor', 7, -3, -2, 1, -2), ('signs_of_two_negatives', -7, -3, 2, -1, -1),
                                 ('signs_of_no_negative', 7, 3, 2, 1, 1), ('signs_of_a_multiple', 6, -3, -2, 0, 0), ('signs_of_zero', 0, -5, 0, 0, 0),
                                 ('signs_of_the_least_dividend', -2147483648, 2147483647, -1, -1, 2147483646)):
        yield ended(f'{label}.adb', SIGNS_TEXT, f'A = {a}, B = {b}', f'Q = {q}', f'R = {r}', f'M = {m}', entry='Signs')
    yield faulted('signs_overflow.adb', SIGNS_TEXT.replace('A / B', 'A @/ B'), 'A = -2147483648, B = -1', 'overflow', entry='Signs')
    yield faulted('signs_pre.adb', SIGNS_TEXT.replace('pre', '@pre'), 'A = -7, B = 0', 'pre', entry='Signs')
    # Neither `exit` is taken, in any turn; with B the first turn is left in its middle, and with A at its beginning.
    yield not_ended('seek.adb', SEEK_TEXT, 'A = False, B = False', 5, entry='Seek')
    yield refused('seek_with_a_flow.adb', SEEK_TEXT.replace('N from A', '@N from A'), 'F1 missing: N from B')
    yield ended('seek_a.adb', SEEK_TEXT, 'A = True, B = False', 'N = 0', entry='Seek', turns=1)
    yield ended('seek_b.adb', SEEK_TEXT, 'A = False, B = True', 'N = 1', entry='Seek', turns=1)


def computing(value, given='A, B : in Integer', target='Integer', sources='A, B', declared=(), pre=None):
    """A procedure that assigns the value to X, of this type."""
    return longer(f'{given}; X : out {target}', f'X from {sources}', f'X := {value}', declared=declared, pre=pre)


def runs_of_operators():
    """Each operator with signs and at the ends of its range. An operation fails at its operator, a value that is assigned at itself."""
    for label, value, a, b, x in (
            ('sum', 'A + B', 2147483646, 1, 2147483647), ('sum_of_a_negative', 'A + B', -2147483648, 0, -2147483648), ('difference', 'A - B', -2147483647, 1, -2147483648),
            ('product', 'A * B', 46340, 46341, 2147441940), ('product_at_the_end', 'A * B', -65536, 32768, -2147483648), ('power', 'A ** B', 2, 30, 1073741824),
            ('power_at_the_end', 'A ** B', -2, 31, -2147483648), ('power_of_nothing', 'A ** B', 0, 0, 1), ('zero_to_a_power', 'A ** B', 0, 5, 0),
            ('great_power_of_one', 'A ** B', 1, 2147483647, 1), ('great_odd_power_of_minus_one', 'A ** B', -1, 2147483647, -1),
            ('rem_of_the_least', 'A rem B', -2147483648, -1, 0), ('mod_of_the_least', 'A mod B', -2147483648, -1, 0), ('sign', '-A + B', 5, 2, -3), ('plus', '+A - B', 5, 2, 3),
            ('abs_of_a_negative', 'abs A + B', -5, 2, 7), ('sign_of_a_mod', '-A mod B', 7, 3, -1), ('sums_from_the_left', 'A - B - A + B', 5, 2, 0),
            ('quotients_from_the_left', 'A / B / B', 17, 2, 4), ('static_part', 'A + (2147483648 - 1) - B', 0, 1, 2147483646)):
        yield ended(f'run_{label}.adb', computing(value), f'A = {a}, B = {b}', f'X = {x}')
    for label, value, a, b, kind in (
            ('sum', 'A @+ B', 2147483647, 1, 'overflow'), ('difference', 'A @- B', -2147483648, 1, 'overflow'), ('product', 'A @* B', 46341, 46341, 'overflow'),
            ('product_past_the_end', 'A @* B', 65536, 32768, 'overflow'), ('power', 'A @** B', 2, 31, 'overflow'), ('great_power', 'A @** B', -2, 2147483647, 'overflow'),
            ('negative_exponent', 'A ** @B', 5, -1, 'range'), ('exponent_that_is_a_sum', '2 ** (A + B) @* A', 31, -1, 'overflow'), ('exponent_in_parentheses', 'A ** @(B - 1)', 1, 0, 'range'),
            ('quotient_by_0', 'A @/ B', 1, 0, 'division'), ('rem_by_0', 'A @rem B', 1, 0, 'division'), ('mod_by_0', 'A @mod B', 0, 0, 'division'), ('sign', 'B @- A', -2147483648, 0, 'overflow'),
            ('unary_minus', '@-A', -2147483648, 0, 'overflow'), ('abs', 'B + (@abs A)', -2147483648, 0, 'overflow'), ('left_operand_first', '(A @/ B) + (A mod B)', 1, 0, 'division'),
            ('right_operand_next', '(A + 1) @/ B', 1, 0, 'division'), ('part_before_the_whole', '(A @* A) / B', 46341, 0, 'overflow')):
        inputs = f'A = {a}, B = {b}'
        yield faulted(f'fault_of_{label}.adb', computing(value), inputs, kind)
    yield faulted('fault_of_a_natural.adb', computing('A @- B', target='Natural'), 'A = 3, B = 5', 'range')
    yield faulted('fault_of_a_copy.adb', computing('@A', given='A : in Integer', target='Positive', sources='A'), 'A = 0', 'range')
    yield faulted('fault_in_parentheses.adb', computing('@(A - B)', target='Natural'), 'A = 3, B = 5', 'range')
    yield faulted('overflow_before_range.adb', computing('A @- B', target='Natural'), 'A = -2147483648, B = 5', 'overflow')
    yield ended('natural_at_its_end.adb', computing('A - B', target='Natural'), 'A = 5, B = 5', 'X = 0')


def runs_of_types():
    """Types of their own have base ranges of their own; functions have results in their bounds."""
    wide = 'type Wide is range 0 .. 2 ** 40'
    by_t = 'A : in Integer; X : out Integer'

    def with_t(value, declared, *more, start='A'):
        return longer(by_t, 'X from A', f'T := {start}', *more, f'X := {value}', declared=[*declared, 'T : ' + declared[0].split()[1]])
    yield ended('long_base_range.adb', with_t('Integer (T * T / T)', [wide], start='Wide (A)'), 'A = 2147483647', 'X = 2147483647')
    yield faulted('past_a_long_base_range.adb', with_t('Integer (T * T @* T)', [wide], start='Wide (A)'), 'A = 2147483647', 'overflow')
    yield faulted('range_of_a_wide_type.adb', with_t('Integer (T)', [wide], 'T := T @* T', start='Wide (A)'), 'A = 1048577', 'range')
    yield ended('wide_type_at_its_end.adb', with_t('Integer (T / 1024)', [wide], 'T := T * T', start='Wide (A)'), 'A = 1048576', 'X = 1073741824')
    yield faulted('conversion_past_its_type.adb', with_t('Integer (T)', ['subtype Small is Integer range 1 .. 9'], start='Small (@A)'), 'A = 10', 'range')
    yield faulted('conversion_of_a_sum.adb', with_t('Integer (T)', ['subtype Small is Integer range 1 .. 9'], start='Small (A @+ 1)'), 'A = 9', 'range')
    yield faulted('qualification_past_its_type.adb', with_t('Integer (T)', ['subtype Small is Integer range 1 .. 9'], start="Small'(@A)"), 'A = 0', 'range')
    yield ended('positions.adb', with_t("Hue'Pos (Hue'Succ (T)) * 10 + Hue'Pos (Hue'Pred (T))", [HUES], start="Hue'Val (A)"), 'A = 1', 'X = 20')
    yield faulted('succ_of_the_last.adb', with_t("Hue'Pos (Hue'Succ (@T))", [HUES], start="Hue'Val (A)"), 'A = 2', 'range')
    yield faulted('pred_of_the_first.adb', with_t("Hue'Pos (Hue'Pred (@T))", [HUES], start="Hue'Val (A)"), 'A = 0', 'range')
    yield faulted('val_past_the_last.adb', with_t("Hue'Pos (T)", [HUES], start="Hue'Val (@A)"), 'A = 3', 'range')
    yield faulted('val_of_a_negative.adb', with_t("Hue'Pos (T)", [HUES], start="Hue'Val (@A)"), 'A = -1', 'range')
    yield ended('initial_value.adb', longer(X, 'X from X', 'X := X + T', 'T := X', declared=['T : Integer := 5']), 'X = 2', 'X = 7')
    yield ended('constants_in_a_run.adb', longer(X, 'X from X', 'X := X + C - N', declared=['C : constant Integer := 5', 'N : constant := 2 ** 100 - 2 ** 100 + 1']), 'X = 2', 'X = 6')


def runs_of_universal_powers():
    """The power of a number is computed in the type that it meets. So what fits only 64 bits is a fault in an Integer."""
    types = [BIG, LONG, HUES, 'V : Big', 'W : Long']
    halves, signs = 'A : in Integer; H, L : out Integer', 'A : in Integer; X, Y : out Boolean'

    def split(value, declared='V'):
        return longer(halves, 'H, L from A', f'{declared} := {value}', f'H := Integer ({declared} / 2 ** 32)', f'L := Integer ({declared} mod 2 ** 31)', declared=types)

    def tried(*statements, params=A_TO_X, derives='X from A'):
        return longer(params, derives, *statements, declared=types)

    # The high part is the value by 2 ** 32, and the low part what is left by 2 ** 31.
    for label, value, a, high, low in (
            ('in_a_long_type', '2 ** A', 40, 256, 0), ('of_the_widest_integer', '2147483647 ** A', 1, 0, 2147483647), ('that_fits_an_integer', '2 ** A', 10, 0, 1024),
            ('to_zero', '4294967296 ** A', 0, 0, 1), ('of_a_wide_number', '4294967296 ** A', 1, 1, 0), ('with_a_sum', '1 + 2 ** A', 33, 2, 1), ('with_a_difference', '2 ** A - 1', 32, 0, 2147483647),
            ('in_a_product', '4294967296 * 2 ** A', 8, 256, 0), ('under_a_sign', '-(2 ** A)', 40, -256, 0), ('under_abs', 'abs ((-2) ** A)', 39, 128, 0), ('in_a_quotient', '1099511627776 / 2 ** A', 5, 8, 0),
            ('in_a_mod', '2 ** A mod 4294967297', 32, 1, 0), ('of_a_sum', '(1 + 1) ** A', 35, 8, 0), ('in_an_exponent', '2 ** (2 ** A)', 5, 1, 0), ('of_a_power', '(2 ** A) ** 4', 10, 256, 0)):
        yield ended(f'run_of_a_power_{label}.adb', split(value), f'A = {a}', f'H = {high}', f'L = {low}')
    yield ended('run_of_a_power_in_64_bits.adb', split('2 ** A', 'W'), 'A = 62', 'H = 1073741824', 'L = 0')
    yield ended('run_of_a_power_at_the_first_of_64_bits.adb', split('(-2) ** A', 'W'), 'A = 63', 'H = -2147483648', 'L = 0')
    yield faulted('run_of_a_power_past_64_bits.adb', split('2 @** A', 'W'), 'A = 63', 'overflow')
    yield faulted('run_of_a_power_past_its_type.adb', split('2 @** A'), 'A = 41', 'range')
    yield faulted('run_of_a_power_past_64_bits_of_a_type.adb', split('2 @** A'), 'A = 2147483647', 'overflow')
    yield faulted('run_of_a_sign_past_64_bits.adb', split('@-((-2) ** A)', 'W'), 'A = 63', 'overflow')
    yield faulted('run_of_a_product_past_64_bits.adb', split('4294967296 @* 2 ** A', 'W'), 'A = 31', 'overflow')
    yield faulted('run_of_a_negative_exponent.adb', split('2 ** @A'), 'A = -1', 'range')
    yield faulted('run_of_an_exponent_past_integer.adb', split('1 ** (2 @** A)'), 'A = 31', 'overflow')
    yield faulted('run_of_a_power_of_powers_past_64_bits.adb', split('2 @** (2 ** A)'), 'A = 6', 'overflow')
    for label, value, kind, a in (
            ('past_integer', '2 @** A', 'overflow', 31), ('past_integer_in_a_sum', '2 ** A @+ 2 ** A', 'overflow', 30), ('past_integer_under_a_sign', '@-((-2) ** A)', 'overflow', 31),
            ('past_integer_beside_one', '2 @** A + A', 'overflow', 31), ('past_integer_in_a_conversion', 'Integer (2 @** A)', 'overflow', 31),
            ('past_integer_in_a_qualification', "Integer'(2 @** A)", 'overflow', 31), ('below_zero', '2 ** @A', 'range', -1), ('past_a_conversion', 'Integer (Big (2 @** A))', 'range', 41),
            ('past_64_bits_in_a_conversion', 'Integer (Big (2 @** A))', 'overflow', 63), ('past_integer_in_val', "Hue'Pos (Hue'Val (2 @** A))", 'overflow', 31),
            ('past_the_literals_of_val', "Hue'Pos (Hue'Val (2 @** A))", 'range', 2)):
        yield faulted(f'run_of_a_power_{label}.adb', tried(f'X := {value}'), f'A = {a}', kind)
    for label, value, a, x in (('of_integer', '2 ** A', 30, 1073741824), ('at_the_first_of_integer', '(-2) ** A', 31, -2147483648), ('in_conversions', 'Integer (Big (2 ** A) / 1024)', 40, 1073741824),
                               ('in_val', "Hue'Pos (Hue'Val (2 ** A))", 1, 2)):
        yield ended(f'run_of_a_power_{label}.adb', tried(f'X := {value}'), f'A = {a}', f'X = {x}')
    # two comparisons, with what is in the types of both sides
    for label, first, second, a, found in (
            ('with_a_long_type', '2 ** A > V', 'V < 2 ** A', 41, 'TT'), ('with_an_equal_one', '2 ** A = V', '2 ** A - 1 >= V', 40, 'TF'), ('with_a_number', '2 ** A > 5', '1024 = 2 ** A', 10, 'TT'),
            ('with_powers', '2 ** A = 4 ** A', '2 ** A < 4 ** A', 15, 'FT'), ('tested_in_a_long_type', '2 ** A in Big', '2 ** A not in Big', 41, 'FT'), ('in_a_long_range', '2 ** A in 0 .. V', 'V in 2 ** A .. 2 ** A + 1', 40, 'TT'),
            ('in_a_range_of_numbers', '2 ** A in 0 .. 5', '4 in 0 .. 2 ** A', 2, 'TT'), ('in_nested_comparisons', '(2 ** A > 5) = (2 ** A > V)', '2 ** A > V or else 2 ** A > 5', 30, 'FT')):
        yield ended(f'run_of_a_power_{label}.adb', tried('V := 1099511627776', f'X := {first}', f'Y := {second}', params=signs, derives='X, Y from A'), f'A = {a}',
                    *(f'{name} = {"True" if truth == "T" else "False"}' for name, truth in zip('XY', found)))
    for label, condition, a in (
            ('with_a_number', '2 @** A > 5', 31), ('with_a_number_on_the_left', '5 < 2 @** A', 31), ('with_a_power', '1 ** A < 2 @** A', 31), ('with_a_long_type', '2 @** A > V', 63), ('in_integer', '2 @** A in Integer', 31),
            ('in_a_long_type', '2 @** A in Big', 63), ('in_a_range_of_numbers', '2 @** A in 0 .. 5', 31), ('in_a_range_after_a_number', '5 in 0 .. 2 @** A', 31), ('in_a_long_range', 'V in 0 .. 2 @** A', 63)):
        yield faulted(f'fault_of_a_power_{label}.adb', tried('V := 1', f'X := {condition}', 'Y := V > 0', params=signs, derives='X, Y from A'), f'A = {a}', 'overflow')
    selected = tried('case 2 ** A is when 8 => X := 1; when others => X := 0; end case')
    yield ended('run_of_a_power_that_selects.adb', selected, 'A = 3', 'X = 1')
    yield faulted('fault_of_a_power_that_selects.adb', selected.replace('case 2 **', 'case 2 @**'), 'A = 31', 'overflow')
    turns = tried('X := 0', 'for I in Big range 2 ** A .. 2 ** A + 3 loop X := X + 1; V := I; end loop')
    yield ended('run_of_powers_for_bounds.adb', turns, 'A = 38', 'X = 4')
    yield faulted('range_of_powers_for_bounds.adb', turns.replace('range 2 **', 'range 2 @**'), 'A = 40', 'range')
    yield faulted('overflow_of_powers_for_bounds.adb', turns.replace('range 2 **', 'range 2 @**'), 'A = 63', 'overflow')
    product = tried('V := V * (2 ** A + 3 ** A)', 'X := Integer (V)').replace('V : Big;', 'V : Big := 3;')
    yield ended('run_of_two_powers.adb', product, 'A = 2', 'X = 39')
    yield faulted('fault_of_two_powers.adb', product.replace('3 **', '3 @**'), 'A = 40', 'overflow')
    # an annotation has no overflow, and its numbers have 128 bits
    stated = tried('V := 1099511627776', '--# check 2 ** A > 5 and 2 ** A = V and 2 ** (A + A) /= V', 'X := Integer (V / 1024)')
    yield ended('powers_in_an_annotation.adb', stated, 'A = 40', 'X = 1073741824')
    yield faulted('powers_in_a_false_annotation.adb', stated.replace('check', '@check'), 'A = 41', 'check')
    yield too_wide_in_run('powers_past_128_bits_in_an_annotation.adb', stated, 'A = 64')


def runs_of_truth_values():
    """Relations, logical operators and membership tests. A short-circuit form evaluates its right side only where it is needed."""
    relations = ('A = B', 'A /= B', 'A < B', 'A <= B', 'A > B', 'A >= B')
    names = [f'R{at}' for at in range(1, 7)]
    text = longer(f'A, B : in Integer; {", ".join(names)} : out Boolean', f'{", ".join(names)} from A, B', *(f'{name} := {relation}' for name, relation in zip(names, relations)))
    for label, a, b, found in (('less', -2, -1, 'FTTTFF'), ('equal', 3, 3, 'TFFTFT'), ('greater', 1, -1, 'FTFFTT')):
        yield ended(f'relations_of_{label}.adb', text, f'A = {a}, B = {b}', *(f'{name} = {"True" if truth == "T" else "False"}' for name, truth in zip(names, found)))
    logical = ('A and B', 'A or B', 'A xor B', 'A and then B', 'A or else B', 'not A', 'A = B')
    names = [f'R{at}' for at in range(1, 8)]
    text = longer(f'A, B : in Boolean; {", ".join(names)} : out Boolean', f'{", ".join(names)} from A, B', *(f'{name} := {value}' for name, value in zip(names, logical)))
    for label, a, b, found in (('tt', 'True', 'True', 'TTFTTFT'), ('tf', 'True', 'False', 'FTTFTFF'), ('ft', 'False', 'True', 'FTTFTTF'), ('ff', 'False', 'False', 'FFFFFTT')):
        yield ended(f'logical_of_{label}.adb', text, f'A = {a}, B = {b}', *(f'{name} = {"True" if truth == "T" else "False"}' for name, truth in zip(names, found)))
    test = longer('A : in Integer; X, Y, Z, V : out Boolean', 'X, Y, Z, V from A', 'X := A in 1 .. 5', 'Y := A not in 1 .. 5', 'Z := A in Natural', 'V := A in 5 .. 1')
    for a, found in ((0, ('False', 'True', 'True', 'False')), (1, ('True', 'False', 'True', 'False')), (5, ('True', 'False', 'True', 'False')), (-1, ('False', 'True', 'False', 'False'))):
        yield ended(f'membership_of_{a + 1}.adb', test, f'A = {a}', *(f'{name} = {truth}' for name, truth in zip('XYZV', found)))
    guarded = longer('A, B : in Integer; X : out Boolean', 'X from A, B', 'X := B /= 0 and then A / B > 1')
    yield ended('guard_that_is_false.adb', guarded, 'A = 5, B = 0', 'X = False')
    yield ended('guard_that_is_true.adb', guarded, 'A = 5, B = 2', 'X = True')
    yield ended('guard_by_or_else.adb', guarded.replace('B /= 0 and then', 'B = 0 or else'), 'A = 5, B = 0', 'X = True')
    yield faulted('no_guard.adb', guarded.replace('and then A /', 'and A @/'), 'A = 5, B = 0', 'division')
    yield faulted('guard_after_what_fails.adb', longer('A, B : in Integer; X : out Boolean', 'X from A, B', 'X := A @/ B > 1 and then B /= 0'), 'A = 5, B = 0', 'division')
    yield ended('static_guard.adb', longer('A : in Integer; X : out Boolean', 'X from A', 'X := False and then A / 0 = 1'), 'A = 5', 'X = False')
    yield faulted('bound_of_a_test.adb', longer('A : in Integer; X : out Boolean', 'X from A', 'X := A in 1 .. A @+ 1'), 'A = 2147483647', 'overflow')
    yield faulted('bounds_of_a_test_in_order.adb', longer('A : in Integer; X : out Boolean', 'X from A', 'X := A in A @- 1 .. A / 0'), 'A = -2147483648', 'overflow')


def runs_that_read_unset_variables():
    """A read of an unset variable, and an export without a value at the end. In an annotation an unset variable counts as the first value of its type."""
    yield faulted('unset_local.adb', longer(OUT_X, 'X from', 'X := @T', declared=T), '', 'unset')
    yield faulted('unset_operand.adb', longer(A_TO_X, 'X from A', 'X := A + @T / 0', declared=T), 'A = 1', 'unset')
    yield faulted('unset_export_in_the_body.adb', longer(OUT_X, 'X from', 'X := @X + 1'), '', 'unset')
    yield faulted('unset_at_the_end.adb', at_end(longer(OUT_X, 'X from', 'null')), '', 'unset')
    yield faulted('unset_on_this_way.adb', at_end(longer(A_TO_X, 'X from A', 'if A > 0 then X := A; end if')), 'A = 0', 'unset')
    yield ended('set_on_this_way.adb', longer(A_TO_X, 'X from A', 'if A > 0 then X := A; end if'), 'A = 1', 'X = 1')
    yield faulted('unset_before_the_postcondition.adb', at_end(longer(OUT_XY, 'X, Y from', 'X := 1', post='X = 2')), '', 'unset')
    yield faulted('unset_bound.adb', longer(OUT_X, 'X from', 'X := 0', 'for I in Integer range 1 .. @T loop X := I; end loop', declared=T), '', 'unset')
    yield faulted('unset_condition.adb', longer(OUT_X, 'X from', 'X := 0', 'if @P then X := 1; end if', declared=['P : Boolean']), '', 'unset')
    yield ended('unset_in_annotations.adb', longer(OUT_X, 'X from', '--# check T = Integer\'First and S = 3 and not P and H = Red and X = Integer\'First', 'X := 1',
                                                   declared=['T : Integer', 'subtype Small is Integer range 3 .. 5', 'S : Small', 'P : Boolean', HUES, 'H : Hue']), '', 'X = 1')
    yield faulted('unset_natural_in_an_annotation.adb', longer(OUT_X, 'X from', '--# @check T > 0', 'X := 1', declared=['T : Natural']), '', 'check')
    yield ended('parameter_is_unset_after_its_loop.adb', longer(OUT_X, 'X from', 'for I in Integer range 1 .. 3 loop X := I; end loop', 'for I in Integer range 5 .. 6 loop X := X + I; end loop'), '', 'X = 14')


def runs_of_annotations():
    """Annotations that are true or false, where they are, with values on entry. Their numbers have no bound, and nothing fails in them."""
    inc = longer(X, 'X from X', 'X := X + 1', pre='X < 10 or X = 2147483647', post='X = X~ + 1 and X /= 6')
    yield ended('run_inc.adb', inc, 'X = 1', 'X = 2')
    yield faulted('run_inc_pre.adb', inc.replace('pre', '@pre'), 'X = 10', 'pre')
    yield faulted('run_inc_post.adb', inc.replace('post', '@post'), 'X = 5', 'post')
    yield faulted('run_inc_overflow.adb', inc.replace('X := X +', 'X := X @+'), 'X = 2147483647', 'overflow')
    yield faulted('run_check.adb', longer(X, 'X from X', 'X := X + 1', '--# @check X = X~', 'X := 0'), 'X = 1', 'check')
    yield faulted('run_assert.adb', longer(X, 'X from X', 'X := X + 1', '--# @assert X = X~', 'X := 0'), 'X = 1', 'assert')
    yield ended('run_annotations.adb', longer(X, 'X from X', 'X := X + 1', '--# assert X = X~ + 1', 'X := X + 1', '--# check X = X~ + 2', 'X := 0', post='X~ = 7'), 'X = 7', 'X = 0')
    yield faulted('value_of_a_formal_on_entry.adb', longer(A_AND_X, 'X from X, A', 'X := A', post='X = X~').replace('post', '@post'), 'A = 1, X = 2', 'post')
    yield faulted('pre_before_the_body.adb', longer(X, 'X from X', 'X := X / 0', pre='X > 0').replace('pre', '@pre'), 'X = 0', 'pre')
    yield ended('implications_in_a_run.adb', longer(X, 'X from X', '--# check (X > 5 -> X > 4) and (X > 9 -> X > 99) and (X > 5 <-> X >= 6)', 'X := 1'), 'X = 7', 'X = 1')
    yield faulted('implication_that_is_false.adb', longer(X, 'X from X', '--# @check X > 5 -> X > 9', 'X := 1'), 'X = 7', 'check')
    yield faulted('equivalence_that_is_false.adb', longer(X, 'X from X', '--# @check X > 5 <-> X > 9', 'X := 1'), 'X = 7', 'check')
    # By 0 a division gives 0, and so does a power with a negative exponent; a sum goes past the type.
    yield ended('divisions_by_0_in_annotations.adb', longer(X, 'X from X', '--# check X / 0 = 0 and X rem 0 = 0 and X mod 0 = 0 and X ** (-1) = 0', 'X := 1'), 'X = 7', 'X = 1')
    yield ended('sum_past_the_type_in_an_annotation.adb', longer(X, 'X from X', '--# check X + 1 > X and X * X * X > X and -(-X - 2) > X', 'X := 1'), 'X = 2147483647', 'X = 1')
    yield ended('function_past_its_type_in_an_annotation.adb', longer(OUT_X, 'X from', 'T := Blue', "--# check Hue'Pos (Hue'Succ (T)) = 3 and Small (X) < 0", 'X := 1',
                                                                     declared=[HUES, 'T : Hue', TO_THREE]), '', 'X = 1')
    yield ended('operands_of_an_annotation.adb', longer(X, 'X from X', '--# check X = 7 or else 1 / (X - 7) = 0', 'X := 1'), 'X = 7', 'X = 1')


def bits_of_runs():
    """The first annotation that a run comes to and that computes a number past 128 bits, in any operand, ends it."""
    def stating(condition, **more):
        return longer(X, 'X from X', f'--# check {condition}', 'X := X + 1', **more)
    wide = longer(X, 'X from X', 'X := X + 1', pre='X ** 200 > 0')
    yield too_wide_in_run('bits_of_a_precondition.adb', wide, 'X = 2')
    yield ended('no_bits_of_one.adb', wide, 'X = 1', 'X = 2')
    yield faulted('no_bits_of_zero.adb', wide.replace('pre', '@pre'), 'X = 0', 'pre')
    decided = longer(X, 'X from X', 'X := X + 1', pre='X > 5 or X ** 200 > 0')
    yield too_wide_in_run('bits_of_the_other_operand.adb', decided, 'X = 6')
    yield too_wide_in_run('bits_of_the_operand_that_decides.adb', decided, 'X = 2')
    yield ended('bits_that_suffice.adb', decided, 'X = 1', 'X = 2')
    yield too_wide_in_run('bits_after_or_else.adb', longer(X, 'X from X', 'X := X + 1', pre='X > 5 or else X ** 200 > 0'), 'X = 6')
    yield too_wide_in_run('bits_after_and_then.adb', stating('not (X < 0 and then X ** 200 > 0)'), 'X = 6')
    yield too_wide_in_run('bits_after_an_implication.adb', stating('X < 0 -> X ** 200 > 0'), 'X = 6')
    # 2 ** 127 is the first number that does not fit, and -2 ** 127 the last one that does.
    yield ended('bits_at_the_end.adb', stating('X ** 126 + (X ** 126 - 1) > 0'), 'X = 2', 'X = 3')
    yield too_wide_in_run('bits_of_a_sum.adb', stating('X ** 126 + X ** 126 > 0'), 'X = 2')
    yield too_wide_in_run('bits_of_a_power.adb', stating('X ** 127 > 0'), 'X = 2')
    yield ended('bits_of_the_least_number.adb', stating('X ** 127 < 0 and X ** 126 + (X ** 127 + X ** 126) = 0'), 'X = -2', 'X = -1')
    yield too_wide_in_run('bits_of_a_sign.adb', stating('-(X ** 127) > 0'), 'X = -2')
    yield too_wide_in_run('bits_of_abs.adb', stating('abs (X ** 127) > 0'), 'X = -2')
    yield too_wide_in_run('bits_of_a_difference.adb', stating('X ** 127 - 1 < 0'), 'X = -2')
    yield too_wide_in_run('bits_of_a_product.adb', stating('X ** 64 * X ** 63 > 0'), 'X = 2')
    yield too_wide_in_run('bits_of_a_quotient.adb', stating('X ** 127 / (-1) > 0'), 'X = -2')
    yield ended('bits_of_a_remainder.adb', stating('X ** 127 rem (-1) = 0 and X ** 127 mod (-1) = 0'), 'X = -2', 'X = -1')
    yield ended('bits_of_static_numbers.adb', stating(f'{WIDEST} > 0 and -{WIDEST} - 1 < 0'), 'X = 6', 'X = 7')
    yield too_wide_in_run('bits_of_the_bound_of_a_test.adb', stating('X in 0 .. X ** 200'), 'X = 6')
    yield too_wide_in_run('bits_of_the_other_bound_of_a_test.adb', stating('not (X in 9 .. X ** 200)'), 'X = 6')
    yield too_wide_in_run('bits_of_what_is_multiplied_by_0.adb', stating('0 * X ** 200 = 0'), 'X = 6')
    # It ends the run also where the annotation would be false.
    yield too_wide_in_run('bits_of_what_is_false.adb', stating('X ** 200 < 0'), 'X = 6')
    yield too_wide_in_run('bits_of_an_assertion.adb', longer(X, 'X from X', '--# assert X ** 200 > 0', 'X := 0'), 'X = 6')
    yield too_wide_in_run('bits_of_a_postcondition.adb', longer(X, 'X from X', 'X := 6', post='X ** 200 > 0'), 'X = 1')
    yield too_wide_in_run('bits_of_a_value_on_entry.adb', longer(X, 'X from X', 'X := 1', post='X~ ** 200 > 0'), 'X = 2')
    # What ends the run before comes first.
    yield faulted('fault_before_bits.adb', longer(X, 'X from X', 'X := X @/ 0', '--# check X ** 200 > 0', 'X := 0'), 'X = 6', 'division')
    yield faulted('pre_before_bits.adb', longer(X, 'X from X', 'X := X', pre='X < 0', post='X ** 200 > 0').replace('pre', '@pre'), 'X = 6', 'pre')
    yield faulted('unset_before_bits.adb', at_end(longer(OUT_XY, 'X, Y from', 'X := 6', post='X ** 200 > 0')), '', 'unset')
    yield too_wide_in_run('bits_before_a_fault.adb', longer(X, 'X from X', '--# check X ** 200 > 0', 'X := X / 0'), 'X = 6')
    yield ended('bits_of_an_arm_that_is_not_run.adb', longer(X, 'X from X', 'if X < 0 then\n--# check X ** 200 > 0;\nnull; end if'), 'X = 6', 'X = 6')
    turn = longer(X, 'X from X', 'while X < 9 loop X := X + 1;\n--# check X ** 60 > 0;\nend loop')
    yield not_ended('bits_of_a_turn_past_the_bound.adb', turn, 'X = 1', 3)
    yield too_wide_in_run('bits_of_a_turn_within_the_bound.adb', turn, 'X = 1', turns=4)


DOWN = longer(X, 'X from X', 'while X > 0 loop\n      X := X - 1;\n   end loop', 'while X < 3 loop\n      X := X + 1;\n   end loop')
SUM = longer(X, 'X from X', 'for I in reverse Integer range 1 .. X loop\n      S := S * 10 + I;\n      exit when S > 500000;\n   end loop', 'X := S', declared=['S : Integer := 0'])
SPIN = """procedure Inc (X : in out Integer)
--# derives X from X;
is
begin
   loop
      X := X - 1;
      exit when X < 0 or else 6 / X = 6;
      if X = 10 then
         X := 20;
         exit;
      end if;
   end loop;
end Inc;
"""
DIVIDE = """procedure Inc (X : in out Integer)
--# derives X from X;
is
   N : Natural;
   T : Integer;
begin
   case X is
      when 0 => X := 7 / X;
      when 1 .. 3 => N := X - 2; X := N;
      when 4 => X := T;
      when others =>
         if X = 5 then
            --# assert X /= 5;
            null;
         elsif X = 6 then
            --# check X < 6;
            null;
         else
            X := X rem (-4);
         end if;
   end case;
end Inc;
"""


def runs_of_branches():
    """The arm or the alternative that is chosen, and what fails in it."""
    for x, found in ((0, ('7 / X', '7 @/ X', 'division')), (1, ('X - 2', 'X @- 2', 'range')), (4, (':= T', ':= @T', 'unset')), (5, ('assert', '@assert', 'assert')), (6, ('check', '@check', 'check'))):
        piece, marked, kind = found
        yield faulted(f'case_of_{x}.adb', DIVIDE.replace(piece, marked), f'X = {x}', kind)
    for x, value in ((3, 1), (7, 3), (-7, -3)):
        yield ended(f'case_of_{x}.adb'.replace('-', 'minus_'), DIVIDE, f'X = {x}', f'X = {value}')
    chosen = longer(X, 'X from X', 'case X is when 1 | 3 .. 4 => X := 10; when 9 .. 8 | 2 => X := 20; when -5 .. -1 => X := 30; when others => X := 40; end case')
    for x, value in ((1, 10), (2, 20), (3, 10), (4, 10), (5, 40), (8, 40), (-1, 30), (-5, 30), (-6, 40), (0, 40)):
        yield ended(f'choice_of_{x}.adb'.replace('-', 'minus_'), chosen, f'X = {x}', f'X = {value}')
    hues = longer(X, 'X from X', "case Hue'Val (X) is when Green => X := 1; when Red | Blue => X := 2; end case", declared=[HUES])
    yield ended('choice_of_a_literal.adb', hues, 'X = 1', 'X = 1')
    yield ended('choice_of_the_last.adb', hues, 'X = 2', 'X = 2')
    arms = longer(X, 'X from X', 'if X < 0 then X := 1; elsif X / X = 1 then X := 2; else X := 3; end if')
    yield ended('first_arm.adb', arms, 'X = -1', 'X = 1')
    yield ended('second_arm.adb', arms, 'X = 8', 'X = 2')
    yield faulted('condition_of_the_second_arm.adb', arms.replace('X / X', 'X @/ X'), 'X = 0', 'division')
    yield ended('no_arm.adb', longer(X, 'X from X', 'if X < 0 then X := 1; elsif X > 9 then X := 2; end if'), 'X = 5', 'X = 5')
    yield ended('arm_after_else.adb', longer(X, 'X from X', 'if X < 0 then X := 1; elsif X > 9 then X := 2; else X := 3; end if'), 'X = 5', 'X = 3')


def runs_of_loops():
    """Each turn and the rest of the loop have one turn less than the loop. At the bound 0 a loop has no turn, and it ends where it needs none."""
    for x, turns, value in ((3, 2, None), (3, 3, 3), (1, 2, None), (1, 3, 3), (4, 3, None), (4, 4, 3)):
        name = f'down_from_{x}_in_{turns}.adb'
        yield not_ended(name, DOWN, f'X = {x}', turns) if value is None else ended(name, DOWN, f'X = {x}', f'X = {value}', turns=turns)
    for x, turns, value in ((0, 1, 0), (3, 2, None), (3, 3, 321), (7, 5, None), (7, 6, 765432)):
        name = f'digits_of_{x}_in_{turns}.adb'
        yield not_ended(name, SUM, f'X = {x}', turns) if value is None else ended(name, SUM, f'X = {x}', f'X = {value}', turns=turns)
    for x, turns, value in ((12, 1, None), (12, 2, 20), (3, 2, 1), (0, 1, -1)):
        name = f'spin_of_{x}_in_{turns}.adb'
        yield not_ended(name, SPIN, f'X = {x}', turns) if value is None else ended(name, SPIN, f'X = {x}', f'X = {value}', turns=turns)
    yield faulted('spin_of_1.adb', SPIN.replace('6 / X', '6 @/ X'), 'X = 1', 'division', turns=1)
    # 198 loops inside each other: each has a turn in that of the one around it.
    deep = longer(X, 'X from X', 'while X < 1 loop ' * 198 + 'X := X + 1; ' + 'end loop; ' * 197 + 'end loop')
    yield not_ended('deep_loops.adb', deep, 'X = 0', 197)
    yield ended('deep_loops_that_end.adb', deep, 'X = 0', 'X = 1', turns=198)
    # In the third turn outside, 3 turns less are left, of which those inside need 3.
    square = longer(OUT_X, 'X from', 'X := 0', 'for I in Integer range 1 .. 3 loop for J in Integer range 1 .. 3 loop X := X * 2 + I - J; end loop; end loop')
    yield not_ended('loop_in_a_loop.adb', square, '', 5)
    yield ended('loop_in_a_loop_that_ends.adb', square, '', 'X = -222', turns=6)
    # What comes after a loop has as many turns as the loop had.
    row = longer(OUT_X, 'X from', 'X := 0', *['for I in Integer range 1 .. 3 loop X := X + I; end loop'] * 4)
    yield ended('loops_in_a_row.adb', row, '', 'X = 24', turns=3)
    yield not_ended('loops_in_a_row_with_few_turns.adb', row, '', 2)
    turn = longer(OUT_X, 'X from', 'X := 0', 'for I in Integer range 1 .. 3 loop for J in Integer range 1 .. 2 loop X := X + 1; end loop; for J in Integer range 1 .. 2 loop X := X + 1; end loop; end loop')
    yield ended('loops_in_a_turn.adb', turn, '', 'X = 12', turns=5)
    yield not_ended('loops_in_a_turn_with_few_turns.adb', turn, '', 4)
    # The condition is evaluated before it counts that no turn is left.
    yield faulted('condition_past_the_bound.adb', longer(X, 'X from X', 'while 6 @/ X > 0 loop X := X - 1; end loop'), 'X = 2', 'division', turns=2)
    yield not_ended('condition_that_stays.adb', longer(X, 'X from X', 'while X > 0 loop null; end loop'), 'X = 2', 1000)
    yield not_ended('loop_without_an_exit.adb', longer(X, 'X from X', plain('null')), 'X = 2', 1)
    # Without a bound among the words it is 1000000.
    great = longer(A_TO_X, 'X from A', 'X := 0', counting('I in Integer range 1 .. A', 'X := I'))
    yield ended('as_many_turns_as_without_a_bound.adb', great, 'A = 1000000', 'X = 1000000')
    yield run_on('a_turn_more_than_without_a_bound.adb', great, 'A = 1000001', ['not ended within 1000000 turns'], 8)
    yield ended('a_turn_more_with_a_bound.adb', great, 'A = 1000001', 'X = 1000001', turns=1000001)
    # The bounds are evaluated once; without a value between them there is no turn.
    yield ended('bounds_that_change.adb', longer(X, 'X from X', 'for I in Integer range 1 .. X loop X := X + I; end loop'), 'X = 3', 'X = 9')
    bounds = longer('A, B : in Integer; X : out Integer', 'X from A, B', 'X := 7', 'for I in Natural range A .. B loop X := I; end loop')
    yield ended('no_value_between_the_bounds.adb', bounds, 'A = 5, B = -1', 'X = 7')
    yield ended('one_value_between_the_bounds.adb', bounds, 'A = 5, B = 5', 'X = 5', turns=1)
    yield faulted('low_bound_past_the_type.adb', bounds.replace('range A', 'range @A'), 'A = -1, B = 5', 'range')
    small = longer('A, B : in Integer; X : out Integer', 'X from A, B', 'X := 7', 'for I in Small range @A .. B loop X := I; end loop', declared=[TO_THREE])
    yield faulted('high_bound_past_the_type.adb', small, 'A = 1, B = 4', 'range')
    yield faulted('low_bound_is_evaluated_first.adb', bounds.replace('A .. B', 'A @/ 0 .. B ** (-1)'), 'A = 1, B = 1', 'division')
    yield faulted('high_bound_is_evaluated_next.adb', bounds.replace('A .. B', 'A .. 1 @/ B'), 'A = -5, B = 0', 'division')
    yield ended('forward.adb', longer(OUT_X, 'X from', 'X := 0', counting('I in Integer range -2 .. 2', 'X := X * 3 + I')), '', 'X = -184')
    yield ended('in_reverse.adb', longer(OUT_X, 'X from', 'X := 0', counting('I in reverse Integer range -2 .. 2', 'X := X * 3 + I')), '', 'X = 184')
    yield ended('over_a_type.adb', longer(OUT_X, 'X from', 'X := 0', counting('I in Small', 'X := X * 10 + I'), declared=[TO_THREE]), '', 'X = 123')
    yield ended('over_literals_in_reverse.adb', longer(OUT_X, 'X from', 'X := 0', counting('H in reverse Hue', "X := X * 10 + Hue'Pos (H)"), declared=[HUES]), '', 'X = 210')
    yield not_ended('over_a_great_type.adb', longer(OUT_X, 'X from', 'X := 0', counting('I in Integer', 'X := I')), '', 10)
    yield ended('at_the_end_of_the_type.adb', longer(OUT_X, 'X from', 'X := 0', counting("I in Integer range Integer'Last - 1 .. Integer'Last", 'X := I')), '', 'X = 2147483647')
    yield ended('exit_of_the_inner_loop.adb', longer(OUT_X, 'X from', 'X := 0', counting('I in Integer range 1 .. 3', plain('X := X + I', 'exit when X > 3'), 'X := X + 10')), '', 'X = 39')
    yield ended('exit_after_statements.adb', longer(OUT_X, 'X from', 'X := 0', counting('I in Integer range 1 .. 9', leaving('I = 4', 'X := X + 100'), 'X := X + I')), '', 'X = 106', turns=4)


THREE_PROCEDURES = """procedure One
is
begin
   null;
end One;
procedure Two (Second, First : in out Integer; Flag : out Boolean)
--# derives Flag from Second & First from First & Second from *;
is
begin
   First := First + 1;
   SECOND := Second * 2;
   flag := Second > 10;
end Two;
procedure Three (X : in Integer)
--# derives null from X;
is
begin
   null;
end Three;
"""


def entries_of_runs():
    """The entry is a procedure of the file, in any letter case. Its exports are printed in the order of the formals, as they are declared."""
    yield ended('no_formals.adb', THREE_PROCEDURES, '', entry='One')
    yield ended('exports_in_order.adb', THREE_PROCEDURES, 'FIRST = 3, second = 6', 'Second = 12', 'First = 4', 'Flag = True', entry='TWO')
    yield ended('no_exports.adb', THREE_PROCEDURES, 'X = 3', entry='three')
    for label, entry in (('another', 'Four'), ('part_of_a', 'On'), ('no', ''), ('reserved', 'begin'), ('formal_as_a', 'X'), ('dotted', 'Pack.One')):
        yield input_refused(f'{label}_name.adb', THREE_PROCEDURES, 'Y = 3\nY = 4\n', f'I5 no such subprogram: {entry}', entry=entry)
    # The Kelvin sign is no letter of the language.
    yield input_refused('kelvin.adb', longer(None, None, 'null', name='K'), None, 'I5 no such subprogram: \u212a', entry='\u212a')
    yield ended('kelvin_as_k.adb', longer(None, None, 'null', name='K'), '', entry='k')
    yield input_refused('no_procedure.adb', '', None, 'I5 no such subprogram: Inc')


def phases_of_runs():
    """Before the inputs are looked at come lexis, syntax and their form; then come the static rules. Neither flow nor a limit on it counts."""
    flow = longer(A_TO_X, 'X from', 'T := A', 'X := 1', declared=T).replace('X from', 'X from & null from A')
    yield ended('flow_is_not_analyzed.adb', flow, 'A = 1', 'X = 1')
    yield run_on('syntax_first.adb', 'procedure\n', '?', ['syntax_first.adb:2:1: P1 expected another token', 'refused: 1'], 1)
    yield run_on('lexis_first.adb', 'procedure $\n', '?', ['lexis_first.adb:1:11: L1 bad byte', 'refused: 1'], 1)
    yield run_on('nesting_first.adb', procedure(nested(201)), '?', ['limit: nesting, at most 200'], 6)
    yield run_on('form_of_inputs_next.adb', procedure('Y'), '?', [f'{INPUTS}:1:1: I1 bad input line', 'refused: 1'], 1)
    yield run_on('static_rules_next.adb', procedure('Y'), 'Z = 3', ['static_rules_next.adb:5:9: N1 name is not declared here', 'refused: 1'], 1, entry='None')
    yield run_on('rules_on_variables_next.adb', procedure(mode='in'), 'Z = 3', ['rules_on_variables_next.adb:2:13: U8 mode disagrees with derives', 'refused: 1'], 1, entry='None')
    yield run_on('rules_of_all_procedures.adb', short('Inc') + procedure('Y', name='Dec', end=None), 'X = 3', ['rules_of_all_procedures.adb:8:9: N1 name is not declared here', 'refused: 1'], 1)
    yield ended('many_variables.adb', many(4097, 'X := X + 1', formals=X, derives='X from X'), 'X = 1', 'X = 2')
    yield ended('twenty_ifs.adb', longer(X, 'X from X', *['if X > 0 then X := X + 1; end if'] * 20), 'X = 1', 'X = 21')
    yield ended('doubled_terms.adb', longer(X, 'X from X', *['X := X + X'] * 30), 'X = 1', 'X = 1073741824')


# ---------------------------------------------------------------- inputs

def input_refused(name, text, inputs, *findings, entry='Inc'):
    """The inputs have these findings, each with its rule and text, and the number of its line before them, if it has one."""
    lines = [f'{INPUTS}:{finding[0]}:1: {finding[1]}' if isinstance(finding, tuple) else finding for finding in findings]
    second = None if inputs is None else (INPUTS, encoded(inputs))
    words = run_words(name, entry, None, None if inputs is None else INPUTS)
    return Case(name, encoded(text), ''.join(line + '\n' for line in [*lines, f'refused: {len(lines)}']), 1, words, second)


def input_taken(name, inputs, *exports):
    """These inputs of SEVERAL are taken."""
    return Case(name, encoded(SEVERAL), ''.join(line + '\n' for line in exports), 0, run_words(name, 'Inc', None, INPUTS), (INPUTS, encoded(inputs)))


SEVERAL = longer('A : in Integer; B : in Natural; C : in Positive; P : in Boolean; X : in out Integer; Y : out Boolean; Z : out Integer',
                 'X from X & Y from P & Z from A, B, C', 'X := X + 1', 'Y := not P', 'Z := A + B + C')
FIVE = 'A = -1\nB = 0\nC = 1\nP = False\nX = 5\n'
AS_FIVE = ('X = 6', 'Y = True', 'Z = 0')
I1, I2, I3 = 'I1 bad input line', 'I2 no such import, or twice', 'I3 value is not of the type'


def forms_of_inputs():
    """`NAME = VALUE` in the lexemes of the language, with gaps between them and a comment after them."""
    yield input_taken('inputs.adb', FIVE, *AS_FIVE)
    yield input_taken('inputs_in_another_order.adb', ''.join(reversed(FIVE.splitlines(keepends=True))), *AS_FIVE)
    yield input_taken('inputs_in_another_case.adb', FIVE.lower().replace('false', 'FALSE'), *AS_FIVE)
    yield input_taken('inputs_without_a_last_end.adb', FIVE[:-1], *AS_FIVE)
    yield input_taken('inputs_with_gaps.adb', FIVE.replace('=', ' \t=\t ').replace('\n', ' \t\n').replace('A', '  \tA'), *AS_FIVE)
    yield input_taken('inputs_without_gaps.adb', FIVE.replace(' ', ''), *AS_FIVE)
    yield input_taken('inputs_with_carriage_returns.adb', FIVE.replace('\n', '\r\n'), *AS_FIVE)
    yield input_taken('inputs_with_form_feeds.adb', FIVE.replace(' ', '\f\v'), *AS_FIVE)
    yield input_taken('inputs_with_comments.adb', FIVE.replace('\n', ' -- A = 2 --# \x00\xff\n').encode('latin-1'), *AS_FIVE)
    yield input_taken('inputs_with_comments_directly_after.adb', FIVE.replace('\n', '--\n'), *AS_FIVE)
    yield input_taken('minus_apart.adb', FIVE.replace('-1', '-  1'), *AS_FIVE)
    yield input_taken('minus_zero.adb', FIVE.replace('B = 0', 'B = -0'), *AS_FIVE)
    for label, spelled, x in (('underscores', '1_000', 1000), ('base', '16#7F#', 127), ('base_2', '2#1_0#', 2), ('exponent', '1E3', 1000), ('exponent_with_a_sign', '5e+0', 5), ('base_and_exponent', '16#F#E1', 240),
                              ('zeros', '000_05', 5), ('least_but_one', '-2_147_483_648', -2147483648), ('greatest_but_one', '2147483646', 2147483646)):
        yield input_taken(f'number_with_{label}.adb', FIVE.replace('X = 5', f'X = {spelled}'), f'X = {x + 1}', 'Y = True', 'Z = 0')


def bad_lines():
    """I1 is at the first line of another form, whatever follows it, and no other line is looked at."""
    for label, line in {
            'empty': '', 'a_space_only': ' ', 'a_comment_only': '-- A = 1', 'no_value': 'A =', 'no_name': '= 1', 'no_equal_sign': 'A 1', 'assignment': 'A := 1', 'arrow': 'A => 1',
            'two_values': 'A = 1 2', 'semicolon': 'A = 1;', 'two_on_a_line': 'A = 1, B = 0', 'twice_equal': 'A = B = 1', 'plus': 'A = +1', 'two_signs': 'A = - -1', 'comment_for_a_sign': 'A = --1',
            'sum': 'A = 1 + 1', 'sign_of_a_word': 'P = -True', 'not': 'P = not True', 'attribute': "A = Integer'Last", 'number_for_a_name': '1 = A',
            'reserved_name': 'begin = 1', 'reserved_value': 'P = null', 'point': 'A = 1.5', 'bad_number': 'A = 1_', 'bad_base': 'A = 17#1#', 'negative_exponent': 'A = 1E-1', 'number_and_letters': 'A = 1A',
            'bad_byte': 'A = "1"', 'underscores': 'A__B = 1', 'too_wide': f'A = {TOO_WIDE}', 'too_wide_with_a_sign': f'A = -{TOO_WIDE[:-1]}9',
            'too_wide_after_plus': f'A = +{TOO_WIDE}', 'too_wide_in_a_sum': f'A = -1 - {TOO_WIDE}', 'more_after_the_least_number': f'A = -{TOO_WIDE} 1', 'bad_least_number': f'A = -{TOO_WIDE}_',
            'least_number_in_annotation': f'A = - --# {TOO_WIDE}', 'least_number_for_a_name': f'-{TOO_WIDE} = 1', 'annotation_after_the_least_number': f'A = -{TOO_WIDE} --# B', 'dotted_name': 'Inc.A = 1', 'entry_value': 'X~ = 1',
            'annotation': '--# A = 1', 'annotated_value': 'A = --# 1', 'annotation_after_it': 'A = 1 --# B', 'null_byte': 'A = 1\0', 'not_equal': 'A /= 1', 'mark_of_bytes': '\ufeffA = 1'}.items():
        yield input_refused(f'{label}_in_inputs.adb', SEVERAL, line + '\n', (1, I1))
    # In parentheses there are values, with one comma between two, and nothing comes before or after the parentheses.
    for label, value in {
            'nothing': '()', 'nothing_after_a_value': '(1, ())', 'one_without_an_end': '(1', 'a_comma_without_an_end': '(1,', 'no_comma': '(1 2)', 'no_parentheses': '1, 2', 'two_ends': '(1))', 'two_beginnings': '((1)',
            'end_only': ')', 'beginning_only': '(', 'end_first': ')1(', 'sign_only': '(-)', 'comma_last': '(1, )', 'comma_first': '(, 1)', 'two_commas': '(1,, 2)', 'two_lists': '(1) (2)', 'two_lists_and_a_comma': '(1), (2)',
            'list_after_a_number': '(1 (2))', 'two_signs': '(- -1)', 'sign_before_a_word': '(-True)', 'sign_before_them': '-(1)', 'sign_before_others': '(1, -(2))', 'number_after_them': '(1) 2', 'sum': '(1 + 1)', 'semicolon': '(1; 2)',
            'association': '(A => 1)', 'range': '(1 .. 2)', 'reserved_word': '(1, null)', 'annotation': '(1, --# 2)', 'head_before_the_end': '(1, 2 --# )', 'too_wide': f'({TOO_WIDE})', 'least_number': f'(-{TOO_WIDE})',
            'least_number_at_the_end': f'(1, -{TOO_WIDE}'}.items():
        yield input_refused(f'{label}_in_parentheses_of_inputs.adb', SEVERAL, f'A = {value}\n', (1, I1))
    yield input_refused('one_end_too_few_in_inputs.adb', SEVERAL, f'A = {"(" * 1000}1{")" * 999}\n', (1, I1))
    yield input_refused('one_end_too_many_in_inputs.adb', SEVERAL, f'A = {"(" * 999}1{")" * 1000}\n', (1, I1))
    yield input_refused('bad_second_line.adb', SEVERAL, FIVE.replace('B = 0', ''), (2, I1))
    yield input_refused('bad_last_line.adb', SEVERAL, FIVE + '?', (6, I1))
    yield input_refused('bad_last_line_that_is_empty.adb', SEVERAL, FIVE + '\n', (6, I1))
    yield input_refused('two_bad_lines.adb', SEVERAL, 'A = 1\nB\n\n', (2, I1))
    yield input_refused('bad_line_after_other_findings.adb', SEVERAL, 'Y = 1\nA = True\n?\n', (3, I1))
    yield input_refused('bad_line_before_the_entry.adb', SEVERAL, 'A = 1\n?\n', (2, I1), entry='None')
    yield input_refused('carriage_return_in_a_line.adb', SEVERAL, 'A = 1\rB = 2\n', (1, I1))
    yield input_refused('annotation_word_for_a_name.adb', SEVERAL, 'own = 1\n' + FIVE, (1, I2))


def imports_of_inputs():
    """I2 and I3 come line by line, at most one on each. Then comes I4 for each import that no line names."""
    yield input_refused('no_such_name.adb', SEVERAL, FIVE + 'W = 1\n', (6, I2))
    yield input_refused('no_such_name_and_parentheses.adb', SEVERAL, FIVE + 'W = (1)\n', (6, I2))
    yield input_refused('import_twice_and_parentheses.adb', SEVERAL, FIVE + 'A = (1, 2)\n', (6, I2))
    yield input_refused('export_only.adb', SEVERAL, FIVE + 'Y = True\n', (6, I2))
    yield input_refused('name_of_the_entry.adb', SEVERAL, FIVE + 'Inc = 1\n', (6, I2))
    yield input_refused('name_of_a_type.adb', SEVERAL, FIVE + 'Integer = 1\n', (6, I2))
    yield input_refused('import_twice.adb', SEVERAL, FIVE + 'A = -1\n', (6, I2))
    yield input_refused('import_twice_in_another_case.adb', SEVERAL, FIVE + 'a = -1\n', (6, I2))
    yield input_refused('import_three_times.adb', SEVERAL, 'A = 1\n' + FIVE + 'a = 2\n', (2, I2), (7, I2))
    yield input_refused('local_of_the_entry.adb', longer(X, 'X from X', 'X := X', declared=T), 'X = 1\nT = 2\n', (2, I2))
    # An input that is given twice, as in the examples of the sources of these rules.
    yield Case('inc_twice.adb', INC_BYTES, 'i.txt:2:1: I2 no such import, or twice\nrefused: 1\n', 1, run_words('inc_twice.adb', 'Inc', None, 'i.txt'), ('i.txt', b'X = 1\nX = 2\n'))
    for label, line in {'word_for_an_integer': 'A = True', 'other_word_for_an_integer': 'A = B', 'negative_natural': 'B = -1', 'natural_past_the_end': 'B = 2147483648', 'zero_for_a_positive': 'C = 0',
                        'integer_past_the_end': 'A = 2147483648', 'integer_before_the_first': 'A = -2147483649', 'widest_number': f'A = {WIDEST}', 'least_number': f'A = -{TOO_WIDE}',
                        'least_number_apart': f'A = - \t{TOO_WIDE} -- {TOO_WIDE} --#', 'least_number_of_base_2': 'A = -2#1#E127', 'least_number_of_base_16': 'B = - 16#8_0#E+30', 'least_number_before_a_head': f'C = -0_0{TOO_WIDE}--#',
                        'number_for_a_boolean': 'P = 1', 'zero_for_a_boolean': 'P = 0',
                        'other_word_for_a_boolean': 'P = Yes', 'name_for_a_boolean': 'P = P', 'part_of_a_word': 'P = Tru',
                        'two_values_for_an_integer': 'A = (1, 2)', 'values_in_values_for_an_integer': 'A = ((1, -2), True)', 'number_in_parentheses': 'B = (0)', 'number_in_two_parentheses': 'C = ((1))',
                        'truth_value_in_parentheses': 'P = (False)', 'negative_number_in_parentheses': 'A = ( -1)', 'two_values_for_a_boolean': 'P = (True, False)', 'words_in_parentheses': 'P = (A, (Yes, 1))',
                        'parentheses_with_gaps': 'A = ( 1\t,- 16#7F#,\r(x ) ) -- (', 'parentheses_without_gaps': 'A =(1,(2,3),-4,(5),((6,x)))--', 'widest_number_in_parentheses': f'A = (1, {WIDEST}, -{WIDEST})',
                        'thousand_parentheses': f'A = {"(" * 1000}1{")" * 1000}', 'thousand_values': f'A = (1{", 1" * 999})'}.items():
        number = 'ABCP'.index(line[0]) + 1
        inputs = [line if at == number else other for at, other in enumerate(FIVE.splitlines(), 1)]
        yield input_refused(f'{label}.adb', SEVERAL, '\n'.join(inputs), (number, I3))
    yield input_refused('wrong_value_twice.adb', SEVERAL, FIVE.replace('A = -1', 'A = True') + 'A = 1\n', (1, I3), (6, I2))
    yield input_refused('twice_with_a_wrong_value.adb', SEVERAL, FIVE + 'A = True\n', (6, I2))
    yield input_refused('value_of_no_import.adb', SEVERAL, FIVE + 'Y = 1\n', (6, I2))
    for name in 'ABCPX':
        inputs = ''.join(line for line in FIVE.splitlines(keepends=True) if not line.startswith(name))
        yield input_refused(f'no_value_for_{name.lower()}.adb', SEVERAL, inputs, f'I4 import has no value: {name}')
    missing = [f'I4 import has no value: {name}' for name in 'ABCPX']
    yield input_refused('no_inputs.adb', SEVERAL, None, *missing)
    yield input_refused('empty_inputs.adb', SEVERAL, '', *missing)
    yield input_refused('no_value_of_a_wrong_line.adb', SEVERAL, 'A = True\nW = 1\nC = 0\n', (1, I3), (2, I2), (3, I3), missing[1], missing[3], missing[4])
    yield input_refused('all_findings_in_order.adb', SEVERAL, 'X = True\nX = 1\nY = 1\nC = 0\na = 5\nc = 1\n', (1, I3), (2, I2), (3, I2), (4, I3), (6, I2), missing[1], missing[3])
    yield input_refused('entry_before_other_findings.adb', SEVERAL, 'X = True\nW = 1\n', 'I5 no such subprogram: Dec', entry='Dec')
    yield input_refused('name_as_it_is_declared.adb', longer('Big_Name : in Integer', 'null from BIG_NAME', 'null'), None, 'I4 import has no value: Big_Name')
    yield ended('no_imports.adb', longer(OUT_X, 'X from', 'X := 1'), '', 'X = 1')
    yield input_refused('inputs_for_no_imports.adb', longer(OUT_X, 'X from', 'X := 1'), 'X = 1\n', (1, I2))
    yield Case('empty_inputs_for_no_imports.adb', encoded(longer(OUT_X, 'X from', 'X := 1')), 'X = 1\n', 0, run_words('empty_inputs_for_no_imports.adb', 'Inc', None, INPUTS), (INPUTS, b''))
    # A finding on inputs comes before what the run would come to.
    yield input_refused('input_before_a_fault.adb', procedure(pre='X < 0'), 'X = 1\nW = 1\n', (2, I2))


# ---------------------------------------------------------------- words

def asked_by(name, words, lines, status, second=None, text=None):
    """What is printed where a text that is accepted, or another one, is asked about by these words."""
    return Case(name, INC_BYTES if text is None else encoded(text), ''.join(line + '\n' for line in lines), status, tuple(words), second)


FILE = 'words.adb'
IN = (INPUTS, b'X = 1\n')
GOT_TWO = ('X = 2',)


def words_of_commands():
    """The words of the three commands; all others are answered by the usage line."""
    for words in (
            (), ('',), ('check',), ('Check', FILE), ('chec', FILE), ('checks', FILE), (FILE,), (FILE, 'check'), ('check', FILE, FILE), ('check', FILE, ''), ('check', '--proofs', 'p', FILE),
            ('check', '--proofs=p', FILE), ('check', '--help'), ('check', FILE, '--help'), ('check', '-h'), ('--help',), ('-h',), ('help',), ('help', 'check'), ('--version',), ('version',), ('--', 'check', FILE),
            ('check', '--'), ('check', '--', FILE, FILE), ('check', '-x'), ('check', '-1'), ('check', '--x=y', FILE), ('check', '--=y', FILE), ('check', '--entry', 'Inc', FILE), ('check', '---', FILE),
            ('conditions',), ('conditions', FILE, FILE), ('conditions', '--entry', 'Inc', FILE), ('conditions', '--turns', '5', FILE), ('condition', FILE), ('conditions', 'check', FILE),
            ('run',), ('run', FILE), ('run', 'Inc', FILE), ('run', '--entry', 'Inc'), ('run', '--entry', FILE), ('run', '--entry'), ('run', FILE, '--entry'), ('run', '--entry=Inc'),
            ('run', '--entry', 'Inc', FILE, FILE), ('run', '--entry', 'Inc', '--entry', 'Inc', FILE), ('run', '--entry=Inc', FILE, '--entry=Inc'), ('run', '--entry', '--turns', '5', FILE),
            ('run', '--entry', '--', FILE), ('run', '--entry', '-Inc', FILE), ('run', '-e', 'Inc', FILE), ('run', '-entry', 'Inc', FILE), ('run', '--Entry', 'Inc', FILE), ('run', '--ent', 'Inc', FILE),
            ('run', '--entry', 'Inc', '--', FILE, FILE), ('run', '--entry', 'Inc', '--', '--turns', '5'), ('--entry', 'Inc', 'run', FILE), ('run', '--', '--entry', 'Inc', FILE),
            ('run', '--entry', 'Inc', '--inputs', FILE), ('run', '--entry', 'Inc', '--inputs', INPUTS, '--inputs', INPUTS, FILE), ('run', '--entry', 'Inc', FILE, '--inputs'),
            ('run', '--entry', 'Inc', '--inputs', INPUTS, FILE, '--turns'), ('run', '--entry', 'Inc', '--inputs', INPUTS, '--turns', '5', '--turns', '5', FILE),
            ('run', '--entry', 'Inc', '--proofs', 'p', FILE), ('run', '--inputs', INPUTS, FILE), ('workload', '3'), ('workload', '0'), ('workload', FILE)):
        yield asked_by(FILE, words, [USAGE[:-1]], 2, IN)
    for turns in ('0', '1000000001', '4294967296', '18446744073709551615', '18446744073709551616', '', 'ten', '1e3', '1_000', '16#F#', '+', '++5', '+0', '5.0', '0x10', '1000000000000000000000000000005', '5-'):
        yield asked_by(FILE, ('run', '--entry', 'Inc', '--inputs', INPUTS, '--turns', turns, FILE), [USAGE[:-1]], 2, IN)
    yield asked_by(FILE, ('run', '--entry', 'Inc', '--turns', '-5', FILE), [USAGE[:-1]], 2, IN)
    yield asked_by(FILE, ('run', '--entry', 'Inc', '--turns=-5', FILE), [USAGE[:-1]], 2, IN)
    for words in (
            ('run', '--entry', 'Inc', '--inputs', INPUTS, FILE), ('run', FILE, '--entry', 'Inc', '--inputs', INPUTS), ('run', '--inputs', INPUTS, FILE, '--entry', 'Inc'), ('run', '--entry=Inc', f'--inputs={INPUTS}', FILE),
            ('run', '--entry', 'Inc', f'--inputs={INPUTS}', '--', FILE), ('run', '--entry', 'inc', '--inputs', INPUTS, FILE, '--'), ('run', '--turns', '1', '--entry', 'Inc', '--inputs', INPUTS, FILE),
            ('run', '--turns=1000000000', '--entry', 'Inc', '--inputs', INPUTS, FILE), ('run', '--entry', 'Inc', '--turns', '+5', '--inputs', INPUTS, FILE), ('run', '--entry', 'Inc', '--inputs', INPUTS, '--turns', '0000000005', FILE),
            ('run', '--entry', 'Inc', '--inputs', INPUTS, FILE, '--turns=00000000000000000000000000005')):
        yield asked_by(FILE, words, GOT_TWO, 0, IN)
    found = [*(f'H{at} {fact}' for at, fact in enumerate([*lies('X~'), 'X~ < 2147483647'], 1)), *(f'G{at} {goal}' for at, goal in enumerate(lies('(X~ + 1)'), 1))]
    more = [*found[:3], *(f'H{at} {fact}' for at, fact in enumerate(lies('(X~ + 1)'), 4)), *found[3:]]
    for words in (('conditions', FILE), ('conditions', '--', FILE), ('conditions', FILE, '--')):
        yield asked_by(FILE, words, [f'Inc.1 overflow {FILE}:6:11', *found, f'Inc.2 range {FILE}:6:11', *more], 0)
    yield asked_by(FILE, ('check', '--', FILE), [CLOSED_2, 'accepted'], 0)
    yield asked_by(FILE, ('check', FILE, '--'), [CLOSED_2, 'accepted'], 0)
    # A hyphen by itself is a file, and so is any word after `--`.
    yield asked_by('-', ('check', '-'), [CLOSED_2, 'accepted'], 0)
    yield asked_by('-x.adb', ('check', '--', '-x.adb'), [CLOSED_2, 'accepted'], 0)
    yield asked_by('--entry', ('run', '--entry', 'Inc', '--inputs', INPUTS, '--', '--entry'), GOT_TWO, 0, IN)
    yield asked_by('--', ('run', '--entry', 'Inc', '--inputs=-5', '--', '--'), GOT_TWO, 0, ('-5', b'X = 1\n'))
    yield asked_by(FILE, ('run', '--entry', 'Inc', '--inputs', '-', FILE), GOT_TWO, 0, ('-', b'X = 1\n'))
    yield asked_by(FILE, ('run', '--entry', 'Inc', '--inputs=', FILE), GOT_TWO, 0, ('', b'X = 1\n'))
    yield asked_by(FILE, ('run', '--entry', 'Inc', '--inputs', '', FILE), GOT_TWO, 0, ('', b'X = 1\n'))
    yield asked_by('check', ('check', 'check'), [CLOSED_2, 'accepted'], 0)
    yield asked_by('run', ('run', 'run', '--entry', 'Inc', '--inputs', INPUTS), GOT_TWO, 0, IN)
    yield asked_by(FILE, ('run', '--entry=', FILE), ['I5 no such subprogram: ', 'refused: 1'], 1)
    yield asked_by(FILE, ('run', '--entry=--turns=5', FILE), ['I5 no such subprogram: --turns=5', 'refused: 1'], 1)
    yield asked_by(FILE, ('run', '--entry', '-', FILE), ['I5 no such subprogram: -', 'refused: 1'], 1)
    yield asked_by(FILE, ('run', '--entry==', FILE), ['I5 no such subprogram: =', 'refused: 1'], 1)
    # No other file is there. A file is loaded before its inputs.
    for words in (('check', 'other'), ('check', ''), ('conditions', 'other'), ('run', '--entry', 'Inc', 'other'), ('run', '--entry', 'Inc', '--inputs', INPUTS, 'other'), ('run', '--entry', 'Inc', '--inputs', 'other', FILE),
                  ('run', '--entry', 'Inc', '--', '--turns'), ('check', '--', '--')):
        yield asked_by(FILE, words, (), 3, IN)
    yield asked_by('unread.adb', ('run', '--entry', 'Inc', '--inputs', 'other', 'unread.adb'), (), 3, text='procedure\n')
    yield asked_by('same.adb', ('run', '--entry', 'Inc', '--inputs', 'same.adb', 'same.adb'), ['same.adb:1:1: I1 bad input line', 'refused: 1'], 1)


# ---------------------------------------------------------------- lists of conditions

def listed(name, text, *conditions, named='Inc'):
    """What `conditions` prints. A condition is the number of the `@` at which it is, its kind, its hypotheses and its goals."""
    marks, spelled_out = marked_places(encoded(text))
    lines = []
    for at, (mark, kind, hypotheses, goals) in enumerate(conditions, 1):
        line, column = marks[mark - 1]
        lines.append(f'{named}.{at} {kind} {name}:{line}:{column}')
        lines += [f'H{number} {term}' for number, term in enumerate(hypotheses, 1)] + [f'G{number} {term}' for number, term in enumerate(goals, 1)]
    return Case(name, spelled_out, ''.join(line + '\n' for line in lines), 0, ('conditions', name))


def lies(term, low=-2147483648, high=2147483647):
    """The term lies between two numbers, or other terms."""
    return [f'{term} >= {low}', f'{term} <= {high}']


DOUBLE = """procedure Double (N : in Integer; S : out Integer)
--# derives S from N;
--# pre 0 <= N and N <= 1000;
--# @post S = 2 * N;
is
begin
   S := @0;
   for I in Integer range @1 .. N loop
      S := S @+ 2;
      --# @assert S = 2 * I;
   end loop;
end Double;
"""


def worked_lists():
    """The two conditions of the first example, and the ten of a loop over a range."""
    yield listed('inc.adb', INC.replace('+', '@+'), (1, 'overflow', [*lies('X~'), 'X~ < 2147483647'], lies('(X~ + 1)')),
                 (1, 'range', [*lies('X~'), 'X~ < 2147483647', *lies('(X~ + 1)')], lies('(X~ + 1)')))
    entry = [*lies('N'), '0 <= N', 'N <= 1000', *lies('0')]
    goal = '(1 <= N) -> ((1 >= -2147483648) and (N <= 2147483647))'
    turn = [*entry, goal, '1 <= N']
    cut_off = [*lies('N'), *lies('S'), *lies('I'), 'I >= 1', 'I <= N', '0 <= N', 'N <= 1000', 'S = (2 * I)']
    again = [*cut_off, 'I < N']
    yield listed('double.adb', DOUBLE, (2, 'range', entry[:4], lies('0')), (3, 'range', entry, [goal]), (4, 'overflow', turn, lies('(0 + 2)')), (4, 'range', [*turn, *lies('(0 + 2)')], lies('(0 + 2)')),
                 (5, 'assert', [*turn, *lies('(0 + 2)')], ['(0 + 2) = (2 * 1)']), (1, 'post', [*entry, goal, '1 > N'], ['0 = (2 * N)']),
                 (4, 'overflow', again, lies('(S + 2)')), (4, 'range', [*again, *lies('(S + 2)')], lies('(S + 2)')),
                 (5, 'assert', [*again, *lies('(S + 2)')], ['(S + 2) = (2 * (I + 1))']), (1, 'post', [*cut_off, 'I = N'], ['S = (2 * N)']), named='Double')


def facts_of_pre(name, *pairs):
    """The parts of a precondition, each with the facts that it becomes."""
    text = longer('A, B : in Integer; P, Q : in Boolean; X : out Integer', 'X from A & null from B, P, Q', 'X := @A', pre=' and '.join(part for part, *_ in pairs))
    facts = [fact for _, *found in pairs for fact in found]
    return listed(name, text, (1, 'range', [*lies('A'), *lies('B'), *facts], lies('A')))


def lists_of_terms():
    """Each operator, with operations and negative literals as operands. Enumeration values are positions."""
    yield facts_of_pre('numbers_in_terms.adb', ('A + B > 0', '(A + B) > 0'), ('A - B > 0', '(A - B) > 0'), ('A * B /= 1', '(A * B) /= 1'), ('A / B = 2', '(A / B) = 2'), ('A rem B < 3', '(A rem B) < 3'),
                       ('A mod B <= 4', '(A mod B) <= 4'), ('A ** 2 >= 5', '(A ** 2) >= 5'), ('abs A > 6', '(abs A) > 6'), ('-A < 7', '(-A) < 7'), ('+A < 8', 'A < 8'), ('A = B', 'A = B'), ('9 /= A', '9 /= A'))
    yield facts_of_pre('operations_in_operations.adb', ('A - B - 1 > 0', '((A - B) - 1) > 0'), ('A - (B - 1) > 0', '(A - (B - 1)) > 0'), ('A + B * 2 > A / B', '(A + (B * 2)) > (A / B)'), ('-(A + B) < 8', '(-(A + B)) < 8'),
                       ('-A mod B < 9', '(-(A mod B)) < 9'), ('abs (A - 1) < 9', '(abs (A - 1)) < 9'), ('abs (abs A) < 9', '(abs (abs A)) < 9'), ('-(-A) < 9', '(-(-A)) < 9'), ('(A + 1) ** (B + 2) = 0', '((A + 1) ** (B + 2)) = 0'),
                       ('((A)) + ((1)) = 5', '(A + 1) = 5'))
    yield facts_of_pre('negative_literals_in_terms.adb', ('A > -1', 'A > -1'), ('-2 < A', '-2 < A'), ('A + (-3) > 0', '(A + (-3)) > 0'), ('-4 - A > 0', '((-4) - A) > 0'), ('A * (-5) /= -6', '(A * (-5)) /= -6'), ('A / (-7) = 0', '(A / (-7)) = 0'),
                       ('A rem (-8) = 0', '(A rem (-8)) = 0'), ('A mod (-9) = 0', '(A mod (-9)) = 0'), ('A ** (-1) = 0', '(A ** (-1)) = 0'), ('(-2) ** A = 0', '((-2) ** A) = 0'), ("A - Integer'First = 0", '(A - (-2147483648)) = 0'),
                       ('A in -5 .. -1', 'A >= -5', 'A <= -1'), ('-2 ** A = 0', '(-(2 ** A)) = 0'), ('A + 3 > -3', '(A + 3) > -3'))
    yield facts_of_pre('logic_in_terms.adb', ('not P', 'not P'), ('not (P or Q)', 'not (P or Q)'), ('not (not P)', 'not (not P)'), ('(P xor Q)', 'P /= Q'), ('(P and then not Q)', 'P', 'not Q'), ('(P or else Q)', 'P or Q'),
                       ('(P or Q or P)', '(P or Q) or P'), ('(P -> Q)', 'P -> Q'), ('(P <-> not Q)', 'P <-> (not Q)'), ('P = Q', 'P = Q'), ('P /= (A > 0)', 'P /= (A > 0)'), ('(A = B) = P', '(A = B) = P'), ('(A < B or A > 5)', '(A < B) or (A > 5)'),
                       ('(P -> (Q -> P))', 'P -> (Q -> P)'), ('((P and Q) or (A = 1))', '(P and Q) or (A = 1)'), ('True', 'true'), ('not True', 'false'), ('1 > 2',), ('not (A > 0)', 'not (A > 0)'), ('((P -> Q) -> P)', '(P -> Q) -> P'))
    yield facts_of_pre('tests_in_terms.adb', ('A in 1 .. 5', 'A >= 1', 'A <= 5'), ('A not in 1 .. 6', 'not ((A >= 1) and (A <= 6))'), ('A in Natural', 'A >= 0'), ('A not in Positive', 'not ((A >= 1) and (A <= 2147483647))'),
                       ('A in B - 1 .. B + 1', 'A >= (B - 1)', 'A <= (B + 1)'), ('A + B in -7 .. 7', '(A + B) >= -7', '(A + B) <= 7'), ('(A in 1 .. 9 or P)', '((A >= 1) and (A <= 9)) or P'), ('not (A in 2 .. 9)', 'not ((A >= 2) and (A <= 9))'))
    negative = longer('X, Y, Z : out Integer', 'X, Y, Z from', 'T := @-5', 'X := @abs T', 'Y := @-T', 'Z := T @* T', declared=T)
    minus_5, size = lies('-5'), [*lies('-5'), *lies('(abs (-5))')]
    both = [*size, *lies('(-(-5))')]
    yield listed('negative_literals_by_assignment.adb', negative, (1, 'range', [], minus_5), (2, 'overflow', minus_5, lies('(abs (-5))')), (2, 'range', size, lies('(abs (-5))')),
                 (3, 'overflow', size, lies('(-(-5))')), (3, 'range', both, lies('(-(-5))')),
                 (4, 'overflow', both, lies('((-5) * (-5))')), (4, 'range', [*both, *lies('((-5) * (-5))')], lies('((-5) * (-5))')))
    hues = longer(A_TO_X, 'X from A', 'H := @Blue', "if A = 1 then H := @Hue'Succ (@H); end if", "X := @Hue'Pos (H)", declared=[HUES, 'H : Hue'])
    blue, next_one = [*lies('A'), *lies('2', 0, 2)], lies('(2 + 1)', 0, 2)
    yield listed('literals_in_terms.adb', hues, (1, 'range', lies('A'), lies('2', 0, 2)), (3, 'range', [*blue, 'A = 1'], next_one), (2, 'range', [*blue, 'A = 1', *next_one], next_one),
                 (4, 'range', [*blue, 'A = 1', *next_one], lies('(2 + 1)')), (4, 'range', [*blue, 'not (A = 1)'], lies('2')))


def lists_of_checks():
    """The checks of each operator, and those after a guard."""
    start = [*lies('A'), *lies('B')]
    both = 'A, B : in Integer; X : out Integer'
    quotient = [*start, 'B /= 0']
    yield listed('quotient_in_a_list.adb', longer(both, 'X from A, B', 'X := A @/ B'), (1, 'division', start, ['B /= 0']), (1, 'overflow', quotient, lies('(A / B)')), (1, 'range', [*quotient, *lies('(A / B)')], lies('(A / B)')))
    yield listed('modulus_in_a_list.adb', longer(both, 'X from A, B', 'X := A @mod B'), (1, 'division', start, ['B /= 0']), (1, 'range', quotient, lies('(A mod B)')))
    yield listed('remainder_in_a_list.adb', longer(both, 'X from A, B', 'X := -A @rem B').replace('-A', '@-A'), (2, 'division', start, ['B /= 0']), (1, 'overflow', quotient, lies('(-(A rem B))')),
                 (1, 'range', [*quotient, *lies('(-(A rem B))')], lies('(-(A rem B))')))
    yield listed('power_in_a_list.adb', longer(both, 'X from A, B', 'X := A @** @B'), (2, 'range', start, ['B >= 0']), (1, 'overflow', [*start, 'B >= 0'], lies('(A ** B)')), (1, 'range', [*start, 'B >= 0', *lies('(A ** B)')], lies('(A ** B)')))
    yield listed('signs_in_a_list.adb', longer(both, 'X from A & null from B', 'X := @abs (A @- 1)'), (2, 'overflow', start, lies('(A - 1)')), (1, 'overflow', [*start, *lies('(A - 1)')], lies('(abs (A - 1))')),
                 (1, 'range', [*start, *lies('(A - 1)'), *lies('(abs (A - 1))')], lies('(abs (A - 1))')))
    truth = 'A, B : in Integer; P : in Boolean; X : out Boolean'
    yield listed('guard_in_a_list.adb', longer(truth, 'X from A, B, P', 'X := P and then B /= 0 and then A @/ B = 1'), (1, 'division', start, ['(P and (B /= 0)) -> (B /= 0)']),
                 (1, 'overflow', [*start, '(P and (B /= 0)) -> (B /= 0)'], ['(P and (B /= 0)) -> (((A / B) >= -2147483648) and ((A / B) <= 2147483647))']))
    yield listed('guard_by_or_else_in_a_list.adb', longer(truth, 'X from A, B, P', 'X := P or else (B = 0 or else A @mod B = 1)'), (1, 'division', start, ['(not P) -> ((not (B = 0)) -> (B /= 0))']))
    yield listed('natural_in_a_list.adb', longer('A : in Natural; X : out Positive', 'X from A', 'X := @A'), (1, 'range', lies('A', 0), lies('A', 1)))
    wide = longer(A_TO_X, 'X from A', 'T := Wide (@A) @* 2', 'X := @Integer (@T)', declared=['type Wide is range 0 .. 2 ** 40', 'T : Wide'])
    known = [*lies('A'), *lies('A', 0, 1099511627776)]
    base = [*known, *lies('(A * 2)', -9223372036854775808, 9223372036854775807)]
    held = [*base, *lies('(A * 2)', 0, 1099511627776)]
    yield listed('types_in_a_list.adb', wide, (1, 'range', lies('A'), lies('A', 0, 1099511627776)), (2, 'overflow', known, lies('(A * 2)', -9223372036854775808, 9223372036854775807)),
                 (2, 'range', base, lies('(A * 2)', 0, 1099511627776)), (4, 'range', held, lies('(A * 2)')), (3, 'range', [*held, *lies('(A * 2)')], lies('(A * 2)')))


def lists_of_universal_powers():
    """The goals of overflow have the bounds of the base type that the power of a number takes. Its numbers are literals."""
    start, held = lies('A'), [*lies('A'), 'A >= 0']
    used = 'X := @Integer (@V)'

    def long(term):
        return lies(term, *LONG_ENDS)

    def big(term):
        return lies(term, -1099511627776, 1099511627776)

    def ending_with(term, known, mark, other):
        """The conditions of the conversion of V to Integer, and of the assignment."""
        return (other, 'range', known, lies(term)), (mark, 'range', [*known, *lies(term)], lies(term))

    def of_v(*statements):
        return longer(A_TO_X, 'X from A', *statements, used, declared=[BIG, HUES, 'V, U : Big', 'H : Hue', 'N : constant := 2'])

    power = '(2 ** A)'
    known = [*held, *long(power), *big(power)]
    yield listed('power_of_a_long_type_in_a_list.adb', of_v('V := 2 @** @A'), (2, 'range', start, ['A >= 0']), (1, 'overflow', held, long(power)), (1, 'range', [*held, *long(power)], big(power)),
                 *ending_with(power, known, 3, 4))
    for label, written, term in (('sum', '1 @+ 2 @** @A', '(1 + (2 ** A))'), ('product', 'N @* 2 @** @A', '(2 * (2 ** A))'), ('sign', '@-(2 @** @A)', '(-(2 ** A))'), ('abs', '@abs (2 @** @A)', '(abs (2 ** A))'),
                                 ('negative_literal', '(-5) @- 2 @** @A', '((-5) - (2 ** A))'), ('static_sum', '(1 + 1) @* 2 @** @A', '(2 * (2 ** A))')):
        first = [*held, *long(power)]
        second = [*first, *long(term)]
        yield listed(f'power_in_a_{label}_in_a_list.adb', of_v(f'V := {written}'), (3, 'range', start, ['A >= 0']), (2, 'overflow', held, long(power)), (1, 'overflow', first, long(term)), (1, 'range', second, big(term)),
                     *ending_with(term, [*second, *big(term)], 4, 5))
    yield listed('power_of_an_integer_in_a_list.adb', longer(A_TO_X, 'X from A', 'X := 2 @** @A @+ 1'), (2, 'range', start, ['A >= 0']), (1, 'overflow', held, lies(power)), (3, 'overflow', [*held, *lies(power)], lies('((2 ** A) + 1)')),
                 (3, 'range', [*held, *lies(power), *lies('((2 ** A) + 1)')], lies('((2 ** A) + 1)')))
    outer = '(2 ** (2 ** A))'
    inner = [*held, *lies(power)]
    below = [*inner, '(2 ** A) >= 0']
    yield listed('power_in_an_exponent_in_a_list.adb', of_v('V := 2 @** @(2 @** @A)'), (4, 'range', start, ['A >= 0']), (3, 'overflow', held, lies(power)), (2, 'range', inner, ['(2 ** A) >= 0']), (1, 'overflow', below, long(outer)),
                 (1, 'range', [*below, *long(outer)], big(outer)), *ending_with(outer, [*below, *long(outer), *big(outer)], 5, 6))
    for label, written in (('conversion', '@Big (2 @** @A)'), ('qualification', "@Big'(2 @** @A)")):
        yield listed(f'power_in_a_{label}_in_a_list.adb', of_v(f'V := {written}'), (3, 'range', start, ['A >= 0']), (2, 'overflow', held, long(power)), (2, 'range', [*held, *long(power)], big(power)),
                     (1, 'range', known, big(power)), *ending_with(power, known, 4, 5))
    for label, condition, fact, bounds in (
            ('beside_a_long_type', '2 @** @A > U', ['(2 ** A) > 5'], long), ('after_a_long_type', 'U = 2 @** @A', ['5 = (2 ** A)'], long), ('beside_a_number', '2 @** @A > 5', ['(2 ** A) > 5'], lies),
            ('in_a_long_type', '2 @** @A in Big', ['(2 ** A) >= -1099511627776', '(2 ** A) <= 1099511627776'], long), ('in_natural', '2 @** @A in Natural', ['(2 ** A) >= 0', '(2 ** A) <= 2147483647'], lies),
            ('in_a_long_range', '2 @** @A in 0 .. U', ['(2 ** A) >= 0', '(2 ** A) <= 5'], long), ('in_a_range_of_numbers', '2 @** @A in 0 .. 5', ['(2 ** A) >= 0', '(2 ** A) <= 5'], lies),
            ('for_a_bound_of_a_test', 'U in 0 .. 2 @** @A', ['5 >= 0', '5 <= (2 ** A)'], long)):
        five = [*start, *big('5')]
        under = [*five, 'A >= 0', *bounds(power)]
        arms = longer(A_TO_X, 'X from A', 'U := @5', f'if {condition} then X := @1; else X := @Integer (@U); end if', declared=[BIG, 'U : Big'])
        negated = f'not ({fact[0]})' if len(fact) == 1 else f'not (({fact[0]}) and ({fact[1]}))'
        yield listed(f'power_{label}_in_a_list.adb', arms, (1, 'range', start, big('5')), (3, 'range', five, ['A >= 0']), (2, 'overflow', [*five, 'A >= 0'], bounds(power)),
                     (4, 'range', list(dict.fromkeys([*under, *fact])), lies('1')), (6, 'range', [*under, negated], lies('5')), (5, 'range', [*under, negated, *lies('5')], lies('5')))
    selected = longer(A_TO_X, 'X from A', 'case 2 @** @A is when 8 => X := @1; when others => X := @0; end case')
    under = [*held, *lies(power)]
    yield listed('power_that_selects_in_a_list.adb', selected, (2, 'range', start, ['A >= 0']), (1, 'overflow', held, lies(power)), (3, 'range', [*under, '(2 ** A) = 8'], lies('1')), (4, 'range', [*under, 'not ((2 ** A) = 8)'], lies('0')))
    yield listed('power_in_val_in_a_list.adb', longer(A_TO_X, 'X from A', "H := @Hue'Val (2 @** @A)", "X := @Hue'Pos (H)", declared=[HUES, 'H : Hue']), (3, 'range', start, ['A >= 0']), (2, 'overflow', held, lies(power)),
                 (2, 'range', under, lies(power, 0, 2)), (1, 'range', [*under, *lies(power, 0, 2)], lies(power, 0, 2)), (4, 'range', [*under, *lies(power, 0, 2)], lies(power)))


def lists_of_values_on_entry():
    """`X~` is the value on entry of what is exported; after a cut `X` is its value there. What is not exported, and a local, is `Y`."""
    text = longer('A : in Integer; X : in out Integer; Y : out Integer', 'X, Y from A & null from X', 'T := @A', 'Y := @A', 'X := @T', '--# @assert X = A and X~ /= Y', 'X := @X', pre='A > X', post='X = X~ or Y > A', declared=T).replace('post', '@post')
    start = [*lies('A'), *lies('X~'), 'A > X~']
    after = [*lies('A'), *lies('X'), *lies('Y'), *lies('T'), *lies('X~'), 'A > X~', 'X = A', 'X~ /= Y']
    yield listed('values_on_entry.adb', text, (2, 'range', start, lies('A')), (3, 'range', start, lies('A')), (4, 'range', start, lies('A')), (5, 'assert', start, ['A = A', 'X~ /= A']), (6, 'range', after, lies('X')), (1, 'post', after, ['(X = X~) or (Y > A)']))
    check = longer(X, 'X from & null from X', '--# @check X = X~ and (X > 0 -> X~ > 0)', 'X := @0')
    yield listed('check_in_a_list.adb', check, (1, 'check', lies('X~'), ['X~ = X~', '(X~ > 0) -> (X~ > 0)']), (2, 'range', [*lies('X~'), 'X~ = X~', '(X~ > 0) -> (X~ > 0)'], lies('0')))
    spelled = longer('Big_Name, Other : in out Integer', 'BIG_NAME from other & OTHER from big_name', 'TEMP := @big_name', 'BIG_name := @OTHER', '--# @check temp = big_NAME~', 'oTHER := @temp', declared=['Temp : Integer']).replace('procedure Inc', 'procedure inC').replace('end Inc', 'end INC')
    start = [*lies('Big_Name~'), *lies('Other~')]
    yield listed('names_as_they_are_declared.adb', spelled, (1, 'range', start, lies('Big_Name~')), (2, 'range', start, lies('Other~')), (3, 'check', start, ['Big_Name~ = Big_Name~']), (4, 'range', [*start, 'Big_Name~ = Big_Name~'], lies('Big_Name~')), named='inC')
    truth = longer('P : in out Boolean; X : in out Integer', 'X from X, P & P from P', 'P := not P', 'if P then X := @1; end if', '--# @assert P or X > 0', 'X := @X')
    start, after = lies('X~'), [*lies('X'), *lies('X~'), 'P or (X > 0)']
    yield listed('truth_values_in_a_list.adb', truth, (1, 'range', [*start, 'not P~'], lies('1')), (2, 'assert', [*start, 'not P~', *lies('1')], ['(not P~) or (1 > 0)']), (2, 'assert', [*start, 'not (not P~)'], ['(not P~) or (X~ > 0)']), (3, 'range', after, lies('X')))


def lists_of_branches():
    """Facts of arms, of alternatives and of what is static."""
    text = longer(A_TO_X, 'X from A', 'if A in 1 .. 2 then X := @1; elsif A = 3 or A = 4 then X := @2; else X := @3; end if')
    start = lies('A')
    first = ['not ((A >= 1) and (A <= 2))']
    yield listed('arms_in_a_list.adb', text, (1, 'range', [*start, 'A >= 1', 'A <= 2'], lies('1')), (2, 'range', [*start, *first, '(A = 3) or (A = 4)'], lies('2')), (3, 'range', [*start, *first, 'not ((A = 3) or (A = 4))'], lies('3')))
    text = longer(A_TO_X, 'X from A', 'case A is when 1 => X := @1; when 2 .. 5 => X := @2; when -1 | 7 .. 8 | 9 => X := @3; when others => X := @4; end case')
    others = ['not (A = 1)', 'not ((A >= 2) and (A <= 5))', 'not (((A = -1) or ((A >= 7) and (A <= 8))) or (A = 9))']
    yield listed('alternatives_in_a_list.adb', text, (1, 'range', [*start, 'A = 1'], lies('1')), (2, 'range', [*start, 'A >= 2', 'A <= 5'], lies('2')), (3, 'range', [*start, '((A = -1) or ((A >= 7) and (A <= 8))) or (A = 9)'], lies('3')),
                 (4, 'range', [*start, *others], lies('4')))
    text = longer(A_TO_X, 'X from A', 'if 1 < 2 then X := @A; else X := @0; end if', '--# @check True')
    yield listed('static_facts_in_a_list.adb', text, (1, 'range', [*start, 'true'], lies('A')), (3, 'check', [*start, 'true'], ['true']), (2, 'range', [*start, 'not true'], lies('0')), (3, 'check', [*start, 'not true', *lies('0')], ['true']))


def lists_of_loops():
    """The cut of a loop without an assertion of its own, and bounds by their names."""
    text = longer(X, 'X from X', 'while X > 0 loop X := X @- 1; end loop', '--# @check X <= 0')
    cut_off = [*lies('X'), *lies('X~'), 'true']
    turn = [*cut_off, *lies('(X - 1)')]
    yield listed('while_in_a_list.adb', text, (2, 'check', [*lies('X~'), 'not (X~ > 0)'], ['X~ <= 0']), (1, 'overflow', cut_off, lies('(X - 1)')), (1, 'range', turn, lies('(X - 1)')), (2, 'check', [*turn, 'not ((X - 1) > 0)'], ['(X - 1) <= 0']))
    text = longer(A_AND_X, 'X from X, A', 'T := A @+ 1', 'for I in Natural range @T .. X loop X := @I; end loop', declared=T)
    start = [*lies('A'), *lies('X~'), *lies('(A + 1)')]
    goal = '((A + 1) <= X~) -> (((A + 1) >= 0) and (X~ <= 2147483647))'
    cut_off = [*lies('A'), *lies('X'), *lies('T'), *lies('X~'), *lies('I', 0), 'I >= I!first', 'I <= I!last', 'true']
    yield listed('named_bounds.adb', text, (1, 'overflow', start[:4], lies('(A + 1)')), (1, 'range', start, lies('(A + 1)')), (2, 'range', start, [goal]), (3, 'range', cut_off, lies('I')))
    text = longer(A_AND_X, 'X from X, A', 'for I in reverse Integer range A @- 1 .. X loop X := @I;\n--# @assert X = I;\nend loop').replace('range A @', 'range A @@')
    goal = '((A - 1) <= X~) -> (((A - 1) >= -2147483648) and (X~ <= 2147483647))'
    start = [*lies('A'), *lies('X~'), *lies('(A - 1)')]
    cut_off = [*lies('A'), *lies('X'), *lies('X~'), *lies('I'), 'I >= (A - 1)', 'I <= I!last', 'X = I']
    turn = [*start, goal, '(A - 1) <= X~']
    again = [*cut_off, 'I > (A - 1)']
    yield listed('reverse_in_a_list.adb', text, (1, 'overflow', start[:4], lies('(A - 1)')), (2, 'range', start, [goal]), (3, 'range', turn, lies('X~')), (4, 'assert', turn, ['X~ = X~']),
                 (3, 'range', again, lies('(I - 1)')), (4, 'assert', [*again, *lies('(I - 1)')], ['(I - 1) = (I - 1)']))
    text = longer(OUT_X, 'X from', 'X := @0', 'for H in Hue loop for I in Integer range 1 .. 3 loop X := @I; end loop; end loop', declared=[HUES]).replace('range 1', 'range @1')
    outer = [*lies('X'), *lies('H', 0, 2), 'H >= 0', 'H <= 2', 'true']
    goal = '(1 <= 3) -> ((1 >= -2147483648) and (3 <= 2147483647))'
    after = [*lies('X'), *lies('H', 0, 2), *lies('I'), 'I >= 1', 'I <= 3', 'true']
    yield listed('loops_in_a_list.adb', text, (1, 'range', [], lies('0')), (2, 'range', list(dict.fromkeys(outer)), [goal]), (3, 'range', list(dict.fromkeys(after)), lies('I')))
    text = longer(X, 'X from X', plain('exit when X > 5', leaving('X = 0', 'X := @1'), 'X := @2'), '--# @check X > 0')
    cut_off = [*lies('X'), *lies('X~'), 'true']
    other = [*cut_off, 'not (X > 5)']
    yield listed('exits_in_a_list.adb', text, (1, 'range', [*other, 'X = 0'], lies('1')), (3, 'check', [*other, 'X = 0', *lies('1')], ['1 > 0']), (2, 'range', [*other, 'not (X = 0)'], lies('2')), (3, 'check', [*cut_off, 'X > 5'], ['X > 0']))


def phases_of_lists():
    """All phases before the conditions are those of a check. Nothing is printed where there are no conditions."""
    def as_check(case):
        return Case(case.name, case.text, case.report, case.status, ('conditions', case.name))
    yield Case('nothing_to_list.adb', b'', '', 0, ('conditions', 'nothing_to_list.adb'))
    yield Case('no_conditions_to_list.adb', encoded(longer(None, None, 'null')), '', 0, ('conditions', 'no_conditions_to_list.adb'))
    two = short('One') + short('Two', 'Y')
    lines = ['One.1 range two.adb:3:15', *(f'H{at} {fact}' for at, fact in enumerate(lies('X~'), 1)), *(f'G{at} {fact}' for at, fact in enumerate(lies('X~'), 1)),
             'Two.1 range two.adb:6:15', *(f'H{at} {fact}' for at, fact in enumerate(lies('Y~'), 1)), *(f'G{at} {fact}' for at, fact in enumerate(lies('Y~'), 1))]
    yield Case('two.adb', encoded(two), ''.join(line + '\n' for line in lines), 0, ('conditions', 'two.adb'))
    yield as_check(bad_byte('list_of_a_bad_byte.adb', procedure('X @? 1')))
    yield as_check(unexpected('list_without_an_operand.adb', procedure('X + @* 1')))
    yield as_check(refused('list_of_an_undeclared_name.adb', procedure('@Y'), 'N1'))
    yield as_check(refused('list_of_a_wrong_mode.adb', procedure(mode='in', derives='@X from X'), 'U8'))
    yield as_check(refused('list_without_a_flow.adb', longer(X, '@X from X', '@X := X + 1', 'X := 1'), 'F2 unused: X from X', 'F3'))
    yield as_check(too_nested('list_of_201_levels.adb', procedure(nested(201))))
    yield as_check(too_many_variables('list_of_4097_variables.adb', many(4097)))
    yield as_check(too_many_paths('list_of_many_paths.adb', short('First') + longer(A_AND_X, 'X from X, A', *['if A > 0 then X := A; end if'] * 13)))
    yield as_check(too_large('list_of_many_nodes.adb', short('First') + doublings(20)))


# ---------------------------------------------------------------- the table

GROUPS = (form, relations, simplifier, numbers, places, words, layout, comments, marks, other_bytes, tokens, grammar,
          names, rules, flow, chains, levels, comparisons, parameters, statements, flow_of_statements, several,
          optional_parts, attributes, declared_locals, flow_of_locals, nulls, missing_signs, signs_of_numbers,
          signs_and_types, signs_and_syntax, levels_of_parentheses, mixed_levels, limit_or_breach, examples, documented,
          programs_of_one_sum, programs_with_pre, programs_of_several_sums, programs_with_locals, breaches_in_order,
          breaches_in_expressions, rules_in_order, procedures_in_order, headings_in_order,
          flow_findings_in_order, nodes_of_conditions, numbers_of_variables, branches, facts_of_arms, static_conditions,
          checks_of_conditions, order_of_conditions, flow_of_branches, ineffective_branches, unset_in_branches,
          rules_of_branches, syntax_of_branches, levels_of_branches, numbers_of_paths, nodes_of_branches, worked_texts, values_of_divisions,
          values_of_operators, ends_of_static_operators, meeting_a_type, run_time_ends, intervals_of_operators, guards,
          mixed_chains, membership_tests, predefined_names, types_of_operands, truth_values, natural_and_positive,
          null_from, levels_of_operators, nodes_of_operators, ranges_of_types, names_of_declarations, declared_subtypes,
          declared_constants, assigned_constants, matching_types, enumerations, values_of_declarations, conditions_of_types,
          powers_of_types, universal_powers_of_right_sides, universal_powers_beside_operands, universal_powers_in_relations,
          universal_powers_in_tests, universal_powers_of_bounds, universal_powers_that_meet_nothing, universal_powers_that_should_be_static,
          universal_powers_in_annotations, checks_of_universal_powers, conditions_of_enumerations, flow_of_types, levels_of_declarations, syntax_of_declarations,
          syntax_of_arrays, syntax_of_records, breaches_of_declarations, array_types, record_types, uses_of_composites, flow_of_composites,
          conditions_of_composites, runs_of_composites, syntax_of_parts, levels_of_parts, rules_of_parts, indexes_of_parts, parts_in_order, flow_of_parts,
          attributes_of_arrays, conditions_of_parts, parts_that_close, nodes_of_parts, runs_of_parts, elements_of_runs, functions_of_types, conditions_of_functions, flow_of_functions, syntax_of_functions,
          initial_values, values_of_choices, rules_of_choices, conditions_of_cases, flow_of_cases, syntax_of_cases,
          places_of_checks, syntax_of_checks, syntax_of_predicates, cut_and_spoiled, rules_of_predicates, flow_of_checks,
          conditions_of_annotations, places_of_assertions, rules_of_assertions, facts_after_cuts, order_of_cuts,
          syntax_of_loops, rules_of_loops, flow_of_loops, unset_in_loops, conditions_of_loops, paths_of_loops,
          syntax_of_counts, rules_of_counts, flow_of_counts, unset_in_counts, conditions_of_counts, paths_of_counts,
          syntax_of_exits, rules_of_exits, flow_of_exits, unset_at_exits, conditions_of_exits, paths_of_exits,
          worked_runs, runs_of_operators, runs_of_types, runs_of_universal_powers, runs_of_truth_values, runs_that_read_unset_variables, runs_of_annotations, bits_of_runs,
          runs_of_branches, runs_of_loops, entries_of_runs, phases_of_runs, forms_of_inputs, bad_lines, imports_of_inputs, words_of_commands,
          worked_lists, lists_of_terms, lists_of_checks, lists_of_universal_powers, lists_of_values_on_entry, lists_of_branches, lists_of_loops, phases_of_lists)
CASES = tuple(case for group in GROUPS for case in group())


def faults():
    """What keeps the cases from being a table: doubled names, headers in texts, and where reading.py disagrees."""
    seen = set()
    for case in CASES:
        head = header(case.name, case.text, case.words)
        if head in seen:
            yield f'{case.name}: the header is there twice'
        seen.add(head)
        if not all(can_stand(text) for text in (case.text, *(case.second or ())[1:])):
            yield f'{case.name}: a line looks like a header'
        read = answered(*case.asked())
        if (read.report, read.status) != (case.report, case.status):
            yield f'{case.name}: expected {case.report!r}, but reading.py answers {read.report!r}'


def files():
    """The bytes of each file, by its path."""
    return {
        FOLDER / 'stdin': b''.join(entry(case.name, case.text, case.words, case.second) for case in CASES),
        FOLDER / 'stdout': b''.join(answer(case.name, case.text, case.report, case.status, case.words) for case in CASES),
    }


def blocks(document):
    """The blocks of a document that are set apart, each with the number of its first line."""
    lines = document.read_text(encoding='utf-8').split('\n')
    starts = [at for at, line in enumerate(lines) if line.startswith('    ') and (at == 0 or not lines[at - 1])]
    for start in starts:
        block = list(takewhile(lambda line: line.startswith('    '), lines[start:]))
        yield start + 1, ''.join(line[4:] + '\n' for line in block)


def wrong_copies(document, folder):
    """Blocks that are no command, no lines in a row of an example or of a list of conditions, and no report; and reports that no block shows."""
    commands = [(words, names, report.read_text(encoding='utf-8'), report) for words, names, report in commands_in(folder)]
    lists = {printed for words, _, printed, _ in commands if words[0] == 'conditions'}
    texts = [text.read_text(encoding='utf-8') for text, _ in examples_in(folder) + examples_in(RUNS)]
    texts += [(TOP / name).read_text(encoding='utf-8') for _, names, _, _ in commands for name in names]
    reports = {report.read_text(encoding='utf-8'): report for _, report in examples_in(folder)}
    reports |= {printed: report for _, _, printed, report in commands}
    calls = [f'./spx {" ".join(words)}\n' for words, _, _, _ in commands]
    found = dict((block, line) for line, block in blocks(document))
    for block, line in found.items():
        is_piece = any('\n' + block in '\n' + text for text in texts + list(lists))
        if not (is_piece or block in reports or block in calls or block.startswith('./spx check ')):
            yield f'{document.name}:{line}: a block is no piece of an example of {folder.name}'
    for report, path in reports.items():
        if not any(block == report or (report in lists and '\n' + block in '\n' + report) for block in found):
            yield f'{document.name}: lacks {folder.name}/{path.name}'


def check():
    """Whether each file is what the cases say, and each copy of an example what the example is."""
    wrong = [f'{path.name} differs from the table' for path, wanted in files().items()
             if not path.exists() or path.read_bytes() != wanted]
    for document, folder in DOCUMENTS.items():
        wrong += wrong_copies(document, folder)
    for fault in wrong:
        print(fault, file=sys.stderr)
    return not wrong


def write():
    """Writes each file."""
    for path, wanted in files().items():
        path.write_bytes(wanted)


def main():
    parser = argparse.ArgumentParser(description='Writes the table of texts and the expected answers.')
    parser.add_argument('--check', action='store_true', help='compare them, and the documents, with what is there')
    options = parser.parse_args()
    found = list(faults())
    for fault in found:
        print(fault, file=sys.stderr)
    if found or (options.check and not check()):
        return 1
    if not options.check:
        write()
    print(f'{len(CASES)} cases')
    return 0


if __name__ == '__main__':
    sys.exit(main())
