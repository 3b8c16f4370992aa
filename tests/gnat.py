#!/usr/bin/env python3
"""Compares the rules on names and types with the Ada compiler GNAT, on random texts.

GNAT reads the annotations as comments. What breaks a rule N, GNAT has to refuse on that line, for a reason of that kind; what
breaks no such rule, it has to accept. Where the profile means to differ, the list PROFILE has the reason; the list KNOWN has
what spx should take and does not take yet. Run it by hand before a change of names or types is merged. Where there is no GNAT,
it says so and compares nothing.

    tests/gnat.py SEED COUNT                   compares so many random texts; a seed always gives the same ones
    tests/gnat.py SEED COUNT --typed           so many short texts, each with types and few expressions over them
    tests/gnat.py --table                      the texts of tests/table.py
    tests/gnat.py SEED COUNT --program PATH    also asks a program, spx_table or spx_cli, which must agree with the second reading
    tests/gnat.py SEED COUNT --reasons         also prints how often each reason was used

It prints each difference with its text, and ends with 1 where there is one.
"""

import argparse
import re
import resource
import shutil
import subprocess
import sys
import tempfile
from collections import Counter, defaultdict
from dataclasses import dataclass, field, fields, is_dataclass, replace
from itertools import takewhile
from pathlib import Path
from typing import Optional

import reading
from random_texts import CONSTANT_NAMES, LOGICAL, PREDEFINED, PRODUCTS, RELATIONS, Declarer, Writer
from reading import (BOOLEAN, DIVISIONS, EVERYWHERE, INTEGER, LONG_FIRST, LONG_LAST, SHORT_CIRCUIT, UNIVERSAL, Case, ConstantDeclaration, EnumerationDeclaration,
                     Finding, For, Kind, Membership, Operation, Parenthesized, Parser, Place, Prefix, RangeDeclaration, Refused, Resolver, Scanner,
                     SubtypeDeclaration, TooManyTokens, TooNested, VariableDeclaration, fits, require, require_rules)
from table import CASES, can_stand, entry


# ---------------------------------------------------------------- texts with many types

class Typed(Writer):
    """Makes short procedures with declarations, and with few statements over variables of all types. Most parts fit together."""

    # How often a part is of another type than its place asks for.
    MISFITS = 0.06

    def text(self):
        """One procedure. What comes after its first breach is not looked at, so that it is short."""
        formals = ('A', 'B', 'X')
        declarer = Declarer(self.random, formals)
        declarer.slips = self.random.choice((0, 0, 0, declarer.slips))
        self.declared = declarer.run()
        self.types = {'A': 'Integer', 'B': 'Boolean', 'X': 'Natural'}
        self.types |= {f'V{number}': found.name for number, found in enumerate(self.declared.own_types(), 1)}
        bases = {found.name: found.base for found in self.declared.types}
        self.bases = {name: bases[mark] for name, mark in self.types.items()}
        variables = tuple(self.types)
        lines = self.declared.lines + [f'{name} : {self.types[name]}' for name in variables[3:]]
        if self.random.random() < 0.5:
            lines.append(self.last_declaration(declarer))
        statements = [self.some_statement(variables) for _ in range(self.random.choice((1, 1, 2, 3)))]
        return '\n'.join(['procedure Inc (A : in Integer; B : in out Boolean; X : in out Natural)', '--# derives B, X from A, B, X;', 'is',
                          *(f'   {line};' for line in lines), 'begin', *(f'   {line};' for line in statements), 'end Inc;\n']).encode('ascii')

    def a_type(self):
        """A type, mostly one that is declared."""
        return self.random.choice(self.declared.own_types() * 2 + list(PREDEFINED))

    def last_declaration(self, declarer):
        """A declaration with expressions that are static or not."""
        name, found = self.random.choice(('Z', 'Z', 'Z', 'A', 'V1')), self.a_type()
        low, high = (self.static(declarer, found) for _ in range(2))
        return self.random.choice((f'{name} : constant {found.name} := {low}', f'{name} : constant := {low}', f'{name} : {found.name} := {low}',
                                   f'subtype {name} is {found.name} range {low} .. {high}', f'type {name} is range {low} .. {high}'))

    def static(self, declarer, found):
        """A value of a type, or an expression over static values."""
        if found.low is None or self.random.random() < 0.5:
            return self.of_base(found.base, (), 1)
        return declarer.value('Z', self.random.choice((found.low, found.high)), found.base)

    def some_statement(self, variables):
        """An assignment, or another statement with an expression in it."""
        target = self.random.choice(variables[1:] + CONSTANT_NAMES[:1] if self.random.random() < 0.05 else variables[1:])
        condition = self.of_base('Boolean', variables, 2)
        kind = self.random.random()
        if kind < 0.6:
            return f'{target} := {self.of_base(self.base_of(target), variables, 3)}'
        if kind < 0.75:
            return self.random.choice((f'if {condition} then null; end if', f'while {condition} loop null; end loop', f'loop exit when {condition}; end loop'))
        if kind < 0.9:
            return self.some_case(variables)
        found = self.a_type()
        bounds = f' range {self.of_base(found.base, variables, 1)} .. {self.of_base(found.base, variables, 1)}' if self.random.random() < 0.7 else ''
        return f'for {self.random.choice(("I", "I", "I", "A"))} in {found.name}{bounds} loop X := 1; end loop'

    def some_case(self, variables):
        """A `case` with the choices of its selector, or with some others."""
        found = self.a_type()
        selectors = [name for name in variables if self.types[name] == found.name] * 2
        selector = self.random.choice(selectors + [self.of_base(found.base, variables, 1), f'{found.name} ({self.of_base(found.base, variables, 0)})'])
        choices, has_others = self.choices(found)
        if self.random.random() < 0.1:
            choices.append(self.of_base(found.base, (), 1))
        body = ' '.join(f'when {choice} => null;' for choice in choices + (['others'] if has_others else []))
        return f'case {selector} is {body} end case'

    def of_base(self, base, variables, depth):
        """An expression of a base type, or rarely of another one, with operators in one another."""
        if self.random.random() < self.MISFITS:
            base = self.a_type().base
        if base == 'Boolean':
            return self.of_truths(variables, depth)
        if not depth or self.random.random() < 0.2:
            return self.over(base, self.number_in, variables)
        return self.of_literals(base, variables, depth - 1) if self.is_literal(base) else self.of_numbers(base, variables, depth - 1)

    def of_numbers(self, base, variables, depth):
        """An operation on numbers, or a function whose result is one."""
        left, right = (f'({self.of_base(base, variables, depth)})' for _ in range(2))
        mark = self.random.choice(self.declared.of_base(base) or [PREDEFINED[0]]).name
        other = self.a_type()
        operand = self.of_base(other.base, variables, depth)
        exponent = self.random.choice(self.exponents(variables))
        number, other_number = (self.random.choice(self.universal_bases()) for _ in range(2))
        return self.random.choice((f'{left} {self.random.choice("+-")} {right}', f'{left} {self.random.choice("+-")} {right}',
                                   f'{left} {self.random.choice(PRODUCTS)} {right}', f'{left} ** {exponent}',
                                   f'{number} ** {exponent}', f'{number} ** {exponent} {self.random.choice("+-*")} {other_number}',
                                   f'-{left}', f'abs {left}', f"{mark}'{left}", f'{mark} {left}',
                                   f"{mark} ({operand})", f"{other.name}'Pos ({operand})"))

    def universal_bases(self):
        """Numbers that mostly fit each type, and named numbers."""
        numbers = tuple(name for name, base, value in self.declared.constants if base is None and abs(value) < 2**40)
        return ('2', '2', '2', '10', '1', '(1 + 1)', '4294967296') + numbers

    def exponents(self, variables):
        """Small exponents, and variables: a huge static one takes a compiler long."""
        constants = tuple(name for name, base, value in self.declared.constants if base in (None, 'Integer') and abs(value) < 100)
        return ('0', '1', '2', '3', '31', '(-1)') + constants + self.over('Integer', self.numbers, variables) * 2

    def of_literals(self, base, variables, depth):
        """A function whose result is a literal."""
        mark = self.random.choice(self.declared.of_base(base)).name
        operand, position = self.of_base(base, variables, depth), self.of_base('Integer', variables, depth)
        return self.random.choice((f"{mark}'Succ ({operand})", f"{mark}'Pred ({operand})", f"{mark}'({operand})", f"{mark}'Val ({position})", f'({operand})',
                                   f"{mark}'Val ({mark}'Pos ({operand}))"))

    def of_truths(self, variables, depth):
        """A truth value."""
        if not depth:
            return self.random.choice(self.truths(variables) + ('True', 'False', '(1 = 1)'))
        base = self.a_type().base
        left, right, last = (self.of_base(base, variables, depth - 1) for _ in range(3))
        first, second = (self.of_truths(variables, depth - 1) for _ in range(2))
        word = self.random.choice(('in', 'not in'))
        mark = self.random.choice(self.declared.of_base(base)).name
        return self.random.choice((f'({left}) {self.random.choice(RELATIONS)} ({right})', f'({left}) {self.random.choice(RELATIONS)} ({right})',
                                   f'({left}) {word} {mark}', f'({left}) {word} ({right}) .. ({last})',
                                   f'({first}) {self.random.choice(LOGICAL)} ({second})', f'not ({first})'))


# ---------------------------------------------------------------- what spx says

class Watched(Resolver):
    """Keeps the parts of a procedure in which the first breach is, the innermost first."""

    def __init__(self, tree):
        super().__init__(tree)
        self.broken = []

    def watch(self, call, tree):
        """What the call makes of a part."""
        try:
            return call(tree)
        except Refused:
            self.broken.append(tree)
            raise

    def expression(self, tree):
        """An expression over what its names denote."""
        return self.watch(super().expression, tree)

    def statement(self, tree):
        """A statement over what its names denote."""
        return self.watch(super().statement, tree)

    def declaration(self, tree):
        """A declaration, which is put into the scope."""
        return self.watch(super().declaration, tree)

    def kind_of(self, tree):
        """The kind of an expression, if it breaks no rule."""
        try:
            return self.expression(tree).kind
        except Refused:
            return None

    def exactly(self, tree):
        """The expression where no rule N12 is asked, so that a static one has its exact value."""
        before = reading.require, reading.COMPUTED['**']
        reading.require = lambda rule, place, is_kept: rule == 'N12' or before[0](rule, place, is_kept)
        reading.COMPUTED['**'] = small_power
        try:
            return self.expression(tree)
        except Refused:
            return None
        finally:
            reading.require, reading.COMPUTED['**'] = before


# How many bits the power of a number may have where no rule N12 bounds it.
MOST_BITS = 4096


def small_power(left, right):
    """The power of a number, if it is not too large."""
    if left.bit_length() * min(right, 128) > MOST_BITS:
        raise Refused
    return reading.power(left, right)


@dataclass
class Subject:
    """A text with its trees, and what spx reports of it. Then what GNAT reports, by lines: errors, and what always raises."""
    name: str
    text: bytes
    tokens: list
    trees: list
    finding: Optional[Finding] = None
    is_given_up: bool = False
    walks: list = field(default_factory=list)
    errors: dict = field(default_factory=lambda: defaultdict(list))
    raised: dict = field(default_factory=lambda: defaultdict(list))

    def breach(self):
        """The finding, where it is of a rule N."""
        return self.finding if self.finding and self.finding.rule.startswith('N') else None

    def broken(self):
        """The parts in which the breach is, the innermost first."""
        return self.walks[-1].broken if self.walks else []

    def token(self):
        """The index of the token at which the finding is."""
        return next(at for at, token in enumerate(self.tokens) if token.place == self.finding.place)

    def is_of_files(self):
        """Whether the breach is one of the names of procedures, which are looked at before all else."""
        return bool(self.breach()) and self.finding.place in [tree.name.place for tree in self.trees]


def read_subject(name, text):
    """A text with what the second reading reports of rules N and U; nothing where it is no file of the grammar, or an empty one."""
    try:
        scanner = Scanner(text)
        tokens = scanner.run()
        found = Subject(name, text, tokens, Parser(tokens, scanner.place()).file())
    except (Refused, TooNested, TooManyTokens):
        return None
    try:
        judge(found)
    except Refused as refused:
        found.finding = refused.findings[0]
    return found if found.trees else None


def judge(subject):
    """Raises the first breach of a rule N or U, as the second reading does."""
    words = [tree.name.word() for tree in subject.trees]
    for at, tree in enumerate(subject.trees):
        require('N2', tree.name.place, words[at] not in EVERYWHERE and words[at] not in words[:at])
    procedures = []
    for tree in subject.trees:
        subject.walks.append(Watched(tree))
        procedures.append(subject.walks[-1].run())
    for procedure in procedures:
        require_rules(procedure)


FINDING = re.compile(r':(\d+):(\d+): ([LPNU]\d+) (.*)$', re.MULTILINE)


def asked(program, subjects):
    """The findings of a program on texts, in their order: of each the first one that is of a rule L, P, N or U, if there is one."""
    if Path(program).name == 'spx_cli':
        reports = [report_on_file(program, subject) for subject in subjects]
    else:
        table = b''.join(entry(subject.name, subject.text) for subject in subjects)
        printed = subprocess.run([program], input=table, capture_output=True, check=True).stdout.decode('utf-8')
        reports = re.split(r'^%[%-] .*\n', printed, flags=re.MULTILINE)[1:]
    found = (FINDING.search(report) for report in reports)
    return [match and Finding(match[3], Place(int(match[1]), int(match[2])), match[4]) for match in found]


def report_on_file(program, subject):
    """What the program prints on one text."""
    with tempfile.NamedTemporaryFile(suffix='.adb') as file:
        file.write(subject.text)
        file.flush()
        return subprocess.run([program, 'check', file.name], capture_output=True, check=False).stdout.decode('utf-8')


# ---------------------------------------------------------------- what GNAT is given

# The words before statements, and those after them.
BEFORE = ('begin', 'then', 'else', 'loop', '=>')
AFTER = ('end', 'elsif', 'else', 'when')


class Copy:
    """What GNAT is given of a text: each procedure as a file, with the same lines.

    It ends after the part that breaks a rule N, since spx looks at nothing after that, and GNAT might say nothing of that part
    otherwise. Bytes that end lines for some compilers are spaces.
    """

    def __init__(self, subject, is_based=False):
        self.subject = subject
        self.starts = [0] + [at + 1 for at, byte in enumerate(subject.text) if byte == ord('\n')]
        self.plain = re.sub(rb'[^\n -~]', b' ', subject.text)
        self.code = [token for token in subject.tokens if not token.marked]
        self.edits = list(self.nulls())
        if is_based:
            self.edits += self.bases()

    def offset(self, place):
        """Where a place is in the text."""
        return self.starts[place.line - 1] + place.column - 1

    def end(self, token):
        """Where a token ends in the text."""
        return self.offset(token.place) + len(token.text)

    def nulls(self):
        """A `null;` in each list of statements that has annotations only."""
        for before, after in zip(self.code, self.code[1:]):
            if before.kind in BEFORE and after.kind in AFTER:
                yield self.end(before), 0, b' null;'

    def bases(self):
        """Each type of numbers made of one whose base range is that of spx."""
        for tree, walk in zip(self.subject.trees, self.subject.walks):
            for declaration in tree.locals:
                entity = isinstance(declaration, RangeDeclaration) and walk.scope.get(declaration.name.word())
                if entity and entity.subtype and entity.sort == 'type':
                    yield self.based(declaration, entity.subtype)

    def based(self, declaration, subtype):
        """The range of one, in place of what is after `is`."""
        at = next(at for at, token in enumerate(self.code) if token.place == declaration.name.place) + 2
        last = next(token for token in self.code[at:] if token.kind == ';')
        parent = 'Integer' if subtype.kind.last == INTEGER.last else 'Long_Long_Integer'
        first = self.offset(self.code[at].place)
        return first, self.offset(last.place) - first, f'new {parent} range {subtype.first} .. {subtype.last}'.encode('ascii')

    def files(self):
        """The text of each file."""
        starts = [self.offset(tree.place) for tree in self.subject.trees]
        breach = self.subject.breach()
        at = self.offset(breach.place) if breach and breach.rule != 'N5' and not self.subject.is_of_files() else len(self.plain)
        for first, last in zip(starts, starts[1:] + [len(self.plain)]):
            if first <= at:
                yield self.cut(first, breach) if at < last else self.piece(first, last)

    def piece(self, first, last):
        """This part of the text, edited, on the lines on which it is."""
        piece = self.plain[first:last]
        for at, length, new in sorted(self.edits, reverse=True):
            if first <= at < last:
                piece = piece[:at - first] + new + piece[at - first + length:]
        return b'\n' * self.plain[:first].count(b'\n') + piece

    def cut(self, first, breach):
        """The text of a procedure up to the end of what breaks a rule; what is open there is closed."""
        code = [token for token in self.code if first <= self.offset(token.place)]
        begin = next(at for at, token in enumerate(code) if token.kind == 'begin')
        opened = Opened()
        for at, token in enumerate(code):
            opened.take(code, at, at > begin)
            is_after = self.offset(breach.place) < self.end(token)
            if is_after and opened.is_end(code, at, at > begin) and not (breach.rule == 'N17' and opened.has(breach.place)):
                closing = opened.closing(token) if at >= begin else ' begin null; end;'
                return self.piece(first, self.end(token)) + closing.encode('ascii') + b'\n'
        return self.piece(first, self.end(code[-1]))


class Opened:
    """The statements that are open at a token of a body."""

    def __init__(self):
        self.statements = []
        self.is_over = False

    def take(self, code, at, is_body):
        """Goes over a token."""
        kind, before = code[at].kind, code[at - 1].kind if at else ''
        if kind == 'is' and not self.is_over:
            self.is_over = True
        if not is_body:
            return
        if kind in ('if', 'case', 'loop') and before == 'end':
            self.statements.pop()
        elif kind in ('if', 'case', 'loop'):
            self.statements.append([kind, code[at].place, False])
        elif kind == 'others':
            self.statements[-1][2] = True

    def is_end(self, code, at, is_body):
        """Whether a declaration, a statement, or a head of a statement ends here. A heading ends at its `is`."""
        kind, before = code[at].kind, code[at - 1].kind
        if not is_body:
            return self.is_over and (kind in (';', 'begin') or (kind == 'is' and code[at - 2].kind not in ('type', 'subtype')))
        return kind in (';', 'loop', '=>', 'is') or (kind == 'then' and before != 'and')

    def has(self, place):
        """Whether the statement that begins at this place is open."""
        return any(statement[1] == place for statement in self.statements)

    def closing(self, last):
        """The ends of all that is open after this token."""
        text = '' if last.kind == 'is' else ' null;'
        for kind, _, has_others in reversed(self.statements):
            others = ' when others => null;' if kind == 'case' and not has_others else ''
            text += f'{others} end {kind}; '
        return f'{text} end;'


# ---------------------------------------------------------------- what GNAT says

# How many seconds of processor time GNAT may take for a file.
SECONDS = 3
MAKING_CODE = ('gcc', '-c', '-gnat95', '-gnatf')
COMMAND = MAKING_CODE + ('-gnatc',)
MESSAGE = re.compile(r'\w+\.adb:(\d+):\d+: (error|warning): (.*)')
# What GNAT warns of where a text is Ada, and always raises an exception.
RAISES = re.compile(r'Constraint_Error (?:will be|would have been) raised')


def has_gnat():
    """Whether there is a compiler of Ada."""
    if not shutil.which(COMMAND[0]):
        return False
    with tempfile.TemporaryDirectory() as folder:
        (Path(folder) / 'nothing.adb').write_text('procedure Nothing is begin null; end Nothing;\n', encoding='ascii')
        return subprocess.run([*COMMAND, 'nothing.adb'], cwd=folder, capture_output=True, check=False).returncode == 0


def limited():
    """Lets GNAT compute so long only: it may compute a static power with a huge exponent for hours."""
    resource.setrlimit(resource.RLIMIT_CPU, (SECONDS, SECONDS))


def messages_on(files, command):
    """What GNAT reports of files, by their names: the file, the line, whether it is an error, and the message; no message where it gives up."""
    with tempfile.TemporaryDirectory() as folder:
        for name, text in files.items():
            (Path(folder) / f'{name}.adb').write_bytes(text)
            printed = subprocess.run([*command, f'{name}.adb'], cwd=folder, capture_output=True, check=False, preexec_fn=limited).stderr.decode('latin-1')
            for line in printed.splitlines():
                found = MESSAGE.match(line)
                if found:
                    yield name, int(found[1]), found[2] == 'error', found[3].replace(' [enabled by default]', '')
            if 'signal terminated' in printed or 'BUG DETECTED' in printed:
                yield name, 0, True, ''


def compile_all(subjects, is_based=False, command=COMMAND):
    """Asks GNAT about all texts."""
    files, owners = {}, {}
    for number, subject in enumerate(subjects):
        subject.errors.clear()
        subject.raised.clear()
        for at, text in enumerate(Copy(subject, is_based).files()):
            owners[f't{number}_{at}'] = subject
            files[f't{number}_{at}'] = text
    for name, line, is_error, message in messages_on(files, command):
        if not message:
            owners[name].is_given_up = True
        elif is_error:
            owners[name].errors[line].append(message)
        elif RAISES.search(message):
            owners[name].raised[line].append(message)


def compiled(subject, **options):
    """The text with what GNAT says of it in another way."""
    other = replace(subject, errors=defaultdict(list), raised=defaultdict(list))
    compile_all([other], **options)
    return other


# ---------------------------------------------------------------- differences

# What GNAT says of a line where a rule is broken; of N12 and N13 also what it warns of.
SAID = {
    'N1': 'is undefined|cannot be used before end|not visible|unrecognized attribute|no selector',
    'N2': 'conflicts with declaration',
    'N3': 'declared|subtype mark|subtype name|attribute|missing argument|procedure name|expected type|undefined|must be a variable|used before end|array type required|is not a|'
          'invalid operand types|illegal operand|incompatible types|invalid prefix|no selector|too many arguments|not allowed here|missing "[,;]"',
    'N5': 'expected|missing "end',
    'N10': 'expected|found|incompatible|invalid|not defined|illegal operand|no applicable operator|operand|exponent|universal|undefined',
    'N11': 'static',
    'N12': 'range|Constraint_Check|Constraint_Error|zero|raises|too large',
    'N13': 'range|bounds',
    'N14': r'argument|subscript|call|parameters not permitted|missing "\)"',
    'N17': 'case value|choice',
    'U2': 'assignment to|must be a variable',
}
# What GNAT says of targets that are constants, and of an exit that is in no loop: spx looks at them after all rules N.
LATER = re.compile(r'assignment to ("in" mode|loop) parameter not allowed|left hand side of assignment must be a variable|cannot exit from')


@dataclass(frozen=True)
class Difference:
    """A line that GNAT refuses with these messages and spx does not; or the line of a finding that GNAT does not refuse so.

    Then the messages are those of another reason, if there are any.
    """
    subject: Subject
    line: int
    is_missed: bool
    messages: tuple = ()

    def misses(self, *rules):
        """Whether GNAT accepts what breaks one of these rules."""
        return self.is_missed and self.subject.finding.rule in rules

    def inner(self):
        """The innermost part that breaks a rule, if it is known."""
        broken = self.subject.broken()
        return broken[0] if broken else None

    def walk(self):
        """What the second reading knows where the breach is."""
        return self.subject.walks[-1]


def differences(subject):
    """The differences on a text, of which spx reports the first breach only. Of the rules U only U2 is one of Ada."""
    finding, breach = subject.finding, subject.breach()
    for line, messages in sorted(subject.errors.items()):
        if not breach or (line < breach.place.line and not subject.is_of_files()):
            yield Difference(subject, line, False, tuple(messages))
    if finding and finding.rule in SAID:
        said = messages_of(subject, finding)
        if not any(re.search(SAID[finding.rule], message) for message in said):
            yield Difference(subject, finding.place.line, True, tuple(said))
    elif breach:
        yield Difference(subject, breach.place.line, True)


def messages_of(subject, finding):
    """What GNAT says of a finding: on its line; of a `case`, whose copy ends with it, also on the lines of its choices."""
    line = finding.place.line
    if finding.rule == 'N17':
        return [message for at, messages in subject.errors.items() if at >= line for message in messages]
    return subject.errors.get(line, []) + (subject.raised.get(line, []) if finding.rule in ('N12', 'N13') else [])


def nodes(tree):
    """A part and all parts in it."""
    if isinstance(tree, (list, tuple)):
        for part in tree:
            yield from nodes(part)
    elif is_dataclass(tree):
        yield tree
        for part in fields(tree):
            yield from nodes(getattr(tree, part.name))


# ---------------------------------------------------------------- what GNAT does not see or spx does not look at

def is_annotation(difference):
    """The breach is in an annotation, which GNAT takes for a comment."""
    finding = difference.subject.finding
    return difference.is_missed and difference.subject.tokens[difference.subject.token()].marked and finding.rule != 'U2'


def is_later(difference):
    """GNAT refuses a target or an exit, and spx has found a breach that it looks for before. GNAT then gives up the right side."""
    finding = difference.subject.finding
    is_before = finding and (finding.rule != 'U2' or finding.place.line <= difference.line)
    return bool(is_before and difference.messages) and all(LATER.search(message) for message in difference.messages)


def is_of_types(difference):
    """GNAT looks at the types of a whole statement before it computes a value in it."""
    is_type = any(re.search(SAID['N10'], message) for message in difference.messages)
    return difference.misses('N11', 'N12') and is_type


def is_of_files(difference):
    """Two procedures of a file have one name. GNAT is given each as a file."""
    return difference.misses('N2') and difference.subject.is_of_files()


# ---------------------------------------------------------------- what the profile leaves out

STANDARD = tuple(('float character wide_character string wide_string duration ascii standard constraint_error program_error storage_error tasking_error '
                  'numeric_error short_integer short_short_integer long_integer long_long_integer short_float long_float long_long_float').split())
# The attributes of types and variables that Ada has.
ATTRIBUTES = tuple(('first last length pos val succ pred base range size image value width min max valid address alignment wide_image wide_value '
                    'wide_width').split())


def word(difference, after=0):
    """The token so many after the place of the finding, in small letters."""
    return difference.subject.tokens[difference.subject.token() + after].text.lower()


def is_in_standard(difference):
    """A name of package Standard that the profile leaves out."""
    return difference.misses('N1') and word(difference) in STANDARD


def is_predefined(difference):
    """A name that is declared everywhere is declared again (decision 9)."""
    return difference.misses('N2') and word(difference) in EVERYWHERE


def is_loop_parameter(difference):
    """The parameter of a loop has a name that is declared around the loop (decision 102)."""
    return difference.misses('N2') and isinstance(difference.inner(), For) and difference.inner().name.place == difference.subject.finding.place


def is_overloaded(difference):
    """An enumeration literal has the name of a literal of another type before it, and there is no overloading (decision 71)."""
    tree = difference.inner()
    if not difference.misses('N2') or not isinstance(tree, EnumerationDeclaration):
        return False
    entity = difference.walk().scope[word(difference)]
    return bool(entity) and entity.sort == 'literal'


def is_other_attribute(difference):
    """An attribute of Ada that the profile leaves out, of a type or a variable."""
    if not difference.misses('N3') or word(difference, 1) != "'" or word(difference, 2) not in ATTRIBUTES:
        return False
    entity = difference.walk().scope.get(word(difference)) or difference.walk().outer.get(word(difference))
    is_profiled = word(difference, 2) in ('first', 'last') and entity.subtype and entity.subtype.kind is not BOOLEAN
    return not is_profiled


def is_dimension(difference):
    """An end of an array with the number of a dimension."""
    tree = difference.inner()
    if not difference.misses('N3') or not isinstance(tree, reading.Path) or len(tree.steps) < 2:
        return False
    end, dimension = tree.steps[-2:]
    return end.form == "'" and end.name.word() in ('first', 'last') and dimension.form == '('


def is_expanded(difference):
    """A name of the procedure with the name of the procedure before it."""
    entity = difference.walk().denoted(difference.inner().root) if difference.misses('N3') and isinstance(difference.inner(), reading.Path) else None
    return bool(entity) and entity.sort == 'subprogram' and difference.inner().steps[0].form == '.'


def is_order_of_arrays(difference):
    """An order of arrays whose elements have an order."""
    tree = difference.inner()
    if not difference.misses('N10') or not isinstance(tree, Operation) or tree.operator not in RELATIONS:
        return False
    kinds = {difference.walk().kind_of(side) for side in (tree.left, tree.right)}
    return len(kinds) == 1 and all(kind and kind.element and kind.element.kind.is_ordered() for kind in kinds)


def is_end_in_a_declaration(difference):
    """An end of an array variable, which is static in Ada; in a declaration it is not in the profile."""
    ends = [tree for tree in nodes(difference.inner()) if isinstance(tree, reading.Step) and tree.form == "'" and tree.name.word() in ('first', 'last')]
    return difference.misses('N11') and bool(ends)


def is_of_a_name(difference):
    """A name leads nowhere, and has an index that GNAT looks at before that. spx looks at the name first."""
    tree = difference.inner()
    return difference.misses('N1', 'N3', 'N14') and isinstance(tree, reading.Path) and any(step.parts for step in tree.steps) and bool(difference.messages)


def is_of_truths(difference):
    """An order, a membership test, a range, a `case` or a `for` of truth values, which Ada has and the profile has not."""
    tree, walk = difference.inner(), difference.subject.walks and difference.walk()
    if not difference.misses('N10'):
        return False
    if isinstance(tree, Operation):
        return tree.operator in RELATIONS and {walk.kind_of(tree.left), walk.kind_of(tree.right)} == {BOOLEAN}
    if isinstance(tree, Membership):
        bounds = [tree.low, tree.high] if tree.low else []
        return {walk.kind_of(part) for part in [tree.tested] + bounds} == {BOOLEAN}
    if isinstance(tree, Case):
        return walk.kind_of(tree.selector) is BOOLEAN
    mark = {SubtypeDeclaration: lambda: tree.parent, For: lambda: tree.type_mark}.get(type(tree), lambda: None)()
    return mark is not None and mark.place == difference.subject.finding.place and walk.subtype(mark).kind is BOOLEAN


def is_conversion(difference):
    """A conversion to an enumeration type or to Boolean, of a value of that type: the profile has those of numbers only."""
    tree = difference.inner()
    if not difference.misses('N10') or not isinstance(tree, reading.Path) or [step.form for step in tree.steps] != ['(']:
        return False
    entity, operand = difference.walk().denoted(tree.root), tree.steps[0].parts[0]
    kind = entity.subtype.kind
    return entity.sort == 'type' and kind.values != 'numbers' and difference.walk().kind_of(operand) is kind


def is_type_choice(difference):
    """A choice is the name of a type, which has all its values in Ada (RM 3.8.1, 5.4). The profile has values and ranges."""
    if not difference.misses('N3') or word(difference, -1) not in ('when', '|') or word(difference, 1) not in ('|', '=>'):
        return False
    entity = difference.walk().scope.get(word(difference)) or difference.walk().outer.get(word(difference))
    return bool(entity) and entity.sort == 'type'


def is_not_static(difference):
    """Ada asks for no static initial value, constant or bound of a subtype; the profile does."""
    tree = difference.inner()
    is_such = isinstance(tree, (VariableDeclaration, SubtypeDeclaration)) or (isinstance(tree, ConstantDeclaration) and tree.type_mark)
    return difference.misses('N11') and bool(is_such)


def is_null_range(difference):
    """A declaration has a range without values, which Ada allows."""
    tree, walk = difference.inner(), difference.walk()
    return difference.misses('N13') and walk.exactly(tree.low).value > walk.exactly(tree.high).value


def is_outside_parent(difference):
    """A subtype has bounds outside of its parent, which is Ada and always raises; GNAT warns of it only where it makes code."""
    if not difference.misses('N13') or not isinstance(difference.inner(), SubtypeDeclaration):
        return False
    made = compiled(difference.subject, command=MAKING_CODE)
    return difference.line in made.raised


def is_longer(difference):
    """A type has bounds that do not fit 64 bits; Ada leaves the longest type to the compiler, and this one has 128."""
    tree, walk = difference.inner(), difference.walk()
    return difference.misses('N13') and isinstance(tree, RangeDeclaration) and all(fits(walk.exactly(bound).value) for bound in (tree.low, tree.high))


def around(difference):
    """The expressions that have the breach in them, the innermost first, with their exact values."""
    expressions = takewhile(lambda tree: isinstance(tree, (Operation, Prefix, Membership, reading.Path, Parenthesized)), difference.subject.broken())
    return [difference.walk().exactly(tree) for tree in expressions]


def is_overflow(tree):
    """Whether the operation fails no check but that of overflow."""
    is_undefined = isinstance(tree, Operation) and ((tree.operator in DIVISIONS and tree.right.value == 0) or (tree.operator == '**' and tree.right.value < 0))
    return isinstance(tree, (Operation, Prefix, Membership)) and not is_undefined


def is_part(difference):
    """A static operation leaves its base range, or a number does not fit it, inside a static expression whose own value is in its base range.

    Or that is where any integer type may be: as a bound of a new type, or as the value of a named number. Ada asks for no more
    (RM 4.9); spx looks at each operation.
    """
    if not difference.misses('N12'):
        return False
    found = [tree for tree in around(difference) if tree and tree.value is not None]
    outer = difference.subject.broken()[len(around(difference)):]
    is_any = bool(outer) and (isinstance(outer[0], RangeDeclaration) or (isinstance(outer[0], ConstantDeclaration) and not outer[0].type_mark))
    return bool(found) and is_overflow(found[0]) and (is_any or found[-1].kind.has(found[-1].value))


def is_wide(difference):
    """A number that no type meets has more than 128 bits (decision 20)."""
    found = around(difference)
    return difference.misses('N12') and bool(found) and bool(found[0]) and found[0].kind is UNIVERSAL and is_overflow(found[0]) and not fits(found[0].value)


def is_not_evaluated(difference):
    """What fails is the right side of a short-circuit form that its left side decides. Ada does not evaluate it; spx looks at it."""
    broken = difference.subject.broken()
    for inner, outer in zip(broken, broken[1:]):
        if difference.misses('N12') and isinstance(outer, Operation) and outer.operator in SHORT_CIRCUIT and inner is outer.right:
            left = difference.walk().exactly(outer.left)
            if left and left.value is (outer.operator == 'or else'):
                return True
    return False


# ---------------------------------------------------------------- what Ada leaves to a compiler

def is_base(difference):
    """GNAT takes a shorter base range for a short type. With types made of ones with the base ranges of spx it agrees, but for choices outside."""
    subject = difference.subject
    declared = [tree for procedure in subject.trees for tree in procedure.locals if isinstance(tree, RangeDeclaration)]
    if not declared or difference.line in [tree.name.place.line for tree in declared]:
        return False
    return all(other.line != difference.line or is_outside(other) for other in differences(compiled(subject, is_based=True)))


def is_too_large(difference):
    """GNAT gives up a static power."""
    return not difference.is_missed and set(difference.messages) == {'static value too large, capacity exceeded'}


ALLOWED = re.compile('(minimum|maximum) allowed choice value is (.*)')
LACKING = re.compile(r'missing case values?: (-?\d+)(?: \.\. (-?\d+))?$')


def is_outside(difference):
    """A choice is outside of the subtype of its selector; spx lets that be (decision 74). GNAT may then lack values that are outside too."""
    allowed = [ALLOWED.match(message) for message in difference.messages]
    lacking = [LACKING.match(message) for message, found in zip(difference.messages, allowed) if not found]
    ends = {found[1]: int(found[2]) for found in allowed if found and re.fullmatch(r'-?\d+', found[2])}
    return not difference.is_missed and any(allowed) and all(found and (int(found[2] or found[1]) < ends.get('minimum', LONG_FIRST)
                                                                      or int(found[1]) > ends.get('maximum', LONG_LAST)) for found in lacking)


# ---------------------------------------------------------------- what spx could read as Ada does

# The type root integer, which a number of 128 bits fits here.
ROOT = Kind('numbers', UNIVERSAL.first, UNIVERSAL.last)


class Lenient(Watched):
    """Reads a procedure as Ada has it in some points, which are functions of the lists."""

    def __init__(self, tree, points):
        super().__init__(tree)
        self.points = points

    def mapped(self, tree, operand):
        """The operand of a conversion is of the type root integer where it is not static; and a position is a universal number."""
        if is_root in self.points and not (tree.designator or tree.is_qualified):
            operand = reading.meeting_nothing(operand)
        found = super().mapped(tree, operand)
        is_such = is_position in self.points and tree.designator and tree.designator.word() == 'pos'
        return replace(found, kind=UNIVERSAL) if is_such else found

    def chosen(self, tree, kind):
        """Where the selector is universal, a choice is of any integer type."""
        if is_choice in self.points and kind in (UNIVERSAL, ROOT):
            return self.static(tree)
        return super().chosen(tree, kind)


def finding_in_ada(subject, *points):
    """What the second reading would report of rules N, if it read these points as Ada has them."""
    before = reading.DEFAULT
    reading.DEFAULT = ROOT if is_root in points else before
    try:
        for tree in subject.trees:
            Lenient(tree, points).run()
        return None
    except Refused as refused:
        return refused.findings[0]
    finally:
        reading.DEFAULT = before


def is_settled(difference, *points, rules=('N10',)):
    """Whether spx and GNAT would agree, if spx read these points as Ada has them."""
    found = finding_in_ada(difference.subject, *points)
    if difference.is_missed:
        return difference.subject.finding.rule in rules and found != difference.subject.finding
    return bool(found) and found.place.line == difference.line


def is_root(difference):
    """`2 ** N` where N is a variable is an Integer for spx where it meets no type. In Ada it is then of the type root integer (RM 8.6).

    Its range is that of the longest type, and a `case` over it has choices of any integer type. An operand of a conversion meets no
    type in Ada, and the type that is named in spx.
    """
    return is_settled(difference, is_root, rules=('N12',)) or (not is_choice(difference) and is_settled(difference, is_root, is_choice))


def is_position(difference):
    """`T'Pos (E)` is an Integer for spx. In Ada it is a universal number, which fits each integer type (RM 3.5.5)."""
    return is_settled(difference, is_position)


def is_choice(difference):
    """The selector of a `case` is a universal number. In Ada a choice may then be of any integer type (RM 5.4, 8.6)."""
    return is_settled(difference, is_choice)


PROFILE = (is_annotation, is_later, is_of_types, is_of_files, is_in_standard, is_predefined, is_loop_parameter, is_overloaded, is_other_attribute, is_dimension, is_expanded, is_order_of_arrays, is_end_in_a_declaration,
           is_of_a_name, is_of_truths,
           is_conversion, is_type_choice, is_not_static, is_null_range, is_outside_parent, is_longer, is_part, is_wide, is_not_evaluated, is_too_large, is_outside, is_base,
           is_root)
KNOWN = (is_position, is_choice)


def reason_for(difference):
    """What of the two lists is the reason for a difference, if there is one."""
    return next((reason for reason in PROFILE + KNOWN if reason(difference)), None)


def shown(difference):
    """A difference with its text."""
    subject, finding = difference.subject, difference.subject.finding
    says = f'{finding.place.line}:{finding.place.column}: {finding.rule} {finding.text}' if finding else 'nothing'
    gnat = '; '.join(difference.messages) or 'nothing on that line'
    lines = subject.text.decode('latin-1').split('\n')
    return '\n'.join([f'{subject.name}: line {difference.line}: spx: {says}; GNAT: {gnat}', *(f'{at:3} {line}' for at, line in enumerate(lines, 1))])


# ---------------------------------------------------------------- the comparison

def texts(writer, count):
    """So many texts with their names."""
    found = []
    while len(found) < count:
        text = writer.text()
        if can_stand(text):
            found.append((f'text_{len(found) + 1}', text))
    return found


# How long a text of the table may be.
MOST_BYTES = 5000


def texts_of_the_table():
    """The texts of tests/table.py that are checked, but for the longest, which are about limits."""
    return [(case.name, case.text) for case in CASES if case.words is None and len(case.text) < MOST_BYTES]


def compared(subjects):
    """All differences on texts with their reasons, if they have any."""
    compile_all(subjects)
    return [(difference, reason_for(difference)) for subject in subjects if not subject.is_given_up for difference in differences(subject)]


def read_otherwise(program, subjects):
    """What a program finds in texts where the second reading does not find that."""
    for subject, finding in zip(subjects, asked(program, subjects)):
        if finding != subject.finding:
            yield f'{subject.name}: the program says {finding}, the second reading {subject.finding}\n{subject.text.decode("latin-1")}'


def main():
    parser = argparse.ArgumentParser(description='Compares the rules on names and types with GNAT.')
    parser.add_argument('seed', type=int, nargs='?', default=1)
    parser.add_argument('count', type=int, nargs='?', default=2000)
    parser.add_argument('--typed', action='store_true', help='short texts with types and few expressions over them')
    parser.add_argument('--table', action='store_true', help='the texts of tests/table.py')
    parser.add_argument('--program', help='a program, spx_table or spx_cli, that must agree with the second reading')
    parser.add_argument('--reasons', action='store_true', help='print how often each reason was used')
    options = parser.parse_args()
    if not has_gnat():
        print('no Ada compiler is here: nothing is compared')
        return 0
    named = texts_of_the_table() if options.table else texts((Typed if options.typed else Writer)(options.seed), options.count)
    subjects = [subject for subject in (read_subject(*each) for each in named) if subject]
    found = compared(subjects)
    left = [shown(difference) for difference, reason in found if not reason]
    left += read_otherwise(options.program, subjects) if options.program else []
    print(*left, sep='\n', end='\n' if left else '')
    if options.reasons:
        for reason, times in Counter(reason for _, reason in found if reason).most_common():
            print(f'{times:5} {"known: " if reason in KNOWN else ""}{reason.__doc__.split(chr(10))[0]}')
    given_up = sum(subject.is_given_up for subject in subjects)
    print(f'GNAT gave up {given_up} texts' if given_up else '', end='\n' if given_up else '')
    print(f'{len(named)} texts, {len(left)} differences')
    return 1 if left else 0


if __name__ == '__main__':
    sys.exit(main())
