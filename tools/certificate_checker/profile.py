"""The profile language by its trees: how a text is read, what is checked, and what it comes to (docs/FORMATS.md, "The routing profile").

A tree is a tuple whose first item says its kind: `number`, `name`, `look`, or an operator's word with its operands behind it."""
import re
import sys
from collections import namedtuple

from .numbers import MILLION, Fault, cut, divide, in_range, literal
from .refusals import Refusal

SECTIONS = {b'---context:global': 'global', b'---context:way': 'way', b'---context:node': 'node'}
GLOBAL_NAMES = (b'uphillcost', b'downhillcost', b'uphillcutoff', b'downhillcutoff', b'elevationpenaltybuffer',
                b'elevationmaxbuffer', b'elevationbufferreduce')
# of each operator the word before each operand, where there is one
OPERANDS = {b'not': (b'',), b'switch': (b'', b'', b''), b'if': (b'', b'then', b'else'), b'(': (b'',)} | dict.fromkeys(
    b'or and xor multiply divide add sub max min equal greater lesser'.split(), (b'', b''))
TRUTHS = {b'true': MILLION, b'false': 0}
WORDS = {b'assign', b'then', b'else', *OPERANDS, *TRUTHS}
TOKEN = re.compile(rb'[()]|[^\s()]+')
NAME = re.compile(rb'[A-Za-z_][A-Za-z0-9_]*')
LOOK = re.compile(rb'([^=]+)=(|[^|]+(?:\|[^|]+)*)')
NUMERIC = re.compile(rb'[0-9]|-(?!--)')
DEEPEST = 1000
Assignment = namedtuple('Assignment', 'name line tree')
# each depth takes two calls where a tree is read
sys.setrecursionlimit(max(sys.getrecursionlimit(), 10 * DEEPEST))


def is_name(token):
    return bool(NAME.fullmatch(token)) and token not in WORDS


class Reader:
    """The tokens of a profile's text with their lines, taken one by one; behind the last one stands None."""

    def __init__(self, text):
        self.tokens = [(token, number) for number, line in enumerate(text.split(b'\n'), 1)
                       for token in TOKEN.findall(line.split(b'#', 1)[0])]
        self.tokens.append((None, self.tokens[-1][1] if self.tokens else 0))
        self.at = self.line = 0

    def take(self):
        token, self.line = self.tokens[self.at]
        self.at += 1
        if token is None:
            raise self.refusal('end')
        return token

    def refusal(self, kind):
        """The refusal of the token that was taken last."""
        return Refusal(2, f'profile line {self.line}: {kind}')

    def unfit(self, token, closing='token'):
        """The refusal of a token that can't stand where it is; that of a closing bracket depends on the place."""
        return self.refusal('number' if NUMERIC.match(token) and literal(token) is None else closing if token == b')' else 'token')

    def profile(self):
        """The assignments of each section."""
        sections, current = {name: [] for name in SECTIONS.values()}, None
        while self.tokens[self.at][0] is not None:
            token = self.take()
            if token in SECTIONS:
                current = sections[SECTIONS[token]]
            elif token == b'assign' and current is not None:
                current.append(self.assignment())
            elif token == b'assign' or token.startswith(b'---'):
                raise self.refusal('section')
            else:
                raise self.unfit(token, 'bracket')
        return sections

    def assignment(self):
        name, line = self.take(), self.line
        if not is_name(name):
            raise self.unfit(name)
        self.at += self.tokens[self.at][0] == b'='
        return Assignment(name, line, self.tree(1))

    def tree(self, depth):
        token = self.take()
        count, look, found = TRUTHS.get(token, literal(token)), LOOK.fullmatch(token), None
        if count is not None:
            found = 'number', count
        elif NUMERIC.match(token) or not (look or is_name(token) or token in OPERANDS):
            raise self.unfit(token, 'bracket')
        elif look:
            found = 'look', look[1], look[2].split(b'|') if look[2] else [], self.line
        elif is_name(token):
            found = 'name', token, self.line
        if depth > DEEPEST:
            raise self.refusal('deep')
        return found or self.operation(token, depth + 1)

    def operation(self, word, depth):
        """An operator with its operands, or what stands in brackets."""
        operands = []
        for before in OPERANDS[word]:
            if before and (token := self.take()) != before:
                raise self.unfit(token)
            operands.append(self.tree(depth))
        if word == b'(' and self.take() != b')':
            raise self.refusal('bracket')
        return operands[0] if word == b'(' else ('switch' if word == b'if' else word.decode(), *operands)


def read_profile(text, table):
    """The assignments of each section of a text; or the refusal of its first token at fault, or else of the first thing that isn't known
    where it stands."""
    sections = Reader(text).profile()
    for section, assignments in sections.items():
        known = set() if section == 'global' else {it.name for it in sections['global']}
        for name, line, tree in assignments:
            if section == 'way' and name in GLOBAL_NAMES:
                raise Refusal(2, f'profile line {line}: wrong section')
            if fault := fault_of(tree, known, table.get(section)):
                raise Refusal(2, f'profile line {fault}')
            known.add(name)
    if all(it.name != b'costfactor' for it in sections['way']):
        raise Refusal(2, 'profile: no costfactor')
    return sections


def fault_of(tree, known, tags):
    """The line and the fault of the first part of a tree, from the left, that isn't known; the global section has no tags."""
    match tree:
        case 'number', _:
            return None
        case 'name', name, line:
            return f'{line}: unknown name' if name not in known else None
        case 'look', tag, values, line:
            if tags is None or tag not in tags:
                return f'{line}: unknown tag' if tags else f'{line}: wrong section'
            return None if all(it == b'unknown' or it in tags[tag] for it in values) else f'{line}: unknown value'
    return next((fault for operand in tree[1:] if (fault := fault_of(operand, known, tags))), None)


def values_of(assignments, outer, tags, set_numbers, overrides):
    """What a section assigns, by name, where `outer` are the global values and `set_numbers` the tag numbers that aren't 0."""
    values, own = dict(outer), {}
    for name, _, tree in assignments:
        try:
            own[name] = values[name] = overrides[name] if name in overrides else value(tree, values, tags, set_numbers)
        except Fault as fault:
            raise Fault(f'{name.decode()}: {fault}') from None
    return own


BOTH = {
    'and': lambda _, b: MILLION * bool(b), 'or': lambda _, b: MILLION * bool(b),
    'xor': lambda a, b: MILLION * (bool(a) != bool(b)), 'multiply': lambda a, b: in_range(cut(a * b, MILLION)), 'divide': divide,
    'add': lambda a, b: in_range(a + b), 'sub': lambda a, b: in_range(a - b), 'max': max, 'min': min,
    'equal': lambda a, b: MILLION * (a == b), 'greater': lambda a, b: MILLION * (a > b), 'lesser': lambda a, b: MILLION * (a < b)}


def value(tree, values, tags, set_numbers):
    """What a tree comes to: of `and`, `or` and a choice only the operands that decide are looked at."""
    kind = tree[0]
    if kind == 'number':
        return tree[1]
    if kind == 'name':
        return values[tree[1]]
    if kind == 'look':
        wanted = {1 if it == b'unknown' else tags[tree[1]][it] for it in tree[2]} or {0}
        return MILLION * (set_numbers.get(tree[1], 0) in wanted)
    first = value(tree[1], values, tags, set_numbers)
    if kind == 'not':
        return MILLION * (first == 0)
    if kind == 'switch':
        return value(tree[2 if first else 3], values, tags, set_numbers)
    if kind in ('and', 'or') and bool(first) == (kind == 'or'):
        return MILLION * bool(first)
    return BOTH[kind](first, value(tree[2], values, tags, set_numbers))
