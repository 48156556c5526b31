"""Reads a profile's text into assignments, and goes on behind each token that can't stand where it is."""
import difflib
from typing import NamedTuple, Optional

from profiles.words import BYTE_ORDER_MARK, OPERANDS, SECTIONS, Token, kind_of, tokens_of

MOST_DEPTH = 1000


class Fault(NamedTuple):
    """Something that the program refuses: its kind, the token where it stands, and what was expected there."""
    kind: str
    token: Optional[Token]
    expected: str = ''


class Assignment(NamedTuple):
    """An assignment: its section, its name, the names, looks and other operands that it reads, and its last token."""
    section: str
    name: Token
    leaves: list
    last: Token


class _Broken(Exception):
    """Nothing more of an assignment can be read in its order."""


class Reader:
    """The assignments of a text, with its faults in the order in which they stand."""

    def __init__(self, text):
        self.tokens = tokens_of(text)
        self.kinds = [kind_of(token.text) for token in self.tokens] + ['end']
        self.place = 0
        self.section = ''
        self.leaves = []
        self.faults = []
        self.assignments = []
        while self.token:
            self.read_part()

    @property
    def token(self):
        return self.tokens[self.place] if self.place < len(self.tokens) else None

    @property
    def kind(self):
        return self.kinds[self.place]

    def take(self):
        token = self.token
        self.place += 1
        return token

    def refuse(self, kind, expected):
        self.faults.append(Fault(kind, self.token or self.tokens[-1], expected))

    def read_part(self):
        """An assignment, the opening of a section, or what can't stand in their place."""
        if self.kind == 'section':
            self.section = SECTIONS[self.take().text]
        elif self.kind == 'assign':
            if not self.section:
                self.refuse('section', 'section')
                self.section = 'global'
            self.read_assignment()
        elif self.kind == 'close':
            self.refuse('bracket', 'front')
            self.skip(self.place + 1)
        elif self.token.text.startswith(b'---'):
            self.refuse('section', 'front')
            self.guess_section(self.take().text)
        elif self.token.text.removeprefix(BYTE_ORDER_MARK) in SECTIONS:
            self.refuse('token', 'front')
            self.guess_section(self.take().text)
        else:
            self.refuse('number' if self.kind == 'bad number' else 'token', 'front')
            self.skip(self.place + 1)

    def guess_section(self, text):
        """Goes on in the section that was meant, where one is spelled nearly like this."""
        spelled = text.removeprefix(BYTE_ORDER_MARK)[:80].decode('latin-1')
        for near in difflib.get_close_matches(spelled, [word.decode() for word in SECTIONS], 1, 0.8):
            self.section = SECTIONS[near.encode()]

    def skip(self, known):
        """Goes to the next assignment or section. What stands before it is looked at by itself from the place `known` on."""
        while self.token and self.kind not in ('assign', 'section') and not self.token.text.startswith(b'---'):
            if self.place >= known:
                self.look_at_leaf()
            self.take()

    def look_at_leaf(self):
        """Notes an operand, also one that isn't spelled as the language has it."""
        if self.kind in ('name', 'look', 'other', 'bad number'):
            self.leaves.append(self.token)
        if self.kind == 'other':
            self.refuse('token', 'expression')
        elif self.kind == 'bad number':
            self.refuse('number', 'expression')

    def read_assignment(self):
        self.take()
        self.leaves, name = [], None
        try:
            name = self.read_name()
            if self.kind == 'equals':
                self.take()
            self.read_expression()
        except _Broken:
            self.skip(self.place)
        if name:
            self.assignments.append(Assignment(self.section, name, self.leaves, self.tokens[self.place - 1]))

    def read_name(self):
        """The name behind `assign`; one that isn't spelled as the language has it is refused and taken too."""
        if self.kind == 'name':
            return self.take()
        if not self.token:
            self.refuse('end', 'name')
            raise _Broken
        self.refuse('number' if self.kind == 'bad number' else 'token', 'name')
        if self.kind in ('other', 'bad number'):
            return self.take()
        raise _Broken

    def read_expression(self):
        """An expression. What is still expected stands on a stack, with the depth of each operand."""
        pending = [('expression', 1)]
        while pending:
            expected, depth = pending.pop()
            if not self.token:
                self.refuse('end', expected)
                raise _Broken
            if expected != 'expression':
                self.read_word(expected)
            elif self.may_begin_operand():
                pending += reversed(self.read_operand(depth))

    def read_word(self, expected):
        """One of `then`, `else` and `)`; one that is missing is refused, and taken as if it stood there."""
        if self.kind == expected:
            self.take()
        elif expected == 'close':
            self.refuse('bracket', expected)
            raise _Broken
        else:
            self.refuse('number' if self.kind == 'bad number' else 'token', expected)
            if self.kind in ('assign', 'section'):
                raise _Broken

    def may_begin_operand(self):
        """Whether an operand can be read here; where none can, it is refused and counts as read."""
        if self.kind in ('close', 'equals', 'then', 'else', 'assign', 'section'):
            self.refuse('bracket' if self.kind == 'close' else 'token', 'expression')
            if self.kind in ('equals', 'assign', 'section'):
                raise _Broken
            return False
        return True

    def read_operand(self, depth):
        """What is expected behind the token that begins an operand at a depth."""
        operand = ('expression', depth + 1)
        self.look_at_leaf()
        if depth > MOST_DEPTH:
            self.refuse('deep', 'expression')
        kind, token = self.kind, self.take()
        if depth > MOST_DEPTH:
            raise _Broken
        if kind == 'if':
            return [operand, ('then', 0), operand, ('else', 0), operand]
        if kind == 'open':
            return [operand, ('close', 0)]
        return [operand] * OPERANDS.get(token.text, 0)
