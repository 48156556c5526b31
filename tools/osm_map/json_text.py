"""Reads a large JSON text value by value, so that only a piece of it is in memory."""
import json
import re
from decimal import Decimal

from .faults import Refused

PIECE = 1 << 20
MOST_VALUE = 1 << 26


def _first_of_each(pairs):
    """An object in which of repeated members the first counts, as the program reads it."""
    members = dict(pairs)
    return members if len(members) == len(pairs) else dict(reversed(pairs))


def _no_number(text):
    raise ValueError(f'{text} is no number of JSON')


_DECODE = json.JSONDecoder(object_pairs_hook=_first_of_each, parse_float=Decimal, parse_constant=_no_number).raw_decode
_WHITE = json.decoder.WHITESPACE.match
_GOES_ON = re.compile('[-+.0-9eE]*').match     # what may still belong to a number


class JsonText:
    """A place in a JSON text, which moves on as values are taken."""

    def __init__(self, file):
        self.file, self.text, self.place, self.passed = file, '', 0, 0

    def broken(self, why):
        return Refused(f'{self.file.name}: no JSON text: {why} near character {self.passed + self.place + 1}')

    def _more(self):
        """Reads on, and says whether there was more."""
        rest = self.text[self.place:]
        if len(rest) > MOST_VALUE:
            raise self.broken('a value that doesn\'t end')
        try:
            piece = self.file.read(max(PIECE, len(rest)))
        except UnicodeDecodeError as fault:
            raise self.broken(f'bytes that aren\'t UTF-8 ({fault.reason})') from None
        self.passed += self.place
        self.text, self.place = rest + piece, 0
        return piece != ''

    def next(self):
        """The next character that is no white space; nothing at the end."""
        while True:
            self.place = _WHITE(self.text, self.place).end()
            if self.place < len(self.text):
                return self.text[self.place]
            if not self._more():
                return ''

    def take(self, wanted):
        """Goes beyond one of the wanted characters, and says which it was."""
        found = self.next()
        if not found or found not in wanted:
            raise self.broken(f'one of {wanted} is wanted' if found else 'it ends in the middle')
        self.place += 1
        return found

    def value(self):
        """Takes a whole value. One at the end of what was read may go on beyond it."""
        self.next()
        while True:
            why = None
            try:
                found, end = _DECODE(self.text, self.place)
                size = end - self.place
            except json.JSONDecodeError as fault:
                why = fault.msg
            except (ValueError, RecursionError) as fault:
                raise self.broken(str(fault).partition(';')[0]) from None
            if (why or _GOES_ON(self.text, end).end() == len(self.text)) and self._more():
                continue
            if why:
                raise self.broken(why if self.next() else 'it ends in the middle')
            self.place += size
            return found

    def items(self):
        """Takes the items of an array, one after the other."""
        self.take('[')
        if self.next() == ']':
            self.take(']')
            return
        while True:
            yield self.value()
            if self.take(',]') == ']':
                return

    def members(self):
        """Takes the names of an object's members; whoever asks takes the value of each."""
        self.take('{')
        if self.next() == '}':
            self.take('}')
            return
        while True:
            if self.next() != '"':
                raise self.broken('the name of a member is wanted')
            yield self.value(), self.take(':')
            if self.take(',}') == '}':
                return
