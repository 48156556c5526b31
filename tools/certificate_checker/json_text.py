"""JSON texts by RFC 8259, at most 64 brackets deep, read item by item up to the byte at which no JSON text goes on.

An object is a dictionary in which the first of repeated members counts, a text its bytes, and a number the bytes that spell it."""
import re
from collections import namedtuple

DEEPEST = 64
SPACE = re.compile(rb'[ \t\n\r]*')
NUMBER = re.compile(rb'-?(?:0|[1-9][0-9]*)(?:\.[0-9]+)?(?:[eE][+-]?[0-9]+)?')
NUMBER_FRONT = re.compile(rb'-?(?:(?:0|[1-9][0-9]*)(?:\.[0-9]*)?(?:(?<=[0-9])[eE][+-]?[0-9]*)?)?')
PLAIN = re.compile(rb'"([ !#-\[\]-\x7f]*)"')
CHARACTERS = re.compile(
    rb'(?:[ !#-\[\]-\x7f]+|\\["\\/bfnrt]|\\u[0-9a-fA-F]{4}|[\xc2-\xdf][\x80-\xbf]|\xe0[\xa0-\xbf][\x80-\xbf]'
    rb'|[\xe1-\xec\xee\xef][\x80-\xbf]{2}|\xed[\x80-\x9f][\x80-\xbf]|\xf0[\x90-\xbf][\x80-\xbf]{2}'
    rb'|[\xf1-\xf3][\x80-\xbf]{3}|\xf4[\x80-\x8f][\x80-\xbf]{2})*')
CHARACTER_FRONT = re.compile(
    rb'\\u[0-9a-fA-F]{0,3}|\\|[\xc2-\xdf]|\xe0[\xa0-\xbf]?|[\xe1-\xec\xee\xef][\x80-\xbf]?|\xed[\x80-\x9f]?'
    rb'|\xf0(?:[\x90-\xbf][\x80-\xbf]?)?|[\xf1-\xf3][\x80-\xbf]{0,2}|\xf4(?:[\x80-\x8f][\x80-\xbf]?)?|')
ESCAPE = re.compile(rb'\\u[dD][89abAB]..\\u[dD][c-fC-F]..|\\u....|\\.')
SHORT = {b'b': b'\b', b'f': b'\f', b'n': b'\n', b'r': b'\r', b't': b'\t'}
WORDS = {b't': (b'true', True), b'f': (b'false', False), b'n': (b'null', None)}
Number = namedtuple('Number', 'text')


class NotJson(Exception):
    """Some JSON text begins with so many bytes of the text, and none with the next one too."""


def unescaped(match):
    escape = match[0]
    if escape[1:2] != b'u':
        return SHORT.get(escape[1:], escape[1:])
    code = int(escape[2:6], 16)
    if len(escape) == 12:
        code = 0x10000 + (code - 0xD800) * 0x400 + int(escape[8:], 16) - 0xDC00
    return chr(0xFFFD if 0xD800 <= code <= 0xDFFF else code).encode()


class Reader:
    """A text and the place up to which it was read."""

    def __init__(self, text):
        self.text, self.at, self.depth = text, 0, 0

    def peek(self):
        """The next byte that isn't white space; none at the end."""
        self.at = SPACE.match(self.text, self.at).end()
        return self.text[self.at:self.at + 1]

    def expect(self, word):
        for byte in word:
            if self.text[self.at:self.at + 1] != bytes([byte]):
                raise NotJson(self.at)
            self.at += 1

    def parts(self, closing):
        """Stops before each item of the array, or member of the object, that begins here."""
        if self.depth == DEEPEST:
            raise NotJson(self.at)
        self.at, self.depth = self.at + 1, self.depth + 1
        more = self.peek() != closing
        while more:
            yield
            if more := self.peek() == b',':
                self.at += 1
        self.expect(closing)
        self.depth -= 1

    def members(self):
        """The keys of the object that begins here, each with its value to be read next."""
        for _ in self.parts(b'}'):
            if self.peek() != b'"':
                raise NotJson(self.at)
            key = self.string()
            self.peek()
            self.expect(b':')
            yield key

    def value(self):
        first = self.peek()
        if first == b'"':
            return self.string()
        if first == b'{':
            found = {}
            for key in self.members():
                found.setdefault(key, self.value())
            return found
        if first == b'[':
            return [self.value() for _ in self.parts(b']')]
        if first in WORDS:
            word, meant = WORDS[first]
            self.expect(word)
            return meant
        front = NUMBER_FRONT.match(self.text, self.at)
        self.at = front.end()
        if not NUMBER.fullmatch(front[0]):
            raise NotJson(self.at)
        return Number(front[0])

    def string(self):
        plain = PLAIN.match(self.text, self.at)
        if plain:
            self.at = plain.end()
            return plain[1]
        whole = CHARACTERS.match(self.text, self.at + 1)
        self.at = whole.end()
        if self.text[self.at:self.at + 1] != b'"':
            raise NotJson(CHARACTER_FRONT.match(self.text, self.at).end())
        self.at += 1
        return ESCAPE.sub(unescaped, whole[0])
