"""The tokens of a profile's text, the kind of each, and the numbers that literals spell."""
import re
from typing import NamedTuple

SPACE = b'\t\n\x0b\x0c\r '
BYTE_ORDER_MARK = b'\xef\xbb\xbf'
SECTIONS = {b'---context:global': 'global', b'---context:way': 'way', b'---context:node': 'node'}
OPERATORS = (b'or', b'and', b'xor', b'multiply', b'divide', b'add', b'sub', b'max', b'min', b'equal', b'greater', b'lesser')
OPERANDS = {b'not': 1, b'switch': 3, **{operator: 2 for operator in OPERATORS}}
WORDS = {b'(': 'open', b')': 'close', b'assign': 'assign', b'=': 'equals', b'then': 'then', b'else': 'else', b'true': 'number',
         b'false': 'number', b'if': 'if', **{word: 'operator' for word in OPERANDS}, **{word: 'section' for word in SECTIONS}}

_GAP_OR_TOKEN = re.compile(rb'[ \t\n\x0b\x0c\r]+|#[^\n]*|[()]|[^ \t\n\x0b\x0c\r()#]+')
_LITERAL = re.compile(rb'(-?)([0-9]+)(?:\.([0-9]+))?')
_NAME = re.compile(rb'[A-Za-z_][A-Za-z0-9_]*')
_LOOK = re.compile(rb'([^=]+)=([^|]+(?:\|[^|]+)*)?', re.DOTALL)
MOST = 10**15


class Token(NamedTuple):
    """A token: its place among the tokens, where it begins and ends in the text, and its line and column from 1, in characters."""
    place: int
    start: int
    end: int
    line: int
    column: int
    text: bytes

    @property
    def shown(self):
        return shown(self.text)


def shown(text):
    """Bytes of a text as they are printed: whole where they are short."""
    spelled = ''.join(each if each.isprintable() else '?' for each in text.decode('utf-8', 'replace'))
    return f'`{spelled}`' if len(spelled) <= 60 else f'`{spelled[:57]}...`'


def tokens_of(text):
    """The tokens of a text, without white space and comments."""
    tokens, line, column = [], 1, 1
    for found in _GAP_OR_TOKEN.finditer(text):
        piece = found.group()
        breaks = piece.count(b'\n')
        if piece[0] not in SPACE and not piece.startswith(b'#'):
            tokens.append(Token(len(tokens), found.start(), found.end(), line, column, piece))
        line += breaks
        column = len(piece.rpartition(b'\n')[2].decode('utf-8', 'replace')) + (1 if breaks else column)
    return tokens


def millionths(text):
    """The number that a literal spells in millionths, cut after the sixth decimal; None where it is no literal or too large."""
    found = _LITERAL.fullmatch(text)
    whole = found[2].lstrip(b'0') if found else b''
    if not found or len(whole) > 10:
        return None
    count = int(whole or b'0') * 10**6 + int((found[3] or b'')[:6].ljust(6, b'0'))
    if count > MOST:
        return None
    return -count if found[1] else count


def must_be_literal(text):
    return text[:1].isdigit() or (text.startswith(b'-') and not text.startswith(b'---'))


def is_name(text):
    """Whether a text is a name of the profile language."""
    return text not in WORDS and _NAME.fullmatch(text) is not None


def look_of(text):
    """The tag of a look and its values, none for `not set`; None where the text is no look."""
    found = _LOOK.fullmatch(text)
    if not found:
        return None
    return found[1], found[2].split(b'|') if found[2] else []


def kind_of(text):
    """What a token is: a word of `WORDS`, `number`, `bad number`, `name`, `look` or `other`."""
    if text in WORDS:
        return WORDS[text]
    if must_be_literal(text):
        return 'bad number' if millionths(text) is None else 'number'
    if is_name(text):
        return 'name'
    return 'look' if look_of(text) else 'other'
