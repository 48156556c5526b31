"""The rows on tag tables and profiles of the repository's tables of cases, whose answers were worked out by hand."""
import os
import re

from tests.program import TOP

ESCAPED = {b's': b' ', b'n': b'\n', b'r': b'\r', b't': b'\t', b'e': b'', b'\\': b'\\'}
_ROW = re.compile(rb'(table|profile|check) (.*) => (accepted|lookup .*|too many .*|first tag .*|profile.*)')


def plain(text):
    """A text without its escapes."""
    return re.sub(rb'\\(?:x([0-9A-Fa-f]{2})|(.))', lambda found: bytes.fromhex(found[1].decode()) if found[1] else ESCAPED[found[2]], text)


def grown(line):
    """What a line adds to a text of the table; None where it is no such line."""
    if line.startswith(b'|'):
        return plain(line[1:]) + b'\n'
    if line.startswith(b'+'):
        return plain(line[1:])
    if line.startswith(b'*'):
        count, _, rest = line[1:].partition(b' ')
        return b''.join(plain(rest).replace(b'%', b'%d' % number) for number in range(int(count)))
    return None


def rows():
    """Each row: the call, its texts, and the answer. Rows with overrides and with texts from elsewhere are left out."""
    with open(os.path.join(TOP, 'crates', 'route_serve', 'data', 'lookups.dat'), 'rb') as file:
        texts = {b'LOOK': file.read()}
    with open(os.path.join(TOP, 'crates', 'cases', 'stdin'), 'rb') as file:
        lines = file.read().split(b'\n')
    name = b''
    for line in lines:
        if line.startswith(b'text '):
            name = line[5:]
            texts[name] = b''
        elif name and grown(line) is not None:
            texts[name] += grown(line)
        elif _ROW.fullmatch(line):
            call, words, answer = _ROW.fullmatch(line).groups()
            words = words.split(b' ')
            if len(words) == (2 if call == b'check' else 1) and all(word[1:] in texts for word in words if word.startswith(b'@')):
                yield call.decode(), [texts[word[1:]] if word.startswith(b'@') else plain(word) for word in words], answer.decode()
