"""Reads a tag table, and goes on behind each line that isn't taken."""
import re
from typing import NamedTuple

from profiles.words import shown

MOST_TAGS = 1024
MOST_VALUES = 4096
FIRST_TAGS = {'way': b'reversedirection', 'node': b'nodeaccessgranted'}
OPENERS = {b'---context:way': 'way', b'---context:node': 'node'}
TAG_WORD = re.compile(rb'([^;=|]+);[0-9]+')
_VERSION = re.compile(rb'---(lookupversion|minorversion):(.*)', re.DOTALL)
_VERSION_NUMBER = re.compile(rb'[0-9]{1,9}')


class TableFault(NamedTuple):
    """A refusal of a table: the program's line of it, the line of the text or 0, and what to do."""
    refusal: str
    line: int
    advice: str


class Table:
    """The values of the tags of ways and of nodes, each with its spellings, and the faults of the text."""

    def __init__(self, text):
        self.parts = {'way': {}, 'node': {}}
        self.spelled = {'way': {}, 'node': {}}
        self.part = ''
        self.opened = set()
        self.versions = {b'lookupversion': 0, b'minorversion': 0}
        self.late = False
        self.faults = []
        for line, piece in enumerate(text.split(b'\n'), 1):
            self.take(line, piece)
        self.finish()

    def refuse(self, line, advice):
        self.faults.append(TableFault(f'lookup line {line}', line, advice))

    def take(self, line, text):
        """Takes in a line, whatever it is."""
        if not is_utf8(text):
            self.refuse(line, 'the line isn\'t UTF-8; write it anew in this encoding')
        text = text.rstrip()
        if text in OPENERS:
            self.open(line, OPENERS[text])
        elif _VERSION.fullmatch(text):
            self.take_version(line, *_VERSION.fullmatch(text).groups())
        elif text and not text.startswith((b'#', b'---')):
            self.take_value(line, text)

    def open(self, line, part):
        if part in self.opened:
            self.refuse(line, f'the part of {part}s was opened before; join its lines with that one')
        self.opened.add(part)
        self.part = part

    def take_version(self, line, kind, number):
        if not _VERSION_NUMBER.fullmatch(number):
            self.refuse(line, f'write 1 to 9 digits behind `---{kind.decode()}:`, and nothing else')
            return
        self.versions[kind] += 1
        self.late = self.late or bool(self.part)

    def take_value(self, line, text):
        """A line of a tag with the spellings of one more value."""
        word, *spellings = text.split()
        if not TAG_WORD.fullmatch(word):
            self.refuse(line, 'write the comment at the front of its line' if word.startswith(b'#') else
                        f'write {shown(word)} as a tag without `;`, `=` and `|`, a `;` and a count in digits, as in `highway;0`')
            if word.startswith(b'#'):
                return
        elif not self.part:
            self.refuse(line, f'{shown(word)} stands before `---context:way` and `---context:node`; write it behind one of them')
        elif not spellings:
            self.refuse(line, f'write a value behind {shown(word)}')
        if self.part and spellings:
            self.add(line, word.split(b';')[0], spellings)

    def add(self, line, tag, spellings):
        """Adds a value to a tag of the open part."""
        tags = self.parts[self.part]
        if tag not in tags and len(tags) == MOST_TAGS:
            self.faults.append(TableFault(f'too many at line {line}', line, f'a part has at most {MOST_TAGS:,} tags'))
        elif len(tags.setdefault(tag, [])) == MOST_VALUES:
            self.faults.append(TableFault(f'too many at line {line}', line, f'a tag has at most {MOST_VALUES:,} values'))
        else:
            tags[tag].append(spellings)
            self.spelled[self.part].setdefault(tag, set()).update(spellings)

    def finish(self):
        """The faults of the whole, behind those of lines."""
        if self.late or list(self.versions.values()) != [1, 1]:
            self.faults.append(TableFault('lookup version', 0, 'write `---lookupversion:` and `---minorversion:`, each with digits '
                                          'and each once, before the first part'))
        for part, first in FIRST_TAGS.items():
            tag, values = next(iter(self.parts[part].items()), (b'', []))
            if tag != first or values[0][0] != b'yes':
                self.faults.append(TableFault(f'first tag of {part} part', 0,
                                              f'write `{first.decode()};0 yes` as the first line behind `---context:{part}`'))

    def spellings(self, part, tag):
        """All spellings of the values of a tag; None where the part hasn't the tag."""
        return self.spelled[part].get(tag)


def is_utf8(text):
    try:
        text.decode('utf-8')
    except UnicodeDecodeError:
        return False
    return True
