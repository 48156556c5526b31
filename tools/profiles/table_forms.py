"""Rewrites the published forms of a tag table into those that the program takes, and puts in what a profile looks at."""
import re

from profiles.convert import text_lines
from profiles.edits import Edit
from profiles.table import FIRST_TAGS, OPENERS, TAG_WORD, is_utf8
from profiles.words import BYTE_ORDER_MARK, kind_of, look_of, shown

VERSIONS = {b'---lookupversion:': b'10', b'---minorversion:': b'1'}
_TAG = re.compile(rb'([^;=|]+)(?:;.*)?', re.DOTALL)


class TableConversion:
    """A table as blocks of lines: what stands before the first part, and then each part with all its lines."""

    def __init__(self, text):
        self.edits = []
        self.blocks = {'head': []}
        self.current = 'head'
        self.versions = {}
        if text.startswith(BYTE_ORDER_MARK):
            self.tell(1, 'the byte order mark is left out')
        lines = text_lines(text).split(b'\n')
        for number, line in enumerate(lines[:-1] if lines[-1] == b'' else lines, 1):
            self.take(number, line)
        self.put_in_versions()
        self.put_in_first_tags()

    def tell(self, line, told):
        self.edits.append(Edit(line, told, False))

    def take(self, number, line):
        """Takes in a line, with what has to be changed in it."""
        if not is_utf8(line):
            line = line.decode('latin-1').encode()
            self.tell(number, 'written in UTF-8 instead of Latin-1')
        trimmed = line.strip()
        if line[:1].isspace() and trimmed.startswith((b'#', b'---')) and not TAG_WORD.fullmatch(trimmed.split()[0]):
            self.tell(number, f'{shown(trimmed)} is set to the front of its line')
            line = trimmed
        if trimmed.startswith(b'---context:'):
            self.open(number, trimmed)
        elif trimmed.startswith(tuple(VERSIONS)):
            self.take_version(number, trimmed)
        elif not trimmed or line.startswith((b'#', b'---')):
            self.blocks[self.current].append(line)
        elif self.current not in FIRST_TAGS:
            self.tell(number, f'{shown(trimmed)} stands in none of the two parts; left out')
            self.blocks[self.current].append(b'# ' + line)
        else:
            self.blocks[self.current].append(self.counted(number, line, trimmed.split()[0]))

    def open(self, number, line):
        """Opens a part; one that was opened before goes on where it was."""
        self.current = OPENERS.get(line, 'other')
        if self.current in FIRST_TAGS and self.current in self.blocks:
            self.tell(number, f'the lines behind {shown(line)} are set behind the first ones of this part')
        else:
            self.blocks.setdefault(self.current, []).append(line)

    def take_version(self, number, line):
        """A version line; the first of each kind counts, and stands before the parts."""
        kind = line[:line.index(b':') + 1]
        digits = re.sub(rb'[^0-9]', b'', line[len(kind):])[:9] or VERSIONS[kind]
        whole = kind + digits
        if kind in self.versions:
            self.tell(number, f'{shown(line)} stands twice; left out')
        else:
            self.versions[kind] = whole
            if whole != line:
                self.tell(number, f'{shown(line)} becomes {shown(whole)}')
            if not FIRST_TAGS.keys() & self.blocks.keys():
                self.blocks[self.current].append(whole)
            else:
                self.tell(number, f'{shown(whole)} is set before the first part')
                self.blocks['head'].insert(0, whole)

    def counted(self, number, line, word):
        """A line of a tag, with a count in digits behind the tag."""
        found = _TAG.fullmatch(word)
        if TAG_WORD.fullmatch(word) or not found:
            return line
        self.tell(number, f'{shown(word)} becomes {shown(found[1] + b";0")}')
        return line.replace(word, found[1] + b';0', 1)

    def put_in_versions(self):
        for kind, digits in reversed(VERSIONS.items()):
            if kind not in self.versions:
                self.blocks['head'].insert(0, kind + digits)
                self.tell(1, f'`{(kind + digits).decode()}` is put in')

    def put_in_first_tags(self):
        for part, first in FIRST_TAGS.items():
            block = self.blocks.setdefault(part, [b'---context:' + part.encode()])
            tags = [line.split() for line in block if line.strip() and not line.startswith((b'#', b'---'))]
            if not tags or tags[0][0].split(b';')[0] != first or tags[0][1:2] != [b'yes']:
                block.insert(1, first + b';0 yes')
                self.tell(0, f'`{first.decode()};0 yes` is put in behind `---context:{part}`')

    def put_in_looks(self, assignments, table, name):
        """Puts in each tag and value that a profile looks at, and that the table lacks."""
        added = set()
        for each in assignments:
            for token in each.leaves:
                if kind_of(token.text) == 'look' and each.section in FIRST_TAGS:
                    tag, values = look_of(token.text)
                    listed = table.spellings(each.section, tag)
                    lacking = [value for value in values if value != b'unknown' and value not in (listed or ())]
                    for value in lacking or ([b'yes'] if listed is None else []):
                        self.put_in(each.section, tag, value, name, added)

    def put_in(self, part, tag, value, name, added):
        """Puts in a value at the end of a part, once."""
        line = tag + b';0 ' + value
        if (part, line) in added or not TAG_WORD.fullmatch(line.split()[0]):
            return
        block = self.blocks[part]
        if part not in added:
            block += [b'', b'# what ' + name.encode() + b' looks at besides']
        block.append(line)
        added.update([part, (part, line)])
        self.tell(0, f'{shown(line)} is put in behind `---context:{part}`: the profile looks at it')

    def written(self):
        return b''.join(line + b'\n' for block in self.blocks.values() for line in block)
