"""The tag table: which tags and values a profile can ask for, and their numbers (docs/FORMATS.md, "The tag table")."""
import re
from collections import Counter

from .refusals import Refusal

PARTS = {b'---context:way': 'way', b'---context:node': 'node'}
FIRST_TAGS = {'way': b'reversedirection', 'node': b'nodeaccessgranted'}
VERSIONS = [b'---lookupversion', b'---minorversion']
VERSION = re.compile(rb'[^:]*:[0-9]{1,9}')
TAG_AND_COUNT = re.compile(rb'([^;=|]+);[0-9]+')
MOST_TAGS, MOST_VALUES = 1024, 4096
UNLISTED, FIRST_VALUE = 1, 2


def read_table(text):
    """The table of a text, for each of its two parts the numbers of each tag's values; or the refusal of its first line at fault."""
    table, part, versions, counts = {}, None, [], Counter()
    for number, line in enumerate(text.split(b'\n'), 1):
        bare, is_good = line.rstrip(), line.decode('utf-8', 'ignore').encode() == line
        kind, colon, _ = bare.partition(b':')
        if kind in VERSIONS and colon:
            versions.append((kind, bool(table)))
            is_good = is_good and VERSION.fullmatch(bare)
        elif bare in PARTS:
            part = PARTS[bare]
            is_good = is_good and part not in table
            table.setdefault(part, {})
        elif bare and not line.startswith((b'#', b'---')):
            word, *spellings = bare.split()
            match = TAG_AND_COUNT.fullmatch(word)
            is_good = is_good and part and match and spellings
            if is_good:
                numbers = table[part].setdefault(match[1], {})
                counts[part, match[1]] += 1
                if len(table[part]) > MOST_TAGS or counts[part, match[1]] > MOST_VALUES:
                    raise Refusal(2, f'too many at line {number}')
                for spelling in spellings:
                    numbers.setdefault(spelling, UNLISTED + counts[part, match[1]])
        if not is_good:
            raise Refusal(2, f'lookup line {number}')
    # one line of each kind, before any part
    if sorted(versions) != [(kind, False) for kind in VERSIONS]:
        raise Refusal(2, 'lookup version')
    for part, first in FIRST_TAGS.items():
        if next(iter(table.get(part, ())), None) != first or next(iter(table[part][first])) != b'yes':
            raise Refusal(2, f'first tag of {part} part')
    return table


def numbers_of(tags, first, pairs):
    """The numbers that aren't 0 of a way's or node's tags, without that of the part's first tag, which isn't the map's to set."""
    return {name: tags[name].get(value, UNLISTED) for name, value in pairs.items() if name in tags and name != first}
