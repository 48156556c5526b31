"""All that the program refuses in a profile and its tag table, with what to do, and which refusal it tells first."""
import os
import re
from typing import NamedTuple

from profiles.advice import Adviser
from profiles.context import context_faults, of_section
from profiles.syntax import Reader
from profiles.table import Table
from profiles.values import ride_faults

MOST_TABLE = 1_048_576
MOST_PROFILE = 262_144
_NAME = re.compile(r'(?!custom_)[A-Za-z0-9_-]{1,64}')


class Finding(NamedTuple):
    """A refusal as the program prints it, with the file, line and column (0 where it has none), the token and what to do."""
    refusal: str
    path: str
    line: int
    column: int
    shown: str
    advice: str

    @property
    def what(self):
        """The token and its refusal, and what to do."""
        told_why = f'{self.shown}: {self.refusal.rpartition(": ")[2]}' if self.shown else self.refusal
        return f'{told_why}: {self.advice}'

    def __str__(self):
        return (f'{self.path}:{self.line}:{self.column}: ' if self.line else f'{self.path}: ') + self.what


def is_profile_path(path):
    """Whether the program takes a path as that of a profile: its last part is the profile's name."""
    name = path.rpartition('/')[2]
    return _NAME.fullmatch(name[:-4] if name.endswith('.brf') else name) is not None


def findings(profile_path, profile, table_path, table, names_convert=True):
    """All refusals, in the order in which the program would come to them. Behind a file that is too long nothing is looked at."""
    found = []
    if not is_profile_path(profile_path):
        found.append(Finding('usage: word 2', profile_path, 0, 0, '', f'{os.path.basename(profile_path)} is no name of a profile: 1 to 64 '
                             'letters, digits, `_` and `-`, not beginning with `custom_`, with or without `.brf`'))
    if len(table) > MOST_TABLE:
        return found + [Finding('file too long', table_path, 0, 0, '', f'a tag table has at most {MOST_TABLE:,} bytes')]
    read = Table(table)
    found += [Finding(each.refusal, table_path, each.line, 1, '', each.advice) for each in in_order(read.faults)]
    if len(profile) > MOST_PROFILE:
        return found + [Finding('file too long', profile_path, 0, 0, '', f'a profile has at most {MOST_PROFILE:,} bytes')]
    return found + profile_findings(profile_path, profile, read, names_convert)


def in_order(faults):
    """The faults of a table's lines, then those of the whole."""
    return [each for each in faults if each.line] + [each for each in faults if not each.line]


def profile_findings(path, text, table, names_convert):
    """The refusals of a profile's text, then those of its names, tags and values."""
    reader = Reader(text)
    adviser = Adviser(reader.assignments, table, names_convert)
    found = []
    for fault in reader.faults + context_faults(reader.assignments, table):
        if fault.token is None:
            found.append(Finding(f'profile: {fault.kind}', path, 0, 0, '', adviser.advice(fault)))
        else:
            token = fault.token
            found.append(Finding(f'profile line {token.line}: {fault.kind}', path, token.line, token.column, token.shown,
                                 adviser.advice(fault)))
    return found


def ride_findings(path, text):
    """What every ride by a profile is refused for, by the values of its global section; nothing where that can't be read."""
    if len(text) > MOST_PROFILE:
        return []
    reader = Reader(text)
    of_global = context_faults(of_section(reader.assignments, 'global'), None)
    if reader.faults or any(fault.expected == 'global' for fault in of_global):
        return []
    return [Finding(refusal, path, name.line, name.column, '', advice) for refusal, name, advice in ride_faults(reader)]


def told(found):
    """The lines that tell these refusals as they stand in the files, and the first one that the program comes to."""
    files = list(dict.fromkeys(each.path for each in found))
    lines = [str(each) for each in sorted(found, key=lambda each: (files.index(each.path), each.line, each.column))]
    return lines + [f'first refusal: {found[0].refusal}' if found else 'the program takes it']
