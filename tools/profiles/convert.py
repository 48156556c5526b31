"""Rewrites the published forms of a profile into those that the program takes; layout and comments stay."""
import re

from profiles.check import MOST_PROFILE
from profiles.context import ELEVATION_NAMES, SECTIONS, WAY_EFFECTS, context_faults
from profiles.edits import EditedText
from profiles.numbers import literal_of
from profiles.remarks import remark
from profiles.slopes import move_elevation_names
from profiles.syntax import Reader
from profiles.words import BYTE_ORDER_MARK, is_name, kind_of, look_of, millionths, shown

BESIDES = (b'trafficsourcedensity', b'istrafficbackbone', b'priorityclassifier', b'classifiermask', b'maxspeed')
WAY_NAMES = {name: '0' for name in (*WAY_EFFECTS, *BESIDES)}
DEFAULTS = {'global': {**ELEVATION_NAMES, b'considerTurnRestrictions': '0'}, 'way': {**ELEVATION_NAMES, **WAY_NAMES},
            'node': {b'initialcost': '0'}}


class Conversion:
    """A profile's text with its edits, and why what is left can't be rewritten: a reason for a line and a token."""

    def __init__(self, text, table, values):
        self.table = table
        self.values = values
        self.reasons = {}
        before = EditedText(text_lines(text))
        if text.startswith(BYTE_ORDER_MARK):
            before.tell(1, 'the byte order mark is left out')
        if b'\r' in text and b'\n' not in text:
            before.tell(0, 'its lines end with line feeds instead of carriage returns')
        leave_out(before)
        self.edited = EditedText(before.written())
        self.edited.edits = before.edits
        self.reader = Reader(self.edited.text)
        self.names = self.odd_names()
        self.first = {section: {} for section in ('', *SECTIONS)}
        for each in self.reader.assignments:
            self.first[each.section].setdefault(self.names.get(each.name.text, each.name.text), each.name.place)
        self.rewrite_names()
        for assignment in self.reader.assignments:
            for token in assignment.leaves:
                self.rewrite_leaf(assignment, token)
        self.give_defaults()
        move_elevation_names(self)
        written = self.edited.written()
        if len(written) <= MOST_PROFILE:
            remark(self.edited, Reader(written))

    def replace(self, token, text, told, rides=False):
        self.edited.replace(token, text)
        self.edited.tell(token.line, told, rides)

    def cannot(self, token, reason):
        self.reasons[token.line, token.shown] = reason

    def odd_names(self):
        """A name of the language for each other one that is assigned."""
        taken = {each.name.text for each in self.reader.assignments}
        names, counts = {}, {}
        for name in [each.name.text for each in self.reader.assignments]:
            if kind_of(name) in ('other', 'bad number') and name not in names and not re.search(rb'[:=]', name):
                names[name] = spelled = as_name(name)
                while names[name] in taken:
                    counts[spelled] = counts.get(spelled, 1) + 1
                    names[name] = spelled + b'_%d' % counts[spelled]
                taken.add(names[name])
        return names

    def rewrite_names(self):
        for assignment in self.reader.assignments:
            if assignment.name.text in self.names:
                self.rename(assignment.name)

    def rename(self, token):
        name = self.names[token.text]
        self.replace(token, name, f'{token.shown} becomes `{name.decode()}`, as a name has letters, digits and `_` alone')

    def rewrite_leaf(self, assignment, token):
        """An operand that isn't spelled as the language has it."""
        kind, number = kind_of(token.text), literal_of(token.text)
        if token.text in self.names:
            self.rename(token)
        elif kind in ('other', 'bad number') and number:
            cut = ': the language has no such number, this is the nearest that is cut from it' if number[1] else ''
            self.replace(token, number[0], f'{token.shown} becomes `{number[0].decode()}`{cut}', number[1])
        elif kind == 'other' and token.text.startswith(b'v:'):
            self.rewrite_number_of_tag(assignment.section, token)
        elif kind == 'other' and b'=' in token.text:
            self.rewrite_list(token)
        elif kind == 'other' and b':' in token.text:
            self.rewrite_prefixed(assignment, token)

    def rewrite_list(self, token):
        """A look with empty pieces in its list of values."""
        tag, _, values = token.text.partition(b'=')
        look = tag + b'=' + b'|'.join(piece for piece in values.split(b'|') if piece)
        if look_of(look):
            self.replace(token, look, f'{token.shown} becomes {shown(look)}: BRouter passes over an empty piece; where it should mean that '
                         f'the tag isn\'t set, write `or` and {shown(tag + b"=")} before it', True)

    def rewrite_number_of_tag(self, section, token):
        """The number of a tag's value: a choice over the numbers that the table lists."""
        tag = token.text[2:]
        values = self.table.parts.get(section, {}).get(tag, [])
        numbers = [next((each for each in value if millionths(each) is not None), None) for value in values]
        numbers = [number for number in numbers if number]
        if section == 'global':
            self.cannot(token, 'the global section has no tags')
        elif not numbers:
            self.cannot(token, f'the table lists no numbers of {shown(tag)} behind `---context:{section}`; add lines as '
                        f'`{shown(tag)[1:-1]};0 2.5`')
        else:
            choice = b''.join(b'switch %s=%s %s ' % (tag, number, number) for number in numbers)
            self.replace(token, choice + b'0', f'{token.shown} becomes a choice over the {len(numbers)} numbers of the table; it is 0 '
                         'where the tag isn\'t set or has another value', True)

    def rewrite_prefixed(self, assignment, token):
        """A name with a section before it."""
        prefix, _, name = token.text.partition(b':')
        section, name = assignment.section, self.names.get(name, name)
        if prefix == b'way' and section == 'node' and name == b'nodeaccessgranted':
            self.replace(token, b'nodeaccessgranted=yes', f'{token.shown} becomes `nodeaccessgranted=yes`')
            return
        is_global, is_own = name in self.first['global'], self.first[section].get(name, assignment.name.place) < assignment.name.place
        if prefix == b'global':
            same = is_global and (section == 'global' or not is_own)
        elif prefix == b'way' and section == 'node':
            same = is_global and name not in self.first['way'] and not is_own
        else:
            same = prefix.decode('latin-1') == section and (is_own or is_global)
        if same:
            self.replace(token, name, f'{token.shown} becomes {shown(name)}')
        elif prefix.decode('latin-1') in SECTIONS:
            self.cannot(token, f'in the section `{section}` no name stands for this: a section sees what it assigned before, and what the '
                        'global one assigns')

    def give_defaults(self):
        """A name with an effect that is read before it is assigned."""
        for fault in context_faults(self.reader.assignments, self.table):
            if fault.kind == 'unknown name' and fault.token.text in DEFAULTS.get(fault.expected, {}):
                value = DEFAULTS[fault.expected][fault.token.text]
                self.replace(fault.token, value.encode(),
                             f'{fault.token.shown} becomes `{value}`, its value where nothing was assigned before')


def as_name(text):
    """A text with `_` for each character that no name has."""
    name = re.sub('[^A-Za-z0-9_]', '_', text.decode('utf-8', 'replace')).encode()
    return name if is_name(name) else b'_' + name


def text_lines(text):
    """A text without byte order mark, and with line feeds where its lines end with carriage returns alone."""
    text = text.removeprefix(BYTE_ORDER_MARK)
    return text if b'\n' in text else text.replace(b'\r', b'\n')


def leave_out(edited):
    """Leaves out models, and all that stands outside the three sections."""
    openers = {token.line for token in edited.tokens if kind_of(token.text) == 'section'}
    is_open, left = False, set()
    for token in edited.tokens:
        if token.text.startswith(b'---model:'):
            edited.replace(token, b'')
            rides = not token.text.endswith(b'StdModel')
            why = ': there is one model alone, in which speed has no say' if rides else ''
            edited.tell(token.line, f'{token.shown} is left out{why}', rides)
            continue
        if token.text.startswith(b'---context:'):
            is_open = kind_of(token.text) == 'section'
        if not is_open:
            leave_out_token(edited, token, token.line in left, token.line in openers)
            left.add(token.line)


def leave_out_token(edited, token, is_told, has_opener):
    """Makes a comment of a token and of what stands behind it on its line; a blank where a section is opened on that line."""
    if not is_told:
        edited.tell(token.line, f'{token.shown} stands where no section of the three is open; left out')
    if has_opener:
        edited.replace(token, b'')
    elif not is_told:
        edited.before[token.place] = b'# '
