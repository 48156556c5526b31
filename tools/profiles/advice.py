"""What to do about each thing that the program refuses in a profile: a sentence for the author."""
import difflib

from profiles.context import unlisted
from profiles.numbers import literal_of
from profiles.words import BYTE_ORDER_MARK, OPERANDS, kind_of, look_of, shown

WANTED = {'close': 'a `)`', 'then': '`then`', 'else': '`else`', 'name': 'the name of a variable',
          'expression': 'a number, a name, a look or an operator',
          'section': '`---context:global`, `---context:way` or `---context:node`'}

MOST_SUGGESTIONS = 100
MOST_WORDS = 2000


class Adviser:
    """Knows a profile's assignments and its table, and says what to do about its faults. Where `convert` does it, it names it."""

    def __init__(self, assignments, table, names_convert=True):
        self.table = table
        self.assigned = {}
        for each in assignments:
            self.assigned.setdefault(each.section, {}).setdefault(each.name.text, each.name.line)
        self.names = {name for names in self.assigned.values() for name in names}
        self.suggestions = 0
        self.hint = '; `convert` does so' if names_convert else ''
        self.partly = '; `convert` does so where it can' if names_convert else ''

    def advice(self, fault):
        """A sentence on a fault."""
        by_kind = {'end': self.on_end, 'deep': self.on_deep, 'section': self.on_section, 'bracket': self.on_bracket,
                   'number': self.on_number, 'token': self.on_token, 'wrong section': self.on_wrong_section, 'unknown name': self.on_name,
                   'unknown tag': self.on_tag, 'unknown value': self.on_value, 'no costfactor': self.on_costfactor}
        return by_kind[fault.kind](fault)

    def on_end(self, fault):
        return f'the text ends inside an assignment; write {WANTED[fault.expected]} behind this'

    def on_deep(self, _):
        return 'this is deeper than 1,000 operators and brackets; put a part of it into a variable of its own'

    def on_section(self, fault):
        if fault.expected == 'section':
            return f'no section is open; write {WANTED["section"]} before it'
        if fault.token.text.startswith(b'---model:'):
            return 'there is one model alone; take this out' + self.hint
        return f'the sections are {WANTED["section"]}; take this out, or write one of these'

    def on_bracket(self, fault):
        if fault.expected == 'close':
            return 'the bracket before it isn\'t closed; write `)` before this'
        if fault.expected == 'front':
            return 'no bracket is open; take this out'
        return f'an operand is missing; write {WANTED["expression"]} before this'

    def on_number(self, fault):
        if fault.expected == 'name':
            return 'a name begins with a letter or `_`; write it so wherever it stands' + self.hint
        if fault.token.text in self.names:
            return 'a name begins with a letter or `_`; write it so wherever it stands' + self.hint
        return 'write a number as digits with at most one point between them, from -1000000000 to 1000000000' + self.partly

    def on_token(self, fault):
        if fault.expected == 'front':
            return self.on_front(fault)
        if fault.expected in ('then', 'else'):
            return f'write {WANTED[fault.expected]} before this: a choice is `if A then B else C` or `switch A B C`'
        kind = kind_of(fault.token.text)
        if fault.expected == 'name':
            return self.on_assigned(fault, kind)
        if kind == 'other':
            return self.on_spelling(fault.token.text)
        return f'an operand is missing; write {WANTED["expression"]} before this'

    def on_spelling(self, text):
        """An operand that isn't spelled as the language has it."""
        if text.startswith(b'---model:'):
            return 'there is one model alone; take this out' + self.hint
        if text.startswith(b'v:'):
            return f'a tag has no number here; choose by its values, as in `switch {shown(text[2:])[1:-1]}=2 2 ..`' + self.hint
        if b'=' in text:
            return 'write a look as `tag=`, `tag=value` or `tag=value|value`, without an empty piece' + self.partly
        if b':' in text:
            return 'write the name without what stands before the `:`' + self.partly
        if literal_of(text):
            return 'write a number as digits with at most one point between them' + self.hint
        if text in self.names:
            return 'a name is a letter or `_` with letters, digits and `_` behind it; write it so wherever it stands' + self.hint
        return 'this is neither a number, a name, a look nor an operator' + self.nearest(text, self.names, 'names')

    def on_front(self, fault):
        """A token where an assignment or a section may stand."""
        if fault.token.text.startswith(BYTE_ORDER_MARK):
            return 'a byte order mark stands before this; take it out' + self.hint
        words = difflib.get_close_matches(fault.token.text.decode('latin-1'), ['assign'], 1, 0.7)
        if words:
            return 'did you mean `assign`?'
        if not self.assigned:
            return 'an assignment begins with `assign`, a section with `---context:`; take this out'
        return 'the assignment before it is whole; take this out, or look which operator is missing there'

    def on_assigned(self, fault, kind):
        """A token where the name of an assignment has to stand."""
        text = fault.token.text
        if kind == 'look':
            return f'write the name, a space and the value apart, as in `assign {text.split(b"=")[0].decode("utf-8", "replace")} = ..`'
        if kind == 'other':
            return 'a name is a letter or `_` with letters, digits and `_` behind it; write it so wherever it stands' + self.hint
        return f'this is a word of the language; write {WANTED["name"]} before it'

    def on_wrong_section(self, fault):
        if fault.expected == 'global':
            return 'the global section has no tags; look at them in the section of ways or nodes'
        return 'this counts for all ways alike; assign it in the global section' + self.partly

    def on_name(self, fault):
        """A name that isn't assigned where it is read."""
        name, section = fault.token.text, fault.expected
        own = self.assigned.get(section, {})
        if name in own:
            return f'this is assigned at line {own[name]} alone; assign it before it is read'
        for other, names in self.assigned.items():
            if name in names:
                return (f'this is assigned in the section `{other}` alone, at line {names[name]}; assign it in `{section}` or `global`, '
                        'before it is read')
        words = [*OPERANDS, b'if', b'true', b'false', *own, *self.assigned.get('global', {})]
        return 'no section assigns this' + self.nearest(name, words, 'names') + '; assign it before it is read'

    def on_tag(self, fault):
        """A tag that the section's part of the table lacks."""
        tag, section = look_of(fault.token.text)[0], fault.expected
        other = 'node' if section == 'way' else 'way'
        if tag in self.table.parts[other]:
            told = f'the table has `{shown(tag)[1:-1]}` among the tags of {other}s alone'
        else:
            told = f'the table has no tag {shown(tag)} of {section}s' + self.nearest(tag, self.table.parts[section], 'tags')
        return f'{told}; look at another tag, or add a line for it to the table behind `---context:{section}`'

    def on_value(self, fault):
        """A value that isn't listed for its tag."""
        tag, values = look_of(fault.token.text)
        listed = self.table.spellings(fault.expected, tag)
        missing = unlisted(values, listed)
        told = ' and '.join(f'no value {shown(value)}' + self.nearest(value, listed, 'values') for value in missing)
        return f'the table has {told} of {shown(tag)}; add a line for it to the table, or take it out of the look'

    def on_costfactor(self, _):
        return 'the section of ways has to assign `costfactor`: what a metre costs'

    def nearest(self, word, words, what):
        """The nearest of some words, as a piece of a sentence; nothing where that would take long."""
        self.suggestions += 1
        if self.suggestions > MOST_SUGGESTIONS or len(words) > MOST_WORDS:
            return ''
        spelled = {each.decode('utf-8', 'replace') for each in words if len(each) <= 80}
        near = difflib.get_close_matches(word.decode('utf-8', 'replace')[:80], sorted(spelled), 3, 0.6)
        return f' (nearest {what}: {", ".join(f"`{each}`" for each in near)})' if near else ''
