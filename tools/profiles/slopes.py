"""Elevation names that the section of ways assigns: put into the global section, where no tag decides about them."""
from profiles.context import ELEVATION_NAMES, WAY_EFFECTS, of_section
from profiles.words import is_name, kind_of

MOST_HELPERS = 100
BY_TAGS = 'a tag decides about this, and it counts for all ways alike; give one value for all ways, as in `{0}=60`'
LATER = 'the global section goes on behind this; put all of it before the section of ways'
READ = 'this is read before it is assigned, or between two assignments; give it another name there'


class Slopes:
    """The assignments of ways and of the global section by their names as they are written, and which were put there."""

    def __init__(self, conversion):
        self.edited = conversion.edited
        self.ways = self.by_name(of_section(conversion.reader.assignments, 'way'))
        self.of_global = self.by_name(of_section(conversion.reader.assignments, 'global'))
        self.last_global = max((each[-1].name.place for each in self.of_global.values()), default=-1)
        self.first_read = {}
        for each in of_section(conversion.reader.assignments, 'way'):
            for token in each.leaves:
                self.first_read.setdefault(token.text, each.name.place)
        self.moved = set()

    def by_name(self, assignments):
        found = {}
        for each in assignments:
            found.setdefault(self.edited.spelled(each.name), []).append(each)
        return found

    def chain_of(self, assignment):
        """What an assignment needs to stand in the global section, itself last; nothing where a tag decides, or where that is much."""
        chain, wanted = {}, [assignment]
        while wanted and len(chain) < MOST_HELPERS:
            each = wanted.pop()
            if each.name.place in chain or each.name.place in self.moved:
                continue
            chain[each.name.place] = each
            for token in each.leaves:
                name = self.edited.spelled(token)
                if kind_of(name) == 'number':
                    continue
                sources = self.ways.get(name, [])
                if not is_name(name) or not (self.is_helper(sources, each) if sources else name in self.of_global):
                    return []
                wanted += sources
        return [] if wanted else [chain[place] for place in sorted(chain)]

    def is_helper(self, sources, reader):
        """Whether one plain variable of ways, assigned once and before its reader, can be a global one."""
        name = sources[0].name
        spelled = self.edited.spelled(name)
        return len(sources) == 1 and name.place < reader.name.place and spelled not in self.of_global and spelled not in WAY_EFFECTS

    def reason_against(self, assignment, chain):
        """Why an assignment can't go to the global section; nothing where it can."""
        name = assignment.name
        if not chain:
            return BY_TAGS.format(name.text.decode())
        if self.last_global > chain[0].name.place:
            return LATER
        first = self.first_read.get(name.text)
        if first is not None and (len(self.ways[name.text]) > 1 or (name.text in self.of_global and first <= name.place)):
            return READ
        return ''

    def give_value(self, assignment, value):
        """Puts a value in the place of an assignment's expression, where it has one."""
        tokens = self.edited.tokens[assignment.name.place + 1:assignment.last.place + 1]
        expression = tokens[1:] if tokens and tokens[0].text == b'=' else tokens
        if not expression:
            return
        self.edited.replace(expression[0], value)
        for token in expression[1:]:
            self.edited.replace(token, b'')
        self.edited.tell(assignment.name.line, f'{assignment.name.shown} gets the value `{value.decode()}`, on all ways', True)

    def move(self, assignment):
        """Opens the global section around an assignment."""
        self.moved.add(assignment.name.place)
        self.edited.wrap(self.edited.tokens[assignment.name.place - 1], assignment.last, b'---context:global', b'---context:way')
        self.edited.tell(assignment.name.line, f'{assignment.name.shown} is assigned in the global section')


def move_elevation_names(conversion):
    """Moves each assignment of an elevation name, with what it reads, or gives it the author's value."""
    slopes = Slopes(conversion)
    for assignment in of_section(conversion.reader.assignments, 'way'):
        name = assignment.name.text
        if name not in ELEVATION_NAMES:
            continue
        value = conversion.values.get(name)
        chain = [assignment] if value is not None else slopes.chain_of(assignment)
        reason = slopes.reason_against(assignment, chain)
        if reason:
            conversion.cannot(assignment.name, reason)
            continue
        if value is not None:
            slopes.give_value(assignment, value)
        for each in chain:
            slopes.move(each)
