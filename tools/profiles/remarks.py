"""What a profile has that makes a ride another one here than in BRouter, though the text is taken."""
from profiles.context import of_section
from profiles.words import kind_of, look_of, millionths

CLOSING = b'---context:way assign costfactor = if lesser costfactor 9999 then costfactor else 10000'
NAMES = {
    b'uphillmaxslope': 'steeper climbs cost no more here', b'uphillmaxslopecost': 'steeper climbs cost no more here',
    b'downhillmaxslope': 'steeper descents cost no more here', b'downhillmaxslopecost': 'steeper descents cost no more here',
    b'pass2coefficient': 'there the search may pass over the best ride; here it never does',
    b'waypointCatchingRange': 'here a waypoint is mapped within 250 metres'}
CLOSED = ('ways of a `costfactor` of 9999 and more are closed by a line at the end: BRouter rides on them, but maps no waypoint to '
          'them, and here both would be possible')
ESTIMATED = 'is never set on a map: the map reader makes no estimates, so the profile rides as where nothing is known'
PROPOSED = 'is set for cycle routes that are only proposed too'
SIGNS = ('turn restrictions don\'t count, as `considerTurnRestrictions` isn\'t assigned; in BRouter they count without it, but for '
         'those on foot: write `assign considerTurnRestrictions = true` into the global section')


def remark(edited, reader):
    """Tells what rides otherwise, and closes ways of costfactor 9999 by a line at the end."""
    remark_closed(edited, reader)
    for token in literals(reader, b'initialcost'):
        if millionths(token.text) >= 10**12:
            edited.tell(token.line, f'a way\'s `initialcost` of {token.shown} costs as much here; in BRouter it forbids the way', True)
    for start, told in ((b'estimated_', ESTIMATED), (b'route_', PROPOSED)):
        for tag, line in tags_of(reader, start).items():
            edited.tell(line, f'`{tag.decode("utf-8", "replace")}` {told}', True)
    for each in reader.assignments:
        if each.name.text in NAMES:
            edited.tell(each.name.line, f'{each.name.shown} has no effect: {NAMES[each.name.text]}', True)
    assigned = {each.name.text: each for each in of_section(reader.assignments, 'global')}
    if b'considerTurnRestrictions' not in assigned and not is_on_foot(reader, assigned.get(b'validForFoot')):
        edited.tell(0, SIGNS, True)


def is_on_foot(reader, assignment):
    """Whether a profile says that it is for those on foot."""
    return assignment is not None and reader.tokens[assignment.last.place].text not in (b'0', b'false')


def remark_closed(edited, reader):
    """Closes ways of a costfactor of 9999 and more, to which BRouter matches no waypoint."""
    found = [token for token in literals(reader, b'costfactor') if 9999 * 10**6 <= millionths(token.text) < 10**10]
    ways = [each for each in of_section(reader.assignments, 'way') if each.name.text == b'costfactor']
    if found and closing_words(reader, ways[-1]) != CLOSING.split()[1:]:
        edited.last_lines.append(CLOSING)
        edited.tell(found[0].line, CLOSED, True)


def closing_words(reader, assignment):
    """The words of an assignment."""
    return [token.text for token in reader.tokens[assignment.name.place - 1:assignment.last.place + 1]]


def literals(reader, name):
    """The literals that a value of ways may come from: those of its assignments, and of all names that these read."""
    found, names, seen = [], [name], set()
    while names:
        name = names.pop()
        if name in seen:
            continue
        seen.add(name)
        for each in reader.assignments:
            if each.name.text == name and (each.section == 'way' or (each.section == 'global' and len(seen) > 1)):
                tokens = reader.tokens[each.name.place + 1:each.last.place + 1]
                found += [token for token in tokens if kind_of(token.text) == 'number' and millionths(token.text) is not None]
                names += [token.text for token in each.leaves if kind_of(token.text) == 'name']
    return sorted(found)


def tags_of(reader, start):
    """The tags that begin so and are looked at, each with the first line of it."""
    looks = [token for each in reader.assignments for token in each.leaves if kind_of(token.text) == 'look']
    tags = {}
    for token in looks:
        if token.text.startswith(start):
            tags.setdefault(look_of(token.text)[0], token.line)
    return tags
