"""The road map of an Overpass text: nodes, ways, links and turn restrictions (docs/FORMATS.md, "The road map").

A link is a segment of a way in one direction; it names its way and the nodes that it leaves and reaches by their ids."""
import re
from collections import namedtuple

from . import json_text
from .geometry import Arrow, arrow
from .json_text import Number
from .numbers import coordinate
from .refusals import Refusal

MOST = 8_000_000
WHOLE = re.compile(rb'-?[0-9]{1,19}')
Link = namedtuple('Link', 'start end way segment back arrow')
Restriction = namedtuple('Restriction', 'is_only from_ways to_ways')


class Shape(Exception):
    """An element isn't of its form."""


def typed(value, kind):
    if not isinstance(value, kind):
        raise Shape
    return value


def whole(value):
    text = typed(value, Number).text
    if not WHOLE.fullmatch(text) or not -2**63 <= int(text) < 2**63:
        raise Shape
    return int(text)


def content_of(kind, value):
    """What an element has beside its id and tags."""
    if kind == 'node':
        return tuple(typed(value.get(name), Number).text for name in (b'lon', b'lat'))
    if kind == 'way':
        return [whole(it) for it in typed(value.get(b'nodes'), list)]
    return [(typed(it.get(b'type'), bytes), whole(it.get(b'ref')), typed(it.get(b'role'), bytes))
            for part in typed(value.get(b'members'), list) for it in [typed(part, dict)]]


class RoadMap:
    """Elements by kind and id, in the order of the text: content and tags; behind `finish` also links and restrictions."""

    def __init__(self):
        self.content = {'node': {}, 'way': {}, 'relation': {}}
        self.tags = {'node': {}, 'way': {}, 'relation': {}}
        self.counts = dict.fromkeys(('nodes', 'ways', 'segments', 'members'), 0)
        self.links, self.leaving, self.restrictions = [], {}, {}

    def take(self, value):
        """Takes in an element, or refuses its first fault; its form comes first."""
        kind = typed(typed(value, dict).get(b'type'), bytes).decode()
        if kind not in self.content:
            return
        number, tags = whole(value.get(b'id')), typed(value.get(b'tags', {}), dict)
        for text in tags.values():
            typed(text, bytes)
        content = content_of(kind, value)
        if kind == 'node':
            content = coordinate(content[0], 180_000_000), coordinate(content[1], 90_000_000)
            if None in content:
                raise Refusal(2, f'map: node {number} has a bad coordinate')
        if number not in self.content[kind]:
            self.count(kind, content)
        elif self.content[kind][number] != content:
            raise Refusal(2, f'map: {kind} {number} given twice')
        self.content[kind][number] = content
        self.tags[kind][number] = self.tags[kind].get(number) or tags

    def count(self, kind, content):
        """Counts a new element, or refuses one more than a map may have."""
        for what, more in {'node': [('nodes', 1)], 'way': [('ways', 1), ('segments', max(len(content) - 1, 0))],
                           'relation': [('members', len(content))]}[kind]:
            self.counts[what] += more
            if self.counts[what] > MOST:
                raise Refusal(2, f'map: too many {what}')

    def finish(self):
        """Makes links in the order of ways, then of segments, forward before backward, and takes in what relations say."""
        spots, ways = self.content['node'], self.content['way']
        for number, nodes in ways.items():
            for node in nodes:
                if node not in spots:
                    raise Refusal(2, f'map: way {number} lacks node {node}')
        for number, nodes in ways.items():
            for segment, (a, b) in enumerate(zip(nodes, nodes[1:])):
                there = arrow(spots[a], spots[b])
                if a != b and there:
                    back = Arrow(-there.east, -there.north, there.length)
                    self.links += Link(a, b, number, segment, False, there), Link(b, a, number, segment, True, back)
        for place, link in enumerate(self.links):
            self.leaving.setdefault(link.start, []).append(place)
        for number, members in self.content['relation'].items():
            tags = self.tags['relation'][number]
            if tags.get(b'type') == b'route' and b'route' in tags and b'network' in tags:
                for kind, way, _ in members:
                    if kind == b'way' and way in ways:
                        # behind the way's own tags, of which the first of a name counts
                        self.tags['way'][way].setdefault(b'route_%s_%s' % (tags[b'route'], tags[b'network']), b'yes')
            if tags.get(b'type') == b'restriction':
                self.add_restriction(tags, members)

    def add_restriction(self, tags, members):
        rule, excepted = tags.get(b'restriction', b''), tags.get(b'except', b'').split(b';')
        via = [member[:2] for member in members if member[2] == b'via']
        from_ways, to_ways = ({number for kind, number, role in members if (kind, role) == (b'way', wanted)
                               and number in self.content['way']} for wanted in (b'from', b'to'))
        is_rule = rule.startswith((b'no_', b'only_')) and b'bicycle' not in [it.strip(b' ') for it in excepted]
        if is_rule and from_ways and to_ways and len(via) == 1 and via[0][0] == b'node' and via[0][1] in self.content['node']:
            kept = Restriction(rule.startswith(b'only_'), from_ways, to_ways)
            self.restrictions.setdefault(via[0][1], []).append(kept)

    def forbids(self, first, second):
        """Whether a restriction forbids a link after another that arrives where it leaves."""
        return any(first.way in it.from_ways and (
            second.way not in it.to_ways if it.is_only else second.way in it.to_ways and first.way != second.way)
            for it in self.restrictions.get(first.end, ()))


def elements(text):
    """The items of the array that is the value of the first member `elements`, each once it is whole."""
    reader, found = json_text.Reader(text), None
    if reader.peek() != b'{':
        reader.value()
    else:
        for key in reader.members():
            if key == b'elements' and found is None:
                found = reader.peek() == b'['
                if found:
                    for _ in reader.parts(b']'):
                        yield reader.value()
                    continue
            reader.value()
    if reader.peek():
        raise json_text.NotJson(reader.at)
    if not found:
        raise Refusal(2, 'map: element 0 has the wrong shape')


def read_map(text):
    """The map of a text, or the refusal of its first fault."""
    road_map, place = RoadMap(), 0
    try:
        for place, value in enumerate(elements(text), 1):
            road_map.take(value)
    except Shape:
        raise Refusal(2, f'map: element {place} has the wrong shape') from None
    except json_text.NotJson as fault:
        raise Refusal(2, f'map: not JSON at byte {fault.args[0]}') from None
    road_map.finish()
    return road_map
