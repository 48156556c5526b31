"""What a profile gives each link of a map (docs/FORMULAS.md, "The facts of a link")."""
from collections import namedtuple

from .numbers import MILLION, Fault
from .profile import values_of
from .refusals import Refusal
from .tags import FIRST_TAGS, FIRST_VALUE, numbers_of

CLOSED_COSTFACTOR, CLOSED_CHARGE = 10_000 * MILLION, 1_000_000 * MILLION
PRICES = {'way': (b'costfactor', b'turncost', b'initialcost', b'uphillcostfactor', b'downhillcostfactor'), 'node': (b'initialcost',)}
LinkFacts = namedtuple('LinkFacts', 'arrow rise costfactor turncost initialcost up_factor down_factor classifier charge')


def is_passable(facts):
    return facts.costfactor < CLOSED_COSTFACTOR and facts.charge < CLOSED_CHARGE


class Binder:
    """The sections of ways and nodes under a tag table and global values; each vector of tag numbers is evaluated once."""

    def __init__(self, sections, table, global_values):
        self.sections, self.table, self.global_values = sections, table, global_values
        self.known = {}

    def values(self, section, tags, is_first_set, who):
        """What a section comes to on tags, with its first tag set or not; or the refusal of what it is asked for."""
        set_numbers = numbers_of(self.table[section], FIRST_TAGS[section], tags)
        if is_first_set:
            set_numbers[FIRST_TAGS[section]] = FIRST_VALUE
        key = section, frozenset(set_numbers.items())
        try:
            if key not in self.known:
                self.known[key] = values_of(self.sections[section], self.global_values, self.table[section], set_numbers, {})
        except Fault as fault:
            raise Refusal(6, f'{who} {fault}') from None
        for name in PRICES[section]:
            if self.known[key].get(name, 0) < 0:
                raise Refusal(6, f'{who} {name.decode()} is negative')
        return self.known[key]


def bind(sections, table, global_values, road_map, tiles):
    """The facts of each link; or the refusal of the first way, forward before backward, or node by its id, plain before granted."""
    binder, ways, charges, found = Binder(sections, table, global_values), {}, {}, []
    for number, tags in road_map.tags['way'].items():
        for back, direction in (False, 'forward'), (True, 'backward'):
            ways[number, back] = binder.values('way', tags, back, f'way {number} {direction}')
    for number, tags in sorted(road_map.tags['node'].items()):
        if numbers_of(table['node'], FIRST_TAGS['node'], tags):
            for granted, entered in (False, 'plain'), (True, 'granted'):
                values = binder.values('node', tags, granted, f'node {number} {entered}')
                charges[number, granted] = values.get(b'initialcost', 0)
    heights = {number: tiles.height(spot) for number, spot in road_map.content['node'].items()}
    for link in road_map.links:
        low, high, values = heights[link.start], heights[link.end], ways[link.way, link.back]
        costfactor, turncost, initialcost, up_factor, down_factor = (values.get(name, 0) for name in PRICES['way'])
        charge = charges.get((link.end, values.get(b'nodeaccessgranted', 0) != 0), 0)
        rise = 0 if low is None or high is None else high - low
        found.append(LinkFacts(link.arrow, rise, costfactor, turncost, initialcost, up_factor or costfactor,
                               down_factor or costfactor, values.get(b'initialclassifier', 0) or costfactor, charge))
    return found
