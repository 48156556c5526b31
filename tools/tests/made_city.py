"""Makes a city to try tools on: streets of several blocks with bends, one-ways, gates, cycle routes, turn restrictions, a ferry, a straight
road of more than a kilometre, and what is no road. The same side makes the same city."""
import json
import random
from xml.sax.saxutils import quoteattr

DATE = '2026-01-01T00:00:00Z'
CORNER = (8_400_000, 49_000_000)          # microdegrees
STEP = (1_500, 1_000)
CLASSES = ('primary', 'secondary', 'residential', 'residential', 'cycleway', 'track', 'footway', 'service')
NAMES = ('Haupt', 'Mühl', 'Wald', 'Kirch', 'Rosen', 'Berg', 'Straße & "Platz"')


class City:
    """Elements as Overpass prints them, with ids whose order isn't that of places."""

    def __init__(self, side):
        self.side, self.random = side, random.Random(side)
        self.nodes, self.ways, self.relations = [], [], []
        self.free = list(range(1_000, 1_000 + 12 * side * side))
        self.random.shuffle(self.free)
        self.crossings = [[self.node(x + self.some(0.2), y + self.some(0.2)) for x in range(side)] for y in range(side)]
        for line in range(side):
            self.street(line, [row[line] for row in self.crossings])
            self.street(line + 3, self.crossings[line])
        self.surroundings()
        self.routes()
        self.restrictions()

    def some(self, width):
        return (self.random.random() - 0.5) * width

    def node(self, x, y, **tags):
        spot = [(CORNER[0] + x * STEP[0]) / 1e6, (CORNER[1] + y * STEP[1]) / 1e6]
        self.nodes.append({'type': 'node', 'id': self.free.pop(), 'lat': round(spot[1], 7), 'lon': round(spot[0], 7),
                           **({'tags': tags} if tags else {})})
        return self.nodes[-1]

    def way(self, nodes, **tags):
        self.ways.append({'type': 'way', 'id': 50_000 + len(self.ways), 'nodes': [node['id'] for node in nodes], 'tags': tags})
        return self.ways[-1]

    def relation(self, members, **tags):
        listed = [{'type': kind, 'ref': number, 'role': role} for kind, number, role in members]
        self.relations.append({'type': 'relation', 'id': 900 + len(self.relations), 'members': listed, 'tags': tags})

    def street(self, line, crossings):
        """Ways of one to five blocks along a line of crossings, of which some blocks are missing."""
        place = 0
        while place < self.side - 1:
            blocks = crossings[place:place + self.random.randint(2, 6)]
            place += len(blocks) - 1
            if self.random.random() < 0.1:
                continue
            along = [blocks[0]]
            for crossing in blocks[1:]:
                along += self.bends(along[-1], crossing)
            tags = {'highway': CLASSES[line % len(CLASSES)], 'name': f'{self.random.choice(NAMES)} {line}', 'surface': 'asphalt'}
            if self.random.random() < 0.1:
                tags['oneway'] = 'yes'
            self.way(along, **tags)

    def bends(self, start, end):
        """Up to three nodes on the way to a crossing, now and then a gate, and the crossing."""
        count, found = self.random.randint(0, 3), []
        for part in range(1, count + 1):
            spot = [start[name] + (end[name] - start[name]) * part / (count + 1) + self.some(0.0002) for name in ('lon', 'lat')]
            gate = {'barrier': 'gate'} if self.random.random() < 0.02 else {}
            found.append(self.node((spot[0] * 1e6 - CORNER[0]) / STEP[0], (spot[1] * 1e6 - CORNER[1]) / STEP[1], **gate))
        return [*found, end]

    def surroundings(self):
        """A straight road out of the city, which two ways share at its end, a ferry, and what is no road."""
        last, far = self.crossings[-1][-1], self.node(self.side - 1, self.side + 12)
        farther = self.node(self.side - 1, self.side + 30)
        self.straight = self.way([last, far, farther], highway='tertiary', name='Landstraße')
        self.way([farther, far], highway='cycleway')
        self.ferry = self.way([self.crossings[0][0], self.node(-20, -10), self.crossings[0][-1]], route='ferry', name='Fähre')
        corners = [self.node(1.3, 1.3), self.node(1.6, 1.3), self.node(1.6, 1.6)]
        self.way([*corners, corners[0]], building='yes')
        self.node(2.5, 2.5, shop='bicycle', name='Rad & Tat')

    def routes(self):
        ways = [way['id'] for way in self.ways]
        for number, network in enumerate(('rcn', 'lcn', 'ncn')):
            members = [('way', way, '') for way in ways[number::7]]
            self.relation([*members, ('node', self.nodes[0]['id'], 'guidepost')], type='route', route='bicycle', network=network)
        self.relation([('way', ways[0], '')], type='route', route='bicycle', network='icn', state='proposed')
        self.relation([('way', ways[0], '')], type='route', route='bus', network='rcn')
        self.relation([('way', 4_000_000, '')], type='route', route='bicycle', network='rcn')

    def restrictions(self):
        """A turn restriction where a way ends at a crossing from which another one begins, for some of these."""
        begins = {}
        for way in self.ways:
            begins.setdefault(way['nodes'][0], []).append(way['id'])
        for way in self.ways[::3]:
            for other in begins.get(way['nodes'][-1], ())[:1]:
                if other != way['id']:
                    kind = self.random.choice(('no_left_turn', 'no_right_turn', 'no_straight_on', 'only_straight_on'))
                    members = [('way', way['id'], 'from'), ('node', way['nodes'][-1], 'via'), ('way', other, 'to')]
                    self.relation(members, type='restriction', restriction=kind)

    def elements(self):
        return sorted(self.nodes, key=lambda node: node['id']) + self.ways + self.relations

    def overpass(self, **more):
        """An answer of Overpass to [out:json] with `out body`."""
        return json.dumps({'version': 0.6, 'generator': 'made', 'osm3s': {'timestamp_osm_base': DATE}, 'elements': self.elements(), **more})

    def xml(self, head='', foot=''):
        """The same as OSM XML."""
        lines = ['<?xml version="1.0" encoding="UTF-8"?>', '<osm version="0.6" generator="made">', head]
        for element in self.elements():
            kind, spot = element['type'], ''
            if kind == 'node':
                spot = f' lat="{element["lat"]}" lon="{element["lon"]}"'
            lines.append(f'<{kind} id="{element["id"]}" version="1" timestamp="{DATE}"{spot}>')
            lines += [f'<nd ref="{number}"/>' for number in element.get('nodes', ())]
            lines += [f'<member type="{member["type"]}" ref="{member["ref"]}" role="{member["role"]}"/>' for member in element.get('members', ())]
            lines += [f'<tag k={quoteattr(name)} v={quoteattr(value)}/>' for name, value in element.get('tags', {}).items()]
            lines.append(f'</{kind}>')
        return '\n'.join([*lines, foot, '</osm>\n'])
