"""The parts of `tools/osm2map` by their rules: ids, numbers, texts in pieces, cuts, splits, restrictions, limits, lines and tiles."""
import io
import json
import os
import random
import tempfile
import unittest
from array import array
from contextlib import redirect_stderr
from decimal import Decimal
from unittest.mock import patch

from osm_map import counts, extract, json_text, lines, map_text, progress, tiles
from osm_map.coordinates import box_of, of_decimal, of_seven_decimals
from osm_map.counts import Counts
from osm_map.draft import Draft
from osm_map.encoding import json_bytes
from osm_map.faults import Refused, UsageFault
from osm_map.ids import LEAST_ID, Ids, NewIds
from osm_map.relations import take_relations
from osm_map.roads import Roads, runs_of


class Coordinates(unittest.TestCase):

    def test_half_a_microdegree_goes_away_from_zero(self):
        for text, wanted in (('49.0000005', 49_000_001), ('49.00000049999', 49_000_000), ('-0.0000005', -1), ('-0.00000049', 0), ('90', 90_000_000)):
            self.assertEqual(of_decimal(Decimal(text), 90_000_000), wanted)

    def test_both_readings_agree_at_seven_decimals(self):
        draw = random.Random(1)
        for _ in range(3_000):
            text = f'{draw.choice(("", "-"))}{draw.randrange(180)}.{draw.choice((draw.randrange(10 ** 7), draw.randrange(10 ** 6) * 10 + 5)):07}'
            self.assertEqual(of_seven_decimals(text.encode()), of_decimal(Decimal(text), 180_000_000))

    def test_beyond_the_edge_is_none(self):
        self.assertIsNone(of_decimal(Decimal('90.0000001'), 90_000_000))
        self.assertIsNone(of_decimal(-181, 180_000_000))

    def test_a_box_is_four_degrees_in_order(self):
        self.assertEqual(box_of('8,-49.5,8.5,49'), (8_000_000, -49_500_000, 8_500_000, 49_000_000))
        for text in ('', '8,49,8.5', '8,49,8.5,50,1', '8,49,8,50', '8,50,9,49', '8,49,inf,50', '8,49,181,50', 'x,49,9,50'):
            self.assertRaises(UsageFault, box_of, text)


class Texts(unittest.TestCase):

    def test_half_a_surrogate_pair_stays_its_escape(self):
        self.assertEqual(json_bytes({'name': 'Ü 😀'}), '{"name":"Ü 😀"}'.encode())
        self.assertEqual(json_bytes({'name': 'Ü \ud83d'}), b'{"name":"\\u00dc \\ud83d"}')


class IdsByPlace(unittest.TestCase):

    def test_ids_in_any_order_are_found_at_their_first_place(self):
        draw = random.Random(2)
        for ascending in (True, False):
            numbers = [draw.randrange(-500, 500) for _ in range(400)]
            numbers = sorted(set(numbers)) if ascending else numbers
            ids = Ids()
            for number in numbers:
                ids.add(number)
            ids.settle()
            self.assertEqual(ids.ascending, ascending)
            self.assertEqual(ids.places(range(-600, 600)), [numbers.index(number) if number in numbers else -1 for number in range(-600, 600)])
            again = {(numbers.index(number), place) for place, number in enumerate(numbers) if numbers.index(number) != place}
            self.assertEqual(set(ids.repeats()), again)
            self.assertEqual(ids.below(), min(0, *numbers) - 1)

    def test_new_ids_go_down_to_the_least(self):
        new = NewIds(LEAST_ID + 3)
        self.assertEqual([new.take(2), new.take()], [LEAST_ID + 3, LEAST_ID + 1])
        self.assertRaises(Refused, new.take)


class JsonInPieces(unittest.TestCase):

    def read(self, text):
        file = io.StringIO(text)
        file.name = 'text'
        return json_text.JsonText(file)

    def test_a_text_is_the_same_however_it_is_cut(self):
        value = {'a': [1, -2.5, 12345678, 'x"\\ü', {'b': [[], {}, None, True]}], 'c': 17}
        for piece in (1, 2, 3, 7, 50):
            with patch.object(json_text, 'PIECE', piece):
                text = self.read(json.dumps(value, indent=1) + ' ')
                found = {name: text.value() for name, _ in text.members()}
                self.assertEqual(found, json.loads(json.dumps(value), parse_float=Decimal))
                self.assertEqual(text.next(), '')
                items = self.read(json.dumps(value['a'])).items()
                self.assertEqual(list(items), found['a'])

    def test_of_repeated_members_the_first_counts(self):
        self.assertEqual(self.read('{"a":1,"b":{"x":1,"x":2},"a":3}').value(), {'a': 1, 'b': {'x': 1}})

    def test_a_fault_is_told_with_its_place(self):
        for text in ('[1,]', '[1', '["\n"]', '[1 2]', '[01]', '[NaN]', '[' * 50_000, '["\\x"]', '[tru]'):
            with patch.object(json_text, 'PIECE', 3), self.assertRaisesRegex(Refused, 'no JSON text: .* near character [0-9]+'):
                list(self.read(text).items())

    def test_a_value_without_end_is_given_up(self):
        with patch.object(json_text, 'MOST_VALUE', 100), patch.object(json_text, 'PIECE', 10), self.assertRaisesRegex(Refused, 'doesn\'t end'):
            list(self.read('["' + 'x' * 1000).items())


class Lines(unittest.TestCase):

    def test_opl_is_read_with_its_escapes(self):
        self.assertEqual(extract.tags_of('Thighway=residential,name=A%2c%B%3d%C%20%%25%%40%%1f600%'.encode()),
                         {'highway': 'residential', 'name': 'A,B=C %@😀'})
        self.assertEqual(extract.members_of('w5@from,n-7@via,r3@a%20%b'), [('way', 5, 'from'), ('node', -7, 'via'), ('relation', 3, 'a b')])
        self.assertEqual(extract.members_of(''), [])

    def test_the_lines_of_wanted_nodes_are_found_in_any_order(self):
        draw = random.Random(8)
        for wanted in ([], [5], list(range(-20, 20, 3)), [-2 ** 63, 0, 2 ** 63 - 1], sorted(draw.sample(range(-99, 99), 40))):
            numbers = draw.sample(range(-100, 100), 150) + wanted
            for order in (numbers, sorted(numbers), sorted(numbers, reverse=True)):
                given = [b'n%d T x1 y2\n' % number for number in order]
                self.assertEqual(list(extract.wanted_lines(given, array('q', wanted))),
                                 [line for line, number in zip(given, order) if number in wanted])

    def test_formats_are_known_by_their_first_bytes(self):
        for head, wanted in ((b'\x00\x00\x00\x0e\x0a\x09OSMHeader', 'pbf'), (b'\xef\xbb\xbf <?xml', 'osm'), (b'BZh9', 'osm.bz2'),
                             (b'\x1f\x8b\x08', 'osm.gz'), (b'\xff\xe0\x04o5m2', 'o5m'), (b'n1 v1', None), (b'', None)):
            self.assertEqual(extract.format_of(head), wanted)

    def test_put_together_each_segment_is_there_once(self):
        draw = random.Random(3)
        for _ in range(200):
            given = [[draw.randrange(12) for _ in range(draw.randrange(2, 5))] for _ in range(draw.randrange(1, 9))]
            found = list(lines.joined([array('i', line) for line in given]))
            self.assertEqual(segments_of(found), segments_of(given))
        self.assertEqual(sorted(min(line, line[::-1]) for line in lines.joined([[1, 2], [3, 2], [3, 4], [4, 5], [4, 6]])),
                         [[1, 2, 3, 4], [4, 5], [4, 6]])

    def test_simplified_stays_within_the_tolerance(self):
        draw = random.Random(4)
        for tolerance in (0.1, 0.5):
            points = [(x / 10, draw.random()) for x in range(200)]
            found = lines.simplified(points, tolerance)
            self.assertEqual((found[0], found[-1]), (points[0], points[-1]))
            self.assertLess(len(found), len(points))
            for one, other in zip(found, found[1:]):
                between = points[points.index(one):points.index(other) + 1]
                self.assertLessEqual(lines.farthest(between, 0, len(between) - 1)[1], tolerance ** 2 + 1e-12)
        self.assertEqual(lines.simplified([(0, 0), (1, 0), (2, 0)], 0.01), [(0, 0), (2, 0)])

    def test_parts_by_tile_make_the_line_again(self):
        draw = random.Random(5)
        for _ in range(200):
            points = [(draw.uniform(0, 4), draw.choice((1.0, draw.uniform(0, 4)))) for _ in range(draw.randrange(2, 6))]
            parts = list(lines.by_tile(points))
            for (column, row), part in parts:
                self.assertTrue(all(-1e-9 < x - column < 1 + 1e-9 and -1e-9 < y - row < 1 + 1e-9 for x, y in part), (points, column, row, part))
            self.assertTrue(all(before[1][-1] == after[1][0] for before, after in zip(parts, parts[1:])))
            kept = [point for _, part in parts for point in part if point in points]
            self.assertEqual([point for place, point in enumerate(kept) if not place or kept[place - 1] != point], points)

    def test_places_are_found_again(self):
        for spot in ((8.4, 49.1), (-179.9, -80.0), (0.0, 0.0)):
            for found, wanted in zip(lines.placed(*lines.projected(*spot, 14), 14), spot):
                self.assertAlmostEqual(found, wanted, 9)


def segments_of(many):
    return sorted(tuple(sorted(pair)) for line in many for pair in zip(line, line[1:]))


class Maps(unittest.TestCase):
    """Roads and relations of drafts that are made here."""

    def setUp(self):
        room = tempfile.TemporaryDirectory()
        self.addCleanup(room.cleanup)
        self.room = room.name

    def draft(self, spots, ways, relations=(), box=None):
        draft = Draft(self.room, box, Counts())
        self.addCleanup(draft.close)
        for number, (latitude, longitude) in spots.items():
            draft.add_node(number, latitude, longitude, None)
        for number, nodes in ways.items():
            draft.add_way(number, nodes, {'highway': 'track'})
        for number, (members, tags) in enumerate(relations):
            draft.add_relation(number, members, tags)
        draft.settle()
        return draft

    def made(self, draft, split=None):
        """Ways by id, relations in a list, and the roads."""
        found, relations = {}, []
        roads = Roads(draft, split, draft.counts, lambda number, nodes, tags: found.setdefault(number, nodes))
        roads.take_all()
        take_relations(draft, roads, draft.counts, lambda number, members, tags: relations.append((members, tags)))
        return found, relations, roads

    def test_pieces_are_the_runs_between_missing_nodes(self):
        self.assertEqual(list(runs_of([-1, 1, 2, -1, -1, 3, -1, 4, 5, 6])), [[1, 2], [3], [4, 5, 6]])
        draft = self.draft({number: (0, number) for number in (1, 2, 4, 5, 7, 9)}, {10: [1, 2, 3, 4, 5, 6, 7, 8, 9], 11: [9, 8, 7], 12: [1, 9]})
        self.assertEqual(self.made(draft)[0], {10: [1, 2], -1: [4, 5], 12: [1, 9]})
        wanted = {'cut_ways': 1, 'missing_nodes': 3, 'pieces': 1, 'lone_nodes': 2, 'roads_without_segment': 1, 'ways': 3, 'segments': 3}
        self.assertEqual({name: draft.counts[name] for name in wanted}, wanted)

    def test_a_split_is_the_same_from_both_sides_and_even(self):
        draft = self.draft({1: (0, 0), 2: (1000, 0), 3: (1000, 50)}, {10: [1, 2, 3], 11: [2, 1]})
        found, _, roads = self.made(draft, 50)
        self.assertEqual(found, {10: [1, -1, -2, 2, 3], 11: [2, -2, -1, 1]})
        self.assertEqual((list(roads.new_latitudes), list(roads.new_longitudes)), ([333, 667], [0, 0]))

    def test_a_split_keeps_to_its_metres(self):
        draw = random.Random(6)
        for _ in range(100):
            start = (draw.randrange(-80_000_000, 80_000_000), draw.randrange(-170_000_000, 170_000_000))
            end = tuple(value + draw.randrange(-5000, 5000) for value in start)
            _, _, roads = self.made(self.draft({1: start, 2: end}, {10: [1, 2]}), 50)
            spots = [start, *zip(roads.new_latitudes, roads.new_longitudes), end]
            long = [roads.parts_of(other[0] - one[0], other[1] - one[1], (one[0] + other[0]) / 2, 50.3) for one, other in zip(spots, spots[1:])]
            self.assertEqual(set(long), {1})

    def test_ferries_and_endless_segments_are_not_split(self):
        draft = self.draft({1: (0, 0), 2: (0, 800_000), 3: (0, 1_900_000)}, {})
        draft.add_way(10, [1, 2], {'route': 'ferry'})
        draft.add_way(11, [2, 3], {'highway': 'track'})
        draft.settle()
        self.assertEqual(self.made(draft, 50)[0], {10: [1, 2], 11: [2, 3]})
        self.assertEqual(draft.counts['endless_segments'], 1)

    def test_restrictions_of_cut_roads_forbid_what_they_forbade(self):
        """On drawn maps with missing nodes the same turns are forbidden as on the whole map, of those that are left."""
        draw, seen = random.Random(7), set()
        for _ in range(1500):
            there = {number: (0, number) for number in range(7) if draw.random() < 0.8}
            ways = {number: [draw.randrange(7) for _ in range(draw.randrange(2, 6))] for number in (10, 11, 12)}
            members = [('way', draw.choice((10, 11, 12)), role) for role in ('from', 'to', *draw.choices(('from', 'to'), k=draw.randrange(2)))]
            members.insert(1, ('node', draw.randrange(7), 'via'))
            tags = {'type': 'restriction', 'restriction': draw.choice(('no_u_turn', 'only_left_turn'))}
            found, relations, _ = self.made(self.draft(there, ways, [(members, tags)]))
            own = {(way, start, end) for way, nodes in ways.items() for start, end in both_ways(nodes) if start in there and end in there}
            piece_of = {own_id: way for own_id, way in self.origins(ways, found).items()}
            ends_left = {piece_of[number] for number in found}
            if tags['restriction'][:4] == 'only' and not ends_left & {ref for _, ref, role in members if role == 'to'}:
                continue                    # no way is left that it allows, and then it has no effect
            wanted = {turn for turn in forbidden(ways, members, tags) if turn[0] in own and turn[1] in own}
            got = {tuple((piece_of[way], start, end) for way, start, end in turn) for those, _ in relations for turn in forbidden(found, those, tags)}
            self.assertEqual(got, wanted, (there, ways, members, tags, found, relations))
            seen.add((bool(wanted), len(relations)))
        self.assertLessEqual({(True, 1), (False, 0), (False, 1)}, seen)

    def origins(self, ways, found):
        """The way of which each piece is; pieces come in the order of ways."""
        origin, way = {}, None
        for number in found:
            way = number if number in ways else way
            origin[number] = way
        return origin

    def test_from_piece_to_piece_of_a_way_no_turn_is_forbidden(self):
        turn = [('way', 10, 'from'), ('node', 2, 'via'), ('way', 10, 'to'), ('way', 11, 'to'), ('way', 11, 'from')]
        tags = {'type': 'restriction', 'restriction': 'no_u_turn'}
        draft = self.draft({number: (0, number) for number in (1, 2, 3, 4)}, {10: [1, 2, 9, 2, 3], 11: [2, 4]}, [(turn, tags)])
        found, relations, _ = self.made(draft)
        self.assertEqual(found, {10: [1, 2], -1: [2, 3], 11: [2, 4]})
        turns = {(one[0], other[0]) for those, _ in relations for one, other in forbidden(found, those, tags)}
        self.assertEqual(turns, {(10, 11), (-1, 11), (11, 10), (11, -1)})

    def test_routes_without_effect_are_left_out(self):
        tags = {'type': 'route', 'route': 'bicycle', 'network': 'rcn'}
        plain, missing = [('way', 10, '')], [('way', 99, ''), ('node', 1, 'guidepost')]
        routes = [(plain, tags), (plain, {**tags, 'network': 'lcn', 'state': 'proposed'}), (plain, {'type': 'route', 'route': 'bicycle'}), (missing, tags)]
        draft = self.draft({1: (0, 1), 2: (0, 2)}, {10: [1, 2]}, routes)
        self.assertEqual(self.made(draft)[1], [(plain, tags)])
        self.assertEqual([draft.counts[name] for name in ('routes', 'proposed_routes', 'empty_routes')], [1, 1, 2])

    def test_limits_are_told(self):
        with patch.object(counts, 'MOST_ELEMENTS', 3):
            draft = self.draft({number: (0, number) for number in range(5)}, {10: [0, 1, 2, 3, 4]})
            self.assertRaisesRegex(Refused, 'more than 3 segments, which is the most', self.made, draft)
        with patch.object(map_text, 'MOST_BYTES', 100), self.assertRaisesRegex(Refused, 'more than 100 bytes'):
            draft = self.draft({number: (0, number) for number in range(5)}, {10: [0, 1, 2, 3, 4]})
            text = map_text.MapText(io.BytesIO(), self.room)
            self.addCleanup(text.close)
            text.write(None, map_text.nodes_of(draft, self.made(draft)[2]))

    def test_a_dense_tile_keeps_the_main_roads(self):
        draft = Draft(self.room, None, Counts())
        self.addCleanup(draft.close)
        for number in range(400):
            draft.add_node(number, 49_000_000 + number * 10 % 997, 8_430_000 + number % 2 * 900, None)
        held = tiles.Lines(draft)
        for number in range(0, 400, 2):
            held.add({'highway': ('path', 'primary')[number % 4 // 2], 'name': str(number)}, [number, number + 1])
        folder = tiles.TileFolder(os.path.join(self.room, 'tiles'))
        with patch.object(tiles, 'MOST_BYTES', 20_000):
            folder.write(held, {'box': [], 'attribution': '', 'version': ''})
        self.assertGreater(folder.left_out, 10)
        with open(os.path.join(self.room, 'tiles', 'index.json'), encoding='utf-8') as file:
            [[column, row]] = json.load(file)['tiles']['14']
        path = os.path.join(self.room, 'tiles', '14', str(column), f'{row}.json')
        self.assertLess(os.path.getsize(path), 20_100)
        with open(path, encoding='utf-8') as file:
            found = [feature['properties']['highway'] for feature in json.load(file)['features']]
        self.assertEqual(found.count('primary'), 100)
        self.assertEqual(found, sorted(found))


def both_ways(nodes):
    return [pair for one, other in zip(nodes, nodes[1:]) if one != other for pair in ((one, other), (other, one))]


def forbidden(ways, members, tags):
    """The turns that a restriction forbids by the rule of docs/FORMATS.md, as pairs of links, each a way and its two nodes."""
    by = [ref for kind, ref, role in members if role == 'via']
    starts, ends = ({ref for kind, ref, wanted in members if wanted == role and ref in ways} for role in ('from', 'to'))
    if len(by) != 1 or not starts or not ends or not any(by[0] in nodes for nodes in ways.values()):
        return set()
    links = {(way, start, end) for way, nodes in ways.items() for start, end in both_ways(nodes)}
    turns = {(one, other) for one in links if one[0] in starts and one[2] == by[0] for other in links if other[1] == by[0]}
    if tags['restriction'].startswith('no_'):
        return {(one, other) for one, other in turns if other[0] in ends and one[0] != other[0]}
    return {(one, other) for one, other in turns if other[0] not in ends}


class Telling(unittest.TestCase):

    def test_long_work_is_told_and_short_work_is_not(self):
        for pause, told in ((0.01, True), (60.0, False)):
            with patch.object(progress, 'PAUSE', pause), redirect_stderr(io.StringIO()) as out, progress.Progress() as shown:
                shown.now('counting', lambda: '3 things')
                shown.ended.wait(0.5)
            self.assertEqual('osm2map: counting, 3 things, ' in out.getvalue(), told)


if __name__ == '__main__':
    unittest.main()
