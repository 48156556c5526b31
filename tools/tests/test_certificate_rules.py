"""The rules of the certificate checker against numbers that were worked out by hand from docs/FORMULAS.md."""
import unittest

from certificate_checker import costs, geometry
from certificate_checker.covering import mode_of
from certificate_checker.heights import Tiles
from certificate_checker.numbers import Fault, coordinate, cut, divide, literal, mil6
from certificate_checker.profile import BOTH
from certificate_checker.refusals import Refusal
from tests.certificate_worlds import HILL, PLAIN, map_text, residential, ride, slope, tile, walk_of

TREK = b'''
---context:global   # numbers are this project's own
assign consider_elevation   true
assign downhillcost   = if consider_elevation then 60 else 0
assign downhillcutoff = 1.5
assign uphillcost     0
assign stick_to_cycleroutes 0
---context:way
assign any_cycleroute    = route_bicycle_rcn=yes
assign nodeaccessgranted = any_cycleroute
assign turncost    = if junction=roundabout then 0 else 90
assign initialcost = if highway=track then 50 else 0
assign wrongway    = and oneway=yes reversedirection=yes
assign bikeaccess  = switch bicycle= true not bicycle=no
assign costfactor =
  if wrongway then 10000
  else if ( not bikeaccess ) then 10000
  else if highway= then 10000
  else if and any_cycleroute stick_to_cycleroutes then 0.5
  else if any_cycleroute then 1
  else switch highway=cycleway 1
       switch highway=residential 1.1
       switch highway=primary 1.6 2
---context:node
assign nodeaccess  = or nodeaccessgranted=yes barrier=
assign initialcost = if nodeaccess then 0 else 20
'''
TWO = b'---context:way assign costfactor switch highway=primary 2 1'
TURN = b'---context:way assign turncost 90 assign costfactor switch highway=primary 1.1 1'
BENT = map_text({1: (0, 0), 2: (200, 2900), 3: (400, 0), 4: (440, 0), 5: (840, 0)},
                {10: residential(1, 3), 11: residential(1, 2, 3), 12: residential(3, 4, 5)})
CORNER = map_text({1: (0, 0), 2: (1000, 0), 3: (1000, 1000), 4: (0, 1000), 5: (1000, 2000)},
                  {10: ([1, 2, 3], {'highway': 'primary'}), 11: residential(1, 4, 3), 12: residential(3, 5)})
GATE = b'''---context:way assign nodeaccessgranted highway=cycleway assign costfactor 1
---context:node assign initialcost switch and barrier=gate not nodeaccessgranted=yes 1000000 0'''
CROSSING = map_text({1: (0, 0), 2: (1000, 0, {'barrier': 'gate'}), 3: (2000, 0), 4: (1000, 1000), 5: (1000, -1000)},
                    {10: ([1, 2, 3], {'highway': 'cycleway'}), 11: residential(4, 2, 5)})


def cost(made, *names):
    return costs.walk_cost([made.climbs[it] for it in walk_of(made, *names)])


class Numbers(unittest.TestCase):
    def test_coordinates_are_rounded_half_up(self):
        for text, most, wanted in ((b'8.1234565', 180, 8123457), (b'-0.0000005', 90, -1), (b'90.0000004', 90, 90_000_000),
                                   (b'90.0000005', 90, None), (b'1e3', 90, None), (b'1.', 90, None), (b'+1', 90, None),
                                   (b'0' * 5000 + b'1.' + b'0' * 5000, 90, 1_000_000), (b'1' * 5000, 90, None)):
            self.assertEqual(coordinate(text, most * 10**6), wanted, text[:20])

    def test_literals_are_cut(self):
        for text, wanted in ((b'-1.2345678', -1234567), (b'1000000000', 10**15), (b'1000000000.0000009', 10**15),
                             (b'1000000000.000001', None), (b'-', None), (b'1.', None), (b'1e3', None)):
            self.assertEqual(literal(text), wanted, text)

    def test_quotients_are_cut_toward_zero(self):
        self.assertEqual([cut(7, 2), cut(-7, 2), cut(7, -2), cut(-7, -2)], [3, -3, -3, 3])
        self.assertEqual(BOTH['multiply'](-1, 999_999), 0)
        self.assertEqual(divide(-1, 3_000_000), 0)
        for refused, kind in ((lambda: divide(1, 0), 'division by zero'),
                              (lambda: BOTH['multiply'](10**15, 2_000_000), 'number too large')):
            with self.assertRaises(Fault) as caught:
                refused()
            self.assertEqual(str(caught.exception), kind)

    def test_texts_have_six_decimals(self):
        self.assertEqual([mil6(0), mil6(-1), mil6(1344056000)], ['0.000000', '-0.000001', '1344.056000'])


class Geometry(unittest.TestCase):
    def test_cosines(self):
        for latitude, wanted in ((0, 1_000_000_000), (49_000_000, 656_059_029), (49_001_000, 656_045_857), (90_000_000, 0)):
            self.assertEqual(geometry.cosine(latitude), wanted)
            self.assertEqual(geometry.cosine(-latitude), wanted)

    def test_lengths(self):
        for a, b, wanted in (((0, 0), (1000, 0), 111_320), ((0, 0), (1000, 500), 124_459), ((0, 0), (-326, 2222), 250_000),
                             ((0, 0), (-112, 2243), 250_001)):
            self.assertEqual(geometry.arrow(a, b).length, wanted)
            self.assertEqual(geometry.arrow(b, a).length, wanted)
        self.assertIsNone(geometry.arrow((0, 0), (0, 900_000)))

    def test_degrees_to_the_east_are_shorter_in_the_middle_of_the_latitudes(self):
        self.assertEqual(geometry.parts((0, 49_000_000), (1000, 49_002_000)), (73_031, 222_640))
        self.assertEqual(geometry.parts((1000, 49_000_000), (0, 49_000_000)), (-73_032, 0))

    def test_a_circle_touches_by_a_millimetre(self):
        link = (0, 0), (10_000, 0), (5000, 100)
        self.assertTrue(geometry.touches(*link, 11_132))
        self.assertFalse(geometry.touches(*link, 11_131))
        for beside in (-100, 0), (10_100, 0), (-60, 80), (10_080, -60):
            self.assertTrue(geometry.touches((0, 0), (10_000, 0), beside, 11_132), beside)
            self.assertFalse(geometry.touches((0, 0), (10_000, 0), beside, 11_130), beside)

    def test_turns(self):
        east, north, nowhere = (geometry.arrow((0, 0), it) for it in ((1000, 0), (0, 1000), (0, 0)))
        west = geometry.arrow((0, 0), (-1000, 0))
        self.assertEqual([geometry.turn_cosine(east, it) for it in (east, north, west, nowhere)], [10**6, 0, -10**6, 10**6])


class Heights(unittest.TestCase):
    def test_a_slope(self):
        tiles = Tiles()
        tiles.add('some/where/N00E000.hgt', slope())
        self.assertEqual(tiles.height((200, 2900)), 4_800_000)
        self.assertIsNone(tiles.height((1_000_000, 0)))

    def test_a_void_sample_counts_with_weight_0_too(self):
        tiles = Tiles()
        tiles.add('N49E008.hgt', tile(lambda i, j: -32768 if (i, j) == (484, 2) else max(i, 480) - 380))
        spots = {1: (8_400_000, 49_000_000), 5: (8_402_000, 49_001_000), 3: (8_404_000, 49_000_000), 6: (8_404_000, 49_001_000)}
        found = {node: tiles.height(spot) for node, spot in spots.items()}
        self.assertEqual(found, {1: 100_000_000, 5: 102_400_000, 3: 104_800_000, 6: None})

    def test_names_and_sizes(self):
        for name, samples, line in (('N90E000.hgt', b'', 'tile name'), ('N00E180.hgt', b'', 'tile name'), ('N00E000.HGT', b'', 'tile name'),
                                    ('N00E000.hgt', bytes(2_884_801), 'tile size'), ('s90w180.hgt', b'', 'tile size')):
            with self.assertRaises(Refusal) as caught:
                Tiles().add(name, samples)
            self.assertEqual(caught.exception.line, line, name)


class Costs(unittest.TestCase):
    def test_a_step_pays_beyond_the_largest_buffer(self):
        self.assertEqual(costs.step(0, 25_000_000, 0, 5_000_000, 10_000_000), (10_000_000, 15_000_000, 10**6))

    def test_a_step_pays_nothing_up_to_the_penalty_buffer(self):
        self.assertEqual(costs.step(2, 3, 0, 5, 10), (5, 0, 0))
        self.assertEqual(costs.step(2, 4, 0, 5, 10), (6, 0, 10**6))
        self.assertEqual(costs.step(2, 6, 2, 5, 10), (6, 2, 10**6))
        self.assertEqual(costs.step(2, -3, 0, 5, 10), (0, 0, 0))

    def test_a_weight_is_the_part_of_the_reduction(self):
        profile = b'---context:way assign costfactor 1 assign uphillcostfactor 3'
        text = map_text({1: (0, 0), 2: (400, 0)}, {10: residential(1, 2)})
        made = ride(profile, text, N00E000=slope())
        self.assertEqual((cost(made, '10/0/f'), cost(made, '10/0/b')), (133_584_000, 44_528_000))
        made = ride(b'---context:global assign elevationbufferreduce 100 ' + profile, text, N00E000=slope())
        self.assertEqual(cost(made, '10/0/f'), 53_727_930)
        self.assertEqual(costs.step(0, 9_600_000, 44_528_000, 5_000_000, 10_000_000)[2], 103_305)

    def test_buffers_along_a_walk(self):
        made = ride(HILL, BENT, N00E000=slope())
        down = up = 0
        found = []
        for link in walk_of(made, '10/0/f', '12/0/f', '12/1/f'):
            part, down, up = made.climbs[link].enter(down, up)
            found.append((part - made.links[link].arrow.length * 1000, up))
        self.assertEqual(found[0], (0, 8_932_080))
        self.assertEqual(found[1], (0, 9_825_300))
        self.assertEqual(found[2][0], 875_738_000)

    def test_walks_over_a_slope(self):
        made = ride(HILL, BENT, N00E000=slope())
        self.assertEqual(cost(made, '11/0/f', '11/1/f', '12/0/f', '12/1/f'), 696_168_000)
        self.assertEqual(cost(made, '10/0/f', '12/0/f', '12/1/f'), 969_246_000)
        self.assertEqual(cost(made, '10/0/f', '12/0/f') - cost(made, '10/0/f'), 4_452_000)

    def test_turns_and_classes_of_ways(self):
        made = ride(TURN, CORNER)
        self.assertEqual(cost(made, '10/0/f', '10/1/f', '12/0/f'), 446_224_000)
        self.assertEqual(cost(made, '11/0/f', '11/1/f', '12/0/f'), 513_960_000)
        triangle = map_text({1: (0, 0), 2: (2000, 0), 3: (1000, 500)}, {10: ([1, 2], {'highway': 'primary'}), 11: residential(1, 3, 2)})
        made = ride(TWO, triangle)
        self.assertEqual((cost(made, '11/0/f', '11/1/f'), cost(made, '10/0/f')), (248_918_000, 445_280_000))

    def test_a_trekking_profile(self):
        text = map_text({n: (8_400_000 + 2000 * ((n - 1) % 3), 49_000_000 + 1000 * (n > 3), *([{'barrier': 'gate'}] if n == 5 else []))
                         for n in range(1, 7)},
                        {100: ([1, 2, 3], {'highway': 'primary', 'surface': 'asphalt'}), 101: ([4, 5, 6], {'highway': 'cycleway'}),
                         102: residential(1, 4), 103: residential(2, 5), 104: residential(3, 6)},
                        [{'type': 'relation', 'id': 900, 'members': [{'type': 'way', 'ref': 101, 'role': ''}],
                          'tags': {'type': 'route', 'route': 'bicycle', 'network': 'rcn'}}])
        circles = [((8_403_000, 49_000_000), 10_000), ((8_500_000, 49_500_000), 500_000)]
        made = ride(TREK, text, circles=circles,
                    N49E008=tile(lambda i, j: -32768 if (i, j) == (484, 2) else max(i, 480) - 380))
        places = [(8_400_010, 49_000_020), (8_404_000, 49_001_000), (8_403_990, 48_999_990), (8_400_000, 49_000_000)]
        self.assertEqual(made.nearest(places), [1, 6, 3, 1])
        self.assertEqual(cost(made, '102/0/f', '101/0/f', '101/1/f'), 504_576_000)
        self.assertEqual(cost(made, '104/0/b'), 122_452_000)
        self.assertEqual(cost(made, '104/0/f', '101/1/b', '101/0/b', '102/0/b'), 717_028_000)
        self.assertEqual([made.is_open[it] for it in walk_of(made, '100/0/f', '100/1/f', '100/1/b')], [True, False, False])

    def test_the_dearest_open_costfactor(self):
        text = map_text({1: (0, 0), 2: (1000, 0)}, {10: residential(1, 2)})
        made = ride(b'---context:way assign costfactor 9999.999999', text)
        self.assertEqual((cost(made, '10/0/f'), made.is_open), (1_113_199_999_888, [True, True]))
        self.assertEqual(ride(b'---context:way assign costfactor 10000', text).is_open, [False, False])

    def test_a_charge_by_the_way_that_enters(self):
        made = ride(GATE, CROSSING)
        self.assertTrue(made.is_walk(walk_of(made, '10/0/f', '10/1/f'), 1, 3))
        self.assertEqual(cost(made, '10/0/f', '10/1/f'), 222_640_000)
        self.assertFalse(made.is_walk(walk_of(made, '11/0/f', '11/1/f'), 4, 5))

    def test_low_prices(self):
        text = map_text({1: (0, 0), 2: (1000, 0, {'barrier': 'gate'})}, {10: residential(1, 2)})
        made = ride(b'---context:way assign costfactor 3 assign uphillcostfactor 1 assign downhillcostfactor 5'
                    b' ---context:node assign initialcost switch barrier=gate 7 0', text)
        self.assertEqual([it.low_price() for it in made.climbs], [118_320_000, 111_320_000])
        made = ride(b'---context:way assign costfactor 3 assign uphillcostfactor 2.5 assign downhillcostfactor 1.5', text)
        self.assertEqual([it.low_price() for it in made.climbs], [111_320_000, 111_320_000])

    def test_another_class_of_way_costs_what_the_way_entered_says(self):
        profile = b'---context:way assign costfactor 1 assign initialcost switch highway=primary 50 5 assign initialclassifier '
        made = ride(profile + b'add 3 highway=primary', CORNER)
        lengths = 3 * 111_320_000
        self.assertEqual(cost(made, '10/0/f', '10/1/f', '12/0/f'), lengths + 5_000_000)
        self.assertEqual(cost(made, '12/0/b', '10/1/b', '10/0/b'), lengths + 50_000_000)
        self.assertEqual(cost(made, '11/0/f', '11/1/f', '12/0/f'), lengths)
        # a classifier of 0 is the costfactor, which is 1 as the other one
        self.assertEqual(cost(ride(profile + b'highway=primary', CORNER), '10/0/f', '10/1/f', '12/0/f'), lengths)

    def test_modes_by_all_links(self):
        self.assertEqual([mode_of(it) for it in ([0, 0], [], [0, 2], [3, 0, -1], [-1])],
                         ['compensated', 'compensated', 'ordered', 'equal', 'equal'])

    def test_rates_and_buffers_out_of_order(self):
        for assigned, line in (
                ('elevationmaxbuffer 4', 'elevationmaxbuffer 4.000000 is below elevationpenaltybuffer 5.000000'),
                ('downhillcost -1 assign uphillcutoff -1', 'downhillcost is negative')):
            with self.assertRaises(Refusal) as caught:
                ride(f'---context:global assign {assigned} '.encode() + PLAIN, map_text({}, {}))
            self.assertEqual((caught.exception.status, caught.exception.line), (2, line))


class Restrictions(unittest.TestCase):
    def restricted(self, profile, *relations):
        text = map_text({1: (0, 0), 2: (1000, 0), 3: (1000, 1000), 4: (0, 1000), 5: (1000, 2000)},
                        {10: ([1, 2, 3], {'highway': 'primary'}), 11: residential(1, 4, 3), 12: residential(3, 5)}, relations)
        made = ride(profile, text)
        return [made.is_walk(walk_of(made, way + '/0/f', way + '/1/f', '12/0/f'), 1, 5) for way in ('10', '11')]

    def relation(self, number, rule, from_way, to_way, **more):
        members = [{'type': kind, 'ref': ref, 'role': role} for kind, ref, role in (
            ('way', from_way, 'from'), ('node', 3, 'via'), ('way', to_way, 'to'))]
        return {'type': 'relation', 'id': number, 'members': members, 'tags': {'type': 'restriction', 'restriction': rule, **more}}

    def test_they_count_where_the_profile_says_so(self):
        no_left = self.relation(20, 'no_left_turn', 10, 12)
        turns = b'---context:global assign considerTurnRestrictions 1 ' + TURN
        self.assertEqual(self.restricted(turns, no_left), [False, True])
        self.assertEqual(self.restricted(TURN, no_left), [True, True])
        self.assertEqual(self.restricted(turns, {**no_left, 'tags': {**no_left['tags'], 'except': 'psv; bicycle '}}), [True, True])
        self.assertEqual(self.restricted(turns, no_left, self.relation(21, 'only_right_turn', 11, 10)), [False, False])

    def test_a_way_may_go_on_where_it_may_not_turn(self):
        turns = b'---context:global assign considerTurnRestrictions 1 ' + TURN
        along = self.relation(20, 'no_u_turn', 10, 10)
        along['members'][1]['ref'] = 2
        self.assertEqual(self.restricted(turns, along), [True, True])
        along['members'][2]['ref'] = 12
        self.assertEqual(self.restricted(turns, {**along, 'tags': {'type': 'restriction', 'restriction': 'only_left_turn'}}), [False, True])

    def test_a_via_has_to_be_one_node(self):
        turns = b'---context:global assign considerTurnRestrictions 1 ' + TURN
        twice = self.relation(20, 'no_left_turn', 10, 12)
        twice['members'].append({'type': 'way', 'ref': 10, 'role': 'via'})
        self.assertEqual(self.restricted(turns, twice), [True, True])


if __name__ == '__main__':
    unittest.main()
