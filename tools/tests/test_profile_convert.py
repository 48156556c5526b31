"""`profile convert`: published forms of profiles and tables, what becomes of each, and what can't be rewritten."""
import os
import unittest

from profiles.check import findings
from profiles.convert import Conversion
from profiles.numbers import literal_of
from profiles.syntax import Reader
from profiles.table import Table
from profiles.table_forms import TableConversion
from tests.made_profiles import PROFILE, TABLE, made_cases
from tests.program import EXAMPLES

GLOBAL = b'---context:global\nassign considerTurnRestrictions 1\n'
WAY = b'---context:way\nassign costfactor 1\n'


def convert(text, table=TABLE, **values):
    """The text that comes of a profile, and its edits."""
    done = Conversion(text, Table(table), {name.encode(): value for name, value in values.items()})
    return done.edited.written(), done.edited.edits


def refusals(text, **values):
    """What is left to refuse in a converted text: lines, kinds and reasons."""
    done = Conversion(text, Table(TABLE), {name.encode(): value for name, value in values.items()})
    left = findings('p.brf', done.edited.written(), 'l.dat', TABLE, names_convert=False)
    return [(each.line, each.refusal.rpartition(': ')[2], done.reasons.get((each.line, each.shown), each.advice)) for each in left]


def converted_table(text):
    done = TableConversion(text)
    return done.written(), [str(each).strip() for each in done.edits]


class Forms(unittest.TestCase):
    """Each form of an expression."""

    def becomes(self, published, taken, rides=False, way=b''):
        head = GLOBAL + WAY + way + b'\nassign x '
        text, edits = convert(head + published)
        self.assertEqual(text, head + taken)
        self.assertEqual([each.rides for each in edits], [rides] if published != taken else [])
        self.assertEqual(findings('p.brf', text, 'l.dat', TABLE), [])

    def test_numbers(self):
        for published, taken in ((b'.5', b'0.5'), (b'+1', b'1'), (b'1.', b'1'), (b'1e3', b'1000'), (b'1.0f', b'1.0'), (b'-.5', b'-0.5'),
                                 (b'2D', b'2'), (b'-1E-3', b'-0.001'), (b'+.25e+2F', b'25'), (b'0e9', b'0'),
                                 (b'1e9', b'1000000000'), (b'1.5', b'1.5')):
            self.becomes(published, taken)

    def test_numbers_that_are_others(self):
        for published, taken in ((b'1e10', b'1000000000'), (b'-4e9', b'-1000000000'), (b'1e-7', b'0'), (b'.12345678', b'0.12345678'),
                                 (b'9e999999', b'1000000000'), (b'1e-999999', b'0'), (b'1000000000.5', b'1000000000')):
            self.becomes(published, taken, rides=True)

    def test_what_is_no_number(self):
        for text in (b'.', b'+', b'1e', b'e1', b'1f2', b'0x10', b'NaN', b'1_0', b'--1', b'1.2.3', b'\xd9\xa1', b''):
            self.assertIsNone(literal_of(text), text)

    def test_lists_with_empty_pieces(self):
        self.becomes(b'highway=|track', b'highway=track', rides=True)
        self.becomes(b'highway=track||primary|', b'highway=track|primary', rides=True)
        self.becomes(b'highway=|', b'highway=', rides=True)

    def test_the_number_of_a_tag(self):
        self.becomes(b'v:width', b'switch width=1 1 switch width=2.5 2.5 0', rides=True)
        self.becomes(b'lesser v:width 2', b'lesser switch width=1 1 switch width=2.5 2.5 0 2', rides=True)

    def test_names_with_a_section(self):
        self.becomes(b'way:costfactor', b'costfactor')
        self.becomes(b'global:considerTurnRestrictions', b'considerTurnRestrictions')
        node = b'1 ---context:node assign initialcost '
        self.becomes(node + b'way:nodeaccessgranted', node + b'nodeaccessgranted=yes')

    def test_names_that_are_read_before_they_are_assigned(self):
        self.becomes(b'add turncost 1', b'add 0 1')
        self.becomes(b'elevationmaxbuffer', b'10')
        self.becomes(b'1 ---context:node assign initialcost initialcost', b'1 ---context:node assign initialcost 0')

    def test_odd_names(self):
        text, edits = convert(GLOBAL + WAY + 'assign my-x 1\nassign my_x 2\nassign größe add my-x my_x\nassign 2b a.b'.encode())
        self.assertIn(b'assign my_x_2 1\nassign my_x 2\nassign gr__e add my_x_2 my_x\nassign _2b a.b', text)
        self.assertEqual([each.line for each in edits], [5, 7, 8, 7])

    def test_what_stands_outside(self):
        head = b'\xef\xbb\xbf---model:btools.router.KinematicModel\njunk more # c\nx '
        text, edits = convert(head + GLOBAL + b'---context:foo a\nb c\n' + WAY)
        self.assertEqual(text, b'\n# junk more # c\n ' + GLOBAL + b'# ---context:foo a\n# b c\n' + WAY)
        self.assertEqual([each.rides for each in edits], [False, True, False, False, False, False])

    def test_carriage_returns_alone(self):
        text, _ = convert((GLOBAL + WAY).replace(b'\n', b'\r') + b'# c\rassign turncost 2')
        self.assertEqual(text, GLOBAL + WAY + b'# c\nassign turncost 2')

    def test_layout_stays(self):
        text = GLOBAL + WAY + b'assign\ty = \x0b .5\r\n # .5 stays\n\n  assign   z  (  y)#'
        self.assertEqual(convert(text)[0], text.replace(b' .5\r', b' 0.5\r'))


class ElevationNames(unittest.TestCase):
    """Names of the global section that the section of ways assigns."""

    def test_without_tags(self):
        text, edits = convert(GLOBAL + WAY + b'assign a 2\nassign uphillcost multiply a 3.\n')
        self.assertEqual(text, GLOBAL + WAY + b'---context:global assign a 2 ---context:way\n'
                         b'---context:global assign uphillcost multiply a 3 ---context:way\n')
        self.assertFalse(any(each.rides for each in edits))

    def test_by_tags(self):
        text = GLOBAL + WAY + b'assign uphillcost switch highway=track\n 20 30 # c\n'
        self.assertEqual(refusals(text)[0][:2], (5, 'wrong section'))
        self.assertIn('uphillcost=60', refusals(text)[0][2])
        done, edits = convert(text, uphillcost=b'25')
        self.assertEqual(done, GLOBAL + WAY + b'---context:global assign uphillcost 25 \n   ---context:way # c\n')
        self.assertTrue(edits[0].rides)
        self.assertEqual(findings('p.brf', done, 'l.dat', TABLE), [])

    def test_what_can_not_be_moved(self):
        for way in (b'assign a highway=\nassign uphillcost a', b'assign a 1\nassign uphillcost a\nassign a 2',
                    b'assign uphillcost costfactor', b'assign uphillcost v:width',
                    b'assign uphillcost 1\nassign b uphillcost\nassign uphillcost 2',
                    b'assign uphillcost 1\n---context:global assign uphillcost 2'):
            self.assertIn('wrong section', [kind for _, kind, _ in refusals(GLOBAL + WAY + way)], way)

    def test_without_an_expression(self):
        for end in (b'', b' =', b' = )', b'\nassign x 1'):
            self.assertTrue(refusals(GLOBAL + WAY + b'assign uphillcost' + end, uphillcost=b'25'), end)

    def test_read_before(self):
        text = GLOBAL + b'assign uphillcost 1\n' + WAY + b'assign b uphillcost\nassign uphillcost 2'
        self.assertEqual([kind for _, kind, _ in refusals(text)], ['wrong section'])


class Refused(unittest.TestCase):
    """What can't be expressed is refused by name."""

    def test_reasons(self):
        for way, reason in ((b'v:surface', 'lists no numbers'), (b'global:costfactor', 'no name stands'), (b'node:x', 'no name stands'),
                            (b'NaN', 'assign'), (b'0x10', 'digits'), (b'highway=motorway', 'no value'), (b'a.b', 'neither a number')):
            left = refusals(GLOBAL + WAY + b'assign x ' + way)
            self.assertEqual(len(left), 1, way)
            self.assertIn(reason, left[0][2])
            self.assertNotIn('convert', left[0][2])

    def test_a_way_s_value_at_a_node(self):
        left = refusals(GLOBAL + WAY + b'---context:node assign initialcost way:costfactor')
        self.assertIn('section `node`', left[0][2])

    def test_a_number_of_a_tag_in_the_global_section(self):
        self.assertIn('global section has no tags', refusals(GLOBAL + b'assign x v:width\n' + WAY)[0][2])


class Remarks(unittest.TestCase):
    """What rides otherwise is told with its line."""

    def told(self, text, table=TABLE):
        return [(each.line, each.told) for each in convert(text, table)[1] if each.rides]

    def test_nothing_to_tell(self):
        self.assertEqual(self.told(GLOBAL + WAY), [])

    def test_closed_ways(self):
        text = GLOBAL + b'assign most 9999.5\n---context:way\nassign x most\nassign costfactor min x 20000\n'
        done, edits = convert(text)
        self.assertEqual(done, text + b'---context:way assign costfactor = if lesser costfactor 9999 then costfactor else 10000\n')
        self.assertEqual([(each.line, each.rides) for each in edits], [(3, True)])
        self.assertEqual(convert(done)[1], [], 'a second time')

    def test_what_is_not_closed(self):
        way = b'---context:way\nassign y 9999\nassign costfactor 9998.9 assign turncost 9999'
        self.assertEqual(self.told(GLOBAL + b'assign z 9999\n' + way), [])

    def test_costs_of_a_way(self):
        self.assertEqual(self.told(GLOBAL + WAY + b'assign initialcost 1000000\n---context:node assign initialcost 1000000')[0][0], 5)
        self.assertEqual(self.told(GLOBAL + WAY + b'assign initialcost 999999\n---context:node assign initialcost 1000000'), [])

    def test_tags_and_names(self):
        table = TABLE.replace(b'width;0 1 1.0', b'width;0 1 1.0\nestimated_noise_class;0 1\nroute_bicycle_rcn;0 yes')
        told = self.told(GLOBAL + WAY + b'assign a estimated_noise_class=1\nassign a estimated_noise_class=\n'
                         b'assign b route_bicycle_rcn=yes\nassign uphillmaxslope 8', table)
        self.assertEqual([line for line, _ in told], [5, 7, 8])

    def test_turn_restrictions(self):
        self.assertEqual([line for line, _ in self.told(WAY)], [0])
        self.assertEqual(self.told(b'---context:global assign validForFoot 1\n' + WAY), [])
        self.assertEqual(len(self.told(b'---context:global assign validForFoot = false\n' + WAY)), 1)


class Tables(unittest.TestCase):
    """Each form of a table's line."""

    def test_what_is_taken_stays(self):
        self.assertEqual(converted_table(TABLE), (TABLE, []))
        with open(os.path.join(EXAMPLES, 'lookups.dat'), 'rb') as file:
            text = file.read()
        self.assertEqual(converted_table(text), (text, []))

    def test_first_tags(self):
        published = TABLE.replace(b'reversedirection;0 yes\n', b'').replace(b'nodeaccessgranted;0 yes\n', b'')
        self.assertEqual(converted_table(published)[0], TABLE)
        self.assertEqual(Table(converted_table(b'')[0]).faults, [])

    def test_lines(self):
        for published, taken in ((b'  # c', b'# c'), (b'highway primary', b'highway;0 primary'), (b'highway;x y', b'highway;0 y'),
                                 (b'gr\xf6\xdfe;0 x', 'größe;0 x'.encode()), (b'# \xe4', '# ä'.encode()), (b' a;0 x', b' a;0 x'),
                                 (b'\t---x', b'---x')):
            text, edits = converted_table(TABLE.replace(b'surface;0 gravel', published))
            self.assertEqual(text, TABLE.replace(b'surface;0 gravel', taken))
            self.assertEqual(len(edits), published != taken, published)

    def test_parts_and_versions(self):
        head, way = b'---lookupversion:10\n---minorversion:1\n', b'---context:way\nreversedirection;0 yes\n'
        node = b'---context:node\nnodeaccessgranted;0 yes\n'
        for published in (b'\xef\xbb\xbf' + head + way + node, head + way + node + b'---minorversion:2', way + node, head + way,
                          b'---minorversion:1\n' + way + node + b'---lookupversion:10',
                          b'---lookupversion: 10\n---minorversion:1\n' + way + node):
            self.assertEqual(converted_table(published)[0], head + way + node, published)
        self.assertEqual(converted_table(head + way + node + b'---context:way\na;0 b')[0], head + way + b'a;0 b\n' + node)
        self.assertEqual(converted_table(head + b'x;0 y\n' + way + node)[0], head + b'# x;0 y\n' + way + node)
        foreign = b'---context:foo\n'
        self.assertEqual(converted_table(head + way + foreign + b'x;0 y\n' + node)[0], head + way + foreign + b'# x;0 y\n' + node)

    def test_what_a_profile_looks_at(self):
        done = TableConversion(TABLE)
        looks = Reader(b'---context:way assign costfactor or highway=|a or highway=motorway|track or lcn= or x=b|c|unknown x=b '
                       b'---context:node assign y z=')
        done.put_in_looks(looks.assignments, Table(TABLE), 'p.brf')
        way, node = done.written().split(b'---context:node')
        self.assertTrue(way.endswith(b'\n\n# what p.brf looks at besides\nhighway;0 motorway\nlcn;0 yes\nx;0 b\nx;0 c\n'), way)
        self.assertTrue(node.endswith(b'\n\n# what p.brf looks at besides\nz;0 yes\n'))
        self.assertEqual(Table(done.written()).faults, [])


class MadeTexts(unittest.TestCase):
    """Over many made texts: what is taken stays, and what is written is taken."""

    def test_made_texts(self):
        taken = rewritten = 0
        for profile, table in made_cases(21, 700, (PROFILE, PROFILE.replace(b'2.25', b'.5').replace(b'steep', b'st-eep'))):
            if Table(table).faults:
                table = TableConversion(table).written()
            before = findings('p.brf', profile, 'l.dat', table)
            text, edits = convert(profile, table)
            left = findings('p.brf', text, 'l.dat', table)
            if not before:
                taken += 1
                self.assertEqual(text.split(b'---context:way assign costfactor = if lesser')[0].rstrip(), profile.rstrip())
            elif not left:
                rewritten += 1
                self.assertTrue(edits)
                self.assertEqual(convert(text, table)[0], text)
        self.assertGreater(taken, 40)
        self.assertGreater(rewritten, 40)


if __name__ == '__main__':
    unittest.main()
