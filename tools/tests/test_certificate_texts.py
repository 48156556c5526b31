"""What the certificate checker refuses, with its line and status: worked out by hand from docs/FORMATS.md and docs/REFUSALS.md."""
import os
import subprocess
import sys
import tempfile
import unittest

from certificate_checker import check, profile, road_map, tags
from certificate_checker.refusals import Refusal
from certificate_checker.request import read_query, read_words
from tests.certificate_worlds import LOOK, PLAIN, map_text, residential

TOOL = os.path.join(os.path.dirname(os.path.dirname(os.path.abspath(__file__))), 'check_certificate')
ONE = map_text({1: (0, 0), 2: (1000, 0)}, {10: residential(1, 2)})
FOUR = map_text({1: (0, 0), 2: (1000, 0), 3: (2000, 0), 4: (3000, 0)}, {10: residential(1, 2, 3, 4)})
RIDE = 'lonlats=0,0|0.003,0&profile=plain'
SHOWN = '''certificate 1
leg 10/0/f 10/1/f 10/2/f
cost 333960000
label 10/0/f 111320000 0 0
label 10/1/f 222640000 0 0
end
'''


class Refused(unittest.TestCase):
    """Tries of readers that refuse."""

    def refuses(self, line, read, *words, status=2):
        with self.assertRaises(Refusal, msg=line) as caught:
            read(*words)
        self.assertEqual((caught.exception.status, caught.exception.line), (status, line), words)


class TagTables(Refused):
    VERSIONS = b'---lookupversion:10\n---minorversion:1\n'

    def test_first_lines_at_fault(self):
        way = self.VERSIONS + b'---context:way\nreversedirection;0 yes\n'
        for line, text in (('lookup version', b'---lookupversion:10'), ('first tag of way part', self.VERSIONS),
                           ('lookup line 1', b'---lookupversion:\n'), ('lookup line 1', b'# \xff\n'), ('lookup line 1', b'a;1 b\n'),
                           ('lookup line 5', way + b'a;x b\n'), ('lookup line 5', way + b'a;1\n'),
                           ('lookup line 5', way + b' ---context:node\n'),
                           ('lookup line 5', way + b'---context:way\n'), ('first tag of node part', way),
                           ('lookup version', way + b'---context:node\n---lookupversion:10\nnodeaccessgranted;0 yes\n'),
                           ('first tag of way part', self.VERSIONS + b'---context:way\nreversedirection;0 true yes\n'),
                           ('too many at line 1028', way + b''.join(b't%d;1 v\n' % it for it in range(1024))),
                           ('too many at line 4101', way + b''.join(b't;1 v%d\n' % (it // 2) for it in range(4097)))):
            self.refuses(line, tags.read_table, text)

    def test_numbers_of_values(self):
        table = tags.read_table(LOOK)['way']
        self.assertEqual(tags.numbers_of(table, b'reversedirection', {
            b'highway': b'track', b'oneway': b'1', b'bicycle': b'maybe', b'reversedirection': b'yes', b'surface': b'asphalt'}),
            {b'highway': 4, b'oneway': 2, b'bicycle': 1})


class Profiles(Refused):
    def read(self, text):
        return profile.read_profile(text, tags.read_table(LOOK))

    def test_first_tokens_at_fault(self):
        for fault, text in (
                ('end', b'---context:way assign costfactor'), ('end', b'---context:way assign'), ('section', b'assign a 1'),
                ('section', b'---context:ways'), ('bracket', b')'), ('number', b'5x'), ('token', b'5'), ('token', b'x'),
                ('token', b'---context:way assign )'), ('number', b'---context:way assign 5x 1'), ('token', b'---context:way assign not 1'),
                ('bracket', b'---context:way assign a )'), ('bracket', b'---context:way assign a ( 1 5x'),
                ('number', b'---context:way assign a -x'), ('number', b'---context:way assign a 1000000000.000001'),
                ('token', b'---context:way assign a if 1 else 2'), ('token', b'---context:way assign a ---context:way'),
                ('token', b'---context:way assign a b=|'), ('bracket', b'---context:way assign a 1 )'),
                ('deep', b'---context:way assign costfactor ' + b'not ' * 1001 + b'1'),
                ('deep', b'---context:way assign costfactor ' + b'not ' * 1000 + b'1'),
                ('number', b'---context:way assign costfactor ' + b'not ' * 1000 + b'1x'),
                ('bracket', b'---context:way assign costfactor ' + b'not ' * 1000 + b')')):
            self.refuses(f'profile line 1: {fault}', self.read, text)
        self.refuses('profile line 3: end', self.read, b'\n---context:way assign a#\n(1\n\n')

    def test_what_is_not_known(self):
        for fault, text in (
                ('profile line 1: unknown name', b'---context:way assign costfactor a'),
                ('profile line 1: wrong section', b'---context:global assign x highway=track ' + PLAIN),
                ('profile line 1: wrong section', b'---context:way assign uphillcost 1 assign costfactor 1'),
                ('profile line 1: unknown value', b'---context:way assign costfactor highway=path'),
                ('profile line 1: unknown tag', b'---context:way assign costfactor surface=unknown'),
                ('profile line 2: unknown name', b'---context:global assign b 1 ---context:way assign costfactor add b\na assign a 1'),
                ('profile: no costfactor', b'')):
            self.refuses(fault, self.read, text)
        self.read(b'---context:way assign uphillcostfactor 1 assign costfactor add uphillcostfactor highway=unknown')

    def test_what_trees_come_to(self):
        for text, wanted in ((b'add 1 and 0 divide 1 0', 10**6), (b'or 2 divide 1 0', 10**6), (b'switch 0 divide 1 0 3', 3 * 10**6),
                             (b'if highway=track|primary then 5 else 6', 5 * 10**6), (b'multiply -1 0.000001', -1),
                             (b'add bicycle= bicycle=unknown', 10**6), (b'xor 2 0', 10**6), (b'not ( true )', 0),
                             (b'max 1 min 2 3', 2 * 10**6)):
            sections = self.read(b'---context:way assign costfactor ' + text)
            found = profile.values_of(sections['way'], {}, tags.read_table(LOOK)['way'], {b'highway': 4}, {})
            self.assertEqual(found[b'costfactor'], wanted, text)

    def test_a_name_is_the_last_value_before(self):
        sections = self.read(b'---context:global assign a 5 assign b 7 ---context:way assign costfactor a assign a add a 1'
                             b' assign a multiply a b assign costfactor add costfactor a')
        self.assertEqual(profile.values_of(sections['global'], {}, {}, {}, {b'b': 1}), {b'a': 5 * 10**6, b'b': 1})
        outer = {b'a': 5 * 10**6, b'b': 7 * 10**6}
        self.assertEqual(profile.values_of(sections['way'], outer, {}, {}, {}), {b'costfactor': 47 * 10**6, b'a': 42 * 10**6})

    def test_999_operators_are_not_too_deep(self):
        sections = self.read(b'---context:way assign costfactor ' + b'not ' * 999 + b'1')
        self.assertEqual(profile.values_of(sections['way'], {}, {}, {}, {}), {b'costfactor': 0})


class Maps(Refused):
    def test_first_faults(self):
        for fault, text in (
                ('not JSON at byte 24', b'{"elements":[{"type":"no'), ('not JSON at byte 68', b'{"x":' + b'[' * 64),
                ('not JSON at byte 0', b'\x1f\x8b'), ('element 0 has the wrong shape', b'{}'), ('element 0 has the wrong shape', b'[]'),
                ('element 0 has the wrong shape', b'{"elements":1,"elements":[]}'), ('not JSON at byte 2', b'[01]'),
                ('not JSON at byte 3', b'[0.]'),
                ('element 1 has the wrong shape', b'{"elements":[{"type":"node","id":1}]}'),
                ('element 1 has the wrong shape', b'{"elements":[1x'), ('not JSON at byte 15', b'{"elements":[1.x'),
                ('element 2 has the wrong shape', b'{"elements":[{"type":"x"},{"type":5}'),
                ('node 1 has a bad coordinate', b'{"elements":[{"type":"node","id":1,"lat":1e1,"lon":0}]}'),
                ('element 1 has the wrong shape', b'{"elements":[{"type":"node","id":1,"lat":1e1,"lon":0,"tags":[]}]}'),
                ('element 1 has the wrong shape', b'{"elements":[{"type":"node","id":9223372036854775808,"lat":1,"lon":0}]}'),
                ('way 5 lacks node 1', b'{"elements":[{"type":"way","id":5,"nodes":[1]}]}'),
                ('node 1 given twice', b'{"elements":[{"type":"node","id":1,"lat":1,"lon":0},{"type":"node","id":1,"lat":2,"lon":0}]}'),
                ('not JSON at byte 8', b'{"x":"\xe2\x82\x28"}'), ('not JSON at byte 10', b'{"x":"\\u00g0"}'),
                ('not JSON at byte 6', b'{"x":"\n"}'),
                ('not JSON at byte 2', b'{}}'), ('not JSON at byte 3', b'trux'), ('not JSON at byte 5', b'{"x":')):
            self.refuses(f'map: {fault}', road_map.read_map, text)

    def test_each_front_of_a_map_is_no_json(self):
        for length in range(len(ONE)):
            self.refuses(f'map: not JSON at byte {length}', road_map.read_map, ONE[:length])

    def test_the_first_of_repeated_members_counts(self):
        made = road_map.read_map(
            b'{"elements":[{"type":"node","type":1,"id":1,"\\u006cat":0.0000005,"lat":5,"lon":-0.0000015,"tags":{}},'
            b'{"type":"node","id":1,"lat":0.000001,"lon":-0.000002,"tags":{"a":"\\ud83d\\ude00\\ud800","a":3}}],"elements":7}')
        self.assertEqual(made.content['node'], {1: (-2, 1)})
        self.assertEqual(made.tags['node'], {1: {b'a': '\U0001f600\ufffd'.encode()}})

    def test_links(self):
        made = road_map.read_map(map_text({1: (0, 0), 2: (0, 0), 3: (0, 900_000)}, {5: ([1, 1, 2, 3], {})}))
        self.assertEqual([(it.start, it.end, it.segment, it.back) for it in made.links], [(1, 2, 1, False), (2, 1, 1, True)])


class Requests(Refused):
    def test_words(self):
        words = ['check', 'lookups=a', 'profile=b.brf', 'map=c', f'query={RIDE}', 'certificate=d']
        self.assertEqual(read_words(words)['certificate'], ('d', 5))
        for place, changed in ((5, words[:5]), (1, ['check', 'x']), (6, [*words, 'map=c']), (6, [*words, 'cost=1']),
                               (2, ['x', words[1], 'map=']),
                               (1, ['x', 'profile=custom_1.brf']), (1, ['x', 'profile=' + 65 * 'a']), (70, [*words, *65 * ['tile=x']])):
            self.refuses(f'usage: word {place}', read_words, changed, status=1)

    def test_queries(self):
        for line, query in (
                ('unknown key at pair 0', 'a=1'), ('bad value of lonlats', 'lonlats=0,0'), ('missing profile', 'lonlats=0,0%7C0.001,0'),
                ('missing lonlats', 'profile=a'), ('bad value of labels', RIDE + '&labels=0'), ('bad value of runs', RIDE + '&runs=2'),
                ('repeated labels', RIDE + '&labels=1&labels=x'), ('format not offered', RIDE + '&format=gpx'),
                ('too many in lonlats', 'lonlats=' + '|'.join(101 * ['0,0'])),
                ('bad value of lonlats', 'lonlats=' + '|'.join([*100 * ['0,0'], ''])),
                ('bad value of nogos', RIDE + '&nogos=0,0,-1'), ('bad value of nogos', RIDE + '&nogos=0,0,100000.001'),
                ('bad value of profile:', RIDE + '&profile:=1'), ('bad value of profile:', RIDE + '&profile:not=1'),
                ('repeated profile:', RIDE + '&profile:a=1&profile:a=x'), ('bad value of profile', 'profile='),
                ('too many in profile:', RIDE + ''.join(f'&profile:a{it}=1' for it in range(65)))):
            self.refuses(f'query: {line}', read_query, query, status=1)
        found = read_query('&lonlats=-1,2|180.0%3000,-90&&profile=a+b&nogos=&profile:x=-1.5&alternativeidx=3')
        self.assertEqual(found, {'lonlats': [(-1_000_000, 2_000_000), (180_000_000, -90_000_000)], 'profile': b'a b', 'nogos': [],
                                 'profile:': {b'x': -1_500_000}, 'alternativeidx': b'3'})


class Commands(unittest.TestCase):
    """The tool itself, over files."""

    def setUp(self):
        self.room = tempfile.TemporaryDirectory()
        self.addCleanup(self.room.cleanup)
        for name, text in (('look', LOOK), ('plain.brf', PLAIN), ('four.json', FOUR), ('one.json', ONE)):
            self.write(name, text)

    def write(self, name, text):
        with open(os.path.join(self.room.name, name), 'wb') as file:
            file.write(text)

    def told(self, certificate, query=RIDE, road='four.json', *more):
        self.write('c', certificate.encode())
        words = ['lookups=look', 'profile=plain.brf', f'map={road}', f'query={query}', 'certificate=c', *more]
        done = subprocess.run([sys.executable, TOOL, *words], cwd=self.room.name, capture_output=True, text=True, check=False)
        return done.returncode, done.stdout, done.stderr

    def test_a_walk_of_three_links(self):
        self.assertEqual(self.told(SHOWN), (0, 'yes\ncost 333.960000\n', ''))
        self.assertEqual(self.told('certificate 1\nleg\ncost 0\nend\n', 'lonlats=0,0|0.0001,0&profile=plain', 'one.json'),
                         (0, 'yes\ncost 0.000000\n', ''))

    def test_why_a_certificate_is_refused(self):
        first, _, *rest = SHOWN.splitlines(keepends=True)
        for why, text in (('step', SHOWN.replace('label 10/1/f 222640000 0 0\n', '')),
                          ('start', SHOWN.replace('label 10/0/f 111320000 0 0\n', '')),
                          ('walk', SHOWN.replace('333960000', '333960001')), ('walk', first + 'leg 10/0/f 10/1/f\n' + ''.join(rest)),
                          ('bounds', SHOWN.replace('end', f'label 10/2/f {2**120} 0 0\nend')),
                          ('bounds', SHOWN.replace('0 0\nend', '0 10000001\nend')),
                          ('goal', SHOWN.replace('end', 'label 10/2/f 333959999 0 0\nend'))):
            self.assertEqual(self.told(text), (13, '', f'certificate refused: leg 0, {why}\n'), text)
        self.assertEqual(self.told(SHOWN.replace('end\n', SHOWN[14:])), (13, '', 'certificate refused: leg 2, legs\n'))

    def test_lines_at_fault(self):
        for line, text in ((6, SHOWN[:-4]), (6, SHOWN[:-1]), (7, SHOWN + '\n'), (7, SHOWN + ' '), (1, ''), (1, SHOWN[14:]),
                           (2, SHOWN.replace('leg ', 'leg  ')), (3, SHOWN.replace('cost 3', 'cost 03')),
                           (4, SHOWN.replace('10/0/f 11', '10/00/f 11')),
                           (4, SHOWN.replace(' 0 0\n', ' 0\n')),
                           (1, SHOWN.replace('certificate 1', 'certificate 3')), (3, SHOWN.replace('333960000', str(2**127))),
                           (4, SHOWN.replace('111320000 0', f'111320000 {2**63}')), (2, SHOWN.replace('/f 10/1/f', '/f 10/3/f'))):
            self.assertEqual(self.told(text), (2, '', f'word 5: certificate line {line}\n'), text)

    def test_both_forms_are_read(self):
        self.assertEqual(self.told(SHOWN.replace('certificate 1', 'certificate 2')), (0, 'yes\ncost 333.960000\n', ''))

    def test_refusals_before_the_certificate_is_looked_at(self):
        self.assertEqual(self.told(SHOWN, RIDE + '&alternativeidx=1'), (1, '', 'usage: word 4\n'))
        self.assertEqual(self.told(SHOWN, RIDE, 'none.json'), (7, '', 'word 3: not found\n'))
        self.assertEqual(self.told(SHOWN, RIDE, '.'), (8, '', 'word 3: read fault\n'))
        self.assertEqual(self.told(SHOWN, RIDE.replace('plain', 'other')), (2, '', 'profile unknown\n'))
        self.assertEqual(self.told(SHOWN, RIDE + '&profile:x=1'), (2, '', 'override 0: unknown name\n'))
        self.assertEqual(self.told(SHOWN, RIDE.replace('0.003', '0.1')), (4, '', 'not mapped: waypoint 1\n'))
        self.assertEqual(self.told(SHOWN, RIDE, 'four.json', 'tile=look'), (2, '', 'word 6: tile name\n'))

    @unittest.skipUnless(os.path.exists('/dev/full'), 'there is no output that takes nothing')
    def test_an_output_that_takes_nothing(self):
        self.write('c', SHOWN.encode())
        words = ['lookups=look', 'profile=plain.brf', 'map=four.json', f'query={RIDE}', 'certificate=c']
        with open('/dev/full', 'w', encoding='utf8') as full:
            done = subprocess.run([sys.executable, TOOL, *words], cwd=self.room.name, stdout=full, stderr=subprocess.PIPE, check=False)
        self.assertEqual((done.returncode, done.stderr), (9, b'write fault\n'))

    def test_facts_that_are_refused(self):
        for profile_text, status, line in (
                (b'---context:way assign costfactor divide 1 0', 6, 'way 10 forward costfactor: division by zero'),
                (b'---context:way assign costfactor -1', 6, 'way 10 forward costfactor is negative'),
                (b'---context:way assign costfactor sub 0 reversedirection=yes', 6, 'way 10 backward costfactor is negative'),
                (b'---context:way assign costfactor 1 assign uphillcostfactor -1', 6, 'way 10 forward uphillcostfactor is negative'),
                (b'---context:global assign x divide 1 0 ' + PLAIN, 6, 'global x: division by zero')):
            self.write('plain.brf', profile_text)
            self.assertEqual(self.told(SHOWN), (status, '', line + '\n'))

    def test_help(self):
        done = subprocess.run([sys.executable, TOOL, '--help'], capture_output=True, text=True, check=True)
        self.assertIn('usage: tools/check_certificate lookups=FILE', done.stdout)


class Words(Refused):
    def test_words_that_are_no_text(self):
        self.refuses('usage: word 0', check.answer, ['check', 'map=\udcff'], status=1)


if __name__ == '__main__':
    unittest.main()
