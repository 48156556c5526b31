"""`profile check`: what every ride is refused for by the values of the global section."""
import os
import random
import tempfile
import unittest

from profiles.check import ride_findings
from tests import program

WAYS = b'\n---context:way\nassign costfactor 1\n'
TABLE = b'---lookupversion:1\n---minorversion:1\n---context:way\nreversedirection;0 yes\n---context:node\nnodeaccessgranted;0 yes\n'
MAP = (b'{"elements":[{"type":"node","id":1,"lat":1,"lon":1},{"type":"node","id":2,"lat":1.001,"lon":1},'
       b'{"type":"way","id":1,"nodes":[1,2],"tags":{"a":"b"}}]}')
RATES = ['uphillcost', 'downhillcost', 'uphillcutoff', 'downhillcutoff', 'elevationpenaltybuffer', 'elevationmaxbuffer',
         'elevationbufferreduce']
NUMBERS = ['0', '1', '-1', '2.5', '-0.000001', '1000000000', '-1000000000', '99999.999999', '31622.7766', '0.0000019', 'true', 'false']
TWO = ['or', 'and', 'xor', 'multiply', 'divide', 'add', 'sub', 'max', 'min', 'equal', 'greater', 'lesser']


def refusals(section):
    return [each.refusal for each in ride_findings('p.brf', b'---context:global\n' + section + WAYS)]


def made_expression(made, names, depth):
    """An expression over numbers and the names that were assigned."""
    if depth == 0 or made.random() < 0.25:
        return made.choice(NUMBERS + names)
    form = made.choice(['not {}', '( {} )', 'switch {} {} {}', 'if {} then {} else {}', *(f'{each} {{}} {{}}' for each in TWO)])
    return form.format(*(made_expression(made, names, depth - 1) for _ in range(form.count('{}'))))


def made_section(made):
    """Some assignments of variables and of names with an effect."""
    names, lines = [], []
    for _ in range(made.randint(1, 6)):
        name = made.choice([*RATES, 'a', 'b', 'considerTurnRestrictions'])
        lines.append(f'assign {name} {made_expression(made, names, made.randint(0, 3))}')
        names.append(name)
    return '\n'.join(lines).encode()


class Values(unittest.TestCase):
    """The first of them is the program's own refusal of a ride."""

    def test_by_hand(self):
        for section, wanted in (
                (b'assign uphillcost 60', []), (b'', []), (b'assign a -1', []), (b'assign considerTurnRestrictions -1', []),
                (b'assign a divide 1 0', ['global a: division by zero']), (b'assign a or 1 divide 1 0', []),
                (b'assign a and 0 divide 1 0', []), (b'assign a switch 0 divide 1 0 5', []),
                (b'assign a divide multiply 40000 40000 0', ['global a: number too large']),
                (b'assign a add 1000000000 0.000001', ['global a: number too large']),
                (b'assign a sub 0.000001 -1000000000 assign b divide 1 0', ['global a: number too large']),
                (b'assign uphillcost -1 assign uphillcost 1', []),
                (b'assign uphillcutoff sub 0 0.000001 assign uphillcost -1', ['uphillcost is negative', 'uphillcutoff is negative']),
                (b'assign elevationmaxbuffer 2', ['elevationmaxbuffer 2.000000 is below elevationpenaltybuffer 5.000000']),
                (b'assign elevationpenaltybuffer 10.5', ['elevationmaxbuffer 10.000000 is below elevationpenaltybuffer 10.500000']),
                (b'assign elevationpenaltybuffer 10', []), (b'assign elevationmaxbuffer -2', ['elevationmaxbuffer is negative']),
                (b'assign a b', []), (b'assign a highway= assign uphillcost -1', [])):
            with self.subTest(section=section):
                self.assertEqual(refusals(section), wanted)

    def test_deep(self):
        for operator in (b'not ', b'add 1 ', b'( '):
            count = 999
            closes = b' )' * count if operator == b'( ' else b''
            wanted = ['global a: division by zero']
            self.assertEqual(refusals(b'assign a ' + operator * (count - 1) + b'divide 1 0' + closes[2:]), wanted)

    def test_made_sections_under_the_program(self):
        made, seen = random.Random(61), set()
        with tempfile.TemporaryDirectory() as room:
            paths = {name: os.path.join(room, name) for name in ('p.brf', 'l.dat', 'm.json')}
            for name, text in (('l.dat', TABLE), ('m.json', MAP)):
                with open(paths[name], 'wb') as file:
                    file.write(text)
            for _ in range(400):
                section = made_section(made)
                with open(paths['p.brf'], 'wb') as file:
                    file.write(b'---context:global\n' + section + WAYS)
                status, _, line = program.run('route', f'lookups={paths["l.dat"]}', f'profile={paths["p.brf"]}', f'map={paths["m.json"]}',
                                              'query=lonlats=1,1|1,1.001&profile=p')
                self.assertEqual((refusals(section) or [''])[0], line, section)
                self.assertEqual(status != 0, bool(line))
                seen.add(line.split(' ')[0] + line.rpartition(' ')[2])
        self.assertGreaterEqual(len(seen), 8, seen)


if __name__ == '__main__':
    unittest.main()
