#!/usr/bin/env python3
"""Tries tools/profile with the program: six profiles of the published kind are rewritten and ridden in the example town, beside the same
rules written by hand; profiles that were taken keep their flat code; a table of the published kind gives the same rides. It tells each
try, and ends with status 1 where one failed. PROGRAM names the program, where not the one at crates/route_serve/out."""
import os
import re
import subprocess
import sys
import tempfile

sys.path.insert(0, os.path.dirname(os.path.dirname(os.path.abspath(__file__))))

from tests import program

TOOL = os.path.join(program.TOP, 'tools', 'profile')
PUBLISHED = os.path.join(program.TOP, 'tools', 'tests', 'published')
LOOKUPS = os.path.join(program.EXAMPLES, 'lookups.dat')
TOWN = os.path.join(program.EXAMPLES, 'town.json')
# What each profile has besides what is rewritten, and the lines that are marked because a ride may be another one than in BRouter.
PROFILES = {'trekking': ([], [24, 25, 26, 27, 97]), 'fast': ([], []), 'shortest': ([], []), 'safety': ([], []), 'mountain': ([], []),
            'gravel': (['uphillcost=55'], [3, 5, 5, 6, 7, 8, 11, 13, 17])}
RIDES = ['8.5293,49.1112|8.5297,49.1211', '8.5181,49.1069|8.5060,49.1134', '8.5193,49.1033|8.5297,49.1211', '8.5332,49.1058|8.5386,49.1057',
         '8.5222,49.1059|8.5140,49.1061', '8.5140,49.1070|8.5222,49.1068', '8.5111,49.1034|8.5084,49.1044', '8.5113,49.1079|8.5005,49.1117',
         '8.5139,49.1043|8.5193,49.1033', '8.5207,49.1042|8.5221,49.1050', '8.5156,49.1114|8.5198,49.1150', '8.5110,49.1007|8.5000,49.1011']


class Tries:
    """The tries, with a room for files."""

    def __init__(self, room):
        self.room = room
        self.failed = []
        self.count = 0

    def told(self, name, right, found=''):
        print(f"{'ok  ' if right else 'FAIL'} {name}" + ('' if right else f': {found!r}'))
        self.count += 1
        if not right:
            self.failed.append(name)

    def path(self, name):
        return os.path.join(self.room, name)

    def replies(self, profile, table, rides=RIDES):
        """The reply to each ride, by a profile's file under a table's file."""
        name = os.path.basename(profile)[:-4]
        return [program.run('route', f'lookups={table}', f'profile={profile}', f'map={TOWN}', f'tile={self.path("N49E008.hgt")}',
                            f'query=lonlats={ride}&profile={name}&format=csv') for ride in rides]

    def convert(self, *words):
        """The status of a conversion, and its lines."""
        done = subprocess.run([sys.executable, TOOL, 'convert', *words], stdout=subprocess.PIPE, stderr=subprocess.STDOUT, check=False)
        return done.returncode, done.stdout.decode().splitlines()

    def try_published(self, name, words, marked):
        """A profile of the published kind: its marks, and the rides by it beside those by the same rules in the program's forms."""
        out = self.path(f'{name}.brf')
        status, lines = self.convert(os.path.join(PUBLISHED, f'{name}.brf'), LOOKUPS, out, *words)
        self.told(f'{name}: rewritten', status == 0, lines)
        found = [int(each) for line in lines for each in re.findall(r'^! line (\d+): ', line)]
        self.told(f'{name}: marked at the lines {marked}', found == marked, found)
        if status == 0:
            by_tool, by_hand = self.replies(out, LOOKUPS), self.replies(os.path.join(PUBLISHED, 'plain', f'{name}.brf'), LOOKUPS)
            found = [ride for ride, one, other in zip(RIDES, by_tool, by_hand) if one != other]
            self.told(f'{name}: rides as by the rules written by hand', not found, found)
            tracks = sum(status == 0 for status, _, _ in by_tool)
            self.told(f'{name}: {tracks} of {len(RIDES)} rides have a track', tracks >= 8, by_tool)

    def try_taken(self, name):
        """A profile that the program takes keeps its flat code; one with a closing line gets nothing but that."""
        source, out = os.path.join(program.EXAMPLES, f'{name}.brf'), self.path(f'taken-{name}.brf')
        status, lines = self.convert(source, LOOKUPS, out)
        before, _ = program.code(source, LOOKUPS)
        same = status == 0 and before is not None and before == program.code(out, LOOKUPS)[0]
        self.told(f'{name}.brf of the examples keeps its flat code', same, lines)

    def try_closing(self):
        """The flat code before the line that closes ways of costfactor 9999 stays."""
        source, out = self.path('source.brf'), self.path('closing.brf')
        with open(source, 'w', encoding='utf-8') as file:
            file.write('---context:way\nassign costfactor = min 9999 switch service=alley 20000 1\n')
        self.convert(source, LOOKUPS, out)
        before, after = (program.code(each, LOOKUPS)[0].splitlines() for each in (source, out))
        self.told('a closing line comes behind the flat code', after[:len(before) - 1] == before[:-1] and len(after) > len(before), after)
        rides = [self.replies(each, LOOKUPS, ['8.52079,49.105517|8.5293,49.1112'])[0] for each in (source, out)]
        alleys = [b'service=alley' in reply for _, reply, _ in rides]
        self.told('no waypoint is mapped to a closed way', [rides[1][0], *alleys] == [0, True, False], rides)

    def try_table(self):
        """The table of the examples in the published forms gives the same rides when it is rewritten."""
        with open(LOOKUPS, 'rb') as file:
            text = file.read()
        text = re.sub(rb'(?m)^(reversedirection|nodeaccessgranted);0 yes\n', b'', text)
        text = re.sub(rb'(?m)^#', b'  # \xfc', text).replace(b'highway;0 ', b'highway ')
        published, table, out = self.path('published.dat'), self.path('rewritten.dat'), self.path('trekking.brf')
        with open(published, 'wb') as file:
            file.write(text)
        source = os.path.join(program.EXAMPLES, 'trekking.brf')
        self.told('a table of the published kind is refused', program.code(source, published)[1].startswith('lookup line'))
        status, lines = self.convert(source, published, out, f'table={table}')
        self.told('a table of the published kind is rewritten', status == 0, lines[-3:])
        self.told('it gives the same rides', self.replies(out, table) == self.replies(source, LOOKUPS))

    def try_lacking(self):
        """What a profile looks at and a table lacks is refused, and put in where a table is written."""
        source, out, table = self.path('lacking.brf'), self.path('out.brf'), self.path('out.dat')
        with open(source, 'w', encoding='utf-8') as file:
            file.write('---context:way\nassign costfactor = switch smog=thick 2 1\n---context:node assign x = barrier=portcullis\n')
        status, lines = self.convert(source, LOOKUPS, out)
        self.told('what the table lacks is refused', status == 1 and sum(line.startswith('refused: ') for line in lines) == 2
                  and not os.path.exists(out), lines)
        status, _ = self.convert(source, LOOKUPS, out, f'table={table}')
        self.told('or put into the table', status == 0 and program.code(out, table)[0] is not None)


def main():
    """Tries all; the status is 1 where one failed."""
    with tempfile.TemporaryDirectory() as room:
        subprocess.run([sys.executable, os.path.join(program.EXAMPLES, 'town.py'), room], check=True)
        tries = Tries(room)
        for name, (words, marked) in PROFILES.items():
            tries.try_published(name, words, marked)
        for name in ('trekking', 'road', 'careful', 'gravel'):
            tries.try_taken(name)
        tries.try_closing()
        tries.try_table()
        tries.try_lacking()
    print(f'{tries.count - len(tries.failed)} passed, {len(tries.failed)} failed')
    return 1 if tries.failed else 0


if __name__ == '__main__':
    sys.exit(main())
