"""`profile check`: the program's first refusal, found without it, and each fault with its place and what to do."""
import os
import subprocess
import sys
import tempfile
import unittest

from profiles.check import findings, told
from profiles.syntax import Reader
from profiles.table import Table
from profiles.check import in_order
from tests import case_rows, program
from tests.made_profiles import PROFILE, TABLE, made_cases

TOOL = os.path.join(program.TOP, 'tools', 'profile')


def first_refusal(call, texts):
    """The first refusal of a row's texts, as the case program prints it."""
    if call == 'table':
        faults = in_order(Table(texts[0]).faults)
        return faults[0].refusal if faults else 'accepted'
    if call == 'profile':
        faults = Reader(texts[0]).faults
        return f'profile line {faults[0].token.line}: {faults[0].kind}' if faults else 'accepted'
    found = findings('p.brf', texts[1], 'l.dat', texts[0])
    return found[0].refusal if found else 'accepted'


def lines_of(profile, table=TABLE):
    return told(findings('p.brf', profile, 'l.dat', table))


class FirstRefusals(unittest.TestCase):
    """The last line is the program's own first refusal."""

    def test_rows_of_the_tables_of_cases(self):
        rows = list(case_rows.rows())
        self.assertGreater(len(rows), 100)
        for call, texts, answer in rows:
            with self.subTest(call=call, texts=texts):
                self.assertEqual(first_refusal(call, texts), answer)

    def test_made_texts_under_the_program(self):
        seen = set()
        with tempfile.TemporaryDirectory() as room:
            profile_path, table_path = os.path.join(room, 'p.brf'), os.path.join(room, 'l.dat')
            for profile, table in made_cases(20, 400):
                for path, text in ((profile_path, profile), (table_path, table)):
                    with open(path, 'wb') as file:
                        file.write(text)
                _, refusal = program.code(profile_path, table_path)
                found = findings(profile_path, profile, table_path, table)
                self.assertEqual(found[0].refusal if found else '', refusal, (profile, table))
                seen.add(refusal.rpartition(': ')[2] if refusal.startswith('profile') else refusal.rstrip('0123456789'))
        self.assertGreaterEqual(len(seen), 15, seen)

    def test_files_that_are_too_long(self):
        long_table, long_profile = TABLE + b'\n' * 1_048_577, PROFILE + b' ' * 262_145
        self.assertEqual(findings('p.brf', long_profile, 'l.dat', long_table)[0].refusal, 'file too long')
        self.assertEqual(findings('p.brf', long_profile, 'l.dat', b'x')[0].refusal, 'lookup line 1')
        self.assertEqual([each.refusal for each in findings('p.brf', long_profile, 'l.dat', TABLE)], ['file too long'])

    def test_limits_of_a_table(self):
        tags = b''.join(b't%d;0 x\n' % number for number in range(1023))
        full = TABLE.split(b'highway')[0] + tags + b'---context:node\nnodeaccessgranted;0 yes\n'
        self.assertEqual(Table(full).faults, [])
        more = full.replace(b't0;0 x\n', b't0;0 x\nu;0 x\n')
        self.assertEqual(Table(more).faults[0].refusal, 'too many at line 1030')

    def test_names_of_files(self):
        for name, taken in (('a.brf', True), ('x/' + 'a' * 64, True), ('a' * 65, False), ('custom_1.brf', False), ('.brf', False),
                            ('a.b.brf', False), ('grün.brf', False), ('a-b_C9.brf', True)):
            found = findings(name, PROFILE, 'l.dat', TABLE)
            self.assertEqual([each.refusal for each in found], [] if taken else ['usage: word 2'], name)


class AllFaults(unittest.TestCase):
    """Each fault is told with its place and with what to do."""

    def faults(self, way, table=TABLE):
        return lines_of(b'---context:way\nassign costfactor 1\n' + way, table)[:-1]

    def one(self, way):
        found = self.faults(way)
        self.assertEqual(len(found), 1, found)
        return found[0]

    def test_what_is_taken(self):
        self.assertEqual(lines_of(PROFILE), ['the program takes it'])

    def test_all_at_once(self):
        text = PROFILE.replace(b'2.25', b'.5').replace(b'rough oneway=', b'rouh onway=').replace(b'gate|bollard', b'gates')
        self.assertEqual([line.split(': ')[0] for line in lines_of(text)],
                         ['p.brf:4:12', 'p.brf:9:17', 'p.brf:9:22', 'p.brf:12:29', 'first refusal'])

    def test_a_section_that_is_missing_is_told_once(self):
        for head, first in ((b'', 'section'), (b'\xef\xbb\xbf---context:global\n', 'token'), (b'---context:globals\n', 'section')):
            lines = lines_of(head + b'assign a 1\nassign b a\n---context:way assign costfactor b')
            self.assertEqual([line.split(': ')[2 if ':1:1: ' in line else 1] for line in lines], [first, 'profile line 1'], lines)

    def test_columns_are_characters(self):
        self.assertTrue(self.one('# süß\nassign größe\t2\nassign turncost 1'.encode()).startswith('p.brf:4:8: `größe`: token: '))

    def test_nearest_tags_and_values(self):
        self.assertIn('nearest tags: `highway`', self.one(b'assign x higway=track'))
        self.assertIn('nearest values: `track`', self.one(b'assign x highway=tracks'))
        self.assertIn('among the tags of nodes', self.one(b'assign x barrier=gate'))

    def test_where_a_name_is_assigned(self):
        self.assertIn('assigned at line 4 alone', self.one(b'assign x y\nassign y 1'))
        self.assertIn('in the section `way` alone, at line 3', self.one(b'assign y 1\n---context:node assign x y'))
        self.assertIn('nearest names: `costfactor`', self.one(b'assign x costfaktor'))

    def test_words_that_are_missing(self):
        self.assertIn('write `then` before this', self.one(b'assign x if 1 2 else 3'))
        self.assertIn('write `)` before this', self.one(b'assign x ( 1 assign y 2'))
        self.assertIn('an operand is missing', self.one(b'assign x ( or 1 )'))
        self.assertIn('no bracket is open', self.one(b'assign x 1 )'))
        self.assertIn('ends inside an assignment', self.one(b'assign x'))

    def test_forms_that_convert_rewrites(self):
        for form in (b'v:width', b'global:far', b'.5', b'1e3', b'1.', b'highway=|track'):
            self.assertIn('`convert` does so', self.one(b'assign x ' + form), form)
        for name in (b'my-name', b'2x', 'größe'.encode()):
            faults = self.faults(b'assign %s 1\nassign x %s' % (name, name))
            self.assertEqual([line.count('; `convert` does so') for line in faults], [1, 1], name)
        self.assertIn('neither a number, a name', self.one(b'assign x my-name'))

    def test_lines_of_tables(self):
        table = TABLE.replace(b'highway;2 track', b'  # c\nhighway track\n---context:way').replace(b'---minorversion:1\n', b'')
        self.assertEqual([line.split(': ')[1] for line in lines_of(PROFILE, table)], [
            'lookup version', 'lookup line 8', 'lookup line 9', 'lookup line 10', 'lookup line 8'])


class CommandLine(unittest.TestCase):
    """The command ends with 0 where the program takes the files, 1 where it doesn't, and 2 where one can't be read."""

    def run_tool(self, *words):
        done = subprocess.run([sys.executable, TOOL, *words], stdout=subprocess.PIPE, stderr=subprocess.PIPE, check=False)
        return done.returncode, done.stdout.decode(), done.stderr.decode()

    def test_statuses(self):
        with tempfile.TemporaryDirectory() as room:
            paths = [os.path.join(room, name) for name in ('p.brf', 'l.dat', 'none.dat')]
            for path, text in zip(paths, (PROFILE, TABLE)):
                with open(path, 'wb') as file:
                    file.write(text)
            self.assertEqual(self.run_tool('check', paths[0], paths[1]), (0, 'the program takes it\n', ''))
            status, out, _ = self.run_tool('check', paths[0], paths[0])
            self.assertEqual((status, out.splitlines()[-1]), (1, 'first refusal: lookup line 2'))
            status, out, errors = self.run_tool('check', paths[0], paths[2])
            self.assertEqual((status, out), (2, ''))
            self.assertIn('none.dat: No such file', errors)
            self.assertEqual(self.run_tool('check')[0], 2)
        self.assertIn('check', self.run_tool('--help')[1])


if __name__ == '__main__':
    unittest.main()
