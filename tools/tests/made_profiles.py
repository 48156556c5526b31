"""Profiles and tag tables made by a seed: whole ones, and such with changed tokens, lines and bytes."""
import random
import re

TABLE = b'''# a table to try on
---lookupversion:10
---minorversion:1

---context:way
reversedirection;0 yes
highway;0 residential
highway;01 primary primary_link
highway;2 track
surface;0 asphalt paved
surface;0 gravel
width;0 1 1.0
width;0 2.5
oneway;0 yes 1 true
---context:node
nodeaccessgranted;0 yes
barrier;0 gate
barrier;0 bollard
'''

PROFILE = b'''---context:global # what a rider sets
assign steep = true
assign uphillcost switch steep 60 0
assign far 2.25
---context:way
assign rough = or surface=gravel not surface=asphalt|paved
assign turncost = 90
assign costfactor = if highway= then 10000
  else if ( and rough oneway= ) then add far 0.5
  else switch highway=primary multiply 2 1.1 1
---context:node
assign initialcost = switch barrier=gate|bollard 20 0
'''

TOKENS = [b'assign', b'=', b'(', b')', b'if', b'then', b'else', b'switch', b'not', b'or', b'and', b'add', b'max', b'lesser', b'true',
          b'---context:way', b'---context:node', b'---context:global', b'---context:ways', b'---model:x', b'---', b'x', b'far', b'rough',
          b'steep', b'costfactor', b'turncost', b'uphillcost', b'elevationmaxbuffer', b'nodeaccessgranted', b'1', b'-2', b'0.1234567',
          b'-0', b'007', b'.5', b'1.', b'1e3', b'+1', b'-', b'--', b'-x', b'1000000000', b'1000000000.0000001', b'1000000001', b'1.0f',
          b'highway=', b'highway=unknown', b'highway=primary|track', b'highway=primary|', b'highway=|track', b'highway=motorway',
          b'barrier=', b'barrier=gate', b'width=1.0', b'higway=', b'=x', b'a==', b'v:width', b'global:far', b'way:turncost', b'my-name',
          b'gr\xc3\xb6\xc3\x9fe', b'\xff', b'a.b', b'#', b'# c', b'\n', b'a=\x00', b'\xef\xbb\xbf', b'unknown', b'Assign', b'xor']

LINES = [b'', b'#', b' # x', b'   ', b'---', b'---lookupversion:10', b'---lookupversion:', b'---lookupversion:1 2', b'---minorversion:1',
         b'---minorversion:1234567890', b'---minorversion:123456789 \t\r', b'---minorversions:1', b'---context:way', b' ---context:way',
         b'---context:way ', b'---context:node', b'---context:nodes', b'---readvarlength', b'reversedirection;0 yes',
         b'nodeaccessgranted;0 yes', b'nodeaccessgranted;0 no', b'highway;0', b'highway; x', b'highway x', b';0 x', b'a=b;0 x', b'a|b;0 x',
         b'a;0;1 x', b'a;x y', b'a;-1 y', b'  a;0 y', b'a;0\ty\x0bz', b'#a;0 b', b' #a;0 b', b'gr\xc3\xb6;0 x', b'gr\xf6;0 x', b'x\xff',
         b'\xef\xbb\xbf---lookupversion:10', b'a;0 x\x1c', b'a;0\xc2\xa0x', b'a;00000000000000000000000000000 x', b'x;0 unknown']


def changed(made, pieces, spare):
    """Some pieces with one to three changes: one left out, doubled, put in, exchanged or moved."""
    pieces = list(pieces)
    for _ in range(made.randint(1, 3)):
        place = made.randrange(len(pieces) + 1)
        way = made.randrange(5)
        if way == 0 or place == len(pieces):
            pieces.insert(place, made.choice(spare))
        elif way == 1:
            del pieces[place]
        elif way == 2:
            pieces[place] = made.choice(spare)
        elif way == 3:
            pieces.insert(made.randrange(len(pieces)), pieces[place])
        else:
            pieces.insert(made.randrange(len(pieces)), pieces.pop(place))
    return pieces


def changed_bytes(made, text):
    """A text with one to three changed bytes."""
    text = bytearray(text)
    for _ in range(made.randint(1, 3)):
        place = made.randrange(len(text) + 1)
        if made.random() < 0.5:
            text[place:place + made.randint(1, 4)] = b''
        else:
            text[place:place] = bytes([made.choice(b'\n\r\t\x0b\x0c\x1c\x85\xa0()#=|;-.09aZ_ \x00\xff')])
    return bytes(text)


def made_expression(made, depth):
    """An expression of random operators and operands."""
    if depth == 0 or made.random() < 0.3:
        return made.choice(TOKENS[25:]) if made.random() < 0.05 else made.choice([b'1', b'far', b'highway=', b'rough', b'highway=track'])
    form = made.choice([b'not %s', b'or %s %s', b'add %s %s', b'switch %s %s %s', b'if %s then %s else %s', b'( %s )', b'(%s)'])
    return form % tuple(made_expression(made, depth - 1) for _ in range(form.count(b'%s')))


def made_profile(made, bases):
    """The text of a profile: a whole one, a changed one, one of random assignments or tokens, or a deep one."""
    way = made.choices(['base', 'tokens', 'lines', 'bytes', 'assignments', 'words', 'deep'], [1, 8, 3, 3, 6, 2, 1])[0]
    base = made.choice(bases)
    if way == 'base':
        return base
    if way == 'tokens':
        return b''.join(changed(made, re.findall(rb'[^\s()]+|[()]|\s+', base), [b' ' + token + b' ' for token in TOKENS]))
    if way == 'lines':
        return b'\n'.join(changed(made, base.split(b'\n'), [b'assign x ' + made.choice(TOKENS), b'---context:node', b')']))
    if way == 'bytes':
        return changed_bytes(made, base)
    if way == 'assignments':
        return made_assignments(made)
    if way == 'words':
        return b' '.join(made.choice(TOKENS) for _ in range(made.randint(1, 12)))
    return deep_profile(made)


def made_assignments(made):
    """Assignments in any section of expressions that are mostly well formed."""
    names = [b'far', b'rough', b'costfactor', b'turncost', b'uphillcost', b'x', b'initialcost']
    lines = [b'---context:way', b'assign far 1', b'assign rough highway=track']
    for _ in range(made.randint(1, 6)):
        if made.random() < 0.2:
            lines.append(made.choice([b'---context:global', b'---context:way', b'---context:node']))
        lines.append(b'assign %s = %s' % (made.choice(names), made_expression(made, made.randint(0, 5))))
    return b'\n'.join(lines + [b'---context:way', b'assign costfactor 1'])


def deep_profile(made):
    """A profile whose expression is about as deep as may be."""
    depth = made.choice([997, 998, 999, 1000, 1001])
    last = made.choice([b'1', b'( 1 )', b'5x', b'.5', b')', b'else', b'', b'x', b'highway=motorway'])
    return b'---context:way assign costfactor ' + made.choice([b'not\n', b'add 1\n', b'switch highway= 1 ']) * depth + last


def made_table(made, base):
    """The text of a tag table: mostly a whole one, else a changed one."""
    way = made.randrange(8)
    if way < 4:
        return base
    if way < 7:
        return b'\n'.join(changed(made, base.split(b'\n'), LINES))
    return changed_bytes(made, base)


def made_cases(seed, count, bases=(PROFILE,), table=TABLE):
    """So many pairs of a profile and a table, the same for the same seed."""
    made = random.Random(seed)
    for _ in range(count):
        yield made_profile(made, bases), made_table(made, table)
