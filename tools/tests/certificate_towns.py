"""Made towns and made profiles to ride in: crooked squares with tags, turn restrictions and a cycle route; expressions of every form."""
WAY_LOOKS = ('highway=track', 'highway=primary|residential', 'highway=cycleway', 'oneway=yes', 'reversedirection=yes', 'bicycle=no',
             'bicycle=', 'junction=unknown', 'route_bicycle_rcn=yes', 'highway=unknown')
NODE_LOOKS = ('nodeaccessgranted=yes', 'barrier=gate', 'barrier=bollard|gate', 'bicycle=unknown', 'barrier=')
NUMBERS = ('0', '1', '2', '0.5', '1.1', '3', '10', '-1', '0.000001', '60', '100', '7.3')
TWO = 'or and xor multiply add sub max min equal greater lesser divide'.split()
GLOBALS = {'uphillcost': ('0', '10', '60', '100.7'), 'downhillcost': ('0', '20', '60'), 'uphillcutoff': ('0', '1.5', '3'),
           'downhillcutoff': ('0', '1.5'), 'elevationpenaltybuffer': ('5', '0', '2.5'), 'elevationmaxbuffer': ('10', '5', '12.25'),
           'elevationbufferreduce': ('0', '5', '100'), 'considerTurnRestrictions': ('0', '1'), 'x': ('1', '0')}
FACTORS = ('', 'assign uphillcostfactor add costfactor max 0 {0}', 'assign downhillcostfactor add costfactor max 0 {0}',
           'assign uphillcostfactor multiply costfactor 0.5', 'assign downhillcostfactor switch {0} 0.7 3')
CORNERS = ((0, 0), (0, 0), (-1500, -1200), (900_000, 300))
NODE_TAGS = ('', '', '', ',"tags":{"barrier":"gate"}', ',"tags":{"barrier":"bollard","bicycle":"maybe"}',
             ',"tags":{"nodeaccessgranted":"yes","bicycle":"no"}')
WAY_TAGS = ('"oneway":"yes"', '"oneway":"no"', '"bicycle":"no"', '"junction":"roundabout"', '"surface":"asphalt"',
            '"reversedirection":"yes"')


def expression(draw, names, looks, depth=0):
    """An expression of the names and looks, at most five deep."""
    if depth > 4 or draw.random() < 0.35:
        return draw.choice((draw.choice(NUMBERS), draw.choice((*names, *looks))))
    parts = [expression(draw, names, looks, depth + 1) for _ in range(3)]
    two = draw.choice(TWO) + ' {0} {1}'
    return draw.choice(('switch {0} {1} {2}', 'if {0} then {1} else ( {2} )', 'not {0}', *6 * [two])).format(*parts)


def profile_text(draw):
    """A profile that the table of the tries takes; now and then it divides by zero on some tags."""
    assigned = [name for name in GLOBALS if draw.random() < 0.6]
    names = ['x'] if 'x' in assigned else []
    way = []
    for name in ('a', 'b'):
        if draw.random() < 0.5:
            way.append(f'assign {name} = {expression(draw, names, WAY_LOOKS)}')
            names.append(name)
    made = [expression(draw, names, WAY_LOOKS) for _ in range(4)]
    costfactor = draw.choice(('max 0.3 min 3 {0}', 'switch {0} 1 2', '1', 'switch and oneway=yes reversedirection=yes 10000 1.3'))
    way.append('assign costfactor ' + costfactor.format(made[0]))
    way.append(draw.choice(FACTORS).format(made[1]))
    turncost = draw.choice(('90', '20.5', 'switch junction= 10 0'))
    way += [it for it in (f'assign turncost {turncost}', 'assign initialcost switch highway=track 50 5',
                          f'assign initialclassifier {made[2]}', f'assign nodeaccessgranted {made[3]}') if draw.random() < 0.5]
    node = draw.choice(('', 'assign initialcost switch and barrier=gate not nodeaccessgranted=yes 1000000 3',
                        f'assign initialcost max 0 {expression(draw, names[:1] if "x" in assigned else [], NODE_LOOKS)}'))
    return '\n'.join(('---context:global', *(f'assign {it} {draw.choice(GLOBALS[it])}' for it in assigned),
                      '---context:way', *way, '---context:node', node, ''))


def degrees(count):
    return f"{'-' if count < 0 else ''}{abs(count) // 10**6}.{abs(count) % 10**6:06}"


def streets(draw, side, node_ids):
    """The nodes of the ways, of which each row and column of squares makes two; a way may end with a node given twice."""
    for place in range(side):
        for line in (node_ids[place * side:(place + 1) * side], node_ids[place::side]):
            cut = draw.randrange(1, side)
            for nodes in (line[:cut + 1], line[cut:]):
                if len(nodes) > 1 and draw.random() < 0.85:
                    yield nodes + nodes[-1:] * (draw.random() < 0.1)


def town_text(draw):
    """The text of a town's map, and the places of its nodes in microdegrees."""
    side, corner = draw.choice((3, 4, 5)), draw.choice(CORNERS)
    node_ids = draw.sample(range(-50, 200), side * side)
    places = [(corner[0] + 800 * (it % side) + draw.randrange(300), corner[1] + 700 * (it // side) + draw.randrange(300))
              for it in range(side * side)]
    elements = [f'{{"type":"node","id":{number},"lat":{degrees(north)},"lon":{degrees(east)}{draw.choice(NODE_TAGS)}}}'
                for number, (east, north) in zip(node_ids, places)]
    ways = dict(enumerate(streets(draw, side, node_ids), 100))
    for number, nodes in ways.items():
        highway = draw.choice(('residential', 'primary', 'track', 'cycleway', 'path'))
        tags = ','.join([f'"highway":"{highway}"', *(it for it in WAY_TAGS if draw.random() < 0.15)])
        elements.append(f'{{"type":"way","id":{number},"nodes":{nodes},"tags":{{{tags}}}}}')
    for number in range(draw.randrange(4)):
        from_way, to_way = draw.choice(list(ways)), draw.choice(list(ways))
        via = draw.choice([it for it in ways[from_way] if it in ways[to_way]] or ways[from_way])
        rule = draw.choice(('no_left_turn', 'only_straight_on', 'xno_'))
        excepted = draw.choice(('', ',"except":"psv;bicycle"', ',"except":"psv"'))
        elements.append(f'{{"type":"relation","id":{number},"members":[{{"type":"way","ref":{from_way},"role":"from"}},'
                        f'{{"type":"node","ref":{via},"role":"via"}},{{"type":"way","ref":{to_way},"role":"to"}}],'
                        f'"tags":{{"type":"restriction","restriction":"{rule}"{excepted}}}}}')
    elements.append(f'{{"type":"relation","id":77,"members":[{{"type":"way","ref":{draw.choice(list(ways))},"role":""}}],'
                    '"tags":{"type":"route","route":"bicycle","network":"rcn"}}')
    return '{"elements":[\n%s]}' % ',\n'.join(elements), places


def query(draw, places):
    """A query for a ride between a few of the places, now and then with circles and an override."""
    def near():
        east, north = draw.choice(places)
        return f'{degrees(east + draw.randrange(-300, 300))},{degrees(north + draw.randrange(-300, 300))}'

    text = 'lonlats=' + '|'.join(near() for _ in range(draw.choice((2, 2, 3, 4)))) + '&profile=made&labels=20000'
    if draw.random() < 0.4:
        text += '&nogos=' + '|'.join(f"{near()},{draw.choice(('1', '10.5', '40'))}" for _ in range(draw.choice((1, 2))))
    return text + draw.choice(('', '', '', '', '&profile:x=1', '&profile:uphillcost=33.3', '&profile:considerTurnRestrictions=1',
                               '&profile:elevationmaxbuffer=4'))
