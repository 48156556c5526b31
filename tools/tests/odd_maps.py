"""Odd maps, each with what is wanted of it: the ride that the program finds on the map that is made of it, or why none is made.
Nodes 1 to 4 lie in a row from west to east, 73 metres apart; each ride goes from node 1 to node 3."""
import json

LOOKUPS = """---lookupversion:10
---minorversion:1
---context:way
reversedirection;0 yes
highway;0 residential
highway;0 construction
route;0 ferry
route_bicycle_rcn;0 yes
---context:node
nodeaccessgranted;0 yes
barrier;0 gate
"""
PROFILE = """---context:global
assign considerTurnRestrictions 1
---context:way
assign costfactor
  if highway=construction then 10000
  else if route_bicycle_rcn=yes then 2
  else 1
---context:node
assign initialcost switch barrier=gate 1000000 0
"""
QUERY = 'lonlats=8.001,49|8.003,49&profile=odd&format=csv'
ROAD = {'highway': 'residential'}
STRAIGHT = '5/0/f 5/1/f'


def node(number, place=None, **more):
    return {'type': 'node', 'id': number, 'lat': 49.0, 'lon': round(8 + (number if place is None else place) / 1000, 6), **more}


def way(number, *nodes, **tags):
    return {'type': 'way', 'id': number, 'nodes': list(nodes), 'tags': tags or ROAD}


def relation(number, *members, **tags):
    return {'type': 'relation', 'id': number, 'tags': tags,
            'members': [{'type': {'w': 'way', 'n': 'node', 'r': 'relation'}[kind], 'ref': ref, 'role': role} for kind, ref, role in members]}


def text(*elements, **more):
    return json.dumps({'version': 0.6, 'elements': list(elements), **more})


def without(element, name):
    return {key: value for key, value in element.items() if key != name}


def raw(element, old, new):
    """A map with nodes 1 to 3 and their road, after an element whose text is changed."""
    return text(element, *ROW, way(5, 1, 2, 3)).replace(old, new, 1)


ROW = [node(number) for number in (1, 2, 3, 4)]
TURN = [('w', 5, 'from'), ('n', 2, 'via'), ('w', 6, 'to')]
NO_TURN = {'type': 'restriction', 'restriction': 'no_straight_on'}
TWO = [*ROW, way(5, 1, 2), way(6, 2, 3)]
ALONG = 'walk 5/0/f 6/0/f'
DETOUR = [node(7, 2.1, lat=49.0005), way(8, 2, 7), way(9, 7, 3)]

# Name, text, what is wanted: `walk` with the links of the ride, another answer of the program, or `refused` with a part of the reason.
ODD_MAPS = [
    ('as it should be', text(*ROW, way(5, 1, 2, 3)), 'walk ' + STRAIGHT),
    ('ways before nodes', text(way(5, 1, 2, 3), *ROW), 'walk ' + STRAIGHT),
    ('nodes in falling order', text(*ROW[::-1], way(5, 1, 2, 3)), 'walk ' + STRAIGHT),
    ('ways in falling order', text(*ROW, way(6, 2, 3), way(5, 1, 2)), ALONG),
    ('relations before all', text(relation(3, *TURN, **NO_TURN), *TWO), 'no track: leg 0'),
    ('a node twice', text(*ROW, ROW[1], way(5, 1, 2, 3)), 'walk ' + STRAIGHT),
    ('a node twice, at two places', text(*ROW, node(2, 2.5), way(5, 1, 2, 3)), 'refused node 2 is there twice, at two places'),
    ('a node twice, with tags in the second', text(*ROW, node(2, tags={'barrier': 'gate'}), way(5, 1, 2, 3)), 'no track: leg 0'),
    ('a node twice, with tags in the first', text(node(2, tags={'barrier': 'gate'}), *ROW, way(5, 1, 2, 3)), 'no track: leg 0'),
    ('a node twice, the same but beyond the sixth decimal', text(*ROW, node(2, lat=49.0000001), way(5, 1, 2, 3)), 'walk ' + STRAIGHT),
    ('a way twice', text(*ROW, way(5, 1, 2, 3), way(5, 1, 2, 3)), 'walk ' + STRAIGHT),
    ('a way twice, with other nodes', text(*ROW, way(5, 1, 2, 3), way(5, 1, 3)), 'refused way 5 is there twice, with other nodes'),
    ('a way twice, cut', text(*ROW, way(5, 1, 2, 3, 99, 4), way(5, 1, 2, 3, 99, 4)), 'walk ' + STRAIGHT),
    ('a relation twice', text(*TWO, relation(3, *TURN, **NO_TURN), relation(3, *TURN, **NO_TURN)), 'no track: leg 0'),
    ('a relation twice, with other members', text(*TWO, relation(3, *TURN, **NO_TURN), relation(3, *TURN[:2], **NO_TURN)),
     'refused relation 3 is there twice, with other members'),
    ('a way with a single node', text(*ROW, way(4, 2), way(5, 1, 2, 3)), 'walk ' + STRAIGHT),
    ('a way without nodes', text(*ROW, way(4), way(5, 1, 2, 3)), 'walk ' + STRAIGHT),
    ('a node twice in a row on a way', text(*ROW, way(5, 1, 2, 2, 3)), 'walk 5/0/f 5/2/f'),
    ('a way that is the same node alone', text(*ROW, way(4, 2, 2), way(5, 1, 2, 3)), 'walk ' + STRAIGHT),
    ('two nodes at one place', text(*ROW, node(9, 2), way(5, 1, 2, 9, 3)), 'walk 5/0/f 5/1/f 5/2/f'),
    ('a missing node in the middle', text(*ROW, way(5, 1, 2, 99, 3, 4)), 'no track: leg 0'),
    ('a missing node at the front', text(*ROW, way(5, 99, 1, 2, 3)), 'walk ' + STRAIGHT),
    ('a missing node at the end', text(*ROW, way(5, 1, 2, 3, 99)), 'walk ' + STRAIGHT),
    ('a missing node before the ride', text(*ROW, node(0), node(-1), way(5, 0, -1, 99, 1, 2, 3)), 'walk -1/0/f -1/1/f'),
    ('lone nodes between missing ones', text(*ROW, way(5, 1, 2, 3, 99, 4, 98)), 'walk ' + STRAIGHT),
    ('all nodes missing', text(way(5, 1, 2, 3)), 'refused nothing is left'),
    ('no two nodes in a row', text(*ROW, way(5, 1, 99, 2, 98, 3)), 'refused nothing is left'),
    ('no elements', text(), 'refused nothing is left'),
    ('no roads', text(*ROW, way(5, 1, 2, 3, building='yes')), 'refused nothing is left'),
    ('an empty object', '{}', 'refused it has no member `elements`'),
    ('elements that are no array', '{"elements":{}}', 'refused its member `elements` is no array'),
    ('an array alone', json.dumps(ROW), 'refused no JSON text'),
    ('an element that is a number', text(5, *ROW, way(5, 1, 2, 3)), 'refused element 1 has the wrong shape'),
    ('an element without type', text(*ROW, way(5, 1, 2, 3), {'id': 5}), 'refused element 6 has the wrong shape'),
    ('elements of other types', text({'type': 'area', 'id': 'x'}, {'type': 'count'}, *ROW, way(5, 1, 2, 3)), 'walk ' + STRAIGHT),
    ('a node without its place', text(*ROW, without(node(9), 'lat'), way(5, 1, 2, 3)), 'refused node 9 has no number `lat`'),
    ('a latitude as a text', text(*ROW, node(9, lat='49.0'), way(5, 1, 2, 3)), 'refused node 9 has no number `lat`'),
    ('a latitude that is true', text(*ROW, node(9, lat=True), way(5, 1, 2, 3)), 'refused node 9 has no number `lat`'),
    ('a latitude beyond the pole', text(*ROW, node(9, lat=90.000001), way(5, 1, 2, 3)), 'refused node 9 has a bad coordinate'),
    ('a longitude beyond the edge', text(*ROW, node(9, lon=-180.1), way(5, 1, 2, 3)), 'refused node 9 has a bad coordinate'),
    ('a latitude that isn\'t finite', text(*ROW, node(9, lat=float('nan')), way(5, 1, 2, 3)), 'refused no JSON text'),
    ('a vast exponent', raw(node(9), '49.0', '1e999999'), 'refused node 9 has a bad coordinate'),
    ('an exponent', text(*ROW, way(5, 1, 2, 3)).replace('49.0', '4.9e1'), 'walk ' + STRAIGHT),
    ('a whole latitude', text(*ROW, way(5, 1, 2, 3)).replace('49.0', '49'), 'walk ' + STRAIGHT),
    ('a number of five thousand digits', raw(node(9), '49.0', '4' * 5000), 'refused no JSON text'),
    ('an id with a point', raw(node(9), '"id": 9', '"id": 9.0'), 'refused element 1, a node, has no whole `id`'),
    ('an id of 65 bits', text(*ROW, way(2 ** 63, 1, 2), way(5, 1, 2, 3)), 'refused element 5, a way, has no whole `id`'),
    ('an id that is true', text(*ROW, way(True, 1, 2), way(5, 1, 2, 3)), 'refused element 5, a way, has no whole `id`'),
    ('negative ids', text(node(-1, 1), node(-2, 2), node(-3, 3), way(-5, -1, -2, -3)), 'walk -5/0/f -5/1/f'),
    ('negative ids and a cut', text(node(-1, 1), node(-2, 2), node(-3, 3), node(-4, 4), way(-5, -4, -3, 99, -1, -2, -3)),
     'walk -6/0/f -6/1/f'),
    ('the least id of all and a cut', text(*ROW, way(-2 ** 63, 1, 2, 99, 3, 4)), 'refused no ids are left'),
    ('tags that are an array', text(*ROW, {**way(5, 1, 2, 3), 'tags': []}), 'refused the tags of way 5'),
    ('tags that are null', text(*ROW, {**way(5, 1, 2, 3), 'tags': None}), 'refused the tags of way 5'),
    ('a tag that is a number', text(*ROW, way(5, 1, 2, 3, highway='residential', lanes=2)), 'refused the tags of way 5'),
    ('a way without a list of nodes', text(*ROW, without(way(5), 'nodes')), 'refused way 5 has no array `nodes`'),
    ('a way along a text', text(*ROW, way(5, 1, '2', 3)), 'refused way 5 has no array `nodes`'),
    ('half a surrogate pair in a name', text(*ROW, way(5, 1, 2, 3, highway='residential', name='\ud83d')), 'walk ' + STRAIGHT),
    ('a name outside the first plane', text(*ROW, way(5, 1, 2, 3, highway='residential', name='Ü 😀')), 'walk ' + STRAIGHT),
    ('control characters in a name', text(*ROW, way(5, 1, 2, 3, highway='residential', name='\x00\n\x7f"\\')), 'walk ' + STRAIGHT),
    ('a plain line break in a name', text(*ROW, way(5, 1, 2, 3, highway='residential', name='#')).replace('#', '\n'), 'refused no JSON text'),
    ('bytes that aren\'t UTF-8', text(*ROW, way(5, 1, 2, 3, highway='residential', name='#')).encode().replace(b'#', b'\xfc'),
     'refused bytes that aren\'t UTF-8'),
    ('a byte order mark', '\ufeff' + text(*ROW, way(5, 1, 2, 3)), 'walk ' + STRAIGHT),
    ('a text cut off', text(*ROW, way(5, 1, 2, 3))[:-40], 'refused no JSON text'),
    ('a text without its last bracket', text(*ROW, way(5, 1, 2, 3))[:-1], 'refused it ends in the middle'),
    ('something behind the text', text(*ROW, way(5, 1, 2, 3)) + 'x', 'refused something stands behind the text'),
    ('a remark at the end', text(*ROW, way(5, 1, 2, 3), remark='runtime error: Query timed out'), 'refused the answer is incomplete'),
    ('a remark at the front', '{"remark":"out of memory",' + text(*ROW, way(5, 1, 2, 3))[1:], 'refused the answer is incomplete'),
    ('an empty remark', text(*ROW, way(5, 1, 2, 3), remark=''), 'walk ' + STRAIGHT),
    ('a member of an element twice', raw(node(2), '"id": 2', '"id": 2, "id": 3'), 'walk ' + STRAIGHT),
    ('a tag twice', text(*ROW, way(5, 1, 2, 3)).replace('"highway"', '"highway": "construction", "highway"'), 'not mapped: waypoint 0'),
    ('elements twice', text(*ROW, way(5, 1, 2, 3))[:-1] + ', "elements": [7]}', 'walk ' + STRAIGHT),
    ('members that nobody names', text({**node(9), 'x': [[[{}]]], 'version': None}, *ROW, way(5, 1, 2, 3), more=[1]), 'walk ' + STRAIGHT),
    ('sixty thousand brackets', text(*ROW, way(5, 1, 2, 3))[:-1] + ', "x": ' + '[' * 60_000 + ']' * 60_000 + '}', 'refused no JSON text'),
    ('a route with members that aren\'t there', text(*TWO, relation(3, ('w', 77, ''), ('r', 3, ''), ('n', 2, ''), ('w', 5, ''), type='route',
                                                     route='bicycle', network='rcn')), ALONG + ' cost 219.096000'),
    ('a route without members', text(*TWO, relation(3, type='route', route='bicycle', network='rcn')), ALONG),
    ('a route without network', text(*TWO, relation(3, ('w', 5, ''), type='route', route='bicycle')), ALONG + ' cost 146.064000'),
    ('a route that is only proposed', text(*TWO, relation(3, ('w', 5, ''), type='route', route='bicycle', network='rcn', state='proposed')),
     ALONG + ' cost 146.064000'),
    ('a route of a road that is cut', text(*ROW, node(0), way(5, 0, 99, 1, 2, 98, 2, 3), relation(3, ('w', 5, ''), type='route',
                                           route='bicycle', network='rcn')), 'walk 5/0/f -1/0/f cost 292.128000'),
    ('a relation without members\' list', text(*TWO, without(relation(3), 'members')), 'refused relation 3 has no array `members`'),
    ('a member without role', text(*TWO, {**relation(3), 'members': [{'type': 'way', 'ref': 5}]}), 'refused relation 3 has no array `members`'),
    ('a restriction', text(*TWO, relation(3, *TURN, **NO_TURN)), 'no track: leg 0'),
    ('a restriction whose node is missing', text(*TWO, relation(3, TURN[0], ('n', 77, 'via'), TURN[2], **NO_TURN)), ALONG),
    ('a restriction whose way is missing', text(*TWO, relation(3, ('w', 77, 'from'), *TURN[1:], **NO_TURN)), ALONG),
    ('a restriction by a way', text(*TWO, relation(3, TURN[0], ('w', 5, 'via'), TURN[2], **NO_TURN)), ALONG),
    ('a restriction by a node and a way that is missing', text(*TWO, relation(3, *TURN, ('w', 77, 'via'), **NO_TURN)), ALONG),
    ('a restriction from a road that is cut', text(*ROW, node(0), node(-1), way(5, -1, 0, 99, 1, 2), way(6, 2, 3),
                                                   relation(3, *TURN, **NO_TURN)), 'no track: leg 0'),
    ('a restriction to a road that is cut elsewhere', text(*TWO[:-1], way(6, 2, 3, 99, 4), relation(3, *TURN, **NO_TURN)), 'no track: leg 0'),
    ('a turn back on a road that is cut and passes the node twice', text(*ROW, node(9), way(5, 1, 2, 99, 2, 3), way(6, 2, 9),
     relation(3, ('w', 5, 'from'), ('n', 2, 'via'), ('w', 5, 'to'), ('w', 6, 'to'), **NO_TURN)), 'walk 5/0/f -1/0/f'),
    ('one way only, which is cut off', text(*TWO, *DETOUR, node(77), node(78), way(4, 2, 99, 77, 78), relation(
        3, ('w', 5, 'from'), ('n', 2, 'via'), ('w', 4, 'to'), type='restriction', restriction='only_left_turn')), 'no track: leg 0'),
    ('a ferry', text(*ROW, way(5, 1, 2, 3, route='ferry')), 'walk ' + STRAIGHT),
    ('a ferry of a hundred and fifty kilometres in one segment', text(*ROW, node(9, lon=10.1), way(5, 1, 2, 3), way(6, 3, 9, route='ferry')),
     'walk ' + STRAIGHT),
    ('a road that is being built', text(*ROW, way(5, 1, 2, 3, highway='construction')), 'not mapped: waypoint 0'),
    ('a road across the edge of the world', text(*ROW, way(5, 1, 2, 3), node(8, lon=180.0), node(9, lon=-180.0), way(6, 8, 9)), 'walk ' + STRAIGHT),
]
