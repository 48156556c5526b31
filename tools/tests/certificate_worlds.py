"""Small worlds to check certificates in: a tag table, profiles, maps and tiles, written out by hand."""
import json

from certificate_checker import profile, road_map, tags
from certificate_checker.check import World, global_values_of
from certificate_checker.heights import Tiles
from certificate_checker.ride import Ride

LOOK = b'''---lookupversion:10
---minorversion:1

---context:way
reversedirection;0000000000 yes
highway;0000000400 residential
highway;0000000300 primary
highway;0000000200 track
highway;0000000100 cycleway
oneway;0000000020 yes true 1
oneway;0000000010 no
bicycle;0000000020 yes
bicycle;0000000010 no
junction;0000000010 roundabout
route_bicycle_rcn;0000000000 yes

---context:node
nodeaccessgranted;0000000000 yes
barrier;0000000020 gate
barrier;0000000010 bollard
bicycle;0000000020 yes
bicycle;0000000010 no
'''
PLAIN = b'---context:way assign costfactor 1'
HILL = b'---context:global assign uphillcost 100 assign uphillcutoff 1.5 ---context:way assign costfactor 1'


def map_text(nodes, ways, relations=()):
    """The text of a map: nodes as id: (longitude, latitude, tags) in microdegrees, ways as id: (nodes, tags)."""
    elements = ['{"type":"node","id":%d,"lon":%.6f,"lat":%.6f,"tags":%s}' % (
        number, longitude / 10**6, latitude / 10**6, json.dumps(dict(*tags_)))
        for number, (longitude, latitude, *tags_) in nodes.items()]
    elements += [json.dumps({'type': 'way', 'id': number, 'nodes': way, 'tags': tags_}) for number, (way, tags_) in ways.items()]
    return ('{"elements":[%s]}' % ','.join([*elements, *map(json.dumps, relations)])).encode()


def residential(*nodes):
    return list(nodes), {'highway': 'residential'}


def tile(height_of):
    """The samples of a tile of 1,201 rows, by a function of column and row, the row counted from the south."""
    return b''.join(height_of(column, 1200 - row).to_bytes(2, 'big', signed=True) for row in range(1201) for column in range(1201))


def slope():
    """The tile that rises by 20 metres a column to the east."""
    row = b''.join((20 * column).to_bytes(2, 'big', signed=True) for column in range(1201))
    return row * 1201


def world(profile_text, text, **tiles):
    """What is read of a profile, a map's text and tiles by their names, under the table above."""
    table, held = tags.read_table(LOOK), Tiles()
    for name, samples in tiles.items():
        held.add(f'{name}.hgt', samples)
    return World(table, profile.read_profile(profile_text, table), road_map.read_map(text), held)


def ride(profile_text, text, overrides=None, circles=(), **tiles):
    made = world(profile_text, text, **tiles)
    return Ride(made, global_values_of(made.sections, overrides or {}), circles)


def walk_of(made, *names):
    """The numbers of links by way, segment and direction."""
    numbers = {(it.way, it.segment, 'b' if it.back else 'f'): number for number, it in enumerate(made.links)}
    return [numbers[int(way), int(segment), side] for way, segment, side in (name.split('/') for name in names)]
