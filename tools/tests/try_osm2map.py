"""Tries `tools/osm2map` as its users run it: on extracts of a made city as `osmium` and `osmconvert` cut them, on answers of Overpass, and on
odd maps, each with a ride by the program on the map that comes out. PROGRAM names the program; `.ci/tools` calls it."""
import bz2
import glob
import itertools
import json
import math
import os
import random
import shutil
import subprocess
import sys
import tempfile

from tests import made_city, odd_maps

TOP = os.path.dirname(os.path.dirname(os.path.dirname(os.path.abspath(__file__))))
TOOL = os.path.join(TOP, 'tools', 'osm2map')
LOOKUPS, PROFILE = (os.path.join(TOP, 'examples', name) for name in ('lookups.dat', 'trekking.brf'))
SIDE = 40
INNER = (8.415, 49.010, 8.445, 49.030)     # degrees: the box that is cut out of the made city
EDGE = (8.415, 49.010, 8.418, 49.030)      # its western edge, where rides leave it
BOX = ','.join(map(str, INNER))
RIDES = 20
FAILED = []


def told(name, right, found=''):
    print(f"{'ok  ' if right else 'FAIL'} {name}" + ('' if right else f': {found!r}'), flush=True)
    if not right:
        FAILED.append(name)


def run(*words, **more):
    return subprocess.run(words, capture_output=True, check=False, **more)


def convert(*words, **more):
    """The status of the tool with its outputs."""
    done = run(sys.executable, TOOL, *words, **more)
    return done.returncode, done.stdout.decode(), done.stderr.decode()


def ride(path, query, lookups=LOOKUPS, profile=PROFILE, tile=None):
    """What the program answers on a map: its line of refusal, or else the lines of the reply."""
    done = run(os.environ['PROGRAM'], 'route', f'lookups={lookups}', f'profile={profile}', f'map={path}', f'query={query}',
               *([f'tile={tile}'] if tile else []))
    return done.stderr.decode().strip() if done.returncode else done.stdout.decode().splitlines()


def cost_of(answer):
    return next(float(line.split('\t')[1]) for line in answer if line.startswith('cost')) if isinstance(answer, list) else None


def spots_of(answer):
    """Longitude and latitude of the ends of a reply's rows."""
    rows = itertools.takewhile(lambda line: not line.startswith('cost\t'), answer[1:])
    return [tuple(int(field) / 1e6 for field in row.split('\t')[:2]) for row in rows]


def is_within(spots, box):
    return all(box[0] <= x <= box[2] and box[1] <= y <= box[3] for x, y in spots)


def queries(city, seed, box=(-180, -90, 180, 90)):
    """Queries from crossing to crossing of a city within a box: a waypoint on a node is moved to that node, whatever lies around it."""
    draw = random.Random(seed)
    crossings = [node for row in city.crossings for node in row if is_within([(node['lon'], node['lat'])], box)]
    for _ in range(RIDES):
        yield 'lonlats=' + '|'.join(f"{node['lon']},{node['lat']}" for node in draw.sample(crossings, 2)) + '&profile=trekking&format=csv'


def read_json(path):
    with open(path, encoding='utf-8') as file:
        return json.load(file)


def write(path, text):
    with open(path, 'wb') as file:
        file.write(text if isinstance(text, bytes) else text.encode())
    return path


def make_inputs(room):
    """The made city in all forms that the tool reads."""
    city = made_city.City(SIDE)
    write(f'{room}/city.json', city.overpass())
    xml = city.xml()
    write(f'{room}/city.osm', xml)
    write(f'{room}/city.osm.bz2', bz2.compress(xml.encode()))
    for kind in ('osm.pbf', 'osm.gz', 'osm.opl'):
        run('osmium', 'cat', f'{room}/city.osm', '-o', f'{room}/city.{kind}')
    run('osmconvert', f'{room}/city.osm', '--out-o5m', f'-o={room}/city.o5m')
    shutil.copy(f'{room}/city.osm.pbf', f'{room}/no_suffix')
    return city


def try_forms(room):
    """All forms of the city become the same map, and a map made of it is itself again."""
    versions = {}
    for name in ('city.json', 'city.osm', 'city.osm.bz2', 'city.osm.gz', 'city.osm.pbf', 'city.osm.opl', 'city.o5m', 'no_suffix'):
        status, _, fault = convert(f'{room}/{name}', f'{room}/{name}.map.json')
        versions[name] = read_json(f'{room}/{name}.map.info.json')['version'] if status == 0 else fault
    told(f'{len(versions)} forms of one city are one map', len(set(versions.values())) == 1, versions)
    convert(f'{room}/city.json.map.json', f'{room}/again.json')
    told('the map of a map is itself', read_json(f'{room}/again.info.json')['version'] == versions['city.json'])
    shutil.move(f'{room}/city.json.map.json', f'{room}/whole.json')
    shutil.move(f'{room}/city.json.map.info.json', f'{room}/whole.info.json')


def try_meaning(room, city):
    """The map that is made rides as the answer of Overpass itself does. All but the road that is only proposed counts there too."""
    same = sum(ride(f'{room}/whole.json', query) == ride(f'{room}/plain.json', query) for query in queries(city, 1))
    told(f'{RIDES} rides are those on the answer of Overpass as it is', same == RIDES, same)


def make_extracts(room):
    """Extracts of the box by each strategy of osmium, and by osmconvert with and without whole ways."""
    found = []
    for strategy in ('simple', 'complete_ways', 'smart'):
        found.append(f'{room}/{strategy}.osm.pbf')
        run('osmium', 'extract', '-b', BOX, '-s', strategy, f'{room}/city.osm.pbf', '-o', found[-1])
    for name, more in (('osmconvert', ()), ('osmconvert_complete', ('--complete-ways',))):
        found.append(f'{room}/{name}.osm.pbf')
        run('osmconvert', f'{room}/city.osm.pbf', f'-b={BOX}', *more, f'-o={found[-1]}')
    return found


def try_extracts(room, city):
    """Rides on an extract cost what they cost on the whole city where they stay in the box, and never less."""
    asked = [*queries(city, 2, INNER), *queries(city, 5, EDGE)]
    whole = [ride(f'{room}/whole.json', query) for query in asked]
    wanted = [cost_of(answer) for answer in whole]
    inside = [cost is not None and is_within(spots_of(answer), INNER) for cost, answer in zip(wanted, whole)]
    told(f'{len(asked)} rides on the whole city, {sum(inside)} of them within the box', RIDES // 2 < sum(inside) < len(asked), wanted)
    for path in [*make_extracts(room), f'{room}/city.osm.pbf box', f'{room}/city.json box']:
        path, _, box = path.partition(' ')
        status, out, fault = convert(path, f'{room}/part.json', *([f'box={BOX}'] if box else []))
        info = read_json(f'{room}/part.info.json') if status == 0 else {}
        name = os.path.basename(path) + (' by box=' if box else '')
        found = [cost_of(ride(f'{room}/part.json', query)) for query in asked]
        if 'simple' in name:
            # This strategy leaves out each road that begins outside the box, and cycle routes, so waypoints go to other nodes.
            rides = sum(cost is not None for cost in found)
            told(f"{name}: {info['counts']['routes']} cycle routes are left; {rides} rides of {len(asked)}", rides > len(asked) // 2, found)
        else:
            told(f"{name}: {info['counts']['routes']} cycle routes; rides as on the whole city, others at no less",
                 no_less(found, wanted, inside), found)
        if box or name in ('simple.osm.pbf', 'osmconvert.osm.pbf'):
            told(f"{name}: {info['changed']['cut_ways']} roads are cut at the border, and it is said",
                 info['changed']['cut_ways'] > 10 and 'cut, roads at' in out, out)
            told(f'{name}: no node lies outside the box', is_within([tuple(info['box'][:2]), tuple(info['box'][2:])], INNER), info['box'])
        os.remove(f'{room}/part.json')
    told('a cut road without the tool refuses the whole map', 'lacks node' in str(ride(simple_as_overpass(room), asked[0])))


def no_less(found, wanted, exactly):
    """Whether each cost is the wanted one where it has to be, and else no less, or there is no ride."""
    pairs = [(cost, want, held) for cost, want, held in zip(found, wanted, exactly) if want is not None]
    return len(pairs) > RIDES // 2 and all(cost == want if held else cost is None or cost >= want for cost, want, held in pairs)


def simple_as_overpass(room):
    """The extract by the strategy `simple` as an answer of Overpass would be, with its ways as they are."""
    elements = []
    for line in run('osmium', 'cat', f'{room}/simple.osm.pbf', '-f', 'opl,add_metadata=false').stdout.decode().splitlines():
        fields = line.split(' ')
        if line.startswith('n'):
            elements.append({'type': 'node', 'id': int(fields[0][1:]), 'lat': float(fields[3][1:]), 'lon': float(fields[2][1:])})
        elif line.startswith('w'):
            elements.append({'type': 'way', 'id': int(fields[0][1:]), 'nodes': [int(ref[1:]) for ref in fields[2][1:].split(',')]})
    return write(f'{room}/simple.json', json.dumps({'elements': elements}))


def try_split(room, city):
    """A place beside a straight kilometre is reached once it is split, and other rides cost the same but for what rounding gives."""
    status, out, fault = convert(f'{room}/city.json', f'{room}/split.json', 'split=50')
    told('split=50 says what it does', status == 0 and 'split, segments:' in out, fault)
    places = {node['id']: node for node in city.nodes}
    ends = [places[number] for number in city.straight['nodes'][:2]]
    spots = [tuple(ends[0][name] + (ends[1][name] - ends[0][name]) * share for name in ('lon', 'lat')) for share in (0.45, 0.55)]
    beside = 'lonlats=' + '|'.join(f'{x:.6f},{y:.6f}' for x, y in spots) + '&profile=trekking&format=csv'
    told('without it a place on a straight kilometre is not mapped', ride(f'{room}/whole.json', beside) == 'not mapped: waypoint 0')
    told('with it there is a ride from there', cost_of(ride(f'{room}/split.json', beside)) is not None, ride(f'{room}/split.json', beside))
    costs = [[cost_of(ride(f'{room}/{name}.json', query)) for query in queries(city, 3)] for name in ('whole', 'split')]
    apart = [abs(other - one) / one for one, other in zip(*costs) if one]
    told(f'{len(apart)} rides from crossing to crossing cost the same within a thousandth', len(apart) > RIDES // 2 and max(apart) < 0.001, costs)
    elements = read_json(f'{room}/split.json')['elements']
    told('no segment of a road is longer than 50 metres', longest_segment(elements) <= 50.5, longest_segment(elements))
    ways = [element for element in elements if element['type'] == 'way']
    shared = [way['nodes'] for way in ways if set(city.straight['nodes'][1:]) <= set(way['nodes'])]
    inserted = [[number for number in nodes if number < 0] for nodes in shared]
    told('a segment of two ways is split by the same nodes',
         len(shared) == 2 and set(inserted[1]) < set(inserted[0]) and len(inserted[1]) > 30, shared)
    ids = [element['id'] for element in elements if element['type'] == 'node']
    told('each node is there once', len(ids) == len(set(ids)))


def longest_segment(elements):
    spots = {element['id']: (element['lat'], element['lon']) for element in elements if element['type'] == 'node'}
    return max(metres(spots[start], spots[end]) for element in elements if element['type'] == 'way' and 'highway' in element['tags']
               for start, end in zip(element['nodes'], element['nodes'][1:]))


def metres(one, other):
    east = (other[1] - one[1]) * math.cos(math.radians((one[0] + other[0]) / 2))
    return 111_320 * math.hypot(other[0] - one[0], east)


def try_remarks(room, city):
    """An incomplete answer is refused by name, in both of its forms, and nothing is written."""
    remark = 'runtime error: Query timed out in "query" at line 3 after 25 seconds.'
    write(f'{room}/partial.json', city.overpass(remark=remark))
    write(f'{room}/partial.osm', city.xml(foot=f'<remark> {remark} </remark>'))
    for name in ('partial.json', 'partial.osm'):
        status, _, fault = convert(f'{room}/{name}', f'{room}/never.json')
        told(f'{name}: an incomplete answer is refused with what Overpass says',
             status == 2 and 'incomplete' in fault and 'timed out' in fault and not glob.glob(f'{room}/never*'), fault)
    write(f'{room}/dated.osm', city.xml(head='<meta osm_base="2025-05-05T05:05:05Z"/>'))
    for kind, words in (('.osm.pbf', ()), ('.o5m', ('--out-o5m',)), ('_plain.osm', ())):
        run('osmconvert', f'{room}/city.osm', *words, '--timestamp=2025-05-05T05:05:05Z', f'-o={room}/dated{kind}')
    for name in ('dated.osm', 'dated.osm.pbf', 'dated.o5m', 'dated_plain.osm'):
        convert(f'{room}/{name}', f'{room}/dated.json')
        told(f'{name}: the date in its head is taken', read_json(f'{room}/dated.info.json')['date'] == '2025-05-05T05:05:05Z')


def try_progress(room):
    """Long work tells how far it is; here an osmium that waits in the middle makes it long. Short work is silent."""
    stub = f'{room}/bin'
    os.mkdir(stub)
    real = shutil.which('osmium')
    write(f'{stub}/osmium', f'#!/bin/sh\n[ "$1" = cat ] && {{ {real} "$@" | {{ sed -u 1000q; sleep 5; cat; }}; exit; }}\nexec {real} "$@"\n')
    os.chmod(f'{stub}/osmium', 0o755)
    status, _, fault = convert(f'{room}/city.osm.pbf', f'{room}/slow.json', env={**os.environ, 'PATH': f"{stub}:{os.environ['PATH']}"})
    told('long work tells what it does on standard error', status == 0 and 'osm2map: reading' in fault and ' elements, ' in fault, fault)


def make_faulty(room):
    """Inputs that are refused, and what must not be touched."""
    write(f'{room}/empty', '')
    write(f'{room}/page.json', '<!DOCTYPE html>\n<html><body>The server is probably too busy</body></html>')
    for name in ('city.osm.pbf', 'city.osm', 'city.osm.bz2', 'city.json'):
        with open(f'{room}/{name}', 'rb') as file:
            write(f'{room}/broken.{name}', file.read()[:os.path.getsize(f'{room}/{name}') * 2 // 3])
    write(f'{room}/noise', bytes(range(256)) * 40)
    write(f'{room}/kept.json', 'as it was')
    write(f'{room}/in.info.json', '{}')
    os.makedirs(f'{room}/other_things/x')


def faulty_words(room, good, out):
    """What is wrong, the status, a part of what is told, and the words."""
    return (
        ('no words', 1, 'an input, a map to write', []),
        ('one word', 1, 'an input, a map to write', [good]),
        ('a third word', 1, 'an input, a map to write', [good, out, 'x']),
        ('a word twice', 1, 'an input, a map to write', [good, out, 'split=5', 'split=6']),
        ('split=0', 1, 'split=0: whole metres', [good, out, 'split=0']),
        ('split=5.5', 1, 'split=5.5: whole metres', [good, out, 'split=5.5']),
        ('a box of three', 1, 'west,south,east,north', [good, out, 'box=1,2,3']),
        ('a box of words', 1, 'west,south,east,north', [good, out, 'box=a,b,c,d']),
        ('a box turned round', 1, 'west below east', [good, out, 'box=9,48,8,49']),
        ('a box beyond the pole', 1, 'latitudes within 90', [good, out, 'box=8,48,9,91']),
        ('a box of no numbers', 1, 'west,south,east,north', [good, out, 'box=nan,1,2,3']),
        ('the map over its input', 1, 'is the input', [out, out]),
        ('what tells of the map over its input', 1, 'is the input', [f'{room}/in.info.json', f'{room}/in.json']),
        ('a folder where the map belongs', 1, 'is a folder', [good, room]),
        ('no such input', 2, 'No such file', [f'{room}/nothing', out]),
        ('a folder as input', 2, 'Is a directory', [room, out]),
        ('a folder for the map that isn\'t there', 2, 'No such file', [good, f'{room}/nowhere/map.json']),
        ('an empty file', 2, 'the file is empty', [f'{room}/empty', out]),
        ('a page of the web', 2, 'no map: the service was busy', [f'{room}/page.json', out]),
        ('noise', 2, 'osmium can\'t read it', [f'{room}/noise', out]),
        ('a PBF cut off', 2, 'osmium can\'t read it: PBF error', [f'{room}/broken.city.osm.pbf', out]),
        ('an XML cut off', 2, 'osmium can\'t read it: XML parsing error', [f'{room}/broken.city.osm', out]),
        ('a bzip2 cut off', 2, 'osmium can\'t read it', [f'{room}/broken.city.osm.bz2', out]),
        ('a JSON cut off', 2, 'no JSON text', [f'{room}/broken.city.json', out]),
        ('a box beside the city', 2, 'nothing is left', [good, out, 'box=1,1,2,2']),
        ('tiles over a file', 2, 'this is no folder', [good, out, f'tiles={out}']),
        ('tiles in a folder that isn\'t there', 2, 'this is no folder', [good, out, f'tiles={room}/nowhere/tiles']),
        ('tiles over other things', 2, 'isn\'t replaced', [good, out, f'tiles={room}/other_things']))


def try_faults(room):
    """Each fault has its sentence and its status, and leaves what was there."""
    good, out = f'{room}/city.osm.pbf', f'{room}/kept.json'
    make_faulty(room)
    for name, status, part, words in faulty_words(room, good, out):
        found, _, fault = convert(*words)
        told(f'{name}: status {status}, told', found == status and part in fault and 'Traceback' not in fault, (found, fault))
    with open(out, encoding='utf-8') as file:
        told('faults leave what was there, and nothing else', file.read() == 'as it was' and not glob.glob(f'{room}/.osm2map-*'))
    status, _, fault = convert(good, out, env={'PATH': f'{room}/nowhere'})
    told('without osmium it says how to install it', status == 2 and 'apt install osmium-tool' in fault, fault)
    status, _, _ = convert(f'{room}/city.json', f'{room}/alone.json', env={'PATH': f'{room}/nowhere'})
    told('Overpass is read without osmium', status == 0)


def try_limit(room):
    """More segments than the program takes are told with the limit: here a metre each, of long straight roads."""
    nodes = [{'type': 'node', 'id': number, 'lat': 45 + number % 2 * 0.7, 'lon': 8 + number / 1000} for number in range(1, 120)]
    road = {'type': 'way', 'id': 1, 'nodes': list(range(1, 120)), 'tags': {'highway': 'track'}}
    write(f'{room}/long.json', json.dumps({'elements': [*nodes, road]}))
    status, _, fault = convert(f'{room}/long.json', f'{room}/never.json', 'split=1')
    told('more than 8,000,000 segments are told with the limit', status == 2 and 'more than 8,000,000 segments' in fault, fault)


def try_tiles(room):
    """Tiles hold all roads near by, each within its bounds, and are replaced as one."""
    folder = f'{room}/tiles'
    status, _, fault = convert(f'{room}/city.json', f'{room}/tiled.json', 'split=50', f'tiles={folder}')
    index, info = read_json(f'{folder}/index.json'), read_json(f'{room}/tiled.info.json')
    told('the list of tiles tells box, version and attribution', status == 0 and index['box'] == info['box'] and index['version'] == info['version']
         and index['attribution'] == '© OpenStreetMap contributors' and (index['minzoom'], index['maxzoom']) == (8, 14), fault or index)
    listed = {f'{folder}/{zoom}/{x}/{y}.json' for zoom, tiles in index['tiles'].items() for x, y in tiles}
    there = set(glob.glob(f'{folder}/*/*/*'))
    told(f'the {len(listed)} listed tiles are there, and no others', listed == there and list(index['tiles']) == ['8', '10', '12', '14'])
    outside, total = 0, 0.0
    for path in sorted(listed):
        for feature in read_json(path)['features']:
            spots = feature['geometry']['coordinates']
            outside += not is_within(spots, bounds_of(path))
            if f'{folder}/14/' in path:
                total += sum(metres(one[::-1], other[::-1]) for one, other in zip(spots, spots[1:]))
    told('no line leaves its tile', outside == 0, outside)
    elements = read_json(f'{room}/whole.json')['elements']
    spots = {element['id']: (element['lat'], element['lon']) for element in elements if element['type'] == 'node'}
    wanted = sum(metres(spots[one], spots[other]) for way in elements if way['type'] == 'way' for one, other in zip(way['nodes'], way['nodes'][1:]))
    told('tiles of zoom 14 hold all metres of all roads within a thousandth', abs(total - wanted) < wanted / 1000, (total, wanted))
    ferries = [feature['properties'] for path in listed for feature in read_json(path)['features'] if 'ferry' in feature['properties']]
    told('ferries are marked, and have no highway', len(ferries) > 4 and all({**ferry, 'name': 'Fähre'} == {'name': 'Fähre', 'ferry': True}
                                                                            for ferry in ferries), ferries)
    write(f'{folder}/14/stale.json', '{}')
    convert(f'{room}/city.json', f'{room}/tiled.json', f'box={BOX}', f'tiles={folder}')
    told('tiles of an earlier map are replaced', not os.path.exists(f'{folder}/14/stale.json')
         and 0 < sum(map(len, read_json(f'{folder}/index.json')['tiles'].values())) < len(listed) and not glob.glob(f'{room}/.osm2map-*'))


def bounds_of(path):
    """West, south, east and north of a tile, as wide as rounding needs it."""
    zoom, column, row = (int(part) for part in path[:-len('.json')].split('/')[-3:])
    side = 1 << zoom
    north, south = (math.degrees(math.atan(math.sinh(math.pi * (1 - 2 * edge / side)))) for edge in (row, row + 1))
    return column / side * 360 - 180 - 1e-5, south - 1e-5, (column + 1) / side * 360 - 180 + 1e-5, north + 1e-5


def try_heights(room, city):
    """A tile that GDAL makes of a raster has the heights of the raster, which here rises evenly to the east and to the north."""
    rows = [' '.join(f'{height_at(7.9 + 0.0125 * (column + 0.5), 50.1 - 0.0125 * (row + 0.5)):.2f}' for column in range(96)) for row in range(96)]
    write(f'{room}/heights.asc', '\n'.join(['ncols 96', 'nrows 96', 'xllcorner 7.9', 'yllcorner 48.9', 'cellsize 0.0125', *rows, '']))
    run('gdal_translate', '-a_srs', 'EPSG:4326', f'{room}/heights.asc', f'{room}/heights.tif')
    run(*'gdalwarp -t_srs EPSG:4326 -te 7.999583333 48.999583333 9.000416667 50.000416667 -ts 1201 1201 -r bilinear'.split(),
        *'-ot Int16 -dstnodata -32768'.split(), f'{room}/heights.tif', f'{room}/degree.tif')
    run('gdal_translate', '-of', 'SRTMHGT', f'{room}/degree.tif', f'{room}/N49E008.hgt')
    answer = ride(f'{room}/whole.json', next(queries(city, 1)), tile=f'{room}/N49E008.hgt')
    rows = [line.split('\t') for line in answer[1:] if line.split('\t')[0].isdigit()]
    apart = [abs(float(row[2]) - height_at(int(row[0]) / 1e6, int(row[1]) / 1e6)) for row in rows]
    told(f'a tile of heights by GDAL: {len(apart)} heights within a metre', len(apart) > 10 and max(apart) < 1, answer)


def height_at(longitude, latitude):
    return 100 + 2000 * (longitude - 8) + 1500 * (latitude - 49)


def try_odd_maps(room):
    """Each odd map is ridden on or refused as it should be."""
    lookups, profile = write(f'{room}/odd.dat', odd_maps.LOOKUPS), write(f'{room}/odd.brf', odd_maps.PROFILE)
    for name, text, wanted in odd_maps.ODD_MAPS:
        write(f'{room}/odd.json', text)
        status, _, fault = convert(f'{room}/odd.json', f'{room}/odd.map.json')
        if wanted.startswith('refused '):
            told(f'{name}: refused', status == 2 and wanted.removeprefix('refused ') in fault, (status, fault))
            continue
        answer = ride(f'{room}/odd.map.json', odd_maps.QUERY, lookups, profile) if status == 0 else fault
        found = ' '.join(line.replace('\t', ' ') for line in answer if line.startswith('walk')) if isinstance(answer, list) else answer
        if ' cost ' in wanted:
            found += f' cost {cost_of(answer):.6f}'
        told(f'{name}: {wanted}', status == 0 and found == wanted, (status, found))


def main():
    """The status: 1 where a try failed."""
    with tempfile.TemporaryDirectory() as room:
        city = make_inputs(room)
        shown = [relation for relation in city.relations if 'state' not in relation['tags']]
        write(f'{room}/plain.json', json.dumps({'elements': [*city.nodes, *city.ways, *shown]}))
        try_forms(room)
        try_meaning(room, city)
        try_extracts(room, city)
        try_split(room, city)
        try_remarks(room, city)
        try_progress(room)
        try_faults(room)
        try_limit(room)
        try_tiles(room)
        try_heights(room, city)
        try_odd_maps(room)
    return 1 if FAILED else 0


if __name__ == '__main__':
    sys.exit(main())
