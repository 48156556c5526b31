"""The command: words in, a map with what tells of it out, or the reason why there is none."""
import json
import os
import signal
import sys
import tempfile
from collections import namedtuple
from contextlib import closing

from .coordinates import box_of
from .counts import Counts
from .draft import Draft
from .extract import read_extract
from .faults import Refused, UsageFault
from .map_text import ATTRIBUTION, COPYRIGHT, LICENSE, MapText, box_of_nodes, nodes_of
from .overpass import read_overpass
from .progress import Progress
from .relations import take_relations
from .roads import Roads
from .tiles import Lines, TileFolder, check_place

USAGE = 'usage: tools/osm2map INPUT OUT [box=W,S,E,N] [split=METRES] [tiles=FOLDER]'
HELP = f"""{USAGE}
  makes a map for route_serve out of an extract of OpenStreetMap or an answer of Overpass

INPUT   an extract that the program `osmium` reads (.osm.pbf, .osm, .osm.bz2, .osm.gz, .o5m), or a JSON text of Overpass
OUT     the map, for the word map= of route_serve; beside it NAME.info.json tells its box, date, counts and version
box     only what lies between these degrees of longitude and latitude
split   segments of roads that are longer than so many metres get nodes, so that a waypoint beside a long one is moved to it
tiles   a folder for the roads by zoom and tile, which the page for riders draws

Roads, ferries, cycle routes and turn restrictions are kept. The status is 0; 1 where a word is wrong; 2 where no map is made.
docs/EXTRACTS.md says where extracts come from and what to do with the map."""
MOST_SPLIT = 100_000
HEAD = 4096

Work = namedtuple('Work', 'input out box split tiles')


def work_of(words):
    """What the words ask for."""
    plain = [word for word in words if not word.startswith(('box=', 'split=', 'tiles='))]
    named = dict(word.split('=', 1) for word in words if word not in plain)
    if len(plain) != 2 or len(named) + 2 != len(words):
        raise UsageFault('an input, a map to write, and each other word at most once are wanted')
    split = named.get('split')
    if split is not None and not (split.isascii() and split.isdigit() and 1 <= int(split) <= MOST_SPLIT):
        raise UsageFault(f'split={split}: whole metres from 1 to {MOST_SPLIT:,} are wanted')
    if named.get('tiles') == '':
        raise UsageFault('tiles=: a folder is wanted')
    for written in (plain[1], info_name(plain[1])):
        if os.path.isdir(written):
            raise UsageFault(f'{written} is a folder: the map needs another name')
        if os.path.exists(written) and os.path.exists(plain[0]) and os.path.samefile(plain[0], written):
            raise UsageFault(f'{written} is the input: the map needs another name')
    return Work(*plain, box_of(named['box']) if 'box' in named else None, int(split) if split else None, named.get('tiles'))


def read(path, draft):
    """Reads an input, which is JSON where it begins with a bracket."""
    with open(path, 'rb') as file:
        head = file.read(HEAD)
    text = head.removeprefix(b'\xef\xbb\xbf').lstrip()
    if not text:
        raise Refused(f'{path}: the file is empty')
    if text[:1] in b'{[':
        read_overpass(path, draft)
    else:
        read_extract(path, head, draft)
    draft.settle()


def info_of(work, draft, counts, text, box):
    """What NAME.info.json tells of a map."""
    return {'map': os.path.basename(work.out), 'version': text.version(), 'date': draft.date,
            'box': box, 'split': work.split, 'bytes': text.bytes,
            'counts': {name: counts[name] for name in ('nodes', 'ways', 'segments', 'members', 'routes', 'restrictions')},
            'left_out': counts.left_out(),
            'changed': {name: counts[name] for name in ('cut_ways', 'missing_nodes', 'pieces', 'split_segments', 'inserted_nodes')},
            'attribution': ATTRIBUTION, 'license': LICENSE, 'copyright': COPYRIGHT}


def info_name(out):
    return (out[:-len('.json')] if out.endswith('.json') else out) + '.info.json'


def make(work, progress, folder):
    """Makes the map in a folder of its own, and puts it in its place when all is done."""
    if work.tiles:
        check_place(work.tiles)
    counts = Counts()
    with open(os.path.join(folder, 'map'), 'wb') as file, closing(Draft(folder, work.box, counts)) as draft, closing(MapText(file, folder)) as text:
        progress.now(f'reading {work.input}', lambda: f'{draft.read:,} elements')
        read(work.input, draft)
        lines = Lines(draft) if work.tiles else None
        roads = Roads(draft, work.split, counts, text.add_way)
        progress.now('making roads', lambda: f"{counts['ways']:,} ways")
        roads.take_all(lines.add if lines else None)
        if not counts['ways']:
            raise Refused('\n  '.join(['nothing is left: no road has two nodes that are there', *counts.lines()]))
        counts.add('nodes', sum(roads.is_used) + len(roads.new_latitudes))
        take_relations(draft, roads, counts, text.add_relation)
        progress.now('writing the map', lambda: f'{text.bytes / 1e6:,.0f} MB')
        text.write(draft.date, nodes_of(draft, roads))
        info = info_of(work, draft, counts, text, box_of_nodes(draft, roads))
    if work.tiles:
        tiles = TileFolder(os.path.join(folder, 'tiles'))
        progress.now('writing tiles', lambda: f'{tiles.drawn:,} lines')
        tiles.write(lines, info)
        counts['left_out_of_tiles'] = tiles.left_out
    put_in_place(work, info, folder)
    return info, counts


def put_in_place(work, info, folder):
    with open(os.path.join(folder, 'info'), 'w', encoding='utf-8') as file:
        json.dump(info, file, ensure_ascii=False, indent=1)
        file.write('\n')
    if work.tiles:
        TileFolder(os.path.join(folder, 'tiles')).move_to(work.tiles)
    os.replace(os.path.join(folder, 'map'), work.out)
    os.replace(os.path.join(folder, 'info'), info_name(work.out))


def tell(work, info, counts):
    held = info['counts']
    print(f"{work.out}: {held['nodes']:,} nodes, {held['ways']:,} ways, {held['segments']:,} segments, {held['routes']:,} cycle routes,"
          f" {held['restrictions']:,} turn restrictions; {info['bytes']:,} bytes")
    print(f"box {','.join(map(str, info['box']))}; data of {info['date'] or 'an unknown date'}; version {info['version']}")
    for line in counts.lines():
        print(line)
    print(f'wherever the map or a ride is shown: {ATTRIBUTION}')


def main(words):
    """The status of the command."""
    if words[:1] in (['--help'], ['-h']):
        print(HELP)
        return 0
    signal.signal(signal.SIGTERM, lambda *_: sys.exit(128 + signal.SIGTERM))
    try:
        work = work_of(words)
        with Progress() as progress, tempfile.TemporaryDirectory(prefix='.osm2map-', dir=os.path.dirname(os.path.abspath(work.out))) as folder:
            info, counts = make(work, progress, folder)
        tell(work, info, counts)
    except UsageFault as fault:
        print(f'osm2map: {fault}\n{USAGE}', file=sys.stderr)
        return 1
    except Refused as fault:
        print(f'osm2map: {fault}', file=sys.stderr)
        return 2
    except OSError as fault:
        print(f'osm2map: {fault.filename or "output"}: {fault.strerror}', file=sys.stderr)
        return 2
    except KeyboardInterrupt:
        print('osm2map: stopped; nothing was written', file=sys.stderr)
        return 130
    return 0
