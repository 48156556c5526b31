"""Writes the roads for a page by zoom and tile, so that it fetches only what is in view: GeoJSON of few classes far out, of all near by."""
import os
import shutil
from array import array

from .draft import is_ferry
from .encoding import json_bytes
from .faults import Refused
from .lines import by_tile, joined, placed, projected, simplified

ZOOMS = (8, 10, 12, 14)
RANKS = {name: rank for rank, names in enumerate((
    ('motorway', 'motorway_link', 'trunk', 'trunk_link', 'ferry'), ('primary', 'primary_link'), ('secondary', 'secondary_link'),
    ('tertiary', 'tertiary_link'), ('unclassified', 'residential', 'living_street', 'pedestrian', 'cycleway', 'road', 'busway'),
    ('service', 'track', 'bridleway'))) for name in names}
LAST_RANK = 6
SHOWN = {8: 1, 10: 2, 12: 4, 14: LAST_RANK}                # up to which rank
TOLERANCE = {8: 0.5, 10: 0.5, 12: 0.5, 14: 0.0625}       # in pixels, of which a tile has 256
NAMED = (12, 14)
DECIMALS = {8: 5, 10: 5, 12: 5, 14: 6}
FEW = 5_000                   # a map of so few lines shows all of them at each zoom
MOST_BYTES = 500_000          # of a tile
HELD = 1 << 23


class Lines:
    """The lines of a map by class and name, as places of nodes in its draft."""

    def __init__(self, draft):
        self.draft, self.count, self.by_kind = draft, 0, {}

    def add(self, tags, places):
        ferry = is_ferry(tags)
        kind = (None if ferry else tags['highway'], tags.get('name', ''), ferry)
        self.by_kind.setdefault(kind, []).append(array('i', places))
        self.count += 1

    def shown_at(self, zoom):
        """The kinds that a zoom shows, each with its rank and its lines. Without names those of a class are one kind."""
        last = LAST_RANK if self.count <= FEW else SHOWN[zoom]
        kinds = {}
        for (highway, name, ferry), lines in self.by_kind.items():
            rank = RANKS.get('ferry' if ferry else highway, LAST_RANK)
            if rank <= last:
                kinds.setdefault((rank, highway, name if zoom in NAMED else '', ferry), []).extend(lines)
        return kinds.items()

    def points_of(self, places, zoom):
        """The places of a line in tiles of a zoom. It ends where it would cross the world's edge, and goes on beyond it."""
        points = []
        for place in places:
            point = projected(self.draft.longitudes[place] / 1e6, self.draft.latitudes[place] / 1e6, zoom)
            if points and abs(point[0] - points[-1][0]) > (1 << zoom) / 2:
                yield points
                points = []
            points.append(point)
        yield points


class TileFolder:
    """A folder of tiles: parts of lines are put down by tile as they come, and made into tiles when a zoom is done."""

    def __init__(self, folder):
        self.folder, self.waiting, self.held, self.drawn, self.left_out = folder, {}, 0, 0, 0

    def write(self, lines, info):
        """Writes all tiles of a map and their list."""
        listed = {}
        for zoom in ZOOMS:
            for kind, those in lines.shown_at(zoom):
                for line in joined(those):
                    self.add_line(kind, line, lines, zoom)
            listed[str(zoom)] = self.finish(zoom)
        index = {'minzoom': ZOOMS[0], 'maxzoom': ZOOMS[-1], 'box': info['box'], 'attribution': info['attribution'],
                 'version': info['version'], 'tiles': listed}
        with open(os.path.join(self.folder, 'index.json'), 'wb') as file:
            file.write(json_bytes(index) + b'\n')

    def add_line(self, kind, line, lines, zoom):
        rank, highway, name, ferry = kind
        properties = {'highway': highway, 'name': name, **({'ferry': True} if ferry else {})}
        head = b'%d{"type":"Feature","properties":%s,"geometry":{"type":"LineString","coordinates":[' % (
            rank, json_bytes({key: value for key, value in properties.items() if value}))
        tolerance = TOLERANCE[zoom] / 256
        self.drawn += 1
        for points in lines.points_of(line, zoom):
            points = simplified(points, tolerance)
            if len(points) > 1 and not (zoom < ZOOMS[-1] and is_speck(points, tolerance)):
                for tile, part in by_tile(points):
                    self.put(zoom, tile, head + coordinates(part, zoom) + b']}}\n')

    def put(self, zoom, tile, text):
        last = (1 << zoom) - 1
        key = min(max(tile[0], 0), last), min(max(tile[1], 0), last)
        self.waiting.setdefault(key, []).append(text)
        self.held += len(text)
        if self.held > HELD:
            self.put_down(zoom)

    def put_down(self, zoom):
        """Empties the memory into the files of the parts."""
        for (column, row), texts in self.waiting.items():
            folder = os.path.join(self.folder, str(zoom), str(column))
            os.makedirs(folder, exist_ok=True)
            with open(os.path.join(folder, f'{row}.parts'), 'ab') as file:
                file.writelines(texts)
        self.waiting, self.held = {}, 0

    def finish(self, zoom):
        """Makes the parts of a zoom into tiles, and lists these."""
        self.put_down(zoom)
        top, found = os.path.join(self.folder, str(zoom)), []
        os.makedirs(top, exist_ok=True)
        for column in sorted(map(int, os.listdir(top))):
            folder = os.path.join(top, str(column))
            for row in sorted(int(name.partition('.')[0]) for name in os.listdir(folder)):
                self.finish_tile(os.path.join(folder, str(row)))
                found.append([column, row])
        return found

    def finish_tile(self, path):
        """A tile of its parts, the main roads last, so that they are drawn above others. Where it would be too large the least are left out."""
        with open(path + '.parts', 'rb') as file:
            parts = sorted(file, key=lambda part: part[:1])
        os.remove(path + '.parts')
        size, kept = 0, []
        for part in parts:
            size += len(part)
            if size > MOST_BYTES:
                self.left_out += len(parts) - len(kept)
                break
            kept.append(part[1:-1])
        with open(path + '.json', 'wb') as file:
            file.write(b'{"type":"FeatureCollection","features":[\n' + b',\n'.join(reversed(kept)) + b'\n]}\n')

    def move_to(self, wanted):
        """Puts the folder in the place of an earlier one."""
        if os.path.exists(wanted):
            shutil.move(wanted, self.folder + '.before')
        shutil.move(self.folder, wanted)
        shutil.rmtree(self.folder + '.before', ignore_errors=True)


def check_place(folder):
    """Refuses a folder that holds something else than tiles, since it would be replaced."""
    above = os.path.dirname(os.path.abspath(folder))
    if not os.path.isdir(above) or os.path.exists(folder) and not os.path.isdir(folder):
        raise Refused(f'{folder}: this is no folder, nor a new one in a folder that is there')
    if os.path.isdir(folder) and not set(os.listdir(folder)) <= {'index.json', *map(str, ZOOMS)}:
        raise Refused(f'{folder}: this folder holds other things than tiles, and isn\'t replaced')


def is_speck(points, tolerance):
    """Whether a line is too small to be seen."""
    return all(max(values) - min(values) < tolerance for values in zip(*points))


def coordinates(part, zoom):
    form = b'[%%.%df,%%.%df]' % (DECIMALS[zoom], DECIMALS[zoom])
    return b','.join(form % placed(x, y, zoom) for x, y in part)
