"""Makes a folder of road tiles from a map in Overpass JSON, as small as the tries of the page need: lines stay whole in every tile that they
touch, and are left out at zooms at which they are below a pixel or of a small class."""
import json
import math
import os
import sys

ZOOMS = (10, 12, 14)
LARGE = {'motorway', 'trunk', 'primary'}
MIDDLE = LARGE | {'secondary', 'tertiary'}


def square(lon, lat, zoom):
    """The place of a coordinate in tiles of a zoom."""
    east = (lon + 180) / 360
    south = 0.5 - math.asinh(math.tan(math.radians(lat))) / (2 * math.pi)
    return east * 2 ** zoom, south * 2 ** zoom


def is_drawn(zoom, tags, spots):
    """Whether a line is in the tiles of a zoom."""
    highway = tags.get('highway')
    if zoom < 14 and highway not in (LARGE if zoom < 12 else MIDDLE):
        return False
    spans = [max(side) - min(side) for side in zip(*spots)]
    return max(spans) * 256 >= 1


def touched(spots):
    """The tiles that the box of a line touches."""
    (west, east), (north, south) = [(math.floor(min(side)), math.floor(max(side))) for side in zip(*spots)]
    return [(x, y) for x in range(west, east + 1) for y in range(north, south + 1)]


def feature(places, tags):
    properties = {key: tags[key] for key in ('highway', 'name') if key in tags}
    if tags.get('route') == 'ferry':
        properties['ferry'] = True
    return {'type': 'Feature', 'properties': properties,
            'geometry': {'type': 'LineString', 'coordinates': [[round(lon, 5), round(lat, 5)] for lon, lat in places]}}


def make_tiles(path, folder):
    with open(path, encoding='utf-8') as file:
        elements = json.load(file)['elements']
    nodes = {each['id']: (each['lon'], each['lat']) for each in elements if each['type'] == 'node'}
    ways = [([nodes[node] for node in each['nodes']], each.get('tags', {})) for each in elements if each['type'] == 'way']
    listed = {}
    for zoom in ZOOMS:
        tiles = {}
        for places, tags in ways:
            spots = [square(lon, lat, zoom) for lon, lat in places]
            if ('highway' in tags or tags.get('route') == 'ferry') and is_drawn(zoom, tags, spots):
                for spot in touched(spots):
                    tiles.setdefault(spot, []).append(feature(places, tags))
        for (x, y), features in tiles.items():
            os.makedirs(f'{folder}/{zoom}/{x}', exist_ok=True)
            with open(f'{folder}/{zoom}/{x}/{y}.json', 'w', encoding='utf-8') as file:
                json.dump({'type': 'FeatureCollection', 'features': features}, file, separators=(',', ':'))
        if tiles:
            listed[str(zoom)] = sorted(tiles)
    lons, lats = zip(*nodes.values())
    index = {'minzoom': int(min(listed, key=int)), 'maxzoom': int(max(listed, key=int)), 'box': [min(lons), min(lats), max(lons), max(lats)],
             'attribution': '\u00a9 OpenStreetMap contributors', 'version': 'tried', 'tiles': listed}
    with open(f'{folder}/index.json', 'w', encoding='utf-8') as file:
        json.dump(index, file)


if __name__ == '__main__':
    make_tiles(*sys.argv[1:])
