"""Writes the text of the map: its head, nodes, ways and relations, an element a line."""
import hashlib
import tempfile
from itertools import compress

from .counts import MOST_BYTES
from .encoding import json_bytes
from .faults import Refused

ATTRIBUTION = '© OpenStreetMap contributors'
COPYRIGHT = 'https://www.openstreetmap.org/copyright'
LICENSE = 'ODbL 1.0'
HELD = 1 << 16


class MapText:
    """The text of a map in a file. Ways are known before it is known which nodes they use, so they wait on the disk."""

    def __init__(self, file, folder):
        self.file, self.bytes, self.hash = file, 0, hashlib.sha256()
        self.waiting = tempfile.TemporaryFile(dir=folder)

    def _put(self, texts):
        held = bytearray()
        for text in texts:
            held += text
            if len(held) > HELD:
                self._flush(held)
                held.clear()
        self._flush(held)

    def _flush(self, held):
        self.file.write(held)
        self.hash.update(held)
        self.bytes += len(held)
        if self.bytes > MOST_BYTES:
            raise Refused(f'a text of more than {MOST_BYTES:,} bytes, which is the most that the program takes: cut a smaller box out (box=W,S,E,N)')

    def add_way(self, number, nodes, tags):
        """A way by its id, the ids of its nodes, and its tags as JSON."""
        self.waiting.write(b',\n{"type":"way","id":%d,"nodes":[%s],"tags":%s}' % (number, b','.join(map(b'%d'.__mod__, nodes)), tags))

    def add_relation(self, number, members, tags):
        listed = [{'type': kind, 'ref': ref, 'role': role} for kind, ref, role in members]
        self.waiting.write(b',\n' + json_bytes({'type': 'relation', 'id': number, 'members': listed, 'tags': tags}))

    def write(self, date, nodes):
        """Writes head, nodes and all that waited. Each node is its id, its microdegrees and its tags as JSON, or None."""
        head = {'version': 0.6, 'generator': 'osm2map', 'osm3s': {'timestamp_osm_base': date or '', 'copyright': f'{ATTRIBUTION}, {LICENSE}'}}
        self._put([json_bytes(head)[:-1], b',"elements":['])
        self._put(node_texts(nodes))
        self.waiting.seek(0)
        self._put(iter(lambda: self.waiting.read(HELD), b''))
        self._put([b'\n]}\n'])

    def version(self):
        """What tells this map from others: the first 16 digits of the SHA-256 of its text."""
        return self.hash.hexdigest()[:16]

    def close(self):
        self.waiting.close()


def nodes_of(draft, roads):
    """The nodes of the map: those of the draft that roads use, then those that split segments."""
    used = roads.is_used
    for place, number, latitude, longitude in zip(compress(range(len(used)), used), compress(draft.nodes.by_place, used),
                                                  compress(draft.latitudes, used), compress(draft.longitudes, used)):
        yield number, latitude, longitude, draft.node_tags.get(place)
    for place, (latitude, longitude) in enumerate(zip(roads.new_latitudes, roads.new_longitudes)):
        yield roads.first_new_node - place, latitude, longitude, None


def node_texts(nodes):
    before = b'\n'
    for number, latitude, longitude, tags in nodes:
        yield b'%s{"type":"node","id":%d,"lat":%.6f,"lon":%.6f%s}' % (
            before, number, latitude / 1e6, longitude / 1e6, b',"tags":' + tags if tags else b'')
        before = b',\n'


def box_of_nodes(draft, roads):
    """The outermost degrees of the nodes: west, south, east, north. Inserted nodes lie between others."""
    longitudes, latitudes = (list(find(compress(values, roads.is_used)) for find in (min, max)) for values in (draft.longitudes, draft.latitudes))
    return [edge / 1e6 for pair in zip(longitudes, latitudes) for edge in pair]
