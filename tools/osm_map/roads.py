"""Makes the ways of the map out of roads: cuts them where nodes are missing, and splits long segments."""
from array import array
from math import ceil, cos, hypot, radians

from .draft import is_ferry
from .encoding import json_bytes
from .ids import Ids, NewIds

METRES = 0.11132             # of a microdegree from south to north
MOST_SEGMENT = 100_000       # metres; the program makes no link of a longer one
PLACES = 1 << 32


def runs_of(places):
    """The runs of places that stand in a row without a missing one (-1) between them."""
    run = []
    for place in places:
        if place >= 0:
            run.append(place)
        elif run:
            yield run
            run = []
    if run:
        yield run


class Roads:
    """The ways of the map: takes those of a draft one by one, and gives the text of each to `put`."""

    def __init__(self, draft, split, counts, put):
        self.draft, self.split, self.counts, self.put = draft, split, counts, put
        self.is_used = bytearray(len(draft.latitudes))
        self.new_ways, self.new_nodes = NewIds(draft.way_ids.below()), NewIds(draft.nodes.below())
        self.first_new_node = self.new_nodes.next
        self.new_latitudes, self.new_longitudes = array('i'), array('i')
        self.ids, self.pieces, self.inserted = Ids(), {}, {}

    def take_all(self, see=None):
        """Takes all roads of the draft. `see` is told the tags and the places of the nodes of each piece."""
        for number, nodes, tags in self.draft.each_way():
            places = self.draft.nodes.places(nodes)
            pieces = [places] if len(places) > 1 and -1 not in places else self.pieces_of(number, places)
            text = json_bytes(tags)
            for piece_number, piece in self.numbered(number, pieces):
                self.put(piece_number, self.nodes_along(piece, tags), text)
                if see:
                    see(tags, piece)
        self.ids.settle()

    def pieces_of(self, number, places):
        """The pieces of a road that lacks nodes, each of two nodes or more."""
        runs = list(runs_of(places))
        pieces = [run for run in runs if len(run) > 1]
        if not pieces:
            self.counts['roads_without_segment'] += 1
            return pieces
        self.counts['lone_nodes'] += len(runs) - len(pieces)
        self.counts['cut_ways'] += 1
        self.counts['missing_nodes'] += places.count(-1)
        self.counts['pieces'] += len(pieces) - 1
        self.pieces[number] = []
        return pieces

    def numbered(self, number, pieces):
        """The pieces of a road with their ids: the first keeps that of the road."""
        cut = self.pieces.get(number)
        for piece in pieces:
            own = self.new_ways.take() if cut else number
            if own == number:
                self.ids.add(number)
            if cut is not None:
                cut.append((own, piece))
            self.counts.add('ways')
            yield own, piece

    def nodes_along(self, piece, tags):
        """The ids of the nodes of a piece, with those that split its segments. Ferries aren't split."""
        ids, latitudes, longitudes = self.draft.nodes.by_place, self.draft.latitudes, self.draft.longitudes
        split = None if is_ferry(tags) else self.split
        surely_short = ((split or MOST_SEGMENT) / METRES) ** 2
        for place in piece:
            self.is_used[place] = 1
        along = [ids[piece[0]]]
        for start, end in zip(piece, piece[1:]):
            north, east = latitudes[end] - latitudes[start], longitudes[end] - longitudes[start]
            if north * north + east * east > surely_short:
                parts = self.parts_of(north, east, latitudes[start] + north / 2, split)
                if parts > 1:
                    along += self.between(start, end, parts)
            along.append(ids[end])
        self.counts.add('segments', len(along) - 1)
        return along

    def parts_of(self, north, east, middle, split):
        """Into how many parts a segment is split, which goes so far north and east across a latitude."""
        metres = METRES * hypot(north, east * cos(radians(middle / 1e6)))
        if metres > MOST_SEGMENT:
            self.counts['endless_segments'] += 1
            return 1
        return ceil(metres / split) if split else 1

    def between(self, start, end, parts):
        """The ids of the nodes that split a segment, in the order in which it is gone along. Each segment has them once."""
        low, high = min(start, end), max(start, end)
        first = self.inserted.get(low * PLACES + high)
        if first is None:
            first = self.inserted[low * PLACES + high] = self.new_nodes.take(parts - 1)
            self.insert(low, high, parts)
        ids = range(first, first - (parts - 1), -1)
        return ids if start == low else reversed(ids)

    def insert(self, low, high, parts):
        for values, new in ((self.draft.latitudes, self.new_latitudes), (self.draft.longitudes, self.new_longitudes)):
            begin, whole = values[low], values[high] - values[low]
            new.extend(begin + (2 * whole * part + parts) // (2 * parts) for part in range(1, parts))
        self.counts['split_segments'] += 1
        self.counts['inserted_nodes'] += parts - 1

    def pieces_at(self, number, place=None):
        """The ids of the pieces of a road, or those at a node; none where the road isn't on the map."""
        if number in self.pieces:
            return [own for own, piece in self.pieces[number] if place is None or place in piece]
        return [number] if self.ids.places([number])[0] >= 0 else []
