"""All that was read of an input and may belong to a map: nodes in compact lists, roads and relations on the disk."""
from array import array

from .faults import Refused
from .ids import Ids, LEAST_ID, MOST_ID
from .spool import Spool

ROUTES = ('bicycle', 'mtb')


def is_road(tags):
    return 'highway' in tags or tags.get('route') == 'ferry'


def is_ferry(tags):
    return 'highway' not in tags


def is_route(tags):
    return tags.get('type') == 'route' and tags.get('route') in ROUTES


def is_restriction(tags):
    return tags.get('type') == 'restriction'


class Draft:
    """Takes elements in whatever order. A reader of an input calls `add_node`, `add_way` and `add_relation`, and sets `date`."""

    def __init__(self, folder, box, counts):
        self.box, self.counts, self.date = box, counts, None
        self.nodes, self.latitudes, self.longitudes = Ids(), array('i'), array('i')
        self.node_tags = {}
        self.way_ids, self.ways = Ids(), Spool(folder)
        self.relation_ids, self.relations = Ids(), Spool(folder)
        self.read = 0

    def add_node(self, number, latitude, longitude, tags):
        """A node by its id, its microdegrees, and its tags as the bytes of a JSON object, or None."""
        self.read += 1
        box = self.box
        if box and not (box.south <= latitude <= box.north and box.west <= longitude <= box.east):
            self.counts['nodes_outside'] += 1
            return
        if tags:
            self.node_tags[len(self.latitudes)] = tags
        self.nodes.add(number)
        self.latitudes.append(latitude)
        self.longitudes.append(longitude)

    def add_way(self, number, nodes, tags):
        self.read += 1
        if not is_road(tags):
            self.counts['not_roads'] += 1
            return
        self.way_ids.add(number)
        self.ways.add((number, nodes, tags))

    def add_relation(self, number, members, tags):
        """A relation by its id, its members as triples of kind, id and role, and its tags."""
        self.read += 1
        if is_route(tags) and tags.get('state') == 'proposed':
            self.counts['proposed_routes'] += 1
        elif is_route(tags) or is_restriction(tags):
            self.relation_ids.add(number)
            self.relations.add((number, members, tags))
        else:
            self.counts['other_relations'] += 1

    def settle(self):
        """Makes ids ready to be found, once all has been read. Nodes that came again have to be as they were."""
        for ids in (self.nodes, self.way_ids, self.relation_ids):
            ids.settle()
        for first, later in self.nodes.repeats():
            if (self.latitudes[first], self.longitudes[first]) != (self.latitudes[later], self.longitudes[later]):
                raise Refused(f'node {self.nodes.by_place[first]} is there twice, at two places: extracts of different days were joined')
            self.counts['repeated'] += 1
            if later in self.node_tags:
                self.node_tags.setdefault(first, self.node_tags[later])

    def each_way(self):
        """Each road once: id, ids of its nodes, tags."""
        return self._once('way', self.way_ids, self.ways)

    def each_relation(self):
        """Each cycle route and turn restriction once: id, members, tags."""
        return self._once('relation', self.relation_ids, self.relations)

    def _once(self, kind, ids, spool):
        """The records of a spool, each id once, as it came first."""
        seen = {ids.by_place[first]: None for first, _ in ids.repeats()}
        for number, content, tags in spool:
            if number not in seen:
                yield number, content, tags
            elif seen[number] is None:
                seen[number] = content
                yield number, content, tags
            elif seen[number] == content:
                self.counts['repeated'] += 1
            else:
                what = 'other nodes' if kind == 'way' else 'other members'
                raise Refused(f'{kind} {number} is there twice, with {what}: extracts of different days were joined')

    def close(self):
        self.ways.close()
        self.relations.close()


def fits(number):
    """Whether a number is a whole one of 64 bits."""
    return type(number) is int and LEAST_ID <= number <= MOST_ID
