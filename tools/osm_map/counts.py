"""What a map holds, what was left out or changed on the way, and the limits of the program."""
from collections import Counter

from .faults import Refused

MOST_ELEMENTS = 8_000_000
MOST_BYTES = 8_589_934_592

LEFT_OUT = {
    'not_roads': 'ways that are neither roads nor ferries',
    'nodes_outside': 'nodes outside the box',
    'roads_without_segment': 'roads of which no two nodes in a row are there',
    'lone_nodes': 'lone nodes between missing ones on a road',
    'repeated': 'elements that came again as they were',
    'other_relations': 'relations that are neither cycle routes nor turn restrictions',
    'proposed_routes': 'cycle routes that are only proposed',
    'empty_routes': 'cycle routes without a network or without a road that is there',
    'empty_restrictions': 'turn restrictions whose node or ways are not there, or that go by a way',
    'members_left_out': 'members of relations that are not there or have no effect',
}


class Counts(Counter):
    """Counts by name, with those of the map held to the program's limits."""

    def add(self, name, number=1):
        """Adds to one of `nodes`, `ways`, `segments` and `members`."""
        self[name] += number
        if self[name] > MOST_ELEMENTS:
            raise Refused(f'more than {MOST_ELEMENTS:,} {name}, which is the most that the program takes:'
                          ' cut a smaller box out (box=W,S,E,N), or split less')

    def left_out(self):
        """What was left out, by name."""
        return {name: self[name] for name in LEFT_OUT if self[name]}

    def lines(self):
        """What was left out or changed, in a line each."""
        for name, number in self.left_out().items():
            yield f'left out, {LEFT_OUT[name]}: {number:,}'
        if self['cut_ways']:
            yield (f"cut, roads at nodes that are missing: {self['cut_ways']:,}, at {self['missing_nodes']:,} nodes;"
                   f" pieces under ids of their own: {self['pieces']:,}")
        if self['split_segments']:
            yield f"split, segments: {self['split_segments']:,}, by {self['inserted_nodes']:,} new nodes"
        if self['left_out_of_tiles']:
            yield f"left out, lines of the least classes in tiles that would be too large: {self['left_out_of_tiles']:,}"
        if self['endless_segments']:
            yield f"kept, segments of more than 100 kilometres, of which the program makes no link: {self['endless_segments']:,}"
