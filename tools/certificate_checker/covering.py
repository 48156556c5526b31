"""Whether labels of a list make states needless (docs/FORMULAS.md, "covering" and "mode"), for many of both at once.

In a compensated buffer a label covers a state either with no more than it, at no price, or with no less, at the price of the difference. On
each of these two sides what is compared is a sum of the label's own numbers with one of the state's. So one pass over labels and states in
the order of one buffer, which keeps the least sum by the other, takes n log n steps, in whatever order they come."""
from bisect import bisect_right
from itertools import product
from math import inf


class LeastUpTo:
    """Of values that are added at places, the least at any place up to a given one (a Fenwick tree)."""

    def __init__(self, places):
        self.places = sorted(set(places))
        self.least = [inf] * (len(self.places) + 1)

    def add(self, place, value):
        at = bisect_right(self.places, place)
        while at < len(self.least):
            self.least[at] = min(self.least[at], value)
            at += at & -at

    def up_to(self, place):
        at, found = bisect_right(self.places, place), inf
        while at:
            found = min(found, self.least[at])
            at &= at - 1
        return found


def mode_of(differences):
    """How two labels compare in a buffer, by how much its factor is above `costfactor` on each link of the map."""
    return 'compensated' if not any(differences) else 'ordered' if min(differences) >= 0 else 'equal'


class Covering:
    """The rule by which a label covers a state of its link, by the modes and the rates of both buffers."""

    def __init__(self, modes, rates):
        self.is_equal = [mode == 'equal' for mode in modes]
        self.is_compared = [mode == 'ordered' or mode == 'compensated' and rate > 0 for mode, rate in zip(modes, rates)]
        self.sides = list(product(*([(1, 0), (-1, rate)] if mode == 'compensated' and rate else [(1, 0)]
                                    for mode, rate in zip(modes, rates))))

    def grouped(self, labels):
        """Labels or states by what has to be equal; of each its buffers, 0 where they aren't compared, and its cost."""
        groups = {}
        for link, cost, *buffers in labels:
            key = link, *(it for it, is_equal in zip(buffers, self.is_equal) if is_equal)
            down, up = (it if is_compared else 0 for it, is_compared in zip(buffers, self.is_compared))
            groups.setdefault(key, []).append((down, up, cost))
        return groups

    def covers(self, groups, states):
        """Whether each of the states is covered by a label of these groups."""
        for key, left in self.grouped(states).items():
            for side in self.sides:
                left = uncovered(groups.get(key, []), left, *side)
            if left:
                return False
        return True


def uncovered(labels, states, down_side, up_side):
    """The states that no label covers from this side of both buffers, each given by its sign and its rate."""
    (down_sign, down_rate), (up_sign, up_rate) = down_side, up_side
    labels = sorted((down_sign * down, up_sign * up, cost + down_rate * down + up_rate * up) for down, up, cost in labels)
    sums, added, left = LeastUpTo(up for _, up, _ in labels), 0, []
    for down, up, cost in sorted(states, key=lambda it: down_sign * it[0]):
        while added < len(labels) and labels[added][0] <= down_sign * down:
            sums.add(*labels[added][1:])
            added += 1
        if sums.up_to(up_sign * up) > cost + down_rate * down + up_rate * up:
            left.append((down, up, cost))
    return left
