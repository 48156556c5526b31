"""How a request may ride over a map, and what has to hold of a leg of a certificate (docs/REFUSALS.md, "Why a certificate is refused")."""
from heapq import heappop, heappush

from . import costs, geometry
from .certificate import Label
from .covering import Covering, mode_of
from .facts import bind, is_passable
from .refusals import Refusal

SNAP, LABEL_COST_LIMIT = 250_000, 2**120


class Ride:
    """The links of a map by a profile's global values and a request's circles: which are open, what they cost, what may follow on what."""

    def __init__(self, world, global_values, circles):
        self.rates = costs.rates_of(global_values)
        self.has_restrictions = global_values.get(b'considerTurnRestrictions', 0) != 0
        self.road_map, self.links = world.road_map, world.road_map.links
        self.spots = world.road_map.content['node']
        facts = bind(world.sections, world.table, global_values, world.road_map, world.tiles)
        self.climbs = [costs.Climb(it, self.rates) for it in facts]
        modes = mode_of([it.down_more for it in self.climbs]), mode_of([it.up_more for it in self.climbs])
        self.covering = Covering(modes, (self.rates.down, self.rates.up))
        self.is_open = [is_passable(it) and not any(
            geometry.touches(self.spots[link.start], self.spots[link.end], *circle) for circle in circles)
            for link, it in zip(self.links, facts)]

    def nearest(self, places):
        """The node to which each waypoint is moved, or the refusal of the first that has none. What lies too far to the north or south
        needs no length."""
        found, ends = [], {node for link, is_open in zip(self.links, self.is_open) if is_open for node in (link.start, link.end)}
        for number, place in enumerate(places):
            near = [(there.length, node) for node in ends if abs(self.spots[node][1] - place[1]) * 11132 < 100 * (SNAP + 1)
                    and (there := geometry.arrow(place, self.spots[node])) and there.length <= SNAP]
            if not near:
                raise Refusal(4, f'not mapped: waypoint {number}')
            found.append(min(near)[1])
        return found

    def may_follow(self, first, second):
        return first.end == second.start and first.start != second.end and not (
            self.has_restrictions and self.road_map.forbids(first, second))

    def is_walk(self, walk, start, target):
        """Whether links are a permitted walk between two nodes."""
        links = [self.links[it] for it in walk]
        return start == target if not links else (
            links[0].start == start and links[-1].end == target and all(self.is_open[it] for it in walk)
            and all(map(self.may_follow, links, links[1:])))

    def starts(self, node):
        """The labels of the walks of one link from a node."""
        for link in self.road_map.leaving.get(node, ()):
            if self.is_open[link]:
                yield Label(link, *self.climbs[link].enter(0, 0))

    def steps(self, labels):
        """The labels of the walks that are a link longer than those of labels."""
        known = {}
        for last, cost, down, up in labels:
            if last not in known:
                first = self.links[last]
                known[last] = [(link, costs.change(self.climbs[last].facts, self.climbs[link].facts), self.climbs[link].enter)
                               for link in self.road_map.leaving.get(first.end, ())
                               if self.is_open[link] and self.may_follow(first, self.links[link])]
            for link, changed, enter in known[last]:
                part, new_down, new_up = enter(down, up)
                yield Label(link, cost + changed + part, new_down, new_up)

    def rests(self, target):
        """The least sum of low prices from each node to a target, over open links that join; none where none lead there."""
        found, queue = {}, [(0, target)]
        while queue:
            rest, node = heappop(queue)
            if node not in found:
                found[node] = rest
                for link in self.road_map.leaving.get(node, ()):
                    before = link ^ 1  # the same segment in the other direction: links are in pairs
                    if self.is_open[before]:
                        heappush(queue, (rest + self.climbs[before].low_price(), self.links[before].start))
        return found

    def fault(self, form, leg, start, target):
        """The first condition that fails of a leg of a certificate of this form, or None."""
        if not self.is_walk(leg.walk, start, target) or costs.walk_cost([self.climbs[it] for it in leg.walk]) != leg.cost or (
                start == target and leg.cost):
            return 'walk'
        if any(it.cost >= LABEL_COST_LIMIT or max(it.down, it.up) > self.rates.most for it in leg.labels):
            return 'bounds'
        rests = self.rests(target) if form == 2 else dict.fromkeys(self.spots, 0)
        groups = self.covering.grouped(leg.labels)

        def are_covered(states):
            ranked = ((it, rests.get(self.links[it.link].end)) for it in states)
            return self.covering.covers(groups, (it for it, rest in ranked if rest is not None and it.cost + rest < leg.cost))

        if not are_covered(self.starts(start)):
            return 'start'
        if not are_covered(self.steps(leg.labels)):
            return 'step'
        return 'goal' if any(self.links[it.link].end == target and it.cost < leg.cost for it in leg.labels) else None
