"""What a list of labels has to cover, in both forms of a certificate, against the rule written out label by label over small made maps."""
import random
import unittest
from math import inf
from unittest.mock import patch

from certificate_checker import costs
from certificate_checker.certificate import Label, Leg
from certificate_checker.covering import Covering, LeastUpTo
from tests.certificate_worlds import map_text, residential, ride, tile, walk_of

PROFILES = {
    'plain': '---context:way assign costfactor switch highway=track 3 1',
    'climbing': '---context:global assign uphillcost 60 assign uphillcutoff 1 assign downhillcost 30 assign downhillcutoff 2'
                ' ---context:way assign turncost 20 assign costfactor switch highway=track 2 1.1',
    'ordered': '---context:global assign uphillcost 40 assign elevationbufferreduce 5'
               ' ---context:way assign costfactor 1 assign uphillcostfactor 2 assign downhillcostfactor switch highway=track 3 1',
    'equal': '---context:global assign downhillcost 50 assign considerTurnRestrictions 1 assign elevationbufferreduce 10'
             ' ---context:way assign initialcost 5 assign costfactor 2 assign uphillcostfactor 1 assign downhillcostfactor 3',
}


def made_map(seed):
    """A small town: crooked squares with some diagonals, a track among the streets, a one-way piece and a turn that is forbidden."""
    draw = random.Random(seed)
    side = draw.choice((3, 4))
    nodes = {1 + x + side * y: (800 * x + draw.randrange(300), 700 * y + draw.randrange(300)) for x in range(side) for y in range(side)}
    pairs = [(a, b) for a in nodes for b in nodes if b in (a + 1, a + side, a + side + 1) and draw.random() < 0.75]
    ways = {100 + k: (list(it), {'highway': draw.choice(('residential', 'track'))}) for k, it in enumerate(pairs)}
    from_way, to_way = draw.sample(sorted(ways), 2)
    members = [('way', from_way, 'from'), ('node', ways[from_way][0][1], 'via'), ('way', to_way, 'to')]
    turn = {'type': 'relation', 'id': 1, 'members': [{'type': kind, 'ref': ref, 'role': role} for kind, ref, role in members],
            'tags': {'type': 'restriction', 'restriction': 'no_turn'}}
    return map_text(nodes, ways, [turn]), draw


HILLS = tile(lambda i, j: (i * 7919 + j * 104729) % 37)


def modes_of(made):
    """The mode of each buffer with its rate, by the differences of the factors on all links."""
    def mode(differences):
        return 'compensated' if set(differences) <= {0} else 'ordered' if min(differences) >= 0 else 'equal'

    facts = [it.facts for it in made.climbs]
    return ((mode([it.down_factor - it.costfactor for it in facts]), made.rates.down),
            (mode([it.up_factor - it.costfactor for it in facts]), made.rates.up))


def covers(modes, label, state):
    """The rule of covering, word by word."""
    cost = label.cost
    for (mode, rate), mine, other in zip(modes, label[2:], state[2:]):
        if mode == 'compensated':
            cost += rate * max(mine - other, 0)
        elif mode == 'ordered' and mine > other or mode == 'equal' and mine != other:
            return False
    return label.link == state.link and cost <= state.cost


def least_rests(made, target):
    """What remains from each node, by passing over all links until nothing falls."""
    rests, falls = {target: 0}, True
    while falls:
        falls = False
        for link, climb, is_open in zip(made.links, made.climbs, made.is_open):
            found = climb.low_price() + rests.get(link.end, inf) if is_open else inf
            if found < rests.get(link.start, inf):
                rests[link.start], falls = found, True
    return rests


def fault(made, form, leg, start, target):
    """The first of `start`, `step` and `goal` that fails, by the rule for each label and each step alone."""
    modes, rests = modes_of(made), least_rests(made, target) if form == 2 else {}

    def is_shown(state):
        rest = rests.get(made.links[state.link].end, inf) if form == 2 else 0
        return state.cost + rest >= leg.cost or any(covers(modes, it, state) for it in leg.labels)

    if not all(map(is_shown, made.starts(start))):
        return 'start'
    if not all(map(is_shown, made.steps(leg.labels))):
        return 'step'
    return 'goal' if any(made.links[it.link].end == target and it.cost < leg.cost for it in leg.labels) else None


def searched(made, start, target):
    """A least walk with the labels that are cheaper, in the order of their costs, by a search that passes over all that wait."""
    modes, kept = modes_of(made), []
    waiting = [(it, (it.link,)) for it in made.starts(start)]
    while waiting:
        waiting.sort(key=lambda it: it[0].cost)
        label, walk = waiting.pop(0)
        if made.links[label.link].end == target:
            return Leg(list(walk), label.cost, kept)
        if not any(covers(modes, it, label) for it in kept):
            kept.append(label)
            waiting += [(it, (*walk, it.link)) for it in made.steps([label])]
    return None


def ranked(made, leg, target):
    """The leg with the labels alone that rank below its cost."""
    rests = least_rests(made, target)
    return leg._replace(labels=[it for it in leg.labels if it.cost + rests.get(made.links[it.link].end, inf) < leg.cost])


def tampered(draw, made, leg):
    """The leg with a label changed, left out, doubled, moved or added at the end of the walk, or with another cost."""
    labels = list(leg.labels)
    place = draw.randrange(len(labels)) if labels else 0
    kind = draw.choice(('cost', 'down', 'up', 'out', 'twice', 'link', 'leg', 'order', 'goal'))
    if kind == 'leg':
        return leg._replace(cost=max(0, leg.cost + draw.choice((-1, 1)) * draw.choice((1, 10**6))))
    if not labels:
        return leg
    if kind == 'out':
        del labels[place]
    elif kind == 'twice':
        labels.append(labels[place])
    elif kind == 'goal':
        labels.insert(place, Label(leg.walk[-1], leg.cost - draw.choice((0, 1)), 0, 0))
    elif kind == 'order':
        draw.shuffle(labels)
    elif kind == 'link':
        labels[place] = labels[place]._replace(link=draw.randrange(len(made.links)))
    else:
        value = max(0, getattr(labels[place], kind) + draw.choice((-1, 1)) * draw.choice((1, 1000, 10**6)))
        labels[place] = labels[place]._replace(**{kind: value})
    return leg._replace(labels=labels)


class Closing(unittest.TestCase):
    def legs(self, count):
        """Least walks with their labels over made maps, by all profiles."""
        for seed in range(count):
            text, draw = made_map(seed)
            for name, profile in PROFILES.items():
                made = ride(profile.encode(), text, N00E000=HILLS)
                start, target = draw.sample(sorted(made.spots), 2)
                leg = searched(made, start, target)
                if leg:
                    yield name, draw, made, leg, start, target

    def test_what_a_search_leaves_is_a_certificate_of_both_forms(self):
        fewer = 0
        for name, _, made, leg, start, target in self.legs(12):
            short = ranked(made, leg, target)
            fewer += len(leg.labels) - len(short.labels)
            self.assertEqual(costs.walk_cost([made.climbs[it] for it in leg.walk]), leg.cost, name)
            for form, shown in ((1, leg), (2, leg), (2, short)):
                self.assertIsNone(made.fault(form, shown, start, target), (name, form))
        self.assertGreater(fewer, 200)

    def test_a_leg_from_a_node_to_itself_costs_nothing(self):
        text = map_text({1: (0, 0), 2: (1000, 0), 3: (1000, 1000)}, {10: residential(1, 2, 3, 1)})
        for costfactor, wanted in ((1, 'walk'), (0, None)):
            made = ride(f'---context:way assign costfactor {costfactor}'.encode(), text)
            around = walk_of(made, '10/0/f', '10/1/f', '10/2/f')
            leg = Leg(around, costs.walk_cost([made.climbs[it] for it in around]), [])
            for form in (1, 2):
                self.assertEqual(made.fault(form, leg, 1, 1), wanted)
                self.assertIsNone(made.fault(form, Leg([], 0, []), 1, 1))
                self.assertEqual(made.fault(form, Leg([], 0, []), 1, 2), 'walk')

    def test_each_label_that_is_needed_is_missed(self):
        missed = dict.fromkeys(('start', 'step'), 0)
        for name, _, made, leg, start, target in self.legs(6):
            short = ranked(made, leg, target)
            for place in range(len(short.labels)):
                without = short._replace(labels=short.labels[:place] + short.labels[place + 1:])
                wanted = fault(made, 2, without, start, target)
                self.assertEqual(made.fault(2, without, start, target), wanted, (name, place))
                self.assertIsNotNone(wanted, (name, place))
                missed[wanted] += 1
        self.assertGreater(min(missed.values()), 20)

    def test_tampered_lists_by_the_rule_label_by_label(self):
        told = {}
        for name, draw, made, leg, start, target in self.legs(12):
            for _ in range(25):
                form = draw.choice((1, 2))
                shown = draw.choice((leg, ranked(made, leg, target)))
                for _ in range(draw.choice((1, 1, 2, 3))):
                    shown = tampered(draw, made, shown)
                found = made.fault(form, shown, start, target)
                if found not in ('walk', 'bounds'):
                    self.assertEqual(found, fault(made, form, shown, start, target), (name, form, shown))
                told[form, found] = told.get((form, found), 0) + 1
        for form in (1, 2):
            for why in ('start', 'step', 'goal', 'walk', None):
                self.assertGreater(told.get((form, why), 0), 5, (form, why, told))


class CoveringRule(unittest.TestCase):
    def test_many_at_once_as_one_by_one(self):
        draw = random.Random(5)
        both = [0, 0]
        for _ in range(2000):
            modes = [(draw.choice(('compensated', 'ordered', 'equal')), draw.choice((0, 0, 1, 3))) for _ in range(2)]
            rule = Covering([mode for mode, _ in modes], [rate for _, rate in modes])
            labels, states = ([Label(draw.randrange(2), draw.randrange(12), draw.randrange(4), draw.randrange(4))
                               for _ in range(draw.randrange(most))] for most in (9, 4))
            wanted = all(any(covers(modes, label, state) for label in labels) for state in states)
            self.assertEqual(rule.covers(rule.grouped(labels), states), wanted, (modes, labels, states))
            both[wanted] += 1
        self.assertGreater(min(both), 300)

    def test_least_up_to(self):
        sums = LeastUpTo([5, 1, 5, 9])
        self.assertEqual(sums.up_to(9), inf)
        for place, value in ((5, 7), (9, 2), (5, 8)):
            sums.add(place, value)
        self.assertEqual([sums.up_to(it) for it in (0, 1, 5, 8, 9, 100)], [inf, inf, 7, 7, 2, 2])

    def test_labels_of_one_link_are_not_compared_pair_by_pair(self):
        steps = []
        for count in (1000, 4000):
            labels = [Label(0, 2 * it, 100 * it, 100 * (count - it)) for it in range(count)]
            states = [Label(0, 2 * it + 1, 100 * it + 50, 100 * (count - it) + 50) for it in range(count)]
            rule = Covering(('compensated', 'compensated'), (1, 1))
            steps.append(looks_of(lambda: self.assertTrue(rule.covers(rule.grouped(labels), states))))
        self.assertLess(steps[1], 6 * steps[0])


class Counted(list):
    """A list that counts how often an item of any such list is looked at."""
    looks = 0

    def __getitem__(self, at):
        Counted.looks += 1
        return super().__getitem__(at)


class CountedSums(LeastUpTo):
    def __init__(self, places):
        super().__init__(places)
        self.least = Counted(self.least)


def looks_of(call):
    """How often a least sum is looked at in a call."""
    Counted.looks = 0
    with patch('certificate_checker.covering.LeastUpTo', CountedSums):
        call()
    return Counted.looks


if __name__ == '__main__':
    unittest.main()
