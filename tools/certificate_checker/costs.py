"""What a link costs at its place in a walk, by the buffers that the walk has filled (docs/FORMULAS.md, "Heights and buffers" and "What a
link costs"). All costs are in millionths."""
from collections import namedtuple

from .geometry import turn_cosine
from .numbers import MILLION, mil6
from .profile import GLOBAL_NAMES
from .refusals import Refusal

DEFAULTS = {b'elevationpenaltybuffer': 5 * MILLION, b'elevationmaxbuffer': 10 * MILLION}
# what a metre of climbing and descending costs, slopes in micrometres a metre, and buffers in micrometres
Rates = namedtuple('Rates', 'up down up_cutoff down_cutoff penalty most reduction')


def rates_of(global_values):
    """The rates of the global values, or the refusal of the first that is negative, or of buffers out of order."""
    values = [global_values.get(name, DEFAULTS.get(name, 0)) for name in GLOBAL_NAMES]
    for name, value in zip(GLOBAL_NAMES, values):
        if value < 0:
            raise Refusal(2, f'{name.decode()} is negative')
    up, down, up_cutoff, down_cutoff, penalty, most, reduction = values
    if most < penalty:
        raise Refusal(2, f'elevationmaxbuffer {mil6(most)} is below elevationpenaltybuffer {mil6(penalty)}')
    return Rates(up // MILLION, down // MILLION, up_cutoff // 100, down_cutoff // 100, penalty, most, reduction // 100)


def step(buffer, added, reduction, penalty, most):
    """A buffer behind a link, what is paid of it, and its weight in millionths."""
    full = buffer + added
    if full <= penalty:
        return max(full, 0), 0, 0
    over = full - penalty
    paid = max(min(reduction, over), full - most)
    return full - paid, paid, MILLION if reduction <= over else MILLION * over // reduction


class Climb:
    """What a link does to the buffers of a walk, and the parts of its price that hang on them."""

    def __init__(self, facts, rates):
        self.facts, self.rates, length = facts, rates, facts.arrow.length
        self.down_added = -facts.rise - length * rates.down_cutoff // 1000
        self.up_added = facts.rise - length * rates.up_cutoff // 1000
        self.reduction = length * rates.reduction // 1000
        self.down_more, self.up_more = facts.down_factor - facts.costfactor, facts.up_factor - facts.costfactor

    def enter(self, down, up):
        """The distance, elevation and node parts together, and both buffers behind the link."""
        rates, facts = self.rates, self.facts
        down, down_paid, down_weight = step(down, self.down_added, self.reduction, rates.penalty, rates.most)
        up, up_paid, up_weight = step(up, self.up_added, self.reduction, rates.penalty, rates.most)
        factor = max(0, (facts.costfactor * MILLION + self.down_more * down_weight + self.up_more * up_weight) // MILLION)
        return facts.arrow.length * factor // 1000 + down_paid * rates.down + up_paid * rates.up + facts.charge, down, up

    def low_price(self):
        """The least that entering the link costs, whatever walk enters it."""
        factor = max(0, self.facts.costfactor + min(0, self.down_more) + min(0, self.up_more))
        return self.facts.arrow.length * factor // 1000 + self.facts.charge


def change(last, facts):
    """The turn and initial parts of a link that is entered after another."""
    turn = facts.turncost * (MILLION - turn_cosine(last.arrow, facts.arrow)) // MILLION
    return turn + (facts.initialcost if last.classifier != facts.classifier else 0)


def walk_cost(climbs):
    """What a walk along links costs, from empty buffers on."""
    cost, down, up = 0, 0, 0
    for last, climb in zip([None, *climbs], climbs):
        part, down, up = climb.enter(down, up)
        cost += part + (change(last.facts, climb.facts) if last else 0)
    return cost
