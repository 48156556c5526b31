"""Ids of elements of one kind in the order in which they came, kept as eight bytes each."""
from array import array
from bisect import bisect_left

from .faults import Refused

LEAST_ID, MOST_ID = -2 ** 63, 2 ** 63 - 1


class Ids:
    """Ids by place, which finds the first place of each. Ids that came in ascending order need no second list."""

    def __init__(self):
        self.by_place = array('q')
        self.ascending = True
        self.sorted = self.by_place
        self.order = None

    def add(self, number):
        held = self.by_place
        if held and number <= held[-1]:
            self.ascending = False
        held.append(number)

    def settle(self):
        """Makes ids that came in another order ready to be found."""
        if self.ascending:
            return
        held = self.by_place
        self.order = array('q', sorted(range(len(held)), key=held.__getitem__))
        self.sorted = array('q', (held[place] for place in self.order))

    def repeats(self):
        """The first place and a later one of each id that came again."""
        if self.ascending:
            return
        first = 0
        for rank in range(1, len(self.sorted)):
            if self.sorted[rank] == self.sorted[first]:
                yield self.order[first], self.order[rank]
            else:
                first = rank

    def places(self, numbers):
        """The place of each number, -1 where it isn't there."""
        held, count = self.sorted, len(self.sorted)
        ranks = [bisect_left(held, number) for number in numbers]
        if self.order is None:
            return [rank if rank < count and held[rank] == number else -1 for rank, number in zip(ranks, numbers)]
        return [self.order[rank] if rank < count and held[rank] == number else -1 for rank, number in zip(ranks, numbers)]

    def below(self):
        """The greatest id below all of these and below zero."""
        return min(0, self.sorted[0] if self.sorted else 0) - 1


class NewIds:
    """Ids for what has none of its own, downward from below all that are taken."""

    def __init__(self, first):
        self.next = first

    def take(self, count=1):
        """The first of so many ids in a row, each one less than that before."""
        first = self.next
        if first - count < LEAST_ID:
            raise Refused(f'no ids are left below {first + 1} for what is cut or split')
        self.next -= count
        return first
