"""Lengths, turns and circles on the map, in millimetres (docs/FORMULAS.md, "Lengths, turns, circles").

A spot is a pair of longitude and latitude in microdegrees, an arrow its two parts to the east and north with its length."""
from collections import namedtuple
from math import isqrt

from .numbers import MILLION, cut

SCALE = 10**9
LONGEST, FARTHEST = 100_000_000, 300_000_000
Arrow = namedtuple('Arrow', 'east north length')


def cosine(latitude):
    """The cosine of a latitude, in parts of 10^9."""
    angle = abs(latitude) * 1745329252 // 10**8
    square = angle * angle // SCALE
    bracket = SCALE - square // 90
    for divisor in (56, 30, 12, 2):
        bracket = SCALE - square * bracket // SCALE // divisor
    return max(bracket, 0)


def parts(a, b):
    """How far a spot lies to the east and to the north of another one."""
    north = cut((b[1] - a[1]) * 11132, 100)
    east = cut((b[0] - a[0]) * 11132 * cosine((a[1] + b[1]) // 2), 100 * SCALE)
    return east, north


def arrow(a, b):
    """The arrow from one spot to another, or None where it is longer than 100 kilometres."""
    east, north = parts(a, b)
    length = isqrt(east * east + north * north)
    return Arrow(east, north, length) if length <= LONGEST else None


def turn_cosine(first, second):
    """The cosine of the turn between two arrows in millionths."""
    if not first.length or not second.length:
        return MILLION
    dot = first.east * second.east + first.north * second.north
    return max(-MILLION, min(MILLION, cut(dot * MILLION, first.length * second.length)))


def touches(a, b, centre, radius):
    """Whether a circle touches the straight line between two spots."""
    (ax, ay), (bx, by) = parts(centre, a), parts(centre, b)
    if max(abs(ax), abs(ay), abs(bx), abs(by)) > FARTHEST:
        return False
    vx, vy = bx - ax, by - ay
    t = -(ax * vx + ay * vy)
    w = vx * vx + vy * vy
    if t <= 0:
        return ax * ax + ay * ay <= radius * radius
    if t >= w:
        return bx * bx + by * by <= radius * radius
    return (ax * by - ay * bx) ** 2 <= radius * radius * w
