"""Heights between the samples of tiles (docs/FORMATS.md, "Tiles of heights"; docs/FORMULAS.md, "Heights and buffers")."""
import re

from .numbers import MILLION
from .refusals import Refusal

NAME = re.compile(r'([NnSs])([0-9]{2})([EeWw])([0-9]{3})\.hgt')
STEPS = {2 * 1201 * 1201: 1200, 2 * 3601 * 3601: 3600}
LARGEST = max(STEPS)
UNKNOWN = -32768


def corner_of(path):
    """The degrees of a tile's south-west corner, east and then north, by the last part of its name."""
    match = NAME.fullmatch(path.rsplit('/', 1)[-1])
    if match:
        north = int(match[2]) * (-1 if match[1] in 'Ss' else 1)
        east = int(match[4]) * (-1 if match[3] in 'Ww' else 1)
        if -90 <= north <= 89 and -180 <= east <= 179:
            return east, north
    raise Refusal(2, 'tile name')


class Tiles:
    """Tiles by their corners; of two of one corner the first counts."""

    def __init__(self):
        self.by_corner = {}

    def add(self, path, samples):
        corner = corner_of(path)
        if len(samples) not in STEPS:
            raise Refusal(2, 'tile size')
        self.by_corner.setdefault(corner, samples)

    def height(self, spot):
        """The height of a spot in micrometres, or None where it isn't known."""
        (east, a), (north, b) = divmod(spot[0], MILLION), divmod(spot[1], MILLION)
        samples = self.by_corner.get((east, north))
        if samples is None:
            return None
        steps = STEPS[len(samples)]
        (i, fx), (j, fy) = divmod(a * steps, MILLION), divmod(b * steps, MILLION)
        places = [2 * ((steps - row) * (steps + 1) + column) for row in (j, j + 1) for column in (i, i + 1)]
        corners = [int.from_bytes(samples[at:at + 2], 'big', signed=True) for at in places]
        if UNKNOWN in corners:
            return None
        south = (MILLION - fx) * corners[0] + fx * corners[1]
        north = (MILLION - fx) * corners[2] + fx * corners[3]
        return ((MILLION - fy) * south + fy * north) // MILLION
