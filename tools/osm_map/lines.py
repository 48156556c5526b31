"""Lines as a map shows them: put together where two of a kind meet, simplified by zoom, and cut at the borders of tiles."""
from math import asinh, atan, degrees, floor, pi, radians, sinh, tan

MOST_LATITUDE = 85.0511      # the edge of the web's map


def projected(longitude, latitude, zoom):
    """A place in tiles of a zoom from the north-west corner of the web's map; x to the east, y to the south."""
    held = max(-MOST_LATITUDE, min(MOST_LATITUDE, latitude))
    side = 1 << zoom
    return (longitude + 180) / 360 * side, (0.5 - asinh(tan(radians(held))) / (2 * pi)) * side


def placed(x, y, zoom):
    """The longitude and latitude of a place in tiles of a zoom."""
    side = 1 << zoom
    return x / side * 360 - 180, degrees(atan(sinh(pi * (1 - 2 * y / side))))


def joined(lines):
    """Lines, each a list of node places, put together where just two ends meet."""
    ends = {}
    for number, line in enumerate(lines):
        ends.setdefault(line[0], []).append(number)
        ends.setdefault(line[-1], []).append(number)
    waiting = set(range(len(lines)))
    for number in range(len(lines)):
        if number in waiting:
            waiting.remove(number)
            forward = grown(list(lines[number]), lines, ends, waiting)
            yield grown(forward[::-1], lines, ends, waiting)


def grown(line, lines, ends, waiting):
    """A line with those that go on at its end, one after the other."""
    while True:
        meeting = ends[line[-1]]
        following = [number for number in meeting if number in waiting] if len(meeting) == 2 else []
        if len(following) != 1:
            return line
        waiting.remove(following[0])
        more = lines[following[0]]
        line.extend(more[1:] if more[0] == line[-1] else more[-2::-1])


def simplified(points, tolerance):
    """The points of a line without those that lie closer than the tolerance to what is left (Douglas and Peucker)."""
    last = len(points) - 1
    keeps = bytearray(last + 1)
    keeps[0] = keeps[last] = 1
    waiting = [(0, last)]
    while waiting:
        first, last = waiting.pop()
        place, distance = farthest(points, first, last)
        if distance > tolerance * tolerance:
            keeps[place] = 1
            waiting += ((first, place), (place, last))
    return [point for point, kept in zip(points, keeps) if kept]


def farthest(points, first, last):
    """The point between two others that is farthest from the straight line between these, and the square of its distance."""
    (x, y), (end_x, end_y) = points[first], points[last]
    east, south = end_x - x, end_y - y
    square = east * east + south * south
    place, most = first, 0.0
    for number in range(first + 1, last):
        away_x, away_y = points[number][0] - x, points[number][1] - y
        along = (away_x * east + away_y * south) / square if square else 0.0
        along = 0.0 if along < 0 else 1.0 if along > 1 else along
        away_x, away_y = away_x - along * east, away_y - along * south
        distance = away_x * away_x + away_y * away_y
        if distance > most:
            place, most = number, distance
    return place, most


def by_tile(points):
    """The parts of a line by the tiles that it passes: the tile's column and row, and the points of the part."""
    part, tile = [points[0]], None
    for start, end in zip(points, points[1:]):
        for stop in (*stops(start, end), end):
            before = part[-1]
            found = floor((before[0] + stop[0]) / 2), floor((before[1] + stop[1]) / 2)
            if tile is not None and found != tile:
                yield tile, part
                part = [before]
            tile = found
            part.append(stop)
    yield tile, part


def stops(start, end):
    """The points at which a straight line crosses borders of tiles, in order."""
    if floor(start[0]) == floor(end[0]) and floor(start[1]) == floor(end[1]):
        return
    along = set()
    for begin, finish in zip(start, end):
        if begin != finish:
            low, high = min(begin, finish), max(begin, finish)
            along.update((border - begin) / (finish - begin) for border in range(floor(low) + 1, floor(high) + 1) if low < border < high)
    for share in sorted(along):
        yield start[0] + share * (end[0] - start[0]), start[1] + share * (end[1] - start[1])
