#!/usr/bin/env python3
"""Makes the example town: `python3 town.py FOLDER` writes town.json and N49E008.hgt into the folder.

The town lies on squares of about a hundred metres, x to the east and y to the north; README.md has a drawing of it.
The same call writes the same bytes everywhere: only whole numbers are reckoned with, and nothing is read.
"""

import os
import sys

CORNER = (8500000, 49100000)   # microdegrees of the place 0,0: longitude, latitude
SQUARE = (1370, 900)           # microdegrees of a square
SKEW = (37, -23)               # the squares are a little askew: microdegrees a square of the other direction
STEPS = 1200                   # of the tile in a degree
BASE = 112                     # metres above the sea
HILL = (2120, 1780, 480, 48)   # place of the top, radius, metres above its foot
POND = (420, 185, 65)          # place and radius: the tile has no heights here, as is usual over water
VOID = -32768

HOME = dict(surface="asphalt", maxspeed="30", lit="yes")
B9 = dict(ref="B 9", surface="asphalt", lit="yes", lanes="2", maxspeed="50", sidewalk="both")
L12 = dict(ref="L 12", surface="asphalt", lit="yes", maxspeed="50")
PATH = dict(surface="asphalt", foot="yes", segregated="no")


class Town:
    """The elements of the map in the order in which they are drawn. A place is a pair in hundredths of a square."""

    def __init__(self):
        self.ids, self.node_tags, self.ways, self.relations = {}, {}, [], []

    def node(self, x, y):
        return self.ids.setdefault(hundredths(x, y), 1001 + len(self.ids))

    def mark(self, x, y, **tags):
        self.node_tags.setdefault(self.node(x, y), {}).update(named(tags))

    def way(self, highway, points, **tags):
        """A way through points; the whole squares between two of them that lie on a line of squares are nodes too."""
        nodes = [self.node(*points[0])]
        for start, end in zip(points, points[1:]):
            nodes += [self.node(*p) for p in between(start, end)] + [self.node(*end)]
        kind = {"highway": highway} if highway else {}
        self.ways.append((201 + len(self.ways), nodes, {**kind, **named(tags)}))
        return self.ways[-1][0]

    def relation(self, members, tags):
        self.relations.append((901 + len(self.relations), members, tags))

    def route(self, network, name, *ways):
        self.relation([("way", w, "") for w in ways], dict(type="route", route="bicycle", network=network, name=name))

    def restriction(self, kind, start, via, end, **tags):
        members = [("way", start, "from"), ("node", self.node(*via), "via"), ("way", end, "to")]
        self.relation(members, {"type": "restriction", "restriction": kind, **named(tags)})

    def text(self):
        lines = []
        for place, number in self.ids.items():
            longitude, latitude = (degrees(v) for v in spot(*place))
            lines.append('{"type":"node","id":%d,"lat":%s,"lon":%s%s}'
                         % (number, latitude, longitude, tags_text(self.node_tags.get(number, {}))))
        for number, nodes, tags in self.ways:
            lines.append('{"type":"way","id":%d,"nodes":[%s]%s}' % (number, ",".join(map(str, nodes)), tags_text(tags)))
        for number, members, tags in self.relations:
            items = ",".join('{"type":"%s","ref":%d,"role":"%s"}' % m for m in members)
            lines.append('{"type":"relation","id":%d,"members":[%s]%s}' % (number, items, tags_text(tags)))
        return '{"version":0.6,"generator":"town.py","elements":[\n' + ",\n".join(lines) + "\n]}\n"


def hundredths(x, y):
    return round(x * 100), round(y * 100)


def between(start, end):
    """The whole squares between two points on one line of squares; none where the line slants."""
    for k in (0, 1):
        if start[1 - k] == end[1 - k] and start[1 - k] == int(start[1 - k]):
            whole = [v for v in range(31) if min(start[k], end[k]) < v < max(start[k], end[k])]
            if start[k] > end[k]:
                whole.reverse()
            return [(v, start[1]) if k == 0 else (start[0], v) for v in whole]
    return []


def named(tags):
    """Colons of tag names are written __, and a final _ keeps a name apart from Python's words."""
    return {k.rstrip("_").replace("__", ":"): v for k, v in tags.items()}


def tags_text(tags):
    return ',"tags":{%s}' % ",".join('"%s":"%s"' % t for t in tags.items()) if tags else ""


def degrees(count):
    return "%d.%06d" % (count // 1000000, count % 1000000)


def spot(x, y):
    """Longitude and latitude of a place in microdegrees, moved by up to two metres so that few ways are equally long."""
    longitude = CORNER[0] + (SQUARE[0] * x + SKEW[0] * y + (x * x + 3 * x * y) % 2300) // 100
    latitude = CORNER[1] + (SQUARE[1] * y + SKEW[1] * x + (2 * y * y + 5 * x * y) % 1700) // 100
    return longitude, latitude


def draw_water_and_rails(t):
    t.way(None, [(0, 11.1), (4, 11.3), (8.4, 10.9), (13, 10.6), (17.6, 10.9), (23, 10.7), (30, 11.2)],
          waterway="river", name="Auer")
    t.way(None, [(13.2, 18), (11.4, 15), (10.6, 12.7), (10.4, 10.8)], waterway="stream", name="Erlen Brook")
    t.way(None, [(3.6, 1.4), (4.8, 1.3), (4.9, 2.3), (4.1, 2.5), (3.6, 1.4)], natural="water", name="Old Quarry")
    t.way(None, [(0, 3.6), (10.5, 3.6), (14, 3.5), (21, 3.4), (30, 3.4)], railway="rail")
    t.mark(14, 3.5, railway="level_crossing")


def draw_main_road(t):
    """From the south to the north, with the roundabout and the main bridge; the parts that relations name are returned."""
    t.way("primary", [(8, 0), (8, 3)], name="Southern Road", **{**B9, "maxspeed": "70", "lit": "no"})
    t.way("primary", [(8, 3), (8, 4)], name="Southern Road", tunnel="yes", layer="-1", **B9)
    t.way("primary", [(8, 4), (8, 4.7)], name="Southern Road", **B9)
    ring = [(8, 4.7), (8.2, 4.8), (8.3, 5), (8.2, 5.2), (8, 5.3), (7.8, 5.2), (7.7, 5), (7.8, 4.8), (8, 4.7)]
    t.way("primary", ring, name="Mill Circle", junction="roundabout", surface="asphalt", maxspeed="30", lit="yes")
    t.way("primary", [(8, 5.3), (8, 9.6)], name="Bridge Street", **B9)
    t.way("primary", [(8, 9.6), (8, 12)], name="Main Bridge", bridge="yes", layer="1", **B9)
    ramp = t.way("primary", [(8, 12), (8, 12.4), (8, 13)], name="Northern Road", **B9)
    t.way("primary", [(8, 13), (8, 16)], name="Northern Road", cycleway__right="lane", **B9)
    t.way("primary", [(8, 16), (8.4, 17.2), (9.3, 18.6), (10, 20), (10.2, 22), (10, 24)], name="Northern Road",
          **{**B9, "maxspeed": "100", "lit": "no", "sidewalk": "no"})
    t.mark(8, 7, highway="crossing", crossing="traffic_signals")
    t.mark(8, 9, highway="traffic_signals")
    t.mark(8, 12.4, highway="crossing", crossing="island")
    t.mark(8, 13, highway="traffic_signals")
    t.mark(8, 15, highway="crossing", crossing="uncontrolled")
    return ramp


def draw_eastern_road(t):
    t.way("tertiary", [(0, 5.2), (3, 5.1), (6, 5), (7.7, 5)], name="Quarry Road", surface="asphalt", maxspeed="50")
    first = t.way("secondary", [(8.3, 5), (14, 5)], name="Eastern Road", **L12)
    second = t.way("secondary", [(14, 5), (16, 5)], name="Eastern Road", cycleway__both="lane", **L12)
    t.way("secondary", [(16, 5), (22, 5), (26, 4.8), (28, 4.5), (30, 4.3)], name="Eastern Road", **{**L12, "maxspeed": "70"})
    t.mark(14, 5, highway="traffic_signals")
    return first, second


def draw_old_town(t):
    """The streets between the eastern road and the river."""
    up = t.way("residential", [(14, 5), (14, 6)], name="Station Street", **HOME)
    weavers = t.way("residential", [(16, 5), (16, 6)], name="Weavers Street", **HOME)
    t.way("residential", [(8, 6), (18, 6)], name="Ditch Street", **HOME)
    t.way("residential", [(10, 7), (16, 7)], name="Mill Lane", oneway="yes", **HOME)
    t.way("residential", [(16, 8), (10, 8)], name="Bakers Lane", oneway="yes", oneway__bicycle="no",
          cycleway__left="opposite_lane", **HOME)
    t.way("tertiary", [(8, 9), (14, 9)], name="Quay Street", **HOME)
    quay = t.way("tertiary", [(14, 9), (18, 9)], name="Quay Street", **HOME)
    t.way("residential", [(10, 5), (10, 9)], name="Church Street", **HOME)
    t.way("residential", [(11, 6), (11, 8)], name="Smiths Lane", surface="sett", maxspeed="30", lit="yes")
    t.way("living_street", [(12, 6), (12, 9)], name="Glass Lane", surface="cobblestone", smoothness="bad")
    t.way("pedestrian", [(13, 7), (13, 7.5), (13, 8), (13, 9)], name="Market", surface="paving_stones", bicycle="yes")
    t.way("pedestrian", [(13, 7.5), (14, 7.5)], name="Market Arcade", surface="paving_stones")
    down = t.way("residential", [(14, 6), (14, 7), (14, 7.5), (14, 8), (14, 9)], name="Station Street", **HOME)
    t.way("residential", [(16, 6), (16, 9)], name="Weavers Street", **HOME)
    t.way("residential", [(18, 5), (18, 9)], name="Tanners Street", surface="sett", maxspeed="30", lit="yes")
    t.way("service", [(15, 6), (15, 6.5), (15, 7)], service="alley", surface="paving_stones")
    t.mark(15, 6.5, barrier="bollard")
    t.way("footway", [(10, 9), (10.3, 9.7), (14, 9.6), (18, 10)], name="Promenade", surface="fine_gravel", bicycle="no")
    t.way("path", [(0, 10.2), (4, 10.3), (8, 9.6)], surface="gravel", width="1.5")
    return up, weavers, down, quay


def draw_suburb(t):
    """The streets beyond the railway, which three roads cross: a tunnel, a level crossing, and a tunnel for cyclists."""
    station = t.way("residential", [(14, 5), (14, 4), (14, 3.5), (14, 3), (14, 1)], name="Station Street", **HOME)
    t.mark(14, 4, railway="station")
    t.way("residential", [(8, 1), (20, 1)], name="Garden Road", **HOME)
    t.way("living_street", [(10, 1), (10, 3), (12, 3), (12, 1)], name="Rose Ring", surface="paving_stones", maxspeed="5")
    t.way("residential", [(14, 3), (18, 3), (18, 1)], name="Field Street", **HOME)
    t.way("residential", [(16, 3), (16, 1)], name="Plum Street", oneway="-1", **HOME)
    t.way("service", [(18, 3), (19, 3), (22, 3)], service="driveway", surface="asphalt")
    t.mark(19, 3, barrier="gate", access="private")
    t.way("cycleway", [(20, 1), (21, 1.6), (22, 3)], **PATH)
    t.way("cycleway", [(22, 3), (22, 4)], tunnel="yes", layer="-1", lit="yes", **PATH)
    t.way("cycleway", [(22, 4), (22, 5)], **PATH)
    t.mark(22, 4, barrier="cycle_barrier", bicycle="yes")
    t.way("track", [(8, 2), (6, 1.7), (5.2, 1.2), (4, 0.9), (2.8, 1.4), (0, 1.2)], tracktype="grade3", surface="gravel")
    return station


def draw_works(t):
    """In the east; the gate between both halves is for staff alone."""
    t.way("unclassified", [(22, 5), (22, 7), (24, 7)], name="Works Road", surface="asphalt", maxspeed="50")
    t.way("service", [(24, 7), (28, 7)], surface="asphalt")
    t.mark(26, 7, barrier="lift_gate", access="private")
    t.way("unclassified", [(28, 7), (28.2, 6), (28, 4.5)], name="Harbour Road", surface="asphalt", maxspeed="50")
    t.way("track", [(24, 7), (24.5, 8), (26, 8.7), (27.6, 8), (28, 7)], tracktype="grade3", surface="gravel")
    t.way("track", [(18, 10), (22, 9.7), (26, 8.7)], tracktype="grade2", surface="compacted")
    t.mark(22, 9.7, barrier="gate")


def draw_north_bank(t):
    """The road and the cycleway along the river, the cycle bridge, and the quarter in the north-west."""
    west = t.way("tertiary", [(0, 13), (8, 13)], name="North Bank Road", surface="asphalt", maxspeed="50")
    middle = t.way("tertiary", [(8, 13), (15, 13)], name="North Bank Road", surface="asphalt", maxspeed="50")
    east = t.way("tertiary", [(15, 13), (18, 13)], name="North Bank Road", surface="asphalt", maxspeed="50")
    t.way("tertiary", [(18, 13), (21, 13), (24, 13.2), (27, 13.4), (30, 13.6)], name="North Bank Road", maxspeed="70", lit="no")
    left = t.way("cycleway", [(0, 12.3), (4, 12.5), (8, 12.4)], **PATH)
    right = t.way("cycleway", [(8, 12.4), (10.6, 12.2), (13, 11.9), (18, 12.1)], **PATH)
    far = t.way("cycleway", [(18, 12.1), (23, 12), (27, 12.3), (30, 12.4)], **PATH)
    t.way("path", [(4, 12.5), (4, 13)], surface="ground")
    t.way("path", [(27, 12.3), (27, 13.4)], surface="ground")
    foot = t.way("cycleway", [(18, 9), (18, 10)], **PATH)
    bridge = t.way("cycleway", [(18, 10), (18, 11), (18, 12.1)], name="Weir Bridge", bridge="yes", layer="1", width="2",
                   surface="wood", foot="yes")
    t.mark(18, 11, barrier="gate", access="no")
    head = t.way("cycleway", [(18, 12.1), (18, 13)], **PATH)
    t.way("residential", [(2, 14), (8, 14)], name="Lark Street", **HOME)
    t.way("residential", [(2, 15), (8, 15)], name="School Street", bicycle_road="yes", motor_vehicle="destination", **HOME)
    t.way("living_street", [(2, 16), (8, 16)], name="Finch Street", surface="paving_stones", maxspeed="5")
    for x in (2, 4, 6):
        t.way("residential", [(x, 13), (x, 16)], name="Wren Street" if x == 4 else "Robin Street", **HOME)
    t.mark(4, 15, highway="crossing", crossing="unmarked")
    return west, (middle, east), (left, right, far), (foot, bridge, head)


def draw_hill(t):
    """The lane over the hill, the valley road in its west, the track in its east, and the village behind it."""
    t.way("tertiary", [(21, 13), (21, 14.2), (21.3, 16), (21.2, 17.8)], name="Hill Lane", surface="asphalt", incline="10%")
    t.way("tertiary", [(21.2, 17.8), (21, 19.6), (21.1, 21), (21, 22)], name="Hill Lane", surface="asphalt", incline="-10%")
    valley = t.way("unclassified", [(15, 13), (14.6, 15), (14, 17), (14.2, 19.5), (15.5, 21.5), (18, 22)],
                   name="Valley Road", surface="asphalt", maxspeed="70")
    t.way("track", [(27, 13.4), (28, 15), (28.4, 17.8), (27.6, 20), (25.5, 21.8), (24, 22)], tracktype="grade2",
          surface="compacted")
    t.mark(28.4, 17.8, barrier="gate", bicycle="yes", foot="yes")
    t.way("track", [(14, 17), (16.5, 17), (19, 17.6), (21.2, 17.8)], tracktype="grade4", surface="grass")
    t.mark(19, 17.6, barrier="gate", access="private")
    t.way("track", [(11, 13), (11.4, 15), (12.5, 16.4), (14, 17)], tracktype="grade2", surface="fine_gravel")
    t.mark(11.4, 15, ford="yes")
    t.way("path", [(21.2, 17.8), (22.6, 17.4)], surface="ground")
    t.way("steps", [(22.6, 17.4), (23.2, 16.2)], surface="rock")
    t.way("path", [(23.2, 16.2), (24, 13.2)], surface="ground", mtb__scale="2")
    t.way("unclassified", [(10, 20), (12, 19.8), (14.2, 19.5)], name="Meadow Lane", surface="asphalt", maxspeed="70")
    street = t.way("residential", [(18, 22), (21, 22)], name="Upper Street", **HOME)
    t.way("residential", [(21, 22), (24, 22)], name="Upper Street", **HOME)
    t.way("residential", [(21, 22), (21, 24)], name="Chapel Street", surface="asphalt", maxspeed="30")
    t.way("residential", [(18, 22), (18, 23), (24, 23), (24, 22)], name="Ring Street", **HOME)
    return valley, street


def draw_town():
    t = Town()
    draw_water_and_rails(t)
    ramp = draw_main_road(t)
    first, second = draw_eastern_road(t)
    up, weavers, down, quay = draw_old_town(t)
    station = draw_suburb(t)
    draw_works(t)
    west, bank, river, crossing = draw_north_bank(t)
    valley, street = draw_hill(t)
    t.route("rcn", "Auer Route", *river)
    t.route("lcn", "Town and Weir", station, up, down, quay, *crossing)
    t.route("ncn", "Northern Hills Route", *bank, valley, street)
    t.restriction("no_left_turn", ramp, (8, 13), west)
    t.restriction("only_straight_on", first, (14, 5), second)
    t.restriction("no_left_turn", second, (16, 5), weavers, except_="psv;bicycle")
    return t


def height(longitude, latitude):
    """Metres at a spot of the tile, or VOID."""
    x = (longitude - CORNER[0]) * 100 // SQUARE[0]
    y = ((latitude - CORNER[1]) * 100 - SKEW[1] * x) // SQUARE[1]
    x = ((longitude - CORNER[0]) * 100 - SKEW[0] * y) // SQUARE[0]
    if (x - POND[0]) ** 2 + (y - POND[1]) ** 2 < POND[2] ** 2:
        return VOID
    metres = BASE + min(max(700 - y, 0) // 140, 6) + min(max(y - 1300, 0) // 120, 10)
    metres -= 5 * max(300 - abs(y - 1090), 0) // 300
    inside = max(HILL[2] ** 2 - (x - HILL[0]) ** 2 - (y - HILL[1]) ** 2, 0)
    return metres + HILL[3] * inside ** 2 // HILL[2] ** 4


def tile_rows():
    """The rows of the tile from north to south, of heights from west to east in two bytes, the high one first."""
    corner = (CORNER[0] // 1000000 * 1000000, CORNER[1] // 1000000 * 1000000)
    for row in range(STEPS, -1, -1):
        latitude = corner[1] + row * 1000000 // STEPS
        heights = [height(corner[0] + column * 1000000 // STEPS, latitude) for column in range(STEPS + 1)]
        yield b"".join(h.to_bytes(2, "big", signed=True) for h in heights)


def main():
    if len(sys.argv) != 2:
        sys.exit("usage: town.py FOLDER")
    with open(os.path.join(sys.argv[1], "town.json"), "w", encoding="ascii", newline="\n") as file:
        file.write(draw_town().text())
    with open(os.path.join(sys.argv[1], "N49E008.hgt"), "wb") as file:
        file.writelines(tile_rows())


if __name__ == "__main__":
    main()
