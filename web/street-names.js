// The names of the streets that a track goes along: by its ways where the map's text has them, else by the lines beside which it lies.

import { squareOf } from './roads.js';

const MOST_TILES = 60;
const NEAR = 8;

const highwayOf = (wayTags) => /(?:^| )highway=(\S+)/.exec(wayTags)?.[1] ?? '';

// How far, squared, a point lies from a segment.
function apart(x, y, ax, ay, bx, by) {
  const [dx, dy] = [bx - ax, by - ay];
  const long = dx * dx + dy * dy;
  const along = long ? Math.max(0, Math.min(1, ((x - ax) * dx + (y - ay) * dy) / long)) : 0;
  return (ax + along * dx - x) ** 2 + (ay + along * dy - y) ** 2;
}

// The name of the line of a class that is nearest to a place of a tile, within a distance.
function nearestName({ points, starts, names, highways }, highway, x, y, most) {
  let [best, found] = [most * most, ''];
  for (let line = 0; line < names.length; line++) {
    if (highways[line] !== highway) continue;
    for (let at = starts[line]; at + 1 < starts[line + 1]; at++) {
      const distance = apart(x, y, points[2 * at], points[2 * at + 1], points[2 * at + 2], points[2 * at + 3]);
      if (distance < best) [best, found] = [distance, names[line]];
    }
  }
  return found;
}

// Where the middle of each piece of a track lies, in tiles of a zoom.
const middlesOf = (coordinates, zoom) => coordinates.slice(1).map(([lon, lat], number) => {
  const [lonBefore, latBefore] = coordinates[number];
  return squareOf((lon + lonBefore) / 2, (lat + latBefore) / 2).map((side) => side * 2 ** zoom);
});

// The first tiles in which some of the places lie.
async function tilesOf(source, zoom, places) {
  const names = [...new Set(places.map(([east, south]) => `${Math.floor(east)}/${Math.floor(south)}`))].slice(0, MOST_TILES);
  return new Map(await Promise.all(names.map(async (name) => [name, await source.tile(zoom, ...name.split('/').map(Number)).catch(() => null)])));
}

async function byPlaces(source, coordinates, rows) {
  const zoom = source.zoomFor(19);
  const places = middlesOf(coordinates, zoom);
  const tiles = await tilesOf(source, zoom, places);
  return rows.map(({ wayTags }, number) => {
    const [east, south] = places[number];
    const [x, y] = [Math.floor(east), Math.floor(south)];
    const lines = tiles.get(`${x}/${y}`);
    const most = NEAR * 2 ** zoom / (40075017 * Math.cos(coordinates[number][1] * Math.PI / 180));
    return lines ? nearestName(lines, highwayOf(wayTags), east - x, south - y, most) : '';
  });
}

// A name, or an empty text, for each row of a track.
export async function streetNames(source, reply, rows) {
  if (!source) return [];
  if (!source.namesOfWays) return byPlaces(source, reply.geometry.coordinates, rows);
  const ids = reply.properties.walk.flat().map(([way]) => way);
  const names = await source.namesOfWays(ids);
  return ids.map((id) => names.get(id) ?? '');
}
