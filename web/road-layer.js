// Draws roads on the map's tiles, by class, from a source that hands out lines tile by tile.

import { CLASSES } from './roads.js';

const colour = (name) => getComputedStyle(document.documentElement).getPropertyValue(`--road-${name}`).trim();
const widthFactor = (zoom) => (zoom >= 16 ? 1.4 : zoom >= 14 ? 1 : zoom >= 12 ? 0.6 : 0.35);

// The path of all lines of a class, in pixels: a place in the source's tile is scaled and moved.
function pathOf(lines, kind, scale, right, down, size) {
  const path = new Path2D();
  const { points, starts, classes } = lines;
  for (let line = 0; line < classes.length; line++) {
    if (classes[line] !== kind || !touches(points, starts[line], starts[line + 1], scale, right, down, size)) continue;
    for (let at = starts[line]; at < starts[line + 1]; at++) {
      const [x, y] = [points[2 * at] * scale - right, points[2 * at + 1] * scale - down];
      if (at === starts[line]) path.moveTo(x, y);
      else path.lineTo(x, y);
    }
  }
  return path;
}

function touches(points, from, to, scale, right, down, size) {
  const margin = 8;
  let [left, top, end, bottom] = [Infinity, Infinity, -Infinity, -Infinity];
  for (let at = from; at < to; at++) {
    const [x, y] = [points[2 * at] * scale - right, points[2 * at + 1] * scale - down];
    left = Math.min(left, x);
    end = Math.max(end, x);
    top = Math.min(top, y);
    bottom = Math.max(bottom, y);
  }
  return left <= size + margin && end >= -margin && top <= size + margin && bottom >= -margin;
}

// From the lowest to the topmost.
const ORDER = ['water', 'rail', 'path', 'track', 'ferry', 'street', 'cycle', 'side', 'main']
  .map((name) => CLASSES.findIndex((each) => each.name === name));

// Draws the lines of a source's tile on a canvas of the map: `parts` of these to a side are one of those.
function drawLines(canvas, lines, coords, parts, size) {
  const density = canvas.width / size;
  const context = canvas.getContext('2d');
  context.scale(density, density);
  context.lineJoin = context.lineCap = 'round';
  for (const kind of ORDER) {
    if (!lines.classes.includes(kind)) continue;
    const { name, width, dashed } = CLASSES[kind];
    context.strokeStyle = colour(name);
    context.lineWidth = width * widthFactor(coords.z);
    context.setLineDash(dashed ? [6, 5] : []);
    context.stroke(pathOf(lines, kind, size * parts, (coords.x % parts) * size, (coords.y % parts) * size, size));
  }
}

// `failed` is told why a tile of the source can't be had.
export function makeRoadLayer(source, failed) {
  const Layer = L.GridLayer.extend({
    createTile(coords, done) {
      const size = this.getTileSize().x;
      const canvas = document.createElement('canvas');
      canvas.width = canvas.height = size * (window.devicePixelRatio || 1);
      const zoom = source.zoomFor(coords.z);
      if (zoom === null) {
        setTimeout(() => done(null, canvas));
        return canvas;
      }
      const parts = 2 ** (coords.z - zoom);
      source.tile(zoom, Math.floor(coords.x / parts), Math.floor(coords.y / parts)).then((lines) => {
        if (lines) drawLines(canvas, lines, coords, parts, size);
      }).catch(failed).then(() => done(null, canvas));
      return canvas;
    },
  });
  return new Layer({ noWrap: true, keepBuffer: 1, updateWhenZooming: false, minZoom: 0, maxZoom: 19 });
}
