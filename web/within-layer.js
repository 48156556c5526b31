// Draws nodes on the map's tiles as points, each in the colour of its waypoint and its cost.

const MANY = 3000;
const CELL = 2;
const radiusOf = (zoom) => (zoom >= 16 ? 6 : zoom >= 15 ? 4.5 : zoom >= 14 ? 3 : zoom >= 12 ? 2 : 1.5);

// Points, as pairs of numbers, in one colour: discs, or squares where they are many.
function drawPoints(context, points, colour, radius, isMany) {
  context.fillStyle = colour;
  if (!isMany) context.beginPath();
  for (let at = 0; at < points.length; at += 2) {
    const [x, y] = [points[at], points[at + 1]];
    if (isMany) context.fillRect(Math.round(x - radius), Math.round(y - radius), 2 * radius, 2 * radius);
    else {
      context.moveTo(x + radius, y);
      context.arc(x, y, radius, 0, 2 * Math.PI);
    }
  }
  if (!isMany) context.fill();
}

// The points in view of a tile, for each shade.
function pointsOf({ grid }, colours, coords, size, margin) {
  const [scale, left, top] = [size * 2 ** coords.z, coords.x * size, coords.y * size];
  const points = colours.shades.map(() => []);
  const found = grid.in((left - margin) / scale, (top - margin) / scale, (left + size + margin) / scale, (top + size + margin) / scale);
  for (const number of found) points[colours.shadeOf(number)].push(grid.xs[number] * scale - left, grid.ys[number] * scale - top);
  return { points, count: found.length };
}

// Of many points one in each cell of some pixels, of the first shade there.
function thinned(points, size, margin) {
  const across = Math.ceil((size + 2 * margin) / CELL) + 1;
  const taken = new Uint8Array(across * across);
  return points.map((each) => {
    const kept = [];
    for (let at = 0; at < each.length; at += 2) {
      const cell = Math.floor((each[at + 1] + margin) / CELL) * across + Math.floor((each[at] + margin) / CELL);
      if (!taken[cell]) kept.push(each[at], each[at + 1]);
      taken[cell] = 1;
    }
    return kept;
  });
}

// Draws the far nodes first. A disc has an edge, which parts it from the roads.
function drawNodes(canvas, nearby, colours, coords, size) {
  const radius = radiusOf(coords.z);
  const { points: all, count } = pointsOf(nearby, colours, coords, size, radius + 1);
  if (!count) return;
  const isMany = count > MANY || radius < 2;
  const points = isMany ? thinned(all, size, radius + 1) : all;
  const context = canvas.getContext('2d');
  context.scale(canvas.width / size, canvas.width / size);
  for (let shade = points.length - 1; shade >= 0; shade--) {
    if (!isMany) drawPoints(context, points[shade], colours.edge, radius + 1, false);
    drawPoints(context, points[shade], colours.shades[shade], radius, isMany);
  }
}

// Each tile is drawn by itself, so that the page comes to other things between two of them.
export function makeWithinLayer(nearby, colours, pane) {
  const Layer = L.GridLayer.extend({
    createTile(coords, done) {
      const size = this.getTileSize().x;
      const canvas = document.createElement('canvas');
      canvas.width = canvas.height = size * (window.devicePixelRatio || 1);
      setTimeout(() => {
        drawNodes(canvas, nearby, colours, coords, size);
        done(null, canvas);
      });
      return canvas;
    },
  });
  return new Layer({ pane, noWrap: true, keepBuffer: 1, updateWhenZooming: false, minZoom: 0, maxZoom: 19, className: 'within' });
}
