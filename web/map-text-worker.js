// Reads a map's text in a worker, so that the page stays at hand meanwhile, and answers which lines lie in a tile.

import { CLASSES, LineGatherer, classOf, squareOf } from './roads.js';

const DEEP = 14;
const FEW = 20000;
const MOST_BYTES = 128e6;

let ways = [];
let cells = new Map();

async function elementsOf(path) {
  const answer = await fetch(path);
  if (!answer.ok) throw new Error(`status ${answer.status}`);
  if (Number(answer.headers.get('Content-Length')) > MOST_BYTES) throw new Error('it is too large to be drawn from a text: name a folder of tiles');
  const text = await answer.json();
  if (!Array.isArray(text?.elements)) throw new Error('it has no elements');
  return text.elements;
}

function wayOf({ id, nodes, tags }, places) {
  const squares = nodes.map((node) => places.get(node)).filter(Boolean);
  const { route, name, waterway, railway, highway = waterway ? 'waterway' : railway ? 'railway' : '' } = tags ?? {};
  return squares.length < 2 ? [] : [{ id, squares, tags: { highway, name, ferry: route === 'ferry' } }];
}

// The cells, at the deepest zoom, that the box of a line touches.
function cellsOf(squares) {
  const at = (side) => squares.map((square) => Math.floor(square[side] * 2 ** DEEP));
  const [east, south] = [at(0), at(1)];
  const found = [];
  for (let x = Math.min(...east); x <= Math.max(...east); x++) {
    for (let y = Math.min(...south); y <= Math.max(...south); y++) found.push([x, y]);
  }
  return found;
}

async function open(path) {
  const elements = await elementsOf(path);
  const places = new Map();
  const box = [180, 90, -180, -90];
  for (const { type, id, lat, lon } of elements) {
    if (type !== 'node') continue;
    places.set(id, squareOf(lon, lat));
    [box[0], box[1], box[2], box[3]] = [Math.min(box[0], lon), Math.min(box[1], lat), Math.max(box[2], lon), Math.max(box[3], lat)];
  }
  ways = elements.filter(({ type, nodes }) => type === 'way' && Array.isArray(nodes)).flatMap((way) => wayOf(way, places));
  if (!ways.length) throw new Error('it has no ways');
  ways.forEach(({ squares }, number) => {
    for (const [x, y] of cellsOf(squares)) {
      const name = x * 2 ** DEEP + y;
      if (!cells.has(name)) cells.set(name, []);
      cells.get(name).push(number);
    }
  });
  return { box };
}

// The lines of a tile; of a large map only those classes that its zoom has room for.
function tile(zoom, x, y) {
  const side = 2 ** (DEEP - zoom);
  const found = new Set();
  for (const [name, numbers] of side > 16 ? cells : cellsWithin(x * side, y * side, side)) {
    const [east, south] = [Math.floor(name / 2 ** DEEP), name % 2 ** DEEP];
    if (Math.floor(east / side) === x && Math.floor(south / side) === y) numbers.forEach((number) => found.add(number));
  }
  const gatherer = new LineGatherer(zoom, x, y);
  for (const number of found) {
    const { squares, tags } = ways[number];
    if (ways.length <= FEW || CLASSES[classOf(tags.highway, tags.ferry)].from <= zoom) gatherer.add(squares, tags);
  }
  return gatherer.lines();
}

function cellsWithin(left, top, side) {
  const found = [];
  for (let x = left; x < left + side; x++) {
    for (let y = top; y < top + side; y++) {
      const name = x * 2 ** DEEP + y;
      if (cells.has(name)) found.push([name, cells.get(name)]);
    }
  }
  return found;
}

function namesOf(ids) {
  const wanted = new Set(ids);
  return new Map(ways.filter(({ id }) => wanted.has(id)).map(({ id, tags }) => [id, tags.name ?? '']));
}

self.addEventListener('message', async ({ data }) => {
  try {
    const answer = data.open ? await open(data.open) : data.tile ? tile(...data.tile) : namesOf(data.ways);
    self.postMessage({ number: data.number, answer });
  } catch (error) {
    self.postMessage({ number: data.number, fault: error.message });
  }
});
