// Roads from a folder of tiles: its index tells which there are, and those that are asked for are fetched and kept for a while.

import { LineGatherer, squareOf } from './roads.js';

const KEPT = 160;

const isBox = (box) => Array.isArray(box) && box.length === 4 && box.every(Number.isFinite);
const isText = (value) => typeof value === 'string';

async function jsonOf(path, options) {
  const answer = await fetch(path, options);
  if (!answer.ok) throw new Error(`status ${answer.status}`);
  return answer.json();
}

// The lines of a tile's text; what is no line is passed over.
function linesOfTile(collection, zoom, x, y) {
  const gatherer = new LineGatherer(zoom, x, y);
  for (const { geometry, properties } of Array.isArray(collection?.features) ? collection.features : []) {
    if (geometry?.type !== 'LineString' || !Array.isArray(geometry.coordinates)) continue;
    const { highway, name, ferry } = properties ?? {};
    gatherer.add(geometry.coordinates.map(([lon, lat]) => squareOf(lon, lat)),
      { highway: isText(highway) ? highway : '', name: isText(name) ? name : '', ferry: ferry === true });
  }
  return gatherer.lines();
}

export class TileFolder {
  // The folder at a path, by its index.
  static async open(path) {
    const index = await jsonOf(`${path}/index.json`, { cache: 'no-cache' });
    const zooms = Object.keys(index?.tiles ?? {}).map(Number).filter(Number.isInteger).sort((a, b) => a - b);
    if (!isBox(index?.box) || !zooms.length) throw new Error('index.json isn\'t that of a folder of tiles');
    return new TileFolder(path, index, zooms);
  }

  constructor(path, { box, attribution, version, tiles }, zooms) {
    Object.assign(this, { path, box, zooms, attribution: isText(attribution) ? attribution : '' });
    this.version = isText(version) ? `?${encodeURIComponent(version)}` : '';
    this.there = new Set(zooms.flatMap((zoom) => tiles[zoom].map(([x, y]) => `${zoom}/${x}/${y}`)));
    this.kept = new Map();
  }

  // The zoom whose tiles are drawn at a zoom of the map, or null where that is too far out.
  zoomFor(zoom) {
    return this.zooms.findLast((each) => each <= zoom) ?? null;
  }

  // The lines of a tile, or null where it holds none.
  tile(zoom, x, y) {
    const name = `${zoom}/${x}/${y}`;
    if (!this.there.has(name)) return Promise.resolve(null);
    const lines = this.kept.get(name) ?? this.fetched(name, zoom, x, y);
    this.kept.delete(name);
    this.kept.set(name, lines);
    if (this.kept.size > KEPT) this.kept.delete(this.kept.keys().next().value);
    return lines;
  }

  async fetched(name, zoom, x, y) {
    try {
      return linesOfTile(await jsonOf(`${this.path}/${name}.json${this.version}`), zoom, x, y);
    } catch (error) {
      this.kept.delete(name);
      throw error;
    }
  }
}
