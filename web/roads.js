// The classes of roads, and lines of roads as numbers: what a tile holds, whichever source it comes from.

// How a class is drawn: its form of `highway`, its colour's name, its width, and whether it is dashed.
export const CLASSES = [
  { form: /^(motorway|trunk|primary)(_link)?$/, name: 'main', width: 5, dashed: false, from: 8 },
  { form: /^(secondary|tertiary)(_link)?$/, name: 'side', width: 4, dashed: false, from: 10 },
  { form: /^cycleway$/, name: 'cycle', width: 3, dashed: false, from: 12 },
  { form: /^(track|bridleway)$/, name: 'track', width: 2.5, dashed: true, from: 14 },
  { form: /^(path|footway|pedestrian|steps)$/, name: 'path', width: 2, dashed: true, from: 14 },
  { form: /^waterway$/, name: 'water', width: 2, dashed: false, from: 10 },
  { form: /^railway$/, name: 'rail', width: 1.5, dashed: false, from: 12 },
  { form: /(?!)/, name: 'ferry', width: 2, dashed: true, from: 8 },
  { form: /^/, name: 'street', width: 3, dashed: false, from: 12 },
];
const FERRY = CLASSES.findIndex(({ name }) => name === 'ferry');

export const classOf = (highway, ferry) => (ferry ? FERRY : CLASSES.findIndex(({ form }) => form.test(highway ?? '')));

// A place in the square of the web's mercator map, from 0 to 1 to the east and to the south.
export function squareOf(lon, lat) {
  const sine = Math.sin(Math.max(-85.0511, Math.min(85.0511, lat)) * Math.PI / 180);
  return [lon / 360 + 0.5, 0.5 - Math.log((1 + sine) / (1 - sine)) / (4 * Math.PI)];
}

// Gathers lines of a tile. A point is kept as its place in the tile, whose side is 1.
export class LineGatherer {
  constructor(zoom, x, y) {
    Object.assign(this, { scale: 2 ** zoom, x, y });
    this.points = [];
    this.starts = [0];
    this.classes = [];
    this.names = [];
    this.highways = [];
  }

  add(squares, { highway, name, ferry }) {
    for (const [east, south] of squares) this.points.push(east * this.scale - this.x, south * this.scale - this.y);
    this.starts.push(this.points.length / 2);
    this.classes.push(classOf(highway, ferry));
    this.names.push(name ?? '');
    this.highways.push(highway ?? '');
  }

  lines() {
    return { points: Float32Array.from(this.points), starts: Uint32Array.from(this.starts), classes: Uint8Array.from(this.classes),
      names: this.names, highways: this.highways };
  }
}
