// Roads from a map's text in Overpass JSON: a worker reads it once and hands out its lines tile by tile, as a folder of tiles does.

const KEPT = 160;

export class MapText {
  // The map at a path, as soon as its worker has read it.
  static async open(path) {
    const worker = new Worker('map-text-worker.js', { type: 'module' });
    const text = new MapText(worker);
    const { box } = await text.ask({ open: new URL(path, location.href).href });
    text.box = box;
    return text;
  }

  constructor(worker) {
    Object.assign(this, { worker, attribution: '', count: 0 });
    this.waiting = new Map();
    this.kept = new Map();
    worker.addEventListener('message', ({ data }) => this.answered(data));
    worker.addEventListener('error', () => this.failed());
  }

  ask(question) {
    const number = this.count++;
    this.worker.postMessage({ number, ...question });
    return new Promise((resolve, reject) => this.waiting.set(number, { resolve, reject }));
  }

  answered({ number, answer, fault }) {
    const { resolve, reject } = this.waiting.get(number);
    this.waiting.delete(number);
    if (fault) reject(new Error(fault));
    else resolve(answer);
  }

  failed() {
    for (const { reject } of this.waiting.values()) reject(new Error('the reader of the map stopped'));
    this.waiting.clear();
  }

  zoomFor(zoom) {
    return [8, 10, 12, 14].findLast((each) => each <= zoom) ?? null;
  }

  tile(zoom, x, y) {
    const name = `${zoom}/${x}/${y}`;
    if (!this.kept.has(name)) this.kept.set(name, this.ask({ tile: [zoom, x, y] }));
    const lines = this.kept.get(name);
    this.kept.delete(name);
    this.kept.set(name, lines);
    if (this.kept.size > KEPT) this.kept.delete(this.kept.keys().next().value);
    return lines;
  }

  // The names of ways by their ids.
  namesOfWays(ids) {
    return this.ask({ ways: ids });
  }
}
