// The names of roads in view, laid out so that they cover neither each other nor the tracks and marks.

const FROM = 14;
const MOST = 120;
const CELL = 8;
const FONT = '12px system-ui, sans-serif';

// The cells of the view that something covers.
class Cover {
  constructor() {
    this.cells = new Set();
  }

  *cellsOf({ left, top, right, bottom }) {
    for (let x = Math.floor(left / CELL); x <= Math.floor(right / CELL); x++) {
      for (let y = Math.floor(top / CELL); y <= Math.floor(bottom / CELL); y++) yield x * 65536 + y;
    }
  }

  isFree(box) {
    for (const cell of this.cellsOf(box)) if (this.cells.has(cell)) return false;
    return true;
  }

  add(box) {
    for (const cell of this.cellsOf(box)) this.cells.add(cell);
  }

  // Those parts of a line that are in a view, with so much room on both sides.
  addLine(points, room, size) {
    for (let number = 1; number < points.length; number++) {
      const [from, to] = [points[number - 1], points[number]];
      if (isBeside(from, to, size)) continue;
      const steps = Math.ceil(Math.hypot(to.x - from.x, to.y - from.y) / CELL) + 1;
      for (let step = 0; step <= steps; step++) {
        const [x, y] = [from.x + (to.x - from.x) * step / steps, from.y + (to.y - from.y) * step / steps];
        if (x > -room && y > -room && x < size.x + room && y < size.y + room) {
          this.add({ left: x - room, top: y - room, right: x + room, bottom: y + room });
        }
      }
    }
  }
}

// Whether both ends of a piece lie beyond the same side of a view.
function isBeside(from, to, size) {
  return Math.max(from.x, to.x) < 0 || Math.max(from.y, to.y) < 0 || Math.min(from.x, to.x) > size.x || Math.min(from.y, to.y) > size.y;
}

// The length in view of a line of a tile, and the middle of its longest piece there; null where nothing of it is in view.
function seenOf({ points, starts }, line, side, corner, size) {
  let [length, long, x, y] = [0, -1, 0, 0];
  for (let at = starts[line]; at + 1 < starts[line + 1]; at++) {
    const fromX = points[2 * at] * side + corner.x;
    const fromY = points[2 * at + 1] * side + corner.y;
    const toX = points[2 * at + 2] * side + corner.x;
    const toY = points[2 * at + 3] * side + corner.y;
    const middleX = (fromX + toX) / 2;
    const middleY = (fromY + toY) / 2;
    if (middleX < 0 || middleY < 0 || middleX > size.x || middleY > size.y) continue;
    const piece = Math.hypot(toX - fromX, toY - fromY);
    length += piece;
    if (piece > long) [long, x, y] = [piece, middleX, middleY];
  }
  return long < 0 ? null : { length, x, y };
}

export class Names {
  constructor(map, source) {
    Object.assign(this, { map, source, placed: [], lines: [], marks: [] });
    map.createPane('names').style.zIndex = 350;
    this.canvas = document.createElement('canvas');
    map.getPane('names').append(this.canvas);
    map.on('zoomstart', () => this.clear());
    map.on('moveend', () => this.later());
  }

  // The latitudes and longitudes of tracks and of marks, which stay uncovered.
  keepClear(lines, marks) {
    Object.assign(this, { lines, marks });
    this.later();
  }

  later() {
    clearTimeout(this.timer);
    this.timer = setTimeout(() => this.draw(), 120);
  }

  clear() {
    this.placed = [];
    this.canvas.getContext('2d').clearRect(0, 0, this.canvas.width, this.canvas.height);
  }

  async draw() {
    const drawing = {};
    this.drawing = drawing;
    const found = this.map.getZoom() < FROM ? [] : await this.candidates();
    if (this.drawing === drawing) this.layOut(found);
  }

  // The middle of the longest stretch in view of each name in each tile of the source.
  async candidates() {
    const zoom = this.source.zoomFor(this.map.getZoom());
    const view = this.map.getPixelBounds();
    const side = 256 * 2 ** (this.map.getZoom() - zoom);
    const found = new Map();
    for (let x = Math.floor(view.min.x / side); x <= Math.floor(view.max.x / side); x++) {
      for (let y = Math.floor(view.min.y / side); y <= Math.floor(view.max.y / side); y++) {
        const lines = await this.source.tile(zoom, x, y).catch(() => null);
        if (lines) this.gather(lines, side, L.point(x * side - view.min.x, y * side - view.min.y), found);
      }
    }
    return [...found].map(([name, spot]) => ({ name, ...spot })).sort((a, b) => b.length - a.length);
  }

  gather(lines, side, corner, found) {
    const size = this.map.getSize();
    lines.names.forEach((name, line) => {
      const seen = name ? seenOf(lines, line, side, corner, size) : null;
      if (seen && seen.length > (found.get(name)?.length ?? 0)) found.set(name, seen);
    });
  }

  covered() {
    const cover = new Cover();
    const size = this.map.getSize();
    for (const line of this.lines) cover.addLine(line.map((each) => this.map.latLngToContainerPoint(each)), 8, size);
    for (const mark of this.marks) {
      const { x, y } = this.map.latLngToContainerPoint(mark);
      cover.add({ left: x - 15, top: y - 15, right: x + 15, bottom: y + 15 });
    }
    return cover;
  }

  layOut(found) {
    const size = this.map.getSize();
    const density = window.devicePixelRatio || 1;
    Object.assign(this.canvas, { width: size.x * density, height: size.y * density });
    Object.assign(this.canvas.style, { width: `${size.x}px`, height: `${size.y}px` });
    L.DomUtil.setPosition(this.canvas, this.map.containerPointToLayerPoint([0, 0]));
    const context = this.canvas.getContext('2d');
    context.scale(density, density);
    context.font = FONT;
    const cover = this.covered();
    this.placed = [];
    for (const { name, x, y } of found) {
      if (this.placed.length >= MOST) break;
      const half = context.measureText(name).width / 2 + 3;
      const box = { left: x - half, top: y - 8, right: x + half, bottom: y + 8, name };
      if (box.left < 0 || box.top < 0 || box.right > size.x || box.bottom > size.y || !cover.isFree(box)) continue;
      cover.add(box);
      this.placed.push(box);
    }
    this.write(context);
  }

  write(context) {
    const style = getComputedStyle(document.documentElement);
    Object.assign(context, { textAlign: 'center', textBaseline: 'middle', lineWidth: 3, lineJoin: 'round',
      strokeStyle: style.getPropertyValue('--ground'), fillStyle: style.getPropertyValue('--ink') });
    for (const { left, right, top, bottom, name } of this.placed) {
      context.strokeText(name, (left + right) / 2, (top + bottom) / 2);
      context.fillText(name, (left + right) / 2, (top + bottom) / 2);
    }
  }
}
