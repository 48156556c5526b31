// The heights of a track over its distance, as a picture that follows the pointer and the keys.

const SVG = 'http://www.w3.org/2000/svg';
const [WIDTH, HEIGHT, LEFT, BOTTOM] = [600, 140, 40, 20];

function element(name, attributes, text) {
  const made = document.createElementNS(SVG, name);
  for (const [key, value] of Object.entries(attributes)) made.setAttribute(key, value);
  if (text !== undefined) made.textContent = text;
  return made;
}

export class Heights {
  // `near` is told the number of the point that is pointed at, or null.
  constructor(figure, near) {
    this.figure = figure;
    this.near = near;
  }

  draw(coordinates, distances) {
    this.figure.querySelector('svg')?.remove();
    const known = coordinates.map((each, number) => [distances[number], each[2]]).filter(([, height]) => height !== undefined);
    this.figure.hidden = known.length < 2;
    if (this.figure.hidden) return;
    const heights = known.map(([, height]) => height);
    const [low, high] = [Math.min(...heights), Math.max(...heights)];
    const span = Math.max(high - low, 10);
    const length = Math.max(distances.at(-1), 1);
    this.distances = distances;
    this.x = (along) => LEFT + (WIDTH - LEFT - 4) * along / length;
    this.y = (height) => 6 + (HEIGHT - BOTTOM - 12) * (1 - (height - low) / span);
    const svg = element('svg', { viewBox: `0 0 ${WIDTH} ${HEIGHT}`, tabindex: 0, role: 'img',
      'aria-label': `Heights from ${low.toFixed(0)} to ${high.toFixed(0)} metres over ${(length / 1000).toFixed(1)} kilometres` });
    const line = known.map(([along, height]) => `${this.x(along).toFixed(1)},${this.y(height).toFixed(1)}`).join(' ');
    svg.append(
      element('polygon', { class: 'ground', points: `${LEFT},${HEIGHT - BOTTOM} ${line} ${this.x(length)},${HEIGHT - BOTTOM}` }),
      element('polyline', { class: 'height', points: line }),
      element('text', { x: 2, y: this.y(high) + 8 }, `${high.toFixed(0)} m`),
      element('text', { x: 2, y: this.y(low) }, `${low.toFixed(0)} m`),
      element('text', { x: LEFT, y: HEIGHT - 5 }, '0 km'),
      element('text', { x: WIDTH - 4, y: HEIGHT - 5, 'text-anchor': 'end' }, `${(length / 1000).toFixed(2)} km`),
    );
    this.cursor = element('line', { class: 'cursor', y1: 0, y2: HEIGHT - BOTTOM, visibility: 'hidden' });
    svg.append(this.cursor);
    svg.addEventListener('pointermove', (event) => this.near(this.pointed(svg, event)));
    svg.addEventListener('pointerleave', () => this.near(null));
    svg.addEventListener('keydown', (event) => this.key(event));
    this.figure.prepend(svg);
  }

  pointed(svg, event) {
    const box = svg.getBoundingClientRect();
    const at = (event.clientX - box.left) / box.width * WIDTH;
    let best = 0;
    this.distances.forEach((along, number) => {
      if (Math.abs(this.x(along) - at) < Math.abs(this.x(this.distances[best]) - at)) best = number;
    });
    return best;
  }

  key(event) {
    const step = { ArrowLeft: -1, ArrowRight: 1 }[event.key];
    if (!step) return;
    event.preventDefault();
    const last = this.distances.length - 1;
    this.near(Math.min(last, Math.max(0, (this.number ?? (step > 0 ? -1 : 1)) + step)));
  }

  show(number) {
    this.number = number;
    if (!this.cursor) return;
    this.cursor.setAttribute('visibility', number === null ? 'hidden' : 'visible');
    if (number === null) return;
    const x = this.x(this.distances[number]);
    this.cursor.setAttribute('x1', x);
    this.cursor.setAttribute('x2', x);
  }
}
