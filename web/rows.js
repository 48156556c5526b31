// The rows of a track by groups that fold, each with what it costs by parts as a bar.

import { costOf, PARTS } from './track.js';

const ABOUT = '\u2248\u202f';
const FEW = 24;
const MOST_AT_ONCE = 200;

function cell(content, name = 'td') {
  const made = document.createElement(name);
  made.append(content);
  return made;
}

// A bar of parts; `told` gives the words for a part.
function bar(parts, most, told) {
  const made = document.createElement('td');
  const drawn = document.createElement('div');
  drawn.className = 'bar';
  for (const [part, name, isRounded] of PARTS) {
    if (parts[part] <= 0) continue;
    const piece = document.createElement('span');
    piece.className = `part ${part}`;
    piece.style.width = `${100 * parts[part] / most}%`;
    piece.title = `${name}: ${told(part, isRounded)}`;
    drawn.append(piece);
  }
  const words = document.createElement('span');
  words.className = 'for-readers';
  words.textContent = [...drawn.children].map((piece) => piece.title).join(', ');
  made.append(drawn, words);
  return made;
}

export function drawLegend(element) {
  element.replaceChildren(...PARTS.map(([part, name, isRounded]) => {
    const made = document.createElement('span');
    made.className = `key ${part}`;
    made.textContent = isRounded ? `${name} (reckoned here, rounded)` : name;
    return made;
  }));
}

function head() {
  const made = document.createElement('thead');
  const names = document.createElement('tr');
  names.append(...['Metres', 'Cost a km', 'Cost', 'Way', 'Node at its end'].map((name) => cell(name, 'th')));
  made.append(names);
  return made;
}

export class Rows {
  // `near` is told the number of the point at the end of the row that is pointed at, or null.
  constructor(table, near) {
    Object.assign(this, { table, near, groups: [], bodies: [] });
  }

  draw(rows, groups) {
    Object.assign(this, { rows, groups });
    this.most = rows.reduce((most, row) => Math.max(most, costOf(row)), 1);
    this.mostOfGroups = groups.reduce((most, group) => Math.max(most, group.cost), 1);
    this.bodies = [];
    this.table.replaceChildren(head());
    this.more();
    if (rows.length <= FEW) groups.forEach((_, number) => this.fold(number, true));
  }

  // Draws some more groups, with a button behind them where others are left.
  more() {
    const made = this.groups.slice(this.bodies.length, this.bodies.length + MOST_AT_ONCE)
      .map((group, number) => this.body(group, this.bodies.length + number));
    this.bodies.push(...made);
    this.table.tFoot?.remove();
    this.table.append(...made);
    const left = this.groups.length - this.bodies.length;
    if (!left) return;
    const button = document.createElement('button');
    button.type = 'button';
    button.textContent = `${left} more`;
    button.addEventListener('click', () => this.more());
    const place = cell(button);
    place.colSpan = 5;
    this.table.createTFoot().insertRow().append(place);
  }

  body(group, number) {
    const made = document.createElement('tbody');
    const line = document.createElement('tr');
    line.className = 'group';
    const button = document.createElement('button');
    button.type = 'button';
    button.setAttribute('aria-expanded', 'false');
    button.textContent = group.title;
    button.addEventListener('click', () => this.fold(number));
    const count = group.to - group.from;
    line.append(cell(group.length.toFixed(0)), cell(''), bar(group.sums, this.mostOfGroups, (part) => ABOUT + group.sums[part].toFixed(1)),
      cell(button), cell(`${count} ${count === 1 ? 'piece' : 'pieces'}`));
    this.listen(line, group.to);
    made.append(line);
    return made;
  }

  // Opens or folds a group; its rows are made when it is opened.
  fold(number, opens) {
    const body = this.bodies[number];
    const button = body.querySelector('button');
    const isOpen = opens ?? button.getAttribute('aria-expanded') === 'false';
    button.setAttribute('aria-expanded', String(isOpen));
    [...body.rows].slice(1).forEach((line) => line.remove());
    const { from, to } = this.groups[number];
    if (isOpen) body.append(...this.rows.slice(from, to).map((row, place) => this.line(row, from + place)));
  }

  line(row, number) {
    const line = document.createElement('tr');
    line.className = 'row';
    line.tabIndex = 0;
    line.dataset.number = number;
    line.append(cell(row.length.toFixed(0)), cell(String(row.costPerKm)),
      bar(row, this.most, (part, isRounded) => (isRounded ? ABOUT + row[part].toFixed(1) : row.told[part])), cell(row.wayTags), cell(row.nodeTags));
    this.listen(line, number + 1);
    return line;
  }

  listen(line, point) {
    for (const event of ['pointerenter', 'focus']) line.addEventListener(event, () => this.near(point));
    for (const event of ['pointerleave', 'blur']) line.addEventListener(event, () => this.near(null));
  }

  // Marks the row that ends at a point, or its group where that is folded.
  show(point) {
    this.table.querySelector('tr.here')?.classList.remove('here');
    if (!point) return;
    const number = this.groups.findIndex((group) => point <= group.to);
    const body = this.bodies[number];
    (body?.querySelector(`tr[data-number="${point - 1}"]`) ?? body?.rows[0])?.classList.add('here');
  }
}
