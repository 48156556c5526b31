// What lies within a cost of one waypoint or several: each node once, with the waypoint from which it costs least.

import { PointGrid } from './point-grid.js';
import { squareOf } from './roads.js';

const STEPS_OF_ONE = 5;
const STEPS_OF_SEVERAL = 3;

const pause = () => new Promise((done) => {
  setTimeout(done);
});

// Costs are texts with six decimals and no needless zeros, so of two the longer one is the larger.
const isLess = (one, other) => (one.length === other.length ? one < other : one.length < other.length);

// The costs up to which the steps of the shading go, each of three digits but the last one.
function boundsOf(most, steps) {
  return Array.from({ length: steps }, (_, step) => (step + 1 < steps ? Number((most * (step + 1) / steps).toPrecision(3)) : most));
}

// The place of an id in a list of ids that ascend, or -1.
function placeOfId(ids, id) {
  let [low, high] = [0, ids.length];
  while (low < high) {
    const middle = (low + high) >> 1;
    if (ids[middle] < id) low = middle + 1;
    else high = middle;
  }
  return ids[low] === id ? low : -1;
}

export class Nearby {
  // For each waypoint a list of `nodes`, ascending, with their `costs` and `places`; and the cost that was asked for.
  constructor(lists, cost) {
    Object.assign(this, { lists, cost, ids: [], least: [], owners: [], counts: [], places: [], numbers: new Map() });
  }

  // Reads the lists, with a pause after each step, in which the page comes to other things.
  static async of(lists, cost) {
    const nearby = new Nearby(lists, cost);
    for (let owner = 0; owner < lists.length; owner++) {
      await pause();
      nearby.take(lists[owner], owner);
    }
    await pause();
    nearby.shade();
    await pause();
    nearby.place();
    nearby.numbers = null;
    await pause();
    return nearby;
  }

  take({ nodes, costs, places }, owner) {
    nodes.forEach((id, at) => {
      const number = this.numbers.get(id);
      if (number === undefined) {
        this.numbers.set(id, this.ids.length);
        this.add(id, costs[at], places[at], owner);
      } else this.join(number, costs[at], owner);
    });
  }

  add(id, cost, place, owner) {
    this.ids.push(id);
    this.least.push(cost);
    this.places.push(place);
    this.owners.push(owner);
    this.counts.push(1);
  }

  // A node that another waypoint has too; of equal costs the first one counts.
  join(number, cost, owner) {
    this.counts[number]++;
    if (!isLess(cost, this.least[number])) return;
    this.least[number] = cost;
    this.owners[number] = owner;
  }

  shade() {
    this.bounds = boundsOf(Number(this.cost), this.lists.length > 1 ? STEPS_OF_SEVERAL : STEPS_OF_ONE);
    const last = this.bounds.length - 1;
    this.steps = Uint8Array.from(this.least, (text) => {
      const cost = Number(text);
      const step = this.bounds.findIndex((bound) => cost <= bound);
      return step < 0 ? last : step;
    });
  }

  place() {
    const [xs, ys] = [new Float64Array(this.ids.length), new Float64Array(this.ids.length)];
    this.corners = [[90, 180], [-90, -180]];
    const [low, high] = this.corners;
    this.places.forEach(([lon, lat], number) => {
      [xs[number], ys[number]] = squareOf(lon, lat);
      [low[0], low[1], high[0], high[1]] = [Math.min(low[0], lat), Math.min(low[1], lon), Math.max(high[0], lat), Math.max(high[1], lon)];
    });
    this.grid = new PointGrid(xs, ys);
  }

  // What the node of a number costs from each waypoint; null where that is more than was asked for.
  costsOf(number) {
    return this.lists.map(({ nodes, costs }) => costs[placeOfId(nodes, this.ids[number])] ?? null);
  }

  // Of each waypoint: how many nodes it has, has alone, has in common with others, and how many cost least from it.
  countsByWaypoint() {
    const rows = this.lists.map(({ nodes }) => ({ all: nodes.length, alone: 0, common: nodes.length, cheapest: 0 }));
    this.owners.forEach((owner, number) => {
      rows[owner].cheapest++;
      if (this.counts[number] === 1) {
        rows[owner].alone++;
        rows[owner].common--;
      }
    });
    return rows;
  }

  countsByStep() {
    return this.bounds.map((_, step) => this.steps.reduce((count, each) => count + (each === step), 0));
  }

  // The number of the node that is nearest to a place of the map's square, within a distance; -1 where there is none.
  nearest(x, y, most) {
    const { xs, ys } = this.grid;
    const distance = (number) => Math.hypot(xs[number] - x, ys[number] - y);
    return this.grid.in(x - most, y - most, x + most, y + most)
      .reduce((best, each) => (best < 0 || distance(each) < distance(best) ? each : best), -1);
  }
}
