// The colours of what lies within a cost, and their key: by steps of the cost, and by waypoint where there are several.

import { by, made } from './dom.js';

export const MOST_COLOURS = 5;
// How far the colour of a waypoint goes towards that of the text, for each step of the cost.
const SHADES = [0.55, 0.25, 0];

const partsOf = (hex) => [1, 3, 5].map((at) => Number.parseInt(hex.slice(at, at + 2), 16));

function mixed(one, other, share) {
  const parts = partsOf(other);
  return `rgb(${partsOf(one).map((part, at) => Math.round(part * (1 - share) + parts[at] * share)).join(' ')})`;
}

// The colours for what is nearby, as the page's style has them in light and dark.
export function coloursFor(nearby) {
  const style = getComputedStyle(document.documentElement);
  const named = (name) => style.getPropertyValue(name).trim();
  const edge = named('--ground');
  if (nearby.lists.length === 1) {
    return { edge, shades: nearby.bounds.map((_, step) => named(`--cost-${step + 1}`)), shadeOf: (number) => nearby.steps[number] };
  }
  const shades = nearby.lists.flatMap((_, owner) => (
    SHADES.map((share) => mixed(named(`--place-${owner % MOST_COLOURS + 1}`), named('--ink'), share))));
  return { edge, shades, shadeOf: (number) => nearby.owners[number] * SHADES.length + nearby.steps[number] };
}

function swatch(colours) {
  const boxes = colours.map((colour) => {
    const box = made('span', 'shade');
    box.style.background = colour;
    return box;
  });
  const swatches = made('span', 'shades', ...boxes);
  swatches.setAttribute('aria-hidden', 'true');
  return swatches;
}

const headOf = (...names) => made('thead', '', made('tr', '', ...names.map((name) => made('th', '', name))));
const rowOf = (colours, name, ...cells) => made('tr', '', made('th', '', swatch(colours), name),
  ...cells.map((cell) => made('td', '', String(cell))));

function rowsBySteps(nearby, { shades }) {
  const counts = nearby.countsByStep();
  return [headOf('cost', 'nodes'), made('tbody', '', ...counts.map((count, step) => rowOf([shades[step]], `up to ${nearby.bounds[step]}`, count)))];
}

function rowsByWaypoint(nearby, { shades }) {
  const steps = SHADES.length;
  const rows = nearby.countsByWaypoint().map(({ all, alone, common, cheapest }, owner) => (
    rowOf(shades.slice(owner * steps, (owner + 1) * steps), String(owner + 1), all, alone, common, cheapest)));
  return [headOf('waypoint', 'nodes', 'alone', 'in common', 'cheapest from it'), made('tbody', '', ...rows)];
}

export function drawKey(nearby, colours) {
  by('within-key').replaceChildren(...(nearby.lists.length === 1 ? rowsBySteps : rowsByWaypoint)(nearby, colours));
}
