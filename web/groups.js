// Joins the rows of a track that follow each other on one street, or on one class of road where no name is known.

import { costOf, PARTS } from './track.js';

const KINDS = { ferry: 'Ferry', residential: 'Street', living_street: 'Living street', unclassified: 'Lane', service: 'Service road',
  primary: 'Main road', secondary: 'Secondary road', tertiary: 'Tertiary road', cycleway: 'Cycleway', track: 'Track', path: 'Path',
  footway: 'Footway', pedestrian: 'Pedestrian way', steps: 'Steps', trunk: 'Trunk road', bridleway: 'Bridleway' };

function kindOf(wayTags) {
  if (/(?:^| )route=ferry/.test(wayTags)) return KINDS.ferry;
  const highway = /(?:^| )highway=(\S+)/.exec(wayTags)?.[1];
  return highway ? KINDS[highway] ?? highway : 'Way';
}

// Groups with their title, the numbers of their rows, and the sums of what their rows tell.
export function groupsOf(rows, names) {
  const groups = [];
  rows.forEach((row, number) => {
    const title = names[number] || kindOf(row.wayTags);
    if (groups.at(-1)?.title !== title) {
      groups.push({ title, from: number, to: number, length: 0, cost: 0, sums: Object.fromEntries(PARTS.map(([part]) => [part, 0])) });
    }
    const group = groups.at(-1);
    group.to = number + 1;
    group.length += row.length;
    group.cost += costOf(row);
    for (const [part] of PARTS) group.sums[part] += row[part];
  });
  return groups;
}
