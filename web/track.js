// What a reply tells: its figures, its rows, and where its points lie along it.

export const PARTS = [
  ['distance', 'Distance', true],
  ['elevation', 'Climbs', false],
  ['turn', 'Turns', false],
  ['node', 'Nodes', false],
  ['initial', 'Kinds of road', false],
];

// The rows of messages as records. What the distance costs is reckoned here, so it is rounded.
export function rowsOf(reply) {
  const [names, ...rows] = reply.properties.messages;
  const at = Object.fromEntries(names.map((name, place) => [name, place]));
  return rows.map((row) => {
    const number = (name) => Number(row[at[name]]);
    return {
      length: number('Distance'),
      costPerKm: number('CostPerKm'),
      distance: number('Distance') * number('CostPerKm') / 1000,
      elevation: number('ElevCost'),
      turn: number('TurnCost'),
      node: number('NodeCost'),
      initial: number('InitialCost'),
      told: { elevation: row[at.ElevCost], turn: row[at.TurnCost], node: row[at.NodeCost], initial: row[at.InitialCost] },
      wayTags: row[at.WayTags],
      nodeTags: row[at.NodeTags],
    };
  });
}

export const costOf = (row) => PARTS.reduce((sum, [part]) => sum + row[part], 0);

// How far along the track each of its points lies, in metres.
export function distancesOf(rows) {
  let along = 0;
  return [0, ...rows.map((row) => (along += row.length))];
}

// Where the legs of a reply end among its points: its walk tells how many links each leg has.
export function endsOf(reply) {
  let end = 0;
  return reply.properties.walk.map((leg) => (end += leg.length));
}

// The number of the earlier alternative that a reply repeats, or -1.
export function repeatedBy(reply) {
  const walk = JSON.stringify(reply.properties.walk);
  return reply.properties.earlier.findIndex((each) => JSON.stringify(each) === walk);
}

// How many metres a track climbs and falls, where its heights are known.
export function climbOf(reply) {
  let [up, down] = [0, 0];
  reply.geometry.coordinates.reduce((before, [, , height]) => {
    if (before !== undefined && height !== undefined) {
      up += Math.max(0, height - before);
      down += Math.max(0, before - height);
    }
    return height ?? before;
  }, undefined);
  return { up, down };
}
