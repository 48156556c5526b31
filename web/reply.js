// Reads what the server answers, and refuses what no route server answers.

export class Refused extends Error {
  constructor(line, status = 0) {
    super(line);
    this.line = line;
    this.status = status;
  }
}

const isNumbers = (list) => Array.isArray(list) && list.length >= 2 && list.every(Number.isFinite);
const isLegs = (legs) => Array.isArray(legs) && legs.every((leg) => Array.isArray(leg) && leg.every(isNumbers));
const NAMES = ['Distance', 'CostPerKm', 'ElevCost', 'TurnCost', 'NodeCost', 'InitialCost', 'WayTags', 'NodeTags'];

function isMessages(messages) {
  return Array.isArray(messages) && messages.length > 0 && messages.every(Array.isArray)
    && NAMES.every((name) => messages[0].includes(name));
}

function parsed(text) {
  try {
    return JSON.parse(text);
  } catch {
    throw new Refused(/^\s*</.test(text) ? 'answer is a page' : 'answer broken');
  }
}

// The text of a certificate, whole.
export function certificateOf(text) {
  if (!text.startsWith('certificate 2\n') || !text.endsWith('\nend\n')) {
    throw new Refused(/^\s*</.test(text) ? 'answer is a page' : 'answer is no certificate');
  }
  return text;
}

// The track of a reply in GeoJSON.
export function trackOf(text) {
  const track = parsed(text)?.features?.[0];
  const { properties, geometry } = track ?? {};
  const isTrack = properties && typeof properties.cost === 'string' && typeof properties['track-length'] === 'string'
    && isMessages(properties.messages) && isLegs(properties.walk) && Array.isArray(properties.earlier) && properties.earlier.every(isLegs)
    && Array.isArray(geometry?.coordinates) && geometry.coordinates.length >= 2 && geometry.coordinates.every(isNumbers);
  if (!isTrack) throw new Refused('answer is no track');
  return track;
}

const isCost = (cost) => typeof cost === 'string' && /^\d+\.\d{6}$/.test(cost);
const isPlace = (place) => isNumbers(place) && Math.abs(place[0]) <= 180 && Math.abs(place[1]) <= 90;
const isListOf = (list, count, isItem) => Array.isArray(list) && list.length === count && list.every(isItem);
const isAscending = (ids) => ids.every((id, at) => Number.isInteger(id) && (at === 0 || ids[at - 1] < id));

// For each of so many waypoints its nodes: their ids, ascending, what each costs, and where it lies.
export function nearbyOf(text, count) {
  const isNearby = (feature) => {
    const { properties, geometry } = feature ?? {};
    const nodes = properties?.nodes;
    if (Array.isArray(nodes) && nodes.some((id) => Number.isInteger(id) && !Number.isSafeInteger(id))) throw new Refused('ids too large');
    return Array.isArray(nodes) && isAscending(nodes) && isListOf(properties.costs, nodes.length, isCost)
      && isListOf(geometry?.coordinates, nodes.length, isPlace);
  };
  const features = parsed(text)?.features;
  if (!isListOf(features, count, isNearby)) throw new Refused('answer is no list of nodes');
  return features.map(({ properties, geometry }) => ({ nodes: properties.nodes, costs: properties.costs, places: geometry.coordinates }));
}

// The costs of a table of so many waypoints: texts of numbers, and null where no ride leads.
export function costsOf(text, count) {
  const costs = parsed(text)?.costs;
  const isRow = (row) => isListOf(row, count, (cost) => cost === null || isCost(cost));
  if (!isListOf(costs, count, isRow)) throw new Refused('answer is no table');
  return costs;
}

// The name under which an upload was stored.
export function uploadOf(text) {
  const name = parsed(text)?.profileid;
  if (typeof name !== 'string' || !/^custom_\d+$/.test(name)) throw new Refused('answer is no upload');
  return name;
}
