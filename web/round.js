// The cheapest round over all places of a table, exactly, for so few that all ways of going round can be weighed.

export const MOST_PLACES = 9;

// A cost of six decimals as a whole number of millionths, and back.
const millionths = (cost) => (cost === null ? null : BigInt(cost.replace('.', '')));
const costText = (sum) => `${sum / 1000000n}.${String(sum % 1000000n).padStart(6, '0')}`;

// For each set of places and each last place of it, what the cheapest way costs that begins at the first place and visits the set
// (Held and Karp).
function cheapestWays(costs) {
  const count = costs.length;
  const best = Array.from({ length: 2 ** count }, () => new Array(count).fill(null));
  best[1][0] = { cost: 0n, before: -1 };
  for (let set = 1; set < 2 ** count; set += 2) {
    for (let last = 0; last < count; last++) {
      const way = best[set][last];
      for (let next = 1; way && next < count; next++) {
        const step = costs[last][next];
        if (set & (1 << next) || step === null) continue;
        const there = best[set | (1 << next)];
        if (!there[next] || way.cost + step < there[next].cost) there[next] = { cost: way.cost + step, before: last };
      }
    }
  }
  return best;
}

// The order of the places, from the first one, and the cost of the round with the way back; null where there is none.
export function cheapestRound(table) {
  const costs = table.map((row) => row.map(millionths));
  const count = costs.length;
  const best = cheapestWays(costs);
  let set = 2 ** count - 1;
  let [last, least] = [-1, null];
  for (let place = 1; place < count; place++) {
    const [way, back] = [best[set][place], costs[place][0]];
    if (way && back !== null && (least === null || way.cost + back < least)) [last, least] = [place, way.cost + back];
  }
  if (least === null) return null;
  const order = [];
  while (last >= 0) {
    order.unshift(last);
    const { before } = best[set][last];
    set &= ~(1 << last);
    last = before;
  }
  return { order, cost: costText(least) };
}
