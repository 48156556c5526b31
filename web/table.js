// The table of what rides between all waypoints cost, and the cheapest round over them.

import { Asking } from './asking.js';
import { by, made, tell } from './dom.js';
import { cheapestRound, MOST_PLACES } from './round.js';
import { wordsOfSearches } from './words.js';

const roundWords = (order) => [...order, order[0]].map((place) => place + 1).join(' \u2192 ');

export class CostTable {
  // `costsOf` asks for the costs of a ride; `rideRound` is told the order of the waypoints of a round.
  constructor(costsOf, rideRound) {
    Object.assign(this, { costsOf, rideRound, round: null });
    this.asking = new Asking((words, seconds) => this.wait(words, seconds));
    by('call-off-table').addEventListener('click', () => {
      this.asking.end();
      tell('table-told', 'Called off.');
    });
    by('ride-round').addEventListener('click', () => this.rideRound(this.round.order));
  }

  wait(words, seconds) {
    by('call-off-table').hidden = words === null;
    if (words !== null) tell('table-told', `${words}: ${seconds} s.`);
  }

  // Forgets the table: the ride is another one.
  clear() {
    this.asking.end();
    this.round = null;
    tell('table-told', '');
    by('costs').replaceChildren();
    by('ride-round').hidden = true;
  }

  async ask(ride) {
    this.clear();
    if (ride.waypoints.length < 2) {
      tell('table-told', 'A table wants two waypoints or more.', true);
      return;
    }
    const { value, refused } = await this.asking.ask((signal, waitsFor) => this.costsOf(ride, signal, waitsFor));
    if (refused) tell('table-told', wordsOfSearches(refused.line).text, true);
    else if (value) this.draw(value);
  }

  draw(costs) {
    const numbers = costs.map((_, number) => String(number + 1));
    const head = made('tr', '', made('th', '', 'from \\ to'), ...numbers.map((number) => made('th', '', number)));
    by('costs').replaceChildren(made('thead', '', head), made('tbody', '', ...costs.map((row, from) => made('tr', '',
      made('th', '', numbers[from]), ...row.map((cost) => made('td', '', cost ?? 'no ride'))))));
    this.tellRound(costs);
  }

  tellRound(costs) {
    if (costs.length > MOST_PLACES) {
      tell('table-told', `A cheapest round is told of at most ${MOST_PLACES} waypoints.`);
      return;
    }
    this.round = cheapestRound(costs);
    by('ride-round').hidden = !this.round;
    tell('table-told', this.round ? `The cheapest round: ${roundWords(this.round.order)}, cost ${this.round.cost}. No other order costs less.`
      : 'No round leads over all waypoints and back.');
  }
}
