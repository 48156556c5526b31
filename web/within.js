// What lies within a cost of the ride's waypoints: asked for by a cost, drawn on the map, with a key.

import { Asking } from './asking.js';
import { by, tell } from './dom.js';
import { Nearby } from './nearby.js';
import { costOf, MOST_COST, queryOf } from './ride.js';
import { coloursFor, drawKey, MOST_COLOURS } from './within-key.js';
import { wordsOfSearches } from './words.js';

const MOST_LINES = 8;
const POINT = 'Point at a node on the map, or tap it, to see what it costs.';

const questionOf = (ride) => (ride.cost && ride.waypoints.length
  ? JSON.stringify([queryOf({ ...ride, alternative: 0 }, ride.profile), ride.cost]) : '');
const counted = (count, name) => `${count} ${name}${count === 1 ? '' : 's'}`;

export class Within {
  // `listsOf` asks for the nodes within a ride's cost, `setCost` changes that cost, and `map` draws what is found and clears it.
  constructor(listsOf, setCost, map) {
    Object.assign(this, { listsOf, setCost, map, ride: null, question: '', nearby: null });
    this.asking = new Asking((words, seconds) => this.wait(words, seconds));
    by('ask-within').addEventListener('click', () => this.press());
    by('within-cost').addEventListener('keydown', ({ key }) => key === 'Enter' && this.press());
    by('within-cost').addEventListener('change', () => this.ride.cost && this.read() !== this.ride.cost && this.press());
    by('hide-within').addEventListener('click', () => {
      by('ask-within').focus();
      this.setCost('');
    });
    by('call-off-within').addEventListener('click', () => {
      this.forget();
      tell('within-told', 'Called off. \u201cShow it\u201d asks again.');
    });
    window.matchMedia('(prefers-color-scheme: dark)').addEventListener('change', () => this.nearby && this.show());
  }

  wait(words, seconds) {
    by('call-off-within').hidden = words === null;
    if (words !== null) tell('within-told', `${words}: ${seconds} s.`);
  }

  read() {
    return costOf(by('within-cost').value);
  }

  press() {
    const cost = this.read();
    if (!cost) tell('within-told', `A cost is a number from 0 to ${MOST_COST}.`, true);
    else if (cost !== this.ride.cost) this.setCost(cost);
    else this.ask();
  }

  // Ends the question and takes away what is shown.
  forget() {
    this.asking.end();
    Object.assign(this, { question: '', nearby: null });
    this.map.clear();
    tell('within-told', '');
    tell('within-shades', '');
    tell('within-spot', '');
    by('within-key').replaceChildren();
  }

  // Takes a ride: where it puts another question than the one before, that is asked.
  draw(ride) {
    this.ride = structuredClone(ride);
    by('hide-within').hidden = !ride.cost;
    if (ride.cost) by('within-cost').value = ride.cost;
    if (!ride.cost) this.forget();
    else if (!questionOf(ride) || questionOf(ride) !== this.question) this.ask();
  }

  async ask() {
    const { ride } = this;
    this.forget();
    if (!ride.waypoints.length) {
      tell('within-told', 'Set a waypoint, from which the cost is counted.');
      return;
    }
    this.question = questionOf(ride);
    const { value, refused } = await this.asking.ask(async (signal, waitsFor) => (
      Nearby.of(await this.listsOf(ride, signal, waitsFor), ride.cost)));
    if (refused) {
      this.question = '';
      tell('within-told', wordsOfSearches(refused.line).text, true);
    } else if (value) {
      this.nearby = value;
      this.show();
    }
  }

  show() {
    const { nearby } = this;
    const colours = coloursFor(nearby);
    const count = nearby.lists.length;
    this.map.draw(nearby, colours, (number) => this.linesOf(number));
    drawKey(nearby, colours);
    const from = count > 1 ? `${count} waypoints` : 'waypoint 1';
    tell('within-told', `${counted(nearby.ids.length, 'node')} within a cost of ${nearby.cost} from ${from}.`);
    tell('within-shades', this.shadesWords());
    tell('within-spot', POINT);
  }

  shadesWords() {
    const { lists, bounds } = this.nearby;
    if (lists.length === 1) return '';
    const again = lists.length > MOST_COLOURS ? ` From waypoint ${MOST_COLOURS + 1} on the colours come again.` : '';
    return `A node has the colour of the waypoint from which it costs least, in a shade for its cost: up to ${bounds.join(', ')}.${again}`;
  }

  // The lines that tell what a node costs from each waypoint.
  linesOf(number) {
    if (number < 0) {
      tell('within-spot', this.nearby ? POINT : '');
      return [];
    }
    const { nearby } = this;
    const all = nearby.costsOf(number).map((cost, at) => `from ${at + 1}: ${cost ?? `not within ${nearby.cost}`}`);
    const lines = all.length > MOST_LINES ? this.fewLines(number, all) : all;
    tell('within-spot', `Node ${nearby.ids[number]}: ${lines.join('; ')}.`);
    return lines;
  }

  // Of many waypoints the one from which a node costs least, and the first others that have it.
  fewLines(number, all) {
    const owner = this.nearby.owners[number];
    const having = this.nearby.costsOf(number).flatMap((cost, at) => (cost === null || at === owner ? [] : [at]));
    const shown = [owner, ...having].slice(0, MOST_LINES - 1);
    const left = having.length + 1 - shown.length;
    return [...shown.map((at) => all[at]), ...(left ? [`and from ${left} more`] : [])];
  }
}
