// Shows what was answered: figures, what is proved of them, heights, rows, and files to take along.

import { by, made, tell } from './dom.js';
import { commandOf, gpxOf, save } from './export.js';
import { groupsOf } from './groups.js';
import { Heights } from './heights.js';
import { Certificate, claimOf, proofCommands, proofWords } from './proof.js';
import { drawLegend, Rows } from './rows.js';
import { streetNames } from './street-names.js';
import { climbOf, distancesOf, repeatedBy, rowsOf } from './track.js';

const SOON = 300;
const BEST = ['the best ride', 'alternative 1', 'alternative 2'];

function figure(name, className, ...content) {
  return [made('dt', '', name), made('dd', className, ...content)];
}

export class Answer {
  // `point` shows a point of a track on the map, or none; `certificate` asks for the certificate of a ride.
  constructor(settings, profiles, point, certificate) {
    Object.assign(this, { settings, profiles, point, tracks: [], source: null, certificate: new Certificate(certificate) });
    const near = (number) => this.near(number);
    this.heights = new Heights(by('heights'), near);
    this.rows = new Rows(by('rows'), near);
    drawLegend(by('legend'));
    by('save-geojson').addEventListener('click', () => save('track.geojson', 'application/geo+json', this.tracks[0].text));
    by('save-gpx').addEventListener('click', () => save('track.gpx', 'application/gpx+xml', gpxOf(this.tracks[0].reply, this.title())));
  }

  title() {
    return `Ride by ${this.profiles.titleOf(this.tracks[0].profile)}`;
  }

  near(number) {
    const shown = this.tracks[0]?.reply;
    this.point(number === null || !shown ? null : shown.geometry.coordinates[number]);
    this.heights.show(number);
    this.rows.show(number);
  }

  draw(ride, tracks) {
    Object.assign(this, { ride, tracks });
    by('answer').hidden = !tracks.length;
    this.drawKey();
    if (!tracks.length) {
      by('figures').replaceChildren();
      by('rows').replaceChildren();
      return;
    }
    const { reply } = tracks[0];
    this.told = rowsOf(reply);
    this.drawRepeats(reply);
    by('figures').replaceChildren(...tracks.map((track, number) => this.figures(track, number)));
    this.drawProof(reply);
    this.heights.draw(reply.geometry.coordinates, distancesOf(this.told));
    by('command').value = commandOf(ride, this.settings.command, this.profiles.fileOf(ride.profile));
    this.drawRows();
  }

  // Which colour is whose, on the map.
  drawKey() {
    const items = this.tracks.map(({ profile }, number) => made('li', number ? 'beside' : 'first', this.profiles.titleOf(profile)));
    if (this.tracks[0]?.reply.properties.earlier.length) items.push(made('li', 'earlier', 'earlier alternatives'));
    by('key').hidden = items.length < 2;
    by('key').replaceChildren(...items);
  }

  drawRepeats(reply) {
    const repeated = repeatedBy(reply);
    tell('repeats', repeated < 0 ? '' : `Alternative ${reply.properties.earlier.length} is ${BEST[repeated]} again: its rank is the least even so.`);
  }

  figures({ profile, reply }, number) {
    const { up, down } = climbOf(reply);
    const { cost } = reply.properties;
    const list = made('dl', number ? 'beside' : 'first');
    const [term, line] = figure(`Cost by ${this.profiles.titleOf(profile)}`, 'cost-line', made('span', 'cost', cost), ' ', this.claim(number));
    if (this.tracks.length > 1) term.className = 'of';
    list.append(term, line, ...figure('Length', 'length', `${(Number(reply.properties['track-length']) / 1000).toFixed(3)} km`),
      ...figure('Climb, descent', 'climb', `${up.toFixed(0)} m, ${down.toFixed(0)} m`));
    return list;
  }

  claim(number) {
    const claim = claimOf(this.ride.alternative);
    if (number) return made('span', 'claim', claim);
    const button = made('button', 'claim', claim);
    button.type = 'button';
    button.setAttribute('aria-controls', 'proof');
    button.setAttribute('aria-expanded', String(!by('proof').hidden));
    button.addEventListener('click', () => {
      by('proof').hidden = !by('proof').hidden;
      button.setAttribute('aria-expanded', String(!by('proof').hidden));
    });
    return button;
  }

  drawProof(reply) {
    by('proof-words').textContent = proofWords(this.ride, reply.properties.rank);
    this.certificate.draw(this.ride);
    by('certificate').value = proofCommands(this.ride, this.settings.command, this.profiles.fileOf(this.ride.profile));
  }

  // Draws the rows by streets, and by kinds of road until the streets are known where that takes a while.
  async drawRows() {
    const { tracks, told, source } = this;
    if (!tracks.length) return;
    const draw = (names) => {
      if (tracks === this.tracks && source === this.source) this.rows.draw(told, groupsOf(told, names));
    };
    const later = setTimeout(draw, SOON, []);
    const names = await streetNames(source, tracks[0].reply, told).catch(() => []);
    clearTimeout(later);
    draw(names);
  }

  // Takes the roads, when they are there, for the names of streets.
  takeRoads(source) {
    this.source = source;
    this.drawRows();
  }
}
