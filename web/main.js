// Joins the parts of the page: what the rider sets becomes a ride, the ride is asked for, and the answer is shown.

import { Answer } from './answer.js';
import { Asking } from './asking.js';
import { by, keepingFocus, tell } from './dom.js';
import { drawGround } from './ground.js';
import { drawChoices, drawLists } from './lists.js';
import { RideMap } from './map.js';
import { pointOf, pointsOf } from './places.js';
import { Profiles } from './profiles.js';
import { Rides } from './rides.js';
import { addressOf, emptyRide, namesUpload, rideOf, MOST_CIRCLES, MOST_WAYPOINTS } from './ride.js';
import { Rules } from './rules.js';
import { Server } from './server.js';
import { readSettings, serverOf } from './settings.js';
import { Sheet } from './sheet.js';
import { CostTable } from './table.js';
import { Within } from './within.js';
import { wordsOf } from './words.js';

const state = { ride: null, tracks: [], faults: [] };
let [profiles, rides, map, answer, table, within, rules, asking, greys, first] = [];

function say(text, isBad = false) {
  by('told').textContent = text;
  by('told').classList.toggle('bad', isBad);
}

// ---- What the rider changes

// Takes a change of the ride: it goes into the address, and the server is asked again.
function change(changed) {
  Object.assign(state.ride, changed);
  history.pushState(null, '', `#${addressOf(state.ride)}`);
  refresh();
}

const replaced = (list, place, item) => list.map((each, at) => (at === place ? item : each));
const without = (list, place) => list.filter((_, at) => at !== place);

const changes = {
  addWaypoint: (place) => changes.insertWaypoint(state.ride.waypoints.length, place),
  insertWaypoint(at, place) {
    if (state.ride.waypoints.length < MOST_WAYPOINTS) change({ waypoints: state.ride.waypoints.toSpliced(at, 0, place) });
    else say(`A ride has at most ${MOST_WAYPOINTS} waypoints.`, true);
  },
  moveWaypoint: (at, place) => change({ waypoints: replaced(state.ride.waypoints, at, place) }),
  removeWaypoint: (at) => change({ waypoints: without(state.ride.waypoints, at) }),
  swapWaypoints(one, other) {
    const { waypoints } = state.ride;
    change({ waypoints: replaced(replaced(waypoints, one, waypoints[other]), other, waypoints[one]) });
  },
  addCircle(place) {
    if (state.ride.circles.length < MOST_CIRCLES) change({ circles: [...state.ride.circles, { ...place, radius: 50 }] });
    else say(`A ride has at most ${MOST_CIRCLES} circles.`, true);
  },
  changeCircle: (at, circle) => change({ circles: replaced(state.ride.circles, at, circle) }),
  removeCircle: (at) => change({ circles: without(state.ride.circles, at) }),
};

// ---- What is asked and shown

function show(tracks, faults = []) {
  Object.assign(state, { tracks, faults });
  map.drawMarks(state.ride, faults);
  keepingFocus(() => drawLists(state.ride, faults, changes));
  map.drawTracks(tracks, state.ride.waypoints, (number) => answer.near(number));
  answer.draw(state.ride, tracks);
}

function refuse(refused) {
  const { text, waypoints } = wordsOf(refused.line);
  say(text, true);
  show([], waypoints);
}

// Tells what is waited for; the track of before is faint meanwhile.
function wait(words, seconds) {
  by('call-off').hidden = words === null;
  document.body.classList.toggle('waiting', words !== null);
  if (words !== null) say(`${words}: ${seconds} s.`);
}

async function askRide() {
  const ride = structuredClone(state.ride);
  const { value, refused, ended } = await asking.ask((signal, waitsFor) => rides.tracks(ride, signal, waitsFor));
  if (ended) return;
  if (refused) {
    refuse(refused);
    return;
  }
  const { tracks, besideRefused } = value;
  const told = tracks.map(({ profile, reply }) => `${profiles.titleOf(profile)}: cost ${reply.properties.cost}`);
  if (besideRefused) told.push(`${profiles.titleOf(ride.beside)}: ${wordsOf(besideRefused.line).text}`);
  say(told.join('; '), Boolean(besideRefused));
  show(tracks);
  if (!ride.cost) map.fitFirst(tracks.flatMap(({ reply }) => pointsOf(reply.geometry.coordinates)));
  const { value: earlier } = await greys.ask((signal) => rides.earlier(ride, tracks[0].reply, signal));
  if (earlier?.length) map.drawEarlier(earlier);
}

// Draws the ride, and asks for it where it has two waypoints.
function refresh() {
  const { ride } = state;
  [ride.profile, ride.beside].forEach((profile) => profiles.meet(profile));
  drawChoices(ride, profiles);
  table.clear();
  within.draw(ride);
  greys.end();
  rules.draw(ride);
  map.drawMarks(ride, []);
  keepingFocus(() => drawLists(ride, [], changes));
  if (ride.waypoints.length >= 2) {
    askRide();
    return;
  }
  asking.end();
  say(ride.waypoints.length ? 'One place more.' : 'Click two places on the map.');
  show([]);
}

function callOff() {
  asking.end();
  show([]);
  say('Called off. The next change asks again.');
}

// Takes the ride of the page's address.
function readAddress() {
  const address = location.hash.slice(1);
  state.ride = address ? rideOf(address, first) : emptyRide(first);
  tell('link-told', namesUpload(address) ? 'The link names a profile that only its writer\'s server knew, so another one is taken.' : '', true);
  map.fitUnseen(state.ride.waypoints.map(pointOf), state.ride.waypoints.length > 1 || state.ride.cost !== '');
  refresh();
}

// ---- At the start

function listen() {
  const choose = (id, changed) => by(id).addEventListener('change', () => change(changed(by(id).value)));
  choose('profile', (profile) => ({ profile, values: {}, beside: state.ride.beside === profile ? '' : state.ride.beside }));
  choose('beside', (beside) => ({ beside }));
  choose('alternative', (alternative) => ({ alternative: Number(alternative) }));
  const press = (id, done) => by(id).addEventListener('click', done);
  press('add-waypoint', () => changes.addWaypoint(map.middle()));
  press('add-circle', () => changes.addCircle(map.middle()));
  press('turn-round', () => change({ waypoints: state.ride.waypoints.toReversed() }));
  press('clear', () => change({ waypoints: [], circles: [] }));
  press('call-off', callOff);
  press('ask-table', () => table.ask(structuredClone(state.ride)));
  window.addEventListener('popstate', readAddress);
}

function makeParts(settings, base) {
  const server = new Server(base);
  profiles = new Profiles(settings.profiles, server);
  rides = new Rides(server, profiles);
  map = new RideMap('map', changes);
  answer = new Answer(settings, profiles, (coordinate) => map.tracks.show(coordinate),
    (ride, signal, waitsFor) => rides.certificate(ride, signal, waitsFor));
  asking = new Asking(wait);
  greys = new Asking(() => {});
  table = new CostTable((ride, signal, waitsFor) => rides.costs(ride, signal, waitsFor),
    (order) => change({ waypoints: [...order, order[0]].map((place) => state.ride.waypoints[place]) }));
  within = new Within((ride, signal, waitsFor) => rides.nearby(ride, signal, waitsFor), (cost) => change({ cost }), {
    draw(nearby, colours, linesOf) {
      map.within.draw(nearby, colours, linesOf);
      map.fitFirst(nearby.corners);
    },
    clear: () => map.within.clear(),
  });
  rules = new Rules(profiles, {
    setValues: (values) => change({ values }),
    rideBy: (profile) => change({ beside: state.ride.profile === profile ? state.ride.beside : state.ride.profile, profile, values: {} }),
  });
}

async function start() {
  if (!window.L) {
    say('Leaflet is missing: it is looked for at javascript/leaflet/leaflet.js beside this page.', true);
    return;
  }
  const { settings, faults } = await readSettings();
  const { base, told, bad } = serverOf(settings, location.search);
  tell('settings-told', faults.join(' '), true);
  tell('server-told', told, bad);
  makeParts(settings, base);
  first = Object.keys(settings.profiles)[0] ?? '';
  new Sheet(by('sheet'));
  listen();
  readAddress();
  const source = await drawGround(settings, map);
  if (source) answer.takeRoads(source);
}

start();
