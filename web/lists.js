// The lists of a ride's waypoints and circles, and the choices of its profiles and alternative.

import { button, by, made } from './dom.js';

function waypointItem({ lon, lat }, at, changes, isFault) {
  return made('li', isFault ? 'at-fault' : '', `${lat.toFixed(5)}, ${lon.toFixed(5)} `,
    button('\u2191', `Waypoint ${at + 1} earlier`, () => at && changes.swapWaypoints(at - 1, at)),
    button('\u00d7', `Remove waypoint ${at + 1}`, () => changes.removeWaypoint(at)));
}

function circleItem(circle, at, changes) {
  const radius = document.createElement('input');
  Object.assign(radius, { type: 'number', min: 0, max: 100000, value: circle.radius });
  radius.setAttribute('aria-label', `Radius of circle ${at + 1} in metres`);
  radius.addEventListener('change', () => changes.changeCircle(at, { ...circle, radius: Number(radius.value) || 0 }));
  return made('li', '', `Circle ${at + 1}, metres `, radius, button('\u00d7', `Remove circle ${at + 1}`, () => changes.removeCircle(at)));
}

export function drawLists({ waypoints, circles }, faults, changes) {
  by('waypoints').replaceChildren(...waypoints.map((place, at) => waypointItem(place, at, changes, faults.includes(at))));
  by('circles').replaceChildren(...circles.map((circle, at) => circleItem(circle, at, changes)));
}

export function drawChoices(ride, profiles) {
  const names = [...new Set([...profiles.names(), ride.profile, ride.beside])].filter(Boolean);
  const option = (name) => new Option(name ? profiles.titleOf(name) : 'none', name);
  by('profile').replaceChildren(...names.map(option));
  by('beside').replaceChildren(option(''), ...names.filter((name) => name !== ride.profile).map(option));
  by('profile').value = ride.profile;
  by('beside').value = ride.beside;
  by('alternative').value = String(ride.alternative);
}
