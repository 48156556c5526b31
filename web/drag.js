// Draws a new waypoint out of a track, by the mouse or by a finger.

import { endsOf } from './track.js';
import { numbered } from './marks.js';
import { placeOf } from './places.js';

const LEAST = 6;

// `nearest` gives the number of a track's point; the waypoint goes into the leg on which the pointer took the track.
export function drawsOut(map, line, reply, nearest, changes) {
  const element = line.getElement();
  const legAt = (latlng) => {
    const at = nearest(latlng);
    return Math.max(0, endsOf(reply).findIndex((end) => at <= end));
  };
  for (const name of ['mousedown', 'touchstart']) element.addEventListener(name, (event) => event.stopPropagation());
  element.addEventListener('pointerdown', (event) => {
    if (event.button !== 0 || !event.isPrimary) return;
    event.stopPropagation();
    event.preventDefault();
    follow(map, element, event, legAt(map.mouseEventToLatLng(event)), changes);
  });
}

// Follows a pointer until it is lifted; a move shorter than some pixels is no drag.
function follow(map, element, down, leg, changes) {
  let marker = null;
  element.setPointerCapture(down.pointerId);
  const move = (event) => {
    if (event.pointerId !== down.pointerId) return;
    if (!marker && Math.hypot(event.clientX - down.clientX, event.clientY - down.clientY) < LEAST) return;
    const at = map.mouseEventToLatLng(event);
    marker ??= L.marker(at, { icon: numbered('+', false), interactive: false }).addTo(map);
    marker.setLatLng(at);
  };
  const end = (event) => {
    if (event.pointerId !== down.pointerId) return;
    element.removeEventListener('pointermove', move);
    for (const name of ['pointerup', 'pointercancel']) element.removeEventListener(name, end);
    if (!marker) return;
    marker.remove();
    if (event.type === 'pointerup') changes.insertWaypoint(leg + 1, placeOf(marker.getLatLng()));
  };
  element.addEventListener('pointermove', move);
  for (const name of ['pointerup', 'pointercancel']) element.addEventListener(name, end);
}
