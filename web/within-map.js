// What lies within a cost, on the map: its nodes, and what one of them costs where the rider points at it.

import { made } from './dom.js';
import { squareOf } from './roads.js';
import { makeWithinLayer } from './within-layer.js';

const PANE = 'within';
const NEAR_A_POINTER = 12;
const NEAR_A_FINGER = 22;

const isTouch = (event) => (event.pointerType ? event.pointerType !== 'mouse' : window.matchMedia('(hover: none)').matches);
const isOnMap = ({ target }) => !target.closest('.leaflet-control, .leaflet-marker-icon');

export class WithinMap {
  constructor(map) {
    Object.assign(this, { map, nearby: null, layer: null, pointed: -1, told: null });
    Object.assign(map.createPane(PANE).style, { zIndex: 320, pointerEvents: 'none' });
    this.note = L.tooltip({ className: 'cost-note', direction: 'top', offset: [0, -8], permanent: true });
    const container = map.getContainer();
    container.addEventListener('pointermove', (event) => {
      if (!isTouch(event) && isOnMap(event)) this.soon(map.mouseEventToContainerPoint(event));
    });
    container.addEventListener('pointerleave', (event) => {
      if (!isTouch(event)) this.point(null);
    });
    container.addEventListener('click', (event) => {
      if (this.nearby && isTouch(event) && isOnMap(event)
        && this.point(map.mouseEventToContainerPoint(event), NEAR_A_FINGER)) this.told = event;
    }, true);
    map.on('moveend', () => {
      if (document.activeElement === container && container.matches(':focus-visible')) this.point(map.getSize().divideBy(2), NEAR_A_FINGER);
    });
  }

  // Whether a tap told what a node costs, and so sets no waypoint.
  hasTold(event) {
    return Boolean(event) && this.told === event;
  }

  // `linesOf` gives the lines that tell of a node by its number, and is told -1 where the rider points at none.
  draw(nearby, colours, linesOf) {
    this.clear();
    Object.assign(this, { nearby, linesOf });
    this.layer = makeWithinLayer(nearby, colours, PANE).addTo(this.map);
  }

  clear() {
    this.layer?.remove();
    if (this.nearby) this.point(null);
    Object.assign(this, { nearby: null, layer: null });
  }

  // Looks at a point when the page comes to draw, and at the last one alone.
  soon(point) {
    if (this.nearby && !this.awaited) requestAnimationFrame(() => {
      this.point(this.awaited, NEAR_A_POINTER);
      this.awaited = null;
    });
    this.awaited = this.nearby ? point : null;
  }

  // Tells what the node nearest to a point of the view costs; whether there is one.
  point(at, most) {
    const number = at && this.nearby ? this.numberAt(at, most) : -1;
    if (number !== this.pointed) this.tell(number);
    return number >= 0;
  }

  numberAt(at, most) {
    const { lat, lng } = this.map.containerPointToLatLng(at);
    return this.nearby.nearest(...squareOf(lng, lat), most / (256 * 2 ** this.map.getZoom()));
  }

  tell(number) {
    this.pointed = number;
    const lines = this.linesOf(number);
    if (number < 0) {
      this.note.remove();
      return;
    }
    const [lon, lat] = this.nearby.places[number];
    this.note.setContent(made('div', '', ...lines.map((line) => made('div', '', line)))).setLatLng([lat, lon]).addTo(this.map);
  }
}
