// The map: its ground, what a click, a double click and a key do, and what part of it is in view.

import { Marks } from './marks.js';
import { Names } from './names.js';
import { placeOf } from './places.js';
import { makeRoadLayer } from './road-layer.js';
import { OPENSTREETMAP } from './settings.js';
import { Tracks } from './tracks.js';
import { WithinMap } from './within-map.js';

const CLICK = 250;

const escaped = (text) => text.replace(/[&<>"]/g, (mark) => `&#${mark.charCodeAt(0)};`);
const LINK = `<a href="https://www.openstreetmap.org/copyright" target="_blank" rel="noreferrer">${OPENSTREETMAP}</a>`;
const attributionOf = (text) => escaped(text).replace(OPENSTREETMAP, LINK);

export class RideMap {
  // `changes` has what the rider does: set, move and remove waypoints and circles.
  constructor(element, changes) {
    this.changes = changes;
    this.map = L.map(element, { zoomControl: true, attributionControl: true, maxZoom: 19, tap: false }).setView([0, 0], 2);
    this.map.attributionControl.setPrefix(false);
    this.map.getContainer().rideMap = this;
    this.marks = new Marks(this.map, changes);
    this.tracks = new Tracks(this.map, changes);
    this.within = new WithinMap(this.map);
    this.hasView = false;
    this.listen();
  }

  // A click sets a waypoint, unless it becomes a double click, which zooms, or is a tap that tells what a node costs.
  listen() {
    this.map.on('click', ({ latlng, originalEvent }) => {
      if (this.within.hasTold(originalEvent)) return;
      const isSecond = Boolean(this.clicked);
      clearTimeout(this.clicked);
      this.clicked = isSecond ? null : setTimeout(() => {
        this.clicked = null;
        this.changes.addWaypoint(placeOf(latlng));
      }, CLICK);
    });
    this.map.on('dblclick', () => {
      clearTimeout(this.clicked);
      this.clicked = null;
    });
    this.map.getContainer().addEventListener('keydown', (event) => {
      if (event.key === 'Enter' && event.target === this.map.getContainer()) this.changes.addWaypoint(this.middle());
    });
    new ResizeObserver(() => this.map.invalidateSize({ animate: false })).observe(this.map.getContainer());
  }

  middle() {
    return placeOf(this.map.getCenter());
  }

  // Draws the roads of a source, within their box, and shows all of it where nothing is in view yet.
  drawRoads(source, attribution, failed) {
    const roads = makeRoadLayer(source, failed).addTo(this.map);
    this.names = new Names(this.map, source);
    this.keepClear();
    const [west, south, east, north] = source.box;
    const box = [[south, west], [north, east]];
    L.rectangle(box, { className: 'box', interactive: false }).addTo(this.map).bringToBack();
    this.attribute(attribution || source.attribution || OPENSTREETMAP);
    window.matchMedia('(prefers-color-scheme: dark)').addEventListener('change', () => {
      roads.redraw();
      this.names.later();
    });
    roads.on('load', () => this.names.later());
    this.fit(box);
  }

  drawPictures({ url, attribution }) {
    L.tileLayer(url, { attribution: attributionOf(attribution), maxZoom: 19, zIndex: 0 }).addTo(this.map);
  }

  attribute(text) {
    this.map.attributionControl.addAttribution(attributionOf(text));
  }

  // Brings points into view where nothing was yet: later on the view is the rider's.
  fit(points) {
    if (this.hasView || !points.length) return;
    this.hasView = true;
    this.map.fitBounds(L.latLngBounds(points), { animate: false, padding: [40, 40], maxZoom: 17 });
  }

  drawEarlier(replies) {
    this.tracks.drawEarlier(replies);
    this.keepClear();
  }

  // Brings waypoints of an address into view, unless one of them is; what else of it is shown follows when it is there.
  fitUnseen(points, awaitsMore) {
    if (!points.length || (this.hasView && points.some((point) => this.map.getBounds().contains(point)))) return;
    this.hasView = false;
    this.fit(points);
    this.awaitsMore = awaitsMore;
  }

  fitFirst(points) {
    if (!this.awaitsMore) return;
    this.hasView = this.awaitsMore = false;
    this.fit(points);
  }

  // Draws a ride's marks; these waypoints are at fault.
  drawMarks(ride, faults) {
    this.marks.draw(ride, faults);
    this.keepClear();
  }

  // Draws tracks, the first in front; `near` is told the nearest point of it, or null.
  drawTracks(tracks, waypoints, near) {
    this.tracks.draw(tracks, near);
    this.marks.tie(waypoints, tracks[0]?.reply);
    this.keepClear();
  }

  keepClear() {
    this.names?.keepClear(this.tracks.lines(), this.marks.points());
  }
}
