// The tracks on the map. Where there are two they lie side by side, so that neither hides the other.

import { drawsOut } from './drag.js';
import { pointsOf } from './places.js';
import { shifted } from './shift.js';

const APART = 4;

export class Tracks {
  constructor(map, changes) {
    Object.assign(this, { map, changes, shown: [] });
    this.layer = L.layerGroup().addTo(map);
    this.earlier = L.layerGroup().addTo(map);
    this.spot = L.circleMarker([0, 0], { radius: 7, className: 'spot', interactive: false });
    map.on('zoomend', () => this.place());
  }

  draw(tracks, near) {
    this.layer.clearLayers();
    this.earlier.clearLayers();
    this.spot.remove();
    this.shown = tracks.map(({ reply }, number) => ({ points: pointsOf(reply.geometry.coordinates), className: number ? 'track beside' : 'track',
      apart: tracks.length < 2 ? 0 : number ? -APART : APART }));
    for (const each of this.shown.toReversed()) {
      each.line = L.polyline(each.points, { className: each.className, weight: 6, interactive: false });
      this.layer.addLayer(each.line);
    }
    this.place();
    if (tracks.length) this.takeHold(tracks[0].reply, near);
  }

  // Moves each track aside by its part of the pixels at this zoom.
  place() {
    for (const { line, points, apart } of this.shown) if (apart) line.setLatLngs(shifted(this.map, points, apart));
    this.grip?.bringToFront();
  }

  // A wide line, unseen, along the first track: it is what the pointer and the finger meet.
  takeHold(reply, near) {
    this.grip = L.polyline(this.shown[0].points, { className: 'grip', weight: 24, bubblingMouseEvents: false });
    this.grip.on('mousemove', ({ latlng }) => near(this.nearest(latlng)));
    this.grip.on('mouseout', () => near(null));
    this.grip.on('click', (event) => L.DomEvent.stop(event));
    this.layer.addLayer(this.grip);
    drawsOut(this.map, this.grip, reply, (latlng) => this.nearest(latlng), this.changes);
  }

  // Earlier alternatives, in grey, behind the tracks.
  drawEarlier(replies) {
    this.earlier.clearLayers();
    for (const { geometry } of replies) {
      this.earlier.addLayer(L.polyline(pointsOf(geometry.coordinates), { className: 'track earlier', weight: 5, interactive: false }));
    }
    this.earlier.eachLayer((line) => line.bringToBack());
  }

  // The points of all that is drawn.
  lines() {
    return [...this.shown.map(({ points }) => points), ...this.earlier.getLayers().map((line) => line.getLatLngs())];
  }

  nearest(at) {
    const { x, y } = this.map.project(at);
    const distances = this.shown[0].points.map((point) => {
      const each = this.map.project(point);
      return (each.x - x) ** 2 + (each.y - y) ** 2;
    });
    return distances.reduce((best, each, number) => (each < distances[best] ? number : best), 0);
  }

  // Shows a point of a track, or none.
  show(coordinate) {
    if (!coordinate) this.spot.remove();
    else this.spot.setLatLng([coordinate[1], coordinate[0]]).addTo(this.map);
  }
}
