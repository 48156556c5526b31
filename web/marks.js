// The marks of a ride on the map: waypoints with lines to their nodes, and circles with their radius, all dragged by hand.

import { endsOf } from './track.js';
import { placeOf, pointOf } from './places.js';

export const numbered = (number, isFault) => L.divIcon({
  className: `waypoint${isFault ? ' at-fault' : ''}`, html: `<span>${number}</span>`, iconSize: [28, 28] });
const handle = (name) => L.divIcon({ className: name, html: '', iconSize: [18, 18] });

export class Marks {
  constructor(map, changes) {
    Object.assign(this, { map, changes });
    this.layer = L.layerGroup().addTo(map);
    this.ties = L.layerGroup().addTo(map);
    this.ride = { waypoints: [], circles: [] };
  }

  draw(ride, faults) {
    this.ride = ride;
    this.layer.clearLayers();
    this.ties.clearLayers();
    ride.waypoints.forEach((place, number) => this.drawWaypoint(place, number, faults.includes(number)));
    ride.circles.forEach((circle, number) => this.drawCircle(circle, number));
  }

  points() {
    return this.ride.waypoints.map(pointOf);
  }

  // Draws a line from each waypoint to the node that it was moved to.
  tie(waypoints, reply) {
    this.ties.clearLayers();
    if (!reply) return;
    const { coordinates } = reply.geometry;
    [0, ...endsOf(reply)].forEach((end, number) => {
      if (!waypoints[number]) return;
      const [lon, lat] = coordinates[Math.min(end, coordinates.length - 1)];
      this.ties.addLayer(L.polyline([pointOf(waypoints[number]), [lat, lon]], { className: 'tie', interactive: false }));
      this.ties.addLayer(L.circleMarker([lat, lon], { className: 'node-mark', radius: 4, interactive: false }));
    });
  }

  drawWaypoint(place, number, isFault) {
    const title = `Waypoint ${number + 1}`;
    const marker = L.marker(pointOf(place), { icon: numbered(number + 1, isFault), draggable: true, autoPan: true, title, alt: title });
    marker.on('dragstart', () => this.ties.clearLayers());
    marker.on('dragend', () => this.changes.moveWaypoint(number, placeOf(marker.getLatLng())));
    marker.on('click dblclick', (event) => L.DomEvent.stop(event));
    marker.on('keydown', ({ originalEvent }) => {
      if (originalEvent.key === 'Delete' || originalEvent.key === 'Backspace') this.changes.removeWaypoint(number);
    });
    this.layer.addLayer(marker);
  }

  drawCircle(circle, number) {
    const area = L.circle(pointOf(circle), { radius: circle.radius, className: 'circle', interactive: false });
    const title = `Circle ${number + 1}`;
    const middle = L.marker(pointOf(circle), { icon: handle('circle-middle'), draggable: true, title, alt: title });
    const edge = L.marker(this.edgeOf(circle), { icon: handle('circle-edge'), draggable: true, title: `${title}: radius`,
      alt: `${title}: radius` });
    middle.on('drag', () => area.setLatLng(middle.getLatLng()));
    middle.on('dragend', () => this.changes.changeCircle(number, { ...circle, ...placeOf(middle.getLatLng()) }));
    const radius = () => Math.max(1, Math.round(this.map.distance(middle.getLatLng(), edge.getLatLng())));
    edge.on('drag', () => area.setRadius(radius()));
    edge.on('dragend', () => this.changes.changeCircle(number, { ...circle, radius: radius() }));
    for (const mark of [middle, edge]) mark.on('click dblclick', (event) => L.DomEvent.stop(event));
    this.layer.addLayer(area).addLayer(middle).addLayer(edge);
  }

  edgeOf({ lon, lat, radius }) {
    return [lat, lon + radius / (111320 * Math.cos(lat * Math.PI / 180))];
  }
}
