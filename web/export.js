// A track as files, and as a command line.

import { queryOf, textOf } from './ride.js';

const escaped = (text) => text.replace(/[&<>"]/g, (mark) => `&#${mark.charCodeAt(0)};`);

export function gpxOf(reply, title) {
  const points = reply.geometry.coordinates.map(([lon, lat, height]) => (
    `   <trkpt lat="${lat}" lon="${lon}">${height === undefined ? '' : `<ele>${height}</ele>`}</trkpt>`));
  return ['<?xml version="1.0" encoding="UTF-8"?>',
    '<gpx version="1.1" creator="route_serve" xmlns="http://www.topografix.com/GPX/1/1">',
    ` <trk><name>${escaped(title)}</name>`, '  <trkseg>', ...points, '  </trkseg>', ' </trk>', '</gpx>', ''].join('\n');
}

// The command that answers a ride, with the file of its profile, which has the profile's name.
export function commandOf(ride, start, name) {
  return `${start} profile=${name}.brf \\\n  'query=${textOf(queryOf(ride, ride.profile, name))}'`;
}

// The command that writes a certificate of a ride's best track, and those that check it: the program's, and that of the checker beside it.
export function certificateOf(ride, start, name) {
  const line = (form, command) => commandOf({ ...ride, alternative: 0 }, start.replace(form, command), name);
  const checks = [line(/ route(?= |$)/, ' check'), line(/^.*? route(?= |$)/, 'tools/check_certificate')];
  return [`${line(/ route(?= |$)/, ' certify')} > ride.certificate`, ...checks.map((check) => `${check} \\\n  certificate=ride.certificate`)].join('\n');
}

export function save(name, type, text) {
  const link = document.createElement('a');
  link.href = URL.createObjectURL(new Blob([text], { type }));
  link.download = name;
  link.click();
  setTimeout(() => URL.revokeObjectURL(link.href), 1000);
}
