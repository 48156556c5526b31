// A ride: what the rider asks for. The address of the page keeps it whole, with the profiles that were written on the page.

export const MOST_WAYPOINTS = 100;
export const MOST_CIRCLES = 64;
export const MOST_COST = 1000000000;
export const WRITTEN = '~';

// A profile is named by its name at the server, or, behind a tilde, by its packed text.
export const isWritten = (profile) => profile.startsWith(WRITTEN);

export function emptyRide(profile) {
  return { waypoints: [], circles: [], profile, beside: '', alternative: 0, values: {}, cost: '' };
}

const decimals = (number) => number.toFixed(6).replace(/\.?0+$/, '');
const place = ({ lon, lat }) => `${decimals(lon)},${decimals(lat)}`;
// The text of a cost with at most six decimals; nothing where it is none.
export function costOf(text) {
  const cost = Number(text);
  return text.trim() && cost >= 0 && cost <= MOST_COST ? decimals(cost) : '';
}

const circle = (each) => `${place(each)},${Math.round(each.radius)}`;

// The pair that tells where a ride begins; none where it has no waypoint.
export const placeOf = ({ waypoints }) => waypoints.slice(0, 1).map((first) => ['lonlats', place(first)]);

// The pairs that the server is asked with, for one of the ride's two profiles, which the server knows by the name.
export function queryOf(ride, profile, name = profile) {
  const pairs = [['lonlats', ride.waypoints.map(place).join('|')], ['profile', name]];
  if (ride.circles.length) pairs.push(['nogos', ride.circles.map(circle).join('|')]);
  if (ride.alternative) pairs.push(['alternativeidx', String(ride.alternative)]);
  if (profile === ride.profile) {
    for (const [variable, value] of Object.entries(ride.values)) pairs.push([`profile:${variable}`, value]);
  }
  return pairs;
}

// The text of pairs, in which the marks that a query may have stay readable.
export function textOf(pairs) {
  const plain = (text) => encodeURIComponent(text).replace(/%(2C|7C|3A)/g, (mark) => decodeURIComponent(mark));
  return pairs.map(([key, value]) => `${plain(key)}=${plain(value)}`).join('&');
}

// What stands behind # in the page's address.
export function addressOf(ride) {
  const pairs = queryOf(ride, ride.profile);
  if (ride.beside) pairs.push(['beside', ride.beside]);
  if (ride.cost) pairs.push(['cost', ride.cost]);
  return textOf(pairs);
}

function placesOf(text) {
  return text.split('|').map((part) => part.split(',').map(Number))
    .filter(([lon, lat]) => Math.abs(lon) <= 180 && Math.abs(lat) <= 90);
}

// The ride of an address; what it doesn't tell is as in an empty one. A name that one server gave to an upload means nothing to
// another, so it isn't taken.
export function rideOf(address, profile) {
  const ride = emptyRide(profile);
  for (const [key, value] of new URLSearchParams(address)) {
    if (key === 'lonlats') ride.waypoints = placesOf(value).slice(0, MOST_WAYPOINTS).map(([lon, lat]) => ({ lon, lat }));
    else if (key === 'nogos') {
      ride.circles = placesOf(value).filter((each) => each[2] >= 0).slice(0, MOST_CIRCLES)
        .map(([lon, lat, radius]) => ({ lon, lat, radius }));
    } else if (key === 'alternativeidx') ride.alternative = Math.min(3, Math.max(0, Number.parseInt(value, 10) || 0));
    else if (key === 'cost') ride.cost = costOf(value);
    else if (key.startsWith('profile:')) ride.values[key.slice('profile:'.length)] = value;
    else if ((key === 'profile' || key === 'beside') && !/^custom_/.test(value)) ride[key] = value;
  }
  return ride;
}

// Whether an address names a profile that only the server of its writer knew.
export const namesUpload = (address) => /(^|&)(profile|beside)=custom_/.test(address);
