// Reads settings.json: what is missing has a default, and what is wrong is told.

export const OPENSTREETMAP = '\u00a9 OpenStreetMap contributors';

const DEFAULTS = { server: '', servers: [], map: '', roads: '', attribution: '', command: 'route_serve route lookups=lookups.dat map=map.json',
  profiles: {}, pictures: null };

const isText = (value) => typeof value === 'string';
const isObject = (value) => typeof value === 'object' && value !== null && !Array.isArray(value);
const FORMS = {
  server: [isText, 'a text'],
  servers: [(value) => Array.isArray(value) && value.every(isText), 'a list of addresses'],
  map: [isText, 'a text'],
  roads: [isText, 'a text'],
  attribution: [isText, 'a text'],
  command: [isText, 'a text'],
  profiles: [(value) => isObject(value) && Object.values(value).every(isText), 'names with their files'],
  pictures: [(value) => value === null || (isObject(value) && isText(value.url) && isText(value.attribution)), 'null, or a url with an attribution'],
};

async function textOfSettings() {
  let answer;
  try {
    answer = await fetch('settings.json', { cache: 'no-cache' });
  } catch {
    return ['', 'settings.json can\'t be fetched.'];
  }
  if (!answer.ok) return ['', `settings.json isn't there (status ${answer.status}).`];
  try {
    return [await answer.text(), ''];
  } catch {
    return ['', 'settings.json broke off.'];
  }
}

// The settings of a text, with a sentence for each thing that is wrong in it.
function settingsOf(text) {
  let read;
  try {
    read = JSON.parse(text);
  } catch {
    return { settings: { ...DEFAULTS }, faults: [text.trim() ? 'settings.json isn\'t JSON.' : 'settings.json is empty.'] };
  }
  if (!isObject(read)) return { settings: { ...DEFAULTS }, faults: ['settings.json isn\'t an object.'] };
  const settings = { ...DEFAULTS };
  const faults = [];
  for (const [key, value] of Object.entries(read)) {
    if (!(key in FORMS)) faults.push(`settings.json has \u201c${key}\u201d, which isn't one of its keys.`);
    else if (FORMS[key][0](value)) settings[key] = value;
    else faults.push(`settings.json: \u201c${key}\u201d isn't ${FORMS[key][1]}.`);
  }
  if (!Object.keys(settings.profiles).length) faults.push('settings.json names no profile. Write one below.');
  return { settings, faults };
}

export async function readSettings() {
  const [text, fault] = await textOfSettings();
  if (!fault) return settingsOf(text);
  return { settings: { ...DEFAULTS }, faults: [`${fault} The page goes on without a map and without named profiles.`] };
}

const originOf = (text) => {
  try {
    return new URL(text, location.href).origin;
  } catch {
    return null;
  }
};

// The server to ask, and a sentence on it where the address of the page names one.
export function serverOf(settings, search) {
  const named = new URLSearchParams(search).get('server');
  if (named === null) return { base: settings.server, told: '', bad: false };
  const origin = originOf(named);
  const listed = [location.origin, ...settings.servers.map(originOf)];
  if (origin === null || origin === 'null' || !listed.includes(origin)) {
    return { base: settings.server, bad: true,
      told: `The link names the server ${named}. It isn't asked, since settings.json doesn't list it among \u201cservers\u201d.` };
  }
  return { base: named, bad: false, told: `The link names the server: your rides and profiles go to ${origin}.` };
}
