// What lies under a ride: roads from a folder of tiles or from a map's text, and map pictures where a server of them is named.

import { tell } from './dom.js';
import { MapText } from './map-text.js';
import { TileFolder } from './tile-folder.js';

const LATER = 'Rides are found all the same.';

// The source of roads, or null where there is none; what is missing is told over the map.
export async function drawGround(settings, map) {
  if (settings.pictures) map.drawPictures(settings.pictures);
  const path = settings.roads.replace(/\/$/, '') || settings.map;
  if (!path) {
    tell('map-told', settings.pictures ? '' : `settings.json names no map, so no roads are drawn. ${LATER}`);
    return null;
  }
  tell('map-told', 'Reading the map of roads.');
  try {
    const source = settings.roads ? await TileFolder.open(path) : await MapText.open(path);
    map.drawRoads(source, settings.attribution, (error) => tell('map-told', `Some roads are missing: ${error.message}. ${LATER}`, true));
    tell('map-told', '');
    return source;
  } catch (error) {
    tell('map-told', `The map of roads (${path}) can't be drawn: ${error.message}. ${LATER}`, true);
    return null;
  }
}
