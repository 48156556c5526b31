// Places as the ride has them and as Leaflet has them.

export const placeOf = ({ lat, lng }) => ({ lon: Math.round(lng * 1e6) / 1e6, lat: Math.round(lat * 1e6) / 1e6 });
export const pointOf = ({ lon, lat }) => [lat, lon];
export const pointsOf = (coordinates) => coordinates.map(([lon, lat]) => [lat, lon]);
