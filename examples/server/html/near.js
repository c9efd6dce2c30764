const EARTH = 3440.065; // The mean radius in nautical miles.
const WINDS = ['N', 'NNE', 'NE', 'ENE', 'E', 'ESE', 'SE', 'SSE', 'S', 'SSW', 'SW', 'WSW', 'W', 'WNW', 'NW', 'NNW'];

const radians = degrees => degrees * Math.PI / 180;
export const hasPlace = notes => Number.isFinite(notes?.latitude) && Number.isFinite(notes?.longitude);

/** The distance in nautical miles over a sphere. */
export function distanceOf(from, to) {
  const [north, east] = [to.latitude - from.latitude, to.longitude - from.longitude].map(radians);
  const part = Math.sin(north / 2) ** 2
    + Math.cos(radians(from.latitude)) * Math.cos(radians(to.latitude)) * Math.sin(east / 2) ** 2;
  return 2 * EARTH * Math.asin(Math.min(1, Math.sqrt(part)));
}

/** The true bearing at the start, in whole degrees from 0 to 359. */
export function bearingOf(from, to) {
  const [here, there, east] = [from.latitude, to.latitude, to.longitude - from.longitude].map(radians);
  const x = Math.sin(east) * Math.cos(there);
  const y = Math.cos(here) * Math.sin(there) - Math.sin(here) * Math.cos(there) * Math.cos(east);
  return (Math.round(Math.atan2(x, y) * 180 / Math.PI) + 360) % 360;
}

/** A distance in nautical miles with a bearing, as `1.2 nautical miles ENE (069°)`. */
export function distanceText(distance, bearing) {
  if (distance < 0.05) return 'at the same place';
  const miles = distance.toFixed(distance < 99.95 ? 1 : 0);
  return `${miles} nautical ${miles === '1.0' ? 'mile' : 'miles'} ${WINDS[Math.round(bearing / 22.5) % 16]} (${String(bearing).padStart(3, '0')}°)`;
}

export function placeText({ latitude, longitude }) {
  const text = (degrees, [positive, negative]) => `${Math.abs(degrees).toFixed(4)}° ${degrees < 0 ? negative : positive}`;
  return `${text(latitude, 'NS')}, ${text(longitude, 'EW')}`;
}

/** The stations nearest to one, with their distances and bearings. Stations without coordinates have none, and are left out. */
export function nearestTo(station, stations, count) {
  if (!hasPlace(station?.notes)) return [];
  return stations.filter(other => other !== station && hasPlace(other.notes))
    .map(other => ({ station: other, distance: distanceOf(station.notes, other.notes), bearing: bearingOf(station.notes, other.notes) }))
    .sort((one, other) => one.distance - other.distance).slice(0, count);
}

const MINUTES = "(?:\\s*(\\d{1,2}(?:\\.\\d+)?)\\s*['′’])?";
const ANGLE = `([+-]?\\d{1,3}(?:\\.\\d+)?)\\s*°?${MINUTES}\\s*`;
const PLACE = new RegExp(`^\\s*${ANGLE}([ns])?[\\s,;]+${ANGLE}([ew])?\\s*$`, 'i');

/** The place that a text names by its latitude and longitude, as `42.35 -71.05` or `42° 21.2′ N, 71° 3′ W`, or null. */
export function placeOf(text) {
  const found = PLACE.exec(text);
  if (!found) return null;
  const [, north, northMinutes, side, east, eastMinutes, otherSide] = found;
  const degrees = (whole, minutes, letter) => {
    const size = Math.abs(Number(whole)) + Number(minutes ?? 0) / 60;
    return whole.startsWith('-') !== /[sw]/i.test(letter ?? '') ? -size : size;
  };
  const latitude = degrees(north, northMinutes, side), longitude = degrees(east, eastMinutes, otherSide);
  const isRight = Math.abs(latitude) <= 90 && Math.abs(longitude) <= 180 && Math.max(northMinutes ?? 0, eastMinutes ?? 0) < 60;
  return isRight ? { latitude, longitude } : null;
}
