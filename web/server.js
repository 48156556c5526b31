// The server's paths: each is asked by a function, and whatever goes wrong is a refusal with a line.

import { certificateOf, costsOf, nearbyOf, Refused, trackOf, uploadOf } from './reply.js';
import { placeOf, textOf } from './ride.js';

export class Server {
  constructor(base) {
    this.base = base.replace(/\/$/, '');
  }

  // The text of an answer, or why there is none.
  async fetched(path, signal, options = {}) {
    let answer;
    try {
      answer = await fetch(this.base + path, { ...options, signal });
    } catch (error) {
      throw signal?.aborted ? error : new Refused('no answer');
    }
    let text;
    try {
      text = await answer.text();
    } catch (error) {
      throw signal?.aborted ? error : new Refused('answer broke off', answer.status);
    }
    if (answer.ok) return text;
    const line = text.trim();
    throw new Refused(!line || line.startsWith('<') || line.includes('\n') ? `front ${answer.status}` : line.slice(0, 500), answer.status);
  }

  async track(pairs, signal) {
    const text = await this.fetched(`/brouter?${textOf(pairs)}`, signal);
    return { text, reply: trackOf(text) };
  }

  async table(pairs, count, signal) {
    return costsOf(await this.fetched(`/brouter/table?${textOf(pairs)}`, signal), count);
  }

  // For each of so many waypoints the nodes within a cost.
  async within(pairs, count, signal) {
    return nearbyOf(await this.fetched(`/brouter/within?${textOf(pairs)}`, signal), count);
  }

  // The text of the certificate of a ride's best track.
  async certificate(pairs, signal) {
    return certificateOf(await this.fetched(`/brouter/certificate?${textOf(pairs)}`, signal));
  }

  // Sends a profile for a ride, as plain text so that no browser asks before, and gives its name. A front of several regions looks
  // where the ride begins.
  async send(text, ride, signal) {
    const place = textOf(placeOf(ride));
    return uploadOf(await this.fetched(`/brouter/profile${place && `?${place}`}`, signal, { method: 'POST', body: text }));
  }
}
