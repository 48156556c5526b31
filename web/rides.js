// Asks for what a ride needs: its tracks, the alternatives before it, its table of costs, and what lies within a cost.

import { Refused } from './reply.js';
import { queryOf } from './ride.js';

const KEPT = 12;

// The pairs of a question; the mark of a written profile stands before all other values.
function pairsOf(ride, profile, { name, pairs }) {
  const asked = queryOf(ride, profile, name);
  const at = asked.findIndex(([key]) => key.startsWith('profile:'));
  return asked.toSpliced(at < 0 ? asked.length : at, 0, ...pairs);
}

export class Rides {
  constructor(server, profiles) {
    Object.assign(this, { server, profiles });
    this.replies = new Map();
  }

  async track(ride, profile, signal) {
    const track = await this.profiles.asked(profile, ride, signal,
      (words) => this.server.track(pairsOf(ride, profile, words), signal));
    this.keep(ride, profile, track.reply);
    return { profile, ...track };
  }

  // Replies are kept for a while, so that the alternatives before one are drawn without being asked for again.
  keep(ride, profile, reply) {
    this.replies.set(JSON.stringify(queryOf(ride, profile)), reply);
    if (this.replies.size > KEPT) this.replies.delete(this.replies.keys().next().value);
  }

  // The tracks of a ride, one for each of its profiles. A refusal by the second profile leaves the first track.
  async tracks(ride, signal, waitsFor) {
    const search = (profile) => {
      waitsFor(`Searching for the ride over ${ride.waypoints.length} waypoints by ${this.profiles.titleOf(profile)}`);
      return this.track(ride, profile, signal);
    };
    const tracks = [await search(ride.profile)];
    if (!ride.beside) return { tracks };
    try {
      tracks.push(await search(ride.beside));
      return { tracks };
    } catch (error) {
      if (!(error instanceof Refused)) throw error;
      return { tracks, besideRefused: error };
    }
  }

  // The replies of the alternatives before that of a ride.
  async earlier(ride, { properties }, signal) {
    const found = [];
    for (let alternative = 0; alternative < properties.earlier.length; alternative++) {
      const before = { ...ride, alternative };
      const kept = this.replies.get(JSON.stringify(queryOf(before, ride.profile)));
      found.push(kept ?? (await this.track(before, ride.profile, signal)).reply);
    }
    return found;
  }

  // The text of the certificate of a ride's best track.
  certificate(ride, signal, waitsFor) {
    const best = { ...ride, alternative: 0 };
    waitsFor(`Certifying the best ride by ${this.profiles.titleOf(ride.profile)}`);
    return this.profiles.asked(ride.profile, ride, signal,
      (words) => this.server.certificate(pairsOf(best, ride.profile, words), signal));
  }

  costs(ride, signal, waitsFor) {
    const plain = { ...ride, alternative: 0 };
    waitsFor(`Searching from ${ride.waypoints.length} waypoints by ${this.profiles.titleOf(ride.profile)}`);
    return this.profiles.asked(ride.profile, ride, signal,
      (words) => this.server.table(pairsOf(plain, ride.profile, words), ride.waypoints.length, signal));
  }

  // The nodes within the ride's cost of each of its waypoints. The server wants two, so a lone one is asked for twice.
  async nearby(ride, signal, waitsFor) {
    const { waypoints } = ride;
    const asked = { ...ride, alternative: 0, waypoints: waypoints.length > 1 ? waypoints : [waypoints[0], waypoints[0]] };
    const from = waypoints.length > 1 ? `${waypoints.length} waypoints` : 'waypoint 1';
    waitsFor(`Searching within a cost of ${ride.cost} from ${from} by ${this.profiles.titleOf(ride.profile)}`);
    const lists = await this.profiles.asked(ride.profile, ride, signal, (words) => (
      this.server.within([...pairsOf(asked, ride.profile, words), ['cost', ride.cost]], asked.waypoints.length, signal)));
    return lists.slice(0, waypoints.length);
  }
}
