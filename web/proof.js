// What is proved of a cost, in three sentences, the certificate to save, and the commands by which anybody can check it.

import { Asking } from './asking.js';
import { by, tell } from './dom.js';
import { certificateOf, save } from './export.js';
import { wordsOf } from './words.js';

export const claimOf = (alternative) => (alternative ? 'proved least rank under this profile' : 'proved least under this profile');

export function proofWords({ alternative }, rank) {
  const least = alternative
    ? `Of an alternative it is the rank that is least, here ${rank}: the cost, with the distance counted twice on roads of the rides before it.`
    : 'No permitted ride from each of these waypoints to the next costs less by this profile and its values, on the map that the server '
      + 'has read.';
  return [least,
    'That is proved of the program route_serve, for all maps, profiles and requests, and a machine has checked the proof.',
    'You need not trust that this server runs it: save the certificate of the best ride, or write it by these lines, and check it without '
      + 'any search, by the program or by a small one in Python that shares nothing with it.'].join(' ');
}

export const proofCommands = (ride, start, file) => certificateOf(ride, start, file);

// The button that saves the certificate of a ride. `certificate` asks for its text.
export class Certificate {
  constructor(certificate) {
    this.certificate = certificate;
    this.asking = new Asking((words, seconds) => tell('certificate-told', words === null ? '' : `${words}: ${seconds} s.`));
    by('save-certificate').addEventListener('click', () => this.save());
  }

  // Another ride is shown: what was asked for the one before is called off.
  draw(ride) {
    this.asking.end();
    this.ride = structuredClone(ride);
    tell('certificate-told', '');
  }

  async save() {
    const { value, refused } = await this.asking.ask((signal, waitsFor) => this.certificate(this.ride, signal, waitsFor));
    if (value) save('ride.certificate', 'text/plain', value);
    if (refused) tell('certificate-told', wordsOf(refused.line).text, true);
  }
}
