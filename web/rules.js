// The rules of the ride: the variables of its profile as fields, and an editor for profiles of one's own.

import { adviceOn } from './advice.js';
import { Asking } from './asking.js';
import { by, keepingFocus, tell } from './dom.js';
import { Editor } from './editor.js';
import { save } from './export.js';
import { drawFields } from './fields.js';
import { variablesOf } from './profile.js';
import { wordsOf } from './words.js';

export class Rules {
  // `changes` takes new values of variables, and a written profile to ride by.
  constructor(profiles, changes) {
    Object.assign(this, { profiles, changes, ride: null });
    this.editor = new Editor(by('text'), by('lines'), by('text-told'));
    this.asking = new Asking((words) => words && this.editor.mark(0, `${words}.`));
    by('send').addEventListener('click', () => this.send());
    by('read').addEventListener('click', () => this.read());
    by('save-profile').addEventListener('click', () => save('written.brf', 'text/plain', this.editor.text.value));
  }

  // Draws the fields of a ride's profile, unless another ride is drawn meanwhile.
  async draw(ride) {
    const { profile, values } = ride;
    this.ride = ride;
    const drawing = {};
    this.drawing = drawing;
    tell('rules-told', '');
    const text = await this.textOf(profile, 'rules-told');
    if (this.drawing !== drawing) return;
    const set = (name, value) => {
      const { [name]: _, ...others } = this.ride.values;
      this.changes.setValues(value === null ? others : { ...others, [name]: value });
    };
    keepingFocus(() => drawFields(by('variables'), variablesOf(text), values, set));
  }

  // A profile's text; where it can't be had, an empty one, and why is told.
  async textOf(profile, place) {
    if (!profile) return '';
    try {
      return await this.profiles.textOf(profile);
    } catch (error) {
      tell(place, wordsOf(error.line ?? 'page at fault').text, true);
      return '';
    }
  }

  // Marks the line that a refusal names, with what can be done about it where its text shows that.
  markRefused(refusal) {
    const { line, text } = wordsOf(refusal);
    const [, kind] = /^profile line \d+: (.+)$/.exec(refusal) ?? [];
    const advice = kind ? adviceOn(this.editor.text.value, line, kind) : '';
    this.editor.mark(line ?? 0, advice ? `Line ${line}, ${advice}` : text);
  }

  async read() {
    this.editor.set(await this.textOf(this.ride.profile, 'text-told'));
  }

  // Writes the text into a profile of its own, has the server take it, and rides by it.
  async send() {
    const profile = await this.profiles.write(this.editor.text.value);
    const { refused, ended } = await this.asking.ask((signal, waitsFor) => {
      waitsFor('Sending it');
      return this.profiles.wordsFor(profile, this.ride, signal);
    });
    if (ended) return;
    if (refused) {
      this.profiles.forget(profile);
      this.markRefused(refused.line);
      return;
    }
    this.editor.mark(0, `Taken: it is ${this.profiles.titleOf(profile)}, and the page's address holds it.`);
    this.changes.rideBy(profile);
  }
}
