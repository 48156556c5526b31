// The profiles: those that settings.json names, and those written on the page, which their packed text names.

import { pack, unpack } from './packing.js';
import { Refused } from './reply.js';
import { isWritten, WRITTEN } from './ride.js';

const SENT = 'sent profiles';

const beginsWithSection = (text) => /^---context:(global|way|node)(\s|$)/.test(text.replace(/#.*/g, '').trimStart());

// What this window sent, which spares a place at the server when the page is loaded again.
function rememberedSent() {
  try {
    return new Map(JSON.parse(sessionStorage.getItem(SENT) ?? '[]'));
  } catch {
    return new Map();
  }
}

function rememberSent(sent) {
  try {
    sessionStorage.setItem(SENT, JSON.stringify([...sent]));
  } catch {
    // A browser that keeps nothing sends again.
  }
}

function newMark() {
  return `page_${Array.from(crypto.getRandomValues(new Uint32Array(3)), (part) => part.toString(36)).join('_')}`;
}

// The text that is sent. It assigns a name of its own, by which a later ride shows that the server still has this very text: one that
// was started anew gives the same name to another's. A text that begins with no section is refused as it stands.
function markedText(text, mark) {
  return beginsWithSection(text) ? `---context:global assign ${mark} 0 ${text}` : text;
}

export class Profiles {
  constructor(files, server) {
    Object.assign(this, { files, server });
    this.texts = new Map();
    this.written = [];
    this.sent = rememberedSent();
  }

  names() {
    return [...Object.keys(this.files), ...this.written];
  }

  titleOf(profile) {
    return isWritten(profile) ? `written ${this.written.indexOf(profile) + 1}` : profile;
  }

  fileOf(profile) {
    return isWritten(profile) ? `written_${this.written.indexOf(profile) + 1}` : profile;
  }

  // The text of a profile; empty where no file has it.
  async textOf(profile) {
    if (this.texts.has(profile)) return this.texts.get(profile);
    const text = isWritten(profile) ? await this.unpacked(profile) : await this.fetched(profile);
    this.texts.set(profile, text);
    return text;
  }

  async unpacked(profile) {
    try {
      return await unpack(profile.slice(WRITTEN.length));
    } catch {
      throw new Refused('packed profile broken');
    }
  }

  async fetched(profile) {
    if (!Object.hasOwn(this.files, profile)) return '';
    let answer;
    try {
      answer = await fetch(this.files[profile]);
    } catch {
      throw new Refused('no profile file');
    }
    if (!answer.ok) throw new Refused('no profile file');
    return answer.text();
  }

  // Takes notice of a written profile that a ride names.
  meet(profile) {
    if (profile && isWritten(profile) && !this.written.includes(profile)) this.written.push(profile);
  }

  async write(text) {
    const profile = WRITTEN + await pack(text);
    this.texts.set(profile, text);
    this.meet(profile);
    return profile;
  }

  // Takes a refused text out of the choices.
  forget(profile) {
    this.written = this.written.filter((each) => each !== profile);
  }

  // The name and the pairs by which the server is asked for a ride by a profile; a written one is sent first where it wasn't yet.
  async wordsFor(profile, ride, signal) {
    if (!isWritten(profile)) return { name: profile, pairs: [] };
    if (!this.sent.has(profile)) {
      const mark = newMark();
      const text = await this.textOf(profile);
      this.keep(profile, { name: await this.server.send(markedText(text, mark), ride, signal), mark });
    }
    const { name, mark } = this.sent.get(profile);
    return { name, pairs: [[`profile:${mark}`, '0']] };
  }

  keep(profile, sent) {
    if (sent) this.sent.set(profile, sent);
    else this.sent.delete(profile);
    rememberSent(this.sent);
  }

  // Whether a refusal says that the server has a written profile no more, or another one under its name.
  isLost(profile, refused) {
    return isWritten(profile) && (refused.line === 'profile unknown' || refused.line === 'override 0: unknown name');
  }

  // Answers a question on a ride by a profile: `ask` is given its name and pairs. A written one that is lost is sent again, once.
  async asked(profile, ride, signal, ask) {
    try {
      return await ask(await this.wordsFor(profile, ride, signal));
    } catch (error) {
      if (!(error instanceof Refused) || !this.isLost(profile, error)) throw error;
      this.keep(profile, null);
      return ask(await this.wordsFor(profile, ride, signal));
    }
  }
}
