// One question at a time: a new one ends the one before, and it tells what it waits for until it is answered or called off.

import { Refused } from './reply.js';

export class Asking {
  // `tell` is told what is waited for and for how many seconds, or null at the end.
  constructor(tell) {
    this.tell = tell;
    this.running = null;
  }

  // Runs a job, which is given a signal and a function that takes what it waits for. Gives its value, or the refusal, or
  // `ended` where another question or the rider ended it.
  async ask(job) {
    this.end();
    const control = new AbortController();
    this.running = control;
    const wait = { words: '', since: performance.now() };
    const tick = () => this.running === control && wait.words && this.tell(wait.words, Math.round((performance.now() - wait.since) / 1000));
    const timer = setInterval(tick, 1000);
    const waitsFor = (words) => {
      wait.words = words;
      tick();
    };
    try {
      const value = await job(control.signal, waitsFor);
      return control.signal.aborted ? { ended: true } : { value };
    } catch (error) {
      if (control.signal.aborted) return { ended: true };
      if (error instanceof Refused) return { refused: error };
      console.error(error);
      return { refused: new Refused('page at fault') };
    } finally {
      clearInterval(timer);
      if (this.running === control) {
        this.running = null;
        this.tell(null);
      }
    }
  }

  end() {
    this.running?.abort();
    this.running = null;
    this.tell(null);
  }
}
