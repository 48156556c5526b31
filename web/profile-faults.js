// Where a profile's text can't be read on: the token, and what was expected there. And the assignments before it.

import { OPERANDS, SECTIONS, kindOf, tokensOf } from './profile-tokens.js';

const MOST_DEPTH = 1000;

class Reader {
  constructor(text) {
    this.tokens = tokensOf(text);
    Object.assign(this, { place: 0, section: '', assignments: [], fault: null });
    while (!this.fault && this.place < this.tokens.length) this.readPart();
  }

  get kind() {
    return this.place < this.tokens.length ? kindOf(this.tokens[this.place].text) : 'end';
  }

  take() {
    this.place += 1;
    return this.tokens[this.place - 1];
  }

  // Ends the reading here.
  refuse(kind, expected) {
    const [before, token] = [this.place - 1, Math.min(this.place, this.tokens.length - 1)].map((place) => this.tokens[place]);
    this.fault ??= { kind, expected, token, before };
  }

  // An assignment, or the opening of a section.
  readPart() {
    const { kind } = this;
    if (kind === 'section') this.section = SECTIONS.get(this.take().text);
    else if (kind === 'assign') this.readAssignment();
    else if (kind === 'close') this.refuse('bracket', 'front');
    else if (this.tokens[this.place].text.startsWith('---')) this.refuse('section', 'front');
    else this.refuse(kind === 'bad number' ? 'number' : 'token', 'front');
  }

  readAssignment() {
    if (!this.section) {
      this.refuse('section', 'section');
      return;
    }
    this.take();
    if (this.kind !== 'name') {
      this.refuse(this.kind === 'end' ? 'end' : this.kind === 'bad number' ? 'number' : 'token', 'name');
      return;
    }
    const made = { section: this.section, name: this.take(), leaves: [] };
    this.assignments.push(made);
    if (this.kind === 'equals') this.take();
    this.readExpression(made.leaves);
  }

  // An expression. What is still expected stands on a stack, with the depth of each operand.
  readExpression(leaves) {
    const pending = [{ wanted: 'expression', depth: 1 }];
    while (pending.length && !this.fault) {
      const { wanted, depth } = pending.pop();
      if (this.kind === 'end') this.refuse('end', wanted);
      else if (wanted === 'expression') pending.push(...this.readOperand(depth, leaves).reverse());
      else if (this.kind === wanted) this.take();
      else this.refuse(wanted === 'close' ? 'bracket' : this.kind === 'bad number' ? 'number' : 'token', wanted);
    }
  }

  // What is expected behind the token that begins an operand at a depth.
  readOperand(depth, leaves) {
    const { kind } = this;
    if (kind === 'close') this.refuse('bracket', 'expression');
    else if (kind === 'bad number') this.refuse('number', 'expression');
    else if (['equals', 'then', 'else', 'assign', 'section', 'other'].includes(kind)) this.refuse('token', 'expression');
    else if (depth > MOST_DEPTH) this.refuse('deep', 'expression');
    if (this.fault) return [];
    const token = this.take();
    const operand = { wanted: 'expression', depth: depth + 1 };
    if (kind === 'name' || kind === 'look') leaves.push(token);
    if (kind === 'if') return [operand, { wanted: 'then' }, operand, { wanted: 'else' }, operand];
    if (kind === 'open') return [operand, { wanted: 'close' }];
    return Array.from({ length: OPERANDS.get(token.text) ?? 0 }, () => operand);
  }
}

// The first fault of a text, or null, and the assignments that are read before it.
export function readProfile(text) {
  const { fault, assignments } = new Reader(text);
  return { fault, assignments };
}
