// What an author can do about the line at which a server refused a profile: the token, and what is wrong with it.

import { readProfile } from './profile-faults.js';
import { OPERANDS, kindOf } from './profile-tokens.js';

const WANTED = { close: 'a )', then: 'then', else: 'else', name: 'the name of a variable', expression: 'a number, a name, a look or an operator',
  front: 'assign or a section', section: '---context:global, ---context:way or ---context:node' };
const SECTIONS = `The sections are ${WANTED.section}.`;
const NUMBERS = 'A number is written as digits with at most one point between them, from -1000000000 to 1000000000.';

const shown = (text) => (text.length <= 60 ? text : `${text.slice(0, 57)}...`);

// How many letters have to be put in, taken out or exchanged.
function distance(a, b) {
  let row = Array.from({ length: b.length + 1 }, (_, at) => at);
  for (let i = 1; i <= a.length; i += 1) {
    const next = [i];
    for (let j = 1; j <= b.length; j += 1) next.push(Math.min(row[j] + 1, next[j - 1] + 1, row[j - 1] + (a[i - 1] === b[j - 1] ? 0 : 1)));
    row = next;
  }
  return row[b.length];
}

// The nearest of some words, as a sentence; none where no word is near.
function nearest(word, words) {
  if (word.length > 40) return '';
  const near = [...new Set(words)].map((each) => [distance(word, each), each])
    .filter(([far]) => far <= Math.min(2, word.length / 3)).sort((a, b) => a[0] - b[0]);
  return near.length ? ` Did you mean ${near[0][1]}?` : '';
}

function onToken({ token, before, expected }, isFirst) {
  if (expected === 'front') {
    const near = nearest(token.text, ['assign']);
    if (near) return near.trim();
    if (isFirst) return 'An assignment begins with assign, a section with ---context:.';
    const meant = kindOf(before.text) === 'name' ? nearest(before.text, [...OPERANDS.keys(), 'if']) : '';
    return `The assignment before it is whole: take this out, or look which operator is missing there.${meant}`;
  }
  if (expected === 'then' || expected === 'else') return `${expected} is missing before this: a choice is if A then B else C, or switch A B C.`;
  if (expected === 'name') {
    return kindOf(token.text) === 'look' ? `Write the name, a space and the value apart, as in assign ${token.text.split('=')[0]} = ..`
      : 'Here the name of a variable has to stand: a letter or _ with letters, digits and _ behind it.';
  }
  if (token.text.includes('=')) return 'A look is tag=, tag=value or tag=value|value, without an empty piece.';
  if (kindOf(token.text) === 'other') return `This is neither a number, a name, a look nor an operator.${nearest(token.text, [...OPERANDS.keys()])}`;
  return `An operand is missing: before this there has to be ${WANTED.expression}.`;
}

const BY_KIND = {
  end: ({ expected }) => `The text ends inside an assignment: behind this there has to be ${WANTED[expected]}.`,
  deep: () => 'This is deeper than 1,000 operators and brackets: put a part of it into a variable of its own.',
  section: ({ expected }) => (expected === 'section' ? `No section is open: before it there has to be ${WANTED.section}.` : SECTIONS),
  bracket: ({ expected }) => ({ close: 'The bracket before it isn\'t closed: write ) before this.',
    front: 'No bracket is open: take this out.' }[expected] ?? `An operand is missing: before this there has to be ${WANTED.expression}.`),
  number: ({ expected }) => (expected === 'name' ? 'A name begins with a letter or _.' : NUMBERS),
  token: onToken,
};

// The names on a line that no assignment gave before, with their sections.
function unknownNames(assignments, line) {
  const named = (section) => assignments.filter((each) => each.section === section).map((each) => each.name.text);
  return assignments.flatMap((each, at) => {
    const known = new Set([...(each.section === 'global' ? [] : named('global')),
      ...assignments.slice(0, at).filter((other) => other.section === each.section).map((other) => other.name.text)]);
    return each.leaves.filter((leaf) => leaf.line === line && kindOf(leaf.text) === 'name' && !known.has(leaf.text))
      .map((leaf) => ({ text: leaf.text, words: [...known, ...OPERANDS.keys(), 'if', 'true', 'false'] }));
  });
}

function onLeaves(assignments, line, kind) {
  if (kind === 'unknown name') {
    const [first] = unknownNames(assignments, line);
    return first ? `${shown(first.text)}: no assignment before it, in its section or the global one, gives this name.`
      + nearest(first.text, first.words) : '';
  }
  const looks = [...new Set(assignments.flatMap((each) => each.leaves).filter((leaf) => leaf.line === line && kindOf(leaf.text) === 'look')
    .map((leaf) => shown(leaf.text)))].slice(0, 4);
  if (!looks.length) return '';
  const what = kind === 'unknown tag' ? 'tag' : 'value';
  return `${looks.join(', ')}: the server's tag table has no such ${what}. Look at its spelling, or take it out.`;
}

// A sentence on the refusal `profile line N: KIND` of a text; none where the text shows no such fault.
export function adviceOn(text, line, kind) {
  const { fault, assignments } = readProfile(text);
  if (/^unknown (name|tag|value)$/.test(kind)) return fault ? '' : onLeaves(assignments, line, kind);
  if (!fault || fault.kind !== kind || !BY_KIND[kind]) return '';
  return `${shown(fault.token.text)}: ${BY_KIND[kind](fault, !assignments.length)}`;
}
