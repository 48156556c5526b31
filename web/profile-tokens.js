// The tokens of a profile's text with their lines, and what each of them is.

const OPERATORS = ['or', 'and', 'xor', 'multiply', 'divide', 'add', 'sub', 'max', 'min', 'equal', 'greater', 'lesser'];

// How many operands an operator has.
export const OPERANDS = new Map([...OPERATORS.map((word) => [word, 2]), ['not', 1], ['switch', 3]]);

export const SECTIONS = new Map(['global', 'way', 'node'].map((name) => [`---context:${name}`, name]));

const WORDS = new Map([['(', 'open'], [')', 'close'], ['=', 'equals'], ['true', 'number'], ['false', 'number'],
  ...['assign', 'then', 'else', 'if'].map((word) => [word, word]),
  ...[...OPERANDS.keys()].map((word) => [word, 'operator']), ...[...SECTIONS.keys()].map((word) => [word, 'section'])]);

const GAP_OR_TOKEN = /[ \t\n\v\f\r]+|#[^\n]*|[()]|[^ \t\n\v\f\r()#]+/g;
const MOST = 1e9;

export function tokensOf(text) {
  const tokens = [];
  let line = 1;
  for (const [piece] of text.matchAll(GAP_OR_TOKEN)) {
    if (!/^[ \t\n\v\f\r#]/.test(piece)) tokens.push({ text: piece, line });
    line += piece.split('\n').length - 1;
  }
  return tokens;
}

// Whether a literal's number is within the language's range, up to its sixth decimal.
function isInRange(whole, decimals = '') {
  const size = Number(whole);
  return size < MOST || (size === MOST && /^0*$/.test(decimals.slice(0, 6)));
}

// A word of the language, `number`, `bad number`, `name`, `look` or `other`.
export function kindOf(text) {
  if (WORDS.has(text)) return WORDS.get(text);
  if (/^\d/.test(text) || /^-(?!--)/.test(text)) {
    const found = /^-?(\d+)(?:\.(\d+))?$/.exec(text);
    return found && isInRange(found[1], found[2]) ? 'number' : 'bad number';
  }
  if (/^[A-Za-z_]\w*$/.test(text)) return 'name';
  return /^[^=]+=([^|]+(\|[^|]+)*)?$/.test(text) ? 'look' : 'other';
}
