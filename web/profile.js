// What the page reads of a profile's text: the variables of its global section that have a number, with what their author says of them.

// A section that is opened, or a name with a literal behind it, which is then the whole of its expression.
const OPENED_OR_ASSIGNED = /---context:(\w+)|(?<!\S)assign\s+([A-Za-z_]\w*)\s+(?:=\s+)?(-?\d+(?:\.\d*)?|true|false)(?!\S)/g;
const EXPLAINED = /^\s*%\w*%\s*(?:\|([^|]*)(?:\|(.*))?)?$/;

const numberOf = (text) => (text === 'true' ? '1' : text === 'false' ? '0' : text);
const isNumber = (text) => /^-?\d+(\.\d+)?$/.test(text);

// A choice of a list: a value, or a value and its text on either side of an equals sign.
function choiceOf(item) {
  const [left, right] = item.split('=').map((part) => part.trim());
  if (isNumber(left)) return { value: left, text: right || left };
  return isNumber(right ?? '') ? { value: right, text: left } : null;
}

function listOf(type) {
  if (!/^\[.*\]$/.test(type)) return [];
  const choices = type.slice(1, -1).split(',').map(choiceOf);
  return choices.every(Boolean) ? choices : [];
}

function kindOf(type, value, choices) {
  if (choices.length) return 'list';
  if (type === 'boolean' || type === 'number') return type;
  return value === 'true' || value === 'false' ? 'boolean' : 'number';
}

// A variable with what the comment behind it says: `%name% | text | type` tells text and kind, and any other comment is the text.
function variableOf(name, value, comment) {
  const [isExplained, text = '', type = ''] = EXPLAINED.exec(comment) ?? [];
  const choices = listOf(type.trim());
  return { name, value: numberOf(value), kind: kindOf(type.trim(), value, choices), choices,
    text: (isExplained === undefined ? comment : text).trim() };
}

// The variables in their order. One that is reckoned from others isn't among them, and of one name the last counts.
export function variablesOf(text) {
  const found = new Map();
  let section = '';
  for (const line of text.split(/\r?\n/)) {
    const [, code, comment = ''] = /^([^#]*)(?:#(.*))?$/.exec(line);
    for (const [, opened, name, value] of code.matchAll(OPENED_OR_ASSIGNED)) {
      if (opened) section = opened;
      else if (section === 'global') found.set(name, variableOf(name, value, comment));
    }
  }
  return [...found.values()];
}
