// The variables of a profile as fields: boxes for yes and no, lists, and numbers, each with its author's text.

function boxOf(variable, value) {
  const field = document.createElement('input');
  Object.assign(field, { type: 'checkbox', checked: Number(value) !== 0 });
  return [field, () => (field.checked ? '1' : '0')];
}

function listOf({ choices }, value) {
  const field = document.createElement('select');
  const known = choices.some((choice) => Number(choice.value) === Number(value));
  const all = known ? choices : [...choices, { value, text: value }];
  field.append(...all.map((choice) => new Option(choice.text, choice.value)));
  field.value = all.find((choice) => Number(choice.value) === Number(value)).value;
  return [field, () => field.value];
}

function numberOf(variable, value) {
  const field = document.createElement('input');
  Object.assign(field, { type: 'number', step: 'any', value });
  return [field, () => field.value];
}

const MAKERS = { boolean: boxOf, list: listOf, number: numberOf };

// A labelled field; `changed` is told the new value, or null where it is the profile's own.
function labelled(variable, given, changed) {
  const { name, value, kind, text } = variable;
  const [field, read] = MAKERS[kind](variable, given ?? value);
  field.name = name;
  field.setAttribute('aria-label', name);
  field.addEventListener('change', () => {
    const told = read();
    changed(told === '' || Number(told) === Number(value) ? null : told);
  });
  const label = document.createElement('label');
  label.className = `variable ${kind}${given === undefined ? '' : ' changed'}`;
  const words = document.createElement('span');
  words.className = 'variable-name';
  words.textContent = name.replaceAll('_', ' ');
  const about = document.createElement('small');
  about.textContent = text;
  label.append(field, words, about);
  return label;
}

// Draws the fields; `changed` is told a name and a value.
export function drawFields(element, variables, values, changed) {
  element.replaceChildren(...variables.map((variable) => labelled(variable, values[variable.name], (value) => changed(variable.name, value))));
}
