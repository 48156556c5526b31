// Small helpers for the parts of the page.

export const by = (id) => document.getElementById(id);

// Shows a text at a place of the page, or hides the place where there is none.
export function tell(id, text, isBad = false) {
  const place = by(id);
  place.textContent = text;
  place.hidden = !text;
  place.classList.toggle('bad', isBad);
}

export function button(text, label, press) {
  const made = document.createElement('button');
  made.type = 'button';
  made.textContent = text;
  made.setAttribute('aria-label', label);
  made.addEventListener('click', press);
  return made;
}

export function made(name, className, ...content) {
  const element = document.createElement(name);
  element.className = className;
  element.append(...content);
  return element;
}

// Draws a part of the page anew, and leaves the focus where it was as far as that is still there.
export function keepingFocus(draw) {
  const label = document.activeElement?.getAttribute('aria-label');
  draw();
  if (label && document.activeElement?.getAttribute('aria-label') !== label) {
    document.querySelector(`[aria-label="${CSS.escape(label)}"]`)?.focus({ preventScroll: true });
  }
}
