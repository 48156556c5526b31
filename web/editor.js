// A text with the numbers of its lines, of which one may be marked.

export class Editor {
  constructor(text, lines, told) {
    Object.assign(this, { text, lines, told });
    this.marked = 0;
    text.addEventListener('input', () => this.mark(0, ''));
    text.addEventListener('scroll', () => { lines.scrollTop = text.scrollTop; });
  }

  set(value) {
    this.text.value = value;
    this.mark(0, '');
  }

  // Marks a line, from 1, and says why; 0 marks none.
  mark(line, words) {
    this.marked = line;
    this.told.textContent = words;
    this.text.setAttribute('aria-invalid', String(line > 0));
    const count = this.text.value.split('\n').length;
    this.lines.replaceChildren(...Array.from({ length: count }, (_, number) => {
      const made = document.createElement('span');
      made.textContent = number + 1;
      if (number + 1 === line) made.className = 'at-fault';
      return made;
    }));
    if (line > 0) this.select(line);
  }

  select(line) {
    const before = this.text.value.split('\n').slice(0, line - 1);
    const start = before.reduce((sum, each) => sum + each.length + 1, 0);
    const end = start + (this.text.value.split('\n')[line - 1] ?? '').length;
    this.text.focus({ preventScroll: true });
    this.text.setSelectionRange(start, end);
    const height = this.text.scrollHeight / this.text.value.split('\n').length;
    this.text.scrollTop = Math.max(0, (line - 0.5) * height - this.text.clientHeight / 2);
    this.text.scrollLeft = 0;
    this.text.scrollIntoView({ block: 'nearest' });
  }
}
