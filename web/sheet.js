// The panel of a narrow screen as a sheet of three sizes, by a button that can be drawn up and down too.

const SIZES = ['low', 'half', 'high'];
const NAMES = { low: 'small', half: 'half the screen', high: 'the whole screen' };

export class Sheet {
  constructor(handle) {
    this.handle = handle;
    this.set('half');
    handle.addEventListener('click', () => {
      if (!this.moved) this.set(SIZES[(SIZES.indexOf(this.size) + 1) % SIZES.length]);
      this.moved = false;
    });
    handle.addEventListener('pointerdown', (event) => this.hold(event));
  }

  set(size) {
    this.size = size;
    for (const each of SIZES) document.body.classList.toggle(`sheet-${each}`, each === size);
    this.handle.setAttribute('aria-label', `Size of the panel: ${NAMES[size]}`);
  }

  // The size whose edge is nearest to where the handle is let go.
  hold(down) {
    this.handle.setPointerCapture(down.pointerId);
    const end = (event) => {
      for (const name of ['pointerup', 'pointercancel']) this.handle.removeEventListener(name, end);
      this.moved = Math.abs(event.clientY - down.clientY) > 20;
      const part = 1 - event.clientY / window.innerHeight;
      if (this.moved) this.set(part < 0.3 ? 'low' : part < 0.75 ? 'half' : 'high');
    };
    for (const name of ['pointerup', 'pointercancel']) this.handle.addEventListener(name, end);
  }
}
