// A text packed for the page's address: deflated, then in base64url.

const MOST_BYTES = 262144;

async function through(bytes, stream, most) {
  const reader = new Blob([bytes]).stream().pipeThrough(stream).getReader();
  const parts = [];
  let size = 0;
  for (;;) {
    const { done, value } = await reader.read();
    if (done) break;
    size += value.length;
    if (size > most) {
      await reader.cancel();
      throw new RangeError('the packed text is too long');
    }
    parts.push(value);
  }
  return new Uint8Array(await new Blob(parts).arrayBuffer());
}

export async function pack(text) {
  const bytes = await through(new TextEncoder().encode(text), new CompressionStream('deflate-raw'), Infinity);
  const marks = Array.from(bytes, (byte) => String.fromCharCode(byte)).join('');
  return btoa(marks).replaceAll('+', '-').replaceAll('/', '_').replace(/=+$/, '');
}

// The text that was packed; an error where nothing was, or where it is longer than a profile may be.
export async function unpack(packed) {
  const marks = atob(packed.replaceAll('-', '+').replaceAll('_', '/'));
  const bytes = Uint8Array.from(marks, (mark) => mark.charCodeAt(0));
  return new TextDecoder('utf-8', { fatal: true }).decode(await through(bytes, new DecompressionStream('deflate-raw'), MOST_BYTES));
}
