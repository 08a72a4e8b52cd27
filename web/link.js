// What is in the form, as the fragment of the page's address: a fragment never leaves the browser.
'use strict';

const FRAGMENT = '#program=';
const LONGEST = 1 << 23; // characters of a form: more than its source and its input may have

async function collected(stream, most) {
  const decoder = new TextDecoder();
  let text = '';
  for (const reader = stream.getReader(); ;) {
    const { done, value } = await reader.read();
    if (done) return text + decoder.decode();
    text += decoder.decode(value, { stream: true });
    if (text.length > most) throw new Error('the link holds too much');
  }
}

// Returns the fragment of a form, whose fields are texts and lists of texts.
async function fragmentOf(form) {
  const packed = new Blob([JSON.stringify(form)]).stream().pipeThrough(new CompressionStream('deflate-raw'));
  const bytes = new Uint8Array(await new Response(packed).arrayBuffer());
  const letters = btoa(Array.from(bytes, (byte) => String.fromCharCode(byte)).join(''));
  return FRAGMENT + letters.replaceAll('+', '-').replaceAll('/', '_').replaceAll('=', '');
}

// Returns the form of a fragment, or null if it is another kind of fragment. Throws if it can't be read.
async function formOf(fragment) {
  if (!fragment.startsWith(FRAGMENT)) return null;
  const letters = fragment.slice(FRAGMENT.length).replaceAll('-', '+').replaceAll('_', '/');
  const bytes = Uint8Array.from(atob(letters), (letter) => letter.charCodeAt(0));
  const unpacked = new Blob([bytes]).stream().pipeThrough(new DecompressionStream('deflate-raw'));
  return JSON.parse(await collected(unpacked, LONGEST));
}
