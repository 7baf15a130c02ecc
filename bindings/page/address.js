'use strict';
// All that the page has, as the end of its address: compressed, so that the address of a question can be sent.

const toBytes = async (stream) => new Uint8Array(await new Response(stream).arrayBuffer());
const through = (bytes, by) => toBytes(new Blob([bytes]).stream().pipeThrough(by));

function toText(bytes) {
  let text = '';
  for (const byte of bytes) text += String.fromCharCode(byte);
  return btoa(text).replace(/\+/g, '-').replace(/\//g, '_').replace(/=+$/, '');
}

const fromText = (text) => Uint8Array.from(atob(text.replace(/-/g, '+').replace(/_/g, '/')), (it) => it.charCodeAt(0));

/** The members of an object, whose values are texts, as what stands behind the `#` of an address. */
async function toAddress(members) {
  return toText(await through(new TextEncoder().encode(JSON.stringify(members)), new CompressionStream('deflate-raw')));
}

/** The members that stand there; `null` where none do. */
async function fromAddress(hash) {
  try {
    const text = new TextDecoder().decode(await through(fromText(hash.replace(/^#/, '')), new DecompressionStream('deflate-raw')));
    return JSON.parse(text);
  } catch {
    return null;
  }
}

module.exports = { toAddress, fromAddress };
