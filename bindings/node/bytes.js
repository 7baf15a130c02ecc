'use strict';
// Texts as bytes of UTF-8, and back, in Node and in browsers.

const encoder = new TextEncoder();
const decoder = new TextDecoder('utf-8', { ignoreBOM: true });

// Node's buffers are made faster than its encoder encodes.
const encode = typeof Buffer === 'function' ? (text) => Buffer.from(text) : (text) => encoder.encode(text);

/** The bytes of a text; bytes are taken as they are. */
function bytesOf(text) {
  if (typeof text === 'string') return encode(text);
  if (!ArrayBuffer.isView(text)) throw new TypeError('a text is a string, or bytes');
  return text;
}

const textOf = (bytes) => decoder.decode(bytes);

module.exports = { bytesOf, textOf };
