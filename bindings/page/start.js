'use strict';
// The engine that the page holds.

/** The bytes of a reply, whose text `toString` gives. */
class Reply extends Uint8Array {
  toString() {
    return new TextDecoder().decode(this);
  }
}

/** What the package exports, over the module in the page; `null` where the page was made without one. */
async function startEngine() {
  const packed = document.getElementById('engine').textContent.trim();
  if (packed === '') return null;
  const bytes = Uint8Array.from(atob(packed), (it) => it.charCodeAt(0));
  const unpacked = new Response(new Blob([bytes]).stream().pipeThrough(new DecompressionStream('gzip')));
  const module = await WebAssembly.compile(await unpacked.arrayBuffer());
  const { libraryOf } = require('./library.js');
  return require('./engine.js').over(libraryOf(module, { make: (length) => new Reply(length), memoryLimit: 1 << 30 }), 'wasm');
}

module.exports = { startEngine };
