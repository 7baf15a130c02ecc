'use strict';
// The package in Node: over `sunwaket.node` where that is and fits the machine, and elsewhere over the WebAssembly module, which runs on
// every system. The variable SUNWAKET_ENGINE, `native` or `wasm`, leaves no choice.

const fs = require('node:fs');
const path = require('node:path');
const { over } = require('./engine.js');

const native = () => over(require('./sunwaket.node'), 'native');

function wasm() {
  const { libraryOf } = require('./library.js');
  const module = new WebAssembly.Module(fs.readFileSync(path.join(__dirname, 'sunwaket.wasm')));
  return over(libraryOf(module, { make: Buffer.allocUnsafe }), 'wasm');
}

function either() {
  try {
    return native();
  } catch (lacking) {
    try {
      return wasm();
    } catch (error) {
      throw new Error(`sunwaket has neither its native library (${lacking.message}) nor its module (${error.message})`, { cause: error });
    }
  }
}

const ENGINES = { native, wasm, undefined: either };

function chosen() {
  const name = process.env.SUNWAKET_ENGINE || undefined;
  if (!Object.hasOwn(ENGINES, String(name))) throw new Error(`SUNWAKET_ENGINE is \`native\` or \`wasm\`, and not \`${name}\``);
  return ENGINES[name]();
}

module.exports = chosen();
