// The package where there is no Node, over the WebAssembly module. bindings/build puts the other files of the package in here.
{bundle}
/** The bytes of a reply, whose text `toString` gives, as that of a buffer in Node does. */
class Reply extends Uint8Array {
  toString() {
    return new TextDecoder().decode(this);
  }
}

const isAddress = (source) => typeof source === 'string' || source instanceof URL;

/** The compiled module of an address, of an answer to a request, or of bytes; a module that is compiled is taken as it is. */
async function compiled(source) {
  if (source instanceof WebAssembly.Module) return source;
  const given = isAddress(source) ? await fetch(source) : await source;
  if (!(given instanceof Response)) return WebAssembly.compile(given);
  if (!given.ok) throw new Error(`the module is not there: ${given.status} ${given.url}`);
  return WebAssembly.compile(await given.arrayBuffer());
}

async function make(source, memoryLimit) {
  const { libraryOf } = required('./library.js');
  return required('./engine.js').over(libraryOf(await compiled(source), { make: (length) => new Reply(length), memoryLimit }), 'wasm');
}

let loaded;

/** What the package exports, over the module from there. A page has one: a second call gives the first one's, unless that failed. */
export function load(source = new URL('./sunwaket.wasm', import.meta.url), { memoryLimit } = {}) {
  loaded ??= make(source, memoryLimit).catch((error) => {
    loaded = undefined;
    throw error;
  });
  return loaded;
}
