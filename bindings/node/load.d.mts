import type * as sunwaket from './index.js';

/** Where the module is: its address, the answer to a request for it, its bytes, or the module itself, compiled. */
export type Source = string | URL | Response | PromiseLike<Response> | BufferSource | WebAssembly.Module;

export interface LoadOptions {
  /** The most bytes of memory that an instance of the module may have; what would need more is told as want of memory. */
  memoryLimit?: number;
}

/**
 * What the package exports, over the WebAssembly module from there: from beside this file unless told. A page has one: a second call gives
 * the first one's, unless that failed.
 *
 * ```js
 * import { load } from 'sunwaket/load';
 * const { Schema } = await load('/static/sunwaket.wasm', { memoryLimit: 256 << 20 });
 * ```
 */
export function load(source?: Source, options?: LoadOptions): Promise<typeof sunwaket>;
