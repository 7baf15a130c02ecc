'use strict';
// What `sunwaket.node` gives, over the WebAssembly module, for Node and for browsers: the other files of the package run over either.
//
// A value is an object with the place of its handle in the module's memory. A call that traps, as where the stack of the host is used up,
// leaves that memory half written: its instance is never called again, its values are lost, and the next value is made in a new instance.

const CODES = { 1: 'GQL_REFUSED', 3: 'GQL_NO_MEMORY', 8: 'GQL_WRONG_HANDLE', 10: 'GQL_TOO_COSTLY' };
const [ANSWERED, REFUSED, NO_MEMORY, WRONG_HANDLE, TOO_COSTLY, ASKS] = [0, 1, 3, 8, 10, 11];
const LOST = 'a call failed inside the engine, and all values that were made before are lost: make them anew';

// Bytes of this many are passed in one place that each instance keeps for them.
const ROOM = 1 << 16;

function errorOf(status, reply) {
  const code = CODES[status] ?? 'GQL_UNREAD';
  const error = Object.assign(new Error(code), { code });
  if (reply !== undefined) error.reply = reply;
  return error;
}

const lost = (cause) => Object.assign(new Error(LOST, { cause }), { code: 'GQL_LOST' });

/** An instance of the module, with a place for what a call is given, and a handle for its reply. */
class Engine {
  constructor(module, { make, memoryLimit }) {
    Object.assign(this, { make, calls: new WebAssembly.Instance(module, {}).exports, isWhole: true, used: 0, far: [] });
    this.memory = this.calls.memory;
    this.view = new Uint8Array(this.memory.buffer);
    if (memoryLimit !== undefined) this.calls.js_limit(Math.min(memoryLimit, 2 ** 32 - 1));
    this.room = this.allocated(ROOM);
    this.reply = this.handle();
    this.cell = this.handle();
  }

  allocated(length) {
    const at = this.calls.js_alloc(length);
    if (at === 0) throw errorOf(NO_MEMORY);
    // The number is signed.
    return at >>> 0;
  }

  /** The memory, whose buffer is another once it has grown. */
  bytes() {
    if (this.view.length === 0) this.view = new Uint8Array(this.memory.buffer);
    return this.view;
  }

  handle() {
    const at = this.allocated(8);
    this.bytes().fill(0, at, at + 8);
    return at;
  }

  release(at) {
    if (this.isWhole) this.calls.js_dealloc(at);
  }

  /** Lets go of a handle and of what it holds. */
  free(at) {
    if (!this.isWhole) return;
    this.calls.js_free(at);
    this.calls.js_dealloc(at);
  }

  /** The place of some bytes in the memory, for one call. */
  put(bytes) {
    if (!ArrayBuffer.isView(bytes)) throw new TypeError('this is no array of bytes');
    const { length } = bytes;
    if (length === 0) return this.room;
    let at = this.room + this.used;
    if (this.used + length <= ROOM) this.used += length;
    else this.far.push((at = this.allocated(length)));
    this.bytes().set(bytes, at);
    return at;
  }

  /** What a call of the module gives, by whose end nothing that was put is kept. */
  call(call) {
    if (!this.isWhole) throw lost();
    try {
      return call(this.calls);
    } catch (error) {
      this.isWhole = false;
      throw lost(error);
    } finally {
      this.used = 0;
      if (this.far.length > 0) this.clear();
    }
  }

  clear() {
    while (this.far.length > 0) this.release(this.far.pop());
  }

  /** The bytes of the reply, which is let go. */
  take() {
    const length = this.calls.js_reply_copy(this.reply, this.room, ROOM) >>> 0;
    const made = this.make(length);
    const at = length <= ROOM ? this.room : this.copied(length);
    made.set(this.bytes().subarray(at, at + length));
    if (at !== this.room) this.release(at);
    this.drop();
    return made;
  }

  copied(length) {
    const at = this.allocated(length);
    this.calls.js_reply_copy(this.reply, at, length);
    return at;
  }

  drop() {
    if (this.isWhole) this.calls.js_free(this.reply);
  }

  /** The error for a status, with the reply where the call made one. */
  refusal(status) {
    if (status === REFUSED || status === TOO_COSTLY) return errorOf(status, this.take());
    this.drop();
    return errorOf(status);
  }

  /** The number that the last call put into the cell. */
  number() {
    return new DataView(this.memory.buffer).getUint32(this.cell, true);
  }
}

/** A value of the library: the place of its handle, and 0 once it is closed. */
class Value {
  constructor(owner, at) {
    Object.assign(this, { owner, at });
  }
}

/** The instance that a value is of. */
function ownerOf(it) {
  if (!(it instanceof Value)) throw new TypeError('this is no value of the library');
  if (!it.owner.isWhole) throw lost();
  if (it.at === 0) throw errorOf(WRONG_HANDLE);
  return it.owner;
}

/** The instance of two values that one call uses. */
function ownerOfBoth(query, data) {
  if (query === data) throw new TypeError('a value cannot be query and data at once');
  const owner = ownerOf(query);
  if (ownerOf(data) !== owner) throw errorOf(WRONG_HANDLE);
  return owner;
}

/**
 * The calls, over a compiled module. `make` gives an array for so many bytes of a reply. An instance's memory never grows beyond
 * `memoryLimit` bytes: what would need more is told as want of memory.
 */
class Library {
  constructor(module, { make = (length) => new Uint8Array(length), memoryLimit } = {}) {
    Object.assign(this, { module, options: { make, memoryLimit }, left: new FinalizationRegistry(({ owner, at }) => owner.free(at)) });
    this.engine = new Engine(module, this.options);
  }

  /** The instance that new values are made in. */
  current() {
    if (!this.engine.isWhole) this.engine = new Engine(this.module, this.options);
    return this.engine;
  }

  value(owner, at) {
    const it = new Value(owner, at);
    this.left.register(it, { owner, at }, it);
    return it;
  }

  /** What a call makes, which is given the place of the new value's handle; a refusal where it makes none. */
  made(owner, call) {
    const at = owner.handle();
    let status;
    try {
      status = owner.call((js) => call(js, at));
    } finally {
      if (status !== ANSWERED) owner.free(at);
    }
    if (status !== ANSWERED) throw owner.refusal(status);
    return this.value(owner, at);
  }

  version() {
    return this.current().call((js) => js.js_version());
  }

  newSchema(text) {
    const owner = this.current(), place = owner.put(text);
    return this.made(owner, (js, at) => js.js_schema_new(place, text.length, at, owner.reply));
  }

  newQuery(schema, text) {
    const owner = ownerOf(schema), place = owner.put(text);
    return this.made(owner, (js, at) => js.js_query_new(schema.at, place, text.length, at, owner.reply));
  }

  newData(text) {
    const owner = this.current(), place = owner.put(text);
    return this.made(owner, (js, at) => js.js_data_new(place, text.length, at));
  }

  newAnswers() {
    const owner = this.current();
    return this.value(owner, owner.handle());
  }

  share(from) {
    return this.made(ownerOf(from), (js, at) => js.js_share(from.at, at));
  }

  close(it) {
    if (it.at === 0) return;
    this.left.unregister(it);
    it.owner.free(it.at);
    it.at = 0;
  }

  execute(query, data, name, variables, flags) {
    const owner = ownerOfBoth(query, data), named = owner.put(name), given = owner.put(variables);
    const status = owner.call((js) =>
      js.js_execute(query.at, data.at, named, name.length, given, variables.length, flags, owner.reply));
    if (status !== ANSWERED) throw owner.refusal(status);
    return owner.take();
  }

  async executeAsync(...given) {
    return this.execute(...given);
  }

  step(query, answers, name, variables, flags) {
    const owner = ownerOfBoth(query, answers), named = owner.put(name), given = owner.put(variables);
    const status = owner.call((js) =>
      js.js_step(query.at, answers.at, named, name.length, given, variables.length, flags, owner.reply));
    if (status === ASKS) return new TextDecoder().decode(owner.take());
    if (status !== ANSWERED) throw owner.refusal(status);
    return owner.take();
  }

  addAnswers(answers, text) {
    const owner = ownerOf(answers), place = owner.put(text);
    const status = owner.call((js) => js.js_answers_add(answers.at, place, text.length));
    if (status !== ANSWERED) throw errorOf(status);
  }

  operationKind(query, name, flags) {
    const owner = ownerOf(query), named = owner.put(name);
    const status = owner.call((js) => js.js_operation_kind(query.at, named, name.length, flags, owner.cell));
    if (status !== ANSWERED && status !== REFUSED) throw errorOf(status);
    return owner.number();
  }

  operationCost(query, name, flags, items, nodes) {
    const owner = ownerOf(query), named = owner.put(name);
    const status = owner.call((js) =>
      js.js_operation_cost(query.at, named, name.length, flags, items, nodes, owner.cell, owner.reply));
    if (status !== ANSWERED) throw owner.refusal(status);
    return owner.number();
  }

  check(schema, query) {
    const owner = this.current(), one = owner.put(schema), other = owner.put(query);
    const status = owner.call((js) => js.js_check(one, schema.length, other, query.length, owner.reply));
    if (status !== ANSWERED && status !== REFUSED) throw owner.refusal(status);
    return owner.take();
  }

  /** How many blocks and bytes of memory the present instance has. */
  memory() {
    const { calls, memory } = this.current();
    return { blocks: calls.js_blocks(), bytes: memory.buffer.byteLength };
  }
}

const libraryOf = (module, options) => new Library(module, options);

module.exports = { libraryOf };
