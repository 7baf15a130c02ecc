'use strict';
// What may be typed at a place, and what a name there means.

const { COMPOSITE, INPUT, innerName, nullable, signature, typeText } = require('./schema.js');
const { expectedAt, readDocument } = require('./reader.js');
const { tokensOf } = require('./lexer.js');

const DEFINITIONS = ['query', 'mutation', 'subscription', 'fragment'];
const SCHEMA_WORDS = ['type', 'interface', 'union', 'enum', 'input', 'scalar', 'directive', 'schema', 'extend', 'implements', 'on'];
const BUILT_IN = ['Int', 'Float', 'String', 'Boolean', 'ID'];

const ofField = (field) => ({ label: field.name, detail: field.type ? typeText(field.type) : '', about: about(field), isDeprecated: field.isDeprecated });
const ofType = (type) => ({ label: type.name, detail: type.kind.toLowerCase().replace('_', ' '), about: type.description ?? '' });
const ofWord = (label) => ({ label, detail: '', about: '' });

/** The description of a part of a schema, with why it is deprecated. */
function about(part) {
  return [part?.description, part?.isDeprecated && `Deprecated: ${part.deprecationReason ?? ''}`].filter(Boolean).join(' ');
}

/** Whether a variable of that type, as it is written, may stand at this one: their names and their lists are alike. */
const fits = (written, type) => !type || written.replace(/[!\s]/g, '') === typeText(type).replace(/!/g, '');

function values(schema, type, variables) {
  const named = type && schema.inner(nullable(type));
  const found = (named?.enumValues ?? []).map((it) => ({ label: it.name, detail: named.name, about: about(it), isDeprecated: it.isDeprecated }));
  if (named?.name === 'Boolean') found.push(ofWord('true'), ofWord('false'));
  if (type && type.kind !== 'NON_NULL') found.push(ofWord('null'));
  return [...variablesFor(type, variables).map((it) => ({ ...it, label: `$${it.label}` })), ...found];
}

function variablesFor(type, variables) {
  const all = [...variables].map(([name, { written }]) => ({ label: name, detail: written, about: '' }));
  return all.filter((it) => fits(it.detail, type));
}

/** The suggestions where that is expected. */
function suggestions(schema, here, { variables, fragments }) {
  switch (here.kind) {
    case 'definition':
      return DEFINITIONS.map(ofWord);
    case 'on':
      return [ofWord('on')];
    case 'selection':
      return schema.fieldsOf(here.type).map(ofField);
    case 'spread': {
      const fitting = new Set(schema.fragmentsOn(here.type));
      const named = [...fragments].filter(([, type]) => !type || fitting.has(type));
      return [ofWord('on'), ...named.map(([label, type]) => ({ label, detail: type?.name ?? '', about: 'A fragment of this document.' }))];
    }
    case 'condition':
      return schema.fragmentsOn(here.type).map(ofType);
    case 'inputType':
      return schema.ofKinds(INPUT).map(ofType);
    case 'argument':
      return (here.args ?? []).map(ofField);
    case 'value':
      return values(schema, here.type, variables);
    case 'variable':
      return variablesFor(here.type, variables);
    case 'directive':
      return [...schema.directives.values()].filter((it) => it.locations.includes(here.location)).map((it) => ({ label: it.name, detail: '', about: it.description ?? '' }));
    default:
      return [];
  }
}

/** Those that the typed part begins, then those that have it inside; `null` where nothing is left to be typed. */
function matching(found, typed) {
  const part = typed.toLowerCase();
  if (found.some((it) => it.label === typed)) return null;
  const begins = found.filter((it) => it.label.toLowerCase().startsWith(part));
  const rest = found.filter((it) => !begins.includes(it) && it.label.toLowerCase().includes(part));
  const all = [...begins, ...rest];
  return all.length > 0 ? all : null;
}

/** What may be typed in a query at that place: from where to where it would stand, and the suggestions. `null` where there are none. */
function completeQuery(schema, text, place) {
  if (!schema) return null;
  const tokens = tokensOf(text, 'graphql');
  const expected = expectedAt(schema, tokens, place);
  if (!expected) return null;
  const { fragments } = readDocument(schema, tokens);
  const items = matching(suggestions(schema, expected.here, { variables: expected.variables, fragments }), text.slice(expected.start, place));
  return items && { start: expected.start, end: expected.end, items, isSure: expected.here.kind !== 'definition' };
}

/** The same in a schema: names of types where a type may stand, and the words of definitions elsewhere. */
function completeSchema(schema, text, place) {
  const tokens = tokensOf(text, 'graphql');
  const inside = tokens.find((it) => it.start < place && place <= it.end);
  if (inside && !['name', 'sign'].includes(inside.kind)) return null;
  const isTyping = inside?.kind === 'name';
  const start = isTyping ? inside.start : place;
  const before = tokens.filter((it) => it.end <= start && it.kind !== 'comment').at(-1);
  const isType = [':', '[', '|', '&'].includes(before?.text) || before?.text === 'implements' || (before?.text === '=' && /\bunion\s+\w+[^{]*=\s*\w*$/.test(text.slice(0, place)));
  const known = isType ? new Set([...BUILT_IN, ...tokens.filter((it, at) => /^(type|interface|union|enum|input|scalar)$/.test(tokens[at - 1]?.text)).map((it) => it.text)]) : [];
  const found = isType ? [...known].map((name) => (schema?.type(name) ? ofType(schema.type(name)) : ofWord(name))) : SCHEMA_WORDS.map(ofWord);
  if (!isType && !isTyping) return null;
  const items = matching(found, text.slice(start, place));
  return items && { start, end: isTyping ? inside.end : place, items, isSure: isType };
}

/** What a name of a query means, as a line and a description; `null` where nothing is known. */
function describe(note) {
  switch (note?.kind) {
    case 'field':
      return note.field ? { line: `${note.type.name}.${signature(note.field)}`, about: about(note.field) } : null;
    case 'argument':
      return note.argument ? { line: signature(note.argument), about: about(note.argument) } : null;
    case 'type':
      return note.type ? { line: `${note.type.kind.toLowerCase().replace('_', ' ')} ${note.type.name}`, about: about(note.type) } : null;
    case 'enum':
      return { line: `${note.type.name}.${note.value.name}`, about: about(note.value) };
    case 'directive':
      return note.directive ? { line: `@${signature(note.directive)}`, about: about(note.directive) } : null;
    case 'variable':
      return note.written ? { line: `$${note.name}: ${note.written}`, about: '' } : null;
    default:
      return null;
  }
}

/** What a name of a schema's text means. */
function describeType(schema, name) {
  const type = schema?.type(name);
  return type ? { line: `${type.kind.toLowerCase().replace('_', ' ')} ${type.name}`, about: about(type) } : null;
}

/** What may be typed in the variables at that place: the names of the operation's variables, and of the members of input objects. */
function completeVariables(schema, variables, text, place) {
  const tokens = tokensOf(text, 'json');
  const inside = tokens.find((it) => it.start < place && place <= it.end && it.kind === 'string');
  const start = inside ? inside.start : place;
  const path = membersAt(tokens.filter((it) => it.end <= start));
  if (!path) return null;
  let members = [...variables].map(([name, { type, written }]) => ({ name, type, written }));
  for (const name of path) {
    const type = members.find((it) => it.name === name)?.type;
    members = (type && schema?.inner(type)?.inputFields) ?? [];
  }
  const found = members.map((it) => ({ label: `"${it.name}"`, detail: it.written ?? typeText(it.type), about: about(it) }));
  const items = matching(found, inside ? text.slice(start, place).replace(/([^"])"$/, '$1') : '');
  return items && { start, end: inside ? inside.end : place, items, isSure: true };
}

/** The names of the members within which a member's name is expected behind these tokens; `null` where none is. */
function membersAt(tokens) {
  const path = [];
  let name = null;
  for (const [at, { text, kind }] of tokens.entries()) {
    if (text === '{' || text === '[') path.push({ text, name });
    else if (text === '}' || text === ']') path.pop();
    name = kind === 'string' && tokens[at + 1]?.text === ':' ? text.slice(1, -1) : ['{', '['].includes(text) ? null : text === ':' ? name : null;
  }
  const last = tokens.at(-1)?.text;
  if (path.at(-1)?.text !== '{' || (last !== '{' && last !== ',')) return null;
  return path.slice(1).map((it) => it.name).filter((it) => it !== null);
}

module.exports = { completeQuery, completeSchema, completeVariables, describe, describeType, innerName, COMPOSITE };
