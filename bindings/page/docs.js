'use strict';
// The types of a schema, to look through and to search in.

const { at, made } = require('./dom.js');
const { innerName, typeText } = require('./schema.js');

let types = [];

/** Shows the types of a schema; none where it is null. */
function showSchema(schema) {
  const roots = schema ? Object.values(schema.roots) : [];
  const rank = (type) => (roots.includes(type.name) ? roots.indexOf(type.name) : roots.length);
  types = schema ? [...schema.types.values()].filter((type) => !type.name.startsWith('__')).sort((one, other) => rank(one) - rank(other)) : [];
  showTypes();
}

function showTypes() {
  const wanted = at('search').value.trim().toLowerCase();
  at('schema').replaceChildren();
  for (const type of types) {
    const parts = type.fields || type.inputFields || type.enumValues || [];
    const found = parts.filter((part) => part.name.toLowerCase().includes(wanted));
    const isNamed = type.name.toLowerCase().includes(wanted);
    if (wanted && !isNamed && !found.length) continue;
    showType(type, wanted && !isNamed ? found : parts, wanted ? true : type === types[0]);
  }
  if (!types.length) made(at('schema'), 'p', 'Introspection is off.', 'note');
  else if (!at('schema').children.length) made(at('schema'), 'p', 'Nothing has this in its name.', 'note');
}

function showType(type, parts, isOpen) {
  const box = made(at('schema'), 'details');
  box.open = isOpen;
  box.dataset.type = type.name;
  made(made(box, 'summary', `${type.name} `), 'small', type.kind.toLowerCase().replace('_', ' '));
  if (type.description) made(box, 'p', type.description, 'note');
  if (type.interfaces?.length) links(made(box, 'p', 'implements ', 'note'), type.interfaces.map((it) => it.name));
  if (type.possibleTypes?.length) links(made(box, 'p', 'is one of ', 'note'), type.possibleTypes.map((it) => it.name));
  const list = made(box, 'ul');
  for (const part of parts) showPart(made(list, 'li', undefined, part.isDeprecated ? 'deprecated' : ''), part);
}

function showPart(item, part) {
  const code = made(item, 'code', part.name);
  for (const [number, argument] of (part.args || []).entries()) {
    code.append((number ? ', ' : '(') + argument.name + ': ');
    link(code, argument.type);
    if (argument.defaultValue !== null) code.append(` = ${argument.defaultValue}`);
  }
  if (part.args?.length) code.append(')');
  if (part.type) {
    code.append(': ');
    link(code, part.type);
  }
  if (part.defaultValue) code.append(` = ${part.defaultValue}`);
  const note = [part.description, part.isDeprecated && `Deprecated: ${part.deprecationReason ?? ''}`].filter(Boolean).join(' ');
  if (note) made(item, 'p', note, 'note');
}

function link(parent, type) {
  const [before, after] = typeText(type).split(innerName(type));
  parent.append(before);
  made(parent, 'button', innerName(type)).onclick = () => openType(innerName(type));
  parent.append(after);
}

function links(parent, names) {
  for (const [number, name] of names.entries()) {
    if (number) parent.append(', ');
    made(made(parent, 'code'), 'button', name).onclick = () => openType(name);
  }
}

function openType(name) {
  at('search').value = '';
  showTypes();
  const box = [...at('schema').children].find((it) => it.dataset.type === name);
  if (!box) return;
  box.open = true;
  box.scrollIntoView({ block: 'nearest' });
  box.querySelector('summary').focus();
}

module.exports = { showSchema, showTypes };
