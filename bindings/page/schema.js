'use strict';
// What a schema tells of itself, as the page looks things up in it.

const TYPE = 'kind name ofType { '.repeat(8) + 'kind name' + ' }'.repeat(8);
const ARGUMENT = `name description defaultValue type { ${TYPE} }`;
const INTROSPECTION = `{ __schema { queryType { name } mutationType { name } subscriptionType { name } types { kind name description
  fields(includeDeprecated: true) { name description isDeprecated deprecationReason args { ${ARGUMENT} } type { ${TYPE} } }
  inputFields { ${ARGUMENT} } enumValues(includeDeprecated: true) { name description isDeprecated deprecationReason }
  interfaces { name } possibleTypes { name } } directives { name description locations args { ${ARGUMENT} } } } }`;

const TYPENAME = { name: '__typename', description: 'The name of the object\'s type.', args: [], type: { kind: 'SCALAR', name: 'String' } };
const META = [
  { name: '__schema', description: 'What the schema tells of itself.', args: [], type: { kind: 'OBJECT', name: '__Schema' } },
  {
    name: '__type',
    description: 'What the schema tells of the type of this name.',
    args: [{ name: 'name', defaultValue: null, type: { kind: 'NON_NULL', name: null, ofType: { kind: 'SCALAR', name: 'String' } } }],
    type: { kind: 'OBJECT', name: '__Type' },
  },
];
const COMPOSITE = new Set(['OBJECT', 'INTERFACE', 'UNION']);
const INPUT = new Set(['SCALAR', 'ENUM', 'INPUT_OBJECT']);

/** A type as it is written. */
const typeText = (type) => (type.kind === 'NON_NULL' ? `${typeText(type.ofType)}!` : type.kind === 'LIST' ? `[${typeText(type.ofType)}]` : type.name);

/** The name of the type that stands in lists and behind exclamation marks. */
const innerName = (type) => (type.ofType ? innerName(type.ofType) : type.name);

/** A type without the exclamation mark of its own. */
const nullable = (type) => (type.kind === 'NON_NULL' ? type.ofType : type);

/** A field or an argument as it is written, with what it is given. */
function signature({ name, args = [], type, defaultValue }) {
  const given = args.map((it) => `${it.name}: ${typeText(it.type)}${it.defaultValue == null ? '' : ` = ${it.defaultValue}`}`).join(', ');
  return `${name}${given && `(${given})`}${type ? `: ${typeText(type)}` : ''}${defaultValue == null ? '' : ` = ${defaultValue}`}`;
}

class SchemaModel {
  /** Of the member `__schema` of a response. */
  constructor(told) {
    this.types = new Map(told.types.map((type) => [type.name, type]));
    this.roots = { query: told.queryType?.name, mutation: told.mutationType?.name, subscription: told.subscriptionType?.name };
    this.directives = new Map((told.directives ?? []).map((it) => [it.name, it]));
  }

  type(name) {
    return this.types.get(name);
  }

  /** The type that stands in another. */
  inner(type) {
    return type && this.type(innerName(type));
  }

  /** The fields that may be selected of a type. */
  fieldsOf(type) {
    if (!type || !COMPOSITE.has(type.kind)) return [];
    return [...(type.fields ?? []), TYPENAME, ...(type.name === this.roots.query ? META : [])];
  }

  /** The types of a set of kinds, without those that introspection has. */
  ofKinds(kinds) {
    return [...this.types.values()].filter((type) => kinds.has(type.kind) && !type.name.startsWith('__'));
  }

  /** The object types that an object of this type may be of. */
  objectsOf(type) {
    return type.possibleTypes?.length ? type.possibleTypes.map((it) => it.name) : [type.name];
  }

  /** The composite types with an object in common with this one: those that a fragment there may be on. */
  fragmentsOn(type) {
    if (!type) return this.ofKinds(COMPOSITE);
    const objects = new Set(this.objectsOf(type));
    return this.ofKinds(COMPOSITE).filter((it) => this.objectsOf(it).some((name) => objects.has(name)));
  }
}

module.exports = { COMPOSITE, INPUT, INTROSPECTION, SchemaModel, innerName, nullable, signature, typeText };
