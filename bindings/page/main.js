'use strict';
// The page: four texts and an answer. With a server behind it the schema and the data are the server's.

const { fromAddress, toAddress } = require('./address.js');
const { completeQuery, completeSchema, completeVariables, describe, describeType } = require('./completion.js');
const { showSchema, showTypes } = require('./docs.js');
const { at, later, made } = require('./dom.js');
const { Editor } = require('./editor.js');
const { EXAMPLES } = require('./examples.js');
const { faultOfObject, spanAt } = require('./faults.js');
const { format } = require('./format.js');
const { kept, remember, showHistory } = require('./history.js');
const { tokensOf } = require('./lexer.js');
const { painted } = require('./paint.js');
const { readDocument } = require('./reader.js');
const { sampleData } = require('./sample.js');
const { ask, askModel, askSchema, askStatus } = require('./server.js');
const { startEngine } = require('./start.js');
const { Workspace } = require('./workspace.js');

const HAS_SERVER = 'server' in document.documentElement.dataset;
const PAUSE = 120;
const PANES = { schema: 'Schema', query: 'Query', variables: 'Variables', data: 'Data' };

// What the engine in the page says; null where the page has none. With a server, `schemaText` is the server's.
let workspace = null, model = null, schemaText = '';
// What is known of the query: its operations, variables and fragments.
let document_ = readDocument(null, []);

const editors = {
  schema: new Editor(at('schema-text'), {
    language: 'graphql',
    onEdit: () => edited(),
    complete: (text, place) => completeSchema(model, text, place),
    describe: (token) => (token?.kind === 'name' ? describeType(model, token.text) : null),
  }),
  query: new Editor(at('query'), {
    language: 'graphql',
    onEdit: () => edited(),
    onCaret: () => chooseOperation(),
    notes: (tokens) => readQuery(tokens),
    complete: (text, place) => completeQuery(model, text, place),
    describe: (token, notes) => (token ? describe(notes.get(token.start)) : null),
  }),
  variables: new Editor(at('variables'), {
    language: 'json',
    onEdit: () => edited(),
    complete: (text, place) => completeVariables(model, document_.variables, text, place),
  }),
  data: new Editor(at('data'), { language: 'json', onEdit: () => edited() }),
  headers: new Editor(at('headers'), { language: 'json', onEdit: () => markHeaders() }),
};

// ---- the texts

function texts() {
  const { query, variables } = editors;
  const shared = { query: query.text, variables: variables.text, operation: at('operation').value };
  return HAS_SERVER ? { schema: schemaText, ...shared } : { schema: editors.schema.text, data: editors.data.text, items: items(), ...shared };
}

function items() {
  const { valueAsNumber } = at('items');
  return Number.isInteger(valueAsNumber) && valueAsNumber >= 0 && valueAsNumber < 2 ** 32 ? valueAsNumber : undefined;
}

function setTexts(given) {
  for (const name of Object.keys(PANES)) if (given[name] !== undefined) editors[name].text = given[name];
  if (given.operation) chooseNamed(given.operation);
}

/** Chooses an operation, and puts the caret there. */
function chooseNamed(name) {
  at('operation').value = name;
  const operation = document_.operations.find((it) => it.name === name);
  if (operation) editors.query.area.setSelectionRange(operation.start, operation.start);
}

function readQuery(tokens) {
  document_ = readDocument(model, tokens);
  showOperations();
  return document_.notes;
}

const check = later(() => (HAS_SERVER ? checkQuery() : answer()), PAUSE);

function edited() {
  check();
  keepAddress();
}

const keepAddress = later(async () => {
  const { query, variables, operation, schema, data } = texts();
  const address = HAS_SERVER ? `?${new URLSearchParams({ query, variables })}` : `#${await toAddress({ schema, query, variables, data, operation })}`;
  history.replaceState(null, '', address);
}, 2 * PAUSE);

// ---- operations

function showOperations() {
  const names = document_.operations.map((it) => it.name).filter(Boolean);
  const chosen = at('operation').value;
  at('operation').replaceChildren(...names.map((name) => new Option(name, name, false, name === chosen)));
  at('operation').parentElement.hidden = document_.operations.length < 2;
  if (document_.operations.length < 2) at('operation').replaceChildren();
}

/** Where there are several operations, the one that the caret stands in is run. */
function chooseOperation() {
  if (!editors || document_.operations.length < 2) return;
  const { caret } = editors.query;
  const here = document_.operations.findLast((it) => it.start <= caret && caret <= it.end);
  if (!here?.name || at('operation').value === here.name) return;
  at('operation').value = here.name;
  check();
}

// ---- what is found

function mark(findings) {
  for (const name of Object.keys(PANES)) if (name !== 'schema' || !HAS_SERVER) editors[name].mark(findings[name]);
}

function showErrors(findings) {
  at('errors').replaceChildren();
  for (const { message } of findings.elsewhere) made(made(at('errors'), 'li'), 'button', message);
  for (const [name, label] of Object.entries(PANES)) for (const fault of findings[name]) showFault(name, label, fault);
}

function showFault(name, label, { start, end, message, place }) {
  const button = made(made(at('errors'), 'li'), 'button', message);
  made(button, 'small', `  ${label}${place ? ` ${place}` : ''}`);
  button.onclick = () => {
    if (name === 'schema') showTab('text-tab');
    editors[name].select(start, end);
  };
}

function showResponse(text) {
  const shown = text === null ? '' : format(text, 'json');
  at('response').innerHTML = painted(shown, 'json', tokensOf(shown, 'json'));
}

function showModel(found) {
  if (found === model && at('schema').childElementCount > 0) return;
  model = found;
  showSchema(model);
  editors.query.paint();
}

// ---- answers of the engine in the page

function answer() {
  if (!workspace) return;
  const start = performance.now();
  const findings = workspace.look(texts());
  const took = performance.now() - start;
  showModel(workspace.model);
  mark(findings);
  showErrors(findings);
  showResponse(findings.response);
  at('cost').textContent = findings.cost === null ? '?' : `${findings.cost} ${findings.cost === 1 ? 'node' : 'nodes'}`;
  const count = Object.keys(PANES).reduce((sum, name) => sum + findings[name].length, findings.elsewhere.length);
  at('status').textContent = count === 0 ? `right, ${took.toFixed(1)} ms` : `${count} wrong`;
}

async function makeSample() {
  answer();
  if (!workspace?.query) {
    at('status').textContent = 'Sample data needs a right schema and query';
    return;
  }
  const { operation, variables } = texts();
  try {
    const options = { operationName: operation || undefined, variables: variables.trim() || undefined };
    editors.data.text = `${JSON.stringify(await sampleData(model, workspace.query, options), null, 2)}\n`;
  } catch (error) {
    at('status').textContent = String(error.message);
  }
}

// ---- answers of a server

function checkQuery() {
  if (!workspace || schemaText === '') return;
  const findings = workspace.look(texts());
  showModel(workspace.model);
  mark(findings);
}

function headers() {
  const text = at('headers').value;
  return text.trim() ? JSON.parse(text) : {};
}

const markHeaders = () => editors.headers.mark([faultOfObject(editors.headers.text)].filter(Boolean));

async function run() {
  const { query, variables, operation } = texts();
  remember(query, variables);
  if (!HAS_SERVER) return answer();
  for (const name of ['variables', 'headers']) {
    const fault = faultOfObject(editors[name].text);
    if (!fault) continue;
    editors[name].mark([fault]);
    editors[name].select(fault.start, fault.end);
    at('status').textContent = `${name}: ${fault.message}`;
    return undefined;
  }
  at('status').textContent = '…';
  const start = performance.now();
  try {
    const { status, text } = await ask(query, variables, operation || undefined, headers());
    at('status').textContent = `${status}, ${Math.round(performance.now() - start)} ms`;
    showAnswer(query, text);
  } catch (error) {
    at('status').textContent = String(error);
  }
  return checkFiles();
}

function showAnswer(query, text) {
  showResponse(text);
  const findings = { schema: [], query: [], variables: [], data: [], elsewhere: [] };
  for (const error of errorsOf(text)) {
    const message = [error.message, error.path && `(${error.path.join('.')})`].filter(Boolean).join(' ');
    const [place] = error.locations ?? [];
    if (place) findings.query.push({ ...spanAt(query, place), message, place: `${place.line}:${place.column}` });
    else findings.elsewhere.push({ message });
  }
  mark(findings);
  showErrors(findings);
}

function errorsOf(text) {
  try {
    const { errors } = JSON.parse(text);
    return Array.isArray(errors) ? errors : [];
  } catch {
    return [];
  }
}

/** Tells what is wrong with the server's files, and takes their schema where it is another than before. */
async function checkFiles() {
  const { faults, schema } = await askStatus();
  at('fault').textContent = faults.join('\n');
  at('fault').hidden = !faults.length;
  if (schema === checkFiles.seen) return;
  checkFiles.seen = schema;
  schemaText = workspace && schema ? await askSchema() : '';
  if (schemaText) checkQuery();
  if (!schemaText || !workspace.model) showModel(await askModel(headers()));
}

// ---- what is pressed

/** Lays out all texts, that with the caret last: browsers undo the last change of a page first. */
function formatAll() {
  const focused = document.activeElement;
  const all = Object.entries(editors).filter(([, { area, text }]) => area.offsetParent !== null && text.trim() !== '');
  for (const [name, editor] of all.sort(([, one], [, other]) => (one.area === focused) - (other.area === focused))) {
    const text = format(editor.text, name === 'schema' || name === 'query' ? 'graphql' : 'json');
    const { caret } = editor;
    if (text === editor.text) continue;
    editor.insert(text, 0, editor.text.length);
    editor.area.setSelectionRange(caret, caret);
  }
  focused?.focus();
}

function showTab(id) {
  for (const tab of [at('text-tab'), at('types-tab')]) {
    const isChosen = tab.id === id;
    tab.setAttribute('aria-selected', String(isChosen));
    tab.tabIndex = isChosen ? 0 : -1;
    at(tab.getAttribute('aria-controls')).hidden = !isChosen;
  }
}

async function share() {
  const { query, variables, operation, schema, data } = texts();
  const end = HAS_SERVER ? `?${new URLSearchParams({ query, variables })}` : `#${await toAddress({ schema, query, variables, data, operation })}`;
  history.replaceState(null, '', end);
  try {
    await navigator.clipboard.writeText(location.href);
    at('status').textContent = 'The address is copied';
  } catch {
    at('status').textContent = 'The address has all of it';
  }
}

function changeTheme() {
  const root = document.documentElement;
  const isDark = (root.dataset.theme || (matchMedia('(prefers-color-scheme: dark)').matches ? 'dark' : 'light')) === 'dark';
  root.dataset.theme = isDark ? 'light' : 'dark';
}

function pressed(event) {
  if (!event.ctrlKey && !event.metaKey) {
    if (event.key === 'Escape') editors.query.area.focus();
    return;
  }
  const key = event.key.toLowerCase();
  const calls = { enter: run, k: search, f: event.shiftKey ? formatAll : undefined };
  if (!calls[key]) return;
  event.preventDefault();
  calls[key]();
}

function search() {
  showTab('types-tab');
  at('search').focus();
}

function listen() {
  at('run').onclick = run;
  at('format').onclick = formatAll;
  at('share').onclick = share;
  at('sample').onclick = makeSample;
  at('theme').onclick = changeTheme;
  at('search').oninput = showTypes;
  at('items').oninput = check;
  at('operation').onchange = () => {
    chooseNamed(at('operation').value);
    check();
  };
  at('example').onchange = () => setTexts(EXAMPLES[at('example').value]);
  at('history').onchange = () => {
    const entry = kept()[at('history').value];
    at('history').value = '';
    if (!entry) return;
    setTexts(entry);
    editors.query.area.focus();
  };
  for (const tab of [at('text-tab'), at('types-tab')]) {
    tab.onclick = () => showTab(tab.id);
    tab.onkeydown = (event) => {
      if (event.key !== 'ArrowLeft' && event.key !== 'ArrowRight') return;
      const other = tab.id === 'text-tab' ? 'types-tab' : 'text-tab';
      showTab(other);
      at(other).focus();
    };
  }
  addEventListener('keydown', pressed);
  addEventListener('hashchange', async () => setTexts((await fromAddress(location.hash)) ?? {}));
  if (HAS_SERVER) addEventListener('focus', checkFiles);
}

/** What the page begins with: what its address has, else an example. */
async function begin() {
  const asked = new URLSearchParams(location.search);
  const found = location.hash.length > 1 ? await fromAddress(location.hash) : null;
  const first = HAS_SERVER ? { query: '{ __typename }\n', variables: '' } : EXAMPLES[0];
  const inAddress = asked.has('query') ? { query: asked.get('query'), variables: asked.get('variables') ?? '' } : {};
  setTexts({ ...first, ...inAddress, ...found });
  return asked.has('query');
}

async function start() {
  at('example').replaceChildren(...EXAMPLES.map(({ name }, number) => new Option(name, number)));
  listen();
  showHistory();
  if (HAS_SERVER) showTab('types-tab');
  const isAsked = await begin();
  const sunwaket = await startEngine();
  if (sunwaket) workspace = new Workspace(sunwaket);
  if (HAS_SERVER) {
    await checkFiles();
    if (isAsked) await run();
  } else if (workspace) answer();
  else {
    at('fault').textContent = 'This page was made without the engine.';
    at('fault').hidden = false;
  }
  document.documentElement.dataset.ready = '';
}

start();
