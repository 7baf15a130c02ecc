'use strict';
// The queries that were run last, which the browser keeps.

const { at } = require('./dom.js');

const KEY = 'sunwaket.history';
const MOST = 50;

function kept() {
  try {
    return JSON.parse(localStorage.getItem(KEY)) || [];
  } catch {
    return [];
  }
}

function remember(query, variables) {
  if (query.trim() === '') return;
  const others = kept().filter((it) => it.query !== query || it.variables !== variables);
  try {
    localStorage.setItem(KEY, JSON.stringify([{ query, variables }, ...others].slice(0, MOST)));
  } catch {
    // A browser may keep nothing.
  }
  showHistory();
}

function showHistory() {
  const line = (entry) => entry.query.replace(/\s+/g, ' ').trim().slice(0, 60);
  at('history').replaceChildren(new Option('earlier queries', ''), ...kept().map((entry, number) => new Option(line(entry), number)));
}

module.exports = { kept, remember, showHistory };
