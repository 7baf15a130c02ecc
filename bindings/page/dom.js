'use strict';
// The page's elements.

const at = (id) => document.getElementById(id);

/** A new element at the end of another. */
function made(parent, tag, text, className) {
  const element = parent.appendChild(document.createElement(tag));
  if (text !== undefined) element.textContent = text;
  if (className) element.className = className;
  return element;
}

const ESCAPES = { '&': '&amp;', '<': '&lt;', '>': '&gt;', '"': '&quot;' };
const escaped = (text) => text.replace(/[&<>"]/g, (it) => ESCAPES[it]);

/** Calls no sooner than so many milliseconds after it was last asked to. */
function later(call, milliseconds) {
  let timer;
  return () => {
    clearTimeout(timer);
    timer = setTimeout(call, milliseconds);
  };
}

module.exports = { at, escaped, later, made };
