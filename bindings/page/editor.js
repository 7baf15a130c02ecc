'use strict';
// An editor: a text area that the same text lies behind in colours. What is typed, selected, undone and heard is the text area's.

const { at, made } = require('./dom.js');
const { tokensOf, partner } = require('./lexer.js');
const { isPlain, painted } = require('./paint.js');
const { Popup } = require('./popup.js');

const DWELL = 250;

class Editor {
  /**
   * In an element, by what is told of it: its `language`; `complete(text, place, isAsked)`, which gives suggestions; `describe(text,
   * place)`, which gives what a name means; `onEdit` and `onCaret`. The text area is in the element already, so that it has its label.
   */
  constructor(area, told) {
    Object.assign(this, { area, told, faults: [], notes: undefined, tokens: [] });
    this.box = area.parentElement;
    this.paper = document.createElement('pre');
    this.paper.className = 'paint';
    this.paper.setAttribute('aria-hidden', 'true');
    this.box.insertBefore(this.paper, area);
    Object.assign(area, { spellcheck: false, autocapitalize: 'off', autocomplete: 'off' });
    area.setAttribute('wrap', 'off');
    this.popup = new Popup(this);
    this.listen();
    this.paint();
  }

  listen() {
    const { area } = this;
    area.addEventListener('input', (event) => this.edited(event));
    area.addEventListener('scroll', () => {
      this.follow();
      this.popup.close();
    });
    area.addEventListener('keydown', (event) => this.pressed(event));
    area.addEventListener('blur', () => this.popup.close());
    area.addEventListener('mousemove', (event) => this.moved(event));
    area.addEventListener('mouseleave', () => this.hideTip());
    for (const name of ['keyup', 'click', 'select', 'focus']) area.addEventListener(name, () => this.caretMoved());
  }

  get text() {
    return this.area.value;
  }

  /** Another text, as if it had always been there. */
  set text(text) {
    this.area.value = text;
    this.edited();
  }

  get caret() {
    return this.area.selectionStart;
  }

  // ---- what is typed

  edited(event) {
    this.faults = [];
    this.paint();
    this.told.onEdit?.();
    this.caretMoved();
    const isTyped = event?.inputType === 'insertText' && /^[\w$@"]$/.test(event.data ?? '');
    if (isTyped || (this.popup.isOpen && event?.inputType?.startsWith('delete'))) this.popup.update(false);
    else this.popup.close();
  }

  /** Puts a text in the place of another, so that it can be undone. */
  insert(text, from = this.area.selectionStart, to = this.area.selectionEnd) {
    this.area.focus();
    this.area.setSelectionRange(from, to);
    const isDone = text === '' ? document.execCommand('delete') : document.execCommand('insertText', false, text);
    if (isDone) return;
    this.area.setRangeText(text, from, to, 'end');
    this.edited();
  }

  pressed(event) {
    if (event.isComposing || this.popup.pressed(event)) return;
    if ((event.ctrlKey || event.metaKey) && event.key === ' ') {
      event.preventDefault();
      this.popup.update(true);
    } else if (event.ctrlKey || event.metaKey || event.altKey) return;
    else if (event.key === 'Enter' && !event.shiftKey) this.breakLine(event);
    else if (/^[}\])]$/.test(event.key)) this.closeBlock(event);
  }

  /** A new line as deep as this one, and deeper behind an open bracket. */
  breakLine(event) {
    const { text, area } = this;
    const before = text.slice(0, area.selectionStart), after = text.slice(area.selectionEnd);
    const [space] = /[ \t]*(?=[^\n]*$)/.exec(before.slice(before.lastIndexOf('\n') + 1));
    const isOpened = /[{[(]\s*$/.test(before.slice(before.lastIndexOf('\n') + 1));
    if (space === '' && !isOpened) return;
    event.preventDefault();
    this.insert(`\n${space}${isOpened ? '  ' : ''}`);
    if (isOpened && /^[}\])]/.test(after)) {
      const place = area.selectionStart;
      this.insert(`\n${space}`);
      area.setSelectionRange(place, place);
    }
  }

  /** A closing bracket at the beginning of a line stands less deep. */
  closeBlock(event) {
    const start = this.text.lastIndexOf('\n', this.area.selectionStart - 1) + 1;
    const before = this.text.slice(start, this.area.selectionStart);
    if (!/^ {2,}$/.test(before)) return;
    event.preventDefault();
    this.insert(event.key, this.area.selectionStart - 2, this.area.selectionEnd);
  }

  // ---- what is shown

  /** Marks what is wrong: places from where to where, each with a message. */
  mark(faults) {
    this.faults = faults;
    this.area.setAttribute('aria-invalid', String(faults.length > 0));
    this.paint();
    this.caretMoved();
  }

  paint() {
    const { text } = this;
    this.tokens = tokensOf(text, this.told.language);
    this.notes = this.told.notes?.(this.tokens);
    const isBare = isPlain(text);
    this.box.classList.toggle('plain', isBare);
    this.paper.innerHTML = isBare && this.faults.length === 0 ? '' : painted(text, this.told.language, this.tokens, this);
    this.follow();
  }

  follow() {
    this.paper.scrollTop = this.area.scrollTop;
    this.paper.scrollLeft = this.area.scrollLeft;
  }

  caretMoved() {
    this.pair();
    this.told.onCaret?.();
    const hint = at(`${this.area.id}-hint`);
    if (!hint) return;
    const fault = this.faults.find((it) => it.start <= this.caret && this.caret <= it.end);
    const known = fault ? null : this.described(this.caret);
    hint.textContent = fault ? fault.message : known ? [known.line, known.about].filter(Boolean).join(' — ') : '';
    hint.classList.toggle('wrong', Boolean(fault));
  }

  /** Shows the bracket at the caret and its partner. */
  pair() {
    for (const it of this.paper.querySelectorAll('.pair')) it.classList.remove('pair');
    const number = this.tokens.findIndex((it) => it.kind === 'sign' && (it.end === this.caret || it.start === this.caret));
    const other = number < 0 ? undefined : partner(this.tokens, number);
    if (!other) return;
    for (const { start } of [this.tokens[number], other]) this.paper.querySelector(`[data-at="${start}"]`)?.classList.add('pair');
  }

  described(place) {
    return this.told.describe?.(this.tokens.find((it) => it.start <= place && place <= it.end), this.notes) ?? null;
  }

  /** Selects a place, and shows it. */
  select(start, end) {
    this.area.focus();
    this.area.setSelectionRange(start, end);
    const line = this.text.slice(0, start).split('\n').length - 1;
    const height = parseFloat(getComputedStyle(this.area).lineHeight);
    if (line * height < this.area.scrollTop || (line + 2) * height > this.area.scrollTop + this.area.clientHeight) {
      this.area.scrollTop = Math.max(0, line * height - this.area.clientHeight / 2);
    }
    this.caretMoved();
  }

  /** Where a place of the text is on the screen. */
  rectangle(place) {
    const walker = document.createTreeWalker(this.paper, NodeFilter.SHOW_TEXT);
    let left = place, node = walker.nextNode();
    for (; node && left > node.length; node = walker.nextNode()) left -= node.length;
    const range = document.createRange();
    if (!node) return this.paper.getBoundingClientRect();
    range.setStart(node, Math.min(left, node.length));
    range.collapse(true);
    const found = range.getClientRects();
    return found.length > 0 ? found[found.length - 1] : this.paper.getBoundingClientRect();
  }

  // ---- the pointer

  moved({ clientX, clientY }) {
    clearTimeout(this.dwell);
    this.dwell = setTimeout(() => this.showTip(clientX, clientY), DWELL);
  }

  showTip(x, y) {
    const under = document.elementsFromPoint(x, y).find((it) => this.paper.contains(it) && it !== this.paper);
    const fault = under?.dataset.fault === undefined ? undefined : this.faults[under.dataset.fault];
    const known = under?.dataset.at === undefined ? null : this.described(Number(under.dataset.at) + 0.5);
    if (!fault && !known) return this.hideTip();
    const tip = at('tip'), place = under.getBoundingClientRect();
    tip.replaceChildren();
    if (fault) made(tip, 'p', fault.message, 'wrong');
    if (known) made(tip, 'code', known.line);
    if (known?.about) made(tip, 'p', known.about);
    tip.hidden = false;
    tip.style.left = `${Math.max(4, Math.min(place.left, innerWidth - tip.offsetWidth - 8))}px`;
    tip.style.top = `${place.bottom + tip.offsetHeight + 8 > innerHeight ? place.top - tip.offsetHeight - 4 : place.bottom + 4}px`;
    return undefined;
  }

  hideTip() {
    clearTimeout(this.dwell);
    at('tip').hidden = true;
  }
}

module.exports = { Editor };
