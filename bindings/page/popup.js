'use strict';
// The list of suggestions at the caret of an editor. The caret stays in the text area, which names the chosen one to screen readers.

const { at, made } = require('./dom.js');

const MOST = 200;

class Popup {
  constructor(editor) {
    Object.assign(this, { editor, isOpen: false, offered: null, chosen: 0 });
    const { area } = editor;
    if (editor.told.complete) {
      area.setAttribute('aria-autocomplete', 'list');
      area.setAttribute('aria-haspopup', 'listbox');
    }
  }

  /** Shows what may be typed at the caret, if anything; what is not sure only where it was asked for. */
  update(isAsked) {
    const { editor } = this;
    const offered = editor.told.complete?.(editor.text, editor.caret);
    if (!offered || (!isAsked && !offered.isSure)) return this.close();
    this.offered = { ...offered, items: offered.items.slice(0, MOST) };
    this.show();
    return this.choose(0);
  }

  show() {
    const list = at('suggestions');
    this.isOpen = true;
    list.replaceChildren();
    for (const [number, item] of this.offered.items.entries()) {
      const option = made(list, 'li', undefined, item.isDeprecated ? 'deprecated' : '');
      Object.assign(option, { id: `suggestion-${number}`, role: 'option' });
      made(option, 'span', item.label, 'label');
      made(option, 'span', item.detail, 'detail');
      option.addEventListener('mousedown', (event) => {
        event.preventDefault();
        this.chosen = number;
        this.accept();
      });
    }
    list.hidden = false;
    at('about').hidden = false;
    this.editor.area.setAttribute('aria-controls', 'suggestions');
    at('heard').textContent = `${this.offered.items.length} suggestions`;
  }

  place() {
    const { left, top, bottom } = this.editor.rectangle(this.offered.start);
    const list = at('suggestions'), about = at('about'), height = list.offsetHeight + about.offsetHeight;
    const x = Math.max(4, Math.min(left, innerWidth - list.offsetWidth - 8));
    const y = bottom + height + 4 > innerHeight && top > height ? top - height - 2 : bottom + 2;
    for (const [element, above] of [[list, 0], [about, list.offsetHeight]]) Object.assign(element.style, { left: `${x}px`, top: `${y + above}px` });
    about.style.width = `${list.offsetWidth}px`;
  }

  choose(number) {
    const { items } = this.offered;
    this.chosen = (number + items.length) % items.length;
    const options = at('suggestions').children;
    for (const [each, option] of [...options].entries()) option.setAttribute('aria-selected', String(each === this.chosen));
    this.editor.area.setAttribute('aria-activedescendant', `suggestion-${this.chosen}`);
    at('about').textContent = items[this.chosen].about;
    at('about').hidden = !items[this.chosen].about;
    this.place();
    options[this.chosen].scrollIntoView({ block: 'nearest' });
  }

  /** Puts the chosen suggestion in the place of what is typed. */
  accept() {
    const { start, end, items } = this.offered;
    const { label } = items[this.chosen];
    this.close();
    this.editor.insert(label, start, end);
    this.close();
  }

  /** Whether a key was for the list. */
  pressed(event) {
    if (!this.isOpen || event.ctrlKey || event.metaKey || event.altKey) return false;
    const moves = { ArrowDown: 1, ArrowUp: -1, PageDown: 8, PageUp: -8 };
    if (event.key in moves) this.choose(this.chosen + moves[event.key]);
    else if (event.key === 'Enter' || (event.key === 'Tab' && !event.shiftKey)) this.accept();
    else if (event.key === 'Escape') this.close();
    else {
      if (!/^[\w$@"]$|^Backspace$|^Shift$/.test(event.key)) this.close();
      return false;
    }
    event.preventDefault();
    event.stopPropagation();
    return true;
  }

  close() {
    if (!this.isOpen) return;
    this.isOpen = false;
    at('suggestions').hidden = true;
    at('about').hidden = true;
    this.editor.area.removeAttribute('aria-activedescendant');
    this.editor.area.removeAttribute('aria-controls');
  }
}

module.exports = { Popup };
