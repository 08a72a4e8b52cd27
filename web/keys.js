// The keys of the page: what each does, and the list of them.
'use strict';

const FIELD = 'textarea, select, input:not([type=checkbox])'; // in these a letter is text

// Returns the name of a pressed key, as KEYS has it, or null. A letter without Ctrl in a field is text.
function pressedKey({ key, ctrlKey, metaKey, altKey, shiftKey, target }) {
  if (altKey) return null;
  if (ctrlKey || metaKey) return key === 'Enter' ? 'Ctrl Enter' : null;
  if (/^F\d+$/.test(key)) return shiftKey ? `Shift ${key}` : key;
  if (key === 'Escape') return key;
  return key.length === 1 && !target.matches?.(FIELD) ? key.toLowerCase() : null;
}

class Keys {
  // A list of rows: the names of keys that do the same, what they do, and the function that does it.
  constructor(rows) {
    this.rows = rows;
    this.works = new Map(rows.flatMap(([names, , work]) => names.map((name) => [name, work])));
  }

  // Does what a key is for. Returns whether it is for anything.
  press(event) {
    const work = this.works.get(pressedKey(event));
    if (!work) return false;
    event.preventDefault();
    work();
    return true;
  }

  // Returns the rows of a table of all keys.
  table() {
    const named = (name) => name.split(' ').flatMap((part, at) =>
      [...(at ? [' + '] : []), element('kbd', { textContent: part.length === 1 ? part.toUpperCase() : part })]);
    return this.rows.map(([names, said]) => element('tr', {},
      element('td', {}, ...names.flatMap((name, at) => [...(at ? [' or '] : []), ...named(name)])),
      element('td', { textContent: said })));
  }
}
