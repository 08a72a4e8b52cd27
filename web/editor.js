// The program's editor: line numbers, the colours of its words, and marks at lines, behind a field of text. Only the
// lines that are seen are drawn, and a key changes only the groups around it.
'use strict';

const COLOURED = 1 << 18; // characters of a program that is coloured
const MARGIN_LINES = 4; // lines that are drawn above and below those that are seen
const WORDS = 'CALCULATING|NEXTING|FORGETTING|RESUMING|STASHING|RETRIEVING|IGNORING|REMEMBERING|ABSTAINING|REINSTATING'
  + '|WRITING\\s*IN|READING\\s*OUT|NEXT|FORGET|RESUME|STASH|RETRIEVE|IGNORE|REMEMBER|ABSTAIN|FROM|REINSTATE|GIVE\\s*UP'
  + '|WRITE\\s*IN|READ\\s*OUT|SUB|BY';
// The tokenizer of colours, which colours each line as it is typed: the groups of the syntax file for vim. Nothing else
// rests on it. Of several groups that begin at a place, the first one takes it.
const GROUPS = {
  Comment: "(?<=(?:PLEASE\\s*DO|PLEASE|DO)\\s*(?:%\\s*\\d+\\s*)?)N(?:OT|'T)(?:(?:\\s*%\\s*\\d+)?\\s*READOUT\\s*[.:,;#])?"
    + '[^]*?(?=(?:(?<!(?:FROM|REINSTATE)\\s*)\\(\\s*\\d+\\s*\\)\\s*)?(?:DO|PLEASE)|$)',
  Library: 'BEFORE\\s*THE\\s*LIBRARY\\s*BEGINS|EXPECT\\s*NO\\s*ANSWER,\\s*FOR\\s*THE\\s*RESULT\\s*IS\\s*TOO\\s*LARGE',
  Identifier: 'PLEASE\\s*DO|PLEASE|DO',
  Chance: '%\\s*\\d+',
  Word: WORDS,
  Number: '\\d+',
  Mark: '<-|[.:,;#&V?$~\'"!+]',
  Label: '\\(\\s*\\d+\\s*\\)',
  Unread: '\\S',
};
const GROUP = new RegExp(Object.entries(GROUPS).map(([name, pattern]) => `(?<${name}>${pattern})`).join('|'), 'g');

const GROUP_NAMES = Object.keys(GROUPS);

// Returns the next stretch of a program that has a group, from a place on: where it begins, its text and its group.
function groupFrom(source, at) {
  GROUP.lastIndex = at;
  const found = GROUP.exec(source);
  return found && { index: found.index, text: found[0], group: GROUP_NAMES.find((_, place) => found[place + 1]) };
}

// Returns all stretches of a program that have a group.
function groupsIn(source) {
  const found = [];
  for (let one = groupFrom(source, 0); one; one = groupFrom(source, one.index + one.text.length)) found.push(one);
  return found;
}

// Returns how long the common prefix of two texts is.
function commonPrefix(one, other) {
  const most = Math.min(one.length, other.length);
  let length = 0;
  while (length < most && one.charCodeAt(length) === other.charCodeAt(length)) length += 1;
  return length;
}

// Returns how long the common suffix of two texts is, at most so long.
function commonSuffix(one, other, most) {
  let length = 0;
  while (length < most && one.charCodeAt(one.length - 1 - length) === other.charCodeAt(other.length - 1 - length)) {
    length += 1;
  }
  return length;
}

// Returns the first place in a list from which on a condition holds, by halving.
function firstWhere(list, holds) {
  let [low, high] = [0, list.length];
  while (low < high) {
    const middle = (low + high) >> 1;
    if (holds(list[middle])) high = middle;
    else low = middle + 1;
  }
  return low;
}

// The stretches of a program that is edited. What stands in front of an identifier has the same groups, whatever
// follows it, and what follows an identifier has the same groups, whatever stands in front of it. But the word READOUT
// has a DO in it.
class Stretches {
  constructor() {
    Object.assign(this, { source: '', found: [] });
  }

  // Finds the stretches anew from the last identifier in front of a change to the first one behind it.
  update(source) {
    const { source: before, found } = this, ahead = commonPrefix(before, source);
    const behind = commonSuffix(before, source, Math.min(before.length, source.length) - ahead);
    const shift = source.length - before.length, changed = source.length - behind;
    let kept = firstWhere(found, ({ index, text }) => index + text.length > ahead) - 1;
    const isFirm = ({ index, group }) => group === 'Identifier' && !before.startsWith('REA', index - 3);
    while (kept >= 0 && !isFirm(found[kept])) kept -= 1;
    const begin = found[kept]?.index ?? 0;
    let old = kept = Math.max(kept, 0);
    const isAgain = ({ index, group }) => {
      if (group !== 'Identifier' || index < changed) return false;
      while (old < found.length && found[old].index < index - shift) old += 1;
      return found[old]?.index === index - shift && found[old].group === group;
    };
    const fresh = [];
    let one = groupFrom(source, begin);
    for (; one && !isAgain(one); one = groupFrom(source, one.index + one.text.length)) fresh.push(one);
    const rest = one ? found.slice(old) : [];
    for (const stretch of rest) stretch.index += shift;
    Object.assign(this, { source, found: found.slice(0, kept).concat(fresh, rest) });
  }

  // Returns the stretches that reach into a part of the program.
  between(start, end) {
    const first = firstWhere(this.found, ({ index, text }) => index + text.length > start);
    return this.found.slice(first, firstWhere(this.found, ({ index }) => index >= end));
  }
}

// Returns where each line of a text begins.
function startsOf(text) {
  const starts = [0];
  for (let at = text.indexOf('\n'); at >= 0; at = text.indexOf('\n', at + 1)) starts.push(at + 1);
  return starts;
}

class Editor {
  // The field of text, and the elements for the numbers of its lines and for its coloured text.
  constructor(field, numbers, shown) {
    Object.assign(this, { field, numbers, shown, marks: new Map(), stretches: new Stretches() });
    Object.assign(this, { source: '', starts: startsOf('') });
    this.rows = [numbers, shown].map((frame) => frame.appendChild(document.createElement('div')));
    field.addEventListener('scroll', () => this.follow());
    new ResizeObserver(() => this.show()).observe(field);
  }

  // Marks lines: each line's kinds, such as `bad`, `wait`, `here` or `stop`, and what is to be said of it.
  mark(marks) {
    this.marks = marks;
    if (this.field.value === this.source) this.show();
    else this.draw();
  }

  // Reads the field's text anew.
  draw() {
    const source = this.field.value, isColoured = source.length <= COLOURED;
    this.field.classList.toggle('plain', !isColoured);
    this.stretches.update(isColoured ? source : '');
    Object.assign(this, { source, starts: startsOf(source) });
    this.numbers.style.minWidth = `calc(${String(this.starts.length).length}ch + 1rem)`;
    this.show();
  }

  // Returns the height of a line. A browser may round it, so that many lines tell it best.
  lineHeight() {
    const { field, starts } = this, { paddingTop, paddingBottom, lineHeight } = getComputedStyle(field);
    if (field.scrollHeight <= field.clientHeight) return Number.parseFloat(lineHeight);
    return (field.scrollHeight - Number.parseFloat(paddingTop) - Number.parseFloat(paddingBottom)) / starts.length;
  }

  // Draws the lines that are seen, and some around them.
  show() {
    const { scrollTop, clientHeight } = this.field, { starts } = this, height = this.lineHeight();
    const first = Math.max(0, Math.floor(scrollTop / height) - MARGIN_LINES);
    const last = Math.min(starts.length, Math.ceil((scrollTop + clientHeight) / height) + MARGIN_LINES);
    this.drawn = { first, last, height };
    const numbers = [];
    for (let line = first + 1; line <= last; line += 1) numbers.push(this.number(line), '\n');
    this.rows[0].replaceChildren(...numbers);
    this.rows[1].replaceChildren(...this.coloured(starts[first] ?? 0, starts[last] ?? this.stretches.source.length));
    this.place();
  }

  coloured(start, end) {
    const { source } = this.stretches, nodes = [];
    let at = start;
    for (const { index, text, group } of this.stretches.between(start, end)) {
      const from = Math.max(index, start), to = Math.min(index + text.length, end);
      if (from > at) nodes.push(source.slice(at, from));
      nodes.push(Object.assign(document.createElement('span'),
        { className: `g-${group}`, textContent: source.slice(from, to) }));
      at = to;
    }
    return [...nodes, `${source.slice(at, end)}\n`];
  }

  // Returns the line whose number is drawn at a height of the window.
  lineAt(height) {
    return this.drawn.first + 1 + Math.floor((height - this.rows[0].getBoundingClientRect().top) / this.drawn.height);
  }

  number(line) {
    const mark = this.marks.get(line);
    if (!mark) return String(line);
    return Object.assign(document.createElement('b'), { className: mark.kind, textContent: line, title: mark.text });
  }

  // Puts what is drawn behind the lines of the field.
  place() {
    const { scrollTop, scrollLeft } = this.field, { first, height } = this.drawn, down = first * height - scrollTop;
    this.rows[0].style.transform = `translateY(${down}px)`;
    this.rows[1].style.transform = `translate(${-scrollLeft}px, ${down}px)`;
  }

  follow() {
    const { scrollTop, clientHeight } = this.field, { first, last, height } = this.drawn;
    const isDrawn = first * height <= scrollTop || first === 0;
    if (isDrawn && (last * height >= scrollTop + clientHeight || last === this.starts.length)) this.place();
    else this.show();
  }

  // Scrolls to a line, unless it is seen.
  reveal(line) {
    const { scrollTop, clientHeight } = this.field, height = this.lineHeight(), top = (line - 1) * height;
    if (top >= scrollTop && top + 2 * height <= scrollTop + clientHeight) return;
    this.field.scrollTop = Math.max(0, top - clientHeight / 3);
    this.follow();
  }
}
