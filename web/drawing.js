// The drawing of a tree of choices as SVG: from left to right, each part once.
'use strict';

const LETTER = 8.43, LETTERS = 26, NUMERALS = 5; // the width of a letter, and how much of a text is shown
const KINDS = 3; // kinds of ends that a part names which isn't drawn further
const SPOKEN = 20; // pieces of an output in the name of an end
const ROW = 34, BOX = 26, COLUMN = 56, MARGIN = 18, DOT = 5;

function drawn(name, attributes, ...inside) {
  const made = document.createElementNS('http://www.w3.org/2000/svg', name);
  for (const key in attributes) made.setAttribute(key, attributes[key]);
  made.append(...inside);
  return made;
}

// A span of a label: its text, and the class that it is drawn by.
const span = (text, kind = '') => ({ text, kind });

// Returns the spans of a numeral. A letter with a bar is a span of its own kind, and so is the bar of zero.
function spansOfNumeral(piece) {
  const [bars, letters] = piece.split('\n');
  if (letters === '') return [span('\u2007\u2007', 'bar')];
  const spans = [];
  [...letters].forEach((letter, at) => {
    const kind = bars[at] === '_' ? 'bar' : '';
    if (spans.at(-1)?.kind === kind) spans.at(-1).text += letter;
    else spans.push(span(letter, kind));
  });
  return spans;
}

function shortened(text) {
  return text.length > LETTERS ? `${text.slice(0, LETTERS - 1)}…` : text;
}

// Returns a line of output as it is shown: without its end, in quotes.
function quotedLine(piece) {
  const shown = piece.replace(/\n$/, '').replace(/[^\x20-\x7e]/g, '\ufffd');
  return `“${shortened(shown)}”`;
}

// Returns the spans of what was written since the branch before: numerals, and lines in quotes.
function spansOf(pieces) {
  const shown = pieces.slice(0, NUMERALS).flatMap((piece, at) => {
    const spans = numberOfPiece(piece) === null ? [span(quotedLine(piece))] : spansOfNumeral(piece);
    return at ? [span(', '), ...spans] : spans;
  });
  return pieces.length > NUMERALS ? [...shown, span(', …')] : shown;
}

// Returns what was written in words: numerals are decimal numbers.
function spoken(pieces) {
  const shown = pieces.slice(0, SPOKEN).map((piece) => numberOfPiece(piece) ?? quotedLine(piece));
  return [...shown, ...(pieces.length > SPOKEN ? ['…'] : [])].join(', ') || 'nothing';
}

const counted = (count, noun) => `${count.toLocaleString('en')} ${noun}${count === 1 ? '' : 's'}`;

// Returns the spans of what a part writes and then asks.
function spansOfPart({ since, asker }) {
  const spans = spansOf(since);
  return asker ? [...spans, span(`${spans.length ? '  ' : ''}${asker}`, 'asker')] : spans;
}

// Returns the spans of a part's label. A branch that writes nothing has none, unless it is known what asks there.
function labelOf(part) {
  const spans = spansOfPart(part);
  if (part.end) {
    const end = [span(part.end, 'end'), ...(spans.length ? [span('  '), ...spans] : [])];
    return part.count > 1 ? [...end, span(`  ${counted(part.count, 'run')}`, 'many')] : end;
  }
  if (!part.isCut) return spans;
  return [...spans, span(`${spans.length ? '  ' : ''}… ${behind(part)}`, 'rest')];
}

// Returns how many runs a part has that isn't drawn further, and how they end.
function behind(part) {
  const kinds = new Map();
  for (const [end, count] of part.ends) {
    const [kind] = end.split('@');
    kinds.set(kind, (kinds.get(kind) ?? 0) + count * part.times);
  }
  const most = [...kinds].toSorted((one, other) => other[1] - one[1]);
  const shown = most.slice(0, KINDS).map(([kind, count]) => `${count.toLocaleString('en')} ${kind}`);
  return `${counted(part.count, 'run')}: ${[...shown, ...(most.length > KINDS ? ['…'] : [])].join(', ')}`;
}

const widthOf = (spans) => spans.reduce((sum, { text }) => sum + text.length, 0) * LETTER + 16;

// Puts each part into a column right of all parts that lead to it, and into a row: an end has a row of its own, and a
// branch is in the middle of the sides that were first met below it. Returns the count of rows.
function place(parts) {
  for (const part of parts) Object.assign(part, { column: 0, row: null, above: null });
  for (const part of parts.toReversed()) {
    for (const side of part.sides) if (side) side.column = Math.max(side.column, part.column + 1);
  }
  let rows = 0;
  const visit = (part, above) => {
    Object.assign(part, { above, row: -1 });
    const met = part.sides.filter((side) => side && side.row === null && visit(side, part)).map((side) => side.row);
    part.missing = part.sides.length === 2 && part.sides.includes(null) ? rows++ : null;
    if (part.missing !== null) met.push(part.missing);
    part.row = met.length ? (met[0] + met.at(-1)) / 2 : rows++;
    return true;
  };
  visit(parts.at(-1), null);
  return rows;
}

// Returns where each column begins. An end may reach over the columns behind it, since its row has nothing else there.
function columnsOf(parts) {
  const widths = [];
  for (const part of parts) {
    const width = part.end || !part.sides.length || !part.label.length ? 2 * DOT : widthOf(part.label);
    widths[part.column] = Math.max(widths[part.column] ?? 0, width);
  }
  let left = MARGIN;
  return widths.map((width) => {
    const at = left;
    left += width + COLUMN;
    return at;
  });
}

const KINDS_OF_ENDS = { 'GIVE-UP': '', LIMIT: ' limit', NEVER: ' limit' };
const kindOf = (end) => KINDS_OF_ENDS[end] ?? ' fault';

class Drawing {
  constructor(parts) {
    this.parts = parts;
    for (const part of parts) part.label = labelOf(part);
    this.rows = place(parts);
    const columns = columnsOf(parts);
    for (const part of parts) {
      part.x = columns[part.column];
      part.y = MARGIN + part.row * ROW + BOX / 2;
      part.width = part.label.length ? widthOf(part.label) : 2 * DOT;
    }
    this.right = Math.max(...parts.map((part) => part.x + part.width), ...parts.map((part) => part.x + 3 * COLUMN));
  }

  // The line from a part to a place in a row that is free up to there, with its choices on it.
  straight(part, x, y, choices) {
    const from = part.x + part.width, bend = from + 24;
    const path = `M${from} ${part.y}C${from + 15} ${part.y} ${bend - 15} ${y} ${bend} ${y}H${x}`;
    return this.lineBy(path, choices, bend + 6 + 4 * (choices.length - 1), y);
  }

  // The line from a part to one that was drawn before, over whatever is between them. It leaves so far below the part.
  curved(part, side, choices, below) {
    const from = part.x + part.width, x = from + 16, y = part.y + below;
    const reach = Math.max(24, (side.x - x) / 2);
    const path = `M${from} ${part.y}L${x} ${y}C${x + reach} ${y} ${side.x - reach} ${side.y} ${side.x} ${side.y}`;
    return this.lineBy(path, choices, x, y);
  }

  lineBy(path, choices, x, y) {
    return [drawn('path', { class: choices === '0' ? 'line' : 'line one', d: path }),
      drawn('text', { class: 'digit', x, y: y + 4 }, choices)];
  }

  lineTo(part, side, choices, below) {
    if (side.above === part) return this.straight(part, side.x, side.y, choices);
    return this.curved(part, side, choices, below);
  }

  // The lines to the sides of a branch: one line if both sides are the same part. Of two lines, the one to the higher
  // side leaves above.
  linesOf(part) {
    const [none, one] = part.sides;
    if (none && none === one) return this.lineTo(part, none, '0/1', 0);
    const heights = part.sides.map((side) => side?.y ?? Infinity);
    return part.sides.flatMap((side, choice) => {
      if (side) return this.lineTo(part, side, String(choice), heights[choice] < heights[1 - choice] ? -11 : 11);
      const x = part.x + part.width + COLUMN, y = MARGIN + part.missing * ROW + BOX / 2;
      const rest = drawn('text', { class: 'rest', x: x + 6, y: y + 5 }, '…');
      return [...this.straight(part, x, y, String(choice)), rest];
    });
  }

  box(part) {
    const place = { class: 'box', x: part.x, y: part.y - BOX / 2, width: part.width, height: BOX, rx: 6 };
    const spans = part.label.map(({ text, kind }) => drawn('tspan', kind ? { class: kind } : {}, text));
    return [drawn('rect', place), drawn('text', { x: part.x + 8, y: part.y + 5 }, ...spans)];
  }

  branch(part) {
    if (!part.label.length) return drawn('circle', { class: 'dot', cx: part.x + DOT, cy: part.y, r: DOT });
    return drawn('g', { class: 'branch' }, ...this.box(part));
  }

  // An end, which can be run again by the choices of the first run that comes here.
  leaf(part) {
    const { choices, pieces } = part, many = part.count > 1 ? `, the first of ${counted(part.count, 'run')}` : '';
    const name = `Run ${choices}${many}: ${part.end}, output ${spoken(pieces)}`;
    return drawn('g', { class: `leaf${kindOf(part.end)}`, role: 'button', tabindex: -1, 'aria-label': name,
      'data-choices': choices }, drawn('title', {}, name), ...this.box(part));
  }

  svg() {
    const height = this.rows * ROW + 2 * MARGIN - (ROW - BOX);
    const size = { width: Math.ceil(this.right + MARGIN), height: Math.ceil(height) };
    const lines = this.parts.flatMap((part) => this.linesOf(part));
    const [paths, texts] = ['path', 'text'].map((name) => lines.filter((it) => it.tagName === name));
    const branches = this.parts.filter((part) => !part.end).map((part) => this.branch(part));
    const leaves = this.parts.filter((part) => part.end).toSorted((one, other) => one.row - other.row);
    // A screen reader reads the ends alone, which say their choices. The listing has the rest.
    const viewBox = `0 0 ${size.width} ${size.height}`;
    return drawn('svg', { ...size, viewBox }, drawn('g', { 'aria-hidden': true }, ...paths, ...texts, ...branches),
      ...leaves.map((part) => this.leaf(part)));
  }
}
