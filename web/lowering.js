// The stages of one statement: its text, its tree, its operations with their rules, its instructions and its traces. To
// mark an operation in one of them marks it in all.
'use strict';

const NODE_ROW = 52, NODE_BOX = 28, NODE_LEAST = 44, NODE_SPACE = 22;
const DOTS = 12; // operands of the stack that are drawn as dots
const MOST_OPERATIONS = 1000; // of a statement that are shown, and as many instructions
const MOST_LETTERS = 20000; // of its text
const COMMENT = 'A comment: it is no statement of the language, and NOT passes over it.';
const UNKNOWN = 'No statement of the language: fault 000 when it is done.';
const NARROWEST_NODES = .7; // how far a tree is narrowed at most, so that it fits and can still be read
const NO_RULES = { constant: 'a constant has a register of its own, which holds it from the start',
  'as-it-is': 'no rule applies, and one instruction does what the operation does' };
const POINT = 'Point at a part of the text, a node, a row or an instruction, or go there by the arrow keys.';

// Marks an element as one that stands for operations.
function standing(made, numbers) {
  made.dataset.numbers = numbers.join(' ');
  return made;
}

// Returns nodes for a text in which code stands between backquotes.
const withCode = (text) => text.split('`').map((part, at) => (at % 2 ? element('code', { textContent: part }) : part));

// Puts the nodes into rows and columns, and returns them all, with the width and the height of the drawing.
function placedNodes(roots) {
  const nodes = [];
  let right = 0, deepest = 0;
  const shift = (node, by) => {
    node.x += by;
    for (const operand of node.operands) shift(operand, by);
  };
  const put = (node, depth) => {
    const left = right, { operands } = node;
    deepest = Math.max(deepest, depth);
    node.width = Math.max(NODE_LEAST, nameOfOperation(node.operation).length * LETTER + NODE_SPACE);
    for (const operand of operands) put(operand, depth + 1);
    // a node that is wider than all below it moves them to its middle
    const missing = left + node.width + NODE_SPACE - right;
    if (missing > 0) {
      for (const operand of operands) shift(operand, missing / 2);
      right += missing;
    }
    const middle = operands.length ? (operands[0].x + operands.at(-1).x) / 2 : 0;
    Object.assign(node, { x: Math.max(middle, left + node.width / 2), y: 20 + depth * NODE_ROW });
    nodes.push(node);
  };
  for (const root of roots) put(root, 0);
  return { nodes, width: Math.ceil(right) + 8, height: NODE_ROW * deepest + 40 };
}

function lineBetween(one, other) {
  const from = one.y + NODE_BOX / 2, to = other.y - NODE_BOX / 2;
  const bends = `${one.x} ${from + 18} ${other.x} ${to - 18}`;
  return drawn('path', { class: 'line', d: `M${one.x} ${from}C${bends} ${other.x} ${to}` });
}

function drawnNode(statement, { operation, x, y, width }) {
  const { number } = operation;
  const made = drawn('g', { class: `node ${fateOf(statement, number)}` },
    drawn('rect', { x: x - width / 2, y: y - NODE_BOX / 2, width, height: NODE_BOX, rx: 6 }),
    drawn('text', { x, y: y + 5, 'text-anchor': 'middle' }, nameOfOperation(operation)),
    drawn('text', { class: 'number', x: x + width / 2 + 2, y: y - 7 }, String(number)));
  return standing(made, [number]);
}

function drawnNodes(statement, roots) {
  const { nodes, width, height } = placedNodes(roots);
  const lines = nodes.flatMap((node) => node.operands.map((operand) => lineBetween(node, operand)));
  return drawn('svg', { width, height, viewBox: `-4 0 ${width} ${height}`, 'aria-hidden': true }, ...lines,
    ...nodes.map((node) => drawnNode(statement, node)));
}

// Returns the pieces of a text between the places where a part begins or ends. Each stands for the parts that hold it,
// the smallest first.
function piecesOfText(letters, places) {
  const ends = new Set([0, letters.length, ...places.flatMap(({ from, to }) => [from, to])]);
  const cuts = [...ends].filter((end) => end <= letters.length).sort((one, other) => one - other), size = ({ from, to }) => to - from;
  return cuts.slice(1).map((end, at) => {
    const holding = places.map((place, before) => ({ ...place, number: before + 1 }))
      .filter(({ from, to }) => from <= cuts[at] && end <= to).sort((one, other) => size(one) - size(other));
    const piece = element('span', { textContent: textOfLetters(letters.slice(cuts[at], end)) });
    return standing(piece, holding.map(({ number }) => number));
  });
}

const ruleName = (name) => name.replaceAll('-', ' ');

// Returns the row of an operation: the stack behind it, its rule, what it appended, and what is known of its value.
function rowOf(statement, operation) {
  const { number, depth, operation: word, names } = operation, fate = fateOf(statement, number);
  const { rules, instructions, value } = ruleOf(statement, number);
  const isQuiet = /^(constant|read-in-place|as-it-is)$/.test(rules), dots = '▪'.repeat(Math.min(depth, DOTS));
  const stack = element('span', { className: 'stack', title: `${depth} on the stack` }, dots);
  const row = element('tr', { className: fate },
    element('th', { scope: 'row', textContent: number }),
    element('td', {}, element('code', { textContent: names ? `${word} ${names}` : word }), ' ', stack),
    element('td', {},
      element('span', { className: isQuiet ? 'rule quiet' : 'rule' }, rules.map(ruleName).join(', then ')),
      ...instructions.map((text) => element('code', { className: fate, textContent: text }))),
    element('td', { className: 'known', textContent: factsOf(value ?? '') }));
  return standing(row, [number]);
}

function instructionItem({ by, instruction }) {
  const from = by.length ? ` by ${by.join(' and ')}` : '';
  return standing(element('li', {}, element('code', { textContent: instruction }),
    element('span', { className: 'many' }, from)), by);
}

function stepItem({ number, statement, pending, instructions }, treeOf) {
  const quiet = instructions.length ? [] : [treeOf(statement)];
  if (pending.length) quiet.push(`pending: ${pending.join(' ')}`);
  return element('li', { value: number },
    linkTo(statement), element('span', { className: 'many' }, ` ${quiet.join(', ')}`),
    ...instructions.map((text) => element('code', { textContent: text === 'Stop' ? 'the trace is left' : text })));
}

function linkTo(number) {
  const fields = { type: 'button', className: 'plain', textContent: number, ariaLabel: `Statement ${number}` };
  const made = element('button', fields);
  made.dataset.statement = number;
  return made;
}

class StagesView {
  // The element that holds the frames, the equations of rules by their names, and what is called with the first of the
  // places that are marked, or null.
  constructor(frame, equations, tell) {
    Object.assign(this, { frame, equations: { ...NO_RULES, ...equations }, tell, statement: null, marked: [] });
    for (const event of ['mouseover', 'click']) frame.addEventListener(event, ({ target }) => this.point(target));
    for (const part of this.parts()) part.addEventListener('keydown', (event) => this.move(event, part));
  }

  parts() {
    return [...this.frame.querySelectorAll('[data-stage]')];
  }

  part(name) {
    return this.frame.querySelector(`[data-stage=${name}]`);
  }

  // Shows a statement. `others` are all that are known, whose traces may lead through it, and `advised` is what is to be
  // said if it is none of the language.
  show(whole, others, advised) {
    const operations = whole.operations.slice(0, MOST_OPERATIONS), places = placesOf(whole).slice(0, MOST_OPERATIONS);
    const statement = { ...whole, operations, instructions: whole.instructions.slice(0, MOST_OPERATIONS) };
    Object.assign(this, { statement, places, roots: nodesOf(operations) });
    const isUnread = statement.kind === 'UNRECOGNISED';
    this.part('text').replaceChildren(...piecesOfText(statement.letters.slice(0, MOST_LETTERS), places));
    this.frame.querySelector('.body').textContent = isUnread ? '' : statement.tree;
    this.advise(advised);
    this.part('tree').closest('.stage').hidden = isUnread;
    this.frame.querySelector('.most').hidden = operations.length === whole.operations.length;
    this.drawTree();
    this.part('operations').tBodies[0].replaceChildren(...operations.map((operation) => rowOf(statement, operation)));
    this.part('instructions').replaceChildren(...statement.instructions.map(instructionItem));
    this.showTraces(others);
    this.mark([]);
  }

  drawTree() {
    const frame = this.part('tree'), svg = drawnNodes(this.statement, this.roots), width = svg.getAttribute('width');
    frame.replaceChildren(svg);
    frame.classList.toggle('narrowed', frame.clientWidth >= NARROWEST_NODES * width);
    svg.style.maxWidth = `${width}px`;
  }

  // Says why a statement isn't recognised.
  advise(texts) {
    const { kind, abstained } = this.statement, place = this.frame.querySelector('.unread');
    const said = abstained || texts.length === 0 ? [abstained ? COMMENT : UNKNOWN, ...texts] : texts;
    place.hidden = kind !== 'UNRECOGNISED';
    place.replaceChildren(...said.map((text) => element('p', { textContent: text[0].toUpperCase() + text.slice(1) })));
  }

  showTraces(others) {
    const { number, steps } = this.statement, shown = [];
    const treeOf = (other) => others.find((it) => it.number === other)?.tree ?? 'no instruction';
    const isThrough = (other) => other.number !== number && other.steps.some((it) => it.statement === number);
    const links = others.filter(isThrough).flatMap((other, at) => [at ? ', ' : '', linkTo(other.number)]);
    if (steps.length) shown.push(element('ol', {}, ...steps.map((step) => stepItem(step, treeOf))));
    if (links.length) shown.push(element('p', { className: 'hint' }, 'In the traces that begin at ', ...links));
    if (!shown.length) shown.push(element('p', { className: 'hint', textContent: 'In no trace.' }));
    this.frame.querySelector('.traces').replaceChildren(...shown);
  }

  // Marks operations everywhere, and says their rules.
  mark(numbers) {
    this.marked = numbers;
    for (const made of this.frame.querySelectorAll('[data-numbers]')) {
      made.classList.toggle('on', numbersIn(made.dataset.numbers).some((number) => numbers.includes(number)));
    }
    const said = numbers.length ? numbers.map((number) => this.equationsOf(number)) : [POINT];
    this.frame.querySelector('.equation').replaceChildren(...said);
    this.tell(this.places[numbers[0] - 1] ?? null);
  }

  equationsOf(number) {
    const names = [...ruleOf(this.statement, number).rules, ...laterRulesOf(this.statement, number)];
    const rule = (name) => element('b', { className: 'rule', textContent: ruleName(name) });
    const equation = (name) => [' ', rule(name), ': ', ...withCode(this.equations[name] ?? ''), '.'];
    return element('p', {}, element('b', { textContent: number }), ...names.flatMap(equation));
  }

  point(target) {
    const made = target.closest('[data-numbers]'), numbers = numbersIn(made?.dataset.numbers ?? '');
    if (numbers.length) this.mark(made.tagName === 'LI' ? numbers : numbers.slice(0, 1));
  }

  // Goes on by an arrow key: in the tree up to what takes an operand, and down to the first operand; among the
  // instructions from one to the next; elsewhere from operation to operation.
  move(event, part) {
    const { key } = event, { stage } = part.dataset;
    const found = stage === 'instructions' ? this.nextInstruction(key) : this.nextOperation(key, stage === 'tree');
    if (!found) return;
    event.preventDefault();
    this.mark(found);
    part.querySelector('.on')?.scrollIntoView({ block: 'nearest', inline: 'nearest' });
  }

  nextInstruction(key) {
    const { instructions } = this.statement, at = instructions.findIndex(({ by }) => by.includes(this.marked[0]));
    const next = nextPlace(key, at, instructions.length);
    return next === null ? null : instructions[next].by;
  }

  nextOperation(key, isTree) {
    const { operations } = this.statement, [number = 0] = this.marked;
    if (isTree && number && (key === 'ArrowUp' || key === 'ArrowDown')) return this.nextInTree(key, number);
    const next = nextPlace(key, number - 1, operations.length);
    return next === null ? null : [next + 1];
  }

  nextInTree(key, number) {
    const nodes = [], collect = (node) => {
      nodes.push(node);
      node.operands.forEach(collect);
    };
    this.roots.forEach(collect);
    const is = ({ operation }) => operation.number === number;
    const next = key === 'ArrowDown' ? nodes.find(is)?.operands[0] : nodes.find(({ operands }) => operands.some(is));
    return [next?.operation.number ?? number];
  }
}

// Returns where a key leads from a place in a list, or null if it is no key for that. No place is -1.
function nextPlace(key, at, length) {
  const steps = { ArrowDown: at + 1, ArrowRight: at + 1, ArrowUp: at - 1, ArrowLeft: at - 1, Home: 0, End: length - 1 };
  if (steps[key] === undefined || length === 0) return null;
  return Math.min(Math.max(steps[key], 0), length - 1);
}
