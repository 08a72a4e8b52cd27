// The lines of `ick-stages`: the stages of each statement, and what became of each of its operations.
'use strict';

const STAGED = /^(\d+) (\d+):(\d+) (\S+) (PLEASE|DO) (NOT|-) (\d+) (\S+) "(.*)"$/;
const STAGE_LINE = /^ {2}(tree|operation|part|rule|dropped|instruction|trace) (.*)$/;
const GIVING = new Set(['Constant', 'Load', 'Fetch', 'And', 'Or', 'Xor', 'Mingle', 'Select']); // an operand
const SIGN_OF = { And: '&', Or: 'V', Xor: '?', Mingle: '$', Select: '~' };
const numbersIn = (text) => text.split(' ').filter(Boolean).map(Number);

// Reads the line of each stage: its fields as ick-json has them.
const FIELDS_OF_STAGE = {
  tree: (text) => ({ body: text }),
  operation: (text) => {
    const [, number, depth, operation, names] = /^(\d+) (\d+) (\S+)(?: (.*))?$/.exec(text);
    return { number: Number(number), depth: Number(depth), operation, names: names ?? null };
  },
  part: (text) => {
    const [, number, from, to] = /^(\d+) (\d+)-(\d+)$/.exec(text).map(Number);
    return { number, from, to };
  },
  rule: (text) => {
    const [, number, names, made, value] = /^(\d+) ([^ :]+)(?:: (.*?))?(?: -> (.*))?$/.exec(text);
    const instructions = made ? made.split(' | ') : [];
    return { number: Number(number), rules: names.split('+'), instructions, value: value ?? null };
  },
  dropped: (text) => {
    const [, number, instruction] = /^(\d+) (.*)$/.exec(text);
    return { number: Number(number), instruction };
  },
  instruction: (text) => {
    const [, number, by = '', instruction] = /^(\d+)(?: by ([\d ]+))?: (.*)$/.exec(text);
    return { number: Number(number), by: numbersIn(by), instruction };
  },
  trace: (text) => {
    const [, number, statement, pending = '', instruction] = /^(\d+) (\d+)(?: pending ([\d ]+))?: (.*)$/.exec(text);
    return { number: Number(number), statement: Number(statement), pending: numbersIn(pending), instruction };
  },
};

// Returns the fields of a line, or null for one that is neither a statement nor a stage. `letters` has the text of a
// statement, with one character for each byte.
function fieldsOfLine(line) {
  const [, stage, text] = STAGE_LINE.exec(line) ?? [];
  if (stage) return { stage, ...FIELDS_OF_STAGE[stage](text) };
  const head = STAGED.exec(line);
  if (!head) return null;
  const [statement, row, column] = head.slice(1, 4).map(Number), [label, identifier, not] = head.slice(4);
  return { statement, line: row, column, label: label === '-' ? null : Number(label.slice(1, -1)),
    polite: identifier === 'PLEASE', abstained: not === 'NOT', chance: Number(head[7]), kind: head[8],
    letters: unquoted(head[9]) };
}

const linesOfStages = (text) =>
  text.slice(0, text.lastIndexOf('\n') + 1).split('\n').map(fieldsOfLine).filter(Boolean);

// Reads the lines: the statements, each with its stages. Of lines that are cut off only the whole ones are read.
function readStages(text) {
  const statements = [];
  for (const fields of linesOfStages(text)) {
    const { stage, number } = fields, last = statements.at(-1);
    if (!stage) {
      statements.push({ ...fields, number: fields.statement, tree: '-', operations: [], parts: [], rules: new Map(),
        dropped: new Set(), left: new Set(), instructions: [], steps: [] });
    } else if (stage === 'tree') last.tree = fields.body;
    else if (stage === 'rule') last.rules.set(number, fields);
    else if (stage === 'dropped') last.dropped.add(number);
    else if (stage === 'trace') addToTrace(last.steps, fields);
    else last[`${stage}s`].push(fields);
    if (stage === 'instruction') for (const by of fields.by) last.left.add(by);
  }
  return statements;
}

// Adds a line to the steps of a trace. A step has a line for each of its instructions.
function addToTrace(steps, { number, statement, pending, instruction }) {
  if (steps.at(-1)?.number !== number) steps.push({ number, statement, pending, instructions: [] });
  if (instruction !== '-') steps.at(-1).instructions.push(instruction);
}

// Returns where the part of each operation is in a statement's text: nothing if the lines are cut off.
const placesOf = ({ operations, parts }) => (parts.length === operations.length ? parts : []);

// Returns the roots of the operations as trees: each node has an operation, and the nodes of its operands. Of operations
// that are cut off there are operands that nothing takes.
function nodesOf(operations) {
  const stack = [], roots = [];
  let before = 0;
  for (const operation of operations) {
    const gives = GIVING.has(operation.operation) ? 1 : 0, takes = before + gives - operation.depth;
    const node = { operation, operands: stack.splice(stack.length - takes) };
    (gives ? stack : roots).push(node);
    before = operation.depth;
  }
  return [...roots, ...stack];
}

// Returns how a node of the tree is named.
function nameOfOperation({ operation, names }) {
  if (SIGN_OF[operation]) return SIGN_OF[operation];
  if (operation === 'Constant') return `#${names}`;
  if (operation === 'Load') return names;
  if (operation === 'Fetch') return `${names.split(' ')[0]} SUB`;
  return names ? `${operation} ${names}` : operation;
}

// Returns the rule of an operation. A constant has no line of its own.
function ruleOf({ rules, operations }, number) {
  return rules.get(number) ?? { rules: ['constant'], instructions: [], value: `#${operations[number - 1].names}` };
}

// Tells what became of an operation: `left` as an instruction, `folded`, `dropped`, or `free` of instructions.
function fateOf(statement, number) {
  if (statement.left.has(number)) return 'left';
  if (ruleOf(statement, number).rules.some((name) => name.startsWith('fold'))) return 'folded';
  return statement.dropped.has(number) ? 'dropped' : 'free';
}

// Returns the rules that the instructions of a whole statement show: what is dropped, and what becomes one with another.
function laterRulesOf({ dropped, instructions }, number) {
  const isCarried = instructions.some(({ by, instruction }) =>
    by.length > 1 && by.includes(number) && instruction.includes(' = Carry '));
  return [...dropped.has(number) ? ['drop-unused-calculations'] : [], ...isCarried ? ['carry'] : []];
}

// Returns what is known of a value, its shape first and without its register. A field of one bit is that bit.
function factsOf(value) {
  const facts = value.split(', ').filter((fact, at) => at > 0 || !/^(t\d+|[.:]\d+)$/.test(fact));
  const shape = facts.length > 1 && !/^(ones|\d\d)/.test(facts.at(-1)) ? [facts.pop()] : [];
  return [...shape, ...facts].join(', ')
    .replace(/, ones (?:0000)?([0-9a-f]+)/, ', ones within $1')
    .replace(/(\S+) rotated by (\d+) & 00000001/g, 'bit $2 of $1').replace(/(\S+) & 00000001/g, 'bit 0 of $1');
}

// Counts the operations and the instructions of statements.
const countOf = (statements, name) => statements.reduce((sum, statement) => sum + statement[name].length, 0);
