// Finds where a select has another width in C-INTERCAL than here, as tools/ick_widths.py does it.
'use strict';

const SEEN = 0x80008000; // the bits of a result that show the difference
const BITS = Array.from({ length: 32 }, (_, place) => place);
const bit = (number, place) => (number >>> place) & 1;
const mingle = (left, right) => BITS.slice(0, 16).reduce((sum, place) =>
  sum + bit(left, place) * 2 ** (2 * place + 1) + bit(right, place) * 2 ** (2 * place), 0);
const selected = (left, right) => BITS.filter((place) => bit(right, place))
  .reduce((sum, place, packed) => sum + bit(left, place) * 2 ** packed, 0);

// Returns the result of a unary operator on a number, or null for an operator that isn't known here.
function unaryOf(operator, number, width) {
  const rotated = ((number >>> 1) | ((number & 1) << (width - 1))) >>> 0;
  const result = { '&': number & rotated, V: number | rotated, '?': number ^ rotated }[operator];
  return result === undefined ? null : result >>> 0;
}

// The width of an operand in C-INTERCAL, and here, if that is known. A constant has its number.
const newWidth = (theirs, ours, number = null, doubt = null) => ({ theirs, ours, number, doubt });

// The operands of a recognised statement, which each operation takes and gives. `doubts` are those of its groups.
class Operands {
  constructor({ source, marks }) {
    Object.assign(this, { source, stack: [], operators: [], doubts: [] });
    for (const mark of marks) this.meet(mark);
  }

  meet({ kind, start, end }) {
    const { stack, operators, source } = this;
    if (kind === 'operator') {
      operators.push({ sign: source[start], end });
    } else if (kind === 'variable' || kind === 'element') {
      while (kind === 'element' && stack.at(-1)?.start > start) stack.pop();
      const width = ':;'.includes(source[start]) ? 32 : 16;
      this.push(newWidth(width, width), start);
    } else if (kind === 'mesh') {
      this.push(newWidth(16, 16, numberFrom(source, start) & 65535), start);
    } else if (kind === 'unary') {
      const { sign, end: behind } = operators.pop();
      this.push(this.under(sign, stack.pop(), { at: start, start: behind }), start);
    } else if (kind === 'binary') {
      const right = stack.pop(), left = stack.pop();
      this.push(this.joined(operators.pop().sign, left, right), start);
    }
  }

  push(width, start) {
    this.stack.push({ ...width, start });
  }

  joined(operator, left, right) {
    const areKnown = left.number !== null && right.number !== null;
    if (operator === '$') return newWidth(32, 32, areKnown ? mingle(left.number, right.number) : null);
    if (left.doubt && right.number !== null && (right.number & SEEN) === 0) {
      this.doubts = this.doubts.filter((doubt) => doubt !== left.doubt);
    }
    let ours = right.theirs === 16 ? 16 : null;
    if (right.number !== null) ours = BITS.filter((place) => bit(right.number, place)).length > 16 ? 32 : 16;
    return newWidth(right.theirs, ours, areKnown ? selected(left.number, right.number) : null);
  }

  // Returns the width of an operand with a unary operator in front.
  under(operator, { theirs, ours, number }, doubt) {
    const known = number === null ? null : unaryOf(operator, number, theirs);
    if (theirs === ours) return newWidth(theirs, ours, known);
    this.doubts.push(doubt);
    return newWidth(32, 32, known, doubt);
  }
}

// Returns the doubts of a statement: where each group and its operand begin.
const doubtsIn = (statement) => (statement.text.includes('~') && isRead(statement) ? new Operands(statement).doubts : []);
