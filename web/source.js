// Reads the lines of `ick-stages --parts`, as tools/ick_source.py does: the statements of a program with the places of
// their parts, and its refusals, for any program up to the longest. Places are those of characters, from 0.
'use strict';

// What can be missing where reading stops, as ick-stages names it.
const BODY = 'a variable, an array, a label or a verb', END = 'the end of the statement';
const STATEMENT_LINES = /^(\d+) (\d+):(\d+) (\S+) (PLEASE|DO) (NOT|-) (\d+) (\S+) "(.*)"\n((?: {2}.*\n)*)/gm;
const HEAD_LINE = /^ {2}head (\d+)-(\d+) (\w+)$/gm, MARK_LINE = /^ {2}(?:mark|part \d+) (\d+)-(\d+) (\w+)$/gm;
const FIRST_NUMBER = /\d+/g;
const STOP_LINE = /^ {2}stops (\d+) (.*)$/m, REFUSAL_LINE = /^refused (\d+) (\d+) (\d+)-\d+$/gm;

const trimmed = (text) => text.replace(/[\t-\r ]+$/, '');

// Returns the first number of a text from a place on.
function numberFrom(text, at) {
  FIRST_NUMBER.lastIndex = at;
  return Number(FIRST_NUMBER.exec(text)[0]);
}

// The places of a program's bytes.
class Places {
  constructor(source) {
    this.starts = [0];
    this.characters = [];
    let at = 0;
    for (const letter of source) {
      const code = letter.codePointAt(0), length = 1 + (code > 0x7f) + (code > 0x7ff) + (code > 0xffff);
      for (let byte = 0; byte < length; byte += 1) this.characters.push(at);
      if (letter === '\n') this.starts.push(this.characters.length);
      at += letter.length;
    }
    this.end = at;
  }

  // Returns the byte at which a line and a column, each from 1, begin.
  byte(line, column) {
    return this.starts[line - 1] + column - 1;
  }

  // Returns the place of the character that has a byte.
  character(byte) {
    return this.characters[byte] ?? this.end;
  }
}

// A statement. number, label, polite, abstained, chance and kind are the fields of `ick list`. The text goes from start to
// end. For an unrecognised body, stop is where reading stopped, perhaps behind the statement, and expected says what could
// have come there. What stands in front of the first DO or PLEASE is a statement whose head is empty.
class Statement {
  constructor(source, places, [, number, line, column, label, identifier, negation, chance, kind, text, printed]) {
    Object.assign(this, { source, places, printed, byte: places.byte(Number(line), Number(column)), kind });
    this.number = Number(number);
    this.start = places.character(this.byte);
    this.end = places.character(this.byte + text.replace(/\\(n|\\|"|x..)/g, '.').length);
    this.label = label === '-' ? null : numberFrom(source, this.start);
    Object.assign(this, { polite: identifier === 'PLEASE', abstained: negation === 'NOT', chance: Number(chance) });
    this.head = Object.fromEntries(this.found(HEAD_LINE).map((mark) => [mark.kind, mark]));
    this.body = this.head.body ? this.behindText(this.head.body.start) : this.start;
    const [, stop, expected] = (!isRead(this) && STOP_LINE.exec(printed)) || [];
    this.stop = expected === undefined ? null : this.behindText(places.character(this.byte + Number(stop)));
    this.expected = expected ?? null;
  }

  found(pattern) {
    return [...this.printed.matchAll(pattern)].map(([, start, end, kind]) => ({ kind,
      start: this.places.character(this.byte + Number(start)), end: this.places.character(this.byte + Number(end)) }));
  }

  // The marks of a recognised body, in the order of its operations.
  get marks() {
    return isRead(this) ? this.found(MARK_LINE) : [];
  }

  // The labels that the body names.
  get labels() {
    if (!['NEXT', 'ABSTAIN', 'REINSTATE'].includes(this.kind)) return [];
    return this.marks.filter(({ kind }) => kind === 'label').map(({ start }) => numberFrom(this.source, start));
  }

  get text() {
    return this.source.slice(this.start, this.end);
  }

  // Returns a place, or if it is behind the statement, the end of the text in front of it: reading passes white bytes.
  behindText(at) {
    return at <= this.end ? at : this.start + trimmed(this.source.slice(this.start, at)).length;
  }
}

const isRead = ({ kind }) => kind !== 'UNRECOGNISED';

// Returns the statements of a program, and every reason to refuse it: a message's number, a statement and a place in it.
function readSource(source, lines) {
  const places = new Places(source);
  const statements = [...lines.matchAll(STATEMENT_LINES)].map((found) => new Statement(source, places, found));
  const refusals = [...lines.matchAll(REFUSAL_LINE)].map(([, number, which, at]) => {
    const statement = statements[which - 1];
    return [Number(number), statement, places.character(statement.byte + Number(at))];
  });
  return { statements, refusals };
}
