// Tells what is likely a mistake in a program, as tools/ick-advice does. The tables of reasons are those of the tools.
'use strict';

const LIBRARY = [1000, 1999], FLOATS = [5000, 5999];
const WRITERS = [1610, 1620, 1630]; // the library's routines that write
const TEXT = /(?:OUT|\+)\s*,\s*\d+\s*(?:\+|$)/; // a whole tail in a list of READ OUT
const LAST_BYTE = /^\.\s*0*1610\s*<-/;
const WAY_OUT = ': ick-convert --come-from rewrites it';
const within = (label, [least, most]) => label >= least && label <= most;
const SMALL_LETTERS =
  /\b(do|please|forget|resume|stash|retrieve|ignore|remember|abstain|reinstate|give|write|read|next)\b/;
const SHOWN_BEFORE = 40; // characters in front of the place where reading stopped
const mayBeDone = (statement) => !statement.abstained && statement.chance > 0;

// Returns how alike two words are, from 0 to 1: twice the letters in common blocks, by the letters of both.
function likeness(one, other) {
  const common = (a, b) => {
    let best = [0, 0, 0];
    for (let i = 0; i < a.length; i += 1) {
      for (let j = 0; j < b.length; j += 1) {
        let size = 0;
        while (i + size < a.length && j + size < b.length && a[i + size] === b[j + size]) size += 1;
        if (size > best[2]) best = [i, j, size];
      }
    }
    const [i, j, size] = best;
    if (size === 0) return 0;
    return size + common(a.slice(0, i), b.slice(0, j)) + common(a.slice(i + size), b.slice(j + size));
  };
  return 2 * common(one, other) / (one.length + other.length);
}

class Advice {
  // The tables are lists of patterns and reasons, words of the language, labels of the library, the line above pasted
  // routines, and for each message what it means.
  constructor({ fronts, bodies, stops, words, labels, line, faults }) {
    const front = (pattern) => new RegExp(`^(?:${pattern})`);
    this.fronts = fronts.map(([pattern, name]) => [new RegExp(`^(?:${pattern})$`, 's'), name]);
    this.bodies = bodies.map(([pattern, reason]) => [front(pattern), reason]);
    this.stops = stops.map(([behind, here, reason]) => [new RegExp(behind, 's'), front(here), reason]);
    Object.assign(this, { words, faults, library: new Set(labels), below: new RegExp(`\\n?^${line}$`, 'm') });
    this.begins = front([...words.slice(0, 13), ...words.slice(16)].join('|'));
  }

  // Returns what is found in a program, in order of the places: each a place and a text. The lines are those of ick-stages.
  of(source, lines) {
    const { statements, refusals } = readSource(source, lines);
    Object.assign(this, { source, statements, refused: refusals, found: [], explained: new Set(), labelled: new Map() });
    this.ends = [...source.matchAll(/\n/g)].map(({ index }) => index);
    for (const statement of this.statements) {
      if (statement.label !== null && !this.labelled.has(statement.label)) this.labelled.set(statement.label, statement);
    }
    this.refusals();
    this.lookOver();
    return this.found.sort((one, other) => one.at - other.at || (one.text < other.text ? -1 : 1));
  }

  // Returns a program without the line above pasted routines, and without what is below it.
  own(source) {
    return source.split(this.below, 1)[0];
  }

  tell(at, text) {
    this.found.push({ at, line: this.line(at), text });
  }

  line(at) {
    return this.ends.filter((end) => end < at).length + 1;
  }

  before({ number }) {
    return number > 1 ? this.statements[number - 2] : null;
  }

  // Names the statement of C-INTERCAL that would end in the label that follows, or ''.
  elsewhere({ body, end }) {
    const text = this.source.slice(body, end);
    return this.fronts.find(([pattern]) => pattern.test(text))?.[1] ?? '';
  }

  // What hands its label to the statement: a statement in front that isn't read and ends in this line, or ''.
  handing(statement) {
    const before = this.before(statement);
    if (!before || isRead(before) || statement.label === null) return '';
    if (this.line(before.end) !== this.line(statement.start)) return '';
    return this.elsewhere(before) || (before.abstained ? 'the comment in front'
      : "the statement in front, which can't be read,");
  }

  refusals() {
    const lacking = [], library = this.isJoinable() ? this.library : new Set();
    for (const [number, statement, at] of this.refused) {
      const [label = null] = statement.labels;
      if ((number === 129 || number === 139) && library.has(label)) lacking.push([at, label]);
      else this.tell(at, `refused, E${String(number).padStart(3, '0')}: ${this.refusal(number, statement, at, label)}`);
    }
    if (lacking.length === 0) return;
    const labels = [...new Set(lacking.map(([, label]) => label))].sort((one, other) => one - other);
    const listed = labels.map((label) => `(${label})`).join(', ');
    const first = lacking.reduce((least, [at]) => Math.min(least, at), Infinity);
    this.tell(first, `the library has ${listed}: ick-join pastes it after the program`);
  }

  // Whether the program itself has no label of the library, as `ick-join` needs it.
  isJoinable() {
    const { length } = this.own(this.source);
    return !this.statements.some(({ label, start }) => within(label ?? 0, LIBRARY) && start < length);
  }

  refusal(number, statement, at, label) {
    if (number === 79 || number === 99) {
      const count = this.statements.length, polite = this.statements.filter((it) => it.polite).length;
      const [least, most] = [Math.floor(count / 5), Math.floor(count / 3)];
      const wanted = polite < least ? `${least - polite} more` : `${polite - most} fewer`;
      return `${count} statements, ${polite} with PLEASE: say PLEASE in ${wanted}`;
    }
    if ((number === 182 || number === 197) && at === statement.start) return this.labels(statement, number === 182);
    if (number === 129 || number === 139) {
      const floats = within(label, FLOATS) ? "; ick-join --with pastes C-INTERCAL's floatlib.i" : '';
      return `no statement has the label (${label})${floats}`;
    }
    const [meant, todo] = this.faults[number];
    return `${meant} ${todo}`;
  }

  labels(statement, twice) {
    let text = `(${statement.label}) is the label of statement ${statement.number}`;
    if (this.handing(statement)) text += `, since ${this.handing(statement)} hands it on`;
    const first = this.labelled.get(statement.label);
    if (twice) text += `, and of statement ${first.number} at line ${this.line(first.start)}`;
    if (twice && this.handing(first)) text += `, since ${this.handing(first)} hands it on`;
    for (const one of [statement, first]) {
      if (this.handing(one) && this.elsewhere(this.before(one))) this.explained.add(this.before(one));
    }
    return text.includes('COME FROM') ? text + WAY_OUT : text;
  }

  lookOver() {
    const told = new Set(this.found.map(({ at }) => at)), library = this.ofLibrary(), reached = this.reached();
    const unreadable = new Set(reached.filter((it) => !isRead(it) && mayBeDone(it) && !library.has(it.number)));
    for (const statement of this.statements) {
      if (this.handing(statement) && !told.has(statement.start) && !unreadable.has(this.before(statement))) {
        this.tell(statement.start, `${this.handing(statement)} hands its (${statement.label}) to statement `
          + `${statement.number} as its label${this.handing(statement) === 'COME FROM' ? WAY_OUT : ''}`);
      }
    }
    this.widths(new Set(reached.map(({ number }) => number)));
    this.texts();
    for (const statement of unreadable) {
      if (!this.explained.has(statement)) this.unread(statement);
    }
    if (!this.statements.some((it) => it.kind === 'GIVE-UP' && mayBeDone(it))) {
      this.tell(trimmed(this.source).length, 'no GIVE UP is ever done: the program can only end by a fault');
    }
  }

  // Tells of each select in these statements whose width C-INTERCAL fixes, if a unary operator shows it.
  widths(numbers) {
    for (const { at, start } of this.statements.filter(({ number }) => numbers.has(number)).flatMap(doubtsIn)) {
      this.tell(at, `the operand of ${this.source[start - 1]} has 16 bits if its select takes at most 16; in C-INTERCAL `
        + 'it has 32: ick-convert --widths');
    }
  }

  // Tells of a text of the program's own before a call that writes, if the library isn't told its last byte.
  texts() {
    const first = this.statements.findIndex(({ label }) => within(label ?? 0, LIBRARY));
    const own = first < 0 ? this.statements : this.statements.slice(0, first), done = own.filter(mayBeDone);
    const body = (it) => this.source.slice(it.body, it.end);
    const text = done.find((it) => it.kind === 'READ-OUT' && TEXT.test(body(it)));
    const call = text && done.find((it) => it.number > text.number && it.kind === 'NEXT'
      && WRITERS.includes(it.labels[0]));
    if (call && !own.some((it) => LAST_BYTE.test(body(it)))) {
      this.tell(text.start, `(${call.labels[0]}) writes wrong bytes after this text, unless .1610 has its last byte: `
        + 'ick-say --library writes both');
    }
  }

  // The numbers of statements with a label of the library, and of those that can't be read in front of them.
  ofLibrary() {
    const found = new Set();
    let inside = false;
    for (const statement of this.statements.toReversed()) {
      inside = within(statement.label ?? 0, LIBRARY) || (inside && !isRead(statement));
      if (inside) found.add(statement.number);
    }
    return found;
  }

  // The statements that may be reached: not those without label behind GIVE UP or RESUME.
  reached() {
    let isOpen = true;
    return this.statements.filter((it) => {
      const isReached = isOpen || it.label !== null;
      isOpen = isReached && !(['GIVE-UP', 'RESUME'].includes(it.kind) && !it.abstained && it.chance === 100);
      return isReached;
    });
  }

  unread(statement) {
    const before = this.before(statement), word = this.wordAround(statement.start);
    const fault = `statement ${statement.number} is fault 000 when it is done`;
    const behind = before && !isRead(before);
    const beside = behind && before.abstained && this.line(before.end) === this.line(statement.start);
    if ((behind && word) || beside) {
      this.tell(statement.start, `the comment in front is cut at ${word || 'DO or PLEASE'}: ${fault}`);
    } else if (word) {
      this.tell(statement.start, `${fault}: it begins inside the word ${word}`);
    } else {
      const [at, reason] = this.why(statement);
      this.tell(at, `${fault}: ${reason}`);
    }
  }

  // The word that DO or PLEASE at a place, without a label, is a part of, or ''.
  wordAround(at) {
    const [before] = /[A-Z]*$/.exec(this.source.slice(Math.max(0, at - 40), at));
    const found = /^(PLEASE|DO)([A-Z]*)/.exec(this.source.slice(at, at + 40));
    if (!found) return '';
    const [, first, rest] = found;
    if (!before && (!rest || rest.startsWith('NOT') || rest.startsWith('DO') || this.begins.test(rest))) return '';
    return before + first + rest;
  }

  // The place where an unrecognised statement goes wrong, and what is wrong there.
  why(statement) {
    const body = this.source.slice(statement.body, statement.end);
    if (SMALL_LETTERS.test(body) && !/[A-Z]{2}/.test(body)) {
      return [statement.start, 'small letters are no letters of the language: write capitals, or use ick-convert'];
    }
    const { stop, expected, end } = statement, rest = this.source.slice(stop ?? statement.body, end);
    if ((stop === null || expected === END) && /^\d+$/.test(rest)) {
      return [end - rest.length, `a label is written in parentheses, as (${rest})`];
    }
    if (stop === null) {
      return [statement.start, 'what stands in front of the first DO or PLEASE is a statement of its own'];
    }
    if (stop === statement.body) {
      const reason = this.bodies.find(([pattern]) => pattern.test(body))?.[1] ?? this.nearWord(body);
      if (reason) return [stop, reason];
      if (expected === BODY) return [stop, 'no statement of this language begins so'];
    }
    const before = this.source.slice(statement.body, stop);
    const reason = this.stops.find(([behind, here]) => here.test(rest) && behind.test(before))?.[2];
    return [stop, reason ?? this.missing(statement)];
  }

  // What was expected where reading stopped, and behind which text.
  missing({ start, stop, expected }) {
    const text = this.source.slice(start, stop).replace(/[^ -~]+/g, ' ').replace(/ +/g, ' ').trim();
    const [wanted, more] = expected.split(/(?=:)/), cut = text.length > SHOWN_BEFORE ? '..' : '';
    return `after \`${cut}${text.slice(-SHOWN_BEFORE)}\` ${wanted} was expected${more ?? ''}`;
  }

  nearWord(body) {
    const word = /[A-Z]+/.exec(body)?.[0];
    if (!word) return '';
    const near = this.words.map((known) => [likeness(known, word), known])
      .filter(([like]) => like >= .7).sort((one, other) => other[0] - one[0] || (one[1] < other[1] ? 1 : -1))[0];
    return near && near[1] !== word ? `${word} is no word of this language; ${near[1]} is` : '';
  }
}
