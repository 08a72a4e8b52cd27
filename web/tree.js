// The tree of choices of listed runs, in which equal parts are one.
'use strict';

// A part of the tree: an end of a run, or a branch with two sides, of which one is null if no run of it is listed.
// `since` has the pieces that all its runs wrote first behind the branch before, `asker` says what asks at the branch, if
// it is known, and `ends` has the count of its runs for each end. Parts with the same id are equal.

// Returns how many pieces both lists begin with.
function commonLength(one, other) {
  let length = 0;
  while (length < one.length && length < other.length && one[length] === other[length]) length += 1;
  return length;
}

const sumOf = (parts) => {
  const ends = new Map();
  for (const part of parts) for (const [end, count] of part.ends) ends.set(end, (ends.get(end) ?? 0) + count);
  return ends;
};

// Joins equal parts while runs come one by one, in the order of a listing.
class Joining {
  constructor() {
    this.known = new Map();
    this.waiting = []; // left sides of branches whose right side isn't there yet, each with its depth
    this.last = null;
    this.ids = 0;
  }

  add(run) {
    if (this.last) {
      const digits = this.last.digits, fork = commonLength(digits, run.digits);
      this.waiting.push({ depth: fork, grown: this.joined(fork + 1) });
    }
    this.last = run;
    this.grown = { wrote: run.pieces, end: run.end, asker: null, sides: [], ends: new Map([[run.end, 1]]) };
  }

  // Returns what is read behind the first choices of the last run, as many as `to`.
  joined(to) {
    const { digits, askers } = this.last;
    let grown = this.grown;
    for (let depth = digits.length - 1; depth >= to; depth -= 1) {
      const isLeft = this.waiting.at(-1)?.depth === depth && digits[depth] === '1';
      const before = isLeft ? this.waiting.pop().grown : null;
      grown = this.branch(digits[depth] === '1' ? [before, grown] : [grown, null], askers[depth] ?? null);
    }
    return grown;
  }

  branch(sides, asker) {
    const there = sides.filter(Boolean), [{ wrote }] = there;
    const common = wrote.slice(0, commonLength(wrote, there.at(-1).wrote));
    return { wrote: common, end: null, asker, sides: sides.map((side) => side && this.part(side, common.length)),
      ends: sumOf(there) };
  }

  // Returns the one part for what is read, behind a branch where so many pieces were written.
  part(grown, written) {
    const since = grown.wrote.slice(written), { end, asker, sides, ends } = grown;
    const key = sides.includes(null) ? null : JSON.stringify([since, end, asker, sides.map(({ id }) => id)]);
    const made = this.known.get(key) ?? { id: this.ids++, since, end, asker, sides, ends };
    if (key !== null) this.known.set(key, made);
    return made;
  }

  root() {
    const waiting = [...this.waiting], root = this.part(this.joined(0), 0);
    this.waiting = waiting;
    return root;
  }
}

// Returns the parts of a tree that are drawn: at most so many, or those of the first two levels. A part that isn't
// drawn further is cut. An end is drawn once for each level, so that no line to it is long. `count` is how many runs
// pass a part, and `choices` and `pieces` are those of the first one.
function drawnParts(root, most) {
  const made = new Map(), copy = (part, key) => {
    if (!made.has(key)) made.set(key, { ...part, isCut: false, count: 0 });
    return made.get(key);
  };
  let level = [copy(root, root.id)], drawn = level, depth = 0;
  for (;;) {
    depth += 1;
    const below = level.flatMap((part) => part.sides.filter((side) => side && !made.has(keyOf(side, depth))));
    const added = new Map(below.map((side) => [keyOf(side, depth), side]));
    if (drawn.length + added.size > most && depth > 1) {
      for (const part of level) part.isCut = part.sides.length > 0;
      break;
    }
    const next = [...added].map(([key, side]) => copy(side, key)), here = depth;
    for (const part of level) part.sides = part.sides.map((side) => side && made.get(keyOf(side, here)));
    if (next.length === 0) break;
    drawn = drawn.concat(next);
    level = next;
  }
  for (const part of level) if (part.isCut) part.sides = [];
  return countedParts(drawn);
}

const keyOf = (part, depth) => (part.end ? `${part.id} ${depth}` : part.id);

// Orders drawn parts so that each stands in front of all that lead to it, and the root is the last. Counts the runs
// that pass each one.
function countedParts(parts) {
  const leading = new Map(parts.map((part) => [part, 0]));
  for (const part of parts) for (const side of part.sides) if (side) leading.set(side, leading.get(side) + 1);
  for (const part of parts) Object.assign(part, { times: 0, digits: null });
  Object.assign(parts[0], { times: 1, digits: '', pieces: parts[0].since });
  const order = [parts[0]];
  for (const part of order) {
    part.count = part.times * [...part.ends.values()].reduce((sum, count) => sum + count, 0);
    part.choices = textOf(groupsOf(part.digits));
    part.sides.forEach((side, choice) => {
      if (!side) return;
      const digits = part.digits + choice;
      if (side.digits === null || digits < side.digits) {
        Object.assign(side, { digits, pieces: part.pieces.concat(side.since) });
      }
      side.times += part.times;
      leading.set(side, leading.get(side) - 1);
      if (leading.get(side) === 0) order.push(side);
    });
  }
  return order.reverse();
}

// Adds runs of a listing to a tree.
function addRuns(tree, runs) {
  for (const { choices, end, quoted, askers = [] } of runs) {
    tree.add({ choices, end, askers, digits: choicesOf(choices, DEEPEST), pieces: piecesOf(unquoted(quoted)) });
  }
}
