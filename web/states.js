// The states that `ick-outcomes --states` prints, and the part of them that is drawn.
'use strict';

const STATE_LINE = /^(state|end|never) (\d+) (?:(\S+) )?(\S+) "(.*)"$/;
const EDGE = /^edge (\d+) ([01-]) (\d+) (\d+) (\d+)$/;
const WORK = 2e6; // edges that are followed at most to find out which states are the heaviest
const MOST_DRAWN = 100; // states that are drawn

// Reads the states: of each its kind, what it asks or how it ends, its weight if it has one, the output before it, and
// its edges. Says whether none is cut off.
function readStates(text) {
  const lines = text.slice(0, text.lastIndexOf('\n') + 1).split('\n').slice(0, -1);
  const isWhole = lines.at(-1) === 'DONE', states = [];
  for (const line of isWhole ? lines.slice(0, -1) : lines) {
    const edge = EDGE.exec(line);
    if (edge) {
      const [, , choice, to, chance, steps] = edge;
      states.at(-1).edges.push({ choice, to: Number(to), chance: Number(chance), steps: Number(steps) });
      continue;
    }
    const [, kind, number, weight, asks, quoted] = STATE_LINE.exec(line);
    const [statement, chance] = kind === 'end' ? [] : asks.split(':').map(Number);
    const said = { number: Number(number), kind, weight, asks, statement, chance };
    states.push({ ...said, quoted, output: unquoted(quoted), edges: [] });
  }
  return { states, isWhole };
}

// Joins the ends that have the same outcome: the first of them has the weight of all.
function joinEnds(states) {
  const firsts = new Map(), stands = states.map((state) => {
    if (state.kind !== 'end') return state.number;
    const key = `${state.asks} ${state.output}`, first = firsts.get(key) ?? state;
    firsts.set(key, first);
    first.share = (first.share ?? 0) + shareOf(state.weight);
    first.ends = (first.ends ?? 0) + 1;
    return first.number;
  });
  for (const { edges } of states) for (const edge of edges) edge.to = stands[edge.to];
  return states.filter(({ number }) => stands[number] === number);
}

// Finds about how often a run comes to each state, as far as the work allows. Only the choice of what is drawn uses it.
function countVisits(states) {
  const edges = states.reduce((sum, state) => sum + state.edges.length, 0);
  for (const state of states) state.visits = 0;
  let coming = new Map([[0, 1]]);
  for (let round = Math.max(20, Math.min(1000, WORK / (edges + 1))); round > 0 && coming.size; round -= 1) {
    const going = new Map();
    for (const [at, more] of coming) {
      states[at].visits += more;
      for (const { to, chance } of states[at].kind === 'state' ? states[at].edges : []) {
        going.set(to, (going.get(to) ?? 0) + more * chance / 100);
      }
    }
    coming = new Map([...going].filter(([, more]) => more > 1e-12));
  }
}

// Returns the states that are drawn: of all to which an edge leads, always the heaviest, at most so many. Each has the
// choices that lead to it first.
function heaviest(states, most) {
  const drawn = new Set(), waiting = new Set([states[0]]);
  states[0].digits = '';
  while (waiting.size && drawn.size < most) {
    const next = [...waiting].reduce((one, other) => (other.visits > one.visits ? other : one));
    waiting.delete(next);
    drawn.add(next);
    for (const { to, choice } of next.edges) {
      const state = states[to];
      state.digits ??= next.digits + (choice === '-' ? '' : choice);
      if (!drawn.has(state)) waiting.add(state);
    }
  }
  return [...drawn].toSorted((one, other) => one.number - other.number);
}

// Returns the states that are drawn, with what each has written since the states before, and the count of all states.
function drawnStates(states, most = MOST_DRAWN) {
  const left = joinEnds(states);
  countVisits(states);
  const before = new Map();
  for (const { edges, output } of states) {
    for (const { to } of edges) before.set(to, Math.min(before.get(to) ?? Infinity, output.length));
  }
  const shown = heaviest(states, most);
  for (const state of shown) {
    const from = state.kind === 'end' ? 0 : before.get(state.number) ?? 0;
    Object.assign(state, { pieces: piecesOf(state.output), since: piecesOf(state.output.slice(from)) });
  }
  return { shown, all: left.length };
}
