// The drawing of states as SVG: in columns by the number of choices that lead to them, with loops that go back.
'use strict';

const GAP = 68, LANE = 46; // between what is said in two columns, and between two rows
const PORT = 11, SAID = 62; // how far two lines leave apart, and the room of what is said on one
const LOOP = 24; // what a loop needs above its state
const SWEEPS = 8;
const TIP = 7; // the length of an arrow

// Returns the spans of a state's label.
function labelOfState(state) {
  const spans = spansOf(state.since), wrote = spans.length ? [span('  '), ...spans] : [];
  if (state.kind === 'end') {
    return [span(state.asks, 'end'), ...wrote, span(`  ${percentOf(String(state.share))}`, 'many')];
  }
  const asker = span(state.asks.replace(':', ' %'), 'asker');
  if (state.kind === 'state') return [asker, ...wrote];
  const weight = shareOf(state.weight) ? `, ${percentOf(state.weight)}` : '';
  return [asker, ...wrote, span('  never ends', 'end'), span(weight, 'many')];
}

// Returns what a screen reader says of a state.
function nameOfState(state, shown) {
  const wrote = state.pieces.length ? `, output ${spoken(state.pieces)}` : '';
  if (state.kind === 'end') return `End ${state.asks}, weight ${percentOf(String(state.share))}${wrote}`;
  const leads = state.edges.map(({ choice, to, chance }) => {
    const where = shown.has(to) ? `state ${to}` : 'a state that isn’t drawn';
    return choice === '-' ? `leads to ${where}` : `${choice} at ${chance} % leads to ${where}`;
  });
  const asks = state.chance === undefined ? 'asks nothing' : `asks with ${state.chance} %`;
  const never = state.kind === 'never' ? ', never ends' : '';
  return `State ${state.number}: statement ${state.statement} ${asks}${never}${wrote}. ${leads.join(', ')}`;
}

class Chart {
  constructor(shown) {
    this.states = new Map(shown.map((state) => [state.number, state]));
    for (const state of shown) {
      state.label = labelOfState(state);
      state.width = widthOf(state.label);
    }
    this.edges = shown.flatMap((state) => this.edgesOf(state));
    this.putInColumns(shown);
    this.putInRows();
  }

  // The edges of a state, one if both choices lead to the same. One to a state that isn't drawn has an end of its own.
  edgesOf(from) {
    const joined = new Map();
    for (const { choice, to, chance } of from.edges) {
      const found = joined.get(to) ?? { from, to: this.states.get(to) ?? null, choices: '', chance: 0 };
      joined.set(to, Object.assign(found, { choices: found.choices + choice, chance: found.chance + chance }));
    }
    return [...joined.values()];
  }

  // Each state goes behind the first that leads to it, and an end behind all that lead to it. What passes columns has a
  // bend in each of them, so that no line crosses a state.
  putInColumns(shown) {
    const [first] = shown, level = [first];
    for (const state of shown) state.column = null;
    first.column = 0;
    for (const state of level) {
      for (const { to } of this.edges.filter(({ from }) => from === state)) {
        if (!to || to.column !== null) continue;
        to.column = state.column + 1;
        level.push(to);
      }
    }
    for (const { from, to } of this.edges) {
      if (to?.kind === 'end') to.column = Math.max(to.column, from.column + 1);
    }
    this.columns = [];
    const put = (box) => (this.columns[box.column] ??= []).push(box);
    level.forEach(put);
    for (const edge of this.edges.filter(({ to }) => to)) {
      const { from, to } = edge, near = Math.min(from.column, to.column), far = Math.max(from.column, to.column);
      edge.isBack = to.column <= from.column;
      if (from === to) from.hasLoop = true;
      const bends = [];
      for (let column = near + 1; column < far; column += 1) bends.push({ isBend: true, column });
      bends.forEach(put);
      edge.way = edge.isBack ? [from, ...bends.toReversed(), to] : [from, ...bends, to];
    }
  }

  // Rows by the mean row of what leads to a box or comes behind it, forth and back. No two boxes of a column touch.
  putInRows() {
    const before = new Map(), behind = new Map();
    const add = (map, key, value) => map.set(key, [...map.get(key) ?? [], value]);
    for (const { way } of this.edges.filter(({ to }) => to)) {
      for (let at = 1; at < way.length; at += 1) {
        const [one, other] = way[at].column > way[at - 1].column ? [way[at - 1], way[at]] : [way[at], way[at - 1]];
        if (one.column === other.column) continue;
        add(before, other, one);
        add(behind, one, other);
      }
    }
    for (const column of this.columns) column.forEach((box, at) => Object.assign(box, { y: at * LANE }));
    for (let sweep = 0; sweep < SWEEPS; sweep += 1) {
      const [columns, near] = sweep % 2 ? [this.columns.toReversed(), behind] : [this.columns, before];
      for (const column of columns) {
        for (const box of column) {
          const boxes = near.get(box) ?? [];
          box.wanted = boxes.length ? boxes.reduce((sum, { y }) => sum + y, 0) / boxes.length : box.y;
        }
        column.sort((one, other) => one.wanted - other.wanted);
        spread(column);
      }
    }
    const boxes = this.columns.flat(), top = Math.min(...boxes.map((box) => box.y - (box.hasLoop ? LOOP : 0)));
    let left = MARGIN;
    for (const column of this.columns) {
      const width = Math.max(24, ...column.map((box) => box.width ?? 0));
      for (const box of column) {
        Object.assign(box, { x: box.isBend ? left + width / 2 : left, y: box.y + MARGIN + BOX / 2 - top });
      }
      left += width + this.gapBehind(column);
    }
    const states = boxes.filter((box) => !box.isBend);
    this.right = Math.max(...states.map((box) => box.x + box.width + (this.isOpen(box) ? 2 * SAID : 0)));
    this.bottom = Math.max(...boxes.map(({ y }) => y)) + BOX / 2;
  }

  // Returns the room behind a column: for what lines say that leave it, and that go back to it or beyond.
  gapBehind(column) {
    const [{ column: at }] = column, leaves = this.edges.filter(({ from }) => from.column === at);
    const isSaid = leaves.some(({ from, to, choices }) =>
      choices !== '-' && (!to || (to.column >= at && to !== from)));
    const goesBack = this.edges.some(({ from, to }) => to && from.column === at + 1 && to.column <= at);
    return GAP + (isSaid ? SAID + 10 : 0) + (goesBack ? SAID + 20 : 0);
  }

  isOpen(state) {
    return this.edges.some(({ from, to }) => from === state && (!to || to.column === from.column));
  }

  // Returns how far above or below the middle of its state a line leaves: two that leave on one side are apart.
  portOf(edge) {
    const heightOf = ({ to, way }) => (to ? way[1].y : Infinity);
    const sideOf = ({ from, to }) => (to ? Math.sign(to.column - from.column) : 1);
    const leaving = this.edges.filter((it) => it.from === edge.from && sideOf(it) === sideOf(edge));
    if (leaving.length < 2) return 0;
    const [one, other] = leaving.toSorted((a, b) => heightOf(a) - heightOf(b));
    return edge === one ? -PORT : edge === other ? PORT : 0;
  }

  // Returns the path of a line, and where it says its choices.
  pathOf(edge) {
    const { from, to, way, choices } = edge, right = from.x + from.width;
    if (from === to) {
      const x = from.x + from.width / 2, y = from.y - BOX / 2;
      return [`M${x + 14} ${y}C${x + 38} ${y - 30} ${x - 38} ${y - 30} ${x - 14} ${y}`, x, y - 22];
    }
    if (edge.isBack && to.column === from.column) {
      const reach = Math.max(right, to.x + to.width) + 2 * SAID - 24;
      return [`M${right} ${from.y}C${reach} ${from.y} ${reach} ${to.y} ${to.x + to.width} ${to.y}`,
        reach - 14, (from.y + to.y) / 2];
    }
    // The line has a gap where it says its choice.
    const port = this.portOf(edge), y = from.y + port;
    if (edge.isBack) {
      const x = from.x - 10, path = `M${from.x} ${from.y + port / 2}L${x} ${y}M${x - SAID} ${y}`;
      return [curve(path, x - SAID, y, way.slice(1), (box) => box.x + (box.width ?? 0)), x - SAID / 2, y];
    }
    const x = right + 10, said = choices === '-' ? x : x + SAID;
    const path = `M${right} ${from.y + port / 2}L${x} ${y}M${said} ${y}`;
    return [to ? curve(path, said, y, way.slice(1), (box) => box.x) : path, x + SAID / 2, y];
  }

  lineOf(edge) {
    const [d, x, y] = this.pathOf(edge), { choices, chance, to } = edge;
    const name = `${choices === '0' ? 'line' : 'line one'}${edge.isBack ? ' back' : ''}`;
    const label = choices === '-' ? '' : `${[...choices].join('/')} · ${chance} %`;
    const rest = to ? [] : [drawn('text', { class: 'rest', x: x + SAID / 2 + 4, y: y + 5 }, '…')];
    const tip = to ? { 'marker-end': `url(#${edge.isBack ? 'back-tip' : 'tip'})` } : {};
    return [drawn('path', { class: name, d, ...tip }),
      drawn('text', { class: 'digit', x, y: y + 4 }, label), ...rest];
  }

  box(state) {
    const name = nameOfState(state, this.states), { number, kind, statement, digits } = state;
    const rect = { class: 'box', x: state.x, y: state.y - BOX / 2, width: state.width, height: BOX, rx: 6 };
    const spans = state.label.map((it) => drawn('tspan', it.kind ? { class: it.kind } : {}, it.text));
    const look = { end: kindOf(state.asks), never: ' limit' }[kind] ?? ' asks';
    return drawn('g', { class: `state${look}`, role: 'button', tabindex: -1, 'aria-label': name,
      'data-state': number, 'data-statement': statement ?? '', 'data-choices': textOf(groupsOf(digits)) },
    drawn('title', {}, name), drawn('rect', rect), drawn('text', { x: state.x + 8, y: state.y + 5 }, ...spans));
  }

  // The states in the order of the arrow keys: by columns, and from top to bottom.
  inOrder() {
    return this.columns.flatMap((column) => column.filter((box) => !box.isBend));
  }

  svg() {
    const size = { width: Math.ceil(this.right + MARGIN), height: Math.ceil(this.bottom + MARGIN) };
    const lines = this.edges.flatMap((edge) => this.lineOf(edge));
    const [paths, texts] = ['path', 'text'].map((name) => lines.filter((it) => it.tagName === name));
    const tips = drawn('defs', {}, tipOf('tip'), tipOf('back-tip'));
    return drawn('svg', { ...size, viewBox: `0 0 ${size.width} ${size.height}` }, tips,
      drawn('g', { 'aria-hidden': true }, ...paths, ...texts), ...this.inOrder().map((state) => this.box(state)));
  }
}

const tipOf = (id) => drawn('marker', { id, viewBox: `0 0 ${TIP} ${TIP}`, refX: TIP, refY: TIP / 2, markerWidth: TIP,
  markerHeight: TIP, markerUnits: 'userSpaceOnUse', orient: 'auto' },
drawn('path', { class: id, d: `M0 0L${TIP} ${TIP / 2}L0 ${TIP}z` }));

// Returns a path that goes on from a place through boxes.
function curve(path, x, y, boxes, edgeOf) {
  for (const box of boxes) {
    const end = edgeOf(box), reach = (end - x) / 2;
    path += `C${x + reach} ${y} ${end - reach} ${box.y} ${end} ${box.y}`;
    [x, y] = [end, box.y];
  }
  return path;
}

// Puts the boxes of a column as near to their rows as their order and their heights allow. A bend needs less room, and
// a loop more.
function spread(column) {
  const room = (one, other) => (one.isBend && other.isBend ? LANE / 2 : LANE) + (other.hasLoop ? LOOP : 0);
  let sum = 0;
  column.forEach((box, at) => {
    const above = column[at - 1];
    box.y = above ? Math.max(box.wanted, above.y + room(above, box)) : box.wanted;
    sum += box.wanted - box.y;
  });
  for (const box of column) box.y += sum / column.length;
}

// The part of the page that shows the states. `follow` is told which statement is pointed at, or null, and `run` the
// element of a state that is to be run to.
class StatesView {
  constructor(place, follow, run) {
    Object.assign(this, { place, follow, run, frame: place.querySelector('.frame') });
    const stateOf = ({ target }) => target.closest?.('.state');
    this.frame.onkeydown = (event) => this.press(event);
    this.frame.onclick = (event) => {
      const state = stateOf(event);
      if (state) run(state);
    };
    this.frame.onpointerover = (event) => this.point(stateOf(event));
    this.frame.onpointerleave = () => this.point(null);
    this.frame.addEventListener('focusin', (event) => this.point(stateOf(event)));
    this.frame.addEventListener('focusout', () => this.point(null));
    place.querySelector('.fit').onclick = ({ target }) => {
      const isFitted = target.getAttribute('aria-pressed') !== 'true';
      target.setAttribute('aria-pressed', isFitted);
      this.frame.classList.toggle('fitted', isFitted);
    };
  }

  // Draws states. Returns what is said of them.
  show(states) {
    const { shown, all } = drawnStates(states);
    this.chart = new Chart(shown);
    const svg = this.chart.svg();
    this.frame.replaceChildren(svg);
    svg.style.maxWidth = `${svg.getAttribute('width')}px`;
    this.frame.classList.toggle('narrowed', this.frame.clientWidth >= NARROWEST * Number(svg.getAttribute('width')));
    this.frame.querySelector('.state').setAttribute('tabindex', '0');
    const scale = svg.clientHeight / Number(svg.getAttribute('height'));
    this.frame.scrollTo(0, shown[0].y * scale - this.frame.clientHeight / 2);
    const cut = `The ${shown.length} heaviest of ${all.toLocaleString('en')} states: of those that a line leads to,`
      + ' always the one to which runs come most often, by floating-point numbers. “…” is a state that isn’t drawn.';
    this.place.querySelector('.cut').textContent = shown.length < all ? cut : '';
  }

  // Marks the states that are asked by the same statement, and tells which statement it is.
  point(state) {
    const statement = state?.dataset.statement || null;
    for (const other of this.frame.querySelectorAll('.state')) {
      other.classList.toggle('on', statement !== null && other.dataset.statement === statement);
    }
    this.follow(statement === null ? null : Number(statement));
  }

  // Goes to the next state by an arrow key: up and down in its column, and to the nearest of the columns beside it.
  press(event) {
    const at = document.activeElement.dataset?.state, order = this.chart.inOrder();
    if (at === undefined) return;
    if (event.key === 'Enter' || event.key === ' ') {
      event.preventDefault();
      this.run(document.activeElement);
      return;
    }
    const here = this.chart.states.get(Number(at)), next = nextState(event.key, here, order);
    if (!next) return;
    event.preventDefault();
    for (const other of this.frame.querySelectorAll('.state')) {
      const isNext = other.dataset.state === String(next.number);
      other.setAttribute('tabindex', isNext ? 0 : -1);
      if (isNext) other.focus();
    }
  }
}

// Returns the state to which a key leads from another, or undefined.
function nextState(key, here, order) {
  const nearest = (states) => states.toSorted((one, other) => Math.abs(one.y - here.y) - Math.abs(other.y - here.y))[0];
  const column = order.filter((it) => it.column === here.column), at = column.indexOf(here);
  const beside = (far) => order.filter((it) => far(it.column)).map((it) => it.column);
  if (key === 'ArrowUp') return column[at - 1];
  if (key === 'ArrowDown') return column[at + 1];
  if (key === 'Home') return order[0];
  if (key === 'End') return order.at(-1);
  if (key === 'ArrowRight') {
    const next = Math.min(...beside((it) => it > here.column));
    return nearest(order.filter((it) => it.column === next));
  }
  if (key !== 'ArrowLeft') return undefined;
  const before = Math.max(...beside((it) => it < here.column));
  return nearest(order.filter((it) => it.column === before));
}
