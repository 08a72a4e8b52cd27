// The outcomes that `ick-outcomes` prints, as bars by their weights; and what the choices of runs were asked by.
'use strict';

const OUTCOME = /^(\d+|\*) (\S+) (\S+) (\S+) "(.*)"$/;
const BARS = 500; // outcomes that are shown first, and that each press of a button adds

// Tells whether a line is about runs without an end: those that reach the limit, or that never end. It is no outcome.
const isOpen = ({ end }) => end === 'LIMIT' || end === 'NEVER';

// Reads what `ick-outcomes` prints, perhaps cut off: of each line the number of its runs, their weight and the first of
// them, the end and the output in quotes. Says whether there are no others.
function readOutcomes(text) {
  const lines = text.slice(0, text.lastIndexOf('\n') + 1).split('\n').slice(0, -1);
  const isWhole = lines.at(-1) === 'DONE';
  if (isWhole) lines.pop();
  const found = lines.map((line) => {
    const [, count, weight, choices, end, quoted] = OUTCOME.exec(line);
    return { line, count, weight, choices, end, quoted, share: shareOf(weight) };
  });
  return { lines: found, open: found.filter(isOpen), outcomes: found.filter((it) => !isOpen(it)), isWhole };
}

// Returns a weight as a number. A fraction is exact, and so is a decimal without `..` behind it.
function shareOf(weight) {
  const [above, below = '1'] = weight.split('/');
  return Number.parseFloat(above) / Number.parseFloat(below);
}

// Reads what the choices of runs were asked by: for each line the texts of its choices, as `2 %50`.
function readAskers(text) {
  const lines = text.slice(0, text.lastIndexOf('\n') + 1).split('\n').slice(0, -1);
  return lines.map((line) => line.split(' ').filter(Boolean).map((asker) => asker.replace(':', ' %')));
}

// Returns a weight in percent, with three digits that count. A small one has two, since its number could be 0.
function percentOf(weight) {
  const share = 100 * shareOf(weight);
  if (share >= 1e-3) return `${Number(share.toPrecision(3))} %`;
  if (weight.includes('/')) return `${share.toExponential(1)} %`;
  const [, zeros, first, second] = /^0\.(0*)(.)(\d?)/.exec(weight);
  return `${first}.${second || 0}e-${zeros.length - 1} %`;
}

// Says how much of the program lies behind the limit, or never ends, or returns ''.
function openOf(lines) {
  if (lines.length === 0) return '';
  const said = lines[0].end === 'NEVER' ? 'never ends' : 'lies behind the limit';
  const sum = lines.reduce((all, { share }) => all + share, 0);
  const percent = lines.length === 1 ? percentOf(lines[0].weight) : percentOf(String(sum.toFixed(20)));
  return `${sum < 1e-5 && lines.length > 1 ? 'less than 0.001 %' : percent} ${said}`;
}

// Returns the number of an outcome's runs in words. A number of many digits is shortened.
function runsOf(count) {
  if (count === '*') return 'infinitely many runs';
  if (count.length > 15) return `about 10^${count.length - 1} runs`;
  return counted(Number(count), 'run');
}

// Returns outcomes as they are shown: those with the greatest weights first, or in the order of their first runs.
const sorted = (outcomes, isByWeight) =>
  (isByWeight ? outcomes.toSorted((one, other) => other.share - one.share) : outcomes);

function element(name, fields, ...inside) {
  const made = Object.assign(document.createElement(name), fields);
  made.append(...inside);
  return made;
}

// Returns the item of a line: its bar by the greatest weight of an outcome, its weight, its end, its output and the
// number of its runs. Its button has the choices of its first run. Runs without an end have no bar.
function outcomeItem({ count, weight, share, choices, end, quoted }, greatest) {
  const pieces = piecesOf(unquoted(quoted)), percent = percentOf(weight), runs = runsOf(count);
  const fill = element('span', { className: 'fill' }), track = element('span', { className: 'track' }, fill);
  fill.style.width = `${100 * share / greatest}%`;
  const output = spansOf(pieces).map(({ text, kind }) => element('span', { className: kind, textContent: text }));
  const shown = weight.includes('/') ? `${weight} = ${percent}` : percent;
  const button = element('button', {
    type: 'button', className: `outcome${kindOf(end)}`, title: `Weight ${weight}, ${runs}. Runs ${choices} again`,
  }, isOpen({ end }) ? element('span', { className: 'none' }) : track,
  element('b', { className: 'weight', textContent: shown }),
  element('span', { className: 'end', textContent: end }), element('span', { className: 'wrote' }, ...output),
  element('span', { className: 'many', textContent: runs }));
  button.dataset.choices = choices;
  const name = `Weight ${shown}, ${runs}, ${end}, output ${spoken(pieces)}. Run ${choices} again`;
  button.setAttribute('aria-label', name);
  return element('li', {}, button);
}
