// Files of what is shown: programs, listings, outcomes and stages as text, all but programs as JSON as `ick-json` prints
// it, and trees as SVG.
'use strict';

const TYPES = { i: 'text/plain', txt: 'text/plain', json: 'application/json', svg: 'image/svg+xml' };

function saveFile(name, kind, text) {
  const link = document.createElement('a');
  link.href = URL.createObjectURL(new Blob([text], { type: TYPES[kind] }));
  link.download = `${name}.${kind}`;
  link.click();
  setTimeout(() => URL.revokeObjectURL(link.href), 1000);
}

// Returns the terms of a fraction or a decimal in lowest terms, or nulls if digits of it are left out.
function termsOf(weight) {
  if (weight.endsWith('..')) return [null, null];
  const [above, below = '1'] = weight.split('/'), [whole, digits = ''] = above.split('.');
  const top = BigInt(whole + digits), bottom = BigInt(below) * 10n ** BigInt(digits.length);
  let [divisor, rest] = [bottom, top];
  while (rest > 0n) [divisor, rest] = [rest, divisor % rest];
  return [top / divisor, bottom / divisor];
}

// Returns the fields of a run as ick-json has them.
function fieldsOf({ choices, end, quoted }) {
  const letters = unquoted(quoted);
  const [, fault, statement] = /^E(\d+)@(\d+)$/.exec(end) ?? [];
  const ended = fault ? { end: 'FAULT', fault: Number(fault), statement: Number(statement) } : { end };
  return { choices, ...ended, output: textOfLetters(letters), base64: btoa(letters) };
}

function fieldsOfOutcome(outcome) {
  const { count, weight, share } = outcome, [numerator, denominator] = termsOf(weight);
  return { runs: count === '*' ? null : BigInt(count), weight, numerator, denominator, decimal: share,
    ...fieldsOf(outcome) };
}

// Returns the fields of a line of stages: those of a statement with its text.
function fieldsOfStages({ letters, ...fields }) {
  return letters === undefined ? fields : { ...fields, text: textOfLetters(letters), base64: btoa(letters) };
}

// Returns the lines of states as objects.
function linesOfStates(text) {
  return readStates(text).states.flatMap(({ number, kind, weight, asks, statement, chance, quoted, edges }) => {
    const { choices, ...fields } = kind === 'end' ? fieldsOf({ end: asks, quoted })
      : { end: null, output: textOfLetters(unquoted(quoted)), base64: btoa(unquoted(quoted)) };
    const asked = kind === 'end' ? {} : { asks: statement, chance: chance ?? null };
    const lines = edges.map(({ choice, to, chance: percent, steps }) =>
      ({ from: number, choice: choice === '-' ? null : Number(choice), to, chance: percent, steps }));
    return [{ state: number, kind, weight: weight ?? null, ...asked, ...fields }, ...lines];
  });
}

// Returns objects as lines of JSON. Whole numbers may have any number of digits.
function linesOfJson(objects) {
  const text = (value) => (typeof value === 'bigint' ? String(value) : JSON.stringify(value));
  const line = (object) =>
    `{${Object.entries(object).map(([name, value]) => `${JSON.stringify(name)}: ${text(value)}`).join(', ')}}\n`;
  return objects.map(line).join('');
}

// Returns a drawing as a file of its own, with the colours that it has now.
function textOfDrawing(svg) {
  const copy = svg.cloneNode(true), style = getComputedStyle(svg);
  const colour = (name) => style.getPropertyValue(name).trim();
  const rules = [...document.styleSheets].flatMap((sheet) => [...sheet.cssRules]).map((rule) => rule.cssText)
    .filter((text) => /^[^{]*\bsvg\b/.test(text));
  const coloured = rules.map((text) => text.replace(/var\((--[\w-]+)\)/g, (_, name) => colour(name)));
  copy.prepend(drawn('style', {}, coloured.join('\n')),
    drawn('rect', { width: '100%', height: '100%', fill: colour('--field') }));
  return `${new XMLSerializer().serializeToString(copy)}\n`;
}
