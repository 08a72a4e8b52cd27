// The lines that `ick runs` prints, and lists of choices as text.
'use strict';

const RUN = /^(\S+) (\S+) "(.*)"$/;
const CODE = /\\(n|\\|"|x[0-9a-f]{2})/g;
const NAMED = { n: '\n', '\\': '\\', '"': '"' };

// Returns the text between quotes as it was, with one character for each byte.
function unquoted(text) {
  return text.replace(CODE, (_, code) => NAMED[code] ?? String.fromCharCode(parseInt(code.slice(1), 16)));
}

// Returns the text of bytes that are given by one character each.
const textOfLetters = (letters) => new TextDecoder().decode(Uint8Array.from(letters, (letter) => letter.charCodeAt(0)));

// Reads a listing, perhaps one that is cut off: its runs, and whether no further run exists.
function readListing(text) {
  const lines = text.slice(0, text.lastIndexOf('\n') + 1).split('\n').slice(0, -1);
  const isWhole = lines.at(-1) === 'DONE';
  if (isWhole || lines.at(-1) === 'MORE') lines.pop();
  const runs = lines.map((line) => {
    const [, choices, end, quoted] = RUN.exec(line);
    return { line, choices, end, quoted };
  });
  return { runs, isWhole };
}

// Returns the first choices that a text stands for, plain or in groups, as digits: at most so many.
function choicesOf(text, most) {
  if (text === '-') return '';
  if (!text.includes('*')) return text.slice(0, most);
  let digits = '';
  for (const group of text.split(',')) {
    const [digit, count] = group.split('*');
    digits += digit.repeat(Math.min(Number(count), most - digits.length));
  }
  return digits;
}

// Returns the groups of a text of choices: each is a digit and how often it comes.
function groupsOf(text) {
  if (text === '' || text === '-') return [];
  if (!text.includes('*')) return (text.match(/0+|1+/g) ?? []).map((group) => [group[0], group.length]);
  return text.split(',').map((group) => [group[0], Number(group.slice(2))]);
}

// Returns the text of these groups: plain up to 64 choices, as `ick` prints it.
function textOf(groups) {
  const length = groups.reduce((sum, [, count]) => sum + count, 0);
  if (length > 64) return groups.map(([digit, count]) => `${digit}*${count}`).join();
  return groups.map(([digit, count]) => digit.repeat(count)).join('');
}

// Returns the text of choices with one more behind.
function withChoice(text, digit) {
  const groups = groupsOf(text), last = groups.at(-1);
  if (last?.[0] === digit) last[1] += 1;
  else groups.push([digit, 1]);
  return textOf(groups);
}

// Returns the text of choices without the last one.
function withoutLast(text) {
  const groups = groupsOf(text);
  if (groups.length === 0) return '';
  groups.at(-1)[1] -= 1;
  return textOf(groups.filter(([, count]) => count > 0));
}
