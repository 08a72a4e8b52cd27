// The numerals that READ OUT prints, and the pieces of an output.
'use strict';

// The letters of each decimal place for 1, 5 and 10. A `_` before a letter is its bar.
const PLACES = ['I V X', 'X L C', 'C D M', 'M _V _X', '_X _L _C', '_C _D _M', '_M v x', 'x l c', 'c d m', 'm _v -'];
const DIGITS = ['', 'a', 'aa', 'aaa', 'ab', 'b', 'ba', 'baa', 'baaa', 'ac'];
const WORTH = { I: 1, V: 5, X: 10, L: 50, C: 100, D: 500, M: 1000 };

// Returns the line of bars and the line of letters of a number, without line ends.
function numeralOf(number) {
  if (number === 0) return ['_', ''];
  const digits = [...String(number)];
  const symbols = digits.flatMap((digit, at) => {
    const letters = PLACES[digits.length - 1 - at].split(' ');
    return [...DIGITS[digit]].map((which) => letters['abc'.indexOf(which)]);
  });
  const bars = symbols.map((symbol) => (symbol.length > 1 ? '_' : ' ')).join('').trimEnd();
  return [bars, symbols.map((symbol) => symbol.at(-1)).join('')];
}

// Returns the number whose numeral is these two lines, or null.
function numberOf(bars, letters) {
  if (!/^[ _]*$/.test(bars) || !/^[IVXLCDMivxlcdm]*$/.test(letters) || letters.length > 39) return null;
  const worths = [...letters].map((letter, at) =>
    WORTH[letter.toUpperCase()] * (letter > 'Z' ? 1e6 : 1) * (bars[at] === '_' ? 1000 : 1));
  const number = worths.reduce((sum, worth, at) => sum + (worths[at + 1] > worth ? -worth : worth), 0);
  if (number < 0 || number >= 2 ** 32) return null;
  const [wantedBars, wantedLetters] = numeralOf(number);
  return bars === wantedBars && letters === wantedLetters ? number : null;
}

// Returns the number of a piece of output that is a numeral, or null.
function numberOfPiece(piece) {
  const [bars, letters, ...rest] = piece.split('\n');
  return rest.length === 1 ? numberOf(bars, letters) : null;
}

// Returns the pieces of an output, in order: both lines of each numeral, and each other line, with their ends.
function piecesOf(output) {
  const lines = output.split('\n'), pieces = [];
  for (let at = 0; at < lines.length; at += 1) {
    if (at + 2 < lines.length && numberOf(lines[at], lines[at + 1]) !== null) {
      pieces.push(`${lines[at]}\n${lines[at + 1]}\n`);
      at += 1;
    } else if (at + 1 < lines.length) {
      pieces.push(`${lines[at]}\n`);
    } else if (lines[at]) {
      pieces.push(lines[at]);
    }
  }
  return pieces;
}
