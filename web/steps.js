// A session of `ick-step`: its commands, and what the last of them printed.
'use strict';

const SHOWS = ['list', 'state', 'output']; // behind the commands, which they change nothing of
const STATE = /^next statement: \d+ of \d+\nNEXT stack:/m;
const AROUND = /(?:[> ] \d+ \d+:\d+ ".*"\n)*$/;

// Returns the standard input of a session: all commands so far, and those that show where it is.
const linesOf = (commands) => [...commands, ...SHOWS].map((line) => `${line}\n`).join('');

// Cuts what a session printed behind its earlier answers: into the answer to the last command, the statements around the
// next one, the state and the program's output. Says how long all answers are.
function readSession(bytes, before) {
  const rest = bytes.subarray(before), letters = new TextDecoder('latin1').decode(rest); // a character for each byte
  const shows = letters.search(STATE), lists = AROUND.exec(letters.slice(0, shows)).index;
  const ends = rest.length - Number(/^output: (\d+)$/m.exec(letters.slice(shows))[1]);
  const places = [0, lists, shows, ends, rest.length];
  const pieces = places.slice(1).map((end, at) => new TextDecoder().decode(rest.subarray(places[at], end)));
  const [answer, around, state, output] = pieces;
  return { answer, around, state, output, printed: before + lists };
}

// Returns the statement that is met next and its line, or null if it is none of the program's.
function metIn(around) {
  const met = /^> (\d+) (\d+):/m.exec(around);
  return met && { number: Number(met[1]), line: Number(met[2]) };
}

// Tells whether a choice is asked behind an answer. An answer without a place leaves the session where it was.
function asksBehind(answer, asked) {
  return /^\d+ /m.test(answer) ? /^ {2}asks %\d+\n$/m.test(answer.split(/^(?=\d+ )/m).at(-1)) : asked;
}

// Returns the numbers of the statements that have a breakpoint behind these commands.
function breakpointsOf(commands) {
  const found = new Set();
  for (const [verb, number] of commands.map((line) => line.split(' '))) {
    if (verb === 'break') found.add(Number(number));
    if (verb === 'delete') found.delete(Number(number));
  }
  return found;
}

// Returns the lines of a text as elements. Each one that `isMarked` holds of is marked.
function linesOfText(text, isMarked) {
  return text.split('\n').slice(0, -1).map((line) =>
    Object.assign(document.createElement(isMarked(line) ? 'mark' : 'span'), { textContent: `${line}\n` }));
}
