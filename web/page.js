// The form, and the answers to what it asks.
'use strict';

const $ = (id) => document.getElementById(id);
const bytesOf = (text) => new TextEncoder().encode(text);
const argvOf = (words) => bytesOf(words.map((word) => `${word}\0`).join(''));

const MOST = 1 << 22; // bytes of an answer that the page takes
const MOST_OUTCOMES = (1 << 25) - 16; // bytes of outcomes that it takes: with its header, a block of heap.c
const SHOWN = 200000; // characters of a text that it shows
const DRAWN = 200; // parts of the tree that are drawn
const NARROWEST = .7; // how far a tree is narrowed at most, so that it fits and can still be read
const DEEPEST = 1e6; // choices of a run that are read
const LATE = 150; // milliseconds after which a call shows how long it takes, and how often it does
const PAUSE = 250; // milliseconds without a key, after which the program is looked over
const LIMIT_OF_RUNS = '10000'; // the default of `ick runs`, which is another one than that of `ick run`
const MOST_STATES = '20000'; // states that are searched for outcomes without a limit
const MOST_BYTES = '200000000'; // and the bytes that they may take, of a module that has 1 GiB
const SEARCH = { most: MOST_STATES, memory: MOST_BYTES };
const FIRST = 'quiet'; // the example that the page begins with
const FIELDS = ['source', 'input', 'choices', 'seed', 'limit', 'count'];
const STORE = 'ick.form'; // where the tab keeps the form
const PARTS = ['drawn', 'charted', 'written', 'said', 'question', 'stepped', 'staged', 'weighed', 'listed'];
const ASKED = 2000; // runs in a listing whose tree says what asks
const ADVISED = 200; // pieces of advice that are listed; the lines of all are marked
const HEADLINES = {
  0: ['ok', 'Done'], 1: ['bad', 'The run ends by a fault'], 2: ['bad', 'The program is refused'],
  3: ['wait', 'The run reaches its limit'], 4: ['bad', 'Something ran out or failed'],
  64: ['bad', 'An option is wrong'],
};
const GAVE_UP = ['ok', 'The program gave up'];
const UNABLE = 'This page needs WebAssembly, which this browser lacks or has switched off.';

const { examples, library, advice: tables, equations, made } = JSON.parse($('content').textContent);
const advice = new Advice(tables);
const advising = [...document.querySelectorAll('[data-advises]')].map((it) => it.textContent);
const reading = new Reading();
const adviser = new Adviser(advising, tables, reading, advise);
const editor = new Editor($('source'), $('numbers'), $('shown'));
const stagesView = new StagesView($('staged'), equations, follow);
const statesView = new StatesView($('charted'), followState, (place) => runAgain(place, charted.request));
let engine = null; // null if this browser can't run the module
let listing = null; // the runs that are shown, and what was asked for them
let charted = null; // what was asked for the states that are drawn, and their text
let weighed = null; // what was asked for the outcomes that are shown
let session = null; // the commands of the session that is shown, and what it has printed so far
let isBusy = false;
let filled = ''; // the form as it was last filled, as text: what differs was typed
let kept = null; // the form that was typed before an example or a file took its place
let failing = null; // the line of the last fault or refusal, and what is to be said of it
let meeting = null; // the statement that a session meets next, or whose stages are shown, and a line of it
let advised = { source: '', found: [] }; // the source that was looked over last, and what was found in it

/* The form */

const boxes = () => [...$('library').querySelectorAll('input')];

// Returns what the form holds. Its links and its examples have the same fields.
function form() {
  const fields = Object.fromEntries(FIELDS.map((id) => [id, $(id).value]));
  return { ...fields, library: boxes().filter((box) => box.checked).map((box) => box.value) };
}

function fill(fields) {
  for (const id of FIELDS) $(id).value = String(fields[id] ?? '');
  for (const box of boxes()) box.checked = Array.isArray(fields.library) && fields.library.includes(box.value);
  filled = JSON.stringify(form());
  advised = { source: '', found: [] };
  changed();
  mark();
}

// Fills the form, and keeps what was typed before.
function replace(fields) {
  if (JSON.stringify(form()) !== filled) kept = form();
  fill(fields);
  clear();
  $('kept').hidden = kept === null;
  $('shows').hidden = true;
}

function undo() {
  if (kept === null) return;
  fill(kept);
  [kept, filled] = [null, ''];
  $('kept').hidden = true;
  $('example').value = '';
  clear();
  $('source').focus();
}

// The tab keeps the form for a page that is loaded again. A browser may refuse that.
function store() {
  try {
    const fields = form(), isTyped = JSON.stringify(fields) !== filled;
    const found = { address: location.href, fields, isTyped, example: $('example').value };
    sessionStorage.setItem(STORE, JSON.stringify(found));
  } catch { /* the form is kept no longer than the page */ }
}

function restore() {
  try {
    const { address, fields, isTyped, example } = JSON.parse(sessionStorage.getItem(STORE));
    if (address !== location.href) return false;
    fill(fields);
    if (isTyped) filled = '';
    if (isTyped || !examples.some((it) => it.name === example)) $('example').value = example;
    else choose($('example').value = example);
    return true;
  } catch {
    return false;
  }
}

/* The program's lines */

let looking = 0;

// Draws the program anew, and looks it over when no key was pressed for a while.
function changed() {
  [failing, meeting] = [null, null];
  editor.draw();
  clearTimeout(looking);
  looking = setTimeout(() => {
    store();
    lookOver();
  }, PAUSE);
}

// Has the program looked over, unless that is done. The worker answers by `advise`.
function lookOver() {
  clearTimeout(looking);
  const fields = form(), isLookedOver = fields.source.trim() !== '' && fields.source.length <= COLOURED;
  const source = isLookedOver ? sourceOf(fields) : '';
  if (source === '') advised = { source, found: [] };
  if (source !== advised.source) adviser.look(source);
  mark();
}

// Takes what was found in a source, unless another one is in the form by now.
function advise(source, found) {
  if (source !== sourceOf(form())) return;
  advised = { source, found };
  mark();
  if (staged?.statement) stagesView.advise(advisedOn(staged.statement));
}

// Marks the lines of all advice, of the last fault or refusal, and of the statement that is met next.
function mark() {
  const most = $('source').value.split('\n').length, marks = new Map();
  const found = advised.found.map(({ line, text }) =>
    ({ line: Math.min(line, most), text, kind: text.startsWith('refused') ? 'bad' : 'wait' }));
  const all = failing ? [failing, ...found] : found;
  for (const { line, text, kind } of all) {
    const before = marks.get(line);
    marks.set(line, { kind: before?.kind === 'bad' ? 'bad' : kind, text: before ? `${before.text}\n${text}` : text });
  }
  if (meeting) marks.set(meeting.line, { kind: 'here', text: `Statement ${meeting.number} ${meeting.said}` });
  for (const { line, number } of stopping()) {
    const { kind, text } = marks.get(line) ?? { kind: '', text: '' };
    marks.set(line, { kind: `${kind} stop`.trim(), text: `${text}\nBreakpoint at statement ${number}`.trim() });
  }
  editor.mark(marks);
  const left = all.length - ADVISED, rest = left > 0 ? [element('li', { textContent: `… and ${left} more` })] : [];
  $('advice').replaceChildren(...all.slice(0, ADVISED).map(adviceItem), ...rest);
}

// Returns the statements of the session that have breakpoints, with their lines.
function stopping() {
  if (!session || session.request.file !== sourceOf(form())) return [];
  const { commands, read } = session.request;
  return [...breakpointsOf(commands)].map((number) => ({ number, line: lineOf(read[number - 1]) }));
}

const lineOf = ({ source, start }) => source.slice(0, start).split('\n').length;

// Sets a breakpoint at the first statement that begins on a line, or deletes it.
function toggleBreakpoint(line) {
  if (!session || session.request.file !== sourceOf(form())) return;
  const { read, commands } = session.request, { starts, source } = editor;
  const [start, end] = [starts[line - 1], starts[line] ?? source.length];
  const statement = read.find((it) => it.start >= start && it.start < end);
  if (statement) command(`${breakpointsOf(commands).has(statement.number) ? 'delete' : 'break'} ${statement.number}`);
}

function adviceItem({ line, text, kind }) {
  const button = Object.assign(document.createElement('button'), { type: 'button' });
  button.append(Object.assign(document.createElement('b'), { textContent: `Line ${line}` }), ` ${text}`);
  button.onclick = () => goToLine(line);
  const item = Object.assign(document.createElement('li'), { className: kind });
  item.append(button);
  return item;
}

function goToLine(line) {
  const { starts } = editor, { value } = $('source');
  $('source').focus();
  $('source').setSelectionRange(starts[line - 1], line < starts.length ? starts[line] - 1 : value.length);
  editor.reveal(line);
}

// Marks the line of the statement that a message names by the number behind it.
function markFailing({ read }, errors) {
  const found = /^ICL(\d+)I .*\n\s+ON THE WAY TO (\d+)\n/s.exec(errors);
  const statement = found && read[Number(found[2]) - 2];
  failing = null;
  if (statement) {
    const line = lineOf(statement), most = $('source').value.split('\n').length;
    const where = line > most ? ', in the library' : '';
    failing = { line: Math.min(line, most), kind: 'bad', text: `E${found[1]} at statement ${statement.number}${where}` };
  }
  lookOver();
}

/* Files */

async function openFile(file) {
  if (file) replace({ ...form(), source: await file.text() });
  $('example').value = '';
}

const nameOfProgram = () => $('example').value || 'program';

// Returns the file of a part of the answer, of a kind that its button names.
const FILES = {
  'runs txt': () => textOfListing(),
  'runs json': () => linesOfJson([...listing.runs.map(fieldsOf), { listing: listing.isWhole ? 'DONE' : 'MORE' }]),
  'outcomes txt': () => weighed.text,
  'outcomes json': () =>
    linesOfJson([...weighed.lines.map(fieldsOfOutcome), ...(weighed.isWhole ? [{ listing: 'DONE' }] : [])]),
  'stages txt': () => staged.text,
  'stages json': () => linesOfJson([...linesOfStages(staged.text).map(fieldsOfStages), { listing: 'DONE' }]),
  'stages svg': () => textOfDrawing($('nodes').querySelector('svg')),
  'states txt': () => charted.text,
  'states json': () => linesOfJson([...linesOfStates(charted.text), { listing: 'DONE' }]),
  'states svg': () => textOfDrawing($('charted').querySelector('svg')),
  'tree svg': () => textOfDrawing($('tree').querySelector('svg')),
};

function saveAnswer({ dataset: { save: what } }) {
  const [part, kind] = what.split(' ');
  saveFile(`${nameOfProgram()}-${part}`, kind, FILES[what]());
}

// Returns the whole source: the program, and behind it the library's files, in place of routines that are there.
function sourceOf({ source: text, library: names }) {
  if (names.length === 0) return text;
  const source = advice.own(text);
  return source + (source.endsWith('\n') ? '' : '\n') + names.map((name) => library[name]).join('');
}

// Fills in an example, and says what it shows and which options it fills in: a phone doesn't show these beside it.
function choose(name) {
  const example = examples.find((it) => it.name === name) ?? {};
  replace(example);
  $('shows').hidden = !example.shows;
  const labelOf = (id) => document.querySelector(`[for=${id}]`).textContent.toLowerCase();
  const options = ['choices', 'seed', 'limit'].filter((id) => example[id]).map((id) => `${labelOf(id)} ${example[id]}`);
  $('shows').textContent = `${example.shows}${options.length ? ` It fills in: ${options.join(', ')}.` : ''}`;
}

function makeForm() {
  for (const name of Object.keys(library)) {
    const label = document.createElement('label');
    label.append(Object.assign(document.createElement('input'), { type: 'checkbox', value: name }), name);
    $('library').append(label);
  }
  for (const group of new Set(examples.map((it) => it.group))) {
    const made = Object.assign(document.createElement('optgroup'), { label: group });
    const titled = ({ name, shows }) => new Option(shows ? `${name}: ${shows}` : name, name);
    made.append(...examples.filter((it) => it.group === group).map(titled));
    $('example').append(made);
  }
}

/* The answer */

function say([kind, text], more = '') {
  const headline = document.createElement('strong'), rest = document.createElement('span');
  headline.className = kind;
  headline.textContent = text;
  rest.textContent = more;
  $('status').replaceChildren(headline, rest);
}

function clear() {
  for (const id of PARTS) $(id).hidden = true;
  $('status').replaceChildren();
  const isMarked = meeting !== null || session !== null;
  [listing, charted, weighed, staged, session] = [null, null, null, null, null];
  if (!isMarked) return;
  meeting = null;
  lookOver();
}

// Shows a text, or hides its part if there is none.
function put(part, id, text, length = text.length) {
  $(part).hidden = text === '';
  $(id).textContent = text.slice(0, SHOWN);
  if (Math.max(text.length, length) <= SHOWN) return;
  const cut = Object.assign(document.createElement('span'), { className: 'cut' });
  const shown = counted(Math.min(text.length, SHOWN), 'character');
  cut.textContent = `\nThe first ${shown} of ${length.toLocaleString('en')}.`;
  $(id).append(cut);
}

const took = (milliseconds) => `${milliseconds < 10 ? milliseconds.toFixed(1) : Math.round(milliseconds)} ms`;

function showRun(answer, request, output, errors) {
  const asks = errors.startsWith('CHOICE WANTED');
  const run = request.isOfTree ? `run ${request.choices}, ` : '';
  const more = `${run}status ${answer.status}, ${took(answer.milliseconds)}`;
  put('written', 'output', output, answer.written);
  put('said', 'errors', asks ? '' : errors);
  if (request.file === sourceOf(form())) markFailing(request, errors);
  $('question').hidden = !asks;
  $('back').hidden = request.choices === '';
  if (asks) {
    say(['wait', 'The run asks for a choice'], `choices so far: ${request.choices || 'none'}, ${more}`);
    if (!$('question').contains(document.activeElement)) $('question').querySelector('button').focus();
  } else {
    say(answer.status === 0 && request.job === 'run' ? GAVE_UP : HEADLINES[answer.status], more);
  }
}

function showListing(answer, request, output, errors, askers) {
  const { runs, isWhole } = readListing(output);
  runs.forEach((run, at) => Object.assign(run, { askers: askers[at] }));
  const { runs: before, tree } = request.from === undefined ? { runs: [], tree: new Joining() } : listing;
  addRuns(tree, runs);
  listing = { request, runs: before.concat(runs), isWhole, tree };
  const found = listing.runs.length;
  const ended = listing.runs.filter((run) => !isOpen(run)), open = found - ended.length;
  const outcomes = new Set(ended.map(({ end, quoted }) => `${end} ${quoted}`)).size;
  const all = isWhole ? `${counted(found, 'run')}, and no other` : `The first ${counted(found, 'run')}`;
  const cut = answer.written > MOST ? 'cut at 4 MiB, and “Further runs” goes on, ' : '';
  const more = `${cut}${counted(outcomes, 'outcome')}, status ${answer.status}, ${took(answer.milliseconds)}`;
  if (answer.status !== 0) say(HEADLINES[answer.status], more);
  else if (open === 0) say(['ok', all], more);
  else say(['wait', `${counted(open, 'run')} reach${open === 1 ? 'es' : ''} the limit`], `${all}, ${more}`);
  put('listed', 'listing', textOfListing());
  put('said', 'errors', errors);
  if (request.file === sourceOf(form())) markFailing(request, errors);
  $('more').hidden = isWhole || found === 0;
  drawTree();
}

const textOfListing = () =>
  [...listing.runs.map(({ line }) => line), listing.isWhole ? 'DONE' : 'MORE'].map((line) => `${line}\n`).join('');

// Says first what has no end. That is no outcome.
function showOutcomes(answer, request, output, errors) {
  const { lines, open, outcomes, isWhole } = readOutcomes(output);
  weighed = { request, lines, open, outcomes, isWhole, shown: BARS, text: output };
  const more = `status ${answer.status}, ${took(answer.milliseconds)}`;
  const all = counted(outcomes.length, 'outcome'), rest = isWhole ? ', and no other' : ' and more';
  if (answer.status !== 0) say(HEADLINES[answer.status], more);
  else if (open.length === 0) say(['ok', all + rest], more);
  else say(['wait', openOf(open)], `${outcomes.length ? `${all} within it${rest}` : 'no outcome within it'}, ${more}`);
  drawBars();
  put('said', 'errors', errors);
  if (request.file === sourceOf(form())) markFailing(request, errors);
}

// Draws the lines without an end, and then the outcomes: so many as are to be shown, in the order that is asked for.
function drawBars() {
  const { open, outcomes, shown, isWhole } = weighed;
  const isByWeight = $('by-weight').getAttribute('aria-pressed') === 'true';
  const greatest = outcomes.reduce((most, { share }) => Math.max(most, share), 0);
  const first = sorted(outcomes, isByWeight).slice(0, shown);
  $('weighed').hidden = open.length + outcomes.length === 0;
  $('bars').replaceChildren(...[...open, ...first].map((line) => outcomeItem(line, greatest)));
  const left = outcomes.length - first.length;
  $('further').textContent = isWhole ? '' : 'The outcomes are cut at 32 MiB.';
  $('more-bars').hidden = left === 0;
  $('more-bars').textContent = `Further outcomes: ${left.toLocaleString('en')} more`;
}

// Shows the states in which choices are asked, and where they lead.
function showStates(answer, request, output, errors) {
  const more = `status ${answer.status}, ${took(answer.milliseconds)}`;
  put('said', 'errors', errors);
  if (request.file === sourceOf(form())) markFailing(request, errors);
  if (answer.status !== 0) return say(HEADLINES[answer.status], more);
  const { states, isWhole } = readStates(output);
  if (!isWhole) return say(['bad', 'The states have more than 32 MiB'], more);
  const asking = states.filter(({ kind }) => kind !== 'end').length;
  const never = states.reduce((sum, { kind, weight }) => sum + (kind === 'never' ? shareOf(weight) : 0), 0);
  charted = { request, text: output };
  $('charted').hidden = false;
  statesView.show(states);
  const all = `${counted(states.length, 'state')}, ${asking} of them go${asking === 1 ? 'es' : ''} on`;
  return never > 0 ? say(['wait', `${percentOf(String(never))} never ends`], `${all}, ${more}`) : say(['ok', all], more);
}

// Marks the line of the statement of a state that is pointed at.
function followState(number) {
  if (charted === null) return;
  const { file, read } = charted.request, statement = number && read[number - 1], before = meeting;
  const line = statement && lineOf(statement);
  const isThere = statement && file === sourceOf(form()) && line <= $('source').value.split('\n').length;
  meeting = isThere ? { line, number, said: 'asks in this state' } : null;
  if (meeting?.number === before?.number) return;
  mark();
  if (meeting) editor.reveal(line);
}

// Shows where a session is after its last command, with what the command changed in the state.
function showSession(answer, request, errors) {
  const before = request.session ?? { printed: 0, asks: false, state: '' };
  put('said', 'errors', errors);
  const more = `status ${answer.status}, ${took(answer.milliseconds)}`;
  if (answer.status !== 0 || answer.written > MOST) {
    if (request.file === sourceOf(form())) markFailing(request, errors);
    return say(answer.status === 0 ? ['bad', 'The session printed more than 4 MiB'] : HEADLINES[answer.status], more);
  }
  const found = readSession(answer.output, before.printed);
  const end = /^ended: (.)/m.exec(found.state), around = end ? found.around.replace(/^>/m, ' ') : found.around;
  const met = metIn(around), asks = asksBehind(found.answer, before.asks);
  session = { request, asks, state: found.state, printed: found.printed };
  const known = new Set(before.state.split('\n'));
  $('told').textContent = found.answer;
  $('around').replaceChildren(...linesOfText(around, (line) => line.startsWith('>')));
  $('state').replaceChildren(...linesOfText(found.state, (line) => before.state !== '' && !known.has(line)));
  $('stepped').hidden = false;
  put('written', 'output', found.output);
  const focused = document.activeElement, isDecided = $('question').contains(focused) && !asks;
  $('question').hidden = !asks;
  $('back').hidden = true;
  const next = asks ? $('question').querySelector('button') : $('stepped').querySelector('[data-step=step]');
  if (isDecided || focused?.matches('[data-job=step]')) next.focus({ preventScroll: true });
  meeting = met && request.file === sourceOf(form()) ? { ...met, said: 'is met next' } : null;
  lookOver();
  if (meeting) editor.reveal(meeting.line);
  if (end) return say(end[1] === 'G' ? GAVE_UP : HEADLINES[1], more);
  return say(asks ? ['wait', 'The run asks for a choice'] : ['ok', `Statement ${met?.number} is met next`], more);
}

function drawTree() {
  const { runs, isWhole, tree } = listing;
  $('drawn').hidden = runs.length === 0 || runs[0].choices === '-';
  if ($('drawn').hidden) return;
  const parts = drawnParts(tree.root(), DRAWN);
  const ends = parts.filter((part) => part.end).length, isCut = parts.some((part) => part.isCut);
  $('parts').textContent = `Ends: ${ends}. Equal parts of the tree are drawn once.`
    + (isCut ? ` A part with “…” says what lies behind it: the drawing has at most ${DRAWN} parts.` : '')
    + (isWhole ? '' : ' “…” alone is not listed yet.');
  const svg = new Drawing(parts).svg();
  const [width, height] = ['width', 'height'].map((name) => Number(svg.getAttribute(name)));
  $('tree').replaceChildren(svg);
  $('tree').classList.toggle('narrowed', $('tree').clientWidth >= NARROWEST * width);
  svg.style.maxWidth = `${width}px`;
  $('tree').querySelector('.leaf')?.setAttribute('tabindex', '0');
  $('tree').scrollTo(0, parts.at(-1).y * svg.clientHeight / height - $('tree').clientHeight / 2);
}

// Shows the whole tree in its frame, or each part in its full size.
function fit() {
  const isFitted = $('fit').getAttribute('aria-pressed') !== 'true';
  $('fit').setAttribute('aria-pressed', isFitted);
  $('tree').classList.toggle('fitted', isFitted);
}

// Scrolls so that an element is in the upper part of the window.
function reveal(element) {
  const { top } = element.getBoundingClientRect();
  if (top < 0 || top > innerHeight * .6) element.scrollIntoView({ block: 'start' });
}

// Gives the focus to the answer's head if the button that had it is gone.
function keepFocus() {
  const focused = document.activeElement;
  if (focused === document.body || focused.getClientRects().length === 0) $('status').focus();
}

function show(answer, request, askers) {
  const [output, errors] = [answer.output, answer.errors].map((bytes) => new TextDecoder().decode(bytes));
  const isOfTree = request.job === 'run' && request.isOfTree;
  if (!isOfTree && request.from === undefined && !request.session && !request.staged) clear();
  if (request.job === 'runs') showListing(answer, request, output, errors, askers);
  else if (request.job === 'outcomes') showOutcomes(answer, request, output, errors);
  else if (request.job === 'states') showStates(answer, request, output, errors);
  else if (request.job === 'step') showSession(answer, request, errors);
  else if (request.job === 'stages') showStages(answer, request, output, errors);
  else showRun(answer, request, output, errors);
  const isFirst = request.isFirst && request.job === 'runs' && request.from === undefined;
  if (isOfTree) $(output ? 'written' : 'said').scrollIntoView({ block: 'nearest' });
  else if (request.from === undefined && !request.session && !request.staged && !isFirst) reveal($('status'));
  if (!isFirst) keepFocus();
}

/* Jobs */

function argumentsOf({ job, choices, seed, limit, count, from, statement }) {
  const options = { run: { choices, seed, limit }, runs: { from, count, limit }, outcomes: limit ? { limit } : SEARCH,
    asked: { limit, asked: 'listing' }, states: SEARCH,
    step: { input: 'input', choices, seed, limit }, stages: { statement },
  }[job] ?? {};
  const given = Object.entries(options).filter(([, value]) => value).map(([name, value]) => `--${name}=${value}`);
  return [...(['run', 'runs', 'list', 'check'].includes(job) ? [job] : []), ...job === 'states' ? ['--states'] : [],
    ...given, 'program.i'];
}

// Tells whether a job is one of `ick-outcomes`.
const isOfOutcomes = (job) => ['outcomes', 'states', 'asked'].includes(job);

// Makes the call of a job, with the bytes of a listing.
function callFor(request, lines = new Uint8Array()) {
  return engine.call({
    argv: argvOf(argumentsOf(request)), file: bytesOf(request.file), input: bytesOf(request.input),
    most: ['outcomes', 'states'].includes(request.job) ? MOST_OUTCOMES : MOST,
    listing: isOfOutcomes(request.job) ? lines : null,
    commands: request.job === 'step' ? bytesOf(linesOf(request.commands)) : null, stages: request.job === 'stages',
  });
}

// Returns what the choices of listed runs were asked by: nothing if the runs are too many or the call fails, and null if
// it is stopped.
async function askersOf(answer, request) {
  if (request.job !== 'runs' || answer?.status !== 0) return [];
  const { runs } = readListing(new TextDecoder().decode(answer.output));
  if (runs.length + (request.from === undefined ? 0 : listing.runs.length) > ASKED) return [];
  const asked = await callFor({ ...request, job: 'asked' }, bytesOf(runs.map(({ line }) => `${line}\n`).join('')));
  if (asked === null) return null;
  return asked.status === 0 ? readAskers(new TextDecoder().decode(asked.output)) : [];
}

function setBusy(busy) {
  isBusy = busy;
  $('answer').setAttribute('aria-busy', busy);
  for (const button of document.querySelectorAll('[data-job], [data-step], [data-choice], #back, #more')) {
    button.setAttribute('aria-disabled', busy || engine === null);
  }
  $('stop').setAttribute('aria-disabled', !busy);
}

// Shows how long a call takes, while it does. A screen reader reads the headline once, and not the time.
function showTime() {
  const began = performance.now(), time = Object.assign(document.createElement('span'), { ariaHidden: true });
  return setInterval(() => {
    const seconds = (performance.now() - began) / 1000;
    time.textContent = `${seconds < 10 ? seconds.toFixed(1) : Math.round(seconds)} s`;
    if (time.isConnected) return;
    say(['wait', 'Running …'], 'Stop or Escape ends it');
    $('status').append(time);
  }, LATE);
}

// Tells whether outcomes without a limit have too many states, or states that take too much memory. Then they are shown
// as far as runs of 10,000 steps go.
function isUnfinished(answer, { job, limit }) {
  if (job !== 'outcomes' || limit || answer?.status !== 4) return false;
  return /TRY --limit|OUT OF MEMORY/.test(new TextDecoder().decode(answer.errors));
}

// Makes one call and shows its answer. A call that takes long says so.
async function ask(request) {
  if (isBusy || engine === null) return;
  setBusy(true);
  const clock = showTime();
  let answer = await callFor(request);
  if (isUnfinished(answer, request)) {
    request = { ...request, limit: LIMIT_OF_RUNS };
    answer = await callFor(request);
  }
  const askers = await askersOf(answer, request), read = await readFor(answer, request);
  clearInterval(clock);
  setBusy(false);
  if (answer?.failed) {
    clear();
    say(['bad', 'The module stopped'], answer.failed);
  } else if (answer && askers) {
    show(answer, { ...request, read }, askers);
  }
}

// Returns the statements of a program, if what is shown of an answer names some of them by number.
async function readFor(answer, { job, file, read = [] }) {
  if (read.length > 0 || (!['step', 'states'].includes(job) && !answer?.errors?.length)) return read;
  return reading.statementsOf(file);
}

function askForm(job, how = {}) {
  const fields = { ...form(), ...how };
  for (const name of ['choices', 'seed', 'limit', 'count']) fields[name] = fields[name].trim();
  return ask({ ...fields, job, file: sourceOf(fields), commands: [] });
}

// Gives the session that is shown one more command.
function command(line) {
  const { request } = session;
  return ask({ ...request, session, commands: [...request.commands, line] });
}

// Gives the command of a button, with the name that it needs.
function commandOf({ dataset: { step } }) {
  const name = $('watched').value.trim();
  return command(step === 'why' || step === 'watch' ? `${step} ${name}` : step);
}

// Answers the question, for the session that is shown or for a run from its beginning.
function decide(choice) {
  if (session) return command(`choose ${choice}`);
  return goOn(withChoice($('choices').value.trim(), choice));
}

function goOn(choices) {
  $('choices').value = choices;
  return askForm('run');
}

// Runs an end of the tree again, or the first run of an outcome: the listed program, with the limit of the listing.
function runAgain(place, request) {
  const { choices } = place.dataset;
  for (const other of $('answer').querySelectorAll('[aria-current]')) other.removeAttribute('aria-current');
  place.setAttribute('aria-current', 'true');
  $('choices').value = choices;
  $('seed').value = '';
  return ask({ ...request, job: 'run', choices, seed: '', limit: request.limit || LIMIT_OF_RUNS, isOfTree: true });
}

function stop() {
  if (!isBusy) return;
  engine.stop();
  clear();
  say(['wait', 'Stopped'], 'nothing of the run is kept');
}

// Puts the form into the page's address, and the address on the clipboard if the browser allows it.
async function copyLink() {
  history.replaceState(null, '', await fragmentOf(form()));
  store();
  try {
    await navigator.clipboard.writeText(location.href);
    say(['ok', 'The link is copied'], 'it holds the program, its input and the options');
  } catch {
    say(['ok', 'The link is in the address bar'], 'it holds the program, its input and the options');
  }
}

async function followLink() {
  try {
    const fields = await formOf(location.hash);
    if (fields === null) return false;
    replace(fields);
    $('example').value = '';
  } catch {
    say(['bad', 'The link can’t be read'], 'it was cut off or changed');
  }
  return true;
}

/* Keys and clicks */

const inSession = (line) => () => session && command(line);
const lineOfCursor = () => $('source').value.slice(0, $('source').selectionStart).split('\n').length;
const answerBy = (choice) => () => !$('question').hidden && decide(choice);

const keys = new Keys([
  [['Ctrl Enter'], 'Run the program', () => askForm('run')],
  [['F8'], 'Begin to step, or make a step', () => (session ? command('step') : askForm('step'))],
  [['s'], 'Make a step', inSession('step')],
  [['b', 'Shift F8'], 'Take a step back', inSession('back')],
  [['n'], 'Make a step, and if it is a NEXT, all until it comes back', inSession('next')],
  [['o'], 'Make steps until the newest return address was removed', inSession('out')],
  [['t'], 'Set a breakpoint on the line of the editor’s cursor, or delete it',
    () => toggleBreakpoint(lineOfCursor())],
  [['r', 'F9'], 'Run on until a choice, a breakpoint, the end or the limit', inSession('run')],
  [['0'], 'Answer a question: pass over the statement', answerBy('0')],
  [['1'], 'Answer a question: do the statement', answerBy('1')],
  [['Escape'], 'Stop what runs', stop],
  [['?'], 'Show these keys', help],
]);

function help() {
  $('keys-table').replaceChildren(...keys.table());
  $('help').showModal();
}

// Moves the focus among the ends of the tree, of which one is in the tab order.
function moveInTree(event) {
  const leaves = [...$('tree').querySelectorAll('.leaf')], at = leaves.indexOf(document.activeElement);
  if (event.key === 'Enter' || event.key === ' ') {
    event.preventDefault();
    if (at >= 0) runAgain(leaves[at], listing.request);
    return;
  }
  const steps = { ArrowDown: 1, ArrowRight: 1, ArrowUp: -1, ArrowLeft: -1, Home: -at, End: leaves.length - 1 - at };
  const leaf = leaves[at + steps[event.key]];
  if (leaf === undefined) return;
  event.preventDefault();
  for (const other of leaves) other.setAttribute('tabindex', other === leaf ? 0 : -1);
  leaf.focus();
}

function listen() {
  $('form').onsubmit = (event) => {
    event.preventDefault();
    askForm('run');
  };
  $('form').onkeydown = (event) => {
    const isShort = event.ctrlKey || event.metaKey;
    if (event.key !== 'z' || !isShort || kept === null || JSON.stringify(form()) !== filled) return;
    event.preventDefault();
    undo();
  };
  $('form').oninput = changed;
  $('source').onclick = showClicked;
  $('numbers').onclick = ({ clientY }) => toggleBreakpoint(editor.lineAt(clientY));
  document.onkeydown = (event) => {
    if (!$('help').open) keys.press(event);
  };
  $('keys-button').onclick = help;
  $('help').onclick = ({ target }) => {
    if (target === $('help')) $('help').close();
  };
  for (const button of document.querySelectorAll('[type=button][data-job]')) {
    button.onclick = () => (button.dataset.job === 'stages' ? askStages() : askForm(button.dataset.job));
  }
  for (const button of document.querySelectorAll('[data-choice]')) {
    button.onclick = () => decide(button.dataset.choice);
  }
  for (const button of document.querySelectorAll('[data-step]')) button.onclick = () => commandOf(button);
  $('back').onclick = () => goOn(withoutLast($('choices').value.trim()));
  $('more').onclick = () => ask({ ...listing.request, from: listing.runs.at(-1).choices });
  $('stop').onclick = stop;
  $('undo').onclick = undo;
  $('fit').onclick = fit;
  $('by-weight').onclick = () => {
    $('by-weight').setAttribute('aria-pressed', $('by-weight').getAttribute('aria-pressed') !== 'true');
    drawBars();
  };
  $('more-bars').onclick = () => {
    const { length } = $('bars').children;
    weighed.shown += BARS;
    drawBars();
    $('bars').children[length]?.firstChild.focus();
  };
  $('open').onclick = () => $('file').click();
  $('file').onchange = async () => {
    await openFile($('file').files[0]);
    $('file').value = '';
  };
  $('save').onclick = () => saveFile(nameOfProgram(), 'i', $('source').value);
  for (const button of document.querySelectorAll('[data-save]')) button.onclick = () => saveAnswer(button);
  $('link').onclick = copyLink;
  $('example').onchange = () => choose($('example').value);
  $('tree').onkeydown = moveInTree;
  $('tree').onclick = ({ target }) => {
    const leaf = target.closest('.leaf');
    if (leaf) runAgain(leaf, listing.request);
  };
  $('bars').onclick = ({ target }) => {
    const outcome = target.closest('.outcome');
    if (outcome) runAgain(outcome, weighed.request);
  };
  $('staged').onclick = ({ target }) => {
    const button = target.closest('[data-statement]');
    if (button) goToStatement(button.dataset.statement);
  };
  $('chooser').onkeydown = (event) => {
    const next = nextPlace(event.key, staged.statement.number - 1, staged.request.statements);
    if (next === null) return;
    event.preventDefault();
    showStatement(next + 1);
  };
  $('statement').onchange = () => goToStatement($('statement').value);
  document.querySelector('.skip').onclick = (event) => {
    event.preventDefault();
    $('status').focus();
  };
  onhashchange = followLink;
}

async function begin() {
  makeForm();
  filled = JSON.stringify(form());
  listen();
  if (canRun()) {
    engine = new Engine($('worker').textContent, $('module').textContent);
    reading.engine = engine.another();
  } else {
    $('notice').hidden = false;
    $('notice').textContent = UNABLE;
  }
  setBusy(false);
  if (!restore() && !await followLink()) choose($('example').value = FIRST);
  // The page opens with the tree of its first example.
  if ($('example').value === FIRST && JSON.stringify(form()) === filled) await askForm('runs', { isFirst: true });
  $('made').textContent = made;
}

begin();
