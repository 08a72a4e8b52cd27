// The statements whose stages are shown: what is asked for, their list, and the one that is shown. The editor's mark
// follows it.
'use strict';

const AT_ONCE = 400; // statements whose stages are asked for at once; of larger programs one by one
const LISTED = 200; // letters of each statement in their list

let staged = null; // what was asked for the stages that are shown, and the statements that are known

// Asks for the stages: of all statements, or of one if they are many.
async function askStages() {
  if (isBusy || engine === null) return;
  setBusy(true);
  const read = await reading.statementsOf(sourceOf(form())), statements = read.length;
  setBusy(false);
  const shown = Math.min(staged?.statement?.number ?? 1, statements || 1);
  await askForm('stages', { read, statements, shown, statement: statements > AT_ONCE ? shown : '' });
}

// Shows the stages of one statement. All statements are listed if all are known.
function showStages(answer, request, output, errors) {
  const more = `status ${answer.status}, ${took(answer.milliseconds)}`;
  put('said', 'errors', errors);
  if (request.file === sourceOf(form())) markFailing(request, errors);
  if (answer.status !== 0) return say(HEADLINES[answer.status], more);
  if (answer.written > MOST && !request.statement) return ask({ ...request, statement: request.shown });
  const statements = readStages(output), isSingle = Boolean(request.statement);
  staged = { request, statements, text: output, isCut: answer.written > MOST };
  $('staged').hidden = statements.length === 0;
  $('single').hidden = !isSingle;
  $('of-statements').textContent = `of ${request.statements.toLocaleString('en')}`;
  $('chooser').hidden = isSingle;
  $('chooser').replaceChildren(...isSingle ? [] : statements.map(statementItem));
  const made = ['operation', 'instruction'].map((name) => counted(countOf(statements, `${name}s`), name)).join(', ');
  say(['ok', counted(request.statements, 'statement')], isSingle ? more : `${made}, ${more}`);
  if (statements.length) showStatement(Math.min(request.shown, statements.at(-1).number));
}

function statementItem({ number, letters, operations, instructions }) {
  const text = textOfLetters(letters.slice(0, LISTED)).replace(/\s+/g, ' ');
  const button = element('button', { type: 'button', className: 'plain', tabIndex: -1 },
    element('b', { textContent: number }), element('code', { textContent: text }),
    element('span', { className: 'many', textContent: `${operations.length} → ${instructions.length}` }));
  button.dataset.statement = number;
  return element('li', {}, button);
}

// Shows a statement that is known, or asks for it.
function showStatement(number) {
  const { request, statements } = staged, statement = statements.find((it) => it.number === number);
  if (!statement) return ask({ ...request, staged, statement: number, shown: number });
  Object.assign(staged, { statement });
  request.shown = number;
  for (const button of $('chooser').querySelectorAll('button')) {
    button.setAttribute('aria-current', button.dataset.statement === String(number));
  }
  $('chooser').querySelector('[aria-current=true]')?.scrollIntoView({ block: 'nearest' });
  $('statement').value = number;
  $('stages').hidden = staged.isCut;
  if (staged.isCut) {
    $('sum').textContent = `Statement ${number} has more than 4 MiB of lines`;
    return follow(null);
  }
  const { line, operations, instructions, dropped } = statement;
  const folded = operations.filter((it) => fateOf(statement, it.number) === 'folded').length;
  const counts = [counted(operations.length, 'operation'), counted(instructions.length, 'instruction'),
    ...folded ? [`${folded} folded`] : [], ...dropped.size ? [`${dropped.size} dropped`] : []];
  $('sum').textContent = `Statement ${number}, line ${line}: ${counts.join(', ')}`;
  return stagesView.show(statement, statements, advisedOn(statement));
}

// Goes to another statement: by its number, or one on or back.
function goToStatement(which) {
  const last = staged.request.statements, now = staged.statement.number;
  const number = { '+': now + 1, '-': now - 1 }[which] ?? Number(which);
  if (Number.isInteger(number)) showStatement(Math.min(Math.max(number, 1), last));
}

// Shows the statement that was clicked at in the editor, if stages of the program are shown.
function showClicked() {
  if (!staged?.statement || staged.request.file !== sourceOf(form())) return;
  const at = $('source').selectionStart, number = staged.request.read.filter(({ start }) => start <= at).length;
  if (number && number !== staged.statement.number) showStatement(number);
}

// Returns the advice on a statement.
function advisedOn({ number, kind }) {
  const { file, read } = staged.request;
  if (kind !== 'UNRECOGNISED' || advised.source !== file) return [];
  const { start, end } = read[number - 1];
  return advised.found.filter(({ at }) => at >= start && at < end).map(({ text }) => text);
}

// Marks the line of the statement whose stages are shown, or that of a part of it.
function follow(place) {
  const { request, statement } = staged, before = meeting, most = $('source').value.split('\n').length;
  const line = statement.line + statement.letters.slice(0, place?.from ?? 0).split('\n').length - 1;
  const isThere = line <= most && request.file === sourceOf(form());
  meeting = isThere ? { line, number: statement.number, said: 'is shown in its stages' } : null;
  if (meeting?.line === before?.line && meeting?.number === before?.number) return;
  mark();
  if (meeting) editor.reveal(line);
}
