// The advice on a program, which is found beside the page, so that no key waits for it.
'use strict';

const ADVISING = `
  let advice;
  onmessage = ({ data: { tables, source, lines } }) => {
    if (tables) advice = new Advice(tables);
    else postMessage({ source, found: advice.of(source, lines) });
  };`;

class Adviser {
  // The texts of the scripts that find advice, their tables, what reads programs, and what is called with a source and
  // what was found in it.
  constructor(scripts, tables, reading, tell) {
    Object.assign(this, { reading, tell, waiting: null, isBusy: false });
    const text = [...scripts, ADVISING].join('\n');
    this.worker = new Worker(URL.createObjectURL(new Blob([text], { type: 'text/javascript' })));
    this.worker.onmessage = ({ data: { source, found } }) => this.answer(source, found);
    this.worker.onerror = () => this.answer(this.waiting, []);
    this.worker.postMessage({ tables });
  }

  // Has a source looked over. Of several that wait only the last one is.
  async look(source) {
    this.waiting = source;
    if (this.isBusy) return;
    this.isBusy = true;
    this.worker.postMessage({ source, lines: await this.reading.linesOf(source) });
  }

  answer(source, found) {
    this.isBusy = false;
    if (this.waiting === source) this.tell(source, found);
    else this.look(this.waiting);
  }
}
