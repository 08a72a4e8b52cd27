// Programs as `ick-stages --parts` reads them, by a worker of their own, beside the page's calls.
'use strict';

const MOST_LINES = (1 << 25) - 16; // bytes of lines that are taken: with its header, a block of heap.c
const READ = 4; // programs whose lines are kept

class Reading {
  // `engine` makes no other calls. It is null in a browser that can't run the module: nothing is read there.
  constructor() {
    Object.assign(this, { engine: null, kept: new Map(), last: null });
  }

  // Returns the lines of a program: none if the call fails.
  linesOf(source) {
    if (!this.kept.has(source)) {
      const before = this.last;
      this.last = (async () => {
        await before;
        return this.call(source);
      })();
      this.kept.set(source, this.last);
      if (this.kept.size > READ) this.kept.delete(this.kept.keys().next().value);
    }
    return this.kept.get(source);
  }

  async call(source) {
    const argv = argvOf(['--parts', 'program.i']), [file, input] = [source, ''].map(bytesOf);
    const answer = await this.engine?.call({ argv, file, input, most: MOST_LINES, stages: true });
    return new TextDecoder('latin1').decode(answer?.output ?? new Uint8Array());
  }

  async statementsOf(source) {
    return readSource(source, await this.linesOf(source)).statements;
  }
}
